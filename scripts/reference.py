#!/usr/bin/env python3
"""Document 01, and form 2, the packed logs, the covering test, the withdrawn checkpoints, the unit tables and the interval logs of
document 02, written in Python from the definitions. The expected output of the stored cases comes from here.

    scripts/reference.py --check    the values T1 to T10, and on random small logs the definitions against brute force, the
                                    floor that covering sets give the starts (document 02, note 4), logs with withdrawn
                                    checkpoints (note 6) against the same logs without these records, plans with several
                                    unit tables (note 7) against every rival, and the least closed cuts of interval logs
                                    (note 9) against the lower cuts

An event is named by its worker and its index, (w, x). Interval k of a worker is its state after k of its receives. A cut, an
interval cut, a choice's starts and positions are lists of one number for each worker.
"""

import functools
import itertools
import random
import struct
import sys
from collections import Counter, namedtuple

import logs

SEND, UNLOGGED, LOGGED = 1, 2, 3

# The forms of a log. In the first a send may be received twice, and an identifier word is the identifier. In the second a send is
# received at most once, and the top bit of an identifier word, MARK, marks a withdrawn checkpoint.
FIRST_FORM, SECOND_FORM = FORMS = (1, 2)
MARK = 2 ** 31

# The form of an interval log. No call accepts it.
INTERVAL_FORM = 3

# The largest worker count of a log, and its most bytes.
MAX_WORKERS = 64
MAX_BYTES = 4194304

# Units of an event by role, for kinds 1, 2 and 3; and the same as a unit table of 12 words, role by role.
UNITS = {0: (2, 3, 5), 1: (2, 4, 6), 2: (3, 8, 9), 3: (2, 5, 7)}
BUILT_IN = [2, 3, 5, 2, 4, 6, 3, 8, 9, 2, 5, 7]

Event = namedtuple("Event", "kind peer send stamp")
Checkpoint = namedtuple("Checkpoint", "index identifier withdrawn")


class Refused(Exception):
    def __init__(self, number):
        self.number = number


def refuse_if(condition, number):
    if condition:
        raise Refused(number)


class Log:
    """An accepted log. events[w] has the events of w in record order, checkpoints[w] its recorded checkpoints."""

    def __init__(self, form, roles, events, checkpoints):
        self.form = form
        self.n = len(roles)
        self.roles = roles
        self.events = events
        self.checkpoints = checkpoints

    def count(self, w):
        return len(self.events[w])

    def event(self, w, x):
        return self.events[w][x - 1]

    def every_event(self):
        return [(w, x) for w in range(self.n) for x in range(1, self.count(w) + 1)]


def is_receive(event):
    return event.kind in (UNLOGGED, LOGGED)


# ---- The log, and refusals 1 to 11 and 24


def read_anew(data):
    """The log of these bytes, or Refused."""
    refuse_if(not 8 <= len(data) <= MAX_BYTES, 1)
    form, n, length = struct.unpack_from("<HHI", data)
    refuse_if(form not in FORMS, 2)
    refuse_if(not 1 <= n <= MAX_WORKERS, 3)
    header = 8 + 20 * n
    refuse_if(length != len(data) or header > len(data), 4)

    entries = [struct.unpack_from("<5I", data, 8 + 20 * w) for w in range(n)]
    for event_count, _, checkpoint_count, _, role in entries:
        refuse_if(event_count > 65535 or checkpoint_count > 1024 or role > 3, 5)
    for event_count, event_offset, checkpoint_count, checkpoint_offset, _ in entries:
        for start, size in ((event_offset, 12 * event_count), (checkpoint_offset, 8 * checkpoint_count)):
            refuse_if(start < header or start + size > len(data), 6)

    events = [read_events(data, entry) for entry in entries]
    for number, is_fault in ((7, record_fault), (8, stamp_fault), (9, source_fault), (10, order_fault)):
        for w in range(n):
            for x in range(1, len(events[w]) + 1):
                refuse_if(is_fault(events, w, x), number)
    checkpoints = [read_checkpoints(data, form, entry) for entry in entries]
    for w in range(n):
        for c in range(len(checkpoints[w])):
            refuse_if(checkpoint_fault(events, checkpoints, w, c), 11)
    refuse_if(form == SECOND_FORM and has_repeat(events), 24)

    roles = [entry[4] for entry in entries]
    events = [[Event(kind, peer, send, stamp) for kind, peer, spare, send, stamp in section] for section in events]
    return Log(form, roles, events, checkpoints)


def read_events(data, entry):
    return [struct.unpack_from("<BBHII", data, entry[1] + 12 * k) for k in range(entry[0])]


def read_checkpoints(data, form, entry):
    return [checkpoint_of(form, *struct.unpack_from("<II", data, entry[3] + 8 * c)) for c in range(entry[2])]


def checkpoint_of(form, index, word):
    """In form 2 the top bit of the identifier word is the mark of a withdrawn checkpoint and the low 31 bits are the identifier; in
    form 1 the word is the identifier."""
    if form == SECOND_FORM:
        return Checkpoint(index, word % MARK, word >= MARK)
    return Checkpoint(index, word, False)


def record_fault(events, w, x):
    """7: kind, spare or peer event not as defined; peer is itself or not below n; a receive's peer event out of range."""
    kind, peer, spare, send, _ = events[w][x - 1]
    if kind not in (SEND, UNLOGGED, LOGGED) or spare != 0:
        return True
    if peer == w or peer >= len(events):
        return True
    if kind == SEND:
        return send != 0
    return not 1 <= send <= len(events[peer])


def stamp_fault(events, w, x):
    """8: stamp 0, or not above the worker's previous one."""
    stamp = events[w][x - 1][4]
    return stamp == 0 or (x > 1 and stamp <= events[w][x - 2][4])


def source_fault(events, w, x):
    """9: a receive names an event that isn't a send to its worker."""
    kind, peer, _, send, _ = events[w][x - 1]
    return kind != SEND and events[peer][send - 1][:2] != (SEND, w)


def order_fault(events, w, x):
    """10: a receive's stamp not above its send's."""
    kind, peer, _, send, stamp = events[w][x - 1]
    return kind != SEND and stamp <= events[peer][send - 1][4]


def checkpoint_fault(events, checkpoints, w, c):
    """11: index over the event count or below the previous one; identifier, without the mark, 0 or not above the previous."""
    index, identifier, _ = checkpoints[w][c]
    if index > len(events[w]) or identifier == 0:
        return True
    if c == 0:
        return False
    before = checkpoints[w][c - 1]
    return index < before.index or identifier <= before.identifier


def has_repeat(events):
    """24, of a form 2 log: two receives of one send, so that fewer events are named than there are receives."""
    named = [(peer, send) for section in events for kind, peer, _, send, _ in section if kind != SEND]
    return len(set(named)) < len(named)


@functools.lru_cache(maxsize=None)
def read_once(data):
    """The log of these bytes and 0, or None and the number of its refusal. Each log is read one time."""
    try:
        return read_anew(data), 0
    except Refused as refused:
        return None, refused.number


def refusal(data):
    """Refusals 1 to 11 and 24 of a log; 0 where it is accepted."""
    return read_once(data)[1]


def read(data):
    """The log of these bytes, or Refused."""
    log, number = read_once(data)
    refuse_if(number != 0, number)
    return log


# ---- The packed log


def packed(log):
    """The bytes of a packed log: header, then each worker's events and after them its checkpoints, without gaps."""
    header = 8 + 20 * log.n
    entries = body = b""
    for role, events, checkpoints in zip(log.roles, log.events, log.checkpoints):
        event_offset = header + len(body)
        body += b"".join(struct.pack("<BBHII", event.kind, event.peer, 0, event.send, event.stamp) for event in events)
        checkpoint_offset = header + len(body)
        body += b"".join(struct.pack("<II", c.index, c.identifier + MARK * c.withdrawn) for c in checkpoints)
        entries += struct.pack("<5I", len(events), event_offset, len(checkpoints), checkpoint_offset, role)
    return struct.pack("<HHI", log.form, log.n, header + len(body)) + entries + body


# ---- The interval log


def intervals_of(log, w):
    """The interval of worker w after each of its events, from index 0 on: the receives among events 1..index."""
    return list(itertools.accumulate((int(is_receive(event)) for event in log.events[w]), initial=0))


def interval_log(log):
    """Only the receives, each with the number of receives in the sender before that send in place of the send, and the checkpoints
    that are not withdrawn, each with the receives up to it in place of its index."""
    after = [intervals_of(log, w) for w in range(log.n)]
    events = [
        [event._replace(send=after[event.peer][event.send - 1]) for event in section if is_receive(event)]
        for section in log.events
    ]
    checkpoints = [
        [c._replace(index=after[w][c.index]) for c in log.checkpoints[w] if not c.withdrawn] for w in range(log.n)
    ]
    return Log(INTERVAL_FORM, log.roles, events, checkpoints)


@functools.lru_cache(maxsize=None)
def interval_bytes(data):
    """The interval log of an accepted log, packed. Each is made one time."""
    return packed(interval_log(read(data)))


def is_crowded(log):
    """28: two recorded checkpoints, not withdrawn, of one worker fall into one interval."""
    for w in range(log.n):
        after = intervals_of(log, w)
        found = [after[c.index] for c in log.checkpoints[w] if not c.withdrawn]
        if len(set(found)) < len(found):
            return True
    return False


def named_intervals(data):
    """Of each worker of an interval log, given as its bytes, the peer and the interval that each receive names."""
    n, = struct.unpack_from("<H", data, 2)
    sections = [struct.unpack_from("<II", data, 8 + 20 * w) for w in range(n)]
    return [
        [struct.unpack_from("<xBxxI", data, offset + 12 * k) for k in range(count)] for count, offset in sections
    ]


def is_closed(data, cut):
    """Whether each receive within an interval cut names an interval within it."""
    return all(
        interval <= cut[peer] for w, named in enumerate(named_intervals(data)) for peer, interval in named[:cut[w]]
    )


def least_closed(data, i, m):
    """The least closed interval cut that holds interval m of worker i: what a receive within it names is added until nothing is."""
    named = named_intervals(data)
    cut = [0] * len(named)
    cut[i] = m
    before = None
    while cut != before:
        before = list(cut)
        for w in range(len(cut)):
            for peer, interval in named[w][:before[w]]:
                cut[peer] = max(cut[peer], interval)
    return cut


# ---- Happened before


def causes(log, w, x):
    """The events that are directly before (w, x): the worker's previous one, and the send that a receive names."""
    event = log.event(w, x)
    found = [(w, x - 1)] if x > 1 else []
    if is_receive(event):
        found.append((event.peer, event.send))
    return found


def reached(start, steps):
    """All that is reached from start by one or more steps."""
    found, left = set(), [start]
    while left:
        for event in steps(left.pop()):
            if event not in found:
                found.add(event)
                left.append(event)
    return found


def before(log, w, x):
    """The events that happened before (w, x)."""
    return reached((w, x), lambda event: causes(log, *event))


def after(log, w, x):
    """The events that (w, x) happened before."""
    effects = {event: [] for event in log.every_event()}
    for event in log.every_event():
        for cause in causes(log, *event):
            effects[cause].append(event)
    return reached((w, x), lambda event: effects[event])


# ---- Vector and cuts


def vector(log, i, e):
    """The dependency vector of event e of worker i."""
    components = [0] * log.n
    for event in log.events[i][:e]:
        if is_receive(event):
            components[event.peer] = max(components[event.peer], event.send)
    components[i] = e
    return components


def figure2(log, i, e):
    """The lower cut of event e of worker i, and the events visited, in order."""
    cut = [0] * log.n
    cut[i] = e
    visited = []

    def visit(j, x):
        visited.append((j, x))
        for k, component in enumerate(vector(log, j, x)):
            if component > cut[k]:
                cut[k] = component
                visit(k, component)

    visit(i, e)
    return cut, visited


def is_consistent(log, cut):
    """Whether the send of every receive within the cut is within it."""
    return all(
        event.send <= cut[event.peer]
        for w in range(log.n) for event in log.events[w][:cut[w]] if is_receive(event)
    )


def receives_within(log, cut):
    return sum(is_receive(event) for w in range(log.n) for event in log.events[w][:cut[w]])


def workers_word(cut):
    return sum(2 ** w for w in range(len(cut)) if cut[w] > 0)


def upper_line(log, i, e):
    """For each worker the events before the first one that (i, e) happened before; all its events if there is none."""
    later = after(log, i, e)
    return [min([x - 1 for v, x in later if v == w], default=log.count(w)) for w in range(log.n)]


# ---- Plan


def offered(log, w):
    """The checkpoints of a worker that may be chosen: the initial state and the recorded ones that are not withdrawn."""
    return [Checkpoint(0, 0, False)] + [c for c in log.checkpoints[w] if not c.withdrawn]


def latest_index(log, w, limit):
    """The largest index of a checkpoint that is at most the limit."""
    return max(c.index for c in offered(log, w) if c.index <= limit)


def latest_starts(log, cut):
    """The latest checkpoint of each worker within the cut."""
    return [latest_index(log, w, cut[w]) for w in range(log.n)]


def lost(log, cut, starts):
    """The kind 2 receives after their worker's start and within the cut whose send is not above the sender's start."""
    return [
        event
        for w in range(log.n) for event in log.events[w][starts[w]:cut[w]]
        if event.kind == UNLOGGED and event.send <= starts[event.peer]
    ]


def is_startable(log, cut, starts):
    return not lost(log, cut, starts)


def plan_starts(log, cut):
    """The startable choice with every start index the largest: the latest starts, lowered until they are startable."""
    starts = latest_starts(log, cut)
    while lost(log, cut, starts):
        for event in lost(log, cut, starts):
            if event.send <= starts[event.peer]:
                starts[event.peer] = latest_index(log, event.peer, event.send - 1)
    return starts


def identifier_of(log, w, index):
    """The identifier of the last checkpoint listed with that index and not withdrawn, else 0."""
    return ([0] + [c.identifier for c in log.checkpoints[w] if c.index == index and not c.withdrawn])[-1]


def plan_words(log, cut, starts):
    """Cut, start, identifier for each worker in order."""
    words = []
    for w in range(log.n):
        words += [cut[w], starts[w], identifier_of(log, w, starts[w])]
    return words


def events_of(cut, starts):
    return sum(cut) - sum(starts)


def by_role(table):
    """The words of a unit table by role, for kinds 1, 2 and 3."""
    first, second, third, fourth = zip(*[iter(table)] * 3)
    return {0: first, 1: second, 2: third, 3: fourth}


def units_of(log, table, cut, starts):
    units = by_role(table)
    return sum(
        units[log.roles[w]][event.kind - 1]
        for w in range(log.n) for event in log.events[w][starts[w]:cut[w]]
    )


def set_indices(log, identifier):
    """The index of each worker's checkpoint with the identifier, none of them withdrawn; fewer than n numbers where a worker lacks
    it."""
    return [c.index for w in range(log.n) for c in offered(log, w) if c.identifier == identifier]


def covers(log, identifier):
    """Whether the identifier covers: every worker has a checkpoint with it, none of them withdrawn, and every receive after its
    worker's checkpoint, of a send with index smaller than or equal to the sender's checkpoint index, is kind 3. For 0 the initial
    states are meant. In the paper, section 5.2, a send at the sender's checkpoint itself is not counted; here it is (document 02,
    note 3)."""
    index = set_indices(log, identifier)
    if len(index) < log.n:
        return False
    return all(
        event.kind == LOGGED
        for w in range(log.n) for event in log.events[w][index[w]:]
        if is_receive(event) and event.send <= index[event.peer]
    )


# ---- Replay machine


def step(log, cut, starts, positions, w):
    """The machine's answer to a step of worker w, and the positions after it."""
    if positions[w] == cut[w]:
        return 21, positions
    event = log.event(w, positions[w] + 1)
    if event.kind == UNLOGGED:
        if event.send > positions[event.peer]:
            return 22, positions
        if event.send <= starts[event.peer]:
            return 23, positions
    moved = list(positions)
    moved[w] += 1
    return 0, moved


def works(log, cut, starts):
    """Whether some list of steps brings every position to its cut: every list is tried."""
    seen, left = {tuple(starts)}, [tuple(starts)]
    while left:
        positions = left.pop()
        for w in range(log.n):
            moved = tuple(step(log, cut, starts, list(positions), w)[1])
            if moved not in seen:
                seen.add(moved)
                left.append(moved)
    return tuple(cut) in seen


# ---- The calls: what each returns, and the lent words after it


def onto(new, words):
    """The lent words after a success: the new ones, and past them as they were."""
    return list(new) + list(words[len(new):])


def write_log(content, out, written):
    """What a call that writes these bytes of a log gives, or Refused."""
    refuse_if(len(content) > MAX_BYTES, 26)
    refuse_if(len(out) < len(content), 25)
    refuse_if(len(written) < 1, 14)
    return 0, content + out[len(content):], onto([len(content)], written)


def pack_call(data, out, written):
    """Refusal, lent bytes, written."""
    try:
        return write_log(packed(read(data)), out, written)
    except Refused as refused:
        return refused.number, out, written


def intervals_call(data, out, written):
    """Refusal, lent bytes, written."""
    try:
        refuse_if(is_crowded(read(data)), 28)
        return write_log(interval_bytes(data), out, written)
    except Refused as refused:
        return refused.number, out, written


def check_breakpoint(log, worker, event):
    refuse_if(worker >= log.n, 12)
    refuse_if(not 1 <= event <= log.count(worker), 13)


def vector_call(data, worker, event, words):
    """Refusal, words."""
    try:
        log = read(data)
        check_breakpoint(log, worker, event)
        refuse_if(len(words) < log.n, 14)
    except Refused as refused:
        return refused.number, words
    return 0, onto(vector(log, worker, event), words)


def upper_line_call(data, worker, event, words):
    """Refusal, words."""
    try:
        log = read(data)
        check_breakpoint(log, worker, event)
        refuse_if(len(words) < log.n, 14)
    except Refused as refused:
        return refused.number, words
    return 0, onto(upper_line(log, worker, event), words)


def scratch_words(n):
    """The least scratch of a lower cut or a plan of n workers."""
    return 1 if n == 1 else 2 * n


def lower_cut_call(data, worker, event, words, scratch):
    """Refusal, visits, workers word, words. scratch is the number of scratch words."""
    try:
        log = read(data)
        check_breakpoint(log, worker, event)
        refuse_if(len(words) < log.n, 14)
        refuse_if(scratch < scratch_words(log.n), 15)
    except Refused as refused:
        return refused.number, 0, 0, words
    cut, visited = figure2(log, worker, event)
    return 0, len(visited), workers_word(cut), onto(cut, words)


def cut_test_call(data, words):
    """Refusal, yes or no."""
    try:
        log = read(data)
        refuse_if(len(words) < log.n, 14)
        refuse_if(any(words[w] > log.count(w) for w in range(log.n)), 16)
    except Refused as refused:
        return refused.number, False
    return 0, is_consistent(log, words[:log.n])


def load_table_call(table):
    """Refusal: 27 for other than 12 words, or a word outside 1 to 1,000."""
    return 0 if len(table) == 12 and all(1 <= word <= 1000 for word in table) else 27


def built_in_table_call(table):
    """Refusal, words."""
    return (14, table) if len(table) < 12 else (0, onto(BUILT_IN, table))


def plan_call(data, worker, event, table, words, scratch):
    """Refusal, visits, events, units, workers word, words. scratch is the number of scratch words."""
    try:
        log = read(data)
        check_breakpoint(log, worker, event)
        refuse_if(len(words) < 3 * log.n, 14)
        refuse_if(scratch < scratch_words(log.n), 15)
        refuse_if(load_table_call(table) != 0, 27)
    except Refused as refused:
        return refused.number, 0, 0, 0, 0, words
    cut, visited = figure2(log, worker, event)
    starts = plan_starts(log, cut)
    new = onto(plan_words(log, cut, starts), words)
    return 0, len(visited), events_of(cut, starts), units_of(log, table, cut, starts), workers_word(cut), new


def covers_call(data, identifier):
    """Refusal, yes or no."""
    number = refusal(data)
    return number, number == 0 and covers(read(data), identifier)


def check_state(log, plan, positions):
    """The cut and the starts of plan words, in order with these positions."""
    cut, starts = plan[0:3 * log.n:3], plan[1:3 * log.n:3]
    for w in range(log.n):
        refuse_if(not starts[w] <= positions[w] <= cut[w] <= log.count(w), 16)
    return cut, starts


def step_call(data, plan, positions, worker):
    """Answer, positions."""
    try:
        log = read(data)
        refuse_if(worker >= log.n, 12)
        refuse_if(len(plan) < 3 * log.n or len(positions) < log.n, 14)
        cut, starts = check_state(log, plan, positions)
    except Refused as refused:
        return refused.number, positions
    return step(log, cut, starts, positions, worker)


def step_calls(data, plan, positions, workers):
    """The answer of each call of a list and the positions after it, each call with the positions that the last one left."""
    results = []
    for worker in workers:
        answer, positions = step_call(data, plan, positions, worker)
        results.append((answer, positions))
    return results


def steps_call(data, plan, positions, workers, answers):
    """Refusal, positions, answers."""
    try:
        log = read(data)
        refuse_if(len(plan) < 3 * log.n or len(positions) < log.n or len(answers) < len(workers), 14)
        check_state(log, plan, positions)
    except Refused as refused:
        return refused.number, positions, answers
    results = step_calls(data, plan, positions, workers)
    return 0, results[-1][1], onto([answer for answer, _ in results], answers)


def restore_and_replay_call(data, worker, event, workers, table, words, scratch, positions, steps, totals):
    """Refusal, totals, words, positions, steps. scratch is the number of scratch words."""
    try:
        log = read(data)
        check_breakpoint(log, worker, event)
        refuse_if(len(words) < 3 * log.n or len(positions) < log.n or len(totals) < 4, 14)
        refuse_if(len(steps) < len(workers) * (log.n + 1), 14)
        refuse_if(scratch < scratch_words(log.n), 15)
        refuse_if(load_table_call(table) != 0, 27)
    except Refused as refused:
        return refused.number, totals, words, positions, steps
    _, *found, plan = plan_call(data, worker, event, table, words, scratch)
    results = step_calls(data, plan, onto(plan[1:3 * log.n:3], positions), workers)
    left = [word for answer, after in results for word in [answer] + after[:log.n]]
    return 0, onto(found, totals), plan, results[-1][1], onto(left, steps)


def printed(content):
    """What the program `plan` prints for this input."""
    if not 8 <= len(content) <= 65536:
        return "refused 1\n"
    worker, event = struct.unpack_from("<II", content)
    data = content[8:]
    number, visits, events, units, workers, words = plan_call(
        data, worker, event, BUILT_IN, [0] * (3 * MAX_WORKERS), scratch_words(MAX_WORKERS))
    if number != 0:
        return "refused %d\n" % number
    log = read(data)
    upper = upper_line(log, worker, event)
    lines = ["breakpoint %d %d\n" % (worker, event)]
    for w in range(log.n):
        cut, start, identifier = words[3 * w:3 * w + 3]
        line = "process %d role %d cut %d upper %d start %d checkpoint %d\n"
        lines.append(line % (w, log.roles[w], cut, upper[w], start, identifier))
    lines.append("visits %d events %d units %d workers %d\n" % (visits, events, units, workers))
    return "".join(lines)


# ---- The self check

PRINTED = """breakpoint 0 2
process 0 role 3 cut 2 upper 2 start 1 checkpoint 1
process 1 role 1 cut 3 upper 3 start 1 checkpoint 1
process 2 role 0 cut 2 upper 3 start 0 checkpoint 0
visits 3 events 5 units 15 workers 7
"""


def expect(name, found, expected):
    assert found == expected, "%s: %r, not %r" % (name, found, expected)


def check_tube():
    """T1 to T10, and what `plan` prints."""
    data = logs.tube()
    expect("tube log", len(data), 212)
    log = read(data)
    expect("it is packed", packed(log), data)
    expect("T1", vector(log, 0, 2), [2, 3, 1])
    expect("T2", vector(log, 1, 3), [0, 3, 2])
    expect("T3", vector(log, 2, 2), [0, 0, 2])
    cut, visited = figure2(log, 0, 2)
    expect("T4", (cut, visited), ([2, 3, 2], [(0, 2), (1, 3), (2, 2)]))
    expect("T5", upper_line(log, 0, 2), [2, 3, 3])
    expect("T6", plan_starts(log, cut), [1, 1, 0])
    logged = read(logs.tube("logged"))
    expect("T7", plan_starts(logged, cut), [1, 1, 2])
    expect("T7", (events_of(cut, [1, 1, 2]), units_of(logged, BUILT_IN, cut, [1, 1, 2])), (3, 13))
    expect("T8", (is_consistent(log, cut), is_consistent(log, [2, 3, 1])), (True, False))
    plan = plan_call(data, 0, 2, BUILT_IN, [9] * 10, 9)[5]
    expect("plan words", plan, [2, 1, 1, 3, 1, 1, 2, 0, 0, 9])
    expect("T9", step_call(data, plan, [1, 1, 0], 0), (22, [1, 1, 0]))
    expect("T10", covers(log, 0), True)
    expect("printed", printed(logs.case_file(0, 2, data)), PRINTED)
    latest = [2, 1, 1, 3, 1, 1, 2, 2, 1]
    expect("latest starts", step_call(data, latest, [1, 1, 2], 1), (23, [1, 1, 2]))


# The interval log of the tube log, its bytes as they stand: the header; of each worker its receives and its checkpoint.
TUBE_INTERVALS = """
0300 0300 98000000
02000000 44000000 01000000 5c000000 03000000
02000000 64000000 01000000 7c000000 01000000
01000000 84000000 01000000 90000000 00000000
02 02 0000 00000000 02000000   02 01 0000 01000000 05000000   01000000 01000000
02 02 0000 00000000 03000000   02 00 0000 02000000 07000000   00000000 01000000
02 01 0000 00000000 03000000   00000000 01000000
"""


def check_tube_intervals():
    """The interval log of the tube log in both forms, and the least closed cut for each of its breakpoints, worked out by hand."""
    wanted = bytes.fromhex(TUBE_INTERVALS)
    expect("bytes", len(wanted), 152)
    expect("named", named_intervals(wanted), [[(2, 0), (1, 1)], [(2, 0), (0, 2)], [(1, 0)]])
    for form in FORMS:
        data = logs.in_form(logs.tube(), form)
        expect("form %d" % form, intervals_call(data, b"\x07" * 155, [7, 7]), (0, wanted + b"\x07" * 3, [152, 7]))
    for (i, e), cut in {
        (0, 1): [1, 0, 0], (0, 2): [2, 1, 0], (0, 3): [2, 1, 0],
        (1, 1): [0, 0, 0], (1, 2): [0, 1, 0], (1, 3): [0, 1, 0], (1, 4): [2, 2, 0],
        (2, 1): [0, 0, 0], (2, 2): [0, 0, 0], (2, 3): [0, 0, 1],
    }.items():
        log = read(logs.tube())
        expect("interval cut of %d/%d" % (i, e), least_closed(wanted, i, intervals_of(log, i)[e]), cut)
        check_interval_cut(log, wanted, i, e)


# Checkpoints of a worker whose third event of four is its one receive, the others being sends, and whether 28 refuses the log: in
# form 2 and in form 1. None where another number does.
CROWDED = (
    ([], False, False),
    # one in interval 0: the initial state does not count
    ([(0, 1)], False, False),
    ([(2, 1)], False, False),
    ([(0, 1), (0, 2)], True, True),
    ([(0, 1), (2, 2)], True, True),
    ([(1, 1), (2, 2)], True, True),
    ([(3, 1), (4, 2)], True, True),
    # the receive is between them
    ([(2, 1), (3, 2)], False, False),
    ([(0, 1), (4, 2)], False, False),
    ([(0, 1), (3, 2), (4, 3)], True, True),
    # a withdrawn one beside one, and between two; in form 1 it is not withdrawn
    ([(0, 1), ("withdrawn", 1, 2)], False, True),
    ([("withdrawn", 0, 1), (1, 2)], False, None),
    ([("withdrawn", 0, 1), ("withdrawn", 1, 2)], False, True),
    ([(0, 1), ("withdrawn", 1, 2), (2, 3)], True, None),
    ([(0, 1), ("withdrawn", 1, 2), (3, 3)], False, None),
    ([(0, 1), (3, 2), ("withdrawn", 4, 3)], False, True),
)


def check_crowded():
    """28 of logs with the answer worked out by hand; it is given before 25 and 14, and else these are."""
    events = [("send", 1, 1), ("send", 1, 2), ("receive", 1, 1, 3), ("send", 1, 4)]
    for checkpoints, *crowded in CROWDED:
        for form, answer in zip((SECOND_FORM, FIRST_FORM), crowded):
            data = logs.build([logs.Worker(0, events, checkpoints), logs.Worker(0, [("send", 0, 1)])], form=form)
            number = 11 if answer is None else 28 if answer else 0
            kept = sum(form == FIRST_FORM or not logs.is_withdrawn(c) for c in checkpoints)
            length = 48 + 12 + 8 * kept
            for few, words, other in ((0, [7], 0), (1, [], 25), (0, [], 14)):
                found = intervals_call(data, bytes(length - few), words)
                expect("%r in form %d" % (checkpoints, form), found[0], number or other)
                expect("written", found[2], [length] if (number or other) == 0 else words)


# Unit tables that load, and others that do not.
LOADED = [BUILT_IN, [1] * 12, [1000] * 12, list(range(1, 13)), [1000, 1] * 6]
UNLOADED = [[], [1] * 11, [1] * 13, [0] + [1] * 11, [1] * 11 + [1001]]


def check_loading():
    """Unit tables, the answers worked out by hand."""
    expect("built-in", by_role(BUILT_IN), UNITS)
    expect("loaded", [load_table_call(table) for table in LOADED], [0] * 5)
    expect("not loaded", [load_table_call(table) for table in UNLOADED], [27] * 5)
    expect("two tables", load_table_call(BUILT_IN + BUILT_IN), 27)
    for place in range(12):
        for word, number in ((0, 27), (1, 0), (1000, 0), (1001, 27), (2 ** 32 - 1, 27)):
            table = BUILT_IN[:place] + [word] + BUILT_IN[place + 1:]
            expect("word %d in place %d" % (word, place), load_table_call(table), number)
    # the plan of 0/2 of the tube log replays two sends in role 0, a send and a receive without its data in role 1, and such a receive
    # in role 3
    for place, units in enumerate((2003, 5, 5, 1004, 1004, 5, 5, 5, 5, 5, 1004, 5)):
        table = [1000 if k == place else 1 for k in range(12)]
        expect("units with word %d" % place, plan_call(logs.tube(), 0, 2, table, [9] * 9, 9)[3], units)


def at_checkpoint_alone(log, starts):
    """Whether these checkpoints are no covering set, but would be one by the paper's "smaller": the receives at fault are of sends
    at the sender's checkpoint alone."""
    missed = lost(log, all_events(log), starts)
    return missed != [] and all(event.send == starts[event.peer] for event in missed)


def check_smaller():
    """With the paper's "smaller" the floor of check_floor would be false: set 1 of the tube log would cover, it is within the lower
    cut, and the plan starts worker 2 before it."""
    log = read(logs.tube())
    cut, _ = figure2(log, 0, 2)
    checkpoints = set_indices(log, 1)
    expect("set 1", (checkpoints, covers(log, 1), at_checkpoint_alone(log, checkpoints)), ([1, 1, 2], False, True))
    expect("set 1 within the cut", at_most(checkpoints, cut), True)
    expect("workers that start before it", [w for w, start in enumerate(plan_starts(log, cut)) if start < checkpoints[w]], [2])


def check_checkpoints():
    """Identifiers of a log with the answer worked out by hand."""
    first = logs.Worker(0, [("send", 1, 1), ("send", 1, 3)], [(0, 2), (0, 5), (1, 6), (2, 7), (2, 9)])
    log = read(logs.build([first, logs.Worker(0, [("receive", 0, 1, 2)])]))
    expect("identifiers", [identifier_of(log, 0, index) for index in (0, 1, 2)], [5, 6, 9])
    expect("nothing recorded", identifier_of(log, 1, 0), 0)
    expect("worker 1 lacks the identifier", covers(log, 5), False)


# The checkpoints of a worker, and what index 0 then shows in form 2 and in form 1: the identifier of the last one that is not
# withdrawn, else 0. In form 1 a word with the top bit is a large identifier; None where 11 then refuses the log.
OF_INDEX_0 = (
    ([("withdrawn", 0, 4)], 0, MARK + 4),
    ([(0, 3), ("withdrawn", 0, 4)], 3, MARK + 4),
    ([("withdrawn", 0, 3), (0, 4)], 4, None),
    ([("withdrawn", 0, 3), ("withdrawn", 0, 4)], 0, MARK + 4),
    ([("withdrawn", 0, MARK - 1)], 0, 2 * MARK - 1),
    ([(0, MARK - 1)], MARK - 1, MARK - 1),
    ([(0, 3), ("withdrawn", 1, 4)], 3, 3),
)

# The checkpoints of a worker, and whether 11 refuses the log in form 2 and in form 1.
MARKED = (
    ([("withdrawn", 0, 0)], True, False),
    ([(0, MARK - 1)], False, False),
    # the mark alone tells them apart
    ([(0, 1), ("withdrawn", 0, 1)], True, False),
    ([("withdrawn", 0, 1), (0, 1)], True, True),
    ([("withdrawn", 0, 1), ("withdrawn", 0, 1)], True, True),
    # without the mark they rise, or fall
    ([("withdrawn", 0, 1), (0, 2)], False, True),
    ([("withdrawn", 0, 1), (0, MARK - 1)], False, True),
    ([(0, MARK - 1), ("withdrawn", 0, 1)], True, False),
    ([(0, 2), ("withdrawn", 0, 1)], True, False),
    # the index of a withdrawn one is tested too
    ([("withdrawn", 2, 1)], True, True),
    ([("withdrawn", 1, 1), (0, 2)], True, True),
)


def check_withdrawn():
    """Logs with marked identifier words, the answers worked out by hand."""
    def of(checkpoints, form):
        return logs.build([logs.Worker(0, [("send", 1, 1)], checkpoints), logs.Worker(0, [("send", 0, 1)], checkpoints)], form=form)

    for checkpoints, second, first in OF_INDEX_0:
        expect("%r in form 2" % checkpoints, identifier_of(read(of(checkpoints, SECOND_FORM)), 0, 0), second)
        if first is not None:
            expect("%r in form 1" % checkpoints, identifier_of(read(of(checkpoints, FIRST_FORM)), 0, 0), first)
    for checkpoints, *refused in MARKED:
        found = [refusal(of(checkpoints, form)) for form in (SECOND_FORM, FIRST_FORM)]
        expect("%r in forms 2 and 1" % checkpoints, found, [11 if fault else 0 for fault in refused])
    # worker 0 starts at its last checkpoint that is not withdrawn; set 7 covers in form 1 alone, by its whole word
    data = of([(0, 5), (1, 6), ("withdrawn", 1, 7)], SECOND_FORM)
    for data, words, covering in (
        (data, [1, 1, 6, 0, 0, 5], [True, True, True, False, False]),
        (logs.in_form(data, FIRST_FORM), [1, 1, MARK + 7, 0, 0, 5], [True, True, True, False, True]),
    ):
        expect("words", plan_call(data, 0, 1, BUILT_IN, [9] * 6, 4)[5], words)
        expect("sets", [covers(read(data), identifier) for identifier in (0, 5, 6, 7, MARK + 7)], covering)


# Set 9 of two workers: worker 0 has three sends, and the second event of worker 1 is the receive of the second send. The index
# of the sender's checkpoint, that of the receiver's, and whether the set covers where the receive is kind 2; with kind 3 it does.
SET_9 = (
    # the receive is just after its worker's checkpoint, the send one before the sender's, at it, one after it
    (3, 1, False), (2, 1, False), (1, 1, True),
    # the receive is the second event after its worker's checkpoint
    (3, 0, False), (2, 0, False), (1, 0, True),
    # the receive is at its worker's checkpoint, so it is not counted
    (3, 2, True), (2, 2, True), (1, 2, True),
    # the receive is before its worker's checkpoint
    (3, 3, True), (2, 3, True), (1, 3, True),
)


def check_sets():
    """Covering sets of logs with the answer worked out by hand."""
    # after the checkpoints of set 1, receives 2/2 and 1/1 are of sends at the sender's, and 1/3 and 0/3 of later ones
    for kinds, covered in (
        (("receive", "receive"), False), (("logged", "receive"), False),
        (("receive", "logged"), False), (("logged", "logged"), True),
    ):
        log = read(logs.tube(*kinds))
        found = [covers(log, identifier) for identifier in (0, 1, 2)]
        expect("sets 0, 1 and 2 of the tube log, 2/2 and 1/1 %s and %s" % kinds, found, [True, covered, False])
    for (sender, receiver, without_data), kind in itertools.product(SET_9, ("receive", "logged")):
        log = read(logs.build([
            logs.Worker(0, [("send", 1, 1), ("send", 1, 2), ("send", 1, 3)], [(sender, 9)]),
            logs.Worker(0, [("send", 0, 1), (kind, 0, 2, 3), ("send", 0, 4)], [(receiver, 9)]),
        ]))
        name = "set 9 at %d and %d, %s" % (sender, receiver, kind)
        expect(name, [covers(log, identifier) for identifier in (0, 8, 9)], [True, False, kind == "logged" or without_data])


def check_limit():
    """63 workers share the bytes of their sends, so that the packed log has as many bytes as a log may have, or 4 more."""
    shared = [logs.Worker(0, [("send", 63, stamp) for stamp in range(1, 5547)])] * 63
    offsets = {(w, "event offset"): 8 + 20 * 64 for w in range(63)}
    for sends, checkpoints, more in ((20, [], 0), (19, [(0, 1), (0, 2)], 4)):
        last = logs.Worker(0, [("send", 0, stamp) for stamp in range(1, sends + 1)], checkpoints)
        data = logs.build(shared + [last], [("events", 0), ("events", 63), ("checkpoints", 63)], offsets)
        expect("length", len(packed(read(data))), MAX_BYTES + more)
        for few in (0, 1):
            out = bytes(MAX_BYTES + more - few)
            expect("26 before 25, 25 before 14", pack_call(data, out, []), (26 if more else 25 if few else 14, out, []))


def receives_at_the_limit(receives, checkpoints):
    """A log of form 1 of seven workers: each sends once to the next, and receives the one send of the one before again and again. They
    have so many receives and checkpoints together, and share the bytes of 1,024 checkpoints, one after each of the first receives."""
    shares = [receives // 7 + (w < receives % 7) for w in range(7)]
    workers = [
        logs.Worker(0, [("send", (w + 1) % 7, 1)] + [("receive", (w - 1) % 7, 1, 2 + x) for x in range(shares[w])])
        for w in range(7)
    ]
    workers[0].checkpoints = [(2 + c, 1 + c) for c in range(1024)]
    fields = {(w, "checkpoint offset"): 8 + 20 * 7 for w in range(7)}
    counts = {(w, "checkpoint count"): min(1024, checkpoints - 1024 * w) for w in range(7)}
    return logs.build(workers, [("checkpoints", 0)] + [("events", w) for w in range(7)], {**fields, **counts})


def check_interval_limit():
    """The interval log has as many bytes as a log may have, or 4 more; the packed log has more than both. Two checkpoints in one
    interval are refused before that."""
    for receives, checkpoints, more in ((344735, 7167, 0), (344736, 7166, 4)):
        data = receives_at_the_limit(receives, checkpoints)
        expect("log", len(data), 8 + 20 * 7 + 12 * (receives + 7) + 8 * 1024)
        expect("length", len(interval_bytes(data)), MAX_BYTES + more)
        expect("26 of the packed log", pack_call(data, bytes(MAX_BYTES), [7]), (26, bytes(MAX_BYTES), [7]))
        for few in (0, 1):
            out = bytes(MAX_BYTES + more - few)
            expect("26 before 25, 25 before 14", intervals_call(data, out, []), (26 if more else 25 if few else 14, out, []))
    # of the longer one: the first checkpoint is at the index of the second
    crowded = data[:148] + struct.pack("<I", 3) + data[152:]
    expect("28 before 26, 25 and 14", intervals_call(crowded, b"", []), (28, b"", []))


def random_workers(seed, form):
    """The workers of a small log: receives of any earlier send, in form 1 also twice; several checkpoints, also of one index."""
    rng = random.Random(seed)
    n = rng.randint(1, 4)
    workers = [logs.Worker(rng.randint(0, 3)) for _ in range(n)]
    stamps = [0] * n
    sends = [[] for _ in range(n)]
    for _ in range(rng.randint(1, 12) if n > 1 else 0):
        w = rng.randrange(n)
        if sends[w] and rng.random() < 0.6:
            peer, send, stamp = received = rng.choice(sends[w])
            if form == SECOND_FORM:
                sends[w].remove(received)
            stamps[w] = max(stamps[w], stamp) + rng.randint(1, 2)
            workers[w].events.append((rng.choice(["receive", "receive", "logged"]), peer, send, stamps[w]))
        else:
            peer = rng.choice([v for v in range(n) if v != w])
            stamps[w] += rng.randint(1, 2)
            workers[w].events.append(("send", peer, stamps[w]))
            sends[peer].append((w, len(workers[w].events), stamps[w]))
    for worker in workers:
        indices = sorted(rng.randint(0, len(worker.events)) for _ in range(rng.randint(0, 3)))
        worker.checkpoints = [(index, 2 * c + rng.randint(1, 2)) for c, index in enumerate(indices)]
    return workers


def with_some_withdrawn(seed, workers):
    """These workers with some of their checkpoints withdrawn, and the same workers without the records of those."""
    rng = random.Random(seed)
    share = rng.choice((0.2, 0.5, 0.8, 1))
    marked, without = [], []
    for worker in workers:
        told = [(checkpoint, rng.random() < share) for checkpoint in worker.checkpoints]
        marked.append(logs.Worker(worker.role, worker.events, [("withdrawn",) * mark + checkpoint for checkpoint, mark in told]))
        without.append(logs.Worker(worker.role, worker.events, [checkpoint for checkpoint, mark in told if not mark]))
    return marked, without


def scattered(seed, workers, form):
    """A log of these workers with its sections in any order, and with gaps."""
    rng = random.Random(seed)
    places = logs.packed(workers) + [rng.randint(0, 5) for _ in range(3)]
    rng.shuffle(places)
    return logs.build(workers, places, form=form)


def check_pack(data, other):
    """A log that is built packed, and another one of the same records."""
    expect("the same log", vars(read(other)), vars(read(data)))
    lent = b"\x07" * (len(data) + 3)
    for log in (data, other):
        for more in (0, 3):
            found = pack_call(log, lent[:len(data) + more], [7, 7])
            expect("packed", found, (0, data + lent[:more], [len(data), 7]))
        for out, number in ((lent, 14), (lent[:len(data) - 1], 25)):
            expect("nothing written", pack_call(log, out, []), (number, out, []))


def check_intervals(data, other):
    """The interval log of a log, and of another one of the same records, against the definitions. The value is whether 28 refuses
    it."""
    log = read(data)
    crowded = any(
        not any(is_receive(event) for event in log.events[w][a.index:b.index])
        for w in range(log.n) for a, b in itertools.combinations([c for c in log.checkpoints[w] if not c.withdrawn], 2)
    )
    content = interval_bytes(data)
    lent = b"\x07" * (len(content) + 3)
    for each in (data, other):
        expect("28 before 25", intervals_call(each, b"", [])[0], 28 if crowded else 25)
        expect("nothing written", intervals_call(each, lent[:-4], [7]), (28 if crowded else 25, lent[:-4], [7]))
        expect("nothing written", intervals_call(each, lent, []), (28 if crowded else 14, lent, []))
        for more in (0, 3):
            out = lent[:len(content) + more]
            wanted = (28, out, [7, 7]) if crowded else (0, content + out[:more], [len(content), 7])
            expect("interval log", intervals_call(each, out, [7, 7]), wanted)
    check_interval_records(log, content)
    lent = 3 * log.n + log.n ** 2
    found = every_call(content, log.n, 0, 1, lent) + [call(content, bytes(lent), [7]) for call in (pack_call, intervals_call)]
    expect("form 3 is refused by each call", {refusal(content)} | {number for number, *_ in found}, {2})
    return crowded


def check_interval_records(log, content):
    """The bytes of an interval log, number by number: a receive names as many receives as are before its send, and the sections stand
    one behind the other."""
    expect("fields", struct.unpack_from("<HHI", content), (3, log.n, len(content)))
    at = 8 + 20 * log.n
    for w in range(log.n):
        receives = [
            (e.kind, e.peer, 0, sum(is_receive(f) for f in log.events[e.peer][:e.send - 1]), e.stamp)
            for e in log.events[w] if e.kind != SEND
        ]
        kept = [
            (sum(is_receive(e) for e in log.events[w][:c.index]), c.identifier) for c in log.checkpoints[w] if not c.withdrawn
        ]
        behind = at + 12 * len(receives)
        entry = (len(receives), at, len(kept), behind, log.roles[w])
        expect("entry", struct.unpack_from("<5I", content, 8 + 20 * w), entry)
        expect("receives", list(struct.iter_unpack("<BBHII", content[at:behind])), receives)
        at = behind + 8 * len(kept)
        expect("checkpoints", list(struct.iter_unpack("<II", content[behind:at])), kept)
    expect("end", at, len(content))


def check_interval_cut(log, content, i, e, name="random log"):
    """The least closed cut of the interval log's bytes that holds the breakpoint's interval has, worker by worker, the receives within
    the lower cut."""
    cut, _ = figure2(log, i, e)
    held = sum(is_receive(event) for event in log.events[i][:e])
    within = [sum(is_receive(event) for event in log.events[w][:cut[w]]) for w in range(log.n)]
    expect("%s: interval cut of %d/%d" % (name, i, e), least_closed(content, i, held), within)


def check_closed_cuts(log, content):
    """The least closed cut of each interval against all interval cuts."""
    counts = [sum(map(is_receive, section)) for section in log.events]
    closed = [cut for cut in itertools.product(*[range(count + 1) for count in counts]) if is_closed(content, cut)]
    for i in range(log.n):
        for m in range(counts[i] + 1):
            least = least_closed(content, i, m)
            assert tuple(least) in closed and least[i] >= m
            assert all(at_most(least, cut) for cut in closed if cut[i] >= m)


def every_cut(log):
    return itertools.product(*[range(log.count(w) + 1) for w in range(log.n)])


def at_most(a, b):
    return all(x <= y for x, y in zip(a, b))


def all_events(log):
    """The cut of all events."""
    return [log.count(w) for w in range(log.n)]


def check_covering(log, identifier):
    """An identifier covers exactly where every worker has a checkpoint with it, and these are startable for the cut of all
    events."""
    options = [[c.index for c in offered(log, w) if c.identifier == identifier] for w in range(log.n)]
    startable = [is_startable(log, all_events(log), starts) for starts in itertools.product(*options)]
    expect("covers", covers(log, identifier), startable == [True])


def check_cuts(log, i, e):
    """The lower cut and the upper line against happened before and against all cuts."""
    cut, visited = figure2(log, i, e)
    earlier = before(log, i, e)
    for w, x in log.every_event():
        expect("within the lower cut", x <= cut[w], (w, x) == (i, e) or (w, x) in earlier)
        expect("before and after", (w, x) in after(log, i, e), (i, e) in before(log, w, x))
    assert len(visited) == len(set(visited)) <= 1 + receives_within(log, cut)
    consistent = [c for c in every_cut(log) if is_consistent(log, c)]
    holding = [c for c in consistent if c[i] >= e]
    expect("least", tuple(cut), min(holding, key=sum))
    assert all(at_most(cut, c) for c in holding)
    line = upper_line(log, i, e)
    assert tuple(line) in consistent and line[i] == e
    for w, x in log.every_event():
        expect("within the upper line", x <= line[w], (i, e) not in before(log, w, x))


def check_plan(log, data, i, e):
    """The plan against every choice that works on the machine."""
    cut, _ = figure2(log, i, e)
    starts = plan_starts(log, cut)
    options = [sorted({c.index for c in offered(log, w) if c.index <= cut[w]}) for w in range(log.n)]
    choices = [list(choice) for choice in itertools.product(*options)]
    assert starts in choices and works(log, cut, starts)
    for choice in choices:
        expect("works", works(log, cut, choice), is_startable(log, cut, choice))
        if works(log, cut, choice):
            assert at_most(choice, starts)
            assert events_of(cut, choice) >= events_of(cut, starts)
            assert all(units_of(log, table, cut, choice) >= units_of(log, table, cut, starts) for table in LOADED)
    words = check_tables(log, data, i, e)
    turns = list(range(log.n)) * (1 + events_of(cut, starts))
    results = step_calls(data, words, starts, turns)
    expect("all at their cuts", results[-1], (21, cut))
    answers = [answer for answer, _ in results]
    expect("steps done", answers.count(0), events_of(cut, starts))
    expect("steps", steps_call(data, words, starts, turns, [7] * len(turns)), (0, cut, answers))


def check_tables(log, data, i, e):
    """The plan with each table: they differ in the units alone, which are the events where each word is 1. The words are given."""
    cut, _ = figure2(log, i, e)
    starts = plan_starts(log, cut)
    lent, scratch = [7] * (3 * log.n + 1), 2 * log.n
    _, visits, events, _, workers, words = plan_call(data, i, e, BUILT_IN, lent, scratch)
    for table in LOADED:
        units = units_of(log, table, cut, starts)
        expect("plan", plan_call(data, i, e, table, lent, scratch), (0, visits, events, units, workers, words))
    expect("units of 1", units_of(log, [1] * 12, cut, starts), events)
    expect("units of 1,000", units_of(log, [1000] * 12, cut, starts), 1000 * events)
    for table in UNLOADED:
        expect("27", plan_call(data, i, e, table, lent, scratch), (27, 0, 0, 0, 0, lent))
        expect("15 before 27", plan_call(data, i, e, table, lent, scratch - 1), (15, 0, 0, 0, 0, lent))
        expect("14 before 15", plan_call(data, i, e, table, lent[2:], 0), (14, 0, 0, 0, 0, lent[2:]))
    return words


def every_identifier(log):
    """0 and the identifiers that are recorded."""
    return sorted({c.identifier for w in range(log.n) for c in offered(log, w)})


# What check_floor counts of the recorded sets that cover. Those at or below the lower cut in every worker: "at", each start is at
# the set; "lowered", besides, some worker has a later checkpoint within the cut; "later", some start is later. Those past the cut
# in some worker: "past", some start is before the set; "within", besides, one is before a checkpoint that is within the cut.
FLOOR = ("at", "lowered", "later", "past", "within")


def check_floor(log, i, e, name="random log"):
    """For every identifier that covers, 0 too, and whose checkpoints are all at or below the lower cut, the plan starts no worker
    before that set's checkpoint. The value has the counts of FLOOR."""
    cut, _ = figure2(log, i, e)
    starts = plan_starts(log, cut)
    found = Counter()
    for identifier in every_identifier(log):
        if not covers(log, identifier):
            continue
        checkpoints = set_indices(log, identifier)
        below, floor = at_most(checkpoints, cut), at_most(checkpoints, starts)
        assert floor or not below, "%s: set %d at %r, cut %r, starts %r" % (name, identifier, checkpoints, cut, starts)
        if identifier != 0:
            found["at"] += below and starts == checkpoints
            found["lowered"] += below and starts == checkpoints != latest_starts(log, cut)
            found["later"] += below and starts != checkpoints
            found["past"] += not below and not floor
            found["within"] += any(start < c <= limit for start, c, limit in zip(starts, checkpoints, cut))
    return found


def every_call(data, n, worker, event, lent):
    """What each call gives on a log of n workers, with so many words lent of each kind, each of them 7."""
    words, workers = [7] * lent, [worker, 0, n - 1]
    table = (LOADED + UNLOADED)[event % len(LOADED + UNLOADED)]
    plan = plan_call(data, worker, event, BUILT_IN, words, lent)[5]
    positions = onto(plan[1:3 * n:3], words)
    return [
        vector_call(data, worker, event, words),
        upper_line_call(data, worker, event, words),
        lower_cut_call(data, worker, event, words, lent),
        cut_test_call(data, words),
        cut_test_call(data, plan[0:3 * n:3]),
        plan_call(data, worker, event, table, words, lent),
        covers_call(data, event),
        step_call(data, plan, positions, worker),
        steps_call(data, plan, positions, workers, words),
        restore_and_replay_call(data, worker, event, workers, table, words, lent, words, words, words),
    ]


def check_forms(data):
    """A log in both forms: in form 2 it is refused by 24 exactly where two of its events are receives of one send, and then
    every call gives 24; else every call gives what it gives in form 1. The value is whether it has such receives."""
    first, second = (logs.in_form(data, form) for form in FORMS)
    expect("form 1", refusal(first), 0)
    log = read(first)
    repeat = any(
        is_receive(a) and is_receive(b) and a.peer == b.peer and a.send == b.send
        for a, b in itertools.combinations([log.event(w, x) for w, x in log.every_event()], 2)
    )
    expect("form 2", refusal(second), 24 if repeat else 0)
    for lent, words in ((0, []), (400, [7])):
        number, *rest = intervals_call(second, bytes(lent), words)
        wanted = (24, bytes(lent), words) if repeat else intervals_call(first, bytes(lent), words)
        expect("interval logs of both forms", (number, *rest), wanted)
    out_of_range = [(log.n, 1)] + [(w, x) for w in range(log.n) for x in (0, log.count(w) + 1)]
    enough = log.n * log.n + 3 * (log.n + 1)
    for (i, e), lent in itertools.product(log.every_event() + out_of_range, (0, enough)):
        found = every_call(second, log.n, i, e, lent)
        if not repeat:
            expect("both forms", found, every_call(first, log.n, i, e, lent))
        for number, *rest in found if repeat else []:
            expect("before every other number", number, 24)
            assert all(value in (0, [7] * lent) for value in rest)
        expect("printed", printed(logs.case_file(i, e, second)),
            "refused 24\n" if repeat else printed(logs.case_file(i, e, first)))
    return repeat


def check_random(logs_tried):
    """The number of logs with two receives of one send, of those that 28 refuses, of those that it does not refuse and in which a
    receive names an interval above 0, of breakpoints tried, and of those whose latest checkpoints are no plan; and the counts of
    check_floor."""
    repeats = crowded = named = tried = lowered = 0
    floor = Counter()
    for seed, form in itertools.product(range(logs_tried), FORMS):
        workers = random_workers(seed, form)
        data = logs.build(workers, form=form)
        check_pack(data, scattered(seed, workers, form))
        refused = check_intervals(data, scattered(seed, workers, form))
        crowded += refused
        named += not refused and any(interval for receives in named_intervals(interval_bytes(data)) for _, interval in receives)
        repeats += check_forms(data)
        log = read(data)
        check_closed_cuts(log, interval_bytes(data))
        for identifier in range(8):
            check_covering(log, identifier)
        for i, e in log.every_event():
            check_cuts(log, i, e)
            check_interval_cut(log, interval_bytes(data), i, e)
            check_plan(log, data, i, e)
            floor += check_floor(log, i, e)
            cut, _ = figure2(log, i, e)
            tried += 1
            lowered += plan_starts(log, cut) != latest_starts(log, cut)
    return repeats, crowded, named, tried, lowered, floor


def check_random_sets(logs_tried):
    """Sets 1, 2 and 3 of each log: every worker has a checkpoint of each. A set covers exactly where every event can be replayed
    from its checkpoints. The number of sets that cover, and of those that do not, the receives at fault being of sends at the
    sender's checkpoint alone; and the counts of check_floor."""
    covering = at_checkpoint = 0
    floor = Counter()
    for seed, form in itertools.product(range(logs_tried), FORMS):
        rng = random.Random(seed)
        workers = random_workers(seed, form)
        for worker in workers:
            worker.checkpoints = list(zip(sorted(rng.randint(0, len(worker.events)) for _ in range(3)), (1, 2, 3)))
        log = read(logs.build(workers, form=form))
        for identifier in range(5):
            check_covering(log, identifier)
        for identifier in (1, 2, 3):
            starts = [log.checkpoints[w][identifier - 1].index for w in range(log.n)]
            expect("replayed from the set", works(log, all_events(log), starts), covers(log, identifier))
            covering += covers(log, identifier)
            at_checkpoint += at_checkpoint_alone(log, starts)
        for i, e in log.every_event():
            floor += check_floor(log, i, e)
    return covering, at_checkpoint, floor


def check_random_withdrawn(logs_tried):
    """Logs of form 2 with some checkpoints withdrawn: every call gives what it gives for the log without these records, and each
    has its own packed log. The number of logs with a withdrawn checkpoint, of breakpoints at which some call gives something else
    with none withdrawn, and of logs that 28 would refuse with none withdrawn and does not refuse."""
    some = moved = freed = 0
    for seed in range(logs_tried):
        workers = random_workers(seed, SECOND_FORM)
        marked, without = with_some_withdrawn(seed, workers)
        data, unmarked, less = (logs.build(each, form=SECOND_FORM) for each in (marked, workers, without))
        check_pack(data, scattered(seed, marked, SECOND_FORM))
        freed += not check_intervals(data, scattered(seed, marked, SECOND_FORM)) and is_crowded(read(unmarked))
        log = read(data)
        out = bytes(400)
        expect("without the withdrawn", intervals_call(data, out, [7]), intervals_call(less, out, [7]))
        expect("the mark is packed", packed(log) == packed(read(unmarked)), data == unmarked)
        some += data != unmarked
        enough = log.n * log.n + 3 * (log.n + 1)
        for i, e in log.every_event():
            check_plan(log, data, i, e)
            check_floor(log, i, e)
            found = every_call(data, log.n, i, e, enough)
            expect("without the withdrawn", found, every_call(less, log.n, i, e, enough))
            moved += found != every_call(unmarked, log.n, i, e, enough)
        for identifier in itertools.chain(range(8), range(MARK, MARK + 8)):
            check_covering(log, identifier)
            expect("without the withdrawn", covers(log, identifier), covers(read(less), identifier))
    return some, moved, freed


def check():
    check_tube()
    check_tube_intervals()
    check_crowded()
    check_smaller()
    check_checkpoints()
    check_withdrawn()
    check_sets()
    check_limit()
    check_interval_limit()
    check_loading()
    repeats, crowded, named, tried, lowered, floor = check_random(400)
    covering, at_checkpoint, more = check_random_sets(400)
    floor += more
    withdrawn, moved, freed = check_random_withdrawn(400)
    assert withdrawn > 0 and moved > 0 and 100 < crowded < 700 and named > 20 and freed > 100
    assert all(floor[count] > 0 for count in FLOOR), floor
    print("T1 to T10; %d breakpoints of 400 logs of each form, %d of them with starts below the latest" % (tried, lowered))
    print("each log in both forms, %d of them with two receives of one send; packed, also from sections in any order" % repeats)
    print("the interval log of each, %d of them refused by 28, in %d of the others a receive names an interval above 0; its least "
        "closed cut for every breakpoint" % (crowded, named))
    print("2400 sets, %d of them cover, %d do not because of sends at the checkpoint alone" % (covering, at_checkpoint))
    print("%d logs with withdrawn checkpoints, and each without these records; at %d breakpoints some answer is another one than with "
        "none withdrawn, and %d logs are converted that 28 would refuse then" % (withdrawn, moved, freed))
    print("sets that cover, within the cut: %(at)d times each start is at the set, in %(lowered)d of these with a later checkpoint "
        "within the cut; %(later)d times one is later" % floor)
    print("sets that cover, past the cut in some worker: %(past)d times a start is before the set, in %(within)d of these before a "
        "checkpoint within the cut" % floor)


if __name__ == "__main__":
    if sys.argv[1:] != ["--check"]:
        sys.exit(__doc__)
    check()
