#!/usr/bin/env python3
"""Writes the case files of the program `cases`, its arguments, its calls and its expected output.

    scripts/make_cases.py            write the files
    scripts/make_cases.py --check    fail if a stored file is not what would be written

A case file is an input of the program `plan`: worker, event, then the log. Each case below states its name, the number
by which document 01, "Refused by the input", or document 02, form 2, refuses its log (0: accepted), and the log. The number
is written by hand, and reference.py must give the same. So are the covering sets, where a case states them. The interval log of
each accepted log, of one that 28 refuses too, is held to document 02, note 9: its least closed cut for each event has the receives
within the event's lower cut. Of a log of more than 500 events only the case's breakpoint is tried. The calls are those of calls.py,
the expected output is that of expected.py.
"""

import os
import sys

import reference
from calls import BUILT_IN, BY_SCRATCH, BY_TABLE, IDENTIFIERS, ONES, RISING, THOUSANDS, case_of, listed
from expected import case_lines
from logs import Worker, build, case_file, cut_to, extended, in_form, packed, tube
from reference import MARK, MAX_WORKERS

# The last of the most workers.
LAST = MAX_WORKERS - 1

CRATE = os.path.join(os.path.dirname(os.path.abspath(__file__)), "..", "crates", "cases")

# The largest input of `plan`.
LARGEST = 65536

# The most events of a log of which each is tried as a breakpoint.
MOST_TRIED = 500

# The content of each case, by its name, in the order in which they are run; and the line of this script that makes it.
CONTENT = {}
LINE = {}


def line_being_run():
    """The line of this script, outside its functions, that is being run."""
    frame = sys._getframe()
    while frame.f_code.co_name != "<module>":
        frame = frame.f_back
    return frame.f_lineno


def check_sets(name, log, covering):
    """Those of IDENTIFIERS that cover must be these, where they are given."""
    for identifier in IDENTIFIERS:
        reference.check_covering(reference.read(log), identifier)
    found = tuple(sorted(identifier for identifier in IDENTIFIERS if reference.covers_call(log, identifier)[1]))
    assert covering in (None, found), "%s: covering sets %r by the reference" % (name, found)


def check_interval_cuts(name, log, worker, event):
    """The least closed cut of the interval log for every event; where the log has more than MOST_TRIED, for the breakpoint alone, if it
    is one of them."""
    accepted, content = reference.read(log), reference.interval_bytes(log)
    tried = accepted.every_event()
    if len(tried) > MOST_TRIED:
        tried = [at for at in tried if at == (worker, event)]
    for i, e in tried:
        reference.check_interval_cut(accepted, content, i, e, name)


def case(name, number, log, worker=0, event=1, covering=None):
    """A case. Its log is refused by the number; covering: those of IDENTIFIERS that cover, rising."""
    content = case_file(worker, event, log)
    assert name not in CONTENT, "two cases have the name " + name
    assert content not in CONTENT.values(), name + " has the bytes of another case"
    assert len(content) <= LARGEST, name + " is too long for an input of plan"
    assert reference.refusal(log) == number, "%s: %d by the reference" % (name, reference.refusal(log))
    if number == 0:
        check_sets(name, log, covering)
        check_interval_cuts(name, log, worker, event)
    CONTENT[name] = content
    LINE[name] = line_being_run()


# The log that most cases change in one place. It has 112 bytes: the header 48, events of worker 0 at 48, its checkpoint
# at 72, events of worker 1 at 80, its checkpoint at 104.
FIRST = [("send", 1, 1), ("receive", 1, 2, 4)]
SECOND = [("receive", 0, 1, 2), ("send", 0, 3)]


def two(first=FIRST, second=SECOND, first_checkpoints=((1, 1),), second_checkpoints=((2, 1),), roles=(0, 1), **changes):
    """The log of two workers. `changes` are those of logs.build."""
    return build([Worker(roles[0], first, first_checkpoints), Worker(roles[1], second, second_checkpoints)], **changes)


def three(third=(), **changes):
    """The same two workers and a third one. Without events of the third it has 132 bytes, the header 68 of them."""
    return build([Worker(0, FIRST, [(1, 1)]), Worker(1, SECOND, [(2, 1)]), Worker(2, third)], **changes)


def each_to_the_next(n):
    """n workers: each sends to the next one and receives from the one before it."""
    return [Worker(w % 4, [("send", (w + 1) % n, 1), ("receive", (w - 1) % n, 1, 2)], [(1, 1)]) for w in range(n)]


def without_events(n):
    """n workers without events and checkpoints."""
    return [Worker() for _ in range(n)]


# ---- Accepted logs

# set 1 does not cover: receives 2/2 and 1/1, of kind 2, are after their worker's checkpoint and of the send at the sender's; nobody
# has set 2
case("tube_log", 0, tube(), worker=0, event=2, covering=(0,))
# receive 1/1 is still without its data
case("tube_log_receive_2_2_logged", 0, tube("logged"), worker=0, event=2, covering=(0,))
# set 1 does not cover: receive 1/2, of kind 2, is after its worker's checkpoint and of the send at the sender's
case("two_workers", 0, two(), covering=(0,))
case("a_send_received_twice", 0, two(first=FIRST + [("receive", 1, 2, 5)]), event=3)
case("a_send_never_received", 0, two(first=FIRST + [("send", 1, 5)]), event=3)
case("last_receive_names_a_smaller_send", 0, two(
    first=[("receive", 1, 3, 5), ("receive", 1, 1, 6)],
    second=[("send", 0, 1), ("send", 0, 2), ("send", 0, 3)],
    second_checkpoints=[],
), event=2)
case("sixty_four_workers_with_events", 0, build(each_to_the_next(MAX_WORKERS)), worker=LAST, event=2, covering=(0,))
# 48 + 5,456 × 12 + 8 = 65,528 bytes
case("longest_input", 0, two(
    first=[("send", 1, stamp) for stamp in range(1, 5457)],
    second=[],
    first_checkpoints=[(5456, 1)],
    second_checkpoints=[],
), event=5456)

# ---- Accepted: "Sections may be in any order, with gaps, and may share bytes"

case("sections_in_reverse_order", 0, two(
    places=[("checkpoints", 1), ("events", 1), ("checkpoints", 0), ("events", 0)],
), event=2)
case("gaps_between_sections", 0, two(
    places=[3, ("events", 0), 1, ("checkpoints", 0), 12, ("events", 1), 7, ("checkpoints", 1)],
), event=2)
case("gap_at_the_end", 0, extended(two(), 5), event=2)
# workers 0 and 1 send the same to worker 2, and have the same checkpoint
case("two_workers_share_all_bytes", 0, build(
    [
        Worker(0, [("send", 2, 1), ("send", 2, 2)], [(2, 7)]),
        Worker(1, [("send", 2, 1), ("send", 2, 2)], [(2, 7)]),
        Worker(2, [("receive", 0, 2, 3), ("receive", 1, 1, 4)], []),
    ],
    places=[("events", 0), ("checkpoints", 0), ("events", 2)],
    fields={(1, "event offset"): 68, (1, "checkpoint offset"): 92},
), worker=2, event=2)
# the one event of worker 1 is the second of worker 0
case("events_share_a_record", 0, build(
    [Worker(0, [("send", 2, 1), ("send", 2, 2)]), Worker(0, [("send", 2, 2)]), Worker(0, [("receive", 1, 1, 3)])],
    places=[("events", 0), ("events", 2)],
    fields={(1, "event offset"): 68 + 12},
), worker=2, event=1)
# peer event 1 and stamp 5 of the receive are the index and the identifier of the checkpoint
case("a_checkpoint_shares_bytes_with_an_event", 0, build(
    [Worker(0, [("receive", 1, 1, 5)], [(1, 5)]), Worker(0, [("send", 0, 1)])],
    places=[("events", 0), ("events", 1)],
    fields={(0, "checkpoint offset"): 48 + 4},
), event=1)
# what one worker may send the other may not: its peer would be itself
case("shared_event_has_its_own_worker_as_peer", 7, build(
    [Worker(0, [("send", 1, 1)]), Worker(0, [("send", 1, 1)])],
    places=[("events", 0)],
    fields={(1, "event offset"): 48},
))

# ---- 1: "log under 8 or over 4,194,304 bytes"

case("log_of_0_bytes", 1, b"")
case("log_of_7_bytes", 1, bytes([1, 0, 1, 0, 7, 0, 0]))

# ---- 2: "a form that is neither" 1 nor 2

case("form_0", 2, two(form=0))
case("form_2", 0, two(form=2))
case("form_3", 2, two(form=3))
# the lower byte is 1 or 2 and the upper one is not 0, or the bytes are those of form 2 exchanged
case("form_257", 2, two(form=257))
case("form_258", 2, two(form=258))
case("form_512", 2, two(form=512))
case("form_513", 2, two(form=513))

# ---- 3: "n outside 1..64"

case("no_workers", 3, build([]))
case("sixty_five_workers", 3, build(without_events(MAX_WORKERS + 1)))
case("worker_count_257", 3, build(without_events(1), size=257))

# ---- 4: "length field unlike the lent length, or header longer than the log"

case("header_is_the_log_of_1_worker", 0, build(without_events(1)), event=0)
case("header_is_the_log_of_64_workers", 0, build(without_events(MAX_WORKERS)), event=0)
case("header_of_1_worker_lacks_a_byte", 4, cut_to(build(without_events(1)), 27))
case("log_of_8_bytes", 4, bytes([1, 0, 1, 0, 8, 0, 0, 0]))
case("length_field_one_less", 4, two(length=111))
case("length_field_one_more", 4, two(length=113))
case("length_field_16777216_more", 4, two(length=112 + 16777216))
case("length_field_of_the_whole_input", 4, two(length=112 + 8))
case("last_byte_missing", 4, two()[:-1])
case("one_byte_too_many", 4, two() + b"\x00")

# ---- 5: "event count, checkpoint count or role over its limit"

case("event_count_65536", 5, two(fields={(0, "event count"): 65536}))
case("event_count_4294967295", 5, two(fields={(0, "event count"): 4294967295}))
case("checkpoint_count_1024", 0, build(
    [Worker(0, [("send", 1, 1)], [(c // 512, c + 1) for c in range(1024)]), Worker()],
), event=1)
case("checkpoint_count_1025", 5, build(
    [Worker(0, [("send", 1, 1)], [(c // 1024, c + 1) for c in range(1025)]), Worker()],
))
case("roles_2_and_3", 0, two(roles=(2, 3)), event=2)
case("role_4", 5, two(roles=(4, 0)))
case("role_4_of_the_last_worker", 5, two(roles=(0, 4)))
case("role_256", 5, two(roles=(256, 0)))

# ---- 6: "a section, even empty, starts inside the header or passes the log's end"

case("event_count_65535_passes_the_end", 6, two(fields={(0, "event count"): 65535}))
case("events_start_inside_the_header", 6, two(fields={(0, "event offset"): 47}))
case("checkpoints_start_inside_the_header", 6, two(fields={(1, "checkpoint offset"): 47}))
case("empty_events_at_the_header_end", 0, three(fields={(2, "event offset"): 68}), event=2)
case("empty_events_inside_the_header", 6, three(fields={(2, "event offset"): 67}))
case("empty_events_at_byte_0", 6, three(fields={(2, "event offset"): 0}))
case("empty_checkpoints_at_the_header_end", 0, three(fields={(2, "checkpoint offset"): 68}), event=2)
case("empty_checkpoints_inside_the_header", 6, three(fields={(2, "checkpoint offset"): 67}))
case("empty_sections_at_the_log_end", 0, three(fields={(2, "event offset"): 132, (2, "checkpoint offset"): 132}), event=2)
case("empty_events_beyond_the_log_end", 6, three(fields={(2, "event offset"): 133}))
case("empty_checkpoints_beyond_the_log_end", 6, three(fields={(2, "checkpoint offset"): 133}))
case("empty_events_at_the_largest_offset", 6, three(fields={(2, "event offset"): 4294967295}))
case("last_of_64_workers_starts_inside_the_header", 6, build(without_events(MAX_WORKERS), fields={(LAST, "event offset"): 8 + 20 * MAX_WORKERS - 1}))
EVENTS_LAST = [("checkpoints", 0), ("checkpoints", 1), ("events", 0), ("events", 1)]
case("events_pass_the_end_by_a_byte", 6, two(places=EVENTS_LAST, fields={(1, "event offset"): 89}))
case("checkpoints_pass_the_end_by_a_byte", 6, two(fields={(1, "checkpoint offset"): 105}))
# start and bytes add up to 4,294,967,296
case("end_of_the_events_needs_33_bits", 6, two(fields={(0, "event offset"): 4294967272}))
case("end_of_the_checkpoints_needs_33_bits", 6, two(fields={(0, "checkpoint offset"): 4294967288}))

# ---- 7: "kind, spare or peer event not as above; peer is itself or not below n; a receive's peer event is 0 or over the
# peer's count". The third event of worker 0 has the fault.
# A raw event is ("raw", kind, peer, spare, peer event, stamp).


def third_event(event):
    """The log of two workers with a third event of worker 0."""
    return two(first=FIRST + [event])


case("kind_0_without_a_peer_event", 7, third_event(("raw", 0, 1, 0, 0, 5)))
case("kind_0_with_a_peer_event", 7, third_event(("raw", 0, 1, 0, 2, 5)))
case("kind_4_with_a_peer_event", 7, third_event(("raw", 4, 1, 0, 2, 5)))
case("kind_255_with_a_peer_event", 7, third_event(("raw", 255, 1, 0, 2, 5)))
case("first_spare_byte_of_a_send", 7, third_event(("raw", 1, 1, 1, 0, 5)))
case("second_spare_byte_of_a_send", 7, third_event(("raw", 1, 1, 256, 0, 5)))
case("spare_bytes_of_a_receive", 7, third_event(("raw", 2, 1, 65535, 2, 5)))
case("send_to_itself", 7, third_event(("send", 0, 5)))
case("receive_from_itself", 7, third_event(("receive", 0, 1, 5)))
case("send_to_worker_n", 7, third_event(("send", 2, 5)))
case("receive_from_worker_n", 7, third_event(("receive", 2, 1, 5)))
case("last_of_64_workers_as_peer", 0, build(
    [Worker(0, [("send", LAST, 1), ("receive", LAST, 1, 3)])] + without_events(LAST - 1) + [Worker(0, [("send", 0, 2)])],
), event=2)
case("worker_64_of_64_as_peer", 7, build([Worker(0, [("send", MAX_WORKERS, 1)])] + without_events(LAST)))
case("peer_event_1_of_a_send", 7, third_event(("raw", 1, 1, 0, 1, 5)))
case("peer_event_16777216_of_a_send", 7, third_event(("raw", 1, 1, 0, 16777216, 5)))
case("peer_event_0_of_a_receive", 7, third_event(("receive", 1, 0, 5)))
case("peer_event_0_of_a_logged_receive", 7, third_event(("logged", 1, 0, 5)))
# worker 1 has 2 events, worker 0 has 3
case("peer_event_over_the_peers_count", 7, third_event(("receive", 1, 3, 5)))
case("peer_event_65536_over_the_peers_count", 7, third_event(("receive", 1, 2 + 65536, 5)))
case("peer_event_above_its_own_count", 0, build(
    [Worker(0, [("send", 1, 1), ("send", 1, 2), ("send", 1, 3)]), Worker(0, [("receive", 0, 3, 4)])],
), worker=1, event=1)

# ---- 8: "stamp 0, or not above the worker's previous one"

case("first_stamp_0", 8, two(first=[("send", 1, 0), ("receive", 1, 2, 4)]))
case("equal_stamps_of_a_worker", 8, two(first=FIRST + [("send", 1, 4)]))
case("falling_stamps_of_a_worker", 8, two(first=FIRST + [("send", 1, 3)]))
case("stamps_256_then_2", 8, two(first=[("send", 1, 256), ("send", 1, 2)], second=[], second_checkpoints=[]))
case("stamps_2_then_256", 0, two(first=[("send", 1, 2), ("send", 1, 256)], second=[], second_checkpoints=[]), event=2)
case("stamps_in_each_byte", 0, two(
    first=[("send", 1, stamp) for stamp in (255, 256, 65535, 65536, 16777215, 16777216, 4294967295)],
    second=[],
    second_checkpoints=[],
), event=7)
case("equal_stamps_of_two_workers", 0, two(
    first=[("send", 1, 1)],
    second=[("send", 0, 1)],
    second_checkpoints=[(1, 1)],
))

# ---- 9: "a receive names an event that isn't a send to its worker"

case("receive_names_a_receive", 9, two(first=FIRST + [("receive", 1, 1, 5)]))
case("logged_receive_names_a_receive", 9, two(first=FIRST + [("logged", 1, 1, 5)]))
case("receive_names_a_logged_receive", 9, two(
    first=FIRST + [("receive", 1, 1, 5)],
    second=[("logged", 0, 1, 2), ("send", 0, 3)],
))
case("receive_names_a_send_to_another_worker", 9, three(third=[("receive", 0, 1, 5)]))
case("logged_receive_names_a_send_to_another_worker", 9, three(third=[("logged", 0, 1, 5)]))

# ---- 10: "a receive's stamp not above its send's"

case("equal_stamps_of_a_send_and_its_receive", 10, two(first=[("send", 1, 1), ("receive", 1, 2, 3)]))
case("equal_stamps_of_a_send_and_its_logged_receive", 10, two(first=[("send", 1, 1), ("logged", 1, 2, 3)]))
case("stamp_of_a_receive_below_its_send", 10, two(first=[("send", 1, 1), ("receive", 1, 2, 2)]))

# ---- 11: "checkpoint index over the event count or below the previous one; identifier 0 or not above the previous"

case("checkpoint_index_is_the_event_count", 0, two(first_checkpoints=[(2, 1)]), event=2)
case("checkpoint_index_over_the_event_count", 11, two(first_checkpoints=[(3, 1)]))
case("checkpoint_index_over_its_own_count_alone", 11, two(
    second=SECOND + [("send", 0, 5)],
    first_checkpoints=[(3, 1)],
))
case("checkpoint_index_over_the_other_count_alone", 0, two(
    second=SECOND + [("send", 0, 5)],
    second_checkpoints=[(3, 1)],
), event=2)
case("checkpoint_index_0", 0, two(first_checkpoints=[(0, 1)]), event=2)
case("checkpoint_index_falls", 11, two(first_checkpoints=[(0, 1), (2, 2), (1, 3)]))
case("equal_checkpoint_indices", 0, two(first_checkpoints=[(1, 1), (1, 2)]), event=2)
case("identifier_0", 11, two(first_checkpoints=[(1, 0)]))
case("equal_identifiers", 11, two(first_checkpoints=[(1, 1), (2, 1)]))
case("identifier_falls", 11, two(first_checkpoints=[(0, 1), (1, 3), (2, 2)]))
case("identifiers_in_each_byte", 0, two(
    first_checkpoints=[(0, 2), (1, 256), (1, 65536), (2, 16777216), (2, 4294967295)],
), event=2)
case("identifiers_start_anew_in_each_worker", 0, two(
    first_checkpoints=[(1, 5), (2, 6)],
    second_checkpoints=[(0, 2)],
), event=2)
case("last_checkpoint_of_the_last_worker", 11, two(second_checkpoints=[(0, 1), (1, 2), (2, 2)]))

# ---- 24: "a form 2 log with two receives of one send"; "Form 1 still permits repeats"

TWICE = FIRST + [("receive", 1, 2, 5)]
case("a_send_received_twice_in_form_2", 24, two(first=TWICE, form=2), event=3)
case("tube_log_in_form_2", 0, in_form(tube(), 2), worker=0, event=2, covering=(0,))
assert reference.printed(CONTENT["tube_log_in_form_2"]) == reference.printed(CONTENT["tube_log"])
# the repeat stands behind the last event that is counted: it is no event
case("repeat_past_the_event_count", 0, two(first=TWICE, fields={(0, "event count"): 2}, form=2), event=2)
case("repeat_with_sections_in_reverse_order", 24, two(
    first=TWICE,
    places=[("checkpoints", 1), ("events", 1), ("checkpoints", 0), ("events", 0)],
    form=2,
))
# one of the two receives is with its data logged, or both are
for name, kinds in (
    ("logged_and_then_without_data", ("logged", "receive")),
    ("without_data_and_then_logged", ("receive", "logged")),
    ("logged_twice", ("logged", "logged")),
):
    case("a_send_received_" + name, 24, two(first=FIRST[:1] + [(kind, 1, 2, 4 + x) for x, kind in enumerate(kinds)], form=2))
# receives of both kinds, of two sends
case("a_logged_receive_and_one_without_data", 0, two(
    first=[("send", 1, 1), ("logged", 1, 2, 5), ("receive", 1, 3, 6)],
    second=SECOND + [("send", 0, 4)],
    form=2,
), event=3)


def one_receives_twice(n, w):
    """The n workers of each_to_the_next; worker w receives its message twice."""
    workers = each_to_the_next(n)
    workers[w].events.append(("receive", (w - 1) % n, 1, 3))
    return workers


# event 1 of every worker is received, each by another worker
case("each_of_3_receives_once", 0, build(each_to_the_next(3), form=2), worker=2, event=2)
case("first_of_3_receives_twice", 24, build(one_receives_twice(3, 0), form=2))
case("last_of_3_receives_twice", 24, build(one_receives_twice(3, 2), form=2))
case("first_of_64_receives_twice", 24, build(one_receives_twice(MAX_WORKERS, 0), form=2))
case("last_of_64_receives_twice", 24, build(one_receives_twice(MAX_WORKERS, LAST), form=2))


def received(named, senders=1, sends=4, first=False, shared=False, form=2):
    """The last worker, or the first, receives sends of the others, each given by the sender's number and the send's index.

    sends   how many each of the others has
    shared  the events of all the others are the same bytes
    """
    n = senders + 1
    receiver = 0 if first else senders
    sending = [w for w in range(n) if w != receiver]
    workers = [Worker(w % 4, [("send", receiver, x) for x in range(1, sends + 1)]) for w in range(n)]
    workers[receiver].events = [("receive", sending[k], x, sends + y) for y, (k, x) in enumerate(named, 1)]
    if not shared:
        return build(workers, form=form)
    offsets = {(w, "event offset"): 8 + 20 * n for w in sending}
    return build(workers, places=[("events", sending[0]), ("events", receiver)], fields=offsets, form=form)


def of_one(*named):
    """The sends of the first sender with these indices."""
    return [(0, x) for x in named]


# The name has the indices of the sends in the order in which they are received: without a repeat rising, falling and mixed; the
# repeat next to its first receive; the repeat farther away, of the smallest, of the largest and of another index.
for named, number in (
    ((1, 2, 3), 0), ((3, 2, 1), 0), ((2, 4, 1, 3), 0),
    ((1, 2, 2, 3), 24), ((3, 2, 2, 1), 24),
    ((1, 2, 3, 1), 24), ((3, 1, 2, 3), 24), ((2, 4, 1, 2, 3), 24),
):
    case("received_" + "_".join("%d" % x for x in named), number, received(of_one(*named)), worker=1, event=len(named))
case("received_3_1_2_3_in_form_1", 0, received(of_one(3, 1, 2, 3), form=1), worker=1, event=4)

# Two senders: a send is named by its sender and its index.
for name, named, number in (
    ("the_same_index_of_two_senders", ((0, 1), (1, 1)), 0),
    ("two_senders_in_turn", ((1, 2), (0, 2), (1, 1), (0, 1)), 0),
    ("repeat_after_a_receive_from_another_sender", ((0, 1), (1, 2), (0, 1)), 24),
    ("repeat_of_the_first_of_two_senders_in_turn", ((0, 2), (1, 1), (0, 1), (1, 2), (0, 2)), 24),
    ("repeat_of_the_last_of_two_senders_in_turn", ((0, 1), (1, 1), (0, 2), (1, 2), (0, 3), (1, 1)), 24),
):
    case(name, number, received(named, senders=2), worker=2, event=len(named))

# Two sends of one worker whose indices are so far apart.
for apart in (8, 64, 256, 4096):
    case("sends_%d_apart" % apart, 0, received(of_one(1 + apart, 1), sends=1 + apart), worker=1, event=2)


def far_apart(named, form=2):
    """Worker 1 receives one of two sends of worker 0, sends 5,452 times and receives one again; the events of longest_input."""
    between = [("send", 0, stamp) for stamp in range(4, 5456)]
    events = [("receive", 0, named[0], 3)] + between + [("receive", 0, named[1], 5456)]
    return build([Worker(0, [("send", 1, 1), ("send", 1, 2)]), Worker(0, events)], form=form)


case("repeat_far_away", 24, far_apart((1, 1)), worker=1, event=5454)
case("repeat_far_away_in_form_1", 0, far_apart((1, 1), form=1), worker=1, event=5454)
case("receives_far_apart", 0, far_apart((2, 1)), worker=1, event=5454)
# every send is received, the last one first; the repeat is of the send that was received first
FALLING = of_one(*range(2727, 0, -1))
case("receives_of_2727_sends_fall", 0, received(FALLING, sends=2727), worker=1, event=2727)
case("receives_of_2727_sends_fall_and_one_repeated", 24, received(FALLING + FALLING[:1], sends=2727), worker=1, event=2728)

# the one event of worker 1 is the second of worker 0, and worker 2 receives both: they are two sends of the same bytes
case("two_sends_that_share_a_record", 0, build(
    [
        Worker(0, [("send", 2, 1), ("send", 2, 2)]),
        Worker(0, [("send", 2, 2)]),
        Worker(0, [("receive", 0, 2, 3), ("receive", 1, 1, 4)]),
    ],
    places=[("events", 0), ("events", 2)],
    fields={(1, "event offset"): 68 + 12},
    form=2,
), worker=2, event=2)
# worker 63 receives one send from each of the others, from the last of them first; they all share the bytes of the send
EACH = [(k, 1) for k in range(LAST)][::-1]
case("one_from_each_of_63_that_share_bytes", 0, received(EACH, LAST, sends=1, shared=True), worker=LAST, event=LAST)
case("repeat_from_one_of_63_that_share_bytes", 24, received(EACH + EACH[:1], LAST, sends=1, shared=True), worker=LAST, event=1)


def counted_case(name, number, count, named, senders, sends, first=False):
    """Senders that share bytes, so that the count of all events is larger than that of the records."""
    assert count == senders * sends + len(named), name
    case(name, number, received(named, senders, sends, first, shared=True), worker=0 if first else senders, event=len(named))


# indices that are the same in all senders, or differ by 8, 64, 256, 512 and 1,024
MIXED = [(k, x) for x in (2000, 1025, 513, 257, 65, 9, 2, 1) for k in range(4, -1, -1)]
counted_case("mixed_receives_in_10040_events", 0, 10040, MIXED, 5, 2000)
counted_case("mixed_receives_in_10041_events_and_the_first_repeated", 24, 10041, MIXED + MIXED[:1], 5, 2000)
counted_case("mixed_receives_in_10041_events_and_the_last_repeated", 24, 10041, MIXED + MIXED[-1:], 5, 2000)
# the receiver is the first worker, so the last event of the log is a send that is received; its receive is repeated
TO_THE_FIRST = [(3, 2046), (0, 1), (3, 1), (0, 2046), (1, 1024), (1, 1023), (2, 1025), (2, 2046), (2, 1)]
counted_case("mixed_receives_in_8192_events", 0, 8192, TO_THE_FIRST[:8], 4, 2046, first=True)
counted_case("mixed_receives_in_8192_events_and_one_repeated", 24, 8192, TO_THE_FIRST[:7] + TO_THE_FIRST[:1], 4, 2046, first=True)
counted_case("mixed_receives_in_8193_events", 0, 8193, TO_THE_FIRST, 4, 2046, first=True)
counted_case("mixed_receives_in_8193_events_and_one_repeated", 24, 8193, TO_THE_FIRST[:8] + TO_THE_FIRST[:1], 4, 2046, first=True)
# where the events of the senders are counted on from one to the next, those of the last are 8,192 after those of the first
APART = [(4, 1), (0, 1), (4, 2048), (0, 2048)]
counted_case("sends_8192_apart_in_the_log", 0, 10244, APART, 5, 2048)
counted_case("sends_8192_apart_in_the_log_and_one_repeated", 24, 10245, APART + APART[1:2], 5, 2048)

# ---- Several numbers at once: "The smallest number that applies is given", over the whole log

case("1_before_2", 1, bytes([3, 0, 1, 0, 7, 0, 0]))
case("2_before_3", 2, build([], form=3))
case("2_before_24", 2, two(first=TWICE, form=3))
case("3_before_4", 3, two(size=MAX_WORKERS + 1, length=0))
case("4_before_5", 4, two(length=111, roles=(4, 4)))
case("5_in_the_last_worker_before_6_in_the_first", 5, two(roles=(0, 4), fields={(0, "event offset"): 0}))
case("6_in_the_last_worker_before_7_in_the_first", 6, two(
    first=FIRST + [("raw", 0, 1, 0, 2, 5)],
    fields={(1, "checkpoint offset"): 0},
))
case("7_in_the_last_worker_before_8_in_the_first", 7, two(
    first=[("send", 1, 0), ("receive", 1, 2, 4)],
    second=SECOND + [("raw", 0, 0, 0, 1, 5)],
))
case("7_in_an_event_after_8", 7, two(first=FIRST + [("send", 1, 4), ("send", 0, 5)]))
case("7_and_8_in_one_event", 7, two(first=FIRST + [("raw", 1, 1, 1, 0, 0)]))
case("7_in_the_last_worker_before_11_in_the_first", 7, two(
    first_checkpoints=[(1, 0)],
    second=SECOND + [("send", 2, 5)],
))
case("8_in_the_last_worker_before_9_in_the_first", 8, two(
    first=FIRST + [("receive", 1, 1, 5)],
    second=SECOND + [("send", 0, 3)],
))
case("8_and_10_in_one_event", 8, two(first=[("send", 1, 3), ("receive", 1, 2, 3)], second=[("send", 0, 1), ("send", 0, 3)]))
case("8_in_the_last_worker_before_11_in_the_first", 8, two(
    first_checkpoints=[(1, 0)],
    second=SECOND + [("send", 0, 3)],
))
case("9_in_the_last_worker_before_10_in_the_first", 9, two(
    first=[("send", 1, 1), ("receive", 1, 2, 3)],
    second=SECOND + [("receive", 0, 2, 5)],
))
case("9_and_10_in_one_event", 9, two(first=[("send", 1, 1), ("receive", 1, 1, 2)]))
case("10_in_the_last_worker_before_11_in_the_first", 10, two(
    second=[("receive", 0, 1, 1), ("send", 0, 3)],
    first_checkpoints=[(1, 0)],
))
case("7_8_9_10_and_11_at_once", 7, build([
    Worker(0, [("send", 1, 0), ("receive", 1, 1, 6)], [(3, 0)]),
    Worker(0, [("receive", 0, 1, 2), ("receive", 0, 2, 5)]),
    Worker(0, [("send", 3, 1)]),
]))
case("4_5_6_and_7_at_once", 4, two(
    first=FIRST + [("raw", 255, 255, 255, 255, 5)],
    roles=(0, 4),
    fields={(0, "checkpoint offset"): 4294967295},
    length=4294967295,
))
case("8_and_24_in_one_event", 8, two(first=FIRST + [("receive", 1, 2, 4)], form=2))
case("9_and_24_in_one_event", 9, two(first=FIRST + [("receive", 1, 1, 5), ("receive", 1, 1, 6)], form=2))
case("10_in_the_last_worker_before_24_in_the_first", 10, two(
    first=TWICE,
    second=[("receive", 0, 1, 1), ("send", 0, 3)],
    form=2,
))
case("11_in_the_last_worker_before_24_in_the_first", 11, two(first=TWICE, second_checkpoints=[(2, 0)], form=2))
case("11_in_the_first_worker_before_24_in_the_last", 11, two(
    first_checkpoints=[(3, 1)],
    second=SECOND + [("receive", 0, 1, 4)],
    form=2,
))
# for `plan`: the worker is past the last one, and the event is 0
case("11_before_the_breakpoint", 11, two(second_checkpoints=[(1, 0)]), worker=2, event=0)
# 24 is given before 12 and 13, which are given in form 1: the worker is past the last one, or the event is 0
for worker, event in ((2, 1), (0, 0)):
    case("24_before_the_breakpoint_%d_%d" % (worker, event), 24, two(first=TWICE, form=2), worker, event)
    case("a_send_received_twice_refused_%d_%d" % (worker, event), 0, two(first=TWICE), worker, event)


# ---- Packed logs: "header, then each worker's events and after them its checkpoints, in worker order, without gaps"
# A log that is given 26 is too long for an input of `plan`: reference.py --check and the Rust tests have such logs.

# the tube log and the log of two workers are packed already, in both forms
for log in (tube(), two()):
    assert all(reference.packed(reference.read(in_form(log, form))) == in_form(log, form) for form in reference.FORMS)


def pack_case(name, workers, places, fields=None, form=1, worker=0, event=1):
    """A case whose packed log is the log that `build` makes of these workers when it is given neither places nor fields."""
    log = build(workers, places, fields, form)
    case(name, 0, log, worker, event)
    wanted = build(workers, form=form)
    assert wanted != log, name + " is packed"
    assert reference.packed(reference.read(log)) == wanted, name + " has another packed log by the reference"


# no two of the workers have as many events or as many checkpoints
THREE = [
    Worker(3, [("send", 1, 1), ("send", 2, 2), ("receive", 1, 2, 5)], [(1, 1)]),
    Worker(0, [("logged", 0, 1, 3), ("send", 0, 4)], [(0, 1), (1, 2), (2, 5)]),
    Worker(2, [("receive", 0, 2, 6)], [(0, 3), (1, 4)]),
]
BOTH = ("events", "checkpoints")
# the first worker is the last one in the log
pack_case("workers_in_reverse_order", THREE, [(what, w) for w in (2, 1, 0) for what in BOTH], event=3)
pack_case("checkpoints_of_each_before_its_events", THREE, [(what, w) for w in range(3) for what in BOTH[::-1]], event=3)
pack_case("checkpoints_of_all_before_the_events", THREE, [(what, w) for what in BOTH[::-1] for w in range(3)], event=3)
SCATTERED = [
    5, ("events", 1), 1, ("checkpoints", 2), 8, ("checkpoints", 0), 3, ("events", 2), 12, ("checkpoints", 1), 2, ("events", 0), 20,
]
# every section is elsewhere, and there are gaps before the first one, between any two and after the last one
pack_case("sections_in_another_order_with_gaps", THREE, SCATTERED, event=3)
pack_case("sections_in_another_order_with_gaps_in_form_2", THREE, SCATTERED, form=2, event=3)
# a gap as long as an event
pack_case("gap_after_the_header", THREE, [12] + packed(THREE), event=3)
pack_case("gap_after_a_header_without_records", without_events(1), [3], event=0)

ALONE = [Worker(2, [], [(0, 7), (0, 9)])]
# n is 1: it has no event, since that needs a peer
case("checkpoints_of_one_worker", 0, build(ALONE), event=0)
pack_case("checkpoints_of_one_worker_after_a_gap", ALONE, [4, ("checkpoints", 0)], event=0)
# n is 64: the last worker's section is the first one in the log
pack_case("sixty_four_workers_in_reverse_order", [
    Worker(w % 4, [("send", (w + 1) % MAX_WORKERS, w + 1)] if w % 3 else [], [(0, w + 1)] if w % 2 else [])
    for w in range(MAX_WORKERS)
], [(what, w) for w in range(LAST, -1, -1) for what in BOTH[::-1]], form=2, worker=LAST, event=0)

# no events at all, and no checkpoints at all
pack_case("checkpoints_without_any_event", [Worker(w, [], [(0, c) for c in range(1, w + 2)]) for w in range(3)],
    [("checkpoints", 1), ("checkpoints", 2), 6, ("checkpoints", 0)], event=0)
pack_case("events_without_any_checkpoint", [Worker(worker.role, worker.events) for worker in THREE],
    [("events", 2), ("events", 0), 1, ("events", 1)], event=3)

# a worker without checkpoints, one without events and one without either: an empty section has the offset where it would begin
HALVES = [
    Worker(1, [("send", 2, 1), ("send", 2, 3)]), Worker(3, [], [(0, 1)]), Worker(2, [("receive", 0, 2, 4)], [(1, 2)]), Worker(3),
]
EMPTY = [(0, "checkpoint offset"), (1, "event offset"), (3, "event offset"), (3, "checkpoint offset")]
# it is at the header's end, inside a record of another section, or at the log's end
for place, at in (("the_header_end", 88), ("a_record", 88 + 5), ("the_log_end", 88 + 24 + 8 + 12 + 8)):
    pack_case("empty_sections_of_three_workers_at_" + place, HALVES, None, {field: at for field in EMPTY}, event=2)
# only this offset is another one than in the packed log
pack_case("packed_but_for_the_offset_of_empty_events", HALVES, None, {(1, "event offset"): 88}, event=2)
pack_case("packed_but_for_the_offset_of_empty_checkpoints", HALVES, None, {(0, "checkpoint offset"): 88 + 24 + 8}, event=2)

SHARING = [Worker(w, [("send", 4, 1), ("send", 4, 3)], [(0, 1), (1, 2), (2, 3)]) for w in range(4)]
# the packed log is longer: the first four workers have the same events and checkpoints, and each has them in the packed log
pack_case("packed_log_longer_than_the_log", SHARING + [Worker(0, [("receive", w, 2, 5 + w) for w in range(4)], [(0, 2)])],
    [("checkpoints", 0), ("events", 0), ("events", 4), ("checkpoints", 4)],
    {(w, what): at for w in range(4) for what, at in (("checkpoint offset", 108), ("event offset", 108 + 24))}, worker=4, event=4)
# the checkpoints of worker 1 are the last two of worker 0 and those of worker 2 its last one
pack_case("checkpoints_that_are_the_last_of_others", [
    Worker(0, [("send", 1, 1)], [(0, 1), (0, 5), (0, 6)]), Worker(1, [], [(0, 5), (0, 6)]), Worker(2, [], [(0, 6)]),
], [("checkpoints", 0), ("events", 0)], {(1, "checkpoint offset"): 68 + 8, (2, "checkpoint offset"): 68 + 16})

# every byte of the stamps and of the identifiers is another number and none is 0; the spare bytes stay 0
pack_case("stamps_and_identifiers_of_four_bytes", [
    Worker(1, [("send", 1, 0x0A0B0C0D), ("receive", 1, 2, 0xF1F2F3F4)], [(0, 0x11121314), (1, 0x21222324), (2, 0xFFFEFDFC)]),
    Worker(2, [("receive", 0, 1, 0x1A1B1C1D), ("send", 0, 0xE1E2E3E4)], [(2, 0x5A5B5C5D)]),
], [("checkpoints", 1), ("events", 0), 1, ("checkpoints", 0), ("events", 1)], event=2)
MANY = 258
# more than 255 events, so that counts, offsets, peer events and indices of two bytes are moved
pack_case("numbers_of_two_bytes", [
    Worker(0, [("send", 1, x) for x in range(1, MANY + 1)], [(1, 1), (MANY, MANY)]),
    Worker(1, [("receive", 0, MANY, 300), ("receive", 0, 1, 301)], [(2, 513)]),
], [("events", 1), ("checkpoints", 1), ("events", 0), ("checkpoints", 0)], worker=1, event=2)

TWICE_SCATTERED = [2, ("events", 1), ("checkpoints", 1), 4, ("checkpoints", 0), ("events", 0)]
# 24 in a log whose sections are elsewhere; form 1 has a packed log
case("a_send_received_twice_in_another_order", 0, two(first=TWICE, places=TWICE_SCATTERED), event=3)
case("a_send_received_twice_in_another_order_in_form_2", 24, two(first=TWICE, places=TWICE_SCATTERED, form=2), event=3)


# ---- Accepted logs for the vector, the lower cut, the upper line and the cut test


def cut_case(name, log, worker, event):
    case(name, 0, log, worker, event)


# Every breakpoint of the tube log but 0/2, which is the case tube_log.
for worker, last in enumerate((3, 4, 3)):
    for event in range(1, last + 1):
        if (worker, event) != (0, 2):
            cut_case("tube_log_%d_%d" % (worker, event), tube(), worker, event)

# 12: "worker number not below n"; 13: "event 0 or over the worker's count"
for worker, event in ((0, 0), (0, 4), (1, 5), (0, 65537), (0, 4294967295), (3, 1), (3, 0), (256, 1), (4294967295, 1)):
    cut_case("tube_log_refused_%d_%d" % (worker, event), tube(), worker, event)

# the largest peer event is named by the first, by the second and by the last receive
for place, sends in (("first", (4, 2, 3)), ("middle", (2, 4, 3)), ("last", (2, 3, 4))):
    cut_case("largest_send_named_%s" % place, build([
        Worker(0, [("receive", 1, send, 10 + x) for x, send in enumerate(sends)]),
        Worker(0, [("send", 0, stamp) for stamp in (1, 2, 3, 4)]),
    ]), 0, 3)
# the cut of worker 2 hangs on the first receive of worker 1, not on its last one
cut_case("largest_send_named_first_in_a_direct_dependency", build([
    Worker(0, [("receive", 1, 3, 9)]),
    Worker(0, [("receive", 2, 2, 6), ("receive", 2, 1, 7), ("send", 0, 8)]),
    Worker(0, [("send", 1, 1), ("send", 1, 2), ("send", 1, 3)]),
]), 0, 1)


def chain(order):
    """The first worker of the order sends to the second, that one then to the third, and so on; a worker may come again."""
    workers = [Worker(w % 4) for w in range(max(order) + 1)]
    for place, w in enumerate(order):
        if place > 0:
            sender = order[place - 1]
            workers[w].events.append(("receive", sender, len(workers[sender].events), 2 * place))
        if place + 1 < len(order):
            workers[w].events.append(("send", order[place + 1], 2 * place + 1))
    return workers


cut_case("three_workers_deep", build(chain([2, 1, 0])), 0, 1)
cut_case("five_workers_deep_up", build(chain([4, 3, 2, 1, 0])), 0, 1)
cut_case("five_workers_deep_down", build(chain([0, 1, 2, 3, 4])), 4, 1)
cut_case("five_workers_deep_mixed", build(chain([3, 0, 4, 1, 2])), 2, 1)
cut_case("five_workers_deep_from_the_middle", build(chain([3, 0, 4, 1, 2])), 4, 2)
cut_case("sixty_four_workers_deep_up", build(chain(list(range(LAST, -1, -1)))), 0, 1)
cut_case("sixty_four_workers_deep_down", build(chain(list(range(MAX_WORKERS)))), LAST, 1)
cut_case("sixty_four_workers_before_the_first", build(chain(list(range(MAX_WORKERS)))), 0, 1)
cut_case("sixty_four_workers_from_the_middle", build(chain(list(range(MAX_WORKERS)))), 31, 1)

# worker 1 is visited at event 1, and again at event 3 because of worker 2
AGAIN = [
    Worker(0, [("receive", 1, 1, 8), ("receive", 2, 2, 9)]),
    Worker(1, [("send", 0, 1), ("send", 2, 2), ("send", 2, 3)]),
    Worker(2, [("receive", 1, 3, 4), ("send", 0, 5)]),
]
cut_case("a_worker_visited_again", build(AGAIN), 0, 2)
# the same with workers 1 and 2 exchanged: worker 2 is visited at event 3, and its event 1 is then within the cut
cut_case("a_worker_visited_at_its_largest_event_first", build([
    Worker(0, [("receive", 2, 1, 8), ("receive", 1, 2, 9)]),
    Worker(2, [("receive", 2, 3, 4), ("send", 0, 5)]),
    Worker(1, [("send", 0, 1), ("send", 1, 2), ("send", 1, 3)]),
]), 0, 2)
# worker 1 is visited twice, and both times it names the same send of worker 3, which is visited once
cut_case("a_send_received_again_before_the_second_visit", build([
    Worker(0, [("receive", 1, 2, 10), ("receive", 2, 2, 11)]),
    Worker(1, [("receive", 3, 1, 2), ("send", 0, 3), ("receive", 3, 1, 4), ("send", 2, 5)]),
    Worker(2, [("receive", 1, 4, 6), ("send", 0, 7)]),
    Worker(3, [("send", 1, 1)]),
]), 0, 2)
# what the breakpoint's worker receives after the breakpoint event is not within the cut
cut_case("receive_after_the_breakpoint", build(AGAIN), 0, 1)
# worker 1 gets the breakpoint's message by worker 2 before it gets it itself
cut_case("message_by_another_worker_first", build([
    Worker(0, [("send", 1, 1), ("send", 2, 2), ("send", 1, 3)]),
    Worker(0, [("receive", 0, 1, 4), ("receive", 2, 2, 5), ("receive", 0, 3, 6), ("send", 2, 7)]),
    Worker(0, [("receive", 0, 2, 3), ("send", 1, 4), ("send", 0, 5), ("receive", 1, 4, 8)]),
]), 0, 2)
# the breakpoint event is received twice, the first time by a receive with its data logged
cut_case("breakpoint_received_twice", build([
    Worker(0, [("send", 1, 1), ("send", 1, 2), ("send", 1, 3)]),
    Worker(0, [("receive", 0, 3, 4), ("receive", 0, 1, 5), ("logged", 0, 2, 6), ("receive", 0, 2, 7)]),
]), 0, 2)
cut_case("breakpoint_never_received", build([
    Worker(0, [("send", 1, 1), ("send", 1, 2), ("send", 1, 3)]),
    Worker(0, [("receive", 0, 1, 4), ("send", 0, 5)]),
]), 0, 2)


def exchange(rounds):
    """Two workers: worker 0 sends, worker 1 receives and sends back, worker 0 receives, and so on."""
    first, second = [], []
    for r in range(rounds):
        first += [("send", 1, 4 * r + 1), ("receive", 1, 2 * r + 2, 4 * r + 4)]
        second += [("receive", 0, 2 * r + 1, 4 * r + 2), ("send", 0, 4 * r + 3)]
    return [Worker(0, first), Worker(1, second)]


cut_case("exchange_of_300_messages", build(exchange(150)), 0, 200)


def many_visits(a, b, c):
    """A visit to worker 0 leads to a workers, each of these to b more, and each of these visits to c more: no two alike."""
    n = 1 + a + b + c
    first = list(range(1, 1 + a))
    second = list(range(1 + a, 1 + a + b))
    third = list(range(1 + a + b, n))
    workers = [Worker() for _ in range(n)]
    clock = [0]

    def add(w, *event):
        clock[0] += 1
        workers[w].events.append(event + (clock[0],))
        return len(workers[w].events)

    for w in first:
        for v in second:
            for u in third:
                add(v, "receive", u, add(u, "send", v))
            add(w, "receive", v, add(v, "send", w))
        add(0, "receive", w, add(w, "send", 0))
    return workers


cut_case("many_visits", build(many_visits(8, 8, 8)), 0, 8)
# as many visits as "1 + the receives within the cut"
assert len(reference.figure2(reference.read(CONTENT["many_visits"][8:]), 0, 8)[1]) == 1 + 8 + 8 * 8 + 8 * 8 * 8


# ---- Accepted logs for the plan, the covering sets and the replay


def units_and_words(log, worker, event, table):
    """The units and the words of a plan by the reference."""
    _, _, _, units, _, words = reference.plan_call(log, worker, event, table, [0] * (3 * MAX_WORKERS), reference.scratch_words(MAX_WORKERS))
    return units, words


def plan_case(name, workers, worker, event, starts, identifiers=None, units=None, covering=(0,), cut=None):
    """A case whose starts and what else is given were worked out by hand."""
    log = workers if isinstance(workers, bytes) else build(workers)
    case(name, 0, log, worker, event, covering)
    reference.check_floor(reference.read(log), worker, event, name)
    found_units, words = units_and_words(log, worker, event, BUILT_IN)
    n = len(starts)
    assert words[1:3 * n:3] == list(starts), "%s: starts %r by the reference" % (name, words[1:3 * n:3])
    assert identifiers in (None, words[2:3 * n:3]), "%s: identifiers %r by the reference" % (name, words[2:3 * n:3])
    assert units in (None, found_units), "%s: units %d by the reference" % (name, found_units)
    assert cut in (None, words[0:3 * n:3]), "%s: cut %r by the reference" % (name, words[0:3 * n:3])


# Every breakpoint of the tube log with receive 2/2 of kind 3, but 0/2. Set 1 does not cover: receive 1/1 of worker 2 is after its
# worker's checkpoint and of the send at the sender's.
for worker, event, starts in (
    (0, 1, (1, 0, 0)), (0, 3, (1, 1, 2)),
    (1, 1, (0, 1, 0)), (1, 2, (0, 1, 2)), (1, 3, (0, 1, 2)), (1, 4, (1, 1, 2)),
    (2, 1, (0, 0, 0)), (2, 2, (0, 0, 2)), (2, 3, (0, 0, 2)),
):
    plan_case("tube_log_receive_2_2_logged_%d_%d" % (worker, event), tube("logged"), worker, event, starts)
# receive 2/2 alone is of a send at the checkpoint and without its data: set 1 does not cover
plan_case("tube_log_receive_1_1_logged", tube(kind_of_1_1="logged"), 2, 3, (0, 1, 2), [0, 1, 1], units=5)
# both have their data: set 1 covers, and a plan with its checkpoints within the cut starts every worker there, worker 2 at its cut
plan_case("tube_log_receives_2_2_and_1_1_logged", tube("logged", "logged"), 1, 4, (1, 1, 2), [1, 1, 1], units=19, covering=(0, 1))


# ---- Which checkpoint: worker 1 receives the second and then the third of three sends


def second_of_three(checkpoints, kind="receive", receiver_checkpoints=()):
    sends = [("send", 1, stamp) for stamp in (1, 2, 3)]
    return [Worker(0, sends, checkpoints), Worker(1, [(kind, 0, 2, 4), ("receive", 0, 3, 5)], receiver_checkpoints)]


plan_case("checkpoint_at_the_send", second_of_three([(2, 1)]), 1, 1, (0, 0), [0, 0])
plan_case("checkpoint_before_the_send", second_of_three([(1, 1)]), 1, 1, (1, 0), [1, 0])
plan_case("checkpoints_at_and_before_the_send", second_of_three([(1, 1), (2, 2)]), 1, 1, (1, 0), [1, 0])
plan_case("checkpoint_at_the_send_of_a_logged_receive", second_of_three([(1, 1), (2, 2)], "logged"), 1, 1, (2, 0), [2, 0])
plan_case("checkpoint_at_the_send_of_an_earlier_receive", second_of_three(
    [(1, 1), (2, 2)], receiver_checkpoints=[(1, 1)]), 1, 1, (2, 1), [2, 1], covering=(0, 1))
plan_case("checkpoint_at_the_later_send", second_of_three(
    [(1, 1), (2, 2), (3, 3)], receiver_checkpoints=[(1, 1)]), 1, 2, (2, 1), [2, 1], covering=(0, 1))
# the second receive of worker 1 is past the cut
plan_case("receive_past_the_cut", [
    Worker(0, [("send", 1, 1), ("send", 1, 2), ("receive", 1, 1, 4)], [(1, 1)]),
    Worker(1, [("send", 0, 3), ("receive", 0, 1, 5)]),
], 0, 3, (1, 0), [1, 0])
# set 1 covers, but not all of its checkpoints are within the cut: worker 1 starts before its own
plan_case("checkpoints_past_the_cut", second_of_three([(1, 1), (3, 2)], receiver_checkpoints=[(2, 1)]), 0, 2,
    (1, 0), [1, 0], covering=(0, 1))
plan_case("no_checkpoints", second_of_three([]), 1, 2, (0, 0), [0, 0])

# ---- Several checkpoints of one index, and of index 0

SEVERAL = [(0, 1), (0, 2), (1, 3), (1, 5), (1, 7), (2, 8), (2, 9), (3, 10)]
plan_case("several_checkpoints_of_index_1", second_of_three(SEVERAL), 1, 1, (1, 0), [7, 0])
plan_case("several_checkpoints_of_index_2", second_of_three(SEVERAL, "logged"), 1, 1, (2, 0), [9, 0])
plan_case("several_checkpoints_of_the_last_index", second_of_three([(3, 1), (3, 2), (3, 4)]), 0, 3, (3, 0), [4, 0])
plan_case("checkpoint_of_index_0_recorded", second_of_three([(0, 3), (2, 4)]), 1, 1, (0, 0), [3, 0])
plan_case("checkpoints_of_index_0_recorded", second_of_three(
    [(0, 3), (0, 6), (2, 7)], receiver_checkpoints=[(0, 2), (0, 3)]), 1, 1, (0, 0), [6, 3], covering=(0, 3))
plan_case("checkpoints_of_index_0_of_a_worker_without_events_in_the_cut", second_of_three(
    [(1, 1)], receiver_checkpoints=[(0, 2), (0, 4294967295)]), 0, 1, (1, 0), [1, 4294967295])

# ---- 1,024 checkpoints


def sends_with_checkpoints(named, kind="receive"):
    """1,024 sends of worker 0, a checkpoint after each; worker 1 receives one of them and then the last."""
    return [
        Worker(0, [("send", 1, x) for x in range(1, 1025)], [(x, x) for x in range(1, 1025)]),
        Worker(1, [("logged", 0, 1024, 2000), (kind, 0, named, 2001)]),
    ]


for named in (1, 2, 513, 1024):
    plan_case("lowered_below_send_%d_of_1024" % named, sends_with_checkpoints(named), 1, 2, (named - 1, 0), [named - 1, 0])
plan_case("latest_of_1024_checkpoints", sends_with_checkpoints(1, "logged"), 1, 2, (1024, 0), [1024, 0])
plan_case("last_listed_of_1024_checkpoints_of_one_index", [
    Worker(0, [("send", 1, 1)], [(1, 4 * c + 4) for c in range(1024)]), Worker(),
], 0, 1, (1, 0), [4096, 0])

# ---- Chains in which one lowered start lowers the next


def after_each(what, workers):
    """These workers with a checkpoint after each of these events."""
    for worker in workers:
        indices = [x for x, event in enumerate(worker.events, 1) if event[0] in what]
        worker.checkpoints = [(x, c) for c, x in enumerate(indices, 1)]
    return workers


def changed(workers, w, events=None, checkpoints=None):
    """These workers with other events or checkpoints of worker w."""
    workers[w] = Worker(workers[w].role, workers[w].events if events is None else events,
        workers[w].checkpoints if checkpoints is None else checkpoints)
    return workers


UP = list(range(MAX_WORKERS))
DOWN = UP[::-1]
plan_case("all_of_64_lowered_up", after_each(["send"], chain(UP)), LAST, 1, [0] * MAX_WORKERS)
plan_case("all_of_64_lowered_down", after_each(["send"], chain(DOWN)), 0, 1, [0] * MAX_WORKERS)
# worker 31 may start after its receive: those before it stay at their latest
plan_case("half_of_64_lowered", changed(after_each(["send"], chain(UP)), 31, checkpoints=[(1, 1), (2, 2)]), LAST, 1,
    [1] + [2] * 30 + [1] + [0] * 32)
# worker 31 has the data of its receive
plan_case("half_of_64_lowered_by_a_logged_receive", changed(
    after_each(["send"], chain(UP)), 31, events=[("logged", 30, 2, 62), ("send", 32, 63)]), LAST, 1,
    [1] + [2] * 30 + [0] * 33)
# the worker of the breakpoint may start after its receive: nothing is lowered; set 1 is at the last event of every worker
plan_case("none_of_64_lowered", changed(after_each(["send"], chain(UP)), LAST, checkpoints=[(1, 1)]), LAST, 1,
    [1] + [2] * 62 + [1], covering=(0, 1))
# each worker but the last is lowered twice: the chain goes to worker 63 and back. Set 1 is at the first send of each worker, and
# one receive after it is of such a send: of the only send of the worker where the chain turns
plan_case("all_of_64_lowered_up_and_back", after_each(["send"], chain(UP + DOWN[1:])), 0, 2, [0] * MAX_WORKERS)
plan_case("all_of_64_lowered_down_and_back", after_each(["send"], chain(DOWN + UP[1:])), LAST, 2, [0] * MAX_WORKERS)
# on the way back the data of the receive of worker 63 are logged: each is lowered once. Set 1 still lacks the data of that receive
# of worker 62
plan_case("each_of_64_lowered_once", changed(
    after_each(["send"], chain(UP + DOWN[1:])), LAST, events=[("logged", 62, 2, 126), ("send", 62, 127)]), 0, 2,
    [1] + [2] * 62 + [0])
plan_case("all_of_5_lowered_in_mixed_order", after_each(["send"], chain([3, 0, 4, 1, 2])), 2, 1, [0] * 5)
# 75 rounds with checkpoints after the sends: every start is lowered round by round to 0. No recorded set covers: the first receive
# of worker 0 after its checkpoint is of the send at that of worker 1
plan_case("lowered_150_times", after_each(["send"], exchange(75)), 0, 150, (0, 0))
# with checkpoints after the receives nothing is lowered, and every set covers: later receives are of later sends
plan_case("lowered_no_time", after_each(["receive"], exchange(75)), 0, 150, (150, 149), covering=(0, 1, 2, 3, 6, 7, 8))

# ---- Kinds mixed, and every role


def kinds_mixed(kinds):
    """Worker 1 receives send 1, send 3, send 2 and send 3 of worker 0, of these kinds. Worker 0 has every checkpoint."""
    events = [(kind, 0, send, 10 + send + x) for x, (kind, send) in enumerate(zip(kinds, (1, 3, 2, 3)))]
    for x in range(1, 4):
        events[x] = events[x][:3] + (max(events[x][3], events[x - 1][3] + 1),)
    return [Worker(2, [("send", 1, x) for x in (1, 2, 3)], [(1, 1), (2, 2), (3, 3)]), Worker(3, events)]


for name, kinds, start in (
    ("all_logged", ("logged", "logged", "logged", "logged"), 3),
    ("first_without_data", ("receive", "logged", "logged", "logged"), 0),
    ("second_without_data", ("logged", "receive", "logged", "logged"), 2),
    ("third_without_data", ("logged", "logged", "receive", "logged"), 1),
    ("fourth_without_data", ("logged", "logged", "logged", "receive"), 2),
    ("second_and_third_without_data", ("logged", "receive", "receive", "logged"), 1),
):
    plan_case("kinds_mixed_" + name, kinds_mixed(kinds), 1, 4, (start, 0), [start, 0])

# 1 send, 10 receives without data and 100 with data: the digits of the units are the units of a send, and so on.
# Worker 1 starts before its send, 1 event of role 0: 2 units more.
for role, units in ((0, 532), (1, 642), (2, 983), (3, 752)):
    events = [("send", 1, 1)] + [("receive" if x < 10 else "logged", 1, 1, 2 + x) for x in range(110)]
    plan_case("units_of_role_%d" % role, [Worker(role, events), Worker(0, [("send", 0, 1)], [(1, 1)])], 0, 111,
        (0, 0), units=units + 2)
# every kind in every role is replayed once (56 units), and each other worker's last event is a send to worker 0: 7 + 9
plan_case("every_kind_in_every_role", [
    Worker(w, [("send", (w + 1) % 4, 1), ("receive", (w - 1) % 4, 1, 2), ("logged", (w - 1) % 4, 1, 3)]
        + ([("receive", v, 4, 4 + v) for v in (1, 2, 3)] if w == 0 else [("send", 0, 4)]))
    for w in range(4)
], 0, 6, (0, 0, 0, 0), units=56 + 7 + 9)

# ---- Covering sets


def covering_workers(kind, first, second, third=None, send=1):
    """Worker 1 receives this send of worker 0, its last but one, as its second event; a third worker, if given, has no events."""
    workers = [
        Worker(0, [("send", 1, x) for x in range(1, send + 2)], first),
        Worker(1, [("send", 0, 1), (kind, 0, send, send + 2)], second),
    ]
    return workers + ([] if third is None else [Worker(2, [], third)])


SETS = [(1, 1), (2, 2), (2, 3)], [(1, 1), (1, 2), (2, 3)]
# set 1: the send is at the sender's checkpoint; set 2: it is before it; set 3: every checkpoint is at the last event of its worker
plan_case("covering_set_without_data", covering_workers("receive", *SETS), 1, 2, (1, 2), [1, 3], covering=(0, 3))
plan_case("covering_set_with_data", covering_workers("logged", *SETS), 1, 2, (1, 2), [1, 3], covering=(0, 1, 2, 3))
AROUND = [(1, 1), (2, 2), (3, 3)], [(1, 1), (1, 2), (1, 3)]
# set 1: the send is one after the sender's checkpoint; set 2: it is at it; set 3: it is one before it
plan_case("send_after_at_and_before_the_checkpoint", covering_workers("receive", *AROUND, send=2), 1, 2, (1, 1), [1, 3],
    covering=(0, 1))
# the same with the receive's data logged
plan_case("send_after_at_and_before_the_checkpoint_with_data", covering_workers("logged", *AROUND, send=2), 1, 2, (2, 1), [2, 3],
    covering=(0, 1, 2, 3))
# the send is at the sender's checkpoint; set 1: the receive is two after its worker's; set 2: one after it; set 3: at it
plan_case("receive_after_and_at_its_checkpoint", covering_workers(
    "receive", [(2, 1), (2, 2), (2, 3)], [(0, 1), (1, 2), (2, 3)], send=2), 1, 2, (2, 2), [3, 3], covering=(0, 3))
# set 1: every send is at its worker's checkpoint and every receive after it; set 2: every receive is at it, and nothing after it
plan_case("sets_at_the_sends_and_at_the_receives", [
    Worker(worker.role, worker.events, [(1, 1), (2, 2)]) for worker in each_to_the_next(3)
], 0, 2, (2, 0, 1), [2, 0, 1], covering=(0, 2))
plan_case("set_lacking_in_the_first", covering_workers("logged", [(1, 1), (2, 3)], SETS[1]), 1, 2, (1, 2), [1, 3],
    covering=(0, 1, 3))
plan_case("set_lacking_in_the_last", covering_workers("logged", SETS[0], [(1, 1), (1, 2)]), 1, 2, (1, 1), [1, 2],
    covering=(0, 1, 2))
plan_case("set_lacking_in_the_middle", covering_workers("logged", SETS[0], [(1, 1), (2, 3)], [(0, 1), (0, 2), (0, 3)]),
    1, 2, (1, 2, 0), [1, 3, 3], covering=(0, 1, 3))
plan_case("set_lacking_in_a_worker_without_events", covering_workers("logged", *SETS, [(0, 1), (0, 3)]), 1, 1,
    (0, 1, 0), [0, 2, 3], covering=(0, 1, 3))
plan_case("sets_in_a_worker_without_checkpoints", covering_workers("logged", *SETS, []), 1, 1, (0, 1, 0), [0, 2, 0])
# the same identifier is listed first in one worker and last in the other
plan_case("set_listed_first_and_last", covering_workers(
    "receive", [(1, 3), (2, 5)], [(0, 1), (0, 2), (2, 3)]), 0, 2, (2, 0), [5, 2], covering=(0, 3))
plan_case("set_4294967295", covering_workers("receive", [(2, 4294967295)], [(2, 4294967295)]), 0, 1, (0, 0), [0, 0],
    covering=(0, 4294967295))
plan_case("set_4294967295_without_data", covering_workers("receive", [(2, 4294967295)], [(0, 4294967295)]), 0, 2,
    (2, 0), [4294967295, 4294967295])


def thirty_receives(last):
    """Worker 1 receives 30 sends, those up to the last one given with their data, but for the 13th.

    Set 1 is at send 20 and receive 12, set 2 at send 20 and receive 13.
    """
    return [
        Worker(0, [("send", 1, x) for x in range(1, 31)], [(20, 1), (20, 2)]),
        Worker(1, [("logged" if x <= last and x != 13 else "receive", 0, x, 30 + x) for x in range(1, 31)], [(12, 1), (13, 2)]),
    ]


# of the receives after set 2 just one is without its data and of a send up to the sender's checkpoint: receive 20, of the send at
# it. So the plan starts worker 0 before it
plan_case("one_receive_of_many_without_data", thirty_receives(19), 1, 30, (0, 13), [0, 2])
# the data of receive 20 are logged: after set 1 just receive 13, of a send before the checkpoint, lacks its data; after set 2 none
plan_case("receive_13_of_30_without_data", thirty_receives(20), 1, 30, (20, 13), [2, 2], covering=(0, 2))

# ---- A floor under every start: for "every identifier that covers and whose checkpoints are all at or below the lower cut, the
# plan starts no worker before that set's checkpoint". In lowered_150_times set 0 alone covers, and every worker starts there. In
# tube_log set 1 is within the cut but does not cover, and worker 2 starts before it.

# set 1 covers, and every worker starts at it, although its checkpoint of set 2 is within the cut too: worker 0 replays receive 1/3,
# so worker 1 starts at set 1 and replays receive 2/3, so worker 2 does and replays receive 0/2, so worker 0 does. Set 2 does not
# cover: receive 1/3 is after it, and of the send at the sender's checkpoint
plan_case("all_of_3_lowered_to_a_covering_set", [
    Worker(0, [("send", 1, 1), ("send", 2, 2), ("receive", 1, 3, 7)], [(1, 1), (2, 2)]),
    Worker(1, [("send", 2, 1), ("receive", 2, 3, 5), ("send", 0, 6)], [(1, 1), (3, 2)]),
    Worker(2, [("send", 0, 1), ("receive", 0, 2, 3), ("send", 1, 4)], [(1, 1), (3, 2)]),
], 0, 3, (1, 1, 1), [1, 1, 1], covering=(0, 1), cut=[3, 3, 3])
# set 1 covers. Worker 2 starts at set 2 and replays receive 1/4, so worker 1 starts at set 2 too and replays receive 0/2, so
# worker 0 starts at set 1. Set 2 does not cover: receive 0/2 is after it, and of the send at the sender's checkpoint
plan_case("one_start_at_a_covering_set_and_two_after_it", [
    Worker(0, [("send", 2, 1), ("send", 1, 2)], [(1, 1), (2, 2)]),
    Worker(1, [("send", 2, 1), ("send", 2, 2), ("receive", 0, 2, 3), ("send", 2, 4)], [(1, 1), (2, 2), (4, 3)]),
    Worker(2, [("receive", 1, 1, 2), ("receive", 1, 2, 3), ("receive", 1, 4, 5)], [(1, 1), (2, 2)]),
], 2, 3, (1, 2, 2), [1, 2, 2], covering=(0, 1), cut=[2, 4, 3])

# Set 2 is at the last event of every worker.
AT_THE_LAST = [
    Worker(0, [("send", 1, 1)], [(1, 2)]),
    Worker(1, [("receive", 0, 1, 2), ("send", 2, 3)], [(1, 1), (2, 2)]),
    Worker(2, [("receive", 1, 2, 4), ("send", 0, 5)], [(2, 2)]),
]
# set 2 covers, but its checkpoint of worker 2 is one event past the cut. So worker 2 replays receive 1/2, and worker 1 starts
# before its checkpoint of set 2, although that is within the cut
plan_case("covering_set_past_the_cut_in_one_worker", AT_THE_LAST, 2, 1, (1, 1, 0), [2, 1, 0], covering=(0, 2), cut=[1, 2, 1])
# one event later every checkpoint of set 2 is at the cut: every worker starts there, and nothing is replayed
plan_case("covering_set_at_the_cut", AT_THE_LAST, 2, 2, (1, 2, 2), [2, 2, 2], units=0, covering=(0, 2), cut=[1, 2, 2])

# ---- All 256 kind bytes: "Kind 1 is a send, 2 a receive without its data logged, 3 a receive with its data logged". The rest are
# refused by 7.


def with_kind(byte, peer_event=2):
    """A log with this kind byte in event 2 of worker 1. Its peer event is 2 as for a receive, or 0 as for a send.

    Nothing else in it is at fault. Set 1 is at the last event of worker 0 and at the first of worker 1.
    """
    return build([
        Worker(3, [("receive", 1, 1, 2), ("send", 1, 3)], [(2, 1)]),
        Worker(2, [("send", 0, 1), ("raw", byte, 0, 0, peer_event, 4), ("send", 0, 5)], [(1, 1)]),
    ])


# a send: worker 1 receives nothing, so no event of worker 0 is within the cut. Worker 1 starts at set 1 and replays two sends of
# role 2: 3 + 3 units. Set 1 covers: no receive is after it
plan_case("kind_byte_1", with_kind(1, peer_event=0), 1, 3, (0, 1), [0, 1], units=6, covering=(0, 1), cut=[0, 3])
# a receive of send 0/2 without its data. Worker 1 replays it, so worker 0 starts before its checkpoint and replays receive 1/1, so
# worker 1 starts before its checkpoint too. Every event is replayed: 5 + 2 units of role 3 and 3 + 8 + 3 of role 2. Set 1 does not
# cover: receive 0/2 is after it, and of the send at the sender's checkpoint
plan_case("kind_byte_2", with_kind(2), 1, 3, (0, 0), [0, 0], units=21, covering=(0,), cut=[2, 3])
# the same receive with its data: set 1 covers, and both workers start at it. Worker 1 replays the receive and a send: 9 + 3 units
plan_case("kind_byte_3", with_kind(3), 1, 3, (2, 1), [1, 1], units=12, covering=(0, 1), cut=[2, 3])
# the other 253 bytes, with the peer event of the receive
for byte in range(256):
    if byte not in (1, 2, 3):
        case("kind_byte_%d" % byte, 7, with_kind(byte), worker=1, event=3)
# two of them with the peer event of the send
for byte in (4, 255):
    case("kind_byte_%d_without_a_peer_event" % byte, 7, with_kind(byte, peer_event=0), worker=1, event=3)
# breakpoint 0/2, the send that the receive names: set 1 is at the cut, both workers start at it, and nothing is replayed. The upper
# line stops before the receive; if the event is a send, it has all events
for byte, peer_event, covering, upper in ((1, 0, (0, 1), [2, 3]), (2, 2, (0,), [2, 1]), (3, 2, (0, 1), [2, 1])):
    log = with_kind(byte, peer_event)
    plan_case("kind_byte_%d_past_the_cut" % byte, log, 0, 2, (2, 1), [1, 1], units=0, covering=covering, cut=[2, 1])
    assert reference.upper_line(reference.read(log), 0, 2) == upper

# ---- Withdrawn checkpoints: "In form 2 the top bit of the identifier word marks a withdrawn checkpoint; the low 31 bits are the
# identifier". In form 1 the whole word is the identifier.


def marked(index, identifier):
    """A checkpoint whose identifier word has the mark: in form 2 it is withdrawn."""
    return ("withdrawn", index, identifier)


def withdrawn_case(name, workers, *rest, **more):
    """A plan case in form 2."""
    plan_case(name, build(workers, form=2), *rest, **more)


# worker 1 replays a receive with its data, so worker 0 starts at the latest checkpoint up to its second event that is not withdrawn
for name, checkpoints, start, identifier in (
    ("latest_checkpoint_withdrawn", [(1, 1), marked(2, 2)], 1, 1),
    ("earlier_checkpoint_withdrawn", [marked(1, 1), (2, 2)], 2, 2),
    ("all_checkpoints_withdrawn", [marked(1, 1), marked(2, 2), marked(3, 3)], 0, 0),
    ("first_of_two_at_one_index_withdrawn", [(1, 1), marked(2, 2), (2, 3)], 2, 3),
    ("last_of_two_at_one_index_withdrawn", [(1, 1), (2, 2), marked(2, 3)], 2, 2),
    ("both_of_two_at_one_index_withdrawn", [(1, 1), marked(2, 2), marked(2, 3)], 1, 1),
    ("middle_of_three_at_one_index_withdrawn", [(2, 1), marked(2, 2), (2, 3)], 2, 3),
    ("withdrawn_checkpoint_past_the_cut", [(2, 1), marked(3, 2)], 2, 1),
):
    withdrawn_case(name, second_of_three(checkpoints, "logged"), 1, 1, (start, 0), [identifier, 0])
# without its data worker 0 starts before its second event: past a withdrawn checkpoint, where the one after it is too late
withdrawn_case("lowered_past_a_withdrawn_checkpoint", second_of_three([(0, 1), marked(1, 2), (2, 3)]), 1, 1, (0, 0), [1, 0])
# at index 0 alone: the initial state shows 0, and not the identifier of the withdrawn one
withdrawn_case("withdrawn_at_index_0", second_of_three([marked(0, 3), (2, 4)]), 1, 1, (0, 0), [0, 0])
withdrawn_case("withdrawn_at_index_0_after_another", second_of_three([(0, 3), marked(0, 4), (2, 5)]), 1, 1, (0, 0), [3, 0])
withdrawn_case("withdrawn_at_index_0_before_another", second_of_three([marked(0, 3), (0, 4), (2, 5)]), 1, 1, (0, 0), [4, 0])
withdrawn_case("two_withdrawn_at_index_0", second_of_three([marked(0, 3), marked(0, 4), (2, 5)]), 1, 1, (0, 0), [0, 0])
withdrawn_case("withdrawn_at_index_0_of_a_worker_without_events_in_the_cut", second_of_three(
    [(1, 1)], receiver_checkpoints=[(0, 2), marked(0, 4)]), 0, 1, (1, 0), [1, 2])

# the tube log with the data of receives 2/2 and 1/1 logged, and the checkpoint of worker 1 withdrawn. With none withdrawn set 1 covers
# and the plan of 1/4 starts every worker there (tube_log_receives_2_2_and_1_1_logged); now worker 1 replays its first send too
withdrawn_case("tube_log_with_a_withdrawn_checkpoint", [
    Worker(3, [("receive", 2, 1, 2), ("receive", 1, 3, 5), ("send", 1, 6)], [(1, 1)]),
    Worker(1, [("send", 2, 1), ("logged", 2, 2, 3), ("send", 0, 4), ("receive", 0, 3, 7)], [marked(1, 1)]),
    Worker(0, [("send", 0, 1), ("send", 1, 2), ("logged", 1, 1, 3)], [(2, 1)]),
], 1, 4, (1, 0, 2), [1, 0, 1], units=19 + 2)

# a set of which one checkpoint is withdrawn, in the first worker and in the last
withdrawn_case("set_with_one_withdrawn_in_the_first", covering_workers("logged", [(1, 1), marked(2, 2), (2, 3)], SETS[1]), 1, 2,
    (1, 2), [1, 3], covering=(0, 1, 3))
withdrawn_case("set_with_one_withdrawn_in_the_last", covering_workers("logged", SETS[0], [(1, 1), (1, 2), marked(2, 3)]), 1, 2,
    (1, 1), [1, 2], covering=(0, 1, 2))
withdrawn_case("set_withdrawn_in_each", covering_workers("logged", [marked(1, 1), (2, 2)], [marked(1, 1), (1, 2)]), 1, 2,
    (0, 1), [0, 2], covering=(0, 2))
withdrawn_case("set_withdrawn_in_a_worker_without_events", covering_workers("logged", *SETS, [(0, 1), marked(0, 2), (0, 3)]), 1, 1,
    (0, 1, 0), [0, 2, 3], covering=(0, 1, 3))
# both sets are within the cut, and set 2 would cover if its checkpoint of worker 0 were not withdrawn: worker 0 starts before it, and at
# set 1, which covers
withdrawn_case("floor_of_a_set_before_a_withdrawn_one", covering_workers("receive", [(1, 1), marked(2, 2)], [(2, 1), (2, 2)], send=2),
    1, 2, (1, 2), [1, 2], covering=(0, 1), cut=[2, 2])

# the same words in both forms: in form 1 the checkpoint has a large identifier, which the plan words show whole
TOP_BIT = second_of_three([(1, 5), (2, MARK + 6)], "logged")
plan_case("identifier_with_the_top_bit_in_form_1", TOP_BIT, 1, 1, (2, 0), [MARK + 6, 0])
withdrawn_case("identifier_with_the_top_bit_in_form_2", TOP_BIT, 1, 1, (1, 0), [5, 0])
TOP_BITS = [(2, MARK + 1)], [(2, MARK + 1)]
plan_case("set_with_the_top_bit_in_form_1", covering_workers("receive", *TOP_BITS), 0, 2, (2, 0), [MARK + 1, 0],
    covering=(0, MARK + 1))
withdrawn_case("set_with_the_top_bit_in_form_2", covering_workers("receive", *TOP_BITS), 0, 2, (0, 0), [0, 0])
# asked for with the mark, identifier 1 covers nothing in form 2
withdrawn_case("set_1_asked_for_with_the_mark", covering_workers("receive", [(2, 1)], [(2, 1)]), 0, 2, (2, 0), [1, 0],
    covering=(0, 1))

# the largest identifier without the mark, of a set that covers; the same with the mark in one worker, and in both
LARGE = MARK - 1
for name, first, second, starts, identifiers, covering in (
    ("of_none", (2, LARGE), (2, LARGE), (2, 0), [LARGE, 0], (0, LARGE)),
    ("of_one", (2, LARGE), marked(2, LARGE), (2, 0), [LARGE, 0], (0,)),
    ("of_both", marked(2, LARGE), marked(2, LARGE), (0, 0), [0, 0], (0,)),
):
    withdrawn_case("set_2147483647_withdrawn_%s" % name, covering_workers("receive", [first], [second]), 0, 2,
        starts, identifiers, covering=covering)
# a marked 1 before it rises, and after it falls; in form 1 it is the other way round
withdrawn_case("marked_1_before_2147483647", second_of_three([marked(1, 1), (2, LARGE)], "logged"), 1, 1, (2, 0), [LARGE, 0])
case("marked_1_before_2147483647_in_form_1", 11, build(second_of_three([marked(1, 1), (2, LARGE)], "logged")))
case("marked_1_after_2147483647", 11, build(second_of_three([(1, LARGE), marked(2, 1)], "logged"), form=2))
plan_case("marked_1_after_2147483647_in_form_1", second_of_three([(1, LARGE), marked(2, 1)], "logged"), 1, 1, (2, 0), [MARK + 1, 0])

# 11 in form 2: without its mark an identifier is 0, or not above the one before it
for name, checkpoints in (
    ("marked_0", [marked(1, 0)]),
    ("marked_0_after_another", [(0, 1), marked(1, 0)]),
    ("identifiers_that_differ_in_the_mark_alone", [(1, 1), marked(2, 1)]),
    ("identifiers_that_differ_in_the_mark_alone_marked_first", [marked(1, 1), (2, 1)]),
    ("equal_identifiers_both_marked", [marked(1, 1), marked(2, 1)]),
    ("identifier_falls_both_marked", [marked(1, 2), marked(2, 1)]),
    ("index_of_a_marked_one_over_the_event_count", [marked(4, 1)]),
    ("index_of_a_marked_one_falls", [marked(2, 1), marked(1, 2)]),
):
    case(name, 11, build(second_of_three(checkpoints), form=2), worker=1, event=1)
# in form 1 the same words are identifiers that rise
plan_case("marked_0_in_form_1", second_of_three([marked(1, 0)]), 1, 1, (1, 0), [MARK, 0])
plan_case("identifiers_that_differ_in_the_mark_alone_in_form_1", second_of_three([(1, 1), marked(2, 1)], "logged"), 1, 1,
    (2, 0), [MARK + 1, 0])


def sends_with_withdrawn(kept):
    """1,024 sends of worker 0, a checkpoint after each, all of them withdrawn but these; worker 1 receives the last send."""
    return [
        Worker(0, [("send", 1, x) for x in range(1, 1025)], [(x, x) if x in kept else marked(x, x) for x in range(1, 1025)]),
        Worker(1, [("receive", 0, 1024, 2000)]),
    ]


for name, kept, start in (
    ("all", (), 0), ("all_but_the_first", (1,), 1), ("all_but_the_last", (1024,), 0), ("all_but_two", (7, 1023), 1023),
):
    withdrawn_case("%s_of_1024_withdrawn" % name, sends_with_withdrawn(kept), 1, 1, (start, 0), [start, 0])
withdrawn_case("1024_withdrawn_at_one_index", [
    Worker(0, [("send", 1, 1)], [marked(1, c + 1) for c in range(1024)]), Worker(),
], 0, 1, (0, 0), [0, 0])
# every second checkpoint of the 150 rounds of lowered_150_times
withdrawn_case("lowered_150_times_past_withdrawn_checkpoints", [
    Worker(worker.role, worker.events, [marked(*c) if c[1] % 2 else c for c in worker.checkpoints])
    for worker in after_each(["send"], exchange(75))
], 0, 150, (0, 0))

# the mark is packed too
pack_case("withdrawn_in_another_order_with_gaps", [
    Worker(worker.role, worker.events, [marked(*c) if c[1] in (2, 3) else c for c in worker.checkpoints]) for worker in THREE
], SCATTERED, form=2, event=3)


# ---- Visits with more turns than are copied from a row at once


def senders(many, below):
    """A hub that receives from `many` workers, each of which first receives from the last worker, the next of its sends; no checkpoints.
    Each of these has one send more, which nobody receives. The hub is worker 0, or worker 1, which then sends to worker 0."""
    hub, first = (1, 2) if below else (0, 1)
    last = first + many
    workers = [Worker(0, [("receive", 1, many + 1, 401)])] if below else []
    workers.append(Worker(1, [("receive", first + k, 2, 300 + k) for k in range(many)] + [("send", 1 - hub, 400)]))
    for k in range(many):
        workers.append(Worker(2, [("receive", last, k + 1, 200), ("send", hub, 201), ("send", hub, 202)]))
    workers.append(Worker(3, [("send", first + k % many, 100 + k) for k in range(many + 1)]))
    return workers


# by hand: all events but the sends that nobody receives. The hub's visit goes to each sender, and from each of these one goes to the last
# worker
for many in (1, 15, 16, 17, 32, 33, 61):
    count = "%d_sender%s" % (many, "" if many == 1 else "s")
    for name, below, cut in (
        ("turns_of_" + count, False, [many] + [2] * many + [many]),
        ("turns_of_" + count + "_below", True, [1, many + 1] + [2] * many + [many]),
    ):
        plan_case(name, senders(many, below), 0, cut[0], [0] * len(cut), cut=cut)
        visits = reference.lower_cut_call(*case_of(CONTENT[name]), cut, 2 * len(cut))[1]
        assert visits == 1 + below + 2 * many, "%s: %d visits by the reference" % (name, visits)

# no event of one worker is accepted: 13
case("one_worker_event_1", 0, build(without_events(1)), event=1)

# ---- Logs in state intervals: "only the receives, with peer event replaced by the number of receives in the sender before that send,
# and checkpoint indices by the receives up to them; withdrawn checkpoints are dropped". A log whose interval log is given 26 is too long
# for an input of `plan`: reference.py --check and the Rust tests have such logs.


def converted(workers, named, intervals):
    """The interval log of these workers, from what was worked out by hand: of each worker the intervals that its receives name, and
    those of its checkpoints; None for one that is withdrawn."""
    made = []
    for worker, names, at in zip(workers, named, intervals, strict=True):
        receives = [event for event in worker.events if event[0] != "send"]
        events = [(kind, peer, name, stamp) for (kind, peer, _, stamp), name in zip(receives, names, strict=True)]
        checkpoints = [(k, c[1]) for c, k in zip(worker.checkpoints, at, strict=True) if k is not None]
        made.append(Worker(worker.role, events, checkpoints))
    return build(made, form=3)


def interval_case(name, workers, named, intervals, worker, event, cut, form=1, places=None, fields=None):
    """A case whose interval log, and its least closed cut for the breakpoint, were worked out by hand."""
    log = build(workers, places, fields, form)
    case(name, 0, log, worker, event)
    wanted = converted(workers, named, intervals)
    number, content, written = reference.intervals_call(log, bytes(len(wanted)), [0])
    assert (number, content, written) == (0, wanted, [len(wanted)]), name + " has another interval log by the reference"
    held = sum(e[0] != "send" for e in workers[worker].events[:event])
    found = reference.least_closed(content, worker, held)
    assert cut in (None, found), "%s: interval cut %r by the reference" % (name, found)


def crowded_case(name, log, worker=0, event=1):
    """A case that 28 refuses, whatever is lent."""
    case(name, 0, log, worker, event)
    found = [reference.intervals_call(log, bytes(lent), words)[0] for lent in (0, len(log)) for words in ([], [0])]
    assert found == [28] * 4, "%s: %r by the reference" % (name, found)


# the tube log: the receives of worker 0 name intervals 0 and 1, those of worker 1 intervals 0 and 2, that of worker 2 interval 0
TUBE_INTERVALS = build([
    Worker(3, [("receive", 2, 0, 2), ("receive", 1, 1, 5)], [(1, 1)]),
    Worker(1, [("receive", 2, 0, 3), ("receive", 0, 2, 7)], [(0, 1)]),
    Worker(0, [("receive", 1, 0, 3)], [(0, 1)]),
], form=3)
assert reference.interval_bytes(tube()) == reference.interval_bytes(in_form(tube(), 2)) == TUBE_INTERVALS
assert reference.least_closed(TUBE_INTERVALS, 0, 2) == [2, 1, 0]
# "Our own calls refuse form 3 by 2"
case("interval_log_of_the_tube_log", 2, TUBE_INTERVALS, worker=0, event=2)

# sends in interval 0, right behind a receive, and as the last event of their worker; receives of both kinds. A checkpoint of worker 0 is
# at index 0, one at a receive, one at its last event; those of worker 1 are at a send and at its last event, a receive
IN_TURN = [
    Worker(2, [("send", 1, 1), ("receive", 1, 1, 2), ("send", 1, 3), ("logged", 1, 3, 5), ("send", 1, 6)], [(0, 1), (2, 3), (5, 4)]),
    Worker(1, [("send", 0, 1), ("receive", 0, 1, 2), ("send", 0, 3), ("receive", 0, 3, 4), ("logged", 0, 5, 7)], [(1, 1), (5, 2)]),
]
IN_TURN_NAMED = [[0, 1], [0, 1, 2]]
IN_TURN_AT = [[0, 1, 2], [0, 3]]
# every breakpoint: a send, a receive of either kind, in interval 0 and behind it
for worker, event, cut in (
    (0, 1, [0, 0]), (0, 2, [1, 0]), (0, 3, [1, 0]), (0, 4, [2, 1]), (0, 5, [2, 1]),
    (1, 1, [0, 0]), (1, 2, [0, 1]), (1, 3, [0, 1]), (1, 4, [1, 2]), (1, 5, [2, 3]),
):
    interval_case("intervals_in_turn_%d_%d" % (worker, event), IN_TURN, IN_TURN_NAMED, IN_TURN_AT, worker, event, cut)
# the same workers in form 2, and with the sections elsewhere and gaps between them, in both forms: the same bytes
IN_TURN_PLACES = [1, ("checkpoints", 1), ("events", 1), 12, ("events", 0), 8, ("checkpoints", 0), 5]
interval_case("intervals_in_turn_in_form_2", IN_TURN, IN_TURN_NAMED, IN_TURN_AT, 1, 5, [2, 3], form=2)
interval_case("intervals_in_turn_in_another_order", IN_TURN, IN_TURN_NAMED, IN_TURN_AT, 1, 5, [2, 3], places=IN_TURN_PLACES)
interval_case("intervals_in_turn_in_another_order_in_form_2", IN_TURN, IN_TURN_NAMED, IN_TURN_AT, 1, 5, [2, 3], form=2,
    places=IN_TURN_PLACES)
# the kinds exchanged: nothing else is another byte
interval_case("intervals_in_turn_with_kinds_exchanged", [
    Worker(worker.role, [({"receive": "logged", "logged": "receive"}.get(e[0], e[0]),) + e[1:] for e in worker.events], worker.checkpoints)
    for worker in IN_TURN
], IN_TURN_NAMED, IN_TURN_AT, 1, 5, [2, 3])

# form 1: worker 0 receives one send three times, and worker 1 receives events 7, 3, 1, 3 and 7 of it, so that its first receive names the
# largest interval, and the next ones smaller ones
AGAIN_AND_FALLING = [
    Worker(0, [
        ("send", 1, 1), ("receive", 1, 1, 2), ("send", 1, 3), ("receive", 1, 1, 4), ("logged", 1, 1, 5), ("send", 1, 6), ("send", 1, 7),
    ]),
    Worker(3, [("send", 0, 1)] + [
        ("logged" if stamp == 11 else "receive", 0, send, stamp) for stamp, send in zip(range(8, 13), (7, 3, 1, 3, 7))
    ]),
]
for event, cut in ((1, [0, 0]), (2, [3, 1]), (4, [3, 3]), (6, [3, 5])):
    interval_case("intervals_of_repeats_and_falling_sends_1_%d" % event, AGAIN_AND_FALLING, [[0, 0, 0], [3, 1, 0, 1, 3]], [[], []],
        1, event, cut)
# worker 2 receives from worker 1 a send behind a receive from worker 0: the cut of worker 2 reaches worker 0 over worker 1
interval_case("intervals_over_two_workers", [
    Worker(0, [("receive", 1, 1, 2), ("receive", 1, 2, 3), ("send", 1, 4), ("receive", 1, 5, 8)], [(2, 9)]),
    Worker(1, [("send", 0, 1), ("send", 0, 2), ("receive", 0, 3, 5), ("send", 2, 6), ("send", 0, 7)], [(4, 1)]),
    Worker(2, [("receive", 1, 4, 7), ("send", 0, 8)], [(0, 1), (2, 2)]),
], [[0, 0, 1], [2], [1]], [[2], [1], [0, 1]], 2, 2, [2, 1, 1])

# no receives: nothing but the header and a checkpoint of interval 0, which the initial state does not count beside
interval_case("intervals_without_receives", [
    Worker(1, [("send", 1, 1), ("send", 2, 2)], [(2, 5)]), Worker(2, [("send", 0, 1)], [(0, 1)]), Worker(3),
], [[], [], []], [[0], [0], []], 0, 2, [0, 0, 0])
# n is 1: the interval log of header_is_the_log_of_1_worker has 28 bytes; with one checkpoint it has 36
assert len(reference.interval_bytes(build(without_events(1)))) == 28
case("intervals_of_one_worker_with_a_checkpoint", 0, build([Worker(3, [], [(0, 7)])]), event=0)
assert reference.interval_bytes(build([Worker(3, [], [(0, 7)])])) == build([Worker(3, [], [(0, 7)])], form=3)
case("intervals_of_one_worker_with_a_withdrawn_checkpoint", 0, build([Worker(3, [], [marked(0, 7), (0, 9)])], form=2), event=0)
assert reference.interval_bytes(build([Worker(3, [], [marked(0, 7), (0, 9)])], form=2)) == build([Worker(3, [], [(0, 9)])], form=3)


def one_receive(checkpoints, others=(), last=False):
    """A worker whose third event of five is its one receive, the others being sends; the other worker has one send. It is the first
    worker, or the last one."""
    w, other = (1, 0) if last else (0, 1)
    events = [("send", other, 1), ("send", other, 2), ("receive", other, 1, 3), ("send", other, 4), ("send", other, 5)]
    workers = [Worker(w, events, checkpoints), Worker(other, [("send", w, 1)], others)]
    return workers[::-1] if last else workers


# in form 2 each withdrawn checkpoint is dropped, wherever it stands, and it counts beside none
for name, checkpoints, at in (
    ("a_withdrawn_checkpoint_before_one", [marked(0, 1), (1, 2)], [None, 0]),
    ("a_withdrawn_checkpoint_after_one", [(1, 1), marked(2, 2)], [0, None]),
    ("a_withdrawn_checkpoint_at_the_index_of_one", [(1, 1), marked(1, 2)], [0, None]),
    ("withdrawn_checkpoints_alone", [marked(1, 1), marked(1, 2), marked(4, 3)], [None, None, None]),
    ("withdrawn_checkpoints_between_two", [(0, 1), marked(2, 2), marked(3, 3), (5, 4)], [0, None, None, 1]),
    ("withdrawn_checkpoints_around_two", [marked(0, 1), (2, 2), (3, 3), marked(4, 4)], [None, 0, 1, None]),
):
    interval_case("intervals_of_" + name, one_receive(checkpoints), [[0], []], [at, []], 0, 4, [1, 0], form=2)
# an identifier with the top bit stays in form 1, as it is
interval_case("intervals_of_identifiers_with_the_top_bit", one_receive([(2, MARK), (4, 2 * MARK - 1)], [(1, MARK + 1)]), [[0], []],
    [[0, 1], [0]], 0, 4, [1, 0])

# ---- 28: "two recorded checkpoints not withdrawn of one worker fall into one interval (the initial state isn't recorded and doesn't
# count); it is tested after 24 and before 26". Where the ways lend too few bytes or no word, 28 is given too.

# one in interval 0, at each index of it, and one with the receive between it and the next: accepted
for name, checkpoints, at in (
    ("one_at_index_0", [(0, 1)], [0]), ("one_right_before_the_receive", [(2, 1)], [0]), ("one_at_the_receive", [(3, 1)], [1]),
    ("a_receive_between_two", [(2, 1), (3, 2)], [0, 1]), ("a_receive_between_the_first_and_the_last", [(0, 1), (5, 2)], [0, 1]),
):
    interval_case("intervals_of_" + name, one_receive(checkpoints), [[0], []], [at, []], 0, 3, [1, 0])
for name, checkpoints in (
    ("two_at_index_0", [(0, 1), (0, 2)]),
    ("two_at_one_index", [(2, 1), (2, 2)]),
    ("a_send_between_two", [(1, 1), (2, 2)]),
    ("index_0_and_two_sends_later", [(0, 1), (2, 2)]),
    ("the_receive_and_a_send_later", [(3, 1), (4, 2)]),
    ("the_last_two_of_three", [(1, 1), (3, 2), (5, 3)]),
    ("the_first_two_of_three", [(0, 1), (1, 2), (4, 3)]),
    ("identifiers_with_the_top_bit", [(1, MARK + 1), (2, MARK + 2)]),
    ("identifiers_that_differ_in_the_top_bit_alone", [(1, 1), (2, MARK + 1)]),
):
    crowded_case("crowded_" + name, build(one_receive(checkpoints)), event=3)
    crowded_case("crowded_%s_of_the_last_worker" % name, build(one_receive(checkpoints, last=True)), worker=1, event=3)
# in form 2: a withdrawn one between two others, at their index, at another one and of another interval
for name, checkpoints in (
    ("at_one_index", [(1, 1), marked(1, 2), (1, 3)]),
    ("and_sends", [(0, 1), marked(1, 2), (2, 3)]),
    ("behind_the_receive", [(3, 1), marked(3, 2), marked(4, 3), (5, 4)]),
    ("after_one_before_the_receive", [(2, 1), marked(3, 2), (3, 3), (4, 4)]),
):
    crowded_case("crowded_with_a_withdrawn_one_between_" + name, build(one_receive(checkpoints), form=2), event=3)
# the words of two cases that form 2 accepts: in form 1 they are not withdrawn
crowded_case("crowded_in_form_1_alone", build(one_receive([(1, 1), marked(2, 2)])), event=4)
crowded_case("crowded_in_form_1_alone_at_one_index", build(one_receive([(1, 1), marked(1, 2)])), event=4)
# a worker without receives, and one without events: both checkpoints are in interval 0
crowded_case("crowded_without_receives", build(one_receive([(3, 1)], others=[(0, 1), (1, 2)])), event=4)
crowded_case("crowded_without_events", build(one_receive([(3, 1)]) + [Worker(2, [], [(0, 1), (0, 2)])]), event=4)
# the receives of the other worker are none of this one's
crowded_case("crowded_beside_a_worker_of_many_receives", build([
    Worker(0, [("send", 1, 1), ("send", 1, 2), ("send", 1, 3)], [(1, 1), (3, 2)]),
    Worker(1, [("receive", 0, 1, 4), ("receive", 0, 2, 5), ("receive", 0, 3, 6)], [(0, 1), (1, 2), (2, 3), (3, 4)]),
]), worker=1, event=3)
# one checkpoint in each of two workers, both in interval 0, is no fault
interval_case("intervals_of_one_checkpoint_in_each_of_two_workers", one_receive([(1, 1)], [(1, 1)]), [[0], []], [[0], [0]], 0, 4, [1, 0])

# a checkpoint after each of 40 receives; one more at the last receive, or at the send behind it
FORTY = [("receive", 1, 1 + x % 7, 10 + x) for x in range(40)] + [("send", 1, 60)]
FORTY_AT = [(x, x) for x in range(1, 41)]
SEVEN = Worker(1, [("send", 0, x) for x in range(1, 8)])
interval_case("intervals_of_40_receives_and_checkpoints", [Worker(0, FORTY, FORTY_AT), SEVEN], [[0] * 40, []], [range(1, 41), []],
    0, 41, [40, 0])
crowded_case("crowded_at_the_last_of_40_receives", build([Worker(0, FORTY, FORTY_AT + [(40, 99)]), SEVEN]), event=41)
crowded_case("crowded_behind_the_last_of_40_receives", build([Worker(0, FORTY, FORTY_AT + [(41, 99)]), SEVEN]), event=41)

# 24 is given before 28; form 1 permits the repeat
REPEATED_AND_CROWDED = [Worker(0, TWICE, [(0, 1), (1, 2)]), Worker(1, SECOND, [(2, 1)])]
case("24_before_28", 24, build(REPEATED_AND_CROWDED, form=2), event=3)
crowded_case("28_of_the_same_log_in_form_1", build(REPEATED_AND_CROWDED), event=3)
case("11_before_28", 11, build([Worker(0, FIRST, [(0, 1), (1, 2)]), Worker(1, SECOND, [(3, 1)])]), event=2)


# ---- Interval logs of logs with many events: of more than 32,768 events and initial states together the program keeps the intervals at
# every second, fourth or further event alone


def many_events_case(name, sends, sharing, first, second):
    """Workers 0 and 1, with so many events, exchange messages; each of the others has so many sends to worker 0, of the same bytes.

    Worker 0 sends at events 1, 4, 7 and so on, worker 1 at the odd ones; the other events are receives. Event x of worker 0 names the
    send of worker 1 behind its first (x + 1) / 4 receives, event x of worker 1 the send 3k + 1 of worker 0, where k is (x - 1) / 4.
    """
    workers = [
        Worker(0, [
            ("send", 1, 10 * x) if x % 3 == 1 else ("logged" if x % 2 else "receive", 1, 2 * ((x + 1) // 4) + 1, 10 * x)
            for x in range(1, first + 1)
        ], [(x, x + 1) for x in range(0, first + 1, 8)]),
        Worker(1, [
            ("send", 0, 10 * x - 5) if x % 2 else ("receive", 0, 3 * ((x - 1) // 4) + 1, 10 * x - 5) for x in range(1, second + 1)
        ], [(x, x + 1) for x in range(0, second + 1, 16)]),
    ] + [Worker(2, [("send", 0, x) for x in range(1, sends + 1)]) for _ in range(sharing)]
    named = [(x + 1) // 4 for x in range(1, first + 1) if x % 3 != 1], [2 * ((x - 1) // 4) for x in range(2, second + 1, 2)]
    at = [x - (x + 2) // 3 for x in range(0, first + 1, 8)], [x // 2 for x in range(0, second + 1, 16)]
    none = [[]] * sharing
    interval_case(name, workers, [*named, *none], [*at, *none], 0, first, None,
        places=[("events", 2), ("events", 0), ("checkpoints", 1), ("events", 1), ("checkpoints", 0)],
        fields={(w, "event offset"): 8 + 20 * (2 + sharing) for w in range(3, 2 + sharing)})


# 16 × 2,041 + 56 + 56 events and initial states are 32,768; one event more; more than twice as many
many_events_case("intervals_kept_at_each_event", 2040, 16, 55, 55)
many_events_case("intervals_kept_at_every_second_event", 2040, 16, 56, 55)
many_events_case("intervals_kept_at_every_fourth_event", 4200, 16, 130, 127)

# ---- Unit tables: the cases on which each of those of calls.py is tried

WITH_TABLES = (
    "tube_log", "tube_log_refused_3_1", "tube_log_refused_0_0", "two_workers", "form_0", "every_kind_in_every_role",
    "units_of_role_0", "units_of_role_1", "units_of_role_2", "units_of_role_3",
)
assert all(name in CONTENT for name in WITH_TABLES)

# by hand: of RISING, whose words are 101 to 112, the sum of all; then three receives without data in role 0 and a send in each other
# role. Of the cases by role, 1 send, 10 receives without data and 100 with it, and a send in role 0.
for name, worker, event, table, units in (
    ("every_kind_in_every_role", 0, 6, ONES, 18),
    ("every_kind_in_every_role", 0, 6, THOUSANDS, 18000),
    ("every_kind_in_every_role", 0, 6, RISING, 1278 + 3 * 102 + 104 + 107 + 110),
    ("units_of_role_0", 0, 111, RISING, 101 + 1020 + 10300 + 101),
    ("units_of_role_1", 0, 111, RISING, 104 + 1050 + 10600 + 101),
    ("units_of_role_2", 0, 111, RISING, 107 + 1080 + 10900 + 101),
    ("units_of_role_3", 0, 111, RISING, 110 + 1110 + 11200 + 101),
):
    found, _ = units_and_words(CONTENT[name][8:], worker, event, table)
    assert found == units, "%s: units %d by the reference" % (name, found)


# ---- Scratch: the cases on which each number of words is tried, of 1 worker, where no event is accepted, of 2, 3, 25, 63 and 64

WITH_SCRATCH = (
    "header_is_the_log_of_1_worker", "one_worker_event_1", "two_workers", "tube_log", "a_worker_visited_again", "many_visits",
    "sixty_four_workers_with_events", "sixty_four_workers_deep_up", "all_of_64_lowered_up_and_back", "each_of_64_lowered_once",
    "turns_of_61_senders", "turns_of_61_senders_below",
)
assert all(name in CONTENT for name in WITH_SCRATCH)


def extra(name):
    """The lines that the case has and not every case."""
    return {line for line, names in ((BY_TABLE, WITH_TABLES), (BY_SCRATCH, WITH_SCRATCH)) if name in names}


def files():
    """The content of each file, by its path in the crate."""
    made = {os.path.join("data", name): content for name, content in CONTENT.items()}
    made["args"] = "".join(name + "\n" for name in CONTENT).encode()
    made["stdin"] = b"".join(listed(content, extra(name)) for name, content in CONTENT.items())
    made["stdout"] = "".join(case_lines(name, content, extra(name)) for name, content in CONTENT.items()).encode()
    return made


def stored():
    """The files of the crate that this script writes, as they are."""
    paths = ["args", "stdin", "stdout"]
    if os.path.isdir(os.path.join(CRATE, "data")):
        paths += [os.path.join("data", name) for name in os.listdir(os.path.join(CRATE, "data"))]
    found = {}
    for path in paths:
        if os.path.exists(os.path.join(CRATE, path)):
            with open(os.path.join(CRATE, path), "rb") as file:
                found[path] = file.read()
    return found


def check():
    """The number of files that are not as described."""
    made, found = files(), stored()
    bad = sorted(path for path in set(made) | set(found) if made.get(path) != found.get(path))
    for path in bad:
        print("not as described: crates/cases/" + path)
    print("%d cases, %d files not as described" % (len(CONTENT), len(bad)))
    return len(bad)


def write():
    made = files()
    for path in stored():
        if path not in made:
            os.remove(os.path.join(CRATE, path))
    os.makedirs(os.path.join(CRATE, "data"), exist_ok=True)
    for path, content in made.items():
        with open(os.path.join(CRATE, path), "wb") as file:
            file.write(content)
    print("%d cases written" % len(CONTENT))
    return 0


if __name__ == "__main__":
    if sys.argv[1:] not in ([], ["--check"]):
        sys.exit(__doc__)
    sys.exit(1 if (check if sys.argv[1:] else write)() else 0)
