"""Builds the bytes of a log from a readable description (document 01, "The log").

A log is described by its workers. Each worker has a role, events and checkpoints:

    Worker(
        role=3,
        events=[("send", 1, 5), ("receive", 2, 1, 6), ("logged", 1, 4, 9)],
        checkpoints=[(2, 1)],
    )

    ("send", peer, stamp)             a send to the peer
    ("receive", peer, send, stamp)    a receive of the peer's event `send`, without its data logged
    ("logged", peer, send, stamp)     the same, with its data logged
    ("raw", kind, peer, spare, peer_event, stamp)    any values
    (index, identifier)               a checkpoint
    ("withdrawn", index, identifier)  one whose identifier word has the mark of a withdrawn checkpoint

Everything else (the counts, the offsets, the length) follows from this, unless a caller of `build` gives another value.
"""

import struct

KINDS = {"send": 1, "receive": 2, "logged": 3}

# The five numbers of a worker's entry, in their order.
ENTRY = ["event count", "event offset", "checkpoint count", "checkpoint offset", "role"]

# The mark of a withdrawn checkpoint in an identifier word.
MARK = 2 ** 31

# What stands in a gap between two sections: no record may be read from there.
GAP = b"\xaa"


class Worker:
    def __init__(self, role=0, events=(), checkpoints=()):
        self.role = role
        self.events = list(events)
        self.checkpoints = list(checkpoints)


def event_record(event):
    """The 12 bytes of an event."""
    what = event[0]
    if what == "raw":
        kind, peer, spare, peer_event, stamp = event[1:]
    elif what == "send":
        kind, spare, peer_event = KINDS[what], 0, 0
        peer, stamp = event[1:]
    else:
        kind, spare = KINDS[what], 0
        peer, peer_event, stamp = event[1:]
    return struct.pack("<BBHII", kind, peer, spare, peer_event, stamp)


def checkpoint_record(checkpoint):
    """The 8 bytes of a checkpoint."""
    index, identifier = checkpoint[-2:]
    return struct.pack("<II", index, identifier + MARK * is_withdrawn(checkpoint))


def is_withdrawn(checkpoint):
    """Whether a checkpoint is described as withdrawn."""
    return checkpoint[0] == "withdrawn"


def section(worker, what):
    """The bytes of a worker's events or checkpoints."""
    if what == "events":
        return b"".join(event_record(event) for event in worker.events)
    return b"".join(checkpoint_record(checkpoint) for checkpoint in worker.checkpoints)


def packed(workers):
    """The places of a packed log: the events and the checkpoints of each worker, in order."""
    places = []
    for w in range(len(workers)):
        places.append(("events", w))
        places.append(("checkpoints", w))
    return places


def build(workers, places=None, fields=None, form=1, size=None, length=None):
    """The bytes of the log of these workers.

    places  what stands behind the header, in order: ("events", w), ("checkpoints", w), or a number of gap bytes.
            None: packed. A section that is not named has no bytes; its offset is the log's end, or what `fields` says.
    fields  other values for numbers of entries: {(w, "event offset"): 48}. No section moves by this.
    form, size, length   other values for the form, the worker count and the length in the header
    """
    if places is None:
        places = packed(workers)
    header = 8 + 20 * len(workers)
    body = b""
    start = {}
    for place in places:
        if isinstance(place, int):
            body += GAP * place
        else:
            what, w = place
            start[place] = header + len(body)
            body += section(workers[w], what)
    end = header + len(body)

    entries = []
    for w, worker in enumerate(workers):
        entries.append({
            "event count": len(worker.events),
            "event offset": start.get(("events", w), end),
            "checkpoint count": len(worker.checkpoints),
            "checkpoint offset": start.get(("checkpoints", w), end),
            "role": worker.role,
        })
    for (w, name), value in (fields or {}).items():
        assert name in ENTRY, name
        entries[w][name] = value

    if size is None:
        size = len(workers)
    if length is None:
        length = end
    log = struct.pack("<HHI", form, size, length)
    for entry in entries:
        log += struct.pack("<5I", *[entry[name] for name in ENTRY])
    return log + body


def with_length(log):
    """The log with its length field set to its length."""
    return log[:4] + struct.pack("<I", len(log)) + log[8:]


def cut_to(log, length):
    """The first bytes of the log, with its length field set to this length."""
    assert length < len(log)
    return with_length(log[:length])


def extended(log, more):
    """The log with more gap bytes at its end, and its length field set to its new length."""
    return with_length(log + GAP * more)


def in_form(log, form):
    """The log with this form in its header."""
    return struct.pack("<H", form) + log[2:]


def case_file(worker, event, log):
    """The input of the program `plan`: worker and event of the breakpoint, then the log."""
    return struct.pack("<II", worker, event) + log


def tube(kind_of_2_2="receive", kind_of_1_1="receive"):
    """The tube log. `kind_of_2_2` is the kind of the receive of event 2 of worker 2, and so on."""
    return build([
        Worker(3, [("receive", 2, 1, 2), ("receive", 1, 3, 5), ("send", 1, 6)], [(1, 1)]),
        Worker(1, [("send", 2, 1), (kind_of_2_2, 2, 2, 3), ("send", 0, 4), ("receive", 0, 3, 7)], [(1, 1)]),
        Worker(0, [("send", 0, 1), ("send", 1, 2), (kind_of_1_1, 1, 1, 3)], [(2, 1)]),
    ])
