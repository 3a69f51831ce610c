"""What the program `cases` must print for a case, from reference.py. Each line begins with the case's name.

A line has its number, but for the first, and calls (calls.py says which). A call has its name, each word that it changes, and
after = what it returned:

    NAME 8 vector      w0:1 w1:2 =0 lower_cut   w0:1 w1:2 2 3 999 999 999 =0

A changed word has its kind, its number and what it holds after the call. The kinds are w, of a line, a cut or a plan, the
answer of a test, positions after steps, or the built-in table, whose call is `built_in`; p, positions, and a, answers, of a list
of steps; s, scratch, of a call that is refused, and g, the words behind it, of any other: after a success what is lent is free. The
lower cut, the plan and `restore`, which is `restore_and_replay`, have their totals; 999 is one not written. So do `pack` and
`intervals`, whose total is the bytes written; before it stand the bytes after `out:`, in hexadecimal, where one of them was changed:
those lent and PAST more. A byte not written is a5.
"""

import reference
from calls import (
    ALL_TOTALS, ANSWERS, ANSWERS_AT, BYTES, FILLER, LINE, LIST, LIST_AT, NAMES, POSITIONS, READ, READ_AT, ROOM, SCRATCH,
    SCRATCH_ROOM, SIZE, TABLE, TABLE_AT, TOTALS, WRITTEN, WRITTEN_AT, case_of, entries_of)

UNTOUCHED = 999

# What a lent byte holds before a call, and how many bytes past those lent are printed with them.
GUARD = b"\xa5"
PAST = 8


def changes(kind, before, after):
    return "".join(" %s%d:%d" % (kind, k, word) for k, word in enumerate(after) if word != before[k])


def bytes_text(before, after):
    return "" if after == before else " out:" + (after + GUARD * PAST).hex()


def totals_text(totals):
    return "".join(" %d" % total for total in list(totals) + [UNTOUCHED] * (ALL_TOTALS - len(totals)))


class Made:
    """The calls as the reference answers them. Each gives what it returns, and the text of what it changes."""

    def __init__(self, case, numbers):
        self.log, _, self.event = case
        self.numbers = numbers

    def part(self, kind, at):
        """The words that are lent of a kind, from this place on."""
        return self.numbers[at:at + self.numbers[kind]]

    def part_of_totals(self):
        """The totals that are lent."""
        return [UNTOUCHED] * min(self.numbers[TOTALS], ALL_TOTALS)

    def scratch(self):
        """How many words of scratch are lent."""
        return min(self.numbers[SCRATCH], SCRATCH_ROOM)

    def log_refusal(self, _):
        return reference.refusal(self.log), ""

    def line(self, call, worker):
        words = self.part(WRITTEN, WRITTEN_AT)
        number, after = call(self.log, worker, self.event, words)
        return number, changes("w", words, after)

    def vector(self, worker):
        return self.line(reference.vector_call, worker)

    def upper_line(self, worker):
        return self.line(reference.upper_line_call, worker)

    def test(self, number, yes):
        """A test's answer is one word; a refused one leaves it."""
        return number, "" if number else changes("w", [FILLER], [int(yes)])

    def covers(self, identifier):
        return self.test(*reference.covers_call(self.log, identifier))

    def cut_test(self, _):
        return self.test(*reference.cut_test_call(self.log, self.part(READ, READ_AT)))

    def step(self, worker):
        positions = self.part(WRITTEN, WRITTEN_AT)
        number, after = reference.step_call(self.log, self.part(READ, READ_AT), positions, worker)
        return number, changes("w", positions, after)

    def steps(self, _):
        positions, answers = self.part(WRITTEN, WRITTEN_AT), self.part(ANSWERS, ANSWERS_AT)
        number, after, left = reference.steps_call(
            self.log, self.part(READ, READ_AT), positions, self.part(LIST, LIST_AT), answers)
        return number, changes("w", positions, after) + changes("a", answers, left)

    def load_table(self, _):
        return reference.load_table_call(self.part(TABLE, TABLE_AT)), ""

    def built_in(self, _):
        words = self.part(WRITTEN, WRITTEN_AT)
        number, after = reference.built_in_table_call(words)
        return number, changes("w", words, after)

    def search(self, call, *asked):
        words = self.part(WRITTEN, WRITTEN_AT)
        number, *totals, after = call(self.log, *asked, words, self.scratch())
        return number, changes("w", words, after) + totals_text([] if number else totals)

    def lower_cut(self, worker):
        return self.search(reference.lower_cut_call, worker, self.event)

    def plan(self, worker):
        return self.search(reference.plan_call, worker, self.event, self.part(TABLE, TABLE_AT))

    def restore(self, worker):
        words, positions, answers = (
            self.part(WRITTEN, WRITTEN_AT), self.part(POSITIONS, WRITTEN_AT), self.part(ANSWERS, ANSWERS_AT))
        number, totals, plan, after, left = reference.restore_and_replay_call(
            self.log, worker, self.event, self.part(LIST, LIST_AT), self.part(TABLE, TABLE_AT), words, self.scratch(),
            positions, answers, self.part_of_totals())
        replayed = changes("p", positions, after) + changes("a", answers, left)
        return number, replayed + changes("w", words, plan) + totals_text(totals)

    def writer(self, call):
        lent = GUARD * min(self.numbers[BYTES], ROOM)
        number, after, written = call(self.log, lent, self.part_of_totals())
        return number, bytes_text(lent, after) + totals_text(written)

    def pack(self, _):
        return self.writer(reference.pack_call)

    def intervals(self, _):
        return self.writer(reference.intervals_call)


def case_lines(name, content, extra):
    """The lines of a case."""
    case = case_of(content)
    numbers = [FILLER] * SIZE
    text = name
    for place, value in entries_of(content, extra):
        numbers[place] = value
        if place < LINE:
            number, changed = getattr(Made(case, numbers), NAMES[place])(value)
            text += " %-11s%s =%d" % (NAMES[place], changed, number)
        elif place == LINE:
            text += "\n%s %d" % (name, value)
    return text + "\n"
