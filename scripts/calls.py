"""The calls that the program `cases` makes on a case, and how its standard input lists them.

The program has an array of SIZE numbers: how many words, or bytes, are lent of each kind, the words that a call reads, and the
words that it writes over. Each is FILLER at first, and so is each of SCRATCH_ROOM words of scratch before a call. Standard input
has for each case the number of its entries and then the entries, each a place and a value, in numbers of 4 bytes with the lowest
first. An entry puts the value at the place. At a place below ENTRIES it is an action besides:

    below CALLS    the call of this number in NAMES, on the numbers as they are. The value is its worker, or the identifier of a
                   covering set
    CALLS          a new line of the output. The value is its number

A new call has the next number of NAMES, and the count of a new kind of words one of the free places before READ_AT, so that no
other moves. FILE and NAME are the places of the counts for the bytes of a file and of a name, and from FILE_AT and NAME_AT on is
room for these, 4 bytes to a word; no call reads them yet.

The lines of a case:

    no number    the refusal of the log
    0 to 9       every call but `built_in`, with the words lent in one of the ways below
    10 to 12     each word of the case in turn changed, by 1, by 65536 and by 4294967295, a sum that wraps: for a word of the
                 cut the cut test, else a step of the first worker and one of the last
    13 to 16     the steps of a list, in four patterns, from the planned starts
    17           in some cases: with each of TABLES as the unit table, loading it, the plan, and the plan with a list of steps;
                 and the built-in table, with each of FOR_TABLE words lent for it
    18 + w       three steps of worker w, while every other worker starts at its cut: what these sent before is lost
    82           in some cases: with each number of scratch words of `scratch_lengths`, the lower cut, the plan, and the plan with a
                 list of steps

The ways: in way k, 0 to 5, one word or byte too few is lent of kind k, and just enough of the others. In ways 6 and 7 it is just
enough of each kind, in way 8 it is 8 more than needed, and in way 9 one too few. A call that only writes words is lent fillers.
The others are given the words of the case, all from reference.py: its lower cut, its plan, and positions at the planned starts;
where the case is refused they are fillers. The identifier of a covering set is 4294967295 in way 0, the largest without the mark of
a withdrawn checkpoint in way 5, a 1 with the mark in way 6, and k - 1 in each other way k. The unit table of a plan is
IN_WAY[k]; in ways 0, 1 and 9 it is one that does not load. In way 6 both calls of a plan are made again, with one that does not.

`pack` and `intervals` are called in ways 4 to 9 alone, and in way 7 with no byte lent. They are lent bytes for the packed log and for
the interval log, as many as the log has where that is refused, but never more than ROOM. Ways 6 and 8, in which they write, are left
out where what they write has more than SHOWN bytes, so that the output does not have them; ways 4 and 5 test its length. Where two
checkpoints fall into one interval, `intervals` is lent bytes for the interval log that it refuses to write.
"""

import itertools
import struct

import reference

MAX_WORKERS = reference.MAX_WORKERS

# The numbers of the calls are below this one; NAMES has those in use, in their order.
CALLS = 24
NAMES = (
    "log_refusal", "vector", "upper_line", "covers", "cut_test", "step", "steps", "lower_cut", "plan", "restore", "pack",
    "load_table", "built_in", "intervals")
LINE = CALLS
ENTRIES = LINE + 1

# The places of the counts: the words that a call reads, and those that it writes, which are a line, a cut, a plan, the answer of
# a test, the positions of a step or the built-in table; scratch; the positions and answers of a list of steps; totals; bytes; the
# list; the unit table; a file; a name.
READ, WRITTEN, SCRATCH, POSITIONS, ANSWERS, TOTALS, BYTES, LIST, TABLE, FILE, NAME = range(32, 43)

# How many numbers the longest list has, one that is lent with a plan, and one that is lent with a plan and each table.
LONGEST = 8 * (MAX_WORKERS + 2)
REPLAYED = 32
REPLAYED_BY_TABLE = 3

# The first places of the words.
READ_AT = 64
LIST_AT = READ_AT + 3 * MAX_WORKERS + 8
TABLE_AT = LIST_AT + 2050
FILE_AT = TABLE_AT + 32
NAME_AT = FILE_AT + 512
WRITTEN_AT = NAME_AT + 16
ANSWERS_AT = WRITTEN_AT + MAX_WORKERS + 8
SIZE = ANSWERS_AT + REPLAYED * (MAX_WORKERS + 1) + 8

# The words of scratch that there are to lend.
SCRATCH_ROOM = MAX_WORKERS ** 2 + 8

# What each word to write over holds: a number over every event count.
FILLER = 900000

# The totals that there are, and the words that a test has for its answer.
ALL_TOTALS = 5
FOR_ANSWER = 8

# The bytes that there are to lend, and those of the longest packed log or interval log that the output has.
ROOM = 65536
SHOWN = 10000

# The kinds of words: of a cut, a line or a plan; scratch; positions; answers; totals. The last kind is the bytes of a log that is
# written.
# The ways with just enough, with no byte, with 8 more than needed, and with one too few of each kind.
OF_CUT, OF_SCRATCH, OF_POSITIONS, OF_ANSWERS, OF_TOTALS, OF_BYTES = range(6)
ENOUGH, NO_BYTE, MORE, FEW = range(6, 10)
WAYS = range(FEW + 1)

# The identifier that is tested for a covering set, in each way.
IDENTIFIERS = [4294967295, 0, 1, 2, 3, reference.MARK - 1, reference.MARK + 1, 6, 7, 8]

# Unit tables: the built-in one, the least and the largest, one whose words all differ, and the built-in one with a word in the
# first or the last place.
BUILT_IN = reference.BUILT_IN
ONES, THOUSANDS, RISING = [1] * 12, [1000] * 12, list(range(101, 113))


def with_first(word):
    return [word] + BUILT_IN[1:]


def with_last(word):
    return BUILT_IN[:11] + [word]


# The unit table in each way, and those of line 17: of each length, with each word in the first and in the last place.
IN_WAY = [BUILT_IN[:11], with_first(0), RISING, ONES, THOUSANDS, BUILT_IN, BUILT_IN, BUILT_IN, RISING, with_last(1001)[1:]]
TABLES = (
    [BUILT_IN, ONES, THOUSANDS, RISING, [], BUILT_IN[:11], BUILT_IN + [1], BUILT_IN + BUILT_IN]
    + [table(word) for word in (0, 1, 1000, 1001, 4294967295) for table in (with_first, with_last)]
)
FOR_TABLE = (0, 11, 12, 20)

# The first lines with changed words, of a list, of the tables, of lost starts and of scratch; the changes.
CHANGED = FEW + 1
CHANGES = (1, 65536, 4294967295)
LISTS = CHANGED + len(CHANGES)
PATTERNS = range(4)
BY_TABLE = LISTS + len(PATTERNS)
LOST = BY_TABLE + 1
BY_SCRATCH = LOST + MAX_WORKERS

NO_WORKER = 4294967295


def case_of(content):
    """The log, the worker and the event of a case file."""
    worker, event = struct.unpack_from("<II", content)
    return content[8:], worker, event


def size(log):
    """The number of workers; 1 where the log is refused."""
    return 1 if reference.refusal(log) else reference.read(log).n


def written_length(log, name):
    """The number of bytes of the packed log or of the interval log; of the log itself, but at least 1, where it is refused."""
    if reference.refusal(log):
        return max(1, len(log))
    return len(reference.packed(reference.read(log)) if name == "pack" else reference.interval_bytes(log))


def lent(needed, kind, way):
    """How many words or bytes of a kind are lent."""
    return needed - 1 if way in (kind, FEW) else needed + 8 if way == MORE else needed


def scratch_lengths(n):
    """Numbers of scratch words: none, one, and those about a row, two rows, and a row for each worker."""
    return sorted({0, 1, n - 1, n, 2 * n - 1, 2 * n, 2 * n + 1, n * n - 1, n * n, n * n + 1})


def worker_numbers(pattern, n, count):
    """A list of worker numbers: 0 to n - 1, n, and the largest number for n + 1."""
    places = range(count)
    turns = (
        [k for k in places],
        [LONGEST - k for k in places],
        [k + k // 8 for k in places],
        [k // 8 for k in places],
    )[pattern]
    return [turn % (n + 2) if turn % (n + 2) <= n else NO_WORKER for turn in turns]


class Words:
    """The words of a case."""

    def __init__(self, case, n):
        number, *_, self.plan = reference.plan_call(*case, BUILT_IN, [FILLER] * (3 * n), reference.scratch_words(n))
        self.cut = self.plan[0::3] if number else reference.lower_cut_call(*case, [FILLER] * n, reference.scratch_words(n))[3]
        self.positions = self.plan[1::3]

    def with_others_lost(self, w):
        """The plan with every worker but w starting at its cut."""
        return [self.plan[k - 1] if k % 3 == 1 and k // 3 != w else word for k, word in enumerate(self.plan)]


class Calls:
    """The entries of a case as they are added, and the labels of those that are actions, for show.py."""

    def __init__(self, content, extra):
        self.log, self.worker, _ = case = case_of(content)
        self.n = size(self.log)
        self.words = Words(case, self.n)
        self.numbers = [FILLER] * SIZE
        self.entries = []
        self.labels = []
        self.make("log_refusal")
        for way in WAYS:
            self.begin(way)
            self.add_way(way)
        for line, by in enumerate(CHANGES, CHANGED):
            self.begin(line)
            self.add_changes(by)
        for pattern in PATTERNS:
            self.begin(LISTS + pattern)
            self.add_steps(self.words.plan, worker_numbers(pattern, self.n, 8 * (self.n + 2)))
        if BY_TABLE in extra:
            self.begin(BY_TABLE)
            self.add_tables()
        for w in range(self.n):
            self.begin(LOST + w)
            self.add_steps(self.words.with_others_lost(w), [w] * 3)
        if BY_SCRATCH in extra:
            self.begin(BY_SCRATCH)
            self.add_scratch()

    def put(self, place, values):
        """The entries that change what is at the places from this one on."""
        for at, value in enumerate(values, place):
            if self.numbers[at] != value:
                self.entries.append((at, value))
                self.numbers[at] = value

    def lend(self, place, needed, kind, way):
        """Lends words or bytes of a kind in a way; their number stands at the place."""
        self.put(place, [lent(needed, kind, way)])

    def lend_plan(self, way):
        """Lends the words of a plan to read, and the positions of a step to write."""
        self.lend(READ, 3 * self.n, OF_CUT, way)
        self.lend(WRITTEN, self.n, OF_POSITIONS, way)

    def act(self, place, value, label):
        self.entries.append((place, value))
        self.labels.append((place, label))

    def make(self, name, value=0, changed=""):
        self.act(NAMES.index(name), value, changed + name + (" %d" % value if name in ("covers", "step") else ""))

    def begin(self, line):
        self.act(LINE, line, "")

    def add_way(self, way):
        self.put(WRITTEN_AT, [FILLER] * self.n)
        self.put_table(IN_WAY[way])
        self.make("load_table")
        self.add_tests(way)
        self.add_searches(way)
        self.add_restore(way)
        if way == ENOUGH:
            self.add_plans(BUILT_IN + [1])
        self.put(READ_AT, self.words.plan)
        self.put(WRITTEN_AT, self.words.positions)
        self.lend_plan(way)
        self.make("step", NO_WORKER if way == FEW else 0)
        self.put_list(way, 8 * (self.n + 2))
        self.lend(ANSWERS, 8 * (self.n + 2), OF_ANSWERS, way)
        self.make("steps")
        for name in ("pack", "intervals"):
            self.add_writer(name, way)

    def add_tests(self, way):
        self.put(READ_AT, self.words.cut)
        self.lend(READ, self.n, OF_CUT, way)
        self.put(WRITTEN, [FOR_ANSWER])
        self.make("covers", IDENTIFIERS[way])
        self.make("cut_test")

    def add_searches(self, way):
        self.lend(WRITTEN, self.n, OF_CUT, way)
        self.make("vector", self.worker)
        self.make("upper_line", self.worker)
        self.lend(SCRATCH, reference.scratch_words(self.n), OF_SCRATCH, way)
        self.make("lower_cut", self.worker)
        self.lend(WRITTEN, 3 * self.n, OF_CUT, way)
        self.make("plan", self.worker)

    def add_restore(self, way):
        """The words of the plan, the scratch and the unit table are lent as before."""
        self.lend_restore(way, REPLAYED)
        self.lend(TOTALS, 4, OF_TOTALS, way)
        self.make("restore", self.worker)

    def lend_restore(self, way, count):
        self.put_list(way, count)
        self.lend(POSITIONS, self.n, OF_POSITIONS, way)
        self.lend(ANSWERS, count * (self.n + 1), OF_ANSWERS, way)

    def add_writer(self, name, way):
        length = written_length(self.log, name)
        if way < OF_TOTALS or way in (ENOUGH, MORE) and length > SHOWN:
            return
        self.put(BYTES, [0 if way == NO_BYTE else lent(length, OF_BYTES, way)])
        self.lend(TOTALS, 1, OF_TOTALS, way)
        self.make(name)

    def put_table(self, table):
        self.put(TABLE_AT, table)
        self.put(TABLE, [len(table)])

    def add_plans(self, table):
        """Loads a table, and makes both calls of a plan with it."""
        self.put_table(table)
        for name in ("load_table", "plan", "restore"):
            self.make(name, self.worker, "%d words %s, " % (len(table), table))

    def lend_plans(self):
        """Lends just enough for both calls of a plan."""
        self.put(WRITTEN_AT, [FILLER] * self.n)
        self.put(WRITTEN, [3 * self.n])
        self.put(SCRATCH, [reference.scratch_words(self.n)])
        self.put(TOTALS, [4])
        self.lend_restore(ENOUGH, REPLAYED_BY_TABLE)

    def add_scratch(self):
        self.put_table(BUILT_IN)
        self.lend_plans()
        for words in scratch_lengths(self.n):
            self.put(SCRATCH, [words])
            for name in ("lower_cut", "plan", "restore"):
                self.make(name, self.worker, "%d words of scratch, " % words)

    def add_tables(self):
        self.lend_plans()
        for table in TABLES:
            self.add_plans(table)
        for words in FOR_TABLE:
            self.put(WRITTEN, [words])
            self.make("built_in", 0, "%d words, " % words)

    def put_list(self, way, count):
        self.put(LIST_AT, worker_numbers(way % len(PATTERNS), self.n, count))
        self.put(LIST, [count])

    def add_changes(self, by):
        words = self.words
        self.put(READ_AT, words.cut)
        self.put(WRITTEN_AT, [FILLER] * self.n)
        self.lend(READ, self.n, OF_CUT, MORE)
        self.put(WRITTEN, [FOR_ANSWER])
        for changed in self.each_changed("cut", READ_AT, words.cut, by):
            self.make("cut_test", 0, changed)
        self.put(READ_AT, words.plan)
        self.put(WRITTEN_AT, words.positions)
        self.lend_plan(MORE)
        of_plan = self.each_changed("plan", READ_AT, words.plan, by)
        of_positions = self.each_changed("position", WRITTEN_AT, words.positions, by)
        for changed in itertools.chain(of_plan, of_positions):
            self.make("step", 0, changed)
            self.make("step", self.n - 1, changed)

    def each_changed(self, what, at, words, by):
        """Changes each of the words in turn, and gives the label of the calls on it."""
        for k, word in enumerate(words):
            self.put(at + k, [(word + by) % 2 ** 32])
            yield "%s %d, " % (what, k)
            self.put(at + k, [word])

    def add_steps(self, plan, workers):
        """Steps from the starts of a plan, each from the positions that the one before left."""
        self.put(READ_AT, plan)
        self.lend_plan(MORE)
        positions = plan[1::3]
        for worker in workers:
            self.put(WRITTEN_AT, positions)
            self.make("step", worker)
            positions = reference.step_call(self.log, plan, positions, worker)[1]


def entries_of(content, extra):
    """The entries of a case, each a place and a value. extra: those of the lines of some cases that it has."""
    return Calls(content, extra).entries


def labelled(content, extra):
    """The places of the actions of a case, each with its label."""
    return Calls(content, extra).labels


def listed(content, extra):
    """What standard input has for a case."""
    entries = entries_of(content, extra)
    return struct.pack("<I", len(entries)) + b"".join(struct.pack("<II", *entry) for entry in entries)
