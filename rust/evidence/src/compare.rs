//! Calls of the exported functions, each compared with the reference on its number and on every lent word and byte, with guards
//! before and behind.

use crate::description::{
    interval_length, packed_length, scratch, scratch_words, worker_count, Description,
    INTERVAL_FORM, MARK, MAX_LOG, MAX_WORKERS, TABLE_WORDS,
};
use crate::failure::{self, Call, Difference, Meaning};
use crate::intervals::Named;
use crate::random::Random;
use crate::sides::{Arguments, Write, EXPORTED, NAMES, REFERENCE};
use reference::{Log, BUILT_IN};
use restore_planner::calls;

/// Guards on each side of lent words or bytes.
const GUARD: usize = 5;

/// The totals of a lower cut.
const CUT_TOTALS: Meaning = Meaning::Named(&["visits", "workers word"]);
/// The totals of a plan.
const PLAN_TOTALS: Meaning = Meaning::Named(&["visits", "events", "units", "workers word"]);

/// The words written with a packed log or an interval log.
const WRITTEN: Meaning = Meaning::Named(&["length"]);

/// Words or bytes that are lent, between guards. All hold any numbers at first.
#[derive(Clone, Debug)]
pub struct Lent<T> {
    name: &'static str,
    meaning: Meaning,
    cells: Vec<T>,
    length: usize,
}

impl<T: Copy + Default + PartialEq + Into<u64>> Lent<T> {
    fn any(
        random: &mut Random,
        (name, meaning): (&'static str, Meaning),
        length: usize,
        cell: fn(&mut Random) -> T,
    ) -> Lent<T> {
        Lent {
            name,
            meaning,
            cells: (0..length + 2 * GUARD).map(|_| cell(random)).collect(),
            length,
        }
    }

    /// What is lent.
    pub fn lent(&mut self) -> &mut [T] {
        &mut self.cells[GUARD..GUARD + self.length]
    }

    /// Leaves only the guards to compare, after a success with words that are free.
    fn forget_if(&mut self, free: bool) {
        if free {
            self.lent().fill(T::default());
        }
    }

    /// The first word or byte, a guard too, that is not as expected.
    pub fn difference(&self, expected: &Lent<T>) -> Option<Difference> {
        let name = |cell: usize| match cell.checked_sub(GUARD) {
            None => format!("guard {cell} before {}", self.name),
            Some(index) if index < self.length => self.meaning.word(self.name, index),
            Some(index) => format!("guard {} behind {}", index - self.length, self.name),
        };
        failure::words(name, &self.cells, &expected.cells)
    }
}

impl Lent<u32> {
    /// So many words.
    pub fn words(random: &mut Random, name: &'static str, length: usize) -> Lent<u32> {
        Lent::of(random, name, Meaning::Plain, length)
    }

    fn of(random: &mut Random, name: &'static str, meaning: Meaning, length: usize) -> Lent<u32> {
        Lent::any(random, (name, meaning), length, Random::word)
    }

    fn holding(random: &mut Random, name: &'static str, words: &[u32]) -> Lent<u32> {
        let mut lent = Lent::words(random, name, words.len());
        lent.lent().copy_from_slice(words);
        lent
    }
}

impl Lent<u8> {
    fn bytes(random: &mut Random, name: &'static str, length: usize) -> Lent<u8> {
        Lent::any(random, (name, Meaning::Plain), length, |random| {
            random.word() as u8
        })
    }
}

impl Lent<u64> {
    /// So many totals.
    pub fn totals(random: &mut Random, meaning: Meaning, length: usize) -> Lent<u64> {
        Lent::any(random, ("totals", meaning), length, Random::long)
    }
}

/// The difference of the numbers returned.
fn returned(found: u32, expected: u32) -> Option<Difference> {
    failure::number("number returned", found, expected)
}

/// Compares the refusal of a log, and returns it.
pub fn log_refusal(random: &Random, log: &[u8]) -> u32 {
    let number = calls::log_refusal(log);
    let call = Call {
        name: "log_refusal",
        random,
        log,
        arguments: &[],
    };
    call.returned(number, reference::log_refusal(log));
    number
}

/// Compares the refusal of a log with the reference's and with the number that this log has to have.
pub fn is_refused_by(random: &Random, log: &[u8], number: u32) {
    let call = Call {
        name: "log_refusal",
        random,
        log,
        arguments: &[],
    };
    call.returned(log_refusal(random, log), number);
}

/// Compares a call that writes a line of n words for an event.
fn line(
    name: &'static str,
    exported: fn(&[u8], u32, u32, &mut [u32]) -> u32,
    expected: fn(&[u8], u32, u32, &mut [u32]) -> u32,
    random: &mut Random,
    (log, worker, event, words): (&[u8], u32, u32, usize),
) -> u32 {
    let mut ours = Lent::words(random, "words", words);
    let mut theirs = ours.clone();
    let number = exported(log, worker, event, ours.lent());
    let other = expected(log, worker, event, theirs.lent());
    let call = Call {
        name,
        random,
        log,
        arguments: &[
            ("worker", worker.into()),
            ("event", event.into()),
            ("words", words as u64),
        ],
    };
    call.same([returned(number, other), ours.difference(&theirs)]);
    number
}

/// Compares a vector.
pub fn vector(random: &mut Random, log: &[u8], worker: u32, event: u32, words: usize) -> u32 {
    line(
        "vector",
        calls::vector,
        reference::vector,
        random,
        (log, worker, event, words),
    )
}

/// Compares an upper line.
pub fn upper_line(random: &mut Random, log: &[u8], worker: u32, event: u32, words: usize) -> u32 {
    line(
        "upper_line",
        calls::upper_line,
        reference::upper_line,
        random,
        (log, worker, event, words),
    )
}

/// How many words are lent: words, scratch, totals.
#[derive(Clone, Copy, Debug)]
pub struct Lengths {
    /// The words of the cut or the plan.
    pub words: usize,
    /// The scratch.
    pub scratch: usize,
    /// The totals.
    pub totals: usize,
}

/// A call that writes words and totals, and is lent scratch.
type WithTotals<'a> = &'a dyn Fn(&mut [u32], &mut [u32], &mut [u64]) -> u32;

/// Compares a call that writes words and totals, given its arguments beside these.
fn with_totals(
    (name, words, totals): (&'static str, Meaning, Meaning),
    [exported, expected]: [WithTotals; 2],
    random: &mut Random,
    (log, arguments): (&[u8], &[(&'static str, u64)]),
    lengths: Lengths,
) -> u32 {
    let mut ours = (
        Lent::of(random, "words", words, lengths.words),
        Lent::words(random, "scratch", lengths.scratch),
        Lent::totals(random, totals, lengths.totals),
    );
    let (before, mut theirs) = (ours.clone(), ours.clone());
    let number = exported(ours.0.lent(), ours.1.lent(), ours.2.lent());
    let other = expected(theirs.0.lent(), theirs.1.lent(), theirs.2.lent());
    let lent = [
        ("words", lengths.words as u64),
        ("scratch", lengths.scratch as u64),
        ("totals", lengths.totals as u64),
    ];
    let call = Call {
        name,
        random,
        log,
        arguments: &[arguments, &lent].concat(),
    };
    call.returned(number, other);
    // Refused: nothing that is lent changes.
    let mut expected = if number == 0 { theirs } else { before };
    ours.1.forget_if(number == 0);
    expected.1.forget_if(number == 0);
    call.same([
        ours.0.difference(&expected.0),
        ours.1.difference(&expected.1),
        ours.2.difference(&expected.2),
    ]);
    number
}

/// Compares a lower cut.
pub fn lower_cut(
    random: &mut Random,
    log: &[u8],
    worker: u32,
    event: u32,
    lengths: Lengths,
) -> u32 {
    let sides = [calls::lower_cut, reference::lower_cut].map(|call| {
        move |words: &mut [u32], scratch: &mut [u32], totals: &mut [u64]| {
            call(log, worker, event, words, scratch, totals)
        }
    });
    with_totals(
        ("lower_cut", Meaning::Plain, CUT_TOTALS),
        [&sides[0], &sides[1]],
        random,
        (log, &[("worker", worker.into()), ("event", event.into())]),
        lengths,
    )
}

/// Compares a plan.
pub fn plan(
    random: &mut Random,
    log: &[u8],
    worker: u32,
    event: u32,
    table: &[u32],
    lengths: Lengths,
) -> u32 {
    let sides = [calls::plan, reference::plan].map(|call| {
        move |words: &mut [u32], scratch: &mut [u32], totals: &mut [u64]| {
            call(log, worker, event, table, words, scratch, totals)
        }
    });
    let arguments = [
        ("worker", worker.into()),
        ("event", event.into()),
        ("table", table.len() as u64),
    ];
    with_totals(
        ("plan", Meaning::Plan, PLAN_TOTALS),
        [&sides[0], &sides[1]],
        random,
        (log, &arguments),
        lengths,
    )
}

/// Compares the loading of a unit table, which writes nothing.
pub fn load_table(random: &mut Random, table: &[u32]) -> u32 {
    let mut ours = Lent::holding(random, "table", table);
    let before = ours.clone();
    let number = calls::load_table(ours.lent());
    let call = Call {
        name: "load_table",
        random,
        log: &[],
        arguments: &[("table", table.len() as u64)],
    };
    let other = reference::load_table(table);
    call.same([returned(number, other), ours.difference(&before)]);
    number
}

/// Compares the built-in table, with this many words lent.
pub fn built_in_table(random: &mut Random, words: usize) -> u32 {
    let mut ours = Lent::words(random, "table", words);
    let (before, mut theirs) = (ours.clone(), ours.clone());
    let number = calls::built_in_table(ours.lent());
    let other = reference::built_in_table(theirs.lent());
    let call = Call {
        name: "built_in_table",
        random,
        log: &[],
        arguments: &[("table", words as u64)],
    };
    // Refused: nothing that is lent changes.
    let expected = if number == 0 { theirs } else { before };
    call.same([returned(number, other), ours.difference(&expected)]);
    number
}

/// Compares a cut test, with an answer of this many words.
pub fn cut_test(random: &mut Random, log: &[u8], words: &[u32], answer: usize) -> u32 {
    let mut ours = Lent::words(random, "answer", answer);
    let mut theirs = ours.clone();
    let number = calls::cut_test(log, words, ours.lent());
    let other = reference::cut_test(log, words, theirs.lent());
    let call = Call {
        name: "cut_test",
        random,
        log,
        arguments: &[("words", words.len() as u64), ("answer", answer as u64)],
    };
    call.same([returned(number, other), ours.difference(&theirs)]);
    number
}

/// Compares the covering test of an identifier, with an answer of this many words.
pub fn covers(random: &mut Random, log: &[u8], identifier: u32, answer: usize) -> u32 {
    let mut ours = Lent::words(random, "answer", answer);
    let mut theirs = ours.clone();
    let number = calls::covers(log, identifier, ours.lent());
    let other = reference::covers(log, identifier, theirs.lent());
    let call = Call {
        name: "covers",
        random,
        log,
        arguments: &[("identifier", identifier.into()), ("answer", answer as u64)],
    };
    call.same([returned(number, other), ours.difference(&theirs)]);
    number
}

/// Compares one step, and returns its answer and the positions after it.
pub fn step(
    random: &mut Random,
    log: &[u8],
    plan: &[u32],
    positions: &[u32],
    worker: u32,
) -> (u32, Vec<u32>) {
    let mut ours = Lent::holding(random, "positions", positions);
    let mut theirs = ours.clone();
    let number = calls::step(log, plan, ours.lent(), worker);
    let other = reference::step(log, plan, theirs.lent(), worker);
    let call = Call {
        name: "step",
        random,
        log,
        arguments: &[
            ("words", plan.len() as u64),
            ("positions", positions.len() as u64),
            ("worker", worker.into()),
        ],
    };
    call.same([returned(number, other), ours.difference(&theirs)]);
    (number, ours.lent().to_vec())
}

/// Compares a list of steps, with `answers` of this many words.
pub fn steps(
    random: &mut Random,
    log: &[u8],
    plan: &[u32],
    positions: &[u32],
    workers: &[u32],
    answers: usize,
) -> u32 {
    let mut ours = (
        Lent::holding(random, "positions", positions),
        Lent::words(random, "answers", answers),
    );
    let mut theirs = ours.clone();
    let number = calls::steps(log, plan, ours.0.lent(), workers, ours.1.lent());
    let other = reference::steps(log, plan, theirs.0.lent(), workers, theirs.1.lent());
    let call = Call {
        name: "steps",
        random,
        log,
        arguments: &[
            ("words", plan.len() as u64),
            ("positions", positions.len() as u64),
            ("workers", workers.len() as u64),
            ("answers", answers as u64),
        ],
    };
    call.same([
        returned(number, other),
        ours.1.difference(&theirs.1),
        ours.0.difference(&theirs.0),
    ]);
    number
}

/// How many words are lent to a plan with a list of steps.
#[derive(Clone, Copy, Debug)]
pub struct Room {
    /// The words of the plan.
    pub words: usize,
    /// The scratch.
    pub scratch: usize,
    /// The positions.
    pub positions: usize,
    /// The answers and positions of the steps.
    pub steps: usize,
    /// The totals.
    pub totals: usize,
}

impl Room {
    /// Just enough for a log of n workers and a list of this length.
    pub fn needed(n: usize, list: usize) -> Room {
        Room {
            words: 3 * n,
            scratch: scratch_words(n),
            positions: n,
            steps: list * (n + 1),
            totals: 4,
        }
    }

    /// For a log of n workers and a list of this length: just enough or more, the scratch n × n words too; one of the five one word short;
    /// or each of any length.
    fn any(random: &mut Random, n: usize, list: usize) -> Room {
        let mut room = Room::needed(n, list);
        let case = random.below(12);
        for (at, length) in room.lengths().into_iter().enumerate() {
            *length = match case {
                5 => crate::compare::length(random, *length),
                short if short == at => length.saturating_sub(1),
                6..=8 => *length,
                _ => *length + random.below(9),
            };
        }
        match case {
            5 => room.scratch = scratch_length(random, n),
            11 => room.scratch = room.scratch.max(n * n),
            _ => (),
        }
        room
    }

    fn lengths(&mut self) -> [&mut usize; 5] {
        [
            &mut self.words,
            &mut self.scratch,
            &mut self.positions,
            &mut self.steps,
            &mut self.totals,
        ]
    }
}

/// The words that are lent to a plan with a list of steps.
#[derive(Clone, Debug)]
struct Rooms {
    words: Lent<u32>,
    scratch: Lent<u32>,
    positions: Lent<u32>,
    steps: Lent<u32>,
    totals: Lent<u64>,
}

impl Rooms {
    fn any(random: &mut Random, workers: usize, room: Room) -> Rooms {
        Rooms {
            words: Lent::of(random, "words", Meaning::Plan, room.words),
            scratch: Lent::words(random, "scratch", room.scratch),
            positions: Lent::words(random, "positions", room.positions),
            steps: Lent::of(random, "steps", Meaning::Steps(workers), room.steps),
            totals: Lent::totals(random, PLAN_TOTALS, room.totals),
        }
    }

    fn differences(&self, expected: &Rooms) -> [Option<Difference>; 5] {
        [
            self.words.difference(&expected.words),
            self.totals.difference(&expected.totals),
            self.steps.difference(&expected.steps),
            self.positions.difference(&expected.positions),
            self.scratch.difference(&expected.scratch),
        ]
    }
}

/// Compares a plan with a list of steps, and where it is not refused tests what it wrote.
pub fn restore_and_replay(
    random: &mut Random,
    log: &[u8],
    worker: u32,
    event: u32,
    workers: &[u32],
    table: &[u32],
    room: Room,
) -> Replayed {
    let n = worker_count(log);
    let mut ours = Rooms::any(random, n, room);
    let mut theirs = ours.clone();
    let before = ours.clone();
    let number = calls::restore_and_replay(
        log,
        worker,
        event,
        workers,
        table,
        ours.words.lent(),
        ours.scratch.lent(),
        ours.positions.lent(),
        ours.steps.lent(),
        ours.totals.lent(),
    );
    let other = reference::restore_and_replay(
        log,
        worker,
        event,
        workers,
        table,
        theirs.words.lent(),
        theirs.scratch.lent(),
        theirs.positions.lent(),
        theirs.steps.lent(),
        theirs.totals.lent(),
    );
    let call = Call {
        name: "restore_and_replay",
        random,
        log,
        arguments: &[
            ("worker", worker.into()),
            ("event", event.into()),
            ("workers", workers.len() as u64),
            ("table", table.len() as u64),
            ("words", room.words as u64),
            ("scratch", room.scratch as u64),
            ("positions", room.positions as u64),
            ("steps", room.steps as u64),
            ("totals", room.totals as u64),
        ],
    };
    call.returned(number, other);
    if number != 0 {
        // Refused: nothing that is lent changes.
        call.same(ours.differences(&before));
        return Replayed::Refused(number);
    }
    ours.scratch.forget_if(true);
    theirs.scratch.forget_if(true);
    call.same(ours.differences(&theirs));
    Replayed::Steps(Counted::new(
        &call,
        &ours.words.lent()[..3 * n],
        &ours.positions.lent()[..n],
        &ours.steps.lent()[..workers.len() * (n + 1)],
        ours.totals.lent()[1],
    ))
}

/// Compares a call that writes a log, with this many bytes and words lent. Gives the number, and the bytes that were written.
fn write(
    name: &'static str,
    [exported, reference]: [Write; 2],
    random: &mut Random,
    log: &[u8],
    (bytes, words): (usize, usize),
) -> (u32, Vec<u8>) {
    let mut ours = (
        Lent::bytes(random, "out", bytes),
        Lent::any(random, ("written", WRITTEN), words, Random::long),
    );
    let (before, mut theirs) = (ours.clone(), ours.clone());
    let number = exported(log, ours.0.lent(), ours.1.lent());
    let other = reference(log, theirs.0.lent(), theirs.1.lent());
    let call = Call {
        name,
        random,
        log,
        arguments: &[("out", bytes as u64), ("written", words as u64)],
    };
    call.returned(number, other);
    // Refused: nothing that is lent changes.
    let expected = if number == 0 { theirs } else { before };
    call.same([
        ours.1.difference(&expected.1),
        ours.0.difference(&expected.0),
    ]);
    if number != 0 {
        return (number, Vec::new());
    }
    let length = ours.1.lent()[0] as usize;
    (0, ours.0.lent()[..length].to_vec())
}

/// Compares the packing of a log, with this many bytes and words lent. Gives the number, and the bytes that were written.
pub fn pack(random: &mut Random, log: &[u8], lent: (usize, usize)) -> (u32, Vec<u8>) {
    let sides = [calls::pack as Write, reference::pack];
    write("pack", sides, random, log, lent)
}

/// Compares the conversion of a log to an interval log, with this many bytes and words lent. Gives the number, and the bytes that were
/// written.
pub fn intervals(random: &mut Random, log: &[u8], lent: (usize, usize)) -> (u32, Vec<u8>) {
    let sides = [calls::intervals as Write, reference::intervals];
    write("intervals", sides, random, log, lent)
}

/// Fails where a call that was lent this many bytes and words did not give this number.
fn gives(
    name: &'static str,
    random: &Random,
    log: &[u8],
    (bytes, words): (usize, usize),
    number: u32,
    expected: u32,
) {
    let call = Call {
        name,
        random,
        log,
        arguments: &[("out", bytes as u64), ("written", words as u64)],
    };
    call.returned(number, expected);
}

/// Compares the packing of a log with the number that it has to have, with this many bytes and words lent.
pub fn pack_gives(random: &mut Random, log: &[u8], lent: (usize, usize), expected: u32) {
    let (number, _) = pack(random, log, lent);
    gives("pack", random, log, lent, number, expected);
}

/// Compares the conversion of a log with the number that it has to have, with this many bytes and words lent.
pub fn intervals_gives(random: &mut Random, log: &[u8], lent: (usize, usize), expected: u32) {
    let (number, _) = intervals(random, log, lent);
    gives("intervals", random, log, lent, number, expected);
}

/// The number of writing a log of this length, with this many bytes and words lent.
fn write_number(length: usize, (bytes, words): (usize, usize)) -> u32 {
    if length > MAX_LOG {
        26
    } else if bytes < length {
        25
    } else if words == 0 {
        14
    } else {
        0
    }
}

/// Compares the packed log of a log that 26 does not refuse with the one of its content, and its refusal, its packing and a call of
/// each kind with those of the log. Gives the packed log.
pub fn packed(random: &mut Random, log: &[u8], accepted: &Log) -> Vec<u8> {
    let length = packed_length(accepted);
    let (number, packed) = pack(random, log, (length, 1));
    let expected = Description::of(accepted).pack_as(accepted.form.number);
    let arguments = Arguments::any(random, log, accepted);
    let again = pack(random, &packed, (length, 1));
    let call = |name| Call {
        name,
        random,
        log,
        arguments: &[],
    };
    call("pack").returned(number, 0);
    call("pack").holds(packed == expected, || {
        "the packed log is not that of the log's content".to_string()
    });
    call("pack").holds(again == (0, packed.clone()), || {
        format!("packing the packed log gives {} and other bytes", again.0)
    });
    for name in NAMES.into_iter().filter(|&name| name != "pack") {
        let [found, expected] = [&packed, log].map(|log| arguments.answer(name, &EXPORTED, log));
        let word = |at| format!("number or word {at}, for the packed log");
        call(name).same([failure::words(word, &found, &expected)]);
    }
    packed
}

/// Compares the interval log of a log that neither 28 nor 26 refuses with the one of its content. Each call on a log refuses it by 2 and
/// leaves what it is lent, scratch and guards too, and its least closed cut for some events of the log has the receives within the lower
/// cut. Gives the interval log.
pub fn converted(random: &mut Random, log: &[u8], accepted: &Log) -> Vec<u8> {
    let (number, converted) = intervals(random, log, (interval_length(accepted), 1));
    let content = Description::of(accepted);
    let expected = content.converted(accepted.form.number);
    let call = Call {
        name: "intervals",
        random,
        log,
        arguments: &[],
    };
    call.returned(number, 0);
    call.holds(converted == expected.pack_as(INTERVAL_FORM), || {
        "the interval log is not that of the log's content".to_string()
    });
    is_refused_by(random, &converted, 2);
    refused(random, &converted, 2, &mut Seen::default());
    let named = Named::of(&converted);
    for _ in 0..3 {
        let w = random.below(accepted.size()) as u32;
        let count = accepted.workers[w as usize].count() as usize;
        if count > 0 {
            let event = random.within(1, count) as u32;
            interval_cut(random, log, accepted, &named, (w, event));
        }
    }
    converted
}

/// Compares, for an event of a log, the least closed cut of its interval log with the receives within the exported lower cut. Gives that
/// cut.
pub fn interval_cut(
    random: &Random,
    log: &[u8],
    accepted: &Log,
    named: &Named,
    (worker, event): (u32, u32),
) -> Vec<u32> {
    let receives = |w: usize, last: u32| {
        let events = accepted.workers[w].events(0, last);
        events.filter(|event| event.is_receive()).count() as u32
    };
    let (mut cut, mut scratch, mut totals) = (vec![0; accepted.size()], scratch(log), [0; 2]);
    let number = calls::lower_cut(log, worker, event, &mut cut, &mut scratch, &mut totals);
    let call = Call {
        name: "lower_cut",
        random,
        log,
        arguments: &[("worker", worker.into()), ("event", event.into())],
    };
    call.returned(number, 0);
    let within = cut.iter().enumerate().map(|(w, &last)| receives(w, last));
    let within: Vec<u32> = within.collect();
    let held = receives(worker as usize, event);
    let found = named.least_closed(worker as usize, held);
    let word = |w| format!("the least closed cut of worker {w}");
    call.same([failure::words(word, &found, &within)]);
    found
}

/// A plan with a list of steps, as the exported function answered it.
#[derive(Clone, Copy, Debug, PartialEq)]
pub enum Replayed {
    /// It was refused by this number.
    Refused(u32),
    /// The steps were made.
    Steps(Counted),
}

impl Replayed {
    /// The number that was returned.
    pub fn number(self) -> u32 {
        match self {
            Replayed::Refused(number) => number,
            Replayed::Steps(_) => 0,
        }
    }
}

/// The steps of a list, counted in the words returned.
#[derive(Clone, Copy, Debug, PartialEq)]
pub struct Counted {
    /// The steps that were done.
    pub done: u64,
    /// Those that were refused.
    pub refused: u64,
    /// Whether all positions are at their cuts after the list.
    pub is_finished: bool,
}

impl Counted {
    /// Counts the steps in the words returned. After each step the done ones number the events returned exactly when all positions
    /// are at their cuts; the last step's positions, or the starts, are those after the list.
    fn new(call: &Call, plan: &[u32], positions: &[u32], steps: &[u32], events: u64) -> Counted {
        let at_cuts =
            |positions: &[u32]| plan.chunks(3).map(|w| w[0]).eq(positions.iter().copied());
        let mut after: Vec<u32> = plan.chunks(3).map(|w| w[1]).collect();
        let mut done = 0;
        let mut refused = 0;
        let finished = |done: u64, after: &[u32]| {
            call.holds((done == events) == at_cuts(after), || {
                format!(
                    "{done} of {events} events are done and all are at their cuts: {}",
                    at_cuts(after)
                )
            });
        };
        finished(done, &after);
        for row in steps.chunks(positions.len() + 1) {
            match row[0] {
                0 => done += 1,
                _ => refused += 1,
            }
            after.copy_from_slice(&row[1..]);
            finished(done, &after);
        }
        let name = |w| format!("positions[{w}] after the list");
        call.same([failure::words(name, positions, &after)]);
        Counted {
            done,
            refused,
            is_finished: at_cuts(positions),
        }
    }
}

/// A list of worker numbers for the plan of an event: none, some of the log's workers, some that may be no worker's, or one that
/// replays the whole plan, with other numbers within.
fn list(random: &mut Random, log: &[u8], accepted: &Log, at: (u32, u32)) -> Vec<u32> {
    let n = accepted.size();
    let length = random.below(40);
    match random.below(8) {
        0 => return Vec::new(),
        1 | 2 => return (0..length).map(|_| random.below(n) as u32).collect(),
        3 | 4 => return (0..length).map(|_| worker(random, accepted)).collect(),
        _ => (),
    }
    let whole = State::planned(log, at.0, at.1).and_then(|state| state.replay(accepted));
    let mut list = whole.unwrap_or_default();
    // Each step tests the whole log.
    list.truncate(MOST_BYTES / log.len());
    for _ in 0..random.pick(&[0, 0, 1, 5]) {
        let place = random.below(list.len() + 1);
        list.insert(place, worker(random, accepted));
    }
    list
}

/// The most bytes that the steps of a list together test.
pub(crate) const MOST_BYTES: usize = 10_000_000;

/// A number of words to lend where `needed` are needed: most often enough.
pub fn length(random: &mut Random, needed: usize) -> usize {
    match random.below(10) {
        0 => needed.saturating_sub(1),
        1 => random.below(needed + 1),
        2..=4 => needed + random.within(1, 9),
        _ => needed,
    }
}

/// A number of scratch words to lend for n workers, most often enough: as many as are needed, one fewer or more, any fewer, up to n × n, or
/// around it.
pub fn scratch_length(random: &mut Random, n: usize) -> usize {
    let (needed, square) = (scratch_words(n), n * n);
    match random.below(12) {
        0 | 1 => needed.saturating_sub(1),
        2 => random.below(needed + 1),
        3 | 4 => needed + 1,
        5 => random.within(needed, needed.max(square)),
        6 => random.pick(&[square.saturating_sub(1), square]),
        7 => square + random.within(1, 9),
        _ => needed,
    }
}

/// A worker number: most often one of the log's.
pub fn worker(random: &mut Random, log: &Log) -> u32 {
    let n = log.size();
    match random.below(20) {
        0 => n as u32,
        1 => random.pick(&[
            MAX_WORKERS as u32,
            255,
            256,
            u32::MAX,
            n as u32 + 1,
            1 << 31,
        ]),
        _ => random.below(n) as u32,
    }
}

/// An event of a worker: most often one of the log's.
pub fn event(random: &mut Random, log: &Log, worker: u32) -> u32 {
    let count = log.workers.get(worker as usize).map_or(0, |w| w.count());
    match random.below(20) {
        0 => 0,
        1 => count + 1,
        2 => random.pick(&[65_535, 65_536, u32::MAX, 1 << 16 | 1]),
        3..=6 => count,
        _ => random.within(1, count.max(1) as usize) as u32,
    }
}

/// A unit table that loads: the built-in one, one of the least and the largest words, or any.
pub fn loaded_table(random: &mut Random) -> [u32; TABLE_WORDS] {
    match random.below(6) {
        0 => BUILT_IN,
        1 => BUILT_IN.map(|_| random.pick(&[1, 1_000])),
        _ => BUILT_IN.map(|_| random.within(1, 1_000) as u32),
    }
}

/// A unit table: most often one that loads.
pub fn table(random: &mut Random) -> Vec<u32> {
    let mut table = loaded_table(random).to_vec();
    match random.below(16) {
        0 => {
            let length = random.pick(&[0, 1, 11, 13, 24, 36]);
            table.resize(length, 1);
        }
        1 => {
            let place = random.below(TABLE_WORDS);
            table[place] = random.pick(&[0, 1_001, 1 << 16 | 1, 1 << 31, u32::MAX]);
        }
        _ => (),
    }
    table
}

/// The state of a replay: plan words and positions.
#[derive(Clone, Debug)]
pub struct State {
    /// The plan words.
    pub plan: Vec<u32>,
    /// The positions.
    pub positions: Vec<u32>,
}

impl State {
    /// The reference's plan of a breakpoint, at its starts.
    pub fn planned(log: &[u8], worker: u32, event: u32) -> Option<State> {
        let planned = REFERENCE.planned(log, (worker, event), &BUILT_IN);
        let (plan, _) = planned.ok()?;
        let positions = plan.chunks(3).map(|w| w[1]).collect();
        Some(State { plan, positions })
    }

    /// A list of worker numbers that brings every position to its cut: the workers in turn, each until it is refused. None where a
    /// position can't be brought there.
    pub fn replay(&self, log: &Log) -> Option<Vec<u32>> {
        let mut positions = self.positions.clone();
        let mut list = Vec::new();
        loop {
            let before: u64 = positions.iter().map(|&p| u64::from(p)).sum();
            for (w, worker) in log.workers.iter().enumerate() {
                while positions[w] < self.plan[3 * w] {
                    list.push(w as u32);
                    let event = worker.event(positions[w] + 1);
                    if event.kind == 2 {
                        let sender = event.other();
                        let start = self.plan[3 * sender + 1];
                        if event.send <= start || event.send > positions[sender] {
                            break;
                        }
                    }
                    positions[w] += 1;
                }
            }
            if (0..log.size()).all(|w| positions[w] == self.plan[3 * w]) {
                return Some(list);
            }
            if before == positions.iter().map(|&p| u64::from(p)).sum() {
                return None;
            }
        }
    }

    /// Any cuts, starts and positions that 16 does not refuse.
    pub fn any(random: &mut Random, log: &Log) -> State {
        let mut plan = Vec::new();
        let mut positions = Vec::new();
        for worker in &log.workers {
            let cut = random.within(0, worker.count() as usize);
            let start = random.within(0, cut);
            let start = random.pick(&[start, start, worker.latest(cut as u32).index as usize]);
            plan.extend([cut as u32, start as u32, random.word()]);
            positions.push(random.within(start, cut) as u32);
        }
        State { plan, positions }
    }

    /// The state with an edit that 14 or 16 may refuse.
    pub fn edited(mut self, random: &mut Random) -> State {
        match random.below(8) {
            0 => {
                let length = random.below(self.plan.len() + 1);
                self.plan.truncate(length);
            }
            1 => {
                let length = random.below(self.positions.len() + 1);
                self.positions.truncate(length);
            }
            2 => {
                self.plan.fill_with(|| random.word());
                self.positions.fill_with(|| random.word());
            }
            3 => {
                self.plan.extend([random.word(); 3]);
                self.positions.extend([random.word(); 3]);
            }
            4 => {
                let at = random.below(self.positions.len());
                let before = self.positions[at];
                let any = random.word();
                self.positions[at] = random.pick(&[
                    before.wrapping_add(1),
                    before.wrapping_sub(1),
                    any,
                    u32::MAX,
                ]);
            }
            _ => {
                let at = random.below(self.plan.len());
                let before = self.plan[at];
                self.plan[at] = random.pick(&[
                    before.wrapping_add(1),
                    before.wrapping_sub(1),
                    0,
                    u32::MAX,
                    65_536,
                ]);
            }
        }
        self
    }
}

/// The numbers that calls returned, by how often, and the lists of steps that ended at the cuts and that did not.
#[derive(Clone, Debug, Default)]
pub struct Seen {
    numbers: Vec<u64>,
    restored: Vec<u64>,
    packed: Vec<u64>,
    converted: Vec<u64>,
    tables: Vec<u64>,
    finished: u64,
    unfinished: u64,
    refused_steps: u64,
    /// Sets of checkpoints by the least of the sends that are compared: below its sender's checkpoint, at it, above it.
    sets: [u64; 3],
}

/// Counts a number.
fn count(numbers: &mut Vec<u64>, number: u32) {
    let at = number as usize;
    if numbers.len() <= at {
        numbers.resize(at + 1, 0);
    }
    numbers[at] += 1;
}

/// Fails where one of the numbers was never counted.
fn has(counts: &[u64], numbers: impl IntoIterator<Item = u32>) {
    for number in numbers {
        let times = counts.get(number as usize).copied().unwrap_or(0);
        assert!(times > 0, "no call returned {number}: {counts:?}");
    }
}

impl Seen {
    /// Counts a number.
    pub fn add(&mut self, number: u32) {
        count(&mut self.numbers, number);
    }

    /// Counts a plan with a list of steps.
    pub fn add_replayed(&mut self, replayed: Replayed) {
        count(&mut self.restored, replayed.number());
        if let Replayed::Steps(counted) = replayed {
            // An empty replay ends where it begins.
            self.finished += u64::from(counted.is_finished && counted.done > 0);
            self.unfinished += u64::from(!counted.is_finished);
            self.refused_steps += counted.refused;
        }
    }

    /// Counts the number of a packing.
    pub fn add_packed(&mut self, number: u32) {
        count(&mut self.packed, number);
    }

    /// Fails where no packing returned one of the numbers.
    pub fn has_packed(&self, numbers: impl IntoIterator<Item = u32>) {
        has(&self.packed, numbers);
    }

    /// Counts the number of a conversion of a log to its interval log.
    pub fn add_converted(&mut self, number: u32) {
        count(&mut self.converted, number);
    }

    /// Fails where no conversion returned one of the numbers.
    pub fn has_converted(&self, numbers: impl IntoIterator<Item = u32>) {
        has(&self.converted, numbers);
    }

    /// Counts the number of a loading of a table or of the built-in one.
    pub fn add_table(&mut self, number: u32) {
        count(&mut self.tables, number);
    }

    /// Fails where no loading of a table, nor the built-in one, returned one of the numbers.
    pub fn has_tables(&self, numbers: impl IntoIterator<Item = u32>) {
        has(&self.tables, numbers);
    }

    /// Counts the covering test of an identifier that all workers have, where some receive without its data is compared: it is after its
    /// worker's checkpoint, and its sender's checkpoint has events before it.
    pub fn add_set(&mut self, log: &Log, identifier: u32) {
        let indices = log.workers.iter().map(|w| w.index_of(identifier));
        let Some(set) = indices.collect::<Option<Vec<u32>>>() else {
            return;
        };
        let workers = log.workers.iter().zip(&set);
        let after = workers.flat_map(|(worker, &index)| worker.events(index, worker.count()));
        let least = after
            .filter(|event| event.kind == 2 && set[event.other()] > 0)
            .map(|event| event.send.cmp(&set[event.other()]))
            .min();
        if let Some(least) = least {
            self.sets[(1 + least as i8) as usize] += 1;
        }
    }

    /// Fails where at most this many sets covered, or did not for a send below its sender's checkpoint, or for one at it and none below.
    pub fn has_sets(&self, times: u64) {
        let few = self.sets.iter().any(|&counted| counted <= times);
        assert!(!few, "sets by their least send: {:?}", self.sets);
    }

    /// Fails where one of the numbers was never returned, so that a test that has stopped to reach its cases is noticed.
    pub fn has(&self, numbers: impl IntoIterator<Item = u32>) {
        has(&self.numbers, numbers);
    }

    /// Fails where no plan with a list of steps returned one of the numbers, or where none ended at the cuts after done steps, none
    /// ended before, or no step was refused.
    pub fn has_replayed(&self, numbers: impl IntoIterator<Item = u32>) {
        has(&self.restored, numbers);
        let cases = [self.finished, self.unfinished, self.refused_steps];
        assert!(cases.iter().all(|&times| times > 0), "{cases:?}");
    }
}

/// Compares every call on a log, each with arguments of any value, and those on unit tables.
pub fn every_call(random: &mut Random, log: &[u8], seen: &mut Seen) {
    tables(random, seen);
    seen.add(log_refusal(random, log));
    match reference::accept(log) {
        Ok(accepted) => {
            events(random, log, &accepted, seen);
            states(random, log, &accepted, seen);
            replays(random, log, &accepted, seen);
            tests(random, log, &accepted, seen);
            packs(random, log, &accepted, seen);
            conversions(random, log, &accepted, seen);
        }
        Err(number) => refused(random, log, number, seen),
    }
}

/// Compares the loading of a table, and the built-in table with enough words or fewer.
fn tables(random: &mut Random, seen: &mut Seen) {
    let table = table(random);
    seen.add_table(load_table(random, &table));
    let words = length(random, TABLE_WORDS);
    seen.add_table(built_in_table(random, words));
}

/// Compares every call on a log that is refused by this number: each call gives it before its own numbers, and nothing that is lent
/// changes. Half of the calls are given enough words.
fn refused(random: &mut Random, log: &[u8], number: u32, seen: &mut Seen) {
    let n = if random.chance(500) {
        worker_count(log).min(MAX_WORKERS)
    } else {
        random.within(0, MAX_WORKERS)
    };
    let bound = random.pick(&[n, n, 70]);
    let worker = random.below(bound) as u32;
    let at_event = refused_at_event(random, log, worker, n);
    let others = refused_states(random, log, worker, n);
    for (name, found) in at_event.into_iter().chain(others) {
        let call = Call {
            name,
            random,
            log,
            arguments: &[],
        };
        call.returned(found, number);
        seen.add(found);
    }
}

/// Compares the calls that are given an event, on a log that is refused; gives the name and the number of each.
fn refused_at_event(
    random: &mut Random,
    log: &[u8],
    worker: u32,
    n: usize,
) -> [(&'static str, u32); 5] {
    let event = random.below(5) as u32;
    let lengths = Lengths {
        words: 3 * n,
        scratch: scratch_words(n),
        totals: random.below(5),
    };
    let list: Vec<u32> = (0..random.below(4)).map(|_| random.word()).collect();
    let (table, room) = (table(random), Room::any(random, n, list.len()));
    let replayed = restore_and_replay(random, log, worker, event, &list, &table, room);
    [
        ("vector", vector(random, log, worker, event, n)),
        ("upper_line", upper_line(random, log, worker, event, n)),
        ("lower_cut", lower_cut(random, log, worker, event, lengths)),
        ("plan", plan(random, log, worker, event, &table, lengths)),
        ("restore_and_replay", replayed.number()),
    ]
}

/// Compares the other calls on a log that is refused.
fn refused_states(
    random: &mut Random,
    log: &[u8],
    worker: u32,
    n: usize,
) -> [(&'static str, u32); 6] {
    let words: Vec<u32> = (0..3 * n).map(|_| random.word()).collect();
    let positions: Vec<u32> = (0..n).map(|_| random.word()).collect();
    let cut = &positions;
    let bytes = random.pick(&[0, log.len(), log.len() + 20]);
    let lent = (bytes, random.below(3));
    [
        ("cut_test", cut_test(random, log, cut, n.min(2))),
        ("covers", covers(random, log, worker, n.min(2))),
        ("step", step(random, log, &words, &positions, worker).0),
        (
            "steps",
            steps(random, log, &words, &positions, &[0, 1, 2], 4),
        ),
        ("pack", pack(random, log, lent).0),
        ("intervals", intervals(random, log, lent).0),
    ]
}

/// Compares the calls that are given an event.
fn events(random: &mut Random, log: &[u8], accepted: &Log, seen: &mut Seen) {
    let n = accepted.size();
    for _ in 0..3 {
        let w = worker(random, accepted);
        let e = event(random, accepted, w);
        let words = length(random, n);
        seen.add(vector(random, log, w, e, words));
        seen.add(upper_line(random, log, w, e, words));
        let lengths = Lengths {
            words: length(random, n),
            scratch: scratch_length(random, n),
            totals: length(random, 2),
        };
        seen.add(lower_cut(random, log, w, e, lengths));
        let lengths = Lengths {
            words: length(random, 3 * n),
            scratch: scratch_length(random, n),
            totals: length(random, 4),
        };
        let table = table(random);
        seen.add(plan(random, log, w, e, &table, lengths));
    }
}

/// Compares steps and lists of steps: from a plan's starts, from any state, and from states that are refused.
fn states(random: &mut Random, log: &[u8], accepted: &Log, seen: &mut Seen) {
    let w = worker(random, accepted);
    let e = event(random, accepted, w);
    let mut state = match State::planned(log, w, e) {
        Some(state) if random.chance(600) => state,
        _ => State::any(random, accepted),
    };
    if random.chance(250) {
        state = state.edited(random);
    }
    let workers: Vec<u32> = (0..random.below(24))
        .map(|_| worker(random, accepted))
        .collect();
    let answers = length(random, workers.len());
    let State { plan, positions } = &state;
    seen.add(steps(random, log, plan, positions, &workers, answers));
    for w in workers {
        let (answer, after) = step(random, log, &state.plan, &state.positions, w);
        seen.add(answer);
        state.positions = after;
    }
}

/// Compares plans with a list of steps.
fn replays(random: &mut Random, log: &[u8], accepted: &Log, seen: &mut Seen) {
    for _ in 0..2 {
        let w = worker(random, accepted);
        let e = event(random, accepted, w);
        let list = list(random, log, accepted, (w, e));
        let table = table(random);
        let room = Room::any(random, accepted.size(), list.len());
        seen.add_replayed(restore_and_replay(random, log, w, e, &list, &table, room));
    }
}

/// Compares cut tests and covering tests.
fn tests(random: &mut Random, log: &[u8], accepted: &Log, seen: &mut Seen) {
    let n = accepted.size();
    let w = worker(random, accepted);
    let e = event(random, accepted, w);
    let mut words = vec![0; n];
    let drawn = match random.below(3) {
        0 => reference::upper_line(log, w, e, &mut words),
        1 => reference::lower_cut(log, w, e, &mut words, &mut scratch(log), &mut [0; 2]),
        _ => 1,
    };
    if drawn != 0 {
        for (word, worker) in words.iter_mut().zip(&accepted.workers) {
            *word = random.within(0, worker.count() as usize) as u32;
        }
    }
    if random.chance(500) {
        let at = random.below(n);
        words[at] = random.pick(&[
            words[at].wrapping_sub(1),
            words[at] + 1,
            accepted.workers[at].count(),
            accepted.workers[at].count() + 1,
            u32::MAX,
        ]);
    }
    words.extend([u32::MAX; 3]);
    words.truncate(length(random, n));
    let answer = random.pick(&[0, 1, 1, 1, 2, 3]);
    seen.add(cut_test(random, log, &words, answer));

    let recorded: Vec<u32> = accepted
        .workers
        .iter()
        .flat_map(|worker| worker.checkpoints())
        .map(|checkpoint| checkpoint.identifier)
        .collect();
    let of_all = |&t: &u32| accepted.workers.iter().all(|w| w.index_of(t).is_some());
    let sets: Vec<u32> = recorded.iter().copied().filter(of_all).collect();
    let mut identifiers = vec![0, 1, random.word()];
    for choices in [recorded, sets] {
        if !choices.is_empty() {
            identifiers.extend((0..3).map(|_| random.pick(&choices)));
            identifiers.push(random.pick(&choices) ^ MARK);
        }
    }
    for identifier in identifiers {
        let answer = random.pick(&[0, 1, 1, 1, 2, 3]);
        let number = covers(random, log, identifier, answer);
        seen.add(number);
        if number == 0 {
            seen.add_set(accepted, identifier);
        }
    }
}

/// Compares packings with as many bytes and words as are needed, fewer and more, and the packed log with the log.
fn packs(random: &mut Random, log: &[u8], accepted: &Log, seen: &mut Seen) {
    let length = packed_length(accepted);
    for _ in 0..3 {
        let lent = lent_for(random, length);
        let number = write_number(length, lent);
        pack_gives(random, log, lent, number);
        seen.add_packed(number);
    }
    if length <= MAX_LOG {
        packed(random, log, accepted);
    }
}

/// Numbers of bytes and words to lend for a log of this length: as many as are needed, fewer or more.
fn lent_for(random: &mut Random, length: usize) -> (usize, usize) {
    let most = length.min(MAX_LOG);
    let fewer = random.below(most);
    let more = most + random.within(1, 40);
    let bytes = random.pick(&[0, fewer, most - 1, most, most, more]);
    (bytes, random.pick(&[0, 1, 1, 2, 5]))
}

/// The longest log, in bytes, that is laid out anew in any order.
const MOST_LAID_OUT: usize = 200_000;

/// Compares conversions to interval logs with as many bytes and words as are needed, fewer and more, and the interval log with the log. A
/// log that 28 refuses is compared without the checkpoints at fault too, in another layout; only the numbers of the log as it is are
/// counted.
fn conversions(random: &mut Random, log: &[u8], accepted: &Log, seen: &mut Seen) {
    let length = interval_length(accepted);
    let (content, form) = (Description::of(accepted), accepted.form.number);
    let crowded = content.is_crowded(form);
    for _ in 0..3 {
        let lent = lent_for(random, length);
        let number = if crowded {
            28
        } else {
            write_number(length, lent)
        };
        intervals_gives(random, log, lent, number);
        seen.add_converted(number);
    }
    if !crowded && length <= MAX_LOG {
        converted(random, log, accepted);
    }
    if crowded {
        let content = content.without_crowded(form);
        let log = match log.len() {
            0..=MOST_LAID_OUT => content.lay_out(form, random),
            _ => content.pack_as(form),
        };
        let accepted = reference::accept(&log).expect("an accepted log");
        conversions(random, &log, &accepted, &mut Seen::default());
    }
}
