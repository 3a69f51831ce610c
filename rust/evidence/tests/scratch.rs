//! Scratch (document 02, note 8), in the exported calls and in the reference: a lower cut and both plans of n workers need 2 × n words, or
//! one where n is 1. With fewer they are refused by 15; with as many or more, whatever these held before, they give the same. The numbers
//! are written down here by the note, and what the calls give is the reference's.

use evidence::compare::Lent;
use evidence::description::{Description, Event, Worker, MAX_WORKERS, TABLE_WORDS};
use evidence::failure::{Call, Difference, Meaning};
use evidence::random::Random;
use evidence::runs::{chain, deep, hub, ring, run, two_level_hub, Shape};
use evidence::sides::{Calls, EXPORTED, REFERENCE};
use reference::BUILT_IN;

/// Worker counts and the scratch words that they need.
const NEEDED: [(usize, usize); 3] = [(2, 4), (3, 6), (MAX_WORKERS, 128)];

/// The calls that are lent scratch.
const CALLS: [&str; 3] = ["lower_cut", "plan", "restore_and_replay"];

/// What a call is lent.
#[derive(Clone)]
struct Memory {
    words: Lent<u32>,
    scratch: Lent<u32>,
    positions: Lent<u32>,
    steps: Lent<u32>,
    totals: Lent<u64>,
}

impl Memory {
    /// For a call on a log of n workers with a list of two steps: as many words as it needs, and this scratch.
    fn new(random: &mut Random, name: &str, n: usize, scratch: &[u32]) -> Memory {
        let [words, positions, steps, totals] = match name {
            "lower_cut" => [n, 0, 0, 2],
            "plan" => [3 * n, 0, 0, 4],
            _ => [3 * n, n, 2 * (n + 1), 4],
        };
        let mut any = |name, length| Lent::words(random, name, length);
        let mut memory = Memory {
            words: any("words", words),
            scratch: any("scratch", scratch.len()),
            positions: any("positions", positions),
            steps: any("steps", steps),
            totals: Lent::totals(random, Meaning::Plain, totals),
        };
        memory.scratch.lent().copy_from_slice(scratch);
        memory
    }

    fn differences(&self, expected: &Memory) -> [Option<Difference>; 5] {
        [
            self.words.difference(&expected.words),
            self.totals.difference(&expected.totals),
            self.steps.difference(&expected.steps),
            self.positions.difference(&expected.positions),
            self.scratch.difference(&expected.scratch),
        ]
    }
}

/// An event of a log, with a list of two steps and a unit table.
#[derive(Clone)]
struct Case<'a> {
    random: Random,
    log: &'a [u8],
    workers: usize,
    at: (u32, u32),
    table: Vec<u32>,
    /// How many words fewer than are needed are lent for the cut or the plan.
    fewer: usize,
}

impl<'a> Case<'a> {
    fn new(random: &Random, log: &'a [u8], workers: usize, at: (u32, u32)) -> Case<'a> {
        Case {
            random: random.clone(),
            log,
            workers,
            at,
            table: BUILT_IN.to_vec(),
            fewer: 0,
        }
    }

    /// Makes a call of one side, and gives its number.
    fn make(&self, name: &str, calls: &Calls, to: &mut Memory) -> u32 {
        let ((worker, event), log, table) = (self.at, self.log, &self.table);
        let (scratch, totals) = (to.scratch.lent(), to.totals.lent());
        let words = &mut to.words.lent()[self.fewer..];
        match name {
            "lower_cut" => (calls.lower_cut)(log, worker, event, words, scratch, totals),
            "plan" => (calls.plan)(log, worker, event, table, words, scratch, totals),
            _ => (calls.restore_and_replay)(
                log,
                worker,
                event,
                &[worker, self.workers as u32],
                table,
                words,
                scratch,
                to.positions.lent(),
                to.steps.lent(),
                totals,
            ),
        }
    }

    /// Tests a call that is lent this scratch by the number that both sides have to give. Where it is 0, the exported call writes what the
    /// reference does, and the scratch is free; else nothing that is lent has changed. Gives the first total, the visits.
    fn gives(&self, name: &'static str, scratch: &[u32], number: u32) -> u64 {
        let before = Memory::new(&mut self.random.clone(), name, self.workers, scratch);
        let [mut found, mut expected] = [before.clone(), before.clone()];
        let numbers = [(&EXPORTED, &mut found), (&REFERENCE, &mut expected)]
            .map(|(calls, to)| self.make(name, calls, to));
        let call = Call {
            name,
            random: &self.random,
            log: self.log,
            arguments: &[
                ("worker", self.at.0.into()),
                ("event", self.at.1.into()),
                ("scratch", scratch.len() as u64),
            ],
        };
        for returned in numbers {
            call.returned(returned, number);
        }
        if number == 0 {
            let left = found.scratch.lent();
            expected.scratch.lent().copy_from_slice(left);
        } else {
            expected = before;
        }
        call.same(found.differences(&expected));
        found.totals.lent()[0]
    }
}

/// Scratch of this length: zeros, words of ones, and any words.
fn contents(random: &mut Random, length: usize) -> [Vec<u32>; 3] {
    [
        vec![0; length],
        vec![u32::MAX; length],
        (0..length).map(|_| random.word()).collect(),
    ]
}

/// Lengths of scratch for n workers: none, around 2 × n, 3 × n and n × n, and others.
fn lengths(n: usize) -> Vec<usize> {
    let mut lengths = vec![0, 1, n, n + 1, 10 * n, n * n + 100, 5_000];
    for around in [2 * n, 3 * n, n * n] {
        lengths.extend(around - 1..=around + 1);
    }
    lengths.sort_unstable();
    lengths.dedup();
    lengths
}

/// Logs of so many workers with long rows of visits, and with workers that are visited more than once where there are three or more.
fn logs(workers: usize, random: &mut Random) -> Vec<Description> {
    let many = if workers > 3 { 3_000 } else { 60 };
    let mut logs: Vec<Description> = (0..4)
        .map(|_| run(&Shape::long(workers, many), random))
        .collect();
    logs.push(hub(workers, many));
    logs.push(deep(workers, (workers - 1).min(10)));
    if workers > 2 {
        logs.push(ring(workers, many));
        logs.push(two_level_hub(workers, 1 + workers / 10, many));
        logs.push(chain(workers, 1 + (workers - 1) / 4, 2 * many));
    }
    logs
}

/// Events of the log: the first, one in the middle and the last one of some workers.
fn breakpoints(description: &Description) -> Vec<(u32, u32)> {
    let last = description.workers.len() - 1;
    let mut workers = vec![0, 1, last / 4, last];
    workers.sort_unstable();
    workers.dedup();
    let events = |w: usize| {
        let count = description.workers[w].events.len() as u32;
        let events = [1, count / 2, count].into_iter();
        events.filter(move |e| (1..=count).contains(e))
    };
    let at = |w| events(w).map(move |event| (w as u32, event));
    workers.into_iter().flat_map(at).collect()
}

/// Tests all calls at events of a log of n workers, with scratch of each length. Gives the most visits of an event.
fn at_events(random: &mut Random, description: &Description, form: u16, needed: usize) -> u64 {
    let n = description.workers.len();
    let log = description.pack_as(form);
    let mut visits = 0;
    for at in breakpoints(description) {
        let case = Case::new(random, &log, n, at);
        for length in lengths(n) {
            let number = if length < needed { 15 } else { 0 };
            for scratch in contents(random, length) {
                for name in CALLS {
                    let first = case.gives(name, &scratch, number);
                    if number == 0 {
                        visits = visits.max(first);
                    }
                }
            }
        }
    }
    visits
}

#[test]
fn twice_as_many_words_as_workers() {
    for (n, needed) in NEEDED {
        let random = &mut Random::new(2_000 + n as u64);
        let mut most = 0;
        for description in logs(n, random) {
            most = most.max(at_events(random, &description, 1, needed));
        }
        // Of two workers each is visited once.
        assert_eq!(most > n as u64, n > 2, "{most} visits of {n} workers");
    }
}

#[test]
fn twice_as_many_words_as_workers_in_form_2() {
    for (n, needed) in NEEDED {
        let random = &mut Random::new(2_100 + n as u64);
        let run = run(&Shape::any_order(n, 60 * n), random);
        let deep = deep(n, (n - 1).min(10));
        for description in [run, deep] {
            assert_eq!(description.repeats(), 0);
            at_events(random, &description, 2, needed);
        }
    }
}

/// The tube log: 6 words, and its plan of 0/2, which document 01 gives.
#[test]
fn the_tube_log() {
    let (log, random) = (Description::tube().pack(), &mut Random::new(2_200));
    let case = Case::new(random, &log, 3, (0, 2));
    for length in 0..30 {
        for scratch in contents(random, length) {
            let mut to = Memory::new(random, "plan", 3, &scratch);
            let number = case.make("plan", &EXPORTED, &mut to);
            assert_eq!(number, if length < 6 { 15 } else { 0 }, "{length}");
            if number == 0 {
                assert_eq!(to.words.lent(), [2, 1, 1, 3, 1, 1, 2, 0, 0], "{length}");
                assert_eq!(to.totals.lent(), [3, 5, 15, 7], "{length}");
            }
        }
    }
}

/// Numbers beside 15: 12, 13 and 14 come before it, 27 after it, and the log's own before them all. The lower cut has no table.
#[test]
fn other_refusals_with_any_scratch() {
    for (n, needed) in NEEDED {
        let random = &mut Random::new(2_300 + n as u64);
        let description = run(&Shape::long(n, 30 * n), random);
        let log = description.pack();
        let other_form = description.pack_as(3);
        let count = description.workers[0].events.len() as u32;
        let case = |at| Case::new(random, &log, n, at);
        let of_form_3 = Case::new(random, &other_form, n, (0, 1));
        let without_table = Case {
            table: vec![1; TABLE_WORDS - 1],
            ..case((0, 1))
        };
        let with_fewer_words = Case {
            fewer: 1,
            ..case((0, 1))
        };
        let [no_worker, none, past] = [(n as u32, 1), (0, 0), (0, count + 1)].map(case);
        let mut contents_of = random.clone();
        for length in lengths(n) {
            let after = if length < needed { 15 } else { 27 };
            for scratch in contents(&mut contents_of, length) {
                for name in CALLS {
                    of_form_3.gives(name, &scratch, 2);
                    no_worker.gives(name, &scratch, 12);
                    none.gives(name, &scratch, 13);
                    past.gives(name, &scratch, 13);
                    with_fewer_words.gives(name, &scratch, 14);
                    if name != "lower_cut" {
                        without_table.gives(name, &scratch, after);
                    }
                }
            }
        }
    }
}

/// The peer of an event is another worker of the log, so a log of one worker that has an event is refused by 7.
#[test]
fn no_event_of_one_worker() {
    for kind in [1, 2, 3] {
        for peer in 0..=255 {
            let mut event = Event::send(peer, 1);
            event.kind = kind;
            event.send = u32::from(kind != 1);
            let worker = Worker {
                events: vec![event],
                ..Worker::default()
            };
            let log = Description {
                workers: vec![worker],
            }
            .pack();
            for calls in [EXPORTED, REFERENCE] {
                assert_eq!((calls.log_refusal)(&log), 7, "kind {kind}, peer {peer}");
            }
        }
    }
}

/// One word is enough for one worker, but no call comes to it: an accepted log of one worker has no events, so 13 refuses every event of
/// worker 0, with no scratch too, and 12 every other worker.
#[test]
fn one_worker() {
    let random = &mut Random::new(2_400);
    assert_eq!(reference::scratch_words(1), 1);
    for form in [1, 2] {
        let log = run(&Shape::long(1, 10), random).pack_as(form);
        for calls in [EXPORTED, REFERENCE] {
            assert_eq!((calls.log_refusal)(&log), 0);
        }
        for length in [0, 1, 2, 3, 4, 100] {
            for scratch in contents(random, length) {
                for name in CALLS {
                    for event in [0, 1, 2, 65_535, u32::MAX] {
                        Case::new(random, &log, 1, (0, event)).gives(name, &scratch, 13);
                    }
                    for worker in [1, 2, 64, u32::MAX] {
                        Case::new(random, &log, 1, (worker, 1)).gives(name, &scratch, 12);
                    }
                }
            }
        }
    }
}
