//! Times each exported call beside the reference and beside one plain pass over the log's bytes, on the same inputs in one run.
//!
//! `cargo run --release --bin bench`
//!
//! The three are run in turn, and each time is the least of many. Where logs are short, some twenty of them are gone through in turn,
//! since the processor learns the branches of one that is read again and again. The lent words are not cleared between runs; a call of
//! the exported function and one of the reference have their own, with as much scratch as is needed. Every call tests the whole log, so each
//! ratio has that in it.
//! The logs are packed; `pack_moved` is the packing of the same logs with their sections in the opposite order and gaps between them.
//! `intervals` is the conversion of the same logs without the checkpoints that 28 refuses.
//! `covers` is the test of an identifier that covers; of any other one it ends at the first receive that is lost. The plan is given the
//! built-in unit table.
//!
//! At the end the test of the log and the plan are timed on form 2 beside form 1 of the same logs, in the same place in memory;
//! `cargo run --release --bin bench forms` times nothing else, and `bench pack` only the calls whose names begin so. Behind that stands the
//! plan of a log with 1,024 withdrawn checkpoints in each worker (`bench withdrawn`), then the conversion to an interval log of runs that
//! grow, each beside the first, and of logs whose receives name any of 65,535 sends (`bench growth`), and last what each call is lent and
//! takes of the stack (`bench memory`).

use evidence::compare::State;
use evidence::description::{
    scratch, set_form, Description, MARK, MAX_EVENTS, MAX_LOG, MAX_WORKERS, PLAN_WORDS,
};
use evidence::random::Random;
use evidence::runs::{
    chain, deep, different_sends, hub, received_from_one, ring, run, shared_sends, two_level_hub,
    wide_chain, Shape,
};
use evidence::sides::NAMES;
use evidence::stack::{cases, of_forms};
use reference::BUILT_IN;
use restore_planner::calls;
use std::hint::black_box;
use std::time::{Duration, Instant};

/// A log with the arguments of the calls on it.
struct Case {
    log: Vec<u8>,
    /// The log with its sections in the opposite order; empty for a log that is not packed.
    moved: Vec<u8>,
    /// The log without the checkpoints that 28 refuses, where it is packed.
    uncrowded: Vec<u8>,
    events: usize,
    /// The breakpoint: the last event of a worker.
    worker: u32,
    event: u32,
    visits: u64,
    /// The plan of the breakpoint, at its starts.
    state: State,
    /// A list of steps that replays the whole plan.
    list: Vec<u32>,
    /// All events: the longest consistent cut.
    cut: Vec<u32>,
    /// The first identifier that all workers have, if it covers; else 0, the initial states, which always cover. The test of a set that
    /// covers looks at every event after it.
    identifier: u32,
}

/// Whether an identifier covers.
fn covers(log: &[u8], identifier: u32) -> bool {
    let mut yes = [0];
    reference::covers(log, identifier, &mut yes);
    yes == [1]
}

impl Case {
    fn new(log: Vec<u8>, worker: usize) -> Case {
        let accepted = reference::accept(&log).expect("an accepted log");
        let event = accepted.workers[worker].count();
        let identifier = accepted.workers[worker]
            .checkpoints()
            .map(|checkpoint| checkpoint.identifier)
            .find(|&t| accepted.workers.iter().all(|w| w.index_of(t).is_some()))
            .filter(|&t| covers(&log, t));
        let cut = accepted.workers.iter().map(|w| w.count()).collect();
        let worker = worker as u32;
        let state = State::planned(&log, worker, event).expect("the plan of the breakpoint");
        let list = state.replay(&accepted).expect("the plan works");
        let (mut words, mut scratch, mut totals) = ([0; MAX_WORKERS], scratch(&log), [0; 2]);
        reference::lower_cut(&log, worker, event, &mut words, &mut scratch, &mut totals);
        Case {
            events: accepted.workers.iter().map(|w| w.count() as usize).sum(),
            worker,
            event,
            visits: totals[0],
            state,
            list,
            cut,
            identifier: identifier.unwrap_or(0),
            uncrowded: log.clone(),
            log,
            moved: Vec::new(),
        }
    }

    fn packed(description: &Description, worker: usize) -> Case {
        Case {
            moved: description.reversed(),
            uncrowded: description.without_crowded(1).pack(),
            ..Case::new(description.pack(), worker)
        }
    }
}

/// Logs of one shape and size, and so of one worker count, which are gone through in turn.
struct Input {
    name: String,
    cases: Vec<Case>,
}

/// A log of a shape that has no chance in it.
fn one(name: &str, description: &Description, worker: usize) -> Input {
    Input {
        name: name.to_string(),
        cases: vec![Case::packed(description, worker)],
    }
}

/// Runs of one shape, as many as have 100,000 events together.
fn runs(name: &str, shape: &Shape) -> Input {
    let seeds = 0..(100_000 / shape.events as u64).max(1);
    Input {
        name: name.to_string(),
        cases: seeds
            .map(|seed| {
                let mut random = Random::round(shape.events as u64, seed);
                Case::packed(&run(shape, &mut random), 0)
            })
            .collect(),
    }
}

/// Families of inputs that grow.
fn families() -> Vec<Vec<Input>> {
    let mut families = Vec::new();
    for workers in [4, 16, MAX_WORKERS] {
        let family = [5_000, 20_000, 80_000, 320_000]
            .into_iter()
            .filter(|events| events / workers <= 60_000)
            .map(|events| {
                runs(
                    &format!("run {workers} workers"),
                    &Shape::long(workers, events),
                )
            });
        families.push(family.collect());
    }
    let family = [10, 12, 14, 16].map(|levels| {
        one(
            &format!("deep, {levels} levels"),
            &deep(MAX_WORKERS, levels),
            MAX_WORKERS - 1,
        )
    });
    families.push(family.into());
    let family = [4_000, 16_000, 65_535].map(|events| {
        one(
            &format!("hub, {MAX_WORKERS} workers"),
            &hub(MAX_WORKERS, events),
            0,
        )
    });
    families.push(family.into());
    let family = [20_000, 80_000, 240_000]
        .map(|e| one("two-level hub", &two_level_hub(MAX_WORKERS, 7, e), 0));
    families.push(family.into());
    let family = [20_000, 80_000, 300_000].map(|e| one("chain", &chain(MAX_WORKERS, 16, e), 15));
    families.push(family.into());
    let family =
        [20_000, 80_000, 300_000].map(|e| one("wide chain", &wide_chain(MAX_WORKERS, 5, e), 4));
    families.push(family.into());
    let family = [20_000, 80_000, 300_000].map(|e| {
        one(
            &format!("ring, {MAX_WORKERS} workers"),
            &ring(MAX_WORKERS, e),
            0,
        )
    });
    families.push(family.into());
    families
}

/// The sum of the log's bytes.
fn plain_pass(log: &[u8]) -> u32 {
    black_box(log).iter().map(|&byte| u32::from(byte)).sum()
}

/// The lent words of one side.
struct Words {
    words: Vec<u32>,
    scratch: Vec<u32>,
    totals: Vec<u64>,
    positions: Vec<u32>,
    answers: Vec<u32>,
    out: Vec<u8>,
}

impl Words {
    fn new(input: &Input) -> Words {
        let longest = input.cases.iter().map(|case| case.list.len()).max();
        Words {
            words: vec![0; PLAN_WORDS],
            scratch: scratch(&input.cases[0].log),
            totals: vec![0; 4],
            positions: vec![0; MAX_WORKERS],
            answers: vec![0; longest.unwrap_or(0) + 1],
            out: vec![0; MAX_LOG],
        }
    }

    /// The positions of a replay that begins.
    fn begin(&mut self, state: &State) -> &mut [u32] {
        let positions = &mut self.positions[..state.positions.len()];
        positions.copy_from_slice(&state.positions);
        positions
    }
}

/// A call with the lent words of one side.
type Call = fn(&Case, &mut Words) -> u32;

/// The time of one call, of `times` times through all cases.
fn time(input: &Input, times: u32, words: &mut Words, call: Call) -> Duration {
    let start = Instant::now();
    for _ in 0..times {
        for case in &input.cases {
            black_box(call(case, words));
        }
    }
    start.elapsed() / (times * input.cases.len() as u32)
}

/// How many times through all cases take about half a millisecond, once at least.
fn repetitions(input: &Input, words: &mut Words, call: Call) -> u32 {
    let once = time(input, 1, words, call).max(Duration::from_nanos(100));
    let round = once.as_nanos() * input.cases.len() as u128;
    (Duration::from_micros(500).as_nanos() / round).clamp(1, 1_000) as u32
}

/// The least times of an exported call, of the reference and of a plain pass, run in turn for 300 ms and 12 times at least.
struct Times {
    exported: Duration,
    reference: Duration,
    pass: Duration,
}

fn measure(input: &Input, exported: Call, reference: Call) -> Times {
    let (mut a, mut b) = (Words::new(input), Words::new(input));
    for case in &input.cases {
        assert_eq!(
            exported(case, &mut a),
            reference(case, &mut b),
            "the numbers returned"
        );
    }
    let times = repetitions(input, &mut a, exported);
    let mut best = Times {
        exported: Duration::MAX,
        reference: Duration::MAX,
        pass: Duration::MAX,
    };
    let start = Instant::now();
    let mut rounds = 0;
    while rounds < 12 || start.elapsed() < Duration::from_millis(300) {
        best.exported = best.exported.min(time(input, times, &mut a, exported));
        best.reference = best.reference.min(time(input, times, &mut b, reference));
        let pass = time(input, times, &mut b, |case, _| plain_pass(&case.log));
        best.pass = best.pass.min(pass);
        rounds += 1;
    }
    // Read, so that what the calls wrote is wanted.
    black_box((a.words, a.scratch, a.totals, a.positions, a.answers, a.out));
    black_box((b.words, b.scratch, b.totals, b.positions, b.answers, b.out));
    best
}

/// Each call by its name, exported and of the reference.
const CALLS: [(&str, Call, Call); 12] = [
    (
        "log_refusal",
        |c, _| calls::log_refusal(&c.log),
        |c, _| reference::log_refusal(&c.log),
    ),
    (
        "vector",
        |c, to| calls::vector(&c.log, c.worker, c.event, &mut to.words),
        |c, to| reference::vector(&c.log, c.worker, c.event, &mut to.words),
    ),
    (
        "step",
        |c, to| calls::step(&c.log, &c.state.plan, to.begin(&c.state), c.worker),
        |c, to| reference::step(&c.log, &c.state.plan, to.begin(&c.state), c.worker),
    ),
    (
        "upper_line",
        |c, to| calls::upper_line(&c.log, c.worker, c.event, &mut to.words),
        |c, to| reference::upper_line(&c.log, c.worker, c.event, &mut to.words),
    ),
    (
        "lower_cut",
        |c, to| {
            let Words {
                words,
                scratch,
                totals,
                ..
            } = to;
            calls::lower_cut(&c.log, c.worker, c.event, words, scratch, totals)
        },
        |c, to| {
            let Words {
                words,
                scratch,
                totals,
                ..
            } = to;
            reference::lower_cut(&c.log, c.worker, c.event, words, scratch, totals)
        },
    ),
    (
        "cut_test",
        |c, to| calls::cut_test(&c.log, &c.cut, &mut to.answers),
        |c, to| reference::cut_test(&c.log, &c.cut, &mut to.answers),
    ),
    (
        "covers",
        |c, to| calls::covers(&c.log, c.identifier, &mut to.answers),
        |c, to| reference::covers(&c.log, c.identifier, &mut to.answers),
    ),
    (
        "plan",
        |c, to| {
            let Words {
                words,
                scratch,
                totals,
                ..
            } = to;
            calls::plan(&c.log, c.worker, c.event, &BUILT_IN, words, scratch, totals)
        },
        |c, to| {
            let Words {
                words,
                scratch,
                totals,
                ..
            } = to;
            reference::plan(&c.log, c.worker, c.event, &BUILT_IN, words, scratch, totals)
        },
    ),
    (
        "steps",
        |c, to| {
            to.begin(&c.state);
            let Words {
                positions, answers, ..
            } = to;
            calls::steps(&c.log, &c.state.plan, positions, &c.list, answers)
        },
        |c, to| {
            to.begin(&c.state);
            let Words {
                positions, answers, ..
            } = to;
            reference::steps(&c.log, &c.state.plan, positions, &c.list, answers)
        },
    ),
    (
        "pack",
        |c, to| calls::pack(&c.log, &mut to.out, &mut to.totals),
        |c, to| reference::pack(&c.log, &mut to.out, &mut to.totals),
    ),
    (
        "pack_moved",
        |c, to| calls::pack(&c.moved, &mut to.out, &mut to.totals),
        |c, to| reference::pack(&c.moved, &mut to.out, &mut to.totals),
    ),
    (
        "intervals",
        |c, to| calls::intervals(&c.uncrowded, &mut to.out, &mut to.totals),
        |c, to| reference::intervals(&c.uncrowded, &mut to.out, &mut to.totals),
    ),
];

fn micros(time: Duration) -> f64 {
    time.as_secs_f64() * 1e6
}

/// How often `now` is `before`, per growth of the log's bytes.
fn growth(now: Duration, before: Duration, bytes: f64) -> String {
    format!("{:.2}", now.as_secs_f64() / before.as_secs_f64() / bytes)
}

/// The processor's name and the number of processors, where Linux says.
fn machine() -> String {
    let text = std::fs::read_to_string("/proc/cpuinfo").unwrap_or_default();
    let name = text
        .lines()
        .find(|line| line.starts_with("model name"))
        .and_then(|line| line.split(": ").nth(1))
        .unwrap_or("unknown processor");
    let number = std::thread::available_parallelism().map_or(0, |n| n.get());
    format!("{name}, {number} processors")
}

/// The mean of a number of an input's cases.
fn mean(input: &Input, of: impl Fn(&Case) -> usize) -> f64 {
    input.cases.iter().map(of).sum::<usize>() as f64 / input.cases.len() as f64
}

/// Prints an input's name and sizes; gives its mean bytes and events.
fn print_input(input: &Input) -> (f64, f64) {
    let many = input.cases.len();
    let (bytes, events) = (mean(input, |c| c.log.len()), mean(input, |c| c.events));
    println!();
    println!(
        "{}: {events:.0} events, {bytes:.0} bytes, {many} logs in turn, breakpoint {}/{}, {:.0} visits, list of {:.0} steps",
        input.name,
        input.cases[0].worker,
        input.cases[0].event,
        mean(input, |c| c.visits as usize),
        mean(input, |c| c.list.len()),
    );
    println!(
        "  {:<12} {:>9} {:>9} {:>7} {:>8} {:>8} {:>8} {:>13} {:>14}",
        "call",
        "exported",
        "reference",
        "pass",
        "exp/ref",
        "exp/pass",
        "ns/event",
        "growth of exp",
        "growth of ref"
    );
    (bytes, events)
}

fn main() {
    println!("machine: {}", machine());
    match std::env::args().nth(1).as_deref() {
        None => {
            print_guard(&print_calls(""));
            print_forms();
            print_withdrawn();
            print_growth();
            print_memory();
        }
        Some("forms") => print_forms(),
        Some("withdrawn") => print_withdrawn(),
        Some("growth") => print_growth(),
        Some("memory") => print_memory(),
        Some(start) => drop(print_calls(start)),
    }
}

/// Prints each call whose name begins so on each input, and the largest ratios. Gives for each input its name, its events and the
/// nanoseconds an event that the test of the log takes.
fn print_calls(start: &str) -> Vec<(String, f64, f64)> {
    println!("exported, reference, pass: microseconds, the least of many runs; pass is the sum of the log's bytes");
    println!("exp/pass: nanoseconds an event over those of the plain pass");
    println!("growth: time over that of the same call on the family's next smaller log, divided by the growth in bytes (1.00: linear)");
    let mut worst: Vec<(&str, f64, String)> = Vec::new();
    let mut accepting: Vec<(String, f64, f64)> = Vec::new();
    for family in families() {
        let mut smaller: Vec<Times> = Vec::new();
        let mut bytes_before = 0.0;
        for input in family {
            let (bytes, events) = print_input(&input);
            let mut rows = Vec::new();
            let named = CALLS.iter().filter(|(call, ..)| call.starts_with(start));
            for (at, &(call, exported, reference)) in named.enumerate() {
                let times = measure(&input, exported, reference);
                let own = micros(times.exported);
                let ratio = own / micros(times.reference);
                let (own_growth, other_growth) = match smaller.get(at) {
                    Some(before) => (
                        growth(times.exported, before.exported, bytes / bytes_before),
                        growth(times.reference, before.reference, bytes / bytes_before),
                    ),
                    None => ("-".to_string(), "-".to_string()),
                };
                println!(
                    "  {call:<12} {own:>9.1} {:>9.1} {:>7.1} {ratio:>8.2} {:>8.1} {:>8.2} {own_growth:>13} {other_growth:>14}",
                    micros(times.reference),
                    micros(times.pass),
                    own / micros(times.pass),
                    own * 1e3 / events,
                );
                if call == "log_refusal" {
                    accepting.push((input.name.clone(), events, own * 1e3 / events));
                }
                let name = format!("{}, {events:.0} events", input.name);
                match worst.iter_mut().find(|(other, ..)| *other == call) {
                    Some(entry) if entry.1 < ratio => *entry = (call, ratio, name),
                    Some(_) => (),
                    None => worst.push((call, ratio, name)),
                }
                rows.push(times);
            }
            smaller = rows;
            bytes_before = bytes;
        }
    }
    println!();
    println!("largest exp/ref of each call:");
    for (call, ratio, name) in worst {
        println!("  {call:<12} {ratio:>6.2}  {name}");
    }
    accepting
}

/// The test of the log on a run over that on a ring of about as many events: 1 where it has no branch that a run makes unpredictable.
fn print_guard(accepting: &[(String, f64, f64)]) {
    println!();
    println!("log_refusal on a run over that on a ring, nanoseconds an event:");
    let ring = |events: f64| {
        accepting
            .iter()
            .filter(|(name, ..)| name.starts_with("ring"))
            .min_by_key(|(_, many, _)| (many - events).abs() as u64)
            .map(|&(_, _, nanos)| nanos)
    };
    for (name, events, nanos) in accepting
        .iter()
        .filter(|(name, ..)| name.starts_with("run"))
    {
        if let Some(other) = ring(*events) {
            let ratio = nanos / other;
            println!("  {name}, {events:.0} events: {nanos:.2} / {other:.2} = {ratio:.2}");
        }
    }
}

/// A family of runs without repeats.
fn grow(
    order: &str,
    shape: fn(usize, usize) -> Shape,
    workers: usize,
    sizes: &[usize],
) -> Vec<Input> {
    let name = format!("receives {order}, {workers} workers");
    let sizes = sizes.iter();
    sizes
        .map(|&events| runs(&name, &shape(workers, events)))
        .collect()
}

/// Families of logs without repeats. Runs that grow: receives in the order of each sender's sends, and in any order. Then one log of
/// the most events, in which 63 workers share the bytes of their sends and one receives some of each.
fn families_without_repeats() -> [Vec<Input>; 5] {
    let sizes = [20_000, 80_000, 320_000];
    let senders: Vec<usize> = (1..MAX_WORKERS).collect();
    let sends = different_sends(&senders, &[], MAX_EVENTS as usize);
    let sharing = Input {
        name: format!("receives in any order, {MAX_WORKERS} workers, sends share bytes"),
        cases: vec![Case::new(shared_sends(MAX_WORKERS, 0, &sends), 0)],
    };
    [
        grow("in order", Shape::in_order, 4, &[5_000]),
        grow("in order", Shape::in_order, MAX_WORKERS, &sizes),
        grow("in any order", Shape::any_order, 4, &[5_000]),
        grow("in any order", Shape::any_order, MAX_WORKERS, &sizes),
        vec![sharing],
    ]
}

/// The least times of a call on form 1 and on form 2.
type OfForms = [Duration; 2];

/// The least times of an exported call and of the reference, run in turn on both forms of the same logs for 600 ms and 12 times at least.
fn measure_forms(input: &mut Input, exported: Call, reference: Call) -> [OfForms; 2] {
    let mut words = [Words::new(input), Words::new(input)];
    let times = repetitions(input, &mut words[0], exported);
    let mut best = [[Duration::MAX; 2]; 2];
    let start = Instant::now();
    let mut rounds = 0;
    while rounds < 12 || start.elapsed() < Duration::from_millis(600) {
        for form in [1, 2] {
            for case in &mut input.cases {
                set_form(&mut case.log, form);
            }
            for (side, call) in [exported, reference].into_iter().enumerate() {
                let taken = time(input, times, &mut words[side], call);
                let least = &mut best[side][usize::from(form) - 1];
                *least = taken.min(*least);
            }
        }
        rounds += 1;
    }
    for (side, call) in [exported, reference].into_iter().enumerate() {
        let accepts = |case| call(case, &mut words[side]) == 0;
        assert!(
            input.cases.iter().all(accepts),
            "a log of form 2 is refused"
        );
    }
    black_box(words.map(|to| (to.words, to.scratch, to.totals)));
    best
}

/// Prints the test of the log and the plan on form 2 beside form 1 of the same logs.
fn print_forms() {
    println!();
    println!("form 2 beside form 1 of the same logs: nanoseconds an event, the least of many runs");
    println!("2/1: time on form 2 over that on form 1; exp/ref and growth: on form 2");
    for family in families_without_repeats() {
        let mut smaller: Vec<[OfForms; 2]> = Vec::new();
        let mut bytes_before = 0.0;
        for mut input in family {
            let (bytes, events) = print_input_of_forms(&input);
            let mut rows = Vec::new();
            for &(call, exported, reference) in
                CALLS.iter().filter(|(call, ..)| OF_FORMS.contains(call))
            {
                let times = measure_forms(&mut input, exported, reference);
                let before = smaller.get(rows.len());
                print_row_of_forms(call, &times, before, events, bytes / bytes_before);
                rows.push(times);
            }
            smaller = rows;
            bytes_before = bytes;
        }
    }
}

/// The calls that are timed on both forms.
const OF_FORMS: [&str; 2] = ["log_refusal", "plan"];

/// Prints an input's name and sizes; gives its mean bytes and events.
fn print_input_of_forms(input: &Input) -> (f64, f64) {
    let many = input.cases.len();
    let (bytes, events) = (mean(input, |c| c.log.len()), mean(input, |c| c.events));
    println!();
    println!(
        "{}: {events:.0} events, {bytes:.0} bytes, {many} logs in turn",
        input.name
    );
    println!(
        "  {:<12} {:>6} {:>6} {:>6} {:>6} {:>6} {:>6} {:>8} {:>14} {:>14}",
        "call",
        "exp 1",
        "exp 2",
        "2/1",
        "ref 1",
        "ref 2",
        "2/1",
        "exp/ref",
        "growth of exp",
        "growth of ref"
    );
    (bytes, events)
}

/// Prints the times of a call on both forms; the growth is that from `before`, divided by the growth in bytes.
fn print_row_of_forms(
    call: &str,
    times: &[OfForms; 2],
    before: Option<&[OfForms; 2]>,
    events: f64,
    bytes: f64,
) {
    let [exported, reference] = times.map(|side| side.map(|time| micros(time) * 1e3 / events));
    let growths = [0, 1].map(|side| match before {
        Some(before) => growth(times[side][1], before[side][1], bytes),
        None => "-".to_string(),
    });
    println!(
        "  {call:<12} {:>6.2} {:>6.2} {:>6.2} {:>6.2} {:>6.2} {:>6.2} {:>8.2} {:>14} {:>14}",
        exported[0],
        exported[1],
        exported[1] / exported[0],
        reference[0],
        reference[1],
        reference[1] / reference[0],
        exported[1] / reference[1],
        growths[0],
        growths[1],
    );
}

/// Checkpoints of a worker with so many events: index and identifier word.
type Taken = fn(u32) -> Vec<(u32, u32)>;

/// No checkpoints; 1,024 at the last event, which is past the cut; 1,024 that are withdrawn. With each of these every worker starts at its
/// initial state.
const TAKEN: [(&str, Taken); 3] = [
    ("no checkpoints", |_| Vec::new()),
    ("1,024 past the cut", |count| {
        (1..=1_024).map(|k| (count, k)).collect()
    }),
    ("1,024 withdrawn", |count| {
        let index = |k| count * (k - 1) / 1_023;
        (1..=1_024).map(|k| (index(k), k | MARK)).collect()
    }),
];

/// Prints the plan of an event in the middle of a run, of form 2, with different checkpoints in each worker.
fn print_withdrawn() {
    let plan = CALLS.iter().find(|(call, ..)| *call == "plan");
    let &(_, exported, reference) = plan.expect("the plan");
    println!();
    println!("plans that pass over checkpoints: microseconds, the least of many runs");
    let mut description = run(&Shape::in_order(MAX_WORKERS, 80_000), &mut Random::new(1));
    for (name, taken) in TAKEN {
        for worker in &mut description.workers {
            worker.checkpoints = taken(worker.events.len() as u32);
        }
        let mut case = Case::new(description.pack_as(2), 0);
        case.event /= 2;
        let planned = State::planned(&case.log, case.worker, case.event).expect("a plan");
        assert!(planned.positions.iter().all(|&start| start == 0));
        let input = Input {
            name: name.to_string(),
            cases: vec![case],
        };
        let times = measure(&input, exported, reference);
        println!(
            "  {name:<18} exported {:>7.1} reference {:>7.1} exp/ref {:.2}",
            micros(times.exported),
            micros(times.reference),
            micros(times.exported) / micros(times.reference)
        );
    }
}

/// A log in which all receives name any of the sends of one worker. The events of more than 32 workers make the blocks the largest: for
/// each receive up to 127 events are counted.
fn any_of_one_worker(workers: usize) -> Input {
    Input {
        name: format!("any of 65,535 sends, {workers} workers"),
        cases: vec![Case::new(received_from_one(workers, 4), 0)],
    }
}

/// Prints the conversion to an interval log, by the event, of runs that grow, each over the first too, and of logs whose receives name any
/// of the most sends; with the aims.
fn print_growth() {
    let intervals = CALLS.iter().find(|(call, ..)| *call == "intervals");
    let &(_, exported, reference) = intervals.expect("the conversion");
    println!();
    println!(
        "conversion to an interval log: nanoseconds an event, the least of many runs; aims: exp/ref 2.5 on runs, else 4; over the first 3"
    );
    let name = format!("run {MAX_WORKERS} workers");
    let grown = [20_000, 80_000, 320_000].map(|e| runs(&name, &Shape::long(MAX_WORKERS, e)));
    let worst = [33, MAX_WORKERS].map(any_of_one_worker);
    // Prints a row, without its end; gives the nanoseconds of the exported call.
    let row = |input: &Input| {
        let events = mean(input, |c| c.events);
        let times = measure(input, exported, reference);
        let [own, other] = [times.exported, times.reference].map(|t| micros(t) * 1e3 / events);
        print!(
            "  {:<38} {events:>8.0} events exported {own:>6.2} reference {other:>6.2} exp/ref {:.2}",
            input.name,
            own / other
        );
        own
    };
    // Each input is dropped behind its row: the reference takes its tables from the heap, and its time depends on what is there.
    let mut first = None;
    for input in grown {
        let own = row(&input);
        println!(" over the first {:.2}", own / *first.get_or_insert(own));
    }
    for input in worst {
        row(&input);
        println!();
    }
}

/// Prints for each call at the most workers the words that it is lent to write, and the stack that it takes.
fn print_memory() {
    let cases = cases();
    let [case, ..] = &cases;
    println!();
    println!(
        "memory of a call on logs of {MAX_WORKERS} workers: words of 32 bits that it is lent to write, and of stack that it takes, the most on {} logs",
        cases.len()
    );
    println!(
        "totals: two words each; a step: words for each step of a list; out: a packed log of {} bytes, an interval log of {}",
        case.arguments.packed.0, case.arguments.converted.0
    );
    println!(
        "  {:<18} {:>6} {:>8} {:>7} {:>10} {:>7} {:>8} {:>14} {:>14}",
        "call",
        "words",
        "scratch",
        "totals",
        "positions",
        "a step",
        "out",
        "stack, form 1",
        "stack, form 2"
    );
    for call in NAMES {
        let lent = case.arguments.lend(call, &case.log);
        let [one, two] = of_forms(call, &cases).map(|bytes| bytes / 4);
        println!(
            "  {call:<18} {:>6} {:>8} {:>7} {:>10} {:>7} {:>8} {one:>14} {two:>14}",
            lent.words.len(),
            lent.scratch.len(),
            2 * lent.totals.len(),
            lent.positions.len(),
            lent.steps.len() / case.arguments.list.len(),
            lent.out.len() / 4,
        );
    }
}
