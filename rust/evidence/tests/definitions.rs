//! The reference against the definitions of documents 01 and 02, taken literally, on small logs.

use evidence::compare::{loaded_table, Seen};
use evidence::damage::damaged;
use evidence::description::{
    checkpoint_set, get, packed_length, scratch, set_form, worker_count, Description, Worker, MARK,
    TABLE_WORDS,
};
use evidence::failure::{words, Call, Difference, Meaning};
use evidence::random::Random;
use evidence::runs::{any_form, any_log, make_alike, repeat_any, run, Shape};
use evidence::sides::{Arguments, Calls, EXPORTED, NAMES, REFERENCE};
use reference::BUILT_IN;

/// A unit table.
type Table = [u32; TABLE_WORDS];

/// A log's content, without its withdrawn checkpoints, with the events that happened before each event, as bits.
struct Model {
    workers: Vec<Worker>,
    /// The bit of each worker's first event.
    first: Vec<usize>,
    past: Vec<u128>,
}

impl Model {
    fn new(description: Description) -> Model {
        let workers = description.workers;
        let mut first = Vec::new();
        let mut events = Vec::new();
        for (w, worker) in workers.iter().enumerate() {
            first.push(events.len());
            events.extend((0..worker.events.len()).map(|k| (w, k)));
        }
        let mut model = Model {
            past: vec![0; events.len()],
            workers,
            first,
        };
        // An event happened before another only if its stamp is smaller.
        events.sort_by_key(|&(w, k)| model.workers[w].events[k].stamp);
        for (w, k) in events {
            let event = model.workers[w].events[k];
            let at = model.first[w] + k;
            let mut before = 0;
            if k > 0 {
                before |= model.past[at - 1] | 1 << (at - 1);
            }
            if event.kind != 1 {
                let send = model.first[usize::from(event.peer)] + event.send as usize - 1;
                before |= model.past[send] | 1 << send;
            }
            model.past[at] = before;
        }
        model
    }

    fn count(&self, w: usize) -> u32 {
        self.workers[w].events.len() as u32
    }

    fn bit(&self, w: usize, x: u32) -> usize {
        self.first[w] + x as usize - 1
    }

    /// Whether event x of worker w happened before event e of worker i.
    fn happened_before(&self, (w, x): (usize, u32), (i, e): (usize, u32)) -> bool {
        self.past[self.bit(i, e)] >> self.bit(w, x) & 1 == 1
    }

    fn component(&self, i: usize, e: u32, k: usize) -> u32 {
        if k == i {
            return e;
        }
        self.workers[i].events[..e as usize]
            .iter()
            .filter(|event| event.kind != 1 && usize::from(event.peer) == k)
            .map(|event| event.send)
            .max()
            .unwrap_or(0)
    }

    fn visit(&self, i: usize, e: u32, cut: &mut [u32], visits: &mut u64) {
        *visits += 1;
        for k in 0..self.workers.len() {
            let component = self.component(i, e, k);
            if component > cut[k] {
                cut[k] = component;
                self.visit(k, component, cut, visits);
            }
        }
    }

    fn is_consistent(&self, cut: &[u32]) -> bool {
        self.workers.iter().zip(cut).all(|(worker, &c)| {
            worker.events[..c as usize]
                .iter()
                .all(|event| event.kind == 1 || event.send <= cut[usize::from(event.peer)])
        })
    }

    fn is_startable(&self, cut: &[u32], starts: &[u32]) -> bool {
        (0..self.workers.len()).all(|w| {
            self.workers[w].events[starts[w] as usize..cut[w] as usize]
                .iter()
                .all(|event| event.kind != 2 || event.send > starts[usize::from(event.peer)])
        })
    }

    /// The answer of a step by the text of "Replay machine" and the tables.
    fn answer(&self, cut: &[u32], starts: &[u32], positions: &[u32], w: usize) -> u32 {
        if positions[w] == cut[w] {
            return 21;
        }
        let event = self.workers[w].events[positions[w] as usize];
        let k = usize::from(event.peer);
        if event.kind == 1
            || event.kind == 3
            || (event.send > starts[k] && event.send <= positions[k])
        {
            0
        } else if event.send > positions[k] {
            22
        } else {
            23
        }
    }

    /// Whether some list of steps brings every position to its cut. A done step never hinders another one.
    fn works(&self, cut: &[u32], starts: &[u32]) -> bool {
        let mut positions = starts.to_vec();
        loop {
            let next = (0..cut.len()).find(|&w| self.answer(cut, starts, &positions, w) == 0);
            match next {
                Some(w) => positions[w] += 1,
                None => return positions == cut,
            }
        }
    }

    /// All choices of a checkpoint index at most the cut for each worker.
    fn choices(&self, cut: &[u32]) -> Vec<Vec<u32>> {
        let mut choices = vec![Vec::new()];
        for (worker, &c) in self.workers.iter().zip(cut) {
            let mut indices = vec![0];
            indices.extend(worker.checkpoints.iter().map(|&(index, _)| index));
            indices.retain(|&index| index <= c);
            indices.dedup();
            choices = choices
                .iter()
                .flat_map(|choice: &Vec<u32>| {
                    indices.iter().map(move |&index| {
                        let mut longer = choice.clone();
                        longer.push(index);
                        longer
                    })
                })
                .collect();
        }
        choices
    }

    fn identifier(&self, w: usize, index: u32) -> u32 {
        self.workers[w]
            .checkpoints
            .iter()
            .rev()
            .find(|checkpoint| checkpoint.0 == index)
            .map_or(0, |checkpoint| checkpoint.1)
    }

    fn units(&self, table: &Table, cut: &[u32], starts: &[u32]) -> u64 {
        let mut units = 0;
        for (w, worker) in self.workers.iter().enumerate() {
            for event in &worker.events[starts[w] as usize..cut[w] as usize] {
                units += match (worker.role, event.kind) {
                    (0, 1) => table[0],
                    (0, 2) => table[1],
                    (0, 3) => table[2],
                    (1, 1) => table[3],
                    (1, 2) => table[4],
                    (1, 3) => table[5],
                    (2, 1) => table[6],
                    (2, 2) => table[7],
                    (2, 3) => table[8],
                    (3, 1) => table[9],
                    (3, 2) => table[10],
                    (3, 3) => table[11],
                    other => unreachable!("{other:?}"),
                };
            }
        }
        units.into()
    }

    fn covers(&self, t: u32) -> bool {
        let Some(set) = checkpoint_set(&self.workers, t) else {
            return false;
        };
        self.workers.iter().zip(&set).all(|(worker, &own)| {
            worker.events[own as usize..].iter().all(|event| {
                let is_receive = event.kind == 2 || event.kind == 3;
                let counts = is_receive && event.send <= set[usize::from(event.peer)];
                !counts || event.kind == 3
            })
        })
    }
}

fn small(random: &mut Random) -> Description {
    let mut shape = Shape::any(random, 4, 26);
    shape.checkpoints = random.pick(&[50, 200]);
    shape.sets = random.within(0, 2);
    run(&shape, random)
}

/// The built-in unit table, those of the least and the largest words, and any two.
fn tables(random: &mut Random) -> [Table; 5] {
    let least = [1; TABLE_WORDS];
    let largest = [1_000; TABLE_WORDS];
    let any = [(); 2].map(|()| loaded_table(random));
    [BUILT_IN, least, largest, any[0], any[1]]
}

#[test]
fn every_event_of_small_logs() {
    let (mut lowered, mut rivals) = (0, 0);
    for round in 0..2_000 {
        let mut random = Random::round(1, round);
        let mut description = small(&mut random);
        let form = any_form(&mut description, 500, &mut random);
        let log = description.pack_as(form);
        let model = Model::new(description.without_withdrawn());
        call(&random, &log, "reference::log_refusal", &[])
            .returned(reference::log_refusal(&log), 0);
        let tables = tables(&mut random);
        for i in 0..model.workers.len() {
            for e in 1..=model.count(i) {
                let choices = one_event(&model, &log, &random, (i, e), &tables);
                lowered += usize::from(choices.lowered);
                rivals += choices.rivals;
            }
        }
        tests(&model, &log, &mut random);
    }
    assert!(lowered > 1_000, "few starts below the latest: {lowered}");
    assert!(rivals > 10_000, "few rivals: {rivals}");
}

/// A call of the reference, for what a failure prints.
fn call<'a>(
    random: &'a Random,
    log: &'a [u8],
    name: &'static str,
    arguments: &'a [(&'static str, u64)],
) -> Call<'a> {
    Call {
        name,
        random,
        log,
        arguments,
    }
}

/// The difference of words of a slice.
fn differ<T: Copy + PartialEq + Into<u64>>(
    (slice, meaning): (&str, Meaning),
    found: &[T],
    expected: &[T],
) -> Option<Difference> {
    words(|index| meaning.word(slice, index), found, expected)
}

const WORDS: (&str, Meaning) = ("words", Meaning::Plain);
const PLAN: (&str, Meaning) = ("words", Meaning::Plan);
const POSITIONS: (&str, Meaning) = ("positions", Meaning::Plain);
const ANSWER: (&str, Meaning) = ("answer", Meaning::Plain);
const BYTES: (&str, Meaning) = ("out", Meaning::Plain);
const WRITTEN: (&str, Meaning) = ("written", Meaning::Plain);
const CUT_TOTALS: (&str, Meaning) = ("totals", Meaning::Named(&["visits", "workers word"]));
const PLAN_TOTALS: (&str, Meaning) = (
    "totals",
    Meaning::Named(&["visits", "events", "units", "workers word"]),
);

/// The choices of an event.
struct Choices {
    /// Whether some start of the plan is not the latest checkpoint.
    lowered: bool,
    /// The choices that work, beside the plan.
    rivals: usize,
}

/// Compares what the reference says of an event, its plan with each of the unit tables.
fn one_event(
    model: &Model,
    log: &[u8],
    random: &Random,
    (i, e): (usize, u32),
    tables: &[Table],
) -> Choices {
    let n = model.workers.len();
    let (worker, event) = (i as u32, e);
    let at = [("worker", worker.into()), ("event", event.into())];
    let call = |name| call(random, log, name, &at);
    let mut words = vec![0; n];
    let number = reference::vector(log, worker, event, &mut words);
    call("reference::vector").returned(number, 0);
    let vector: Vec<u32> = (0..n).map(|k| model.component(i, e, k)).collect();
    call("reference::vector").same([differ(WORDS, &words, &vector)]);

    let mut cut = vec![0; n];
    cut[i] = e;
    let mut visits = 0;
    model.visit(i, e, &mut cut, &mut visits);
    for (w, &c) in cut.iter().enumerate() {
        for x in 1..=model.count(w) {
            let within = (w, x) == (i, e) || model.happened_before((w, x), (i, e));
            call("Figure 2").holds((x <= c) == within, || {
                format!("cut[{w}] is {c}, and that {w}/{x} is within is {within}")
            });
        }
    }
    call("Figure 2").holds(model.is_consistent(&cut), || {
        "the cut is not consistent".to_string()
    });
    let bits = (0..n).filter(|&w| cut[w] > 0).fold(0, |b, w| b | 1u64 << w);
    let (mut scratch, mut totals) = (scratch(log), [0; 2]);
    let number = reference::lower_cut(log, worker, event, &mut words, &mut scratch, &mut totals);
    call("reference::lower_cut").returned(number, 0);
    call("reference::lower_cut").same([
        differ(WORDS, &words, &cut),
        differ(CUT_TOTALS, &totals, &[visits, bits]),
    ]);

    let number = reference::upper_line(log, worker, event, &mut words);
    call("reference::upper_line").returned(number, 0);
    for (w, &line) in words.iter().enumerate() {
        for x in 1..=model.count(w) {
            let behind = model.happened_before((i, e), (w, x));
            call("reference::upper_line").holds((x > line) == behind, || {
                format!("words[{w}] is {line}, and that {worker}/{event} happened before {w}/{x} is {behind}")
            });
        }
    }

    let choices = model.choices(&cut);
    let startable: Vec<&Vec<u32>> = choices
        .iter()
        .filter(|starts| model.is_startable(&cut, starts))
        .collect();
    for starts in &choices {
        let (startable, works) = (model.is_startable(&cut, starts), model.works(&cut, starts));
        call("a choice").holds(startable == works, || {
            format!("that {starts:?} is startable is {startable}, that it works is {works}")
        });
    }
    let latest: Vec<u32> = (0..n)
        .map(|w| startable.iter().map(|starts| starts[w]).max().unwrap())
        .collect();
    call("a choice").holds(startable.contains(&&latest), || {
        format!("the latest starts {latest:?} are not startable")
    });
    let expected: Vec<u32> = (0..n)
        .flat_map(|w| [cut[w], latest[w], model.identifier(w, latest[w])])
        .collect();
    let events: u64 = (0..n).map(|w| u64::from(cut[w] - latest[w])).sum();
    for table in tables {
        let units = model.units(table, &cut, &latest);
        let totals = [visits, events, units, bits];
        plan_by_table(model, call, (worker, event, table), (&expected, &totals));
        for rival in &startable {
            let other = model.units(table, &cut, rival);
            call("a choice").holds(units <= other, || {
                format!("{rival:?} has {other} units by {table:?}, and the plan {units}")
            });
        }
    }
    let is_later = |starts: &Vec<u32>| (0..n).any(|w| starts[w] > latest[w]);
    Choices {
        lowered: choices.iter().any(is_later),
        rivals: startable.len() - 1,
    }
}

/// Compares a plan and its totals by a unit table, and the same plan with steps.
fn plan_by_table<'a>(
    model: &Model,
    call: impl Fn(&'static str) -> Call<'a>,
    (worker, event, table): (u32, u32, &Table),
    (expected, counted): (&[u32], &[u64; 4]),
) {
    let planned = REFERENCE.planned(call("reference::plan").log, (worker, event), table);
    let (plan, totals) = call("reference::plan").accepted(planned);
    call("reference::plan").same([
        differ(PLAN, &plan, expected),
        differ(PLAN_TOTALS, &totals, counted),
    ]);
    plan_and_steps(
        model,
        &call("reference::restore_and_replay"),
        (worker, event, table),
        (expected, counted),
    );
}

/// Compares a plan with steps of all workers in turn, of a number that is no worker's too, until all are at their cuts.
fn plan_and_steps(
    model: &Model,
    call: &Call,
    (worker, event, table): (u32, u32, &Table),
    (plan, totals): (&[u32], &[u64; 4]),
) {
    let n = model.workers.len();
    let cut: Vec<u32> = plan.chunks(3).map(|w| w[0]).collect();
    let starts: Vec<u32> = plan.chunks(3).map(|w| w[1]).collect();
    let mut positions = starts.clone();
    let mut list = Vec::new();
    let mut expected = Vec::new();
    while positions != cut {
        for w in 0..=n {
            let answer = if w == n {
                12
            } else {
                model.answer(&cut, &starts, &positions, w)
            };
            if answer == 0 {
                positions[w] += 1;
            }
            list.push(w as u32);
            expected.push(answer);
            expected.extend(&positions);
        }
    }
    let (mut words, mut scratch, mut after) = (vec![0; 3 * n], scratch(call.log), vec![0; n]);
    let (mut steps, mut counted) = (vec![0; expected.len()], [0; 4]);
    let number = reference::restore_and_replay(
        call.log,
        worker,
        event,
        &list,
        table,
        &mut words,
        &mut scratch,
        &mut after,
        &mut steps,
        &mut counted,
    );
    call.returned(number, 0);
    call.same([
        differ(PLAN, &words, plan),
        differ(PLAN_TOTALS, &counted, totals),
        differ(("steps", Meaning::Steps(n)), &steps, &expected),
        differ(POSITIONS, &after, &positions),
    ]);
}

/// Compares cut tests and steps from any state.
fn tests(model: &Model, log: &[u8], random: &mut Random) {
    let n = model.workers.len();
    let mut yes = [9];
    for _ in 0..20 {
        let cut: Vec<u32> = (0..n)
            .map(|w| random.within(0, model.count(w) as usize) as u32)
            .collect();
        let number = reference::cut_test(log, &cut, &mut yes);
        let expected = [u32::from(model.is_consistent(&cut))];
        let arguments = [("words", n as u64)];
        let test = call(random, log, "reference::cut_test", &arguments);
        test.returned(number, 0);
        test.same([differ(ANSWER, &yes, &expected)]);

        let starts: Vec<u32> = cut
            .iter()
            .map(|&c| random.within(0, c as usize) as u32)
            .collect();
        let mut positions: Vec<u32> = (0..n)
            .map(|w| random.within(starts[w] as usize, cut[w] as usize) as u32)
            .collect();
        let plan: Vec<u32> = (0..n).flat_map(|w| [cut[w], starts[w], 7]).collect();
        for _ in 0..6 {
            let w = random.below(n);
            let answer = model.answer(&cut, &starts, &positions, w);
            let mut after = positions.clone();
            let number = reference::step(log, &plan, &mut after, w as u32);
            positions[w] += u32::from(answer == 0);
            let arguments = [("worker", w as u64)];
            let step = call(random, log, "reference::step", &arguments);
            step.returned(number, answer);
            step.same([differ(POSITIONS, &after, &positions)]);
        }
    }
}

#[test]
fn covering_sets_of_small_logs() {
    let mut seen = Seen::default();
    for round in 0..15_000 {
        let mut random = Random::round(7, round);
        let mut description = small(&mut random);
        let form = any_form(&mut description, 300, &mut random);
        let log = description.lay_out(form, &mut random);
        let model = Model::new(description.without_withdrawn());
        covering_sets(&model, &log, &random, &mut seen);
    }
    seen.has_sets(300);
}

/// Compares covering tests. An identifier covers exactly when all workers have it and these checkpoints are startable for the cut of
/// all events, and then a replay of all events from them works.
fn covering_sets(model: &Model, log: &[u8], random: &Random, seen: &mut Seen) {
    let accepted = reference::accept(log).expect("an accepted log");
    let all: Vec<u32> = (0..model.workers.len()).map(|w| model.count(w)).collect();
    for t in 0..12 {
        let mut yes = [9];
        let number = reference::covers(log, t, &mut yes);
        let arguments = [("identifier", t.into())];
        let call = |name| call(random, log, name, &arguments);
        let covers = model.covers(t);
        call("reference::covers").returned(number, 0);
        call("reference::covers").same([differ(ANSWER, &yes, &[u32::from(covers)])]);
        let set = checkpoint_set(&model.workers, t);
        let holds = |test: fn(&Model, &[u32], &[u32]) -> bool| {
            set.as_ref().is_some_and(|set| test(model, &all, set))
        };
        let (startable, works) = (holds(Model::is_startable), holds(Model::works));
        call("a set").holds(covers == startable && covers == works, || {
            format!("that it covers is {covers}, that it is startable is {startable}, that it works is {works}")
        });
        seen.add_set(&accepted, t);
    }
}

/// 24 by its text: two different events that are receives and name the same event of the same worker.
fn has_repeat(log: &reference::Log) -> bool {
    let workers = log.workers.iter();
    let events: Vec<_> = workers.flat_map(|w| w.events(0, w.count())).collect();
    let is_repeat = |a: usize, b: usize| {
        let (a, b) = (events[a], events[b]);
        [a, b]
            .iter()
            .all(|event| event.kind == 2 || event.kind == 3)
            && (a.peer, a.send) == (b.peer, b.send)
    };
    (0..events.len()).any(|a| (0..a).any(|b| is_repeat(a, b)))
}

/// The log with this form.
fn in_form(log: &[u8], form: u16) -> Vec<u8> {
    let mut log = log.to_vec();
    set_form(&mut log, form);
    log
}

/// Whether some identifier word of a log that 1 to 6 do not refuse has the top bit.
fn is_marked(log: &[u8]) -> bool {
    let marked = |entry: usize| {
        let (count, offset) = (get(log, entry + 8), get(log, entry + 12));
        (0..count).any(|c| get(log, (offset + 8 * c + 4) as usize) >= MARK)
    };
    (0..worker_count(log)).any(|w| marked(8 + 20 * w))
}

/// Compares the refusals of a log in form 2 and in one that is neither 1 nor 2; gives that of form 2. By the text it is that of form 1;
/// where form 1 is accepted, it is 24 if there is a repeat. Where 11 may differ, since identifier words have the top bit, there is none.
fn refusals(random: &Random, log: &[u8]) -> Option<u32> {
    let (one, two) = (in_form(log, 1), in_form(log, 2));
    let neither = in_form(log, random.clone().pick(&[0, 3, 0x101, 0x102, 0x200]));
    let (expected, other) = match reference::accept(&one) {
        Err(1) => (1, 1),
        Ok(_) | Err(11) if is_marked(log) => return None,
        Err(number) => (number, 2),
        Ok(accepted) if has_repeat(&accepted) => (24, 2),
        Ok(_) => (0, 2),
    };
    for calls in [EXPORTED, REFERENCE] {
        let name = "log_refusal";
        call(random, &two, name, &[]).returned((calls.log_refusal)(&two), expected);
        call(random, &neither, name, &[]).returned((calls.log_refusal)(&neither), other);
    }
    Some(expected)
}

#[test]
fn two_receives_of_one_send() {
    let (mut once, mut twice) = (0, 0);
    for round in 0..10_000 {
        let mut random = Random::round(2, round);
        let mut description = small(&mut random);
        for _ in 0..random.below(3) {
            repeat_any(&mut description, &mut random);
        }
        let log = description.lay_out(1, &mut random);
        call(&random, &log, "reference::log_refusal", &[])
            .returned(reference::log_refusal(&log), 0);
        match refusals(&random, &log) {
            Some(24) => twice += 1,
            _ => once += 1,
        }
    }
    assert!(once > 1_000 && twice > 1_000, "{once}, {twice}");
}

#[test]
fn two_receives_of_one_send_in_damaged_logs() {
    let mut seen = [0; 25];
    for round in 0..20_000 {
        let mut random = Random::round(3, round);
        let log = small(&mut random).lay_out(1, &mut random);
        let log = damaged(&log, &mut random);
        if log.len() < 2 {
            continue;
        }
        if let Some(number) = refusals(&random, &log) {
            seen[number as usize] += 1;
        }
    }
    for number in (0..=11).chain([24]).filter(|&number| number != 2) {
        assert!(seen[number] > 10, "few refusals {number}: {seen:?}");
    }
}

/// Cuts, plans and steps have the same definitions over both forms. A packed log has the form of its log. Without the top bit in an
/// identifier word both forms of a log have the same workers.
#[test]
fn both_forms_of_a_log() {
    let mut accepted = [0; NAMES.len()];
    for round in 0..6_000 {
        let mut random = Random::round(4, round);
        let log = any_log(&mut random, 6, 60);
        if is_marked(&log) {
            continue;
        }
        let (one, two) = (in_form(&log, 1), in_form(&log, 2));
        if reference::log_refusal(&two) == 24 {
            continue;
        }
        let content = reference::accept(&one).expect("an accepted log");
        let arguments = Arguments::any(&mut random, &one, &content);
        for calls in [EXPORTED, REFERENCE] {
            for (at, name) in NAMES.into_iter().enumerate() {
                let [found, mut expected] =
                    [&two, &one].map(|log| arguments.answer(name, &calls, log));
                accepted[at] += u32::from(expected[0] == 0);
                if name == "pack" && expected[0] == 0 {
                    // The bytes are behind the number and the words, and the form is the first of them.
                    expected[1 + arguments.packed.1] = 2;
                }
                let words = words(|index| format!("number or word {index}"), &found, &expected);
                call(&random, &two, name, &[]).same([words]);
            }
        }
    }
    assert!(accepted.iter().all(|&times| times > 500), "{accepted:?}");
}

/// The packed log of an accepted log that 26 does not refuse.
fn packed(random: &Random, calls: &Calls, log: &[u8]) -> Vec<u8> {
    let accepted = reference::accept(log).expect("an accepted log");
    let (mut out, mut written) = (vec![0; packed_length(&accepted)], [0]);
    let number = (calls.pack)(log, &mut out, &mut written);
    let pack = call(random, log, "pack", &[]);
    pack.returned(number, 0);
    pack.same([differ(WRITTEN, &written, &[out.len() as u64])]);
    out
}

/// The packed log by its text, wherever the sections of the log are and whether they share bytes.
#[test]
fn logs_of_one_content() {
    let mut moved = 0;
    for round in 0..4_000 {
        let mut random = Random::round(5, round);
        let mut description = small(&mut random);
        if random.chance(500) {
            make_alike(&mut description, &mut random);
        }
        let form = any_form(&mut description, 300, &mut random);
        let expected = description.pack_as(form);
        for log in [
            expected.clone(),
            description.lay_out(form, &mut random),
            description.lay_out(form, &mut random),
        ] {
            moved += u32::from(log != expected);
            for calls in [EXPORTED, REFERENCE] {
                let found = packed(&random, &calls, &log);
                call(&random, &log, "pack", &[]).same([differ(BYTES, &found, &expected)]);
            }
        }
    }
    assert!(moved > 5_000, "few logs are not packed: {moved}");
}

/// Packed logs are equal exactly when form, worker count, roles, events and checkpoints are.
#[test]
fn packed_logs_and_contents_are_equal_alike() {
    let (mut alike, mut unlike) = (0, 0);
    for round in 0..40_000 {
        let mut random = Random::round(6, round);
        let log = any_log(&mut random, 4, 26);
        let other = damaged(&log, &mut random);
        let [Ok(first), Ok(second)] = [&log, &other].map(|log| reference::accept(log)) else {
            continue;
        };
        let [content, other_content] = [first, second].map(|log| (log.form, Description::of(&log)));
        let equal = content == other_content;
        for calls in [EXPORTED, REFERENCE] {
            let [found, expected] = [&other, &log].map(|log| packed(&random, &calls, log));
            call(&random, &other, "pack", &[]).holds((found == expected) == equal, || {
                format!("that the contents are equal is {equal}, and of the packed logs it is not")
            });
        }
        match equal {
            true => alike += u32::from(log != other),
            false => unlike += 1,
        }
    }
    assert!(alike > 500 && unlike > 500, "{alike}, {unlike}");
}
