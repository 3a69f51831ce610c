//! Withdrawn checkpoints (document 02, note 6), in the exported calls: a log of form 2 with withdrawn checkpoints beside the same log without
//! their records, which every call but packing answers alike; what plans and covering sets of small logs are, written down here by the
//! note; and 11 on the words without their mark.

use evidence::compare::{every_call, is_refused_by, packed, Seen};
use evidence::description::{set_form, Description, Event, Worker, MARK, MAX_WORKERS};
use evidence::failure::{words, Call, Meaning};
use evidence::random::Random;
use evidence::runs::{run, Shape, Taken};
use evidence::sides::{Arguments, EXPORTED, NAMES};
use reference::BUILT_IN;

/// A log of form 2 with withdrawn checkpoints, the same log with none of them withdrawn, and the same without their records.
struct Case {
    random: Random,
    marked: Vec<u8>,
    unmarked: Vec<u8>,
    without: Vec<u8>,
}

impl Case {
    /// Logs of at most these numbers of workers and events, in any layout.
    fn any(random: &mut Random, workers: usize, events: usize) -> Case {
        let mut shape = Shape::any(random, workers, events);
        shape.taken = random.pick(&[Taken::InOrder, Taken::Once]);
        shape.checkpoints = random.pick(&[20, 100, 400]);
        let description = run(&shape, random);
        let mut withdrawn = description.clone();
        withdrawn.withdraw_some(random);
        Case {
            marked: withdrawn.lay_out(2, random),
            unmarked: description.lay_out(2, random),
            without: withdrawn.without_withdrawn().lay_out(2, random),
            random: random.clone(),
        }
    }

    /// Compares a call on the log with withdrawn checkpoints and on the one without their records; gives whether it answers something
    /// else where they are not withdrawn.
    fn call(&self, name: &'static str, arguments: &Arguments) -> bool {
        let [found, expected, other] = [&self.marked, &self.without, &self.unmarked]
            .map(|log| arguments.answer(name, &EXPORTED, log));
        let call = Call {
            name,
            random: &self.random,
            log: &self.marked,
            arguments: &[("identifier", arguments.identifier.into())],
        };
        let name = |index| format!("number or word {index}");
        call.same([words(name, &found, &expected)]);
        found != other
    }

    /// Tests the packed logs: with the marks taken out of the one, it is the other.
    fn pack(&self) {
        let [marked, unmarked] = [&self.marked, &self.unmarked].map(|log| {
            let accepted = reference::accept(log).expect("an accepted log");
            let packed = packed(&mut self.random.clone(), log, &accepted);
            (packed, Description::of(&accepted))
        });
        assert_eq!(marked.0 == unmarked.0, marked.1 == unmarked.1);
        let mut description = marked.1;
        for worker in &mut description.workers {
            for (_, word) in &mut worker.checkpoints {
                *word &= !MARK;
            }
        }
        assert_eq!(description.pack_as(2), unmarked.0);
    }
}

#[test]
fn the_same_log_without_their_records() {
    let mut changed = [0; NAMES.len()];
    for (rounds, workers, events) in [(6_000, 5, 60), (300, MAX_WORKERS, 2_000)] {
        for round in 0..rounds {
            let mut random = Random::round(1_400 + workers as u64, round);
            let case = Case::any(&mut random, workers, events);
            let accepted = reference::accept(&case.marked).expect("an accepted log");
            case.pack();
            let mut arguments = Arguments::any(&mut random, &case.marked, &accepted);
            for (at, name) in NAMES.into_iter().enumerate() {
                if name != "pack" {
                    changed[at] += u32::from(case.call(name, &arguments));
                }
            }
            for identifier in (0..8).flat_map(|t| [t, t | MARK]) {
                arguments.identifier = identifier;
                case.call("covers", &arguments);
            }
        }
    }
    for (name, times) in NAMES.into_iter().zip(changed) {
        let chooses = ["plan", "covers", "restore_and_replay", "intervals"].contains(&name);
        assert!(chooses == (times > 0), "{name}: {changed:?}");
    }
}

/// Two workers with these checkpoints: worker 0 sends twice, and worker 1 sends and then receives the second of these sends, without its
/// data.
fn two(first: &[(u32, u32)], second: &[(u32, u32)]) -> Description {
    let worker = |events: &[Event], checkpoints: &[(u32, u32)]| Worker {
        role: 0,
        events: events.to_vec(),
        checkpoints: checkpoints.to_vec(),
    };
    Description {
        workers: vec![
            worker(&[Event::send(1, 1), Event::send(1, 2)], first),
            worker(&[Event::send(0, 1), Event::receive(2, 0, 2, 3)], second),
        ],
    }
}

/// The checkpoints of two workers, index and identifier word of each; the words of the plan of 1/2 in form 2; and the identifiers that cover.
type Planned = (
    &'static [(u32, u32)],
    &'static [(u32, u32)],
    [u32; 6],
    &'static [u32],
);

/// The words of the plan of 1/2, whose cut is all events. Worker 0 starts before its second event, which worker 1 receives, or worker 1
/// starts after that receive.
const PLANNED: [Planned; 10] = [
    // None withdrawn: both start at their last event.
    (
        &[(1, 1), (2, 2)],
        &[(1, 1), (2, 2)],
        [2, 2, 2, 2, 2, 2],
        &[0, 1, 2],
    ),
    // The latest of worker 1: it replays the receive, so worker 0 starts before the send.
    (
        &[(1, 1), (2, 2)],
        &[(1, 1), (2, 2 | MARK)],
        [2, 1, 1, 2, 1, 1],
        &[0, 1],
    ),
    // And with it the one of worker 0 before the send, so it starts at the initial state.
    (
        &[(1, 1 | MARK), (2, 2)],
        &[(1, 1), (2, 2 | MARK)],
        [2, 0, 0, 2, 1, 1],
        &[0],
    ),
    // All.
    (
        &[(1, 1 | MARK), (2, 2 | MARK)],
        &[(1, 1 | MARK), (2, 2 | MARK)],
        [2, 0, 0, 2, 0, 0],
        &[0],
    ),
    // Of two with the same index the last or the first, which leaves the other one's identifier.
    (
        &[(2, 1), (2, 2 | MARK)],
        &[(2, 1 | MARK), (2, 2)],
        [2, 2, 1, 2, 2, 2],
        &[0],
    ),
    // At index 0 alone, and with another before it.
    (
        &[(0, 1 | MARK)],
        &[(0, 1), (0, 2 | MARK)],
        [2, 0, 0, 2, 0, 1],
        &[0],
    ),
    // At index 0 with another after it.
    (
        &[(0, 1 | MARK), (0, 3)],
        &[(0, 3)],
        [2, 0, 3, 2, 0, 3],
        &[0, 3],
    ),
    // The largest identifier, after a marked 1.
    (
        &[(1, 1 | MARK), (1, MARK - 1)],
        &[(2, MARK - 1)],
        [2, 1, MARK - 1, 2, 2, MARK - 1],
        &[0, MARK - 1],
    ),
    // The largest identifier, withdrawn in the other worker.
    (
        &[(1, MARK - 1)],
        &[(2, 2), (2, u32::MAX)],
        [2, 1, MARK - 1, 2, 2, 2],
        &[0],
    ),
    // A withdrawn one between two others.
    (
        &[(0, 1), (1, 2 | MARK), (2, 3)],
        &[(1, 2), (1, 4)],
        [2, 0, 1, 2, 1, 4],
        &[0],
    ),
];

/// The words of the plan of event 2 of worker 1.
fn plan_of(log: &[u8]) -> Vec<u32> {
    let planned = EXPORTED.planned(log, (1, 2), &BUILT_IN);
    planned.expect("a plan").0
}

/// Whether an identifier covers.
fn covers(log: &[u8], identifier: u32) -> bool {
    let mut yes = [9];
    assert_eq!((EXPORTED.covers)(log, identifier, &mut yes), 0);
    yes == [1]
}

#[test]
fn plans_and_covering_sets_by_the_note() {
    for (first, second, expected, covering) in PLANNED {
        let description = two(first, second);
        let log = &description.pack_as(2);
        let random = &Random::new(0);
        let call = Call {
            name: "plan",
            random,
            log,
            arguments: &[("worker", 1), ("event", 2)],
        };
        let name = |index| Meaning::Plan.word("words", index);
        call.same([words(name, &plan_of(log), &expected)]);
        let identifiers = [0, 1, 2, 3, 4, MARK - 1];
        let asked = identifiers.into_iter().flat_map(|t| [t, t | MARK]);
        let found: Vec<u32> = asked.filter(|&t| covers(log, t)).collect();
        assert_eq!(found, covering, "{description:?}");
    }
}

/// In form 1 a word with the top bit is an identifier like any other.
#[test]
fn large_identifiers_of_form_1() {
    let description = two(&[(1, 1), (2, 2 | MARK)], &[(1, 1 | MARK), (2, 2 | MARK)]);
    let mut log = description.pack();
    assert_eq!(plan_of(&log), [2, 2, 2 | MARK, 2, 2, 2 | MARK]);
    let asked = [0, 1, 2, 1 | MARK, 2 | MARK];
    assert_eq!(
        asked.map(|t| covers(&log, t)),
        [true, false, false, false, true]
    );
    // An older log of form 2 is read as one with withdrawn checkpoints.
    set_form(&mut log, 2);
    assert_eq!(plan_of(&log), [2, 1, 1, 2, 0, 0]);
    assert_eq!(
        asked.map(|t| covers(&log, t)),
        [true, false, false, false, false]
    );
}

/// Identifier words of two checkpoints, and the refusals in form 1 and in form 2.
const IDENTIFIERS: [(u32, u32, u32, u32); 12] = [
    (1, 2, 0, 0),
    (MARK, 1 | MARK, 0, 11),
    (1, MARK, 0, 11),
    (1 | MARK, 2, 11, 0),
    (1, 2 | MARK, 0, 0),
    (1, 1 | MARK, 0, 11),
    (1 | MARK, 1, 11, 11),
    (1 | MARK, 1 | MARK, 11, 11),
    (MARK - 1, 1 | MARK, 0, 11),
    (1 | MARK, MARK - 1, 11, 0),
    (MARK - 2, u32::MAX, 0, 0),
    (u32::MAX, MARK - 1, 11, 11),
];

#[test]
fn identifiers_are_tested_without_the_mark() {
    let random = Random::new(0);
    for (one, other, first, second) in IDENTIFIERS {
        for indices in [[0, 0], [1, 2]] {
            let checkpoints = [(indices[0], one), (indices[1], other)];
            for description in [two(&checkpoints, &[]), two(&[], &checkpoints)] {
                is_refused_by(&random, &description.pack_as(1), first);
                is_refused_by(&random, &description.pack_as(2), second);
            }
        }
    }
    // The index of a withdrawn one is tested too.
    for checkpoints in [&[(3, 1 | MARK)][..], &[(2, 1 | MARK), (1, 2)]] {
        is_refused_by(&random, &two(checkpoints, &[]).pack_as(2), 11);
    }
}

/// 1,024 checkpoints in every worker, all withdrawn or all but the first.
#[test]
fn most_withdrawn_checkpoints() {
    for (kept, seed) in [(0, 1_500), (1, 1_600)] {
        let mut random = Random::new(seed);
        let mut description = run(&Shape::in_order(MAX_WORKERS, 100_000), &mut random);
        for worker in &mut description.workers {
            let count = worker.events.len() as u32;
            let word = |k| (k + 1) | if k < kept { 0 } else { MARK };
            worker.checkpoints = (0..1_024).map(|k| (count * k / 1_023, word(k))).collect();
        }
        let log = description.pack_as(2);
        is_refused_by(&random, &log, 0);
        every_call(&mut random, &log, &mut Seen::default());
        let planned = EXPORTED.planned(&log, (0, 500), &BUILT_IN);
        let (words, _) = planned.expect("a plan");
        for worker in words.chunks(3) {
            assert_eq!(worker[1..], [0, kept]);
        }
    }
}
