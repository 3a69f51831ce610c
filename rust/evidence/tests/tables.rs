//! Unit tables (document 02, note 7), in the exported calls and in the reference: which tables load, what the built-in one is, which
//! events each word counts, that a table changes nothing of a plan but its units, and where 27 stands among the refusals. The events are
//! counted here from the cut and the starts of each plan, those of the longest logs by hand.

use evidence::compare::{
    built_in_table, load_table, loaded_table, plan, restore_and_replay, Lengths, Room, State,
};
use evidence::description::{
    put, Description, Event, Worker, MAX_EVENTS, MAX_WORKERS, TABLE_WORDS,
};
use evidence::failure::{words, Call};
use evidence::random::Random;
use evidence::runs::{any_log, different_sends, shared_sends};
use evidence::sides::{Arguments, EXPORTED, REFERENCE};

/// A unit table.
type Table = [u32; TABLE_WORDS];

/// The table of document 01: send, receive without data and receive with data of each role.
const BUILT_IN: Table = [2, 3, 5, 2, 4, 6, 3, 8, 9, 2, 5, 7];

/// The least and the largest words, and words that all differ.
const ONES: Table = [1; TABLE_WORDS];
const THOUSANDS: Table = [1_000; TABLE_WORDS];
const DIFFERENT: Table = [17, 1_000, 3, 640, 1, 91, 250, 8, 777, 36, 505, 2];

/// How many events there are for each word of a table.
type Counts = [u64; TABLE_WORDS];

/// The role and the kind of the events that each word of a table is for.
const PLACES: [(u32, u8); TABLE_WORDS] = [
    (0, 1),
    (0, 2),
    (0, 3),
    (1, 1),
    (1, 2),
    (1, 3),
    (2, 1),
    (2, 2),
    (2, 3),
    (3, 1),
    (3, 2),
    (3, 3),
];

/// The units of so many events by a table.
fn units(counts: &Counts, table: &Table) -> u64 {
    let words = table.iter().copied().map(u64::from);
    counts
        .iter()
        .zip(words)
        .map(|(many, word)| many * word)
        .sum()
}

/// The list of steps that goes with a plan: a step that is done, one that waits, and one of no worker.
const LIST: [u32; 3] = [2, 0, 3];

/// The numbers of a plan and of a plan with the list of steps, both compared with the reference. Those that are refused have changed
/// nothing that was lent.
fn plan_numbers(log: &[u8], (worker, event): (u32, u32), table: &[u32], room: Room) -> [u32; 2] {
    let random = &mut Random::new(0);
    let lengths = Lengths {
        words: room.words,
        scratch: room.scratch,
        totals: room.totals,
    };
    let replayed = restore_and_replay(random, log, worker, event, &LIST, table, room);
    [
        plan(random, log, worker, event, table, lengths),
        replayed.number(),
    ]
}

/// The words that plans of the tube log need.
fn needed() -> Room {
    Room::needed(3, LIST.len())
}

/// Tests the loading of a table, and both plans of the tube log with it, by the number that it has to have.
fn loads_by(table: &[u32], number: u32) {
    assert_eq!(load_table(&mut Random::new(0), table), number, "{table:?}");
    let log = Description::tube().pack();
    let found = plan_numbers(&log, (0, 2), table, needed());
    assert_eq!(found, [number; 2], "{table:?}");
}

/// 0, 11, 13 and 24 words among others.
#[test]
fn tables_of_each_length() {
    for length in 0..=40 {
        let number = if length == 12 { 0 } else { 27 };
        for word in [1, 500, 1_000] {
            loads_by(&vec![word; length], number);
        }
    }
}

#[test]
fn words_in_each_place() {
    for place in 0..TABLE_WORDS {
        for (word, number) in [
            (0, 27),
            (1, 0),
            (1_000, 0),
            (1_001, 27),
            (65_536 + 1, 27),
            (u32::MAX, 27),
        ] {
            for mut table in [BUILT_IN, ONES, THOUSANDS, DIFFERENT] {
                table[place] = word;
                loads_by(&table, number);
            }
        }
    }
}

#[test]
fn the_built_in_table() {
    for (length, number) in [(0, 14), (11, 14), (12, 0), (20, 0)] {
        let mut expected = vec![77; length];
        if number == 0 {
            expected[..12].copy_from_slice(&BUILT_IN);
        }
        for calls in [EXPORTED, REFERENCE] {
            let mut words = vec![77; length];
            assert_eq!((calls.built_in_table)(&mut words), number);
            assert_eq!(words, expected);
        }
        assert_eq!(built_in_table(&mut Random::new(0), length), number);
    }
    assert_eq!(reference::BUILT_IN, BUILT_IN);
    loads_by(&BUILT_IN, 0);
}

/// The calls that are given a table and give totals.
const PLANS: [&str; 2] = ["plan", "restore_and_replay"];

/// An event of a log, with a list of steps.
struct Case {
    random: Random,
    log: Vec<u8>,
    arguments: Arguments,
    /// What the exported calls give with the built-in table: number, words, and totals at the end.
    answers: [Vec<u64>; 2],
}

impl Case {
    fn new(random: &Random, log: Vec<u8>, at: (u32, u32), list: Vec<u32>) -> Case {
        let accepted = reference::accept(&log).expect("an accepted log");
        let state = State::planned(&log, at.0, at.1).expect("a plan");
        let arguments = Arguments::new(at, state, list, &accepted);
        Case {
            random: random.clone(),
            answers: PLANS.map(|name| arguments.answer(name, &EXPORTED, &log)),
            arguments,
            log,
        }
    }

    /// Any event of a log of at most these numbers of workers and events; none where the worker has none.
    fn any(random: &mut Random, workers: usize, events: usize) -> Option<Case> {
        let log = any_log(random, workers, events);
        let accepted = reference::accept(&log).expect("an accepted log");
        let n = accepted.size();
        let worker = random.below(n);
        let count = accepted.workers[worker].count() as usize;
        if count == 0 {
            return None;
        }
        let at = (worker as u32, random.within(1, count) as u32);
        let list = (0..random.below(6)).map(|_| random.below(n + 1) as u32);
        let list = list.collect();
        Some(Case::new(random, log, at, list))
    }

    /// Cut and start of each worker.
    fn planned(&self) -> impl Iterator<Item = (u32, u32)> + '_ {
        let [_, words, ..] = self.arguments.lent;
        let workers = self.answers[0][1..=words].chunks(3);
        workers.map(|worker| (worker[0] as u32, worker[1] as u32))
    }

    /// How many events the plan replays for each word of a table: those after the start and within the cut of each worker.
    fn counts(&self) -> Counts {
        let accepted = reference::accept(&self.log).expect("an accepted log");
        let mut counts = [0; TABLE_WORDS];
        for (worker, (cut, start)) in accepted.workers.iter().zip(self.planned()) {
            for event in worker.events(start, cut) {
                let own = (worker.role, event.kind);
                let place = PLACES.iter().position(|&place| place == own);
                counts[place.expect("a role and a kind")] += 1;
            }
        }
        counts
    }

    /// Tests the plans with a table, of both sides: they are those with the built-in table, but for the units, which have to be these.
    fn has_units(&self, table: &Table, units: u64) {
        let arguments = Arguments {
            table: table.to_vec(),
            ..self.arguments.clone()
        };
        for (name, answer) in PLANS.into_iter().zip(&self.answers) {
            let mut expected = answer.clone();
            // First the number; behind the units the workers word.
            expected[0] = 0;
            expected[answer.len() - 2] = units;
            for calls in [EXPORTED, REFERENCE] {
                let found = arguments.answer(name, &calls, &self.log);
                let word = |at| format!("number or word {at} by {table:?}");
                let call = Call {
                    name,
                    random: &self.random,
                    log: &self.log,
                    arguments: &[
                        ("worker", self.arguments.at.0.into()),
                        ("event", self.arguments.at.1.into()),
                    ],
                };
                call.same([words(word, &found, &expected)]);
            }
        }
    }

    /// Tests the plans with tables whose words are all the same, with each word raised by itself, with the built-in table and with these.
    fn by_tables(&self, counts: &Counts, tables: &[Table]) {
        let events = counts.iter().sum();
        for answer in &self.answers {
            assert_eq!(answer[answer.len() - 3], events, "{}", self.random);
        }
        self.has_units(&ONES, events);
        self.has_units(&THOUSANDS, 1_000 * events);
        for (place, many) in counts.iter().enumerate() {
            let mut table = ONES;
            table[place] = 1_000;
            self.has_units(&table, events + 999 * many);
        }
        for table in [&[BUILT_IN, DIFFERENT], tables].concat() {
            self.has_units(&table, units(counts, &table));
        }
    }
}

/// Tests events of logs of at most these numbers of workers and events. Each word is for a replayed event in many of them.
fn events_of_any_log(seed: u64, rounds: u64, workers: usize, events: usize) {
    let (mut forms, mut counted) = ([0; 3], [0; TABLE_WORDS]);
    for round in 0..rounds {
        let random = &mut Random::round(seed, round);
        if let Some(case) = Case::any(random, workers, events) {
            let counts = case.counts();
            case.by_tables(&counts, &[loaded_table(random), loaded_table(random)]);
            forms[usize::from(case.log[0])] += 1;
            for (times, many) in counted.iter_mut().zip(counts) {
                *times += u64::from(many > 0);
            }
        }
    }
    assert!(forms[1].min(forms[2]) > rounds / 5, "{forms:?}");
    assert!(
        counted.iter().all(|&times| times > rounds / 40),
        "{counted:?}"
    );
}

#[test]
fn events_of_small_logs() {
    events_of_any_log(1_800, 2_000, 6, 60);
}

#[test]
fn events_of_larger_logs() {
    events_of_any_log(1_900, 100, MAX_WORKERS, 2_500);
}

/// The sends of the workers of [`every_role`].
const SENDS: [u32; 4] = [33_000, 33_500, 34_000, 34_500];

/// Of the others, the receives, each second, third, fourth or fifth one of the worker has its data logged.
const OF_EVERY_ROLE: Counts = [
    33_000, 16_268, 16_267, 33_500, 21_357, 10_678, 34_000, 23_652, 7_883, 34_500, 24_828, 6_207,
];

/// A log of four workers, one of each role, with the most events. Each first sends to the next one, and then receives the first sends of
/// the one before it. At the end a message goes from worker 1 through all to worker 0, so all events are within the cut of its last one.
fn every_role() -> Description {
    let worker = |w: u32| {
        let (before, next) = ((w as usize + 3) % 4, (w as usize + 1) % 4);
        let sends = SENDS[w as usize] - u32::from(w != 0);
        let receives = MAX_EVENTS - SENDS[w as usize];
        let receive = |k: u32| {
            let kind = if k.is_multiple_of(w + 2) { 3 } else { 2 };
            if k == receives && w != 1 {
                Event::receive(kind, before, MAX_EVENTS, 100_000 + 2 * before as u32)
            } else {
                Event::receive(kind, before, k, 50_000 + k)
            }
        };
        let mut events: Vec<Event> = (1..=sends).map(|k| Event::send(next, k)).collect();
        events.extend((1..=receives).map(receive));
        if w != 0 {
            events.push(Event::send(next, 100_000 + 2 * w - 1));
        }
        Worker {
            role: w,
            events,
            checkpoints: Vec::new(),
        }
    };
    Description {
        workers: (0..4).map(worker).collect(),
    }
}

/// Tests the last event of worker 0 of a log of so many workers, of which each has 65,535 events, all replayed.
fn all_replayed(log: Vec<u8>, workers: usize, counts: &Counts) {
    let case = Case::new(&Random::new(0), log, (0, MAX_EVENTS), Vec::new());
    let planned: Vec<(u32, u32)> = case.planned().collect();
    assert_eq!(planned, vec![(65_535, 0); workers]);
    assert_eq!(counts.iter().sum::<u64>(), 65_535 * workers as u64);
    case.by_tables(counts, &[]);
}

#[test]
fn the_most_events_in_every_role() {
    let description = every_role();
    let by_role = [196_139, 216_496, 362_163, 236_589];
    assert_eq!(units(&OF_EVERY_ROLE, &BUILT_IN), by_role.iter().sum());
    for form in [1, 2] {
        all_replayed(description.pack_as(form), 4, &OF_EVERY_ROLE);
    }
}

/// Worker 0 receives the last send of each of 63 workers, whose 65,535 sends share bytes, and others. Worker w has role w modulo 4, so 15
/// of the senders have role 0 and 16 each other role. Each third receive has its data logged.
#[test]
fn the_most_events_that_share_bytes() {
    let senders: Vec<usize> = (1..MAX_WORKERS).collect();
    let last: Vec<(usize, u32)> = senders.iter().map(|&w| (w, MAX_EVENTS)).collect();
    let sends = different_sends(&senders, &last, MAX_EVENTS as usize);
    let mut log = shared_sends(MAX_WORKERS, 0, &sends);
    for w in 0..MAX_WORKERS {
        put(&mut log, 24 + 20 * w, w as u32 % 4);
    }
    let of_16 = 16 * 65_535;
    let counts = [
        15 * 65_535,
        43_690,
        21_845,
        of_16,
        0,
        0,
        of_16,
        0,
        0,
        of_16,
        0,
        0,
    ];
    assert_eq!(units(&counts, &THOUSANDS), 64 * 65_535 * 1_000);
    all_replayed(log, MAX_WORKERS, &counts);
}

/// Tables that do not load.
fn unloaded() -> Vec<Vec<u32>> {
    let with = |place: usize, word| {
        let mut table = BUILT_IN.to_vec();
        table[place] = word;
        table
    };
    vec![
        Vec::new(),
        BUILT_IN[..11].to_vec(),
        [&BUILT_IN[..], &[1]].concat(),
        [BUILT_IN, BUILT_IN].concat(),
        with(0, 0),
        with(11, 1_001),
        vec![u32::MAX; 3],
    ]
}

/// This many words of each kind.
fn of_each(words: usize) -> Room {
    Room {
        words,
        scratch: words,
        positions: words,
        steps: words,
        totals: words,
    }
}

/// The words that plans of the tube log need, with a change.
fn needed_but(change: fn(&mut Room)) -> Room {
    let mut room = needed();
    change(&mut room);
    room
}

/// Events and lent words of the tube log, and the numbers of both plans with a table that does not load. With one that loads it is 0 in
/// the place of 27.
fn beside_the_table() -> [((u32, u32), Room, [u32; 2]); 15] {
    [
        ((3, 1), needed(), [12; 2]),
        ((u32::MAX, 0), of_each(0), [12; 2]),
        ((0, 0), needed(), [13; 2]),
        ((0, 4), needed(), [13; 2]),
        ((1, 5), of_each(0), [13; 2]),
        ((0, 2), of_each(0), [14; 2]),
        ((0, 2), needed_but(|room| room.words = 8), [14; 2]),
        ((0, 2), needed_but(|room| room.totals = 3), [14; 2]),
        // A plan alone has no positions and no steps.
        ((0, 2), needed_but(|room| room.positions = 2), [27, 14]),
        ((0, 2), needed_but(|room| room.steps = 11), [27, 14]),
        ((0, 2), needed_but(|room| room.scratch = 5), [15; 2]),
        ((0, 2), needed_but(|room| room.scratch = 0), [15; 2]),
        ((0, 2), needed(), [27; 2]),
        ((0, 2), needed_but(|room| room.scratch = 9), [27; 2]),
        ((0, 2), of_each(20), [27; 2]),
    ]
}

#[test]
fn numbers_beside_27() {
    for form in [1, 2] {
        let log = Description::tube().pack_as(form);
        for (at, room, expected) in beside_the_table() {
            for table in unloaded() {
                let found = plan_numbers(&log, at, &table, room);
                assert_eq!(found, expected, "{at:?}, {room:?}, {table:?}");
            }
            let expected = expected.map(|number| if number == 27 { 0 } else { number });
            for table in [BUILT_IN, ONES, THOUSANDS, DIFFERENT] {
                let found = plan_numbers(&log, at, &table, room);
                assert_eq!(found, expected, "{at:?}, {room:?}, {table:?}");
            }
        }
    }
}

/// Places of the tube log with a byte that is put there, and the refusal of the log that it makes.
const REFUSED: [(&[(usize, u8)], u32); 11] = [
    // The form.
    (&[(0, 3)], 2),
    // The worker count.
    (&[(2, 0)], 3),
    // The length.
    (&[(4, 213)], 4),
    // The role of worker 0.
    (&[(24, 4)], 5),
    // The event offset of worker 0.
    (&[(12, 67)], 6),
    // The kind of event 1 of worker 0.
    (&[(68, 4)], 7),
    // The stamp of its event 2, which is that of its event 1.
    (&[(88, 2)], 8),
    // Its event 1 names a send to worker 1.
    (&[(72, 2)], 9),
    // The stamp of its event 1, which is that of the send that it receives.
    (&[(76, 1)], 10),
    // The identifier of its checkpoint.
    (&[(108, 0)], 11),
    // In form 2 the last event of worker 1 receives 2/2, as its event 2 does.
    (&[(0, 2), (149, 2), (152, 2)], 24),
];

/// Tests both plans of a log that is refused by this number, with tables that do not load, and with all other numbers beside them too.
fn is_refused_beside_27(log: &[u8], number: u32) {
    for calls in [EXPORTED, REFERENCE] {
        assert_eq!((calls.log_refusal)(log), number);
    }
    for table in unloaded() {
        for (at, room, _) in beside_the_table() {
            let found = plan_numbers(log, at, &table, room);
            assert_eq!(found, [number; 2], "{at:?}, {room:?}, {table:?}");
        }
    }
}

#[test]
fn refused_logs_beside_27() {
    let tube = Description::tube().pack();
    is_refused_beside_27(&tube[..7], 1);
    for (bytes, number) in REFUSED {
        let mut log = tube.clone();
        for &(at, byte) in bytes {
            log[at] = byte;
        }
        is_refused_beside_27(&log, number);
    }
}
