//! The library on the tube log, and on bytes that are refused.

use restore_planner::{
    Advance, Breakpoint, Log, Plan, Refusal, Replay, Step, UnitTable, WorkerPlan,
};

const TUBE: &[u8] = include_bytes!("../examples/tube.log");

const AT: Breakpoint = at(0, 2);

const fn at(worker: u32, event: u32) -> Breakpoint {
    Breakpoint { worker, event }
}

fn tube() -> Log<'static> {
    Log::new(TUBE).unwrap()
}

/// The plan of a breakpoint with the built-in table.
fn plan(log: &Log, at: Breakpoint) -> Result<Plan, Refusal> {
    log.plan(at, &UnitTable::default())
}

fn tube_plan() -> Plan {
    plan(&tube(), AT).unwrap()
}

fn refused(bytes: &[u8]) -> Refusal {
    Log::new(bytes).unwrap_err()
}

#[test]
fn refusals_have_the_numbers_of_documents_01_and_02() {
    let numbers: Vec<u32> = Refusal::LISTED.iter().map(|r| r.number()).collect();
    assert_eq!(numbers, (1..=16).chain(24..=28).collect::<Vec<u32>>());
    assert_eq!(Refusal::check(0), Ok(()));
    for refusal in Refusal::LISTED {
        assert_eq!(Refusal::check(refusal.number()), Err(refusal));
        assert_eq!(Step::check(refusal.number()), Err(refusal));
    }
    assert_eq!(Refusal::check(17), Err(Refusal::Unlisted(17)));
    assert_eq!(Refusal::Unlisted(17).number(), 17);
}

#[test]
fn steps_have_the_numbers_of_document_01() {
    let steps = [
        (0, Step::Done),
        (21, Step::AtCut),
        (22, Step::Waits),
        (23, Step::Lost),
    ];
    for (number, step) in steps {
        assert_eq!(step.number(), number);
        assert_eq!(Step::check(number), Ok(step));
    }
    assert_eq!(Step::check(20), Err(Refusal::Unlisted(20)));
}

#[test]
fn each_refusal_and_step_prints_a_sentence_of_its_own() {
    let refusals = Refusal::LISTED.into_iter().chain([Refusal::Unlisted(17)]);
    let mut sentences: Vec<String> = refusals
        .map(|refusal| {
            let text = refusal.to_string();
            let number = format!(" (refusal {})", refusal.number());
            text.strip_suffix(&number).unwrap().to_string()
        })
        .collect();
    let steps = [Step::Done, Step::AtCut, Step::Waits, Step::Lost];
    sentences.extend(steps.map(|step| step.to_string()));
    for (at, sentence) in sentences.iter().enumerate() {
        assert!(sentence.split(' ').count() >= 4, "{sentence}");
        assert!(!sentences[..at].contains(sentence), "{sentence}");
    }
    assert_eq!(
        Refusal::Event.to_string(),
        "the worker has no event of this number; events are numbered from 1 (refusal 13)"
    );
}

#[test]
fn logs_are_accepted_or_refused() {
    assert_eq!(tube().worker_count(), 3);
    assert_eq!(tube().as_bytes(), TUBE);
    assert_eq!(Log::try_from(TUBE).unwrap().as_bytes(), TUBE);
    assert_eq!(refused(&[]), Refusal::LogLength);
    assert_eq!(refused(&[1, 0, 1, 0]), Refusal::LogLength);
    assert_eq!(refused(&[0; 8]), Refusal::Form);
    assert_eq!(refused(&TUBE[1..]), Refusal::Form);
    assert_eq!(refused(&[1, 0, 255, 255, 8, 0, 0, 0]), Refusal::WorkerCount);
    assert_eq!(refused(&TUBE[..211]), Refusal::Header);
}

/// The tube log with another form.
fn tube_of_form(form: u16) -> Vec<u8> {
    let mut bytes = TUBE.to_vec();
    bytes[..2].copy_from_slice(&form.to_le_bytes());
    bytes
}

#[test]
fn the_tube_log_of_either_form() {
    for form in [0, 3, 0x0101, 0x0102, 0x0200, u16::MAX] {
        assert_eq!(refused(&tube_of_form(form)), Refusal::Form);
    }
    assert_eq!(tube_of_form(1), TUBE);
    let bytes = tube_of_form(2);
    let (log, other) = (Log::new(&bytes).unwrap(), tube());
    assert_eq!(log.worker_count(), 3);
    assert_eq!(plan(&log, AT).unwrap(), tube_plan());
    for (worker, count) in [(0, 3), (1, 4), (2, 3)] {
        for event in 0..=count + 1 {
            let at = at(worker, event);
            assert_eq!(log.vector(at), other.vector(at));
            assert_eq!(log.lower_cut(at), other.lower_cut(at));
            assert_eq!(log.upper_line(at), other.upper_line(at));
            assert_eq!(plan(&log, at), plan(&other, at));
            let (list, table) = ([2, 2, 1, 3, 1, 0, 0], UnitTable::default());
            let restored = log.restore_and_replay(at, &list, &table);
            assert_eq!(restored, other.restore_and_replay(at, &list, &table));
        }
    }
    let mut replay = Replay::new(&log, &tube_plan()).unwrap();
    while let Advance::Stepped(_) = replay.advance().unwrap() {}
    assert!(replay.is_finished());
}

/// Where the last event of worker 0, a send that worker 1 receives, and that receive stand in the tube log.
const LAST_OF_0: usize = 92;
const LAST_OF_1: usize = 148;

/// The tube log of a form in which event 4 of worker 1 receives 2/2, as its event 2 does.
fn repeating_tube(form: u16) -> Vec<u8> {
    let mut bytes = tube_of_form(form);
    assert_eq!(bytes[LAST_OF_1..LAST_OF_1 + 8], [2, 0, 0, 0, 3, 0, 0, 0]);
    bytes[LAST_OF_1 + 1] = 2;
    bytes[LAST_OF_1 + 4] = 2;
    bytes
}

#[test]
fn two_receives_of_one_send() {
    assert!(Log::new(&repeating_tube(1)).is_ok());
    assert_eq!(refused(&repeating_tube(2)), Refusal::Repeat);
    assert_eq!(Refusal::Repeat.number(), 24);
    assert_eq!(
        Refusal::Repeat.to_string(),
        "two receives in the log name the same send, which a log of form 2 does not allow (refusal 24)"
    );
    // The data of one of the two are logged.
    let mut bytes = repeating_tube(2);
    bytes[LAST_OF_1] = 3;
    assert_eq!(refused(&bytes), Refusal::Repeat);
    // A fault that is tested before: the stamp of the last event of worker 0 is that of its event before.
    let mut bytes = repeating_tube(2);
    bytes[LAST_OF_0 + 8] = 5;
    assert_eq!(refused(&bytes), Refusal::Stamp);
}

/// Lends this many bytes, all 7, to the packing of a log; gives what it returned and all of them.
fn packed_into(log: &Log, length: usize) -> (Result<usize, Refusal>, Vec<u8>) {
    let mut out = vec![7; length];
    (log.pack(&mut out), out)
}

#[test]
fn the_packed_tube_log() {
    for form in [1, 2] {
        let bytes = tube_of_form(form);
        let log = Log::new(&bytes).unwrap();
        assert_eq!(log.packed(), Ok(bytes.clone()));
        assert_eq!(packed_into(&log, 212), (Ok(212), bytes.clone()));
        let longer = [&bytes[..], &[7; 8]].concat();
        assert_eq!(packed_into(&log, 220), (Ok(212), longer));
        for short in [0, 1, 8, 68, 211] {
            let unchanged = (Err(Refusal::OutBytes), vec![7; short]);
            assert_eq!(packed_into(&log, short), unchanged);
        }
    }
    assert_eq!(
        Refusal::OutBytes.to_string(),
        "too few bytes were given for the packed log or the interval log (refusal 25)"
    );
}

/// The tube log with its sections behind a gap and in the opposite order, each behind a gap of one byte.
fn scattered_tube() -> Vec<u8> {
    let word = |at: usize| u32::from_le_bytes(TUBE[at..at + 4].try_into().unwrap()) as usize;
    let mut bytes = TUBE[..68].to_vec();
    bytes.extend([9; 33]);
    for field in [60, 52, 40, 32, 20, 12] {
        let size = if field % 20 == 12 { 12 } else { 8 };
        let (count, offset) = (word(field - 4), word(field));
        let moved = bytes.len() as u32;
        bytes[field..field + 4].copy_from_slice(&moved.to_le_bytes());
        bytes.extend(&TUBE[offset..offset + size * count]);
        bytes.push(9);
    }
    let length = bytes.len() as u32;
    bytes[4..8].copy_from_slice(&length.to_le_bytes());
    bytes
}

#[test]
fn the_tube_log_with_its_sections_moved() {
    let bytes = scattered_tube();
    let log = Log::new(&bytes).unwrap();
    assert_eq!(bytes.len(), 212 + 33 + 6);
    assert_eq!(log.packed().unwrap(), TUBE);
    assert_eq!(packed_into(&log, 212), (Ok(212), TUBE.to_vec()));
    assert_eq!(packed_into(&log, 211).0, Err(Refusal::OutBytes));
    assert_eq!(plan(&log, AT).unwrap(), tube_plan());
}

/// The interval log of the tube log: the header, and of each worker its receives and its checkpoint.
#[rustfmt::skip]
const TUBE_INTERVALS: [u8; 152] = [
    3, 0, 3, 0, 152, 0, 0, 0,
    2, 0, 0, 0,  68, 0, 0, 0, 1, 0, 0, 0,  92, 0, 0, 0, 3, 0, 0, 0,
    2, 0, 0, 0, 100, 0, 0, 0, 1, 0, 0, 0, 124, 0, 0, 0, 1, 0, 0, 0,
    1, 0, 0, 0, 132, 0, 0, 0, 1, 0, 0, 0, 144, 0, 0, 0, 0, 0, 0, 0,
    2, 2, 0, 0, 0, 0, 0, 0, 2, 0, 0, 0,
    2, 1, 0, 0, 1, 0, 0, 0, 5, 0, 0, 0,
    1, 0, 0, 0, 1, 0, 0, 0,
    2, 2, 0, 0, 0, 0, 0, 0, 3, 0, 0, 0,
    2, 0, 0, 0, 2, 0, 0, 0, 7, 0, 0, 0,
    0, 0, 0, 0, 1, 0, 0, 0,
    2, 1, 0, 0, 0, 0, 0, 0, 3, 0, 0, 0,
    0, 0, 0, 0, 1, 0, 0, 0,
];

#[test]
fn the_tube_log_in_intervals() {
    for bytes in [tube_of_form(1), tube_of_form(2), scattered_tube()] {
        let log = Log::new(&bytes).unwrap();
        assert_eq!(log.interval_log().unwrap(), TUBE_INTERVALS);
        let mut out = [7; 160];
        assert_eq!(log.intervals(&mut out[..151]), Err(Refusal::OutBytes));
        assert_eq!(log.intervals(&mut out[..0]), Err(Refusal::OutBytes));
        assert_eq!(out, [7; 160]);
        assert_eq!(log.intervals(&mut out[..152]), Ok(152));
        assert_eq!(
            (&out[..152], &out[152..]),
            (&TUBE_INTERVALS[..], &[7; 8][..])
        );
        let mut out = [7; 160];
        assert_eq!(log.intervals(&mut out), Ok(152));
        assert_eq!(
            (&out[..152], &out[152..]),
            (&TUBE_INTERVALS[..], &[7; 8][..])
        );
    }
    assert_eq!(refused(&TUBE_INTERVALS), Refusal::Form);
}

/// A log of one worker without events, which has these checkpoints of index 0, by their identifier words.
fn alone(form: u8, words: &[u32]) -> Vec<u8> {
    let many = words.len() as u32;
    let mut bytes = vec![form, 0, 1, 0];
    for number in [28 + 8 * many, 0, 28, many, 28, 2] {
        bytes.extend(number.to_le_bytes());
    }
    for word in words {
        bytes.extend([0, *word].map(u32::to_le_bytes).as_flattened());
    }
    bytes
}

#[test]
fn checkpoints_of_one_interval() {
    const MARK: u32 = 1 << 31;
    // The initial state is no second one; of two, one is withdrawn in form 2.
    for (form, words, kept) in [
        (1, &[][..], &[][..]),
        (1, &[7], &[7]),
        (1, &[MARK + 7], &[MARK + 7]),
        (2, &[MARK + 7], &[]),
        (2, &[6, MARK + 7], &[6]),
        (2, &[MARK + 6, 7], &[7]),
    ] {
        let bytes = alone(form, words);
        let log = Log::new(&bytes).unwrap();
        assert_eq!(log.interval_log(), Ok(alone(3, kept)));
    }
    for (form, words) in [
        (1, &[6, 7][..]),
        (1, &[6, MARK + 7]),
        (2, &[6, 7]),
        (2, &[5, MARK + 6, 7]),
    ] {
        let bytes = alone(form, words);
        let log = Log::new(&bytes).unwrap();
        assert_eq!(log.interval_log(), Err(Refusal::Interval));
        assert_eq!(log.intervals(&mut []), Err(Refusal::Interval));
        assert_eq!(log.packed(), Ok(bytes.clone()));
    }
    assert_eq!(
        Refusal::Interval.to_string(),
        "two checkpoints of a worker, neither of them withdrawn, have no receive between them, so they fall into one interval (refusal 28)"
    );
}

/// A log of form 1 in which all workers but worker 0, which has no events, share the bytes of 65,535 sends to it.
fn shared_sends(workers: u32) -> Vec<u8> {
    let header = 8 + 20 * workers;
    let mut bytes = vec![1, 0, workers as u8, 0];
    bytes.extend((header + 12 * 65_535).to_le_bytes());
    for worker in 0..workers {
        let events = if worker == 0 { 0 } else { 65_535 };
        let entry = [events, header, 0, header, 0];
        bytes.extend(entry.map(u32::to_le_bytes).as_flattened());
    }
    for stamp in 1..=65_535_u32 {
        bytes.extend([1, 0, 0, 0, 0, 0, 0, 0]);
        bytes.extend(stamp.to_le_bytes());
    }
    bytes
}

#[test]
fn logs_that_share_bytes_and_grow() {
    let bytes = shared_sends(6);
    let log = Log::new(&bytes).unwrap();
    let packed = log.packed().unwrap();
    assert_eq!((bytes.len(), packed.len()), (786_548, 3_932_228));
    assert_eq!(Log::new(&packed).unwrap().packed().unwrap(), packed);

    // 4,718,668 bytes, if it were packed.
    let bytes = shared_sends(7);
    let log = Log::new(&bytes).unwrap();
    assert_eq!(log.packed(), Err(Refusal::PackedLength));
    assert_eq!(log.pack(&mut []), Err(Refusal::PackedLength));
    // No send is in the interval log, which is the header alone.
    assert_eq!(log.interval_log().unwrap().len(), 8 + 20 * 7);
    assert_eq!(
        Refusal::PackedLength.to_string(),
        "the packed log or the interval log would be longer than 4,194,304 bytes, since sections of the log share bytes (refusal 26)"
    );
}

#[test]
fn a_log_and_a_breakpoint_print_briefly() {
    assert_eq!(format!("{:?}", tube()), "Log { length: 212, workers: 3 }");
    assert_eq!(AT.to_string(), "0/2");
}

#[test]
fn vectors_and_lines() {
    let log = tube();
    assert_eq!(log.vector(AT), Ok(vec![2, 3, 1]));
    assert_eq!(log.upper_line(AT), Ok(vec![2, 3, 3]));
    let lower = log.lower_cut(AT).unwrap();
    assert_eq!((lower.cut.as_slice(), lower.visits), (&[2, 3, 2][..], 3));
    assert!((0..3).all(|worker| lower.has_worker(worker)));
    assert!(!lower.has_worker(3));
    let first = log.lower_cut(at(2, 1)).unwrap();
    assert_eq!(first.cut, [0, 0, 1]);
    assert_eq!([0, 1, 2].map(|w| first.has_worker(w)), [false, false, true]);
}

#[test]
fn a_plan() {
    let plan = tube_plan();
    let entry = |cut, start, identifier| WorkerPlan {
        cut,
        start,
        identifier,
    };
    assert_eq!(
        plan.workers,
        [entry(2, 1, 1), entry(3, 1, 1), entry(2, 0, 0)]
    );
    let totals = plan.totals;
    assert_eq!((totals.visits, totals.events, totals.units), (3, 5, 15));
    assert!((0..3).all(|worker| totals.has_worker(worker)));
    for worker in [3, 63, 64, 128, u32::MAX] {
        assert!(!totals.has_worker(worker));
    }
}

#[test]
fn unit_tables_that_load_and_that_do_not() {
    let built_in = [2, 3, 5, 2, 4, 6, 3, 8, 9, 2, 5, 7];
    assert_eq!(UnitTable::default().words(), &built_in);
    assert_eq!(UnitTable::load(&built_in), Ok(UnitTable::default()));
    for words in [[1; 12], [1_000; 12]] {
        let table = UnitTable::load(&words).unwrap();
        assert_eq!(table.words(), &words);
        assert_eq!(UnitTable::try_from(&words[..]), Ok(table));
        assert_ne!(table, UnitTable::default());
    }
    for words in [
        &[][..],
        &[1; 11],
        &[1; 13],
        &[1; 24],
        &[0; 12],
        &[1_001; 12],
    ] {
        assert_eq!(UnitTable::load(words), Err(Refusal::UnitTable));
        assert_eq!(UnitTable::try_from(words), Err(Refusal::UnitTable));
    }
    assert_eq!(
        Refusal::UnitTable.to_string(),
        "the unit table has other than 12 words, or a word outside 1 to 1,000 (refusal 27)"
    );
}

/// The plan of 0/2 replays two sends of worker 2, of role 0, a send and a receive of worker 1, of role 1, and a receive of worker 0, of
/// role 3. No data are logged.
#[test]
fn a_plan_by_other_unit_tables() {
    let rising = [101, 102, 103, 104, 105, 106, 107, 108, 109, 110, 111, 112];
    for (words, units) in [
        ([1; 12], 5),
        ([1_000; 12], 5_000),
        (rising, 2 * 101 + 104 + 105 + 111),
    ] {
        let table = UnitTable::load(&words).unwrap();
        let mut expected = tube_plan();
        assert_eq!(expected.totals.units, 15);
        expected.totals.units = units;
        assert_eq!(tube().plan(AT, &table).unwrap(), expected);
        let restored = tube().restore_and_replay(AT, &[2], &table).unwrap();
        assert_eq!(restored.plan, expected);
        assert_eq!(restored.positions, [1, 1, 1]);
    }
}

#[test]
fn events_that_the_log_does_not_have() {
    let log = tube();
    for (at, refusal) in [
        (at(3, 1), Refusal::Worker),
        (at(u32::MAX, 1), Refusal::Worker),
        (at(0, 0), Refusal::Event),
        (at(0, 4), Refusal::Event),
    ] {
        assert_eq!(log.vector(at), Err(refusal));
        assert_eq!(log.lower_cut(at), Err(refusal));
        assert_eq!(log.upper_line(at), Err(refusal));
        assert_eq!(plan(&log, at), Err(refusal));
        let restored = log.restore_and_replay(at, &[0; 5], &UnitTable::default());
        assert_eq!(restored, Err(refusal));
    }
}

#[test]
fn the_cut_test_and_the_covering_test() {
    let log = tube();
    assert_eq!(log.is_consistent(&[2, 3, 2]), Ok(true));
    assert_eq!(log.is_consistent(&[2, 3, 1]), Ok(false));
    assert_eq!(log.is_consistent(&[2, 3, 2, 9]), Ok(true));
    assert_eq!(log.is_consistent(&[2, 3]), Err(Refusal::Words));
    assert_eq!(log.is_consistent(&[2, 3, 4]), Err(Refusal::Cut));
    assert_eq!(log.covers(0), Ok(true));
    assert_eq!(log.covers(1), Ok(false));
    assert_eq!(log.covers(2), Ok(false));
}

/// Where the receives of 2/2, by worker 1, and of 1/1, by worker 2, stand in the tube log.
const RECEIVE_OF_2_2: usize = 124;
const RECEIVE_OF_1_1: usize = 192;

/// The tube log with the data of the receives at these places logged.
fn tube_with_data_logged(receives: &[usize]) -> Vec<u8> {
    let mut bytes = TUBE.to_vec();
    for &at in receives {
        assert_eq!(bytes[at], 2);
        bytes[at] = 3;
    }
    bytes
}

/// A replay of all events of a log with the tube log's event counts, from the checkpoints of set 1.
fn replay_from_set_1<'a>(log: &Log<'a>) -> Replay<'a> {
    let mut plan = tube_plan();
    for (entry, (start, cut)) in plan.workers.iter_mut().zip([(1, 3), (1, 4), (2, 3)]) {
        *entry = WorkerPlan {
            cut,
            start,
            identifier: 1,
        };
    }
    Replay::new(log, &plan).unwrap()
}

/// Sends 2/2 and 1/1 are the last events before their senders' checkpoints 1, so a replay from there does not make them again, and
/// both are received after the receiver's checkpoint 1.
#[test]
fn sends_at_their_senders_checkpoints() {
    assert_eq!(TUBE[RECEIVE_OF_2_2..][..8], [2, 2, 0, 0, 2, 0, 0, 0]);
    assert_eq!(TUBE[RECEIVE_OF_1_1..][..8], [2, 1, 0, 0, 1, 0, 0, 0]);
    for (logged, lost) in [
        (&[][..], &[1, 2][..]),
        (&[RECEIVE_OF_2_2], &[2]),
        (&[RECEIVE_OF_1_1], &[1]),
    ] {
        let bytes = tube_with_data_logged(logged);
        let log = Log::new(&bytes).unwrap();
        assert_eq!(log.covers(1), Ok(false));
        for &worker in lost {
            assert_eq!(replay_from_set_1(&log).step(worker), Ok(Step::Lost));
        }
    }
}

/// With the data of both receives logged set 1 covers, and a replay from its checkpoints reaches the cut of all events.
#[test]
fn a_replay_of_all_events_from_a_covering_set() {
    let bytes = tube_with_data_logged(&[RECEIVE_OF_2_2, RECEIVE_OF_1_1]);
    let log = Log::new(&bytes).unwrap();
    assert_eq!(log.covers(1), Ok(true));
    let mut replay = replay_from_set_1(&log);
    for worker in [2, 1, 1, 0, 0, 1] {
        assert_eq!(replay.step(worker), Ok(Step::Done));
    }
    assert!(replay.is_finished());
    assert_eq!(replay.positions(), [3, 4, 3]);
}

/// With set 1 covering, a plan starts no worker before it where all its checkpoints are at or below the cut. Where one is above the cut,
/// that worker starts before it.
#[test]
fn plans_beside_a_covering_set() {
    let bytes = tube_with_data_logged(&[RECEIVE_OF_2_2, RECEIVE_OF_1_1]);
    let log = Log::new(&bytes).unwrap();
    assert_eq!(log.covers(1), Ok(true));
    let set = [1, 1, 2];
    for (at, cut, starts) in [
        (at(0, 1), [1, 0, 1], [1, 0, 0]),
        (at(2, 3), [0, 1, 3], [0, 1, 2]),
        (at(0, 2), [2, 3, 2], set),
        (at(0, 3), [3, 3, 2], set),
        (at(1, 4), [3, 4, 2], set),
    ] {
        let plan = plan(&log, at).unwrap();
        let found = plan.workers.iter().map(|entry| (entry.cut, entry.start));
        assert!(found.eq(cut.into_iter().zip(starts)), "{at}: {plan:?}");
    }
    // By itself the tube log's set 1 does not cover, and worker 2 starts before it.
    assert_eq!(tube().covers(1), Ok(false));
    assert_eq!(tube_plan().workers[2].start, 0);
}

/// Where the identifier word of worker 1's checkpoint, which is 1, has its last byte.
const TOP_BYTE_OF_1: usize = 167;

/// The start and the identifier of each worker in the plan of the last event of worker 1.
fn starts(log: &Log) -> Vec<(u32, u32)> {
    let plan = plan(log, at(1, 4)).unwrap();
    let starts = plan.workers.iter();
    starts
        .map(|entry| (entry.start, entry.identifier))
        .collect()
}

/// The tube log with a covering set 1 whose checkpoint of worker 1 has the top bit in its identifier word. In form 1 that is a large
/// identifier; in form 2 the checkpoint is withdrawn, and worker 1 starts at its initial state.
#[test]
fn a_withdrawn_checkpoint() {
    let mut bytes = tube_with_data_logged(&[RECEIVE_OF_2_2, RECEIVE_OF_1_1]);
    assert_eq!(bytes[TOP_BYTE_OF_1 - 3..=TOP_BYTE_OF_1], [1, 0, 0, 0]);
    assert_eq!(starts(&Log::new(&bytes).unwrap()), [(1, 1), (1, 1), (2, 1)]);
    let large = 0x8000_0001;
    bytes[TOP_BYTE_OF_1] = 0x80;
    for (form, start) in [(1, (1, large)), (2, (0, 0))] {
        bytes[0] = form;
        let log = Log::new(&bytes).unwrap();
        assert_eq!(starts(&log), [(1, 1), start, (2, 1)]);
        assert_eq!(
            [0, 1, large].map(|t| log.covers(t)),
            [true, false, false].map(Ok)
        );
        assert_eq!(log.packed().unwrap(), bytes);
    }
}

#[test]
fn a_replay_by_steps() {
    let mut replay = Replay::new(&tube(), &tube_plan()).unwrap();
    assert_eq!(replay.positions(), [1, 1, 0]);
    assert_eq!(replay.step(0), Ok(Step::Waits));
    assert_eq!(replay.step(64), Err(Refusal::Worker));
    for worker in [2, 2, 1, 1, 0] {
        assert!(!replay.is_finished());
        assert_eq!(replay.step(worker), Ok(Step::Done));
    }
    assert!(replay.is_finished());
    assert_eq!(replay.step(1), Ok(Step::AtCut));
    assert_eq!(replay.positions(), [2, 3, 2]);
}

#[test]
fn a_replay_that_advances() {
    let mut replay = Replay::new(&tube(), &tube_plan()).unwrap();
    let mut positions = replay.positions().to_vec();
    let mut steps = 0;
    while let Advance::Stepped(worker) = replay.advance().unwrap() {
        positions[worker as usize] += 1;
        assert_eq!(replay.positions(), positions);
        steps += 1;
    }
    assert_eq!(steps, tube_plan().totals.events);
    assert!(replay.is_finished());
    assert_eq!(replay.advance(), Ok(Advance::Finished));
    assert_eq!(replay.positions(), [2, 3, 2]);
}

#[test]
fn a_replay_of_a_list() {
    let mut replay = Replay::new(&tube(), &tube_plan()).unwrap();
    assert_eq!(
        replay.run(&[0, 2, 2, 9, 1, 1, 0, 0]),
        Ok(vec![
            Ok(Step::Waits),
            Ok(Step::Done),
            Ok(Step::Done),
            Err(Refusal::Worker),
            Ok(Step::Done),
            Ok(Step::Done),
            Ok(Step::Done),
            Ok(Step::AtCut),
        ])
    );
    assert!(replay.is_finished());
    assert_eq!(replay.run(&[]), Ok(vec![]));
}

#[test]
fn a_replay_from_other_starts() {
    let mut plan = tube_plan();
    plan.workers[2].start = 2;
    let mut replay = Replay::new(&tube(), &plan).unwrap();
    assert_eq!(replay.step(1), Ok(Step::Lost));
    assert_eq!(replay.advance(), Ok(Advance::Stuck));
    assert_eq!(replay.positions(), [1, 1, 2]);
}

#[test]
fn plans_that_are_not_the_logs() {
    let refusal = |plan: &Plan| Replay::new(&tube(), plan).unwrap_err();
    let mut plan = tube_plan();
    plan.workers[2].start = 3;
    assert_eq!(refusal(&plan), Refusal::Cut);
    plan.workers[2].cut = 4;
    assert_eq!(refusal(&plan), Refusal::Cut);
    plan.workers.pop();
    assert_eq!(refusal(&plan), Refusal::Words);

    let mut plan = tube_plan();
    plan.workers.push(plan.workers[0]);
    let replay = Replay::new(&tube(), &plan).unwrap();
    assert_eq!(replay.positions(), [1, 1, 0]);
}

#[test]
fn a_plan_and_a_list_of_its_steps() {
    let restore = |list: &[u32]| {
        let restored = tube().restore_and_replay(AT, list, &UnitTable::default());
        restored.unwrap()
    };
    let restored = restore(&[0, 2, 2, u32::MAX, 1, 1]);
    assert_eq!(restored.plan, tube_plan());
    let steps: Vec<_> = restored
        .steps
        .iter()
        .map(|step| (step.answer, step.positions.as_slice()))
        .collect();
    assert_eq!(
        steps,
        [
            (Ok(Step::Waits), &[1, 1, 0][..]),
            (Ok(Step::Done), &[1, 1, 1]),
            (Ok(Step::Done), &[1, 1, 2]),
            (Err(Refusal::Worker), &[1, 1, 2]),
            (Ok(Step::Done), &[1, 2, 2]),
            (Ok(Step::Done), &[1, 3, 2]),
        ]
    );
    assert_eq!(restored.positions, [1, 3, 2]);
    assert!(!restored.is_finished());

    let whole = restore(&[2, 2, 1, 1, 0, 0]);
    assert!(whole.is_finished());
    let answers = whole.steps.iter().map(|step| step.answer);
    let done = answers.filter(|&answer| answer == Ok(Step::Done)).count();
    assert_eq!(done as u64, whole.plan.totals.events);

    let none = restore(&[]);
    assert_eq!((none.plan, none.steps), (tube_plan(), vec![]));
    assert_eq!(none.positions, [1, 1, 0]);
}
