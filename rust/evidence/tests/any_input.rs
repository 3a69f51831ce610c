//! The exported functions against the reference on seeded inputs of both forms: valid logs, logs with repeats, damaged logs, bytes that
//! are no log.

use evidence::compare::{every_call, is_refused_by, Seen};
use evidence::damage::{damaged, garbage};
use evidence::description::{set_form, MAX_WORKERS};
use evidence::random::Random;
use evidence::runs::{any_log, any_repeating_log};

/// The numbers that calls with a worker, an event and enough words or fewer can return.
const ARGUMENTS: [u32; 4] = [0, 12, 13, 14];
/// The numbers of plans with enough scratch or less, and with any unit table.
const PLANS: [u32; 2] = [15, 27];
/// The numbers of the calls on unit tables.
const TABLES: [u32; 3] = [0, 14, 27];
/// The numbers of a packing with enough bytes and words or fewer.
const PACKINGS: [u32; 3] = [0, 14, 25];
/// The numbers of a conversion to an interval log with enough bytes and words or fewer.
const CONVERSIONS: [u32; 4] = [0, 14, 25, 28];
/// The numbers of states, edited ones too.
const STATES: [u32; 4] = [16, 21, 22, 23];

#[test]
fn small_valid_logs() {
    let mut seen = Seen::default();
    let mut forms = [0; 3];
    for round in 0..12_000 {
        let mut random = Random::round(100, round);
        let log = any_log(&mut random, 6, 60);
        forms[usize::from(log[0])] += 1;
        is_refused_by(&random, &log, 0);
        every_call(&mut random, &log, &mut seen);
    }
    assert!(forms[1] > 3_000 && forms[2] > 3_000, "{forms:?}");
    seen.has(ARGUMENTS);
    seen.has(STATES);
    seen.has(PLANS);
    seen.has_replayed(ARGUMENTS);
    seen.has_replayed(PLANS);
    seen.has_packed(PACKINGS);
    seen.has_converted(CONVERSIONS);
    seen.has_tables(TABLES);
    seen.has_sets(1_000);
}

#[test]
fn larger_valid_logs() {
    let mut seen = Seen::default();
    for round in 0..1_500 {
        let mut random = Random::round(200, round);
        let log = any_log(&mut random, MAX_WORKERS, 2_500);
        is_refused_by(&random, &log, 0);
        every_call(&mut random, &log, &mut seen);
    }
    seen.has(ARGUMENTS);
    seen.has(STATES);
    seen.has(PLANS);
    seen.has_replayed(ARGUMENTS);
    seen.has_replayed(PLANS);
    seen.has_packed(PACKINGS);
    seen.has_converted(CONVERSIONS);
    seen.has_sets(20);
}

/// The numbers of a log as the header has its form: in form 2 only 24, in form 1 none.
#[test]
fn logs_of_form_2_with_repeats() {
    for (seed, rounds, workers, events) in [(500, 6_000, 6, 60), (600, 400, MAX_WORKERS, 2_500)] {
        let mut seen = Seen::default();
        for round in 0..rounds {
            let mut random = Random::round(seed, round);
            let mut log = any_repeating_log(&mut random, workers, events);
            is_refused_by(&random, &log, 24);
            every_call(&mut random, &log, &mut seen);
            set_form(&mut log, 1);
            is_refused_by(&random, &log, 0);
            every_call(&mut random, &log, &mut seen);
        }
        seen.has(ARGUMENTS);
        seen.has(STATES);
        seen.has([24]);
        seen.has(PLANS);
        seen.has_replayed(ARGUMENTS);
        seen.has_replayed(PLANS);
        seen.has_packed(PACKINGS);
        seen.has_converted(CONVERSIONS);
    }
}

#[test]
fn damaged_logs() {
    let mut seen = Seen::default();
    for round in 0..12_000 {
        let mut random = Random::round(300, round);
        let workers = random.pick(&[2, 3, 5, 64]);
        let events = if round % 20 == 0 { 1_000 } else { 40 };
        let log = any_log(&mut random, workers, events);
        for _ in 0..4 {
            let log = damaged(&log, &mut random);
            every_call(&mut random, &log, &mut seen);
        }
    }
    seen.has(0..=11);
    seen.has([24]);
    seen.has_replayed(ARGUMENTS);
    seen.has_replayed(PLANS);
    seen.has_packed(PACKINGS);
    seen.has_converted(CONVERSIONS);
}

#[test]
fn bytes_that_are_no_log() {
    let mut seen = Seen::default();
    for round in 0..40_000 {
        let mut random = Random::round(400, round);
        let log = garbage(&mut random);
        every_call(&mut random, &log, &mut seen);
    }
    seen.has(0..=7);
}
