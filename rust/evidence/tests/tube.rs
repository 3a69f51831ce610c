//! The values of documents 01 and 02 for the tube log in both forms, of the reference and of the exported functions.

use evidence::compare::State;
use evidence::description::{set_form, Description, Event, Worker};
use evidence::intervals::Named;
use evidence::sides::{
    Arguments, Calls, Covers, CutTest, Line, LowerCut, Plan, RestoreAndReplay, Step, Steps, Write,
    EXPORTED, NAMES, REFERENCE,
};
use reference::BUILT_IN;

const TUBE: &[u8] = include_bytes!("../../restore-planner/examples/tube.log");

/// The plan of 0/2: cut, start, identifier of each worker.
const PLAN: [u32; 9] = [2, 1, 1, 3, 1, 1, 2, 0, 0];

/// The tube log in a form.
fn tube(form: u16) -> Vec<u8> {
    let mut log = TUBE.to_vec();
    set_form(&mut log, form);
    log
}

/// Receives of the tube log, worker and event: that of 2/2 and that of 1/1.
const RECEIVE_OF_2_2: (usize, usize) = (1, 2);
const RECEIVE_OF_1_1: (usize, usize) = (2, 3);

/// The tube log in a form with these receives of kind 3.
fn with_data_logged(form: u16, receives: &[(usize, usize)]) -> Vec<u8> {
    let mut description = Description::tube();
    for &(worker, event) in receives {
        let kind = &mut description.workers[worker].events[event - 1].kind;
        assert_eq!(*kind, 2);
        *kind = 3;
    }
    description.pack_as(form)
}

fn t1_to_t3(log: &[u8], vector: Line) {
    for (worker, event, expected) in [(0, 2, [2, 3, 1]), (1, 3, [0, 3, 2]), (2, 2, [0, 0, 2])] {
        let mut words = [9; 4];
        assert_eq!(vector(log, worker, event, &mut words), 0);
        assert_eq!(words[..3], expected);
        assert_eq!(words[3], 9);
    }
}

fn t4(log: &[u8], lower_cut: LowerCut) {
    let (mut words, mut totals) = ([9; 4], [9; 3]);
    assert_eq!(
        lower_cut(log, 0, 2, &mut words, &mut [0; 6], &mut totals),
        0
    );
    assert_eq!(words, [2, 3, 2, 9]);
    assert_eq!(totals, [3, 7, 9]);
}

fn t5(log: &[u8], upper_line: Line) {
    let mut words = [9; 4];
    assert_eq!(upper_line(log, 0, 2, &mut words), 0);
    assert_eq!(words, [2, 3, 3, 9]);
}

/// The plans by the built-in table, and by one of 12 different words. The replayed events are two sends of worker 2, of role 0, a send and
/// a receive of worker 1, of role 1, and a receive of worker 0, of role 3. With the data of worker 1's receive logged, those of worker 2
/// are not replayed.
fn t6_and_t7(form: u16, plan: Plan) {
    let rising: Vec<u32> = (101..=112).collect();
    for (table, units, logged_units) in [
        (&BUILT_IN[..], 15, 13),
        (&rising, 2 * 101 + 104 + 105 + 111, 104 + 106 + 111),
    ] {
        let (mut words, mut totals) = ([9; 10], [9; 5]);
        let mut call = |log: &[u8]| {
            let number = plan(log, 0, 2, table, &mut words, &mut [0; 6], &mut totals);
            (number, words, totals)
        };
        let (number, words, totals) = call(&tube(form));
        assert_eq!((number, &words[..9], words[9]), (0, &PLAN[..], 9));
        assert_eq!(totals, [3, 5, units, 7, 9]);

        let (number, words, totals) = call(&with_data_logged(form, &[RECEIVE_OF_2_2]));
        assert_eq!((number, words), (0, [2, 1, 1, 3, 1, 1, 2, 2, 1, 9]));
        assert_eq!(totals, [3, 3, logged_units, 7, 9]);
    }
}

fn t8(log: &[u8], cut_test: CutTest) {
    let mut yes = [9; 2];
    assert_eq!(cut_test(log, &[2, 3, 1], &mut yes), 0);
    assert_eq!(yes, [0, 9]);
    assert_eq!(cut_test(log, &[2, 3, 2], &mut yes), 0);
    assert_eq!(yes, [1, 9]);
}

fn t9(log: &[u8], step: Step) {
    let mut positions = [1, 1, 0];
    assert_eq!(step(log, &PLAN, &mut positions, 0), 22);
    assert_eq!(positions, [1, 1, 0]);
    // All workers at their latest checkpoints: worker 1 gets 23.
    let latest = [2, 1, 1, 3, 1, 1, 2, 2, 1];
    assert_eq!(step(log, &latest, &mut [1, 1, 2], 1), 23);
    // One order that brings every position to its cut, and the refusals on the way.
    let list = [
        (2, 0),
        (2, 0),
        (2, 21),
        (0, 22),
        (1, 0),
        (1, 0),
        (3, 12),
        (1, 21),
        (0, 0),
        (0, 21),
    ];
    for (worker, answer) in list {
        assert_eq!(step(log, &PLAN, &mut positions, worker), answer);
    }
    assert_eq!(positions, [2, 3, 2]);
}

fn list_of_steps(log: &[u8], steps: Steps) {
    let (mut positions, mut answers) = ([1, 1, 0, 9], [9; 11]);
    let workers = [2, 2, 2, 0, 1, 1, 3, 1, 0, 0];
    assert_eq!(steps(log, &PLAN, &mut positions, &workers, &mut answers), 0);
    assert_eq!(positions, [2, 3, 2, 9]);
    assert_eq!(answers, [0, 0, 21, 22, 0, 0, 12, 21, 0, 21, 9]);
    assert_eq!(steps(log, &PLAN, &mut positions, &[], &mut []), 0);
    assert_eq!(
        steps(log, &PLAN, &mut positions, &workers, &mut answers[..9]),
        14
    );
}

/// The plan of 0/2 with a list of steps that brings every position to its cut, and with the empty list.
fn plan_and_steps(log: &[u8], restore_and_replay: RestoreAndReplay) {
    let (mut words, mut positions, mut totals) = ([9; 10], [9; 4], [9; 5]);
    let mut steps = [9; 41];
    let mut call = |workers: &[u32], room: usize| {
        let number = restore_and_replay(
            log,
            0,
            2,
            workers,
            &BUILT_IN,
            &mut words,
            &mut [0; 6],
            &mut positions,
            &mut steps[..room],
            &mut totals,
        );
        (number, words, positions, totals, steps)
    };
    let workers = [2, 2, 2, 0, 1, 1, 3, 1, 0, 0];
    let unchanged = (14, [9; 10], [9; 4], [9; 5], [9; 41]);
    assert_eq!(call(&workers, 39), unchanged);

    let mut planned = [9; 10];
    planned[..9].copy_from_slice(&PLAN);
    let (number, words, positions, totals, steps) = call(&[], 0);
    assert_eq!((number, words), (0, planned));
    assert_eq!((positions, steps), ([1, 1, 0, 9], [9; 41]));
    assert_eq!(totals, [3, 5, 15, 7, 9]);

    let (number, words, positions, totals, steps) = call(&workers, 41);
    assert_eq!((number, words), (0, planned));
    assert_eq!(positions, [2, 3, 2, 9]);
    assert_eq!(totals, [3, 5, 15, 7, 9]);
    let (rows, rest) = steps.as_chunks::<4>();
    let expected = [
        [0, 1, 1, 1],
        [0, 1, 1, 2],
        [21, 1, 1, 2],
        [22, 1, 1, 2],
        [0, 1, 2, 2],
        [0, 1, 3, 2],
        [12, 1, 3, 2],
        [21, 1, 3, 2],
        [0, 2, 3, 2],
        [21, 2, 3, 2],
    ];
    assert_eq!((rows, rest), (&expected[..], &[9][..]));
}

/// Sends 2/2 and 1/1 are the last events before their senders' checkpoints 1, so set 1 covers only with the data of both logged.
fn t10(form: u16, covers: Covers) {
    let both = [RECEIVE_OF_2_2, RECEIVE_OF_1_1];
    for (logged, answers) in [
        (&[][..], [1, 0, 0]),
        (&both[..1], [1, 0, 0]),
        (&both[1..], [1, 0, 0]),
        (&both, [1, 1, 0]),
    ] {
        let log = with_data_logged(form, logged);
        for (identifier, answer) in (0..).zip(answers) {
            let mut yes = [9; 2];
            assert_eq!(covers(&log, identifier, &mut yes), 0);
            assert_eq!(yes, [answer, 9]);
        }
    }
}

/// The tube log is packed, in 212 bytes. 25 comes before 14.
fn packed(log: &[u8], pack: Write) {
    let (mut out, mut written) = ([9; 220], [9; 2]);
    assert_eq!(pack(log, &mut out[..211], &mut written), 25);
    assert_eq!(pack(log, &mut out[..211], &mut []), 25);
    assert_eq!(pack(log, &mut out[..212], &mut []), 14);
    assert_eq!((out, written), ([9; 220], [9; 2]));
    assert_eq!(pack(log, &mut out[..212], &mut written[..1]), 0);
    assert_eq!((&out[..212], &out[212..]), (log, &[9; 8][..]));
    assert_eq!(written, [212, 9]);

    let (mut out, mut written) = ([9; 220], [9; 2]);
    assert_eq!(pack(log, &mut out, &mut written), 0);
    assert_eq!((&out[..212], &out[212..]), (log, &[9; 8][..]));
    assert_eq!(written, [212, 9]);
}

/// The interval log of the tube log: of each worker its receives and its checkpoint, with the role of its entry.
fn tube_intervals() -> Vec<u8> {
    let worker = |role, events: &[Event], interval| Worker {
        role,
        events: events.to_vec(),
        checkpoints: vec![(interval, 1)],
    };
    let workers = vec![
        worker(
            3,
            &[Event::receive(2, 2, 0, 2), Event::receive(2, 1, 1, 5)],
            1,
        ),
        worker(
            1,
            &[Event::receive(2, 2, 0, 3), Event::receive(2, 0, 2, 7)],
            0,
        ),
        worker(0, &[Event::receive(2, 1, 0, 3)], 0),
    ];
    Description { workers }.pack_as(3)
}

/// The tube log in intervals has 152 bytes, the same for both forms. 25 comes before 14. Every call on a log refuses it by 2, with
/// arguments with which none refuses the tube log.
fn in_intervals(log: &[u8], calls: &Calls) {
    let intervals = calls.intervals;
    let expected = tube_intervals();
    assert_eq!(expected.len(), 152);
    let (mut out, mut written) = ([9; 160], [9; 2]);
    assert_eq!(intervals(log, &mut out[..151], &mut written), 25);
    assert_eq!(intervals(log, &mut out[..151], &mut []), 25);
    assert_eq!(intervals(log, &mut out[..152], &mut []), 14);
    assert_eq!((out, written), ([9; 160], [9; 2]));
    assert_eq!(intervals(log, &mut out[..152], &mut written[..1]), 0);
    assert_eq!((&out[..152], &out[152..]), (&expected[..], &[9; 8][..]));
    assert_eq!(written, [152, 9]);
    let accepted = reference::accept(log).expect("an accepted log");
    let state = State::planned(log, 2, 1).expect("a plan");
    let arguments = Arguments::new((2, 1), state, vec![2], &accepted);
    for name in NAMES.into_iter().filter(|name| !name.ends_with("table")) {
        assert_eq!(arguments.answer(name, calls, log)[0], 0, "{name}");
        assert_eq!(arguments.answer(name, calls, &expected)[0], 2, "{name}");
    }
}

/// The least closed cut of each interval of the tube log.
#[test]
fn cuts_of_the_tube_log_in_intervals() {
    let named = Named::of(&tube_intervals());
    assert_eq!(named.receives(), [2, 2, 1]);
    for (worker, interval, cut) in [
        (0, 0, [0, 0, 0]),
        (0, 1, [1, 0, 0]),
        (0, 2, [2, 1, 0]),
        (1, 0, [0, 0, 0]),
        (1, 1, [0, 1, 0]),
        (1, 2, [2, 2, 0]),
        (2, 0, [0, 0, 0]),
        (2, 1, [0, 0, 1]),
    ] {
        assert_eq!(named.least_closed(worker, interval), cut);
        assert!(named.is_closed(&cut));
    }
    assert!(!named.is_closed(&[2, 0, 0]));
    assert!(!named.is_closed(&[1, 2, 1]));
}

#[test]
fn the_stored_bytes_are_the_described_log() {
    assert_eq!(TUBE.len(), 212);
    assert_eq!(TUBE, Description::tube().pack());
}

/// The values, which are those of both forms.
fn values(calls: &Calls) {
    for form in [1, 2] {
        let log = &tube(form);
        assert_eq!((calls.log_refusal)(log), 0);
        let logged = with_data_logged(form, &[RECEIVE_OF_2_2]);
        assert_eq!((calls.log_refusal)(&logged), 0);
        t1_to_t3(log, calls.vector);
        t4(log, calls.lower_cut);
        t5(log, calls.upper_line);
        t6_and_t7(form, calls.plan);
        t8(log, calls.cut_test);
        t9(log, calls.step);
        t10(form, calls.covers);
        list_of_steps(log, calls.steps);
        plan_and_steps(log, calls.restore_and_replay);
        packed(log, calls.pack);
        in_intervals(log, calls);
    }
}

#[test]
fn reference_values() {
    values(&REFERENCE);
}

#[test]
fn exported_values() {
    values(&EXPORTED);
}

/// Refusal 2 and 24 by their text: each form, and in event 4 of worker 1 each send to it, the one that its event 2 receives too.
fn forms_and_repeats(calls: &Calls) {
    for form in 0..=u16::MAX {
        let number = if form == 1 || form == 2 { 0 } else { 2 };
        assert_eq!((calls.log_refusal)(&tube(form)), number, "form {form}");
    }
    let mut description = Description::tube();
    for (from, send, number) in [(0, 3, 0), (2, 2, 24)] {
        for kind in [2, 3] {
            description.workers[1].events[3] = Event::receive(kind, from, send, 7);
            assert_eq!((calls.log_refusal)(&description.pack_as(1)), 0);
            assert_eq!((calls.log_refusal)(&description.pack_as(2)), number);
        }
    }
}

#[test]
fn reference_forms() {
    forms_and_repeats(&REFERENCE);
}

#[test]
fn exported_forms() {
    forms_and_repeats(&EXPORTED);
}
