//! The library's `Log`, with its packed log and its interval log, `Replay` and `UnitTable` against the reference on seeded logs and tables.

use evidence::compare::{loaded_table, table};
use evidence::description::{interval_length, packed_length};
use evidence::failure::{number, words, Call, Meaning};
use evidence::random::Random;
use evidence::runs::any_log;
use evidence::sides::REFERENCE;
use restore_planner::{Advance, Breakpoint, Log, Plan, Refusal, Replay, Step, UnitTable};

/// The number of an answer.
fn answer_number(answer: Result<Step, Refusal>) -> u32 {
    answer.map_or_else(Refusal::number, Step::number)
}

#[test]
fn plans_and_replays_of_any_event() {
    let mut advanced = 0;
    for round in 0..2_000 {
        let mut random = Random::round(500, round);
        let bytes = any_log(&mut random, 8, 60);
        let accepted = reference::accept(&bytes).expect("an accepted log");
        let worker = random.below(accepted.size()) as u32;
        let count = accepted.workers[worker as usize].count();
        if count > 0 {
            let event = random.within(1, count as usize) as u32;
            // One of the numbers is no worker's.
            let list: Vec<u32> = (0..random.below(20))
                .map(|_| random.below(accepted.size() + 1) as u32)
                .collect();
            let table = loaded_table(&mut random);
            let at = Breakpoint { worker, event };
            advanced += one_event(&random, &bytes, at, &table, &list);
        }
    }
    assert!(advanced > 1_000, "few advances: {advanced}");
}

/// The words of a plan.
fn plan_words(plan: &Plan) -> Vec<u32> {
    let entries = plan.workers.iter();
    entries
        .flat_map(|entry| [entry.cut, entry.start, entry.identifier])
        .collect()
}

/// The visits, events and units of a plan.
fn plan_totals(plan: &Plan) -> [u64; 3] {
    let totals = plan.totals;
    [totals.visits, totals.events, totals.units]
}

/// The name of a total of a plan.
fn total(index: usize) -> String {
    Meaning::Named(&["visits", "events", "units"]).word("totals", index)
}

/// Compares the plan of an event, its replay by a list, and from there by advances to its end. The number of advances is returned.
fn one_event(random: &Random, bytes: &[u8], at: Breakpoint, table: &[u32], list: &[u32]) -> u64 {
    let arguments = [("worker", at.worker.into()), ("event", at.event.into())];
    let call = |name| Call {
        name,
        random,
        log: bytes,
        arguments: &arguments,
    };
    let planned = REFERENCE.planned(bytes, (at.worker, at.event), table);
    let (planned, totals) = planned.expect("a plan");
    let cut: Vec<u32> = planned.chunks(3).map(|entry| entry[0]).collect();
    let mut positions: Vec<u32> = planned.chunks(3).map(|entry| entry[1]).collect();

    let log = call("Log::new").accepted(Log::new(bytes));
    let size = cut.len() as u32;
    call("Log::worker_count").same([number("count", log.worker_count() as u32, size)]);
    let table = call("UnitTable::load").accepted(UnitTable::load(table));
    let plan = call("Log::plan").accepted(log.plan(at, &table));
    let name = |index| Meaning::Plan.word("plan", index);
    call("Log::plan").same([
        words(name, &plan_words(&plan), &planned),
        words(total, &plan_totals(&plan), &totals[..3]),
    ]);
    let replay = call("Log::restore_and_replay");
    let restored = replay.accepted(log.restore_and_replay(at, list, &table));
    replay.holds(restored.plan == plan, || format!("{:?}", restored.plan));
    let lower = call("Log::lower_cut").accepted(log.lower_cut(at));
    let name = |w| format!("cut[{w}]");
    call("Log::lower_cut").same([words(name, &lower.cut, &cut)]);
    for w in 0..=size {
        let within = cut.get(w as usize).is_some_and(|&c| c > 0).into();
        let name = format!("has_worker({w})");
        call("Log::lower_cut").same([number(&name, lower.has_worker(w).into(), within)]);
        call("Log::plan").same([number(&name, plan.totals.has_worker(w).into(), within)]);
    }

    let mut replay = call("Replay::new").accepted(Replay::new(&log, &plan));
    let answers = call("Replay::run").accepted(replay.run(list));
    let answers: Vec<u32> = answers.into_iter().map(answer_number).collect();
    let mut expected = vec![0; list.len()];
    reference::steps(bytes, &planned, &mut positions, list, &mut expected);
    let position = |w| format!("positions[{w}]");
    call("Replay::run").same([
        words(|j| format!("answers[{j}]"), &answers, &expected),
        words(position, replay.positions(), &positions),
    ]);

    let done = answers.iter().filter(|&&answer| answer == 0).count() as u64;
    let mut advanced = 0;
    let advance = call("Replay::advance");
    let end = loop {
        match advance.accepted(replay.advance()) {
            Advance::Stepped(worker) => positions[worker as usize] += 1,
            end => break end,
        }
        advanced += 1;
        advance.same([words(position, replay.positions(), &positions)]);
    };
    advance.holds(end == Advance::Finished, || format!("it ended {end:?}"));
    advance.same([words(position, replay.positions(), &cut)]);
    advance.holds(done + advanced == plan.totals.events, || {
        let events = plan.totals.events;
        format!("{done} steps of the list and {advanced} advances for {events} events")
    });
    advanced
}

#[test]
fn unit_tables() {
    let mut loaded = [0; 2];
    for round in 0..5_000 {
        let random = &mut Random::round(1_700, round);
        let words = table(random);
        let table = UnitTable::load(&words);
        assert_eq!(UnitTable::try_from(&words[..]), table, "{random}");
        let found = table.as_ref().map(|table| &table.words()[..]);
        let expected = match reference::load_table(&words) {
            0 => Ok(&words[..]),
            _ => Err(&Refusal::UnitTable),
        };
        assert_eq!(found, expected, "{random}");
        loaded[usize::from(found.is_ok())] += 1;
    }
    assert!(loaded.iter().all(|&times| times > 500), "{loaded:?}");
    assert_eq!(UnitTable::default().words(), &reference::BUILT_IN);
}

#[test]
fn packed_logs() {
    for round in 0..1_000 {
        let random = &mut Random::round(700, round);
        let bytes = any_log(random, 8, 60);
        let accepted = reference::accept(&bytes).expect("an accepted log");
        let length = packed_length(&accepted);
        let (mut expected, mut written) = (vec![0; length], [0]);
        reference::pack(&bytes, &mut expected, &mut written);
        let call = |name| Call {
            name,
            random,
            log: &bytes,
            arguments: &[],
        };
        let log = call("Log::new").accepted(Log::new(&bytes));
        let packed = call("Log::packed").accepted(log.packed());
        let same = |name, found: &[u8]| {
            call(name).holds(found == expected, || "other bytes are packed".to_string());
        };
        same("Log::packed", &packed);
        let mut out = vec![7; length + 9];
        let found = call("Log::pack").accepted(log.pack(&mut out));
        call("Log::pack").same([number("length", found as u32, written[0] as u32)]);
        same("Log::pack", &out[..found]);
        call("Log::pack").holds(out[length..] == [7; 9], || "a byte behind".to_string());
        let short = log.pack(&mut out[..length - 1]);
        call("Log::pack").holds(short == Err(Refusal::OutBytes), || format!("{short:?}"));
    }
}

#[test]
fn interval_logs() {
    let mut numbers = [0; 2];
    for round in 0..2_000 {
        let random = &mut Random::round(2_100, round);
        let bytes = any_log(random, 8, 30);
        let accepted = reference::accept(&bytes).expect("an accepted log");
        let length = interval_length(&accepted);
        let (mut expected, mut written) = (vec![0; length], [0]);
        let refusal = reference::intervals(&bytes, &mut expected, &mut written);
        let call = |name| Call {
            name,
            random,
            log: &bytes,
            arguments: &[],
        };
        let log = call("Log::new").accepted(Log::new(&bytes));
        let converted = log.interval_log();
        let mut out = vec![7; length + 9];
        let found = log.intervals(&mut out);
        let is_as_expected = match refusal {
            0 => {
                let short = log.intervals(&mut vec![7; length - 1]);
                expected.extend([7; 9]);
                found == Ok(length)
                    && out == expected
                    && converted.as_deref() == Ok(&expected[..length])
                    && short == Err(Refusal::OutBytes)
            }
            _ => {
                let refused = Refusal::check(refusal).unwrap_err();
                found == Err(refused)
                    && out == vec![7; length + 9]
                    && converted == Err(refused)
                    && log.intervals(&mut []) == Err(refused)
                    && refused == Refusal::Interval
            }
        };
        call("Log::intervals").holds(is_as_expected, || format!("{found:?}, not {refusal}"));
        numbers[usize::from(refusal != 0)] += 1;
    }
    assert!(numbers.iter().all(|&times| times > 500), "{numbers:?}");
}
