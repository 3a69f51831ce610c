//! The exported functions against the reference at the limits of document 01: workers, events, checkpoints, bytes; repeats there,
//! which form 2 does not allow; and the longest packed logs.

use evidence::compare::{
    every_call, is_refused_by, loaded_table, lower_cut, pack_gives, packed, plan,
    restore_and_replay, step, steps, upper_line, vector, Lengths, Replayed, Room, Seen, State,
};
use evidence::description::{
    get, put, scratch, scratch_words, worker_count, Description, Event, Worker, MAX_EVENTS,
    MAX_LOG, MAX_WORKERS,
};
use evidence::failure::Call;
use evidence::random::Random;
use evidence::runs::{
    chain, counts_of_length, deep, different_sends, hub, ring, run, shared_sections, shared_sends,
    shuffled, two_level_hub, widest, Shape,
};

/// The most events that the steps of a list together test in a call of `restore_and_replay`: each tests the whole log.
const MOST_EVENTS: usize = 8_000_000;

/// The last of the most workers.
const LAST: usize = MAX_WORKERS - 1;

/// Compares the refusal of a log that no seed made with the number that it has to have.
fn is_refused(log: &[u8], number: u32) {
    is_refused_by(&Random::new(0), log, number);
}

/// Compares every call on a log a few times.
fn often(log: &[u8], seed: u64, times: u64) {
    for round in 0..times {
        every_call(&mut Random::round(seed, round), log, &mut Seen::default());
    }
}

/// The events of all workers, those that share bytes too.
fn events(log: &[u8]) -> usize {
    let counts = (0..worker_count(log)).map(|w| get(log, 8 + 20 * w) as usize);
    counts.sum()
}

/// Compares the calls at events of a worker, and the replays of the plans there. The events are the rounds.
fn at_events(log: &[u8], worker: u32, events: &[u32]) {
    for &event in events {
        let mut random = Random::round(u64::from(worker) + 1, event.into());
        at_event(&mut random, log, worker, event, 0);
    }
}

/// Compares the calls that are given an event, where all return this number. Where the event is the worker's, its plan's first steps
/// and the replay of the whole plan as one list are compared; `restore_and_replay` is given as much of the list as is quick, and a
/// number that is no worker's. The plans are given any unit table that loads.
fn at_event(random: &mut Random, log: &[u8], worker: u32, event: u32, number: u32) {
    let n = worker_count(log);
    let lengths = Lengths {
        words: 3 * n,
        scratch: scratch_words(n),
        totals: 4,
    };
    let returned = |random: &Random, name, found| {
        let call = Call {
            name,
            random,
            log,
            arguments: &[("worker", worker.into()), ("event", event.into())],
        };
        call.returned(found, number);
    };
    let found = vector(random, log, worker, event, n);
    returned(random, "vector", found);
    let found = lower_cut(random, log, worker, event, lengths);
    returned(random, "lower_cut", found);
    let table = loaded_table(random);
    let found = plan(random, log, worker, event, &table, lengths);
    returned(random, "plan", found);
    let found = upper_line(random, log, worker, event, n);
    returned(random, "upper_line", found);

    let mut list = vec![worker; 2];
    let mut is_whole = false;
    if let Some(state) = State::planned(log, worker, event) {
        let State { plan, positions } = &state;
        for w in 0..n.min(3) as u32 {
            step(random, log, plan, positions, w);
        }
        let accepted = reference::accept(log).expect("an accepted log");
        list = state.replay(&accepted).expect("the plan works");
        let found = steps(random, log, plan, positions, &list, list.len());
        returned(random, "steps", found);
        let length = list.len();
        list.truncate(MOST_EVENTS / events(log));
        is_whole = list.len() == length;
        list.insert(list.len() / 2, n as u32);
    }
    let room = Room::needed(n, list.len());
    let replayed = restore_and_replay(random, log, worker, event, &list, &table, room);
    returned(random, "restore_and_replay", replayed.number());
    if let Replayed::Steps(counted) = replayed {
        assert!(
            counted.is_finished || !is_whole,
            "the whole list of {worker}/{event} left some worker before its cut, {random}"
        );
    }
}

#[test]
fn longest_log() {
    let mut random = Random::new(1);
    let description = widest(&mut random);
    let mut log = description.pack();
    assert!(log.len() > MAX_LOG - 60_000 && log.len() <= MAX_LOG);
    log.resize(MAX_LOG, 0xff);
    put(&mut log, 4, MAX_LOG as u32);
    is_refused_by(&random, &log, 0);
    often(&log, 2, 3);
    let count = get(&log, 8);
    at_events(&log, 0, &[1, count / 2, count]);

    log.push(0xff);
    put(&mut log, 4, MAX_LOG as u32 + 1);
    is_refused_by(&random, &log, 1);
    often(&log, 3, 1);
}

#[test]
fn faults_in_the_last_records_of_a_long_log() {
    let mut random = Random::new(4);
    let description = run(&Shape::long(MAX_WORKERS, 300_000), &mut random);
    let last = description.workers.len() - 1;
    let with = |edit: &dyn Fn(&mut Worker)| {
        let mut description = description.clone();
        edit(&mut description.workers[last]);
        description.pack()
    };
    let count = description.workers[last].events.len();
    let stamp = description.workers[last].events[count - 2].stamp;
    for (log, number) in [
        (with(&|w| w.events[count - 1].kind = 4), 7),
        (with(&|w| w.events[count - 1].stamp = stamp), 8),
        (
            with(&|w| {
                // Event 2 of worker 0, or event 1, whichever is no send to this worker.
                let send = (1..3)
                    .find(|&k| {
                        let event = description.workers[0].events[k as usize - 1];
                        event.kind != 1 || usize::from(event.peer) != last
                    })
                    .expect("no two sends to the last worker");
                w.events[count - 1] = Event::receive(2, 0, send, u32::MAX);
            }),
            9,
        ),
        (
            with(&|w| w.checkpoints.push((count as u32 + 1, u32::MAX))),
            11,
        ),
    ] {
        is_refused_by(&random, &log, number);
        often(&log, 5, 1);
    }
}

#[test]
fn most_events_in_a_worker() {
    let mut sender = Worker::default();
    let mut receiver = Worker::default();
    for k in 1..=65_535 {
        sender.events.push(Event::send(1, k));
        let kind = if k % 5 == 0 { 3 } else { 2 };
        receiver.events.push(Event::receive(kind, 0, k, k + 1));
    }
    sender.checkpoints = vec![(60_000, 1), (65_535, 2)];
    receiver.checkpoints = vec![(0, 1), (50_000, 2), (65_534, 3), (65_535, 4)];
    let mut description = Description {
        workers: vec![sender, receiver],
    };
    let log = description.pack();
    is_refused(&log, 0);
    often(&log, 6, 10);
    at_events(&log, 0, &[1, 2, 65_534, 65_535]);
    at_events(&log, 1, &[1, 2, 50_001, 65_534, 65_535]);
    for (worker, event) in [(0, 0), (0, 65_536), (1, 0), (1, 65_536)] {
        at_event(
            &mut Random::round(10, event.into()),
            &log,
            worker,
            event,
            13,
        );
    }

    description.workers[0].events.push(Event::send(1, 70_000));
    let log = description.pack();
    is_refused(&log, 5);
    often(&log, 7, 1);
}

#[test]
fn most_workers() {
    let mut random = Random::new(8);
    for (workers, number) in [
        (1, 0),
        (2, 0),
        (LAST, 0),
        (MAX_WORKERS, 0),
        (MAX_WORKERS + 1, 3),
        (255, 3),
    ] {
        let log = run(&Shape::long(workers, 3_000), &mut random).pack();
        is_refused_by(&random, &log, number);
        often(&log, 9, 20);
    }
    for workers in [0_u16, 320, 65_535] {
        let mut log = run(&Shape::long(MAX_WORKERS, 3_000), &mut random).pack();
        log[2..4].copy_from_slice(&workers.to_le_bytes());
        is_refused_by(&random, &log, 3);
    }
}

#[test]
fn most_checkpoints() {
    let mut random = Random::new(10);
    let mut description = run(&Shape::long(MAX_WORKERS, 200_000), &mut random);
    for worker in &mut description.workers {
        let count = worker.events.len() as u32;
        worker.checkpoints = (0..1_024).map(|k| (count * k / 1_023, k + 1)).collect();
    }
    let log = description.pack();
    is_refused_by(&random, &log, 0);
    often(&log, 11, 3);
    let count = description.workers[LAST].events.len() as u32;
    at_events(&log, LAST as u32, &[1, count / 2, count]);

    description.workers[LAST].checkpoints.push((count, 1_025));
    is_refused_by(&random, &description.pack(), 5);
}

#[test]
fn many_visits() {
    for levels in [1, 5, 16] {
        let description = deep(MAX_WORKERS, levels);
        let log = description.pack();
        is_refused(&log, 0);
        let (mut words, mut scratch, mut totals) = ([0; MAX_WORKERS], scratch(&log), [0; 2]);
        let number =
            reference::lower_cut(&log, LAST as u32, 1, &mut words, &mut scratch, &mut totals);
        assert_eq!(
            (number, totals[0]),
            (0, (1 << levels) + (LAST - levels) as u64)
        );
        at_events(&log, LAST as u32, &[1]);
        often(&log, 12, 3);
    }
}

#[test]
fn one_worker_that_hears_from_all() {
    let log = hub(MAX_WORKERS, 65_535).pack();
    is_refused(&log, 0);
    at_events(&log, 0, &[1, 64, 30_000, 65_535]);
    often(&log, 13, 2);
}

#[test]
fn one_message_that_goes_round() {
    let log = ring(MAX_WORKERS, 200_000).pack();
    is_refused(&log, 0);
    at_events(&log, 0, &[1]);
    let count = get(&log, 28);
    at_events(&log, 1, &[1, count / 2, count]);
    often(&log, 15, 2);
}

#[test]
fn shortest_logs() {
    for length in 0..=28 {
        for (form, n) in [1, 2].into_iter().flat_map(|f| [(f, 0), (f, 1), (f, 2)]) {
            let mut log = vec![0; length];
            if length >= 8 {
                log[0] = form;
                log[2] = n;
                put(&mut log, 4, length as u32);
            }
            if length == 28 {
                put(&mut log, 12, 28);
                put(&mut log, 20, 28);
            }
            let number = match (length, n) {
                (0..8, _) => 1,
                (_, 0) => 3,
                (28, 1) => 0,
                _ => 4,
            };
            is_refused(&log, number);
            often(&log, 14, 3);
        }
    }
}

/// Compares the refusal of a log in both forms, given how many receives repeat another one.
fn is_refused_in_form_2(description: &Description, repeats: usize) {
    assert_eq!(description.repeats(), repeats);
    is_refused(&description.pack(), 0);
    is_refused(&description.pack_as(2), if repeats > 0 { 24 } else { 0 });
}

#[test]
fn logs_of_form_2_whose_receives_rise() {
    for description in [
        run(&Shape::in_order(MAX_WORKERS, 320_000), &mut Random::new(20)),
        deep(MAX_WORKERS, 16),
        hub(MAX_WORKERS, 65_535),
        two_level_hub(MAX_WORKERS, 7, 240_000),
        chain(MAX_WORKERS, 16, 300_000),
        ring(MAX_WORKERS, 300_000),
    ] {
        is_refused_in_form_2(&description, 0);
        let log = description.pack_as(2);
        often(&log, 21, 1);
        at_events(&log, 0, &[1, get(&log, 8)]);
    }
}

/// The first and the last of 65,535 events receive one send. Between them are receives that rise, receives that fall, or sends.
#[test]
fn two_receives_as_far_apart_as_can_be() {
    let sends: Vec<Event> = (1..=65_535).map(|stamp| Event::send(1, stamp)).collect();
    let rising = |k| Event::receive(2, 0, k, 65_535 + k);
    let falling = |k| Event::receive(3, 0, 65_536 - k, 65_535 + k);
    let alone = |k| match k {
        1 => Event::receive(3, 0, 40_000, 65_536),
        65_535 => Event::receive(2, 0, 20_000, u32::MAX),
        _ => Event::send(0, 65_535 + k),
    };
    let between: [&dyn Fn(u32) -> Event; 3] = [&rising, &falling, &alone];
    for (seed, event) in (22..).zip(between) {
        let worker = |events| Worker {
            events,
            ..Worker::default()
        };
        let mut description = Description {
            workers: vec![
                worker(sends.clone()),
                worker((1..=65_535).map(event).collect()),
            ],
        };
        is_refused_in_form_2(&description, 0);
        often(&description.pack_as(2), seed, 1);
        // The last event, and events before it.
        for to in [65_534, 65_533, 40_000, 1] {
            let before = description.workers[1].events[to];
            description.repeat(1, 0, to);
            is_refused_in_form_2(&description, 1);
            often(&description.pack_as(2), seed, 1);
            description.workers[1].events[to] = before;
        }
    }
}

/// Places of two receives among those of a worker: first and second, first and last, the last two, and two in the middle.
fn pairs(receives: &[usize]) -> [(usize, usize); 4] {
    let [.., before, last] = receives else {
        panic!("too few receives")
    };
    let middle = receives.len() / 2;
    [
        (receives[0], receives[1]),
        (receives[0], *last),
        (*before, *last),
        (receives[middle / 2], receives[middle]),
    ]
}

/// Compares the refusals of a log of the most workers, in form 2 too, without a repeat and with one in the first worker, one in the
/// middle and the last.
fn with_one_repeat(description: &Description) {
    is_refused_in_form_2(description, 0);
    for worker in [0, 31, LAST] {
        for (from, to) in pairs(&description.receives(worker)) {
            let mut description = description.clone();
            description.repeat(worker, from, to);
            is_refused_in_form_2(&description, 1);
        }
    }
}

#[test]
fn long_logs_with_receives_in_any_order() {
    let mut random = Random::new(23);
    for mut description in [
        run(&Shape::any_order(MAX_WORKERS, 319_999), &mut random),
        shuffled(MAX_WORKERS, 319_999, &mut random),
    ] {
        with_one_repeat(&description);
        let receives = description.receives(LAST);
        let last = &mut description.workers[LAST].events;
        last.push(Event::send(0, u32::MAX));
        let event = last.len() as u32;
        is_refused_in_form_2(&description, 0);
        let mut log = description.pack_as(2);
        log.resize(MAX_LOG, 0xff);
        put(&mut log, 4, MAX_LOG as u32);
        is_refused(&log, 0);
        often(&log, 24, 2);
        at_events(&log, LAST as u32, &[1, event]);
        // The log's last event receives what the worker's first receive does.
        description.repeat(LAST, receives[0], event as usize - 1);
        is_refused_in_form_2(&description, 1);
        let log = description.pack_as(2);
        often(&log, 25, 2);
        at_event(&mut random, &log, LAST as u32, event, 24);
        at_event(&mut random, &log, MAX_WORKERS as u32, 0, 24);
    }
}

/// Receives that are not in the order of the sends, in logs of as many events as a power of two, one fewer and one more.
#[test]
fn receives_in_any_order_around_powers_of_two() {
    for power in 4..18 {
        for events in [(1 << power) - 1, 1 << power, (1 << power) + 1] {
            for workers in [2, 3, 9, MAX_WORKERS] {
                let mut random = Random::round(26, (events * 100 + workers) as u64);
                if events / workers < 60_000 {
                    around(&run(&Shape::any_order(workers, events), &mut random));
                    around(&shuffled(workers, events, &mut random));
                }
            }
        }
    }
}

/// Compares the refusals of a log without a repeat and with one in the first and the last worker that have two receives.
fn around(description: &Description) {
    is_refused_in_form_2(description, 0);
    let mut workers = (0..description.workers.len()).filter(|&w| description.receives(w).len() > 1);
    for worker in [workers.next(), workers.next_back()].into_iter().flatten() {
        let receives = description.receives(worker);
        for (from, to) in [pairs(&receives)[1], pairs(&receives)[2]] {
            let mut description = description.clone();
            description.repeat(worker, from, to);
            is_refused_in_form_2(&description, 1);
        }
    }
}

/// Compares the refusals of logs in which one worker receives from all others, whose 65,535 sends share bytes: without a repeat, but
/// with two sends of the first or the last sender in the other order; and with one repeat of each of these sends, given as the place of
/// the sender among the senders and its event. The last log of each kind is returned.
fn senders_that_share_bytes(
    workers: usize,
    receiver: usize,
    receives: usize,
    repeated: &[(usize, u32)],
) -> (Vec<u8>, Vec<u8>) {
    let senders: Vec<usize> = (0..workers).filter(|&w| w != receiver).collect();
    let mut logs = (Vec::new(), Vec::new());
    for sender in [senders[0], senders[senders.len() - 1]] {
        let falling = [(sender, 65_535), (sender, 65_534)];
        let named = different_sends(&senders, &falling, receives);
        logs.0 = shared_sends(workers, receiver, &named);
        is_refused(&logs.0, 0);
    }
    for &(sender, send) in repeated {
        let repeated = (senders[sender], send);
        let mut named = different_sends(&senders, &[repeated], receives);
        named[receives - 1] = repeated;
        logs.1 = shared_sends(workers, receiver, &named);
        is_refused(&logs.1, 24);
    }
    logs
}

#[test]
fn more_than_four_million_events_that_share_bytes() {
    let repeated = [0, 31, 62].map(|sender| [1, 30_000, 65_535].map(|send| (sender, send)));
    for receiver in [0, LAST] {
        let (accepted, repeating) =
            senders_that_share_bytes(MAX_WORKERS, receiver, 65_535, repeated.as_flattened());
        assert_eq!(events(&accepted), 64 * 65_535);
        let at = |seed, log: &[u8], number| {
            at_event(&mut Random::new(seed), log, receiver as u32, 65_535, number);
        };
        at(27, &accepted, 0);
        at(28, &repeating, 24);
        packs_by(&accepted, &[((MAX_LOG, 1), 26), ((0, 0), 26)]);
        packs_by(&repeating, &[((MAX_LOG, 1), 24), ((0, 0), 24)]);
    }
}

/// The sends of these senders with the numbers 1, 1 + `step`, 1 + 2 × `step` and so on, the last ones first.
fn sends_by_steps(senders: &[usize], step: u32) -> Vec<(usize, u32)> {
    let numbers = (0..=(MAX_EVENTS - 1) / step).rev().map(|k| 1 + k * step);
    let sends = numbers.flat_map(|send| senders.iter().map(move |&sender| (sender, send)));
    sends.take(MAX_EVENTS as usize).collect()
}

/// Receives of sends that are as far from each other as any multiple of 8 or of 64, of one sender and of many: none is another's repeat.
#[test]
fn sends_at_like_places_of_senders_that_share_bytes() {
    for (every, step) in [(1, 64), (8, 8), (62, 2), (63, 1)] {
        for receiver in [0, LAST] {
            let others = (0..MAX_WORKERS).filter(|&w| w != receiver);
            let senders: Vec<usize> = others.step_by(every).collect();
            let mut sends = sends_by_steps(&senders, step);
            is_refused(&shared_sends(MAX_WORKERS, receiver, &sends), 0);
            let last = sends.len() - 1;
            for from in [0, last / 2, last - 1] {
                let before = sends[last];
                sends[last] = sends[from];
                is_refused(&shared_sends(MAX_WORKERS, receiver, &sends), 24);
                sends[last] = before;
            }
        }
    }
}

/// Logs of k × 65,536 events, 524,288 among them, and of a few more or fewer: k senders, whose sends share bytes, and one receiver.
#[test]
fn events_that_share_bytes_around_powers_of_two() {
    for senders in [1, 2, 4, 8, 16, 32] {
        let mut many = vec![senders.max(3) - 1, senders.max(2), senders + 1];
        if senders == 8 {
            many.extend((5..20).chain([64, 65, 72, 73]));
        }
        for receives in many {
            for receiver in [0, senders] {
                let last = senders - 1;
                let repeated = [(0, 65_535), (last, 1), (last, 65_535)];
                senders_that_share_bytes(senders + 1, receiver, receives, &repeated);
            }
        }
    }
}

/// Compares packings of a log, each with this many bytes and words lent, with the number that it has to have.
fn packs_by(log: &[u8], cases: &[((usize, usize), u32)]) {
    let mut random = Random::new(30);
    for &(lent, number) in cases {
        pack_gives(&mut random, log, lent, number);
    }
}

/// Compares packings of a log whose packed log has this many bytes, and the packed log with the log. Gives the packed log.
fn packs_to(log: &[u8], length: usize) -> Vec<u8> {
    packs_by(
        log,
        &[
            ((length, 1), 0),
            ((length, 3), 0),
            ((length, 0), 14),
            ((length + 9, 1), 0),
            ((length + 9, 0), 14),
            ((length - 1, 1), 25),
            ((length - 1, 0), 25),
            ((0, 2), 25),
            ((0, 0), 25),
        ],
    );
    let accepted = reference::accept(log).expect("an accepted log");
    let packed = packed(&mut Random::new(31), log, &accepted);
    assert_eq!(packed.len(), length);
    packed
}

#[test]
fn sections_that_share_bytes_make_the_longest_packed_log() {
    for workers in [6, 7, 33, MAX_WORKERS] {
        let counts = counts_of_length(workers, MAX_LOG);
        for form in [1, 2] {
            let log = shared_sections(form, &counts);
            is_refused(&log, 0);
            assert!(log.len() < MAX_LOG / 2);
            let packed = packs_to(&log, MAX_LOG);
            is_refused(&packed, 0);
            assert_eq!(packed[..2], form.to_le_bytes());
        }
    }
    let log = shared_sections(2, &counts_of_length(MAX_WORKERS, MAX_LOG));
    often(&log, 32, 1);
    at_events(&log, 0, &[1, get(&log, 8)]);
}

/// 26 comes after the numbers of the log, 24 too, and before 25 and 14.
#[test]
fn sections_that_share_bytes_make_a_packed_log_of_4_bytes_too_many() {
    let lent = [(0, 0), (0, 1), (MAX_LOG, 0), (MAX_LOG, 1), (MAX_LOG + 4, 1)];
    for workers in [6, 7, 33, MAX_WORKERS] {
        let counts = counts_of_length(workers, MAX_LOG + 4);
        for form in [1, 2] {
            let mut log = shared_sections(form, &counts);
            is_refused(&log, 0);
            packs_by(&log, &lent.map(|lent| (lent, 26)));
            // The last receive of worker 0 is of the send that its first one receives.
            let last = (get(&log, 12) + 12 * (counts[0].0 - 1)) as usize;
            put(&mut log, last + 4, 1);
            let number = if form == 1 { 26 } else { 24 };
            packs_by(&log, &lent.map(|lent| (lent, number)));
            // The first checkpoint has identifier 0.
            let first = get(&log, 20) as usize;
            put(&mut log, first + 4, 0);
            packs_by(&log, &lent.map(|lent| (lent, 11)));
        }
    }
    let log = shared_sections(1, &counts_of_length(MAX_WORKERS, MAX_LOG + 4));
    often(&log, 33, 2);
    at_events(&log, 0, &[1, get(&log, 8)]);
}

/// Packed logs of a few bytes more or less than the most, of any number of workers.
#[test]
fn packed_logs_around_the_most_bytes() {
    for round in 0..40 {
        let mut random = Random::round(34, round);
        let length = MAX_LOG - 12 + 4 * random.below(7);
        let counts = counts_of_length(random.within(6, MAX_WORKERS), length);
        let log = shared_sections(random.pick(&[1, 2]), &counts);
        let number = if length > MAX_LOG { 26 } else { 0 };
        packs_by(
            &log,
            &[((MAX_LOG, 1), number), ((length - 1, 1), number.max(25))],
        );
    }
}

#[test]
fn packed_logs_without_events_or_checkpoints() {
    let checkpoints: Vec<(u32, u32)> = (1..=1_024).map(|k| (0, k)).collect();
    for workers in [1, 2, LAST, MAX_WORKERS] {
        for form in [1, 2] {
            let mut description = Description {
                workers: vec![Worker::default(); workers],
            };
            let header = 8 + 20 * workers;
            let log = description.pack_as(form);
            assert_eq!(packs_to(&log, header), log);
            for (many, w) in [0, workers - 1].into_iter().enumerate() {
                description.workers[w].checkpoints = checkpoints.clone();
                let sections = if workers == 1 { 1 } else { many + 1 };
                let log = description.pack_as(form);
                assert_eq!(packs_to(&log, header + 8 * 1_024 * sections), log);
                let moved = description.lay_out(form, &mut Random::new(35));
                assert_eq!(packs_to(&moved, header + 8 * 1_024 * sections), log);
            }
        }
    }
    let log = run(&Shape::long(MAX_WORKERS, 3_000), &mut Random::new(36));
    let mut without = log.clone();
    for worker in &mut without.workers {
        worker.checkpoints.clear();
    }
    let log = without.pack();
    assert_eq!(packs_to(&log, 8 + 20 * MAX_WORKERS + 12 * 3_000), log);
}
