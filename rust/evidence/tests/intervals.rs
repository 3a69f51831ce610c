//! Interval logs (document 02, note 9), in the exported calls and the reference: least closed cuts against lower cuts, at every event of
//! small logs and against all closed cuts; logs of one content in both forms and any layout; 28, written down by the note; interval logs of
//! 4,194,304 bytes and of 4 more; sends at the edges of the blocks of events at which the intervals are kept.

use evidence::compare::{
    converted, every_call, interval_cut, intervals_gives, is_refused_by, pack_gives, Seen,
};
use evidence::description::{
    get, interval_length, put, set_form, Description, Event, Worker, INTERVAL_FORM, MARK,
    MAX_EVENTS, MAX_LOG, MAX_WORKERS,
};
use evidence::failure::Call;
use evidence::intervals::Named;
use evidence::random::Random;
use evidence::runs::{
    any_form, any_log, chain, deep, different_sends, hub, received_from_one, receives_of_length,
    repeated_receives, ring, run, widest, Shape,
};
use evidence::sides::{Calls, EXPORTED, REFERENCE};
use evidence::stack::block_bits;

/// The number of a conversion, and the interval log that is written to as many bytes as are needed.
fn convert(calls: &Calls, log: &[u8]) -> (u32, Vec<u8>) {
    let length = reference::accept(log).map_or(0, |accepted| interval_length(&accepted));
    let (mut out, mut written) = (vec![0; length], [0]);
    let number = (calls.intervals)(log, &mut out, &mut written);
    out.truncate(written[0] as usize);
    (number, out)
}

/// A content of a log of a form that 28 does not refuse, of at most these numbers of workers and events.
fn any_content(random: &mut Random, workers: usize, events: usize) -> (u16, Description) {
    let shape = Shape::any(random, workers, events);
    let mut description = run(&shape, random);
    let form = any_form(&mut description, 500, random);
    (form, description.without_crowded(form))
}

/// The theorem at every event, and the interval log of each layout. Without a mark and a repeat both forms have the same workers.
#[test]
fn every_event_of_small_logs() {
    let (mut events, mut both, mut wide) = (0, 0, 0);
    for round in 0..4_000 {
        let mut random = Random::round(1_800, round);
        let (form, content) = any_content(&mut random, 6, 40);
        let expected = content.converted(form).pack_as(INTERVAL_FORM);
        let mut logs = vec![content.pack_as(form), content.lay_out(form, &mut random)];
        if content.repeats() == 0 && content == content.without_withdrawn() {
            logs.push(content.lay_out(3 - form, &mut random));
            both += 1;
        }
        for log in &logs {
            for (side, calls) in [("exported", EXPORTED), ("reference", REFERENCE)] {
                let found = convert(&calls, log);
                assert!(found == (0, expected.clone()), "{side}, {random}");
            }
        }
        let accepted = reference::accept(&logs[0]).expect("an accepted log");
        let named = Named::of(&expected);
        for (w, worker) in content.workers.iter().enumerate() {
            for event in 1..=worker.events.len() as u32 {
                let cut = interval_cut(&random, &logs[0], &accepted, &named, (w as u32, event));
                events += 1;
                // Cuts with receives of two workers or more.
                wide += u32::from(cut.iter().filter(|&&k| k > 0).count() > 1);
            }
        }
    }
    assert!(events > 40_000 && both > 500, "{events}, {both}");
    assert!(10 * wide > events, "few wide cuts: {wide} of {events}");
}

/// Every cut of these numbers of intervals.
fn every_cut(receives: &[u32]) -> Vec<Vec<u32>> {
    receives.iter().fold(vec![Vec::new()], |cuts, &last| {
        let longer = |cut: &Vec<u32>| {
            let cut = cut.clone();
            (0..=last).map(move |k| [&cut[..], &[k]].concat())
        };
        cuts.iter().flat_map(longer).collect()
    })
}

/// The least closed cut that holds an interval is closed, and no closed cut that holds it is smaller in any worker.
#[test]
fn least_closed_cuts_among_all_cuts() {
    let mut more = 0;
    for round in 0..3_000 {
        let mut random = Random::round(1_900, round);
        let (form, content) = any_content(&mut random, 4, 12);
        let named = Named::of(&content.converted(form).pack_as(INTERVAL_FORM));
        let receives = named.receives();
        let closed: Vec<Vec<u32>> = every_cut(&receives)
            .into_iter()
            .filter(|cut| named.is_closed(cut))
            .collect();
        for (w, &last) in receives.iter().enumerate() {
            for interval in 0..=last {
                let least = named.least_closed(w, interval);
                assert!(closed.contains(&least) && least[w] >= interval, "{random}");
                for cut in closed.iter().filter(|cut| cut[w] >= interval) {
                    let mut pairs = least.iter().zip(cut);
                    assert!(pairs.all(|(a, b)| a <= b), "{least:?}, {cut:?}, {random}");
                }
                more += u32::from(least.iter().sum::<u32>() > interval);
            }
        }
    }
    assert!(more > 300, "few cuts of more than one worker: {more}");
}

/// Checkpoints of a worker whose third event of five is its one receive, the others being sends: index and identifier word; and the
/// intervals of those that are kept, or none where 28 refuses them.
type Row = (&'static [(u32, u32)], Option<&'static [u32]>);

/// In either form.
const OF_BOTH_FORMS: [Row; 15] = [
    (&[], Some(&[])),
    // One in interval 0: the initial state does not count.
    (&[(0, 1)], Some(&[0])),
    (&[(2, 1)], Some(&[0])),
    (&[(3, 1)], Some(&[1])),
    (&[(5, 1)], Some(&[1])),
    // With the receive between them.
    (&[(0, 1), (3, 2)], Some(&[0, 1])),
    (&[(2, 1), (3, 2)], Some(&[0, 1])),
    (&[(2, 1), (5, 2)], Some(&[0, 1])),
    // At one index, with a send between them, and with two.
    (&[(0, 1), (0, 2)], None),
    (&[(3, 1), (3, 2)], None),
    (&[(0, 1), (1, 2)], None),
    (&[(3, 1), (4, 2)], None),
    (&[(0, 1), (2, 2)], None),
    (&[(0, 1), (3, 2), (5, 3)], None),
    (&[(1, 1), (2, 2), (3, 3)], None),
];

/// In form 1, where the top bit is the identifier's.
const OF_FORM_1: [Row; 3] = [
    (&[(1, 1), (2, MARK + 2)], None),
    (&[(1, MARK + 1), (2, MARK + 2)], None),
    (&[(1, MARK + 1), (3, MARK + 2)], Some(&[0, 1])),
];

/// In form 2, where the top bit marks a withdrawn checkpoint: one beside another, between two, and around two.
const OF_FORM_2: [Row; 8] = [
    (&[(1, MARK + 1)], Some(&[])),
    (&[(1, 1), (2, MARK + 2)], Some(&[0])),
    (&[(1, MARK + 1), (1, 2)], Some(&[0])),
    (&[(0, MARK + 1), (1, MARK + 2)], Some(&[])),
    (&[(0, 1), (1, MARK + 2), (2, 3)], None),
    (&[(3, 1), (3, MARK + 2), (3, 3)], None),
    (&[(0, 1), (1, MARK + 2), (3, 3)], Some(&[0, 1])),
    (
        &[(0, MARK + 1), (2, 2), (4, 3), (4, MARK + 4)],
        Some(&[0, 1]),
    ),
];

/// The worker of a row, whose peer is the other of two workers, which has one send and no checkpoint.
fn of_row(row: &[(u32, u32)], worker: usize) -> Description {
    let other = 1 - worker;
    let send = |stamp| Event::send(other, stamp);
    let events = vec![
        send(1),
        send(2),
        Event::receive(2, other, 1, 3),
        send(4),
        send(5),
    ];
    let mut workers = vec![Worker::default(); 2];
    workers[other].events = vec![Event::send(worker, 1)];
    workers[worker] = Worker {
        role: 2,
        events,
        checkpoints: row.to_vec(),
    };
    Description { workers }
}

/// Tests a row in a form on both sides, in the first worker and in the last: the checkpoints that are written, or 28, which comes before 25
/// and 14.
fn has_row(form: u16, (row, intervals): Row) {
    for worker in [0, 1] {
        let log = of_row(row, worker).pack_as(form);
        let length = 48 + 12 + 8 * intervals.map_or(0, <[u32]>::len);
        let mut random = Random::new(0);
        if intervals.is_some() {
            for (lent, number) in [((length, 1), 0), ((length - 1, 0), 25), ((length, 0), 14)] {
                intervals_gives(&mut random, &log, lent, number);
            }
        } else {
            for lent in [(0, 0), (0, 1), (MAX_LOG, 0), (MAX_LOG, 1)] {
                intervals_gives(&mut random, &log, lent, 28);
            }
        }
        for calls in [EXPORTED, REFERENCE] {
            let (number, out) = convert(&calls, &log);
            assert_eq!(number == 0, intervals.is_some(), "{row:?} in form {form}");
            let Some(intervals) = intervals else {
                continue;
            };
            let behind = get(&out, 20 + 20 * worker) as usize;
            let found = out[behind..]
                .chunks(8)
                .map(|record| (get(record, 0), get(record, 4)));
            let kept = row.iter().filter(|c| form == 1 || c.1 < MARK);
            let expected = intervals.iter().zip(kept).map(|(&k, c)| (k, c.1));
            let found: Vec<(u32, u32)> = found.take(intervals.len()).collect();
            assert_eq!(
                found,
                expected.collect::<Vec<_>>(),
                "{row:?} in form {form}"
            );
        }
    }
}

#[test]
fn checkpoints_of_one_interval() {
    for row in OF_BOTH_FORMS {
        has_row(1, row);
        has_row(2, row);
    }
    for row in OF_FORM_1 {
        has_row(1, row);
    }
    for row in OF_FORM_2 {
        has_row(2, row);
    }
}

/// Logs as they are made, many of which 28 refuses, and the same without the checkpoints at fault, which it does not refuse.
#[test]
fn any_logs() {
    let mut numbers = [0; 2];
    for round in 0..3_000 {
        let mut random = Random::round(2_000, round);
        let log = any_log(&mut random, 8, 80);
        let accepted = reference::accept(&log).expect("an accepted log");
        let content = Description::of(&accepted);
        let form = accepted.form.number;
        let crowded = content.is_crowded(form);
        let less = content.without_crowded(form).pack_as(form);
        for calls in [EXPORTED, REFERENCE] {
            for (log, expected) in [(&log, if crowded { 28 } else { 0 }), (&less, 0)] {
                let (number, _) = convert(&calls, log);
                let call = Call {
                    name: "intervals",
                    random: &random,
                    log,
                    arguments: &[],
                };
                call.returned(number, expected);
            }
        }
        numbers[usize::from(crowded)] += 1;
    }
    assert!(numbers.iter().all(|&times| times > 800), "{numbers:?}");
}

/// Compares the conversions of a log, each with this many bytes and words lent, with the number that it has to have.
fn gives(log: &[u8], cases: &[((usize, usize), u32)]) {
    let mut random = Random::new(50);
    for &(lent, number) in cases {
        intervals_gives(&mut random, log, lent, number);
    }
}

/// Bytes and words that are lent where 26 or a number before it is given.
const LENT: [(usize, usize); 5] = [(0, 0), (0, 1), (MAX_LOG, 0), (MAX_LOG, 1), (MAX_LOG + 4, 1)];

#[test]
fn the_longest_interval_log() {
    let log = repeated_receives(&receives_of_length(MAX_LOG));
    assert!(log.len() < MAX_LOG);
    gives(
        &log,
        &[
            ((MAX_LOG, 1), 0),
            ((MAX_LOG + 9, 3), 0),
            ((MAX_LOG, 0), 14),
            ((MAX_LOG - 1, 1), 25),
            ((MAX_LOG - 1, 0), 25),
            ((0, 0), 25),
        ],
    );
    let accepted = reference::accept(&log).expect("an accepted log");
    let out = converted(&mut Random::new(51), &log, &accepted);
    assert_eq!(out.len(), MAX_LOG);
    // The packed log has the seven sends too, and is too long.
    pack_gives(&mut Random::new(52), &log, (MAX_LOG, 1), 26);
}

/// 26 comes after 24 and 28, and before 25 and 14.
#[test]
fn an_interval_log_of_4_bytes_too_many() {
    let mut log = repeated_receives(&receives_of_length(MAX_LOG + 4));
    assert!(log.len() < MAX_LOG);
    is_refused_by(&Random::new(0), &log, 0);
    gives(&log, &LENT.map(|lent| (lent, 26)));
    // The first checkpoint, which all workers have, is at the index of the second.
    let first = get(&log, 20) as usize;
    put(&mut log, first, 3);
    gives(&log, &LENT.map(|lent| (lent, 28)));
    set_form(&mut log, 2);
    gives(&log, &LENT.map(|lent| (lent, 24)));
    // The first identifier is 0.
    put(&mut log, first + 4, 0);
    gives(&log, &LENT.map(|lent| (lent, 11)));
    set_form(&mut log, INTERVAL_FORM);
    gives(&log, &LENT.map(|lent| (lent, 2)));
}

/// Interval logs of a few bytes more or less than the most.
#[test]
fn interval_logs_around_the_most_bytes() {
    for length in (MAX_LOG - 12..MAX_LOG + 16).step_by(4) {
        let log = repeated_receives(&receives_of_length(length));
        let number = if length > MAX_LOG { 26 } else { 0 };
        gives(
            &log,
            &[((MAX_LOG, 1), number), ((length - 1, 1), number.max(25))],
        );
    }
}

/// A log in which worker 0 has so many events, sends and receives by this rule, and worker 1 receives its sends, in any order and again and
/// again; the other workers share the bytes of the most sends. The checkpoints of worker 0 are around the starts of blocks of 128 events.
fn at_edges(workers: usize, events: u32, is_send: impl Fn(u32) -> bool) -> Vec<u8> {
    let event = |x| match is_send(x) {
        true => Event::send(1, x + 1),
        false => Event::receive(if x % 5 == 0 { 3 } else { 2 }, 1, 1, x + 1),
    };
    let sends: Vec<u32> = (1..=events).filter(|&x| is_send(x)).collect();
    let many = events as usize - 1;
    // A prime that does not divide their number, so each is named.
    let named = (0..many).map(|k| sends[k * 1_000_003 % sends.len()]);
    let stamps = MAX_EVENTS + 2..;
    let received = stamps
        .zip(named)
        .map(|(stamp, send)| Event::receive(2, 0, send, stamp));
    let mut description = Description {
        workers: vec![Worker::default(); workers],
    };
    description.workers[0].events = (1..=events).map(event).collect();
    description.workers[1].events = [Event::send(0, 1)].into_iter().chain(received).collect();
    let around = (0..=events).filter(|x| [0, 1, 127].contains(&(x % 128)));
    let numbered = around.zip(1..).take(1_024);
    description.workers[0].checkpoints = numbered.collect();
    let mut log = description.without_crowded(1).pack();
    let shared = log.len() as u32;
    if workers > 2 {
        log.extend((1..=MAX_EVENTS).flat_map(|stamp| Event::send(0, stamp).bytes()));
    }
    for entry in (2..workers).map(|w| 8 + 20 * w) {
        put(&mut log, entry, MAX_EVENTS);
        put(&mut log, entry + 4, shared);
    }
    let length = log.len() as u32;
    put(&mut log, 4, length);
    log
}

/// Blocks of 1, 2, 4 and so on up to 128 events. The sends that are received are at the last, the first and the second event of each block,
/// or of every 8 events where it has fewer; at all but these; and at every third event. The sender's other events are receives.
#[test]
fn sends_at_the_edges_of_blocks() {
    for (bits, workers, events) in [
        (0, 2, 16_383),
        (1, 2, 32_767),
        (2, 2, MAX_EVENTS),
        (3, 4, MAX_EVENTS),
        (4, 8, MAX_EVENTS),
        (5, 16, MAX_EVENTS),
        (6, 32, MAX_EVENTS),
        (7, MAX_WORKERS, MAX_EVENTS),
    ] {
        let block = 1_u32 << bits.max(3);
        let edge = move |x: u32| [0, 1, block - 1].contains(&(x % block));
        let rules: [&dyn Fn(u32) -> bool; 3] = [&edge, &|x| !edge(x), &|x| x % 3 == 0];
        for rule in rules {
            let log = at_edges(workers, events, rule);
            assert_eq!(block_bits(&log), bits);
            let accepted = reference::accept(&log).expect("an accepted log");
            let length = interval_length(&accepted);
            gives(&log, &[((length, 1), 0), ((length - 1, 1), 25)]);
            let out = converted(&mut Random::new(53), &log, &accepted);
            let named = Named::of(&out);
            let above = named.by(1).iter().filter(|&&(_, interval)| interval > 0);
            assert!(10 * above.count() > 9 * named.by(1).len());
        }
    }
}

/// As many blocks of one event as the table has places, one more, and the same with blocks of two.
#[test]
fn as_many_blocks_as_there_are_places() {
    for (events, bits) in [(16_383, 0), (16_384, 1), (32_767, 1), (32_768, 2)] {
        let log = at_edges(2, events, |x| x % 3 != 1);
        assert_eq!(block_bits(&log), bits);
        let accepted = reference::accept(&log).expect("an accepted log");
        converted(&mut Random::new(54), &log, &accepted);
    }
}

/// The sends of worker 1 are those of worker 0 behind its receive, in the same bytes: those of worker 0 are in interval 1 and those of
/// worker 1 in interval 0. Worker 2 receives each of both.
#[test]
fn sends_that_share_bytes() {
    let sends = (0..300).map(|k| Event::send(2, 3 + k));
    let received = (0..600).map(|k| {
        let (from, first) = if k % 2 == 0 { (0, 2) } else { (1, 1) };
        Event::receive(3, from, first + k / 2, 400 + k)
    });
    let mut description = Description {
        workers: vec![Worker::default(); 3],
    };
    description.workers[0].events = [Event::receive(2, 2, 1, 2)]
        .into_iter()
        .chain(sends)
        .collect();
    description.workers[2].events = [Event::send(0, 1)].into_iter().chain(received).collect();
    for form in [1, 2] {
        let mut log = description.pack_as(form);
        let first = get(&log, 12);
        put(&mut log, 28, 300);
        put(&mut log, 32, first + 12);
        let accepted = reference::accept(&log).expect("an accepted log");
        let out = converted(&mut Random::new(55), &log, &accepted);
        assert_eq!(Named::of(&out).by(2), [(0, 1), (1, 0)].repeat(300));
    }
}

/// A log of the most workers in which all but one have the bytes of one row of sends to that one; one of them has before these the receive
/// of the receiver's first event. The receiver receives these sends, worker and event each.
fn sends_behind_a_receive(receiver: usize, behind: usize, sends: &[(usize, u32)]) -> Vec<u8> {
    let mut log = Description {
        workers: vec![Worker::default(); MAX_WORKERS],
    }
    .pack();
    let first = log.len() as u32;
    log.extend(Event::receive(3, receiver, 1, 2).bytes());
    let shared = log.len() as u32;
    log.extend((1..=MAX_EVENTS).flat_map(|k| Event::send(receiver, k + 2).bytes()));
    let own = log.len() as u32;
    log.extend(Event::send(behind, 1).bytes());
    for (stamp, &(from, send)) in (MAX_EVENTS + 3..).zip(sends) {
        log.extend(Event::receive(2, from, send, stamp).bytes());
    }
    for w in 0..MAX_WORKERS {
        put(&mut log, 8 + 20 * w, MAX_EVENTS);
        put(&mut log, 12 + 20 * w, shared);
    }
    put(&mut log, 12 + 20 * behind, first);
    put(&mut log, 8 + 20 * receiver, sends.len() as u32 + 1);
    put(&mut log, 12 + 20 * receiver, own);
    let length = log.len() as u32;
    put(&mut log, 4, length);
    log
}

/// The sends of the one sender that has a receive are in interval 1, those of the other 62 in interval 0.
#[test]
fn four_million_events_that_share_bytes() {
    for (receiver, behind) in [(0, MAX_WORKERS - 1), (MAX_WORKERS - 1, 0), (30, 31)] {
        let senders: Vec<usize> = (0..MAX_WORKERS).filter(|&w| w != receiver).collect();
        let mut sends = different_sends(&senders, &[], MAX_EVENTS as usize);
        sends.retain(|&send| send != (behind, 1));
        sends.truncate(MAX_EVENTS as usize - 1);
        let mut log = sends_behind_a_receive(receiver, behind, &sends);
        assert_eq!(block_bits(&log), 7);
        let expected: Vec<(usize, u32)> = sends
            .iter()
            .map(|&(from, _)| (from, u32::from(from == behind)))
            .collect();
        let of_one = expected.iter().filter(|&&(_, interval)| interval == 1);
        assert!(of_one.count() > 1_000);
        for form in [1, 2] {
            set_form(&mut log, form);
            let accepted = reference::accept(&log).expect("an accepted log");
            let out = converted(&mut Random::new(56), &log, &accepted);
            assert_eq!(out.len(), 8 + 20 * MAX_WORKERS + 12 * MAX_EVENTS as usize);
            let named = Named::of(&out);
            assert_eq!(named.by(receiver), expected);
            assert_eq!(named.by(behind), [(receiver, 0)]);
        }
    }
}

/// 262,140 receives of any of one worker's sends, with blocks of 64 and of 128 events: the log of the benchmark. There is no receive before
/// these sends, so each is in interval 0; those of `sends_at_the_edges_of_blocks` are in others.
#[test]
fn receives_of_any_sends_of_one_worker() {
    for (workers, bits) in [(32, 6), (33, 7), (MAX_WORKERS, 7)] {
        let log = received_from_one(workers, 4);
        assert_eq!(block_bits(&log), bits);
        let accepted = reference::accept(&log).expect("an accepted log");
        let out = converted(&mut Random::new(60), &log, &accepted);
        assert_eq!(out.len(), 8 + 20 * workers + 4 * 12 * MAX_EVENTS as usize);
        let named = Named::of(&out);
        let mut all = (0..4).flat_map(|receiver| named.by(receiver));
        assert!(all.all(|&name| name == (workers - 1, 0)));
    }
}

#[test]
fn long_logs() {
    let mut random = Random::new(57);
    for content in [
        widest(&mut random),
        run(&Shape::in_order(MAX_WORKERS, 300_000), &mut random),
        deep(MAX_WORKERS, 16),
        hub(MAX_WORKERS, 65_535),
        chain(MAX_WORKERS, 16, 300_000),
        ring(MAX_WORKERS, 300_000),
    ] {
        for form in [1, 2]
            .into_iter()
            .take(if content.repeats() == 0 { 2 } else { 1 })
        {
            let log = content.pack_as(form);
            gives(&log, &LENT.map(|lent| (lent, 28)));
            let log = content.without_crowded(form).pack_as(form);
            let accepted = reference::accept(&log).expect("an accepted log");
            converted(&mut random, &log, &accepted);
        }
    }
}

/// One worker, no receives at all, and a receive in each of the most workers.
#[test]
fn shortest_interval_logs() {
    for (workers, form) in [1, 2, MAX_WORKERS]
        .into_iter()
        .flat_map(|n| [(n, 1), (n, 2)])
    {
        let mut content = Description {
            workers: vec![Worker::default(); workers],
        };
        let log = content.pack_as(form);
        assert_eq!(
            convert(&EXPORTED, &log),
            (0, content.pack_as(INTERVAL_FORM))
        );
        every_call(&mut Random::new(58), &log, &mut Seen::default());
        content.workers[workers - 1].checkpoints = vec![(0, 9)];
        let log = content.pack_as(form);
        assert_eq!(
            convert(&EXPORTED, &log),
            (0, content.pack_as(INTERVAL_FORM))
        );
        content.workers[workers - 1].checkpoints.push((0, 10));
        gives(&content.pack_as(form), &LENT.map(|lent| (lent, 28)));
        content.workers[workers - 1].checkpoints.clear();
        if workers == MAX_WORKERS {
            for w in 0..workers {
                let before = (w + workers - 1) % workers;
                let receive = Event::receive(2, before, 1, 2);
                content.workers[w].events = vec![Event::send((w + 1) % workers, 1), receive];
            }
            let log = content.pack_as(form);
            let (number, out) = convert(&EXPORTED, &log);
            assert_eq!((number, out.len()), (0, 8 + 32 * workers));
            let accepted = reference::accept(&log).expect("an accepted log");
            assert_eq!(converted(&mut Random::new(59), &log, &accepted), out);
        }
    }
}
