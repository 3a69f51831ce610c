//! The kind of one event (document 02, note 5), in the exported calls: each of the 256 bytes in the place of a send's kind and of a
//! receive's, in logs that are otherwise accepted, with the refusals written down here by the record table of document 01; and what
//! kind 3 in the place of kind 2 changes in plans, packed logs and interval logs. What it changes in the plan of the tube log is in
//! `tube.rs`.

use evidence::compare::{every_call, intervals, packed, Seen};
use evidence::description::{get, interval_length, worker_count, Description};
use evidence::failure::{number, words, Call, Meaning};
use evidence::random::Random;
use evidence::runs::any_log;
use evidence::sides::EXPORTED;
use reference::BUILT_IN;
use std::ops::Range;

/// The refusal of an otherwise accepted log with this byte in the place of a send's kind. Its peer event is 0, so it is no receive.
fn refusal_in_a_send(byte: u8) -> u32 {
    match byte {
        1 => 0,
        _ => 7,
    }
}

/// The refusal of an otherwise accepted log with this byte in the place of a receive's kind. Its peer event is not 0, so it is no send.
fn refusal_in_a_receive(byte: u8) -> u32 {
    match byte {
        2 | 3 => 0,
        _ => 7,
    }
}

/// How many more units a receive has by the built-in table with its data logged than without, by role.
const MORE_UNITS: [u64; 4] = [5 - 3, 6 - 4, 9 - 8, 7 - 5];

/// An event: its worker, and its index from 1.
type At = (usize, usize);

/// The sends and the receives of the tube log. Each send is received, so with another kind in its place 9 applies too, after 7.
const TUBE_SENDS: [At; 5] = [(0, 3), (1, 1), (1, 3), (2, 1), (2, 2)];
const TUBE_RECEIVES: [At; 5] = [(0, 1), (0, 2), (1, 2), (1, 4), (2, 3)];

/// The bytes of the section with its count at this place of the header and records of this size.
fn section(log: &[u8], count_field: usize, size: usize) -> Range<usize> {
    let count = get(log, count_field) as usize;
    let offset = get(log, count_field + 4) as usize;
    offset..offset + size * count
}

/// The place of an event's kind.
fn kind_at(log: &[u8], (worker, event): At) -> usize {
    section(log, 8 + 20 * worker, 12).start + 12 * (event - 1)
}

/// The log with this byte in the place of an event's kind.
fn with_kind(log: &[u8], event: At, byte: u8) -> Vec<u8> {
    let mut log = log.to_vec();
    let at = kind_at(&log, event);
    log[at] = byte;
    log
}

/// All events of a log, worker by worker.
fn events(log: &[u8]) -> impl Iterator<Item = At> + '_ {
    (0..worker_count(log)).flat_map(|w| (1..=get(log, 8 + 20 * w) as usize).map(move |e| (w, e)))
}

/// The sends and the receives of an accepted log. Those whose kind is a byte of another section too are left out: there another record
/// would change with it.
fn sends_and_receives(log: &[u8]) -> (Vec<At>, Vec<At>) {
    let sections: Vec<Range<usize>> = (0..worker_count(log))
        .map(|w| 8 + 20 * w)
        .flat_map(|entry| [section(log, entry, 12), section(log, entry + 8, 8)])
        .collect();
    let is_shared = |at: usize| sections.iter().filter(|s| s.contains(&at)).count() > 1;
    events(log)
        .filter(|&event| !is_shared(kind_at(log, event)))
        .partition(|&event| log[kind_at(log, event)] == 1)
}

/// An accepted log of at most these numbers of workers and events, with one of its sends and one of its receives.
fn any_case(random: &mut Random, workers: usize, events: usize) -> (Vec<u8>, At, At) {
    loop {
        let log = any_log(random, workers, events);
        let (sends, receives) = sends_and_receives(&log);
        if !sends.is_empty() && !receives.is_empty() {
            return (log, random.pick(&sends), random.pick(&receives));
        }
    }
}

/// Tests each byte in the place of an event's kind: the refusal of the log by hand, and every call by the reference.
fn every_byte(
    random: &mut Random,
    (log, event): (&[u8], At),
    refusal: fn(u8) -> u32,
    seen: &mut Seen,
) {
    for byte in 0..=u8::MAX {
        let log = with_kind(log, event, byte);
        let call = Call {
            name: "log_refusal",
            random,
            log: &log,
            arguments: &[
                ("kind", byte.into()),
                ("of worker", event.0 as u64),
                ("event", event.1 as u64),
            ],
        };
        call.returned((EXPORTED.log_refusal)(&log), refusal(byte));
        every_call(random, &log, seen);
    }
}

#[test]
fn every_byte_in_the_tube_log() {
    let mut seen = Seen::default();
    for form in [1, 2] {
        let log = &Description::tube().pack_as(form);
        assert_eq!(kind_at(log, (1, 2)), 124);
        let random = &mut Random::round(1_000, form.into());
        for send in TUBE_SENDS {
            every_byte(random, (log, send), refusal_in_a_send, &mut seen);
        }
        for receive in TUBE_RECEIVES {
            every_byte(random, (log, receive), refusal_in_a_receive, &mut seen);
        }
    }
    seen.has([0, 7]);
}

/// Tests each byte in one send and in one receive of logs of at most these numbers of workers and events. A log is tested 128 events of a
/// worker at a time; given is how many of the chosen events are behind their worker's first 128.
fn every_byte_in_any_log(seed: u64, rounds: u64, workers: usize, events: usize) -> usize {
    let mut seen = Seen::default();
    let mut forms = [0; 3];
    let mut late = 0;
    for round in 0..rounds {
        let random = &mut Random::round(seed, round);
        let (log, send, receive) = any_case(random, workers, events);
        forms[usize::from(log[0])] += 1;
        late += [send, receive].iter().filter(|event| event.1 > 128).count();
        every_byte(random, (&log, send), refusal_in_a_send, &mut seen);
        every_byte(random, (&log, receive), refusal_in_a_receive, &mut seen);
    }
    assert!(forms[1].min(forms[2]) > rounds / 4, "{forms:?}");
    seen.has([0, 7, 21, 22, 23]);
    seen.has_replayed([0]);
    seen.has_packed([0]);
    late
}

#[test]
fn every_byte_in_small_logs() {
    every_byte_in_any_log(1_100, 400, 5, 40);
}

#[test]
fn every_byte_in_larger_logs() {
    let late = every_byte_in_any_log(1_200, 40, 3, 1_500);
    assert!(late > 20, "few late events: {late}");
}

/// What of a plan is another one with kind 3 in the place of kind 2.
#[derive(Clone, Copy, Debug, PartialEq, Eq, PartialOrd, Ord)]
enum Change {
    Nothing,
    Units,
    Starts,
}

/// The words and the totals of a plan.
struct Plan {
    words: Vec<u32>,
    totals: [u64; 4],
}

impl Plan {
    fn starts(&self) -> impl Iterator<Item = u32> + '_ {
        self.words.chunks(3).map(|worker| worker[1])
    }

    /// Whether it has the cut, the visits and the workers word of another plan, and no start before that one's.
    fn is_later(&self, other: &Plan) -> bool {
        let mut workers = self.words.chunks(3).zip(other.words.chunks(3));
        let [visits, .., bits] = self.totals;
        workers.all(|(own, other)| own[0] == other[0] && own[1] >= other[1])
            && (visits, bits) == (other.totals[0], other.totals[3])
    }

    /// Whether an event is after its worker's start and within the cut.
    fn replays(&self, (worker, event): At) -> bool {
        let [cut, start] = [0, 1].map(|at| self.words[3 * worker + at] as usize);
        start < event && event <= cut
    }
}

/// A log with one receive of kind 2, and the same with kind 3.
struct Both {
    logs: [Vec<u8>; 2],
    receive: At,
    random: Random,
}

impl Both {
    fn any(random: &mut Random) -> Both {
        let (log, _, receive) = any_case(random, 5, 40);
        Both {
            logs: [2, 3].map(|kind| with_kind(&log, receive, kind)),
            receive,
            random: random.clone(),
        }
    }

    fn call<'a>(&'a self, name: &'static str, arguments: &'a [(&'static str, u64)]) -> Call<'a> {
        Call {
            name,
            random: &self.random,
            log: &self.logs[1],
            arguments,
        }
    }

    /// Tests the packed logs: each has its kind in the receive's record, and there is no other difference.
    fn pack(&self) {
        let [mut two, three] = self.logs.each_ref().map(|log| {
            let accepted = reference::accept(log).expect("an accepted log");
            packed(&mut self.random.clone(), log, &accepted)
        });
        let at = kind_at(&two, self.receive);
        let pack = self.call("pack", &[]);
        pack.same([
            number("the kind that was 2", two[at].into(), 2),
            number("the kind that was 3", three[at].into(), 3),
        ]);
        two[at] = 3;
        pack.same([words(|at| format!("out[{at}]"), &three, &two)]);
    }

    /// Tests the interval logs: 28 refuses both or neither, and there is no difference but the receive's kind. Gives whether they are
    /// written.
    fn intervals(&self) -> bool {
        let [two, three] = self.logs.each_ref().map(|log| {
            let accepted = reference::accept(log).expect("an accepted log");
            intervals(
                &mut self.random.clone(),
                log,
                (interval_length(&accepted), 1),
            )
        });
        let call = self.call("intervals", &[]);
        call.returned(three.0, two.0);
        if two.0 != 0 {
            return false;
        }
        let kinds = two.1.iter().zip(&three.1).filter(|(a, b)| a != b);
        call.holds(kinds.eq([(&2, &3)]), || {
            "other bytes than the kind differ".to_string()
        });
        true
    }

    /// The plans of an event.
    fn plans(&self, (worker, event): At) -> [Plan; 2] {
        self.logs.each_ref().map(|log| {
            let planned = EXPORTED.planned(log, (worker as u32, event as u32), &BUILT_IN);
            let arguments = [("worker", worker as u64), ("event", event as u64)];
            let (words, totals) = self.call("plan", &arguments).accepted(planned);
            Plan { words, totals }
        })
    }

    /// Tests the plans of an event: with kind 3 no worker starts earlier, and where none starts later, only the receive's units differ.
    fn plan(&self, event: At) -> Change {
        let [two, three] = self.plans(event);
        let arguments = [("worker", event.0 as u64), ("event", event.1 as u64)];
        let plan = self.call("plan", &arguments);
        if three.starts().ne(two.starts()) {
            plan.holds(three.is_later(&two), || {
                format!("{:?} with kind 3, {:?} with kind 2", three.words, two.words)
            });
            return Change::Starts;
        }
        let role = get(&self.logs[0], 24 + 20 * self.receive.0);
        let is_replayed = two.replays(self.receive);
        let mut totals = two.totals;
        totals[2] += u64::from(is_replayed) * MORE_UNITS[role as usize];
        plan.same([
            words(
                |at| Meaning::Plan.word("words", at),
                &three.words,
                &two.words,
            ),
            words(|at| format!("totals[{at}]"), &three.totals, &totals),
        ]);
        if is_replayed {
            Change::Units
        } else {
            Change::Nothing
        }
    }
}

/// The logs are counted by the most that changes in the plan of one of their events.
#[test]
fn kinds_2_and_3_of_one_receive() {
    let mut changed = [0; 3];
    let mut written = 0;
    for round in 0..3_000 {
        let both = Both::any(&mut Random::round(1_300, round));
        both.pack();
        written += u32::from(both.intervals());
        let changes = events(&both.logs[0]).map(|event| both.plan(event));
        let most = changes.max().expect("an event");
        changed[most as usize] += 1;
    }
    let [_, units, starts] = changed;
    assert!(units > 500 && starts > 300, "{changed:?}");
    assert!(written > 500, "few interval logs: {written}");
}
