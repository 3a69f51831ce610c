//! The stack that the exported calls take, in bytes, on logs that make them go deep.

use crate::compare::State;
use crate::description::{get, set_form, worker_count, Description, MAX_EVENTS, MAX_WORKERS};
use crate::runs::{add_falling, deep, different_sends, ring, shared_sends};
use crate::sides::{Arguments, Calls, EMPTY, EXPORTED, REFERENCE};
use crate::touched::touched;
use std::hint::black_box;

/// A log and what the calls on it are given.
#[derive(Clone, Debug)]
pub struct Case {
    /// The log.
    pub log: Vec<u8>,
    /// The last event of a worker, and the first steps of its plan.
    pub arguments: Arguments,
}

impl Case {
    fn new(log: Vec<u8>, worker: usize) -> Case {
        let accepted = reference::accept(&log).expect("an accepted log");
        let at = (worker as u32, accepted.workers[worker].count());
        let state = State::planned(&log, at.0, at.1).expect("a plan");
        let list = vec![0, at.0, accepted.size() as u32];
        Case {
            arguments: Arguments::new(at, state, list, &accepted),
            log,
        }
    }

    /// The same with the log in a form.
    pub fn of_form(mut self, form: u16) -> Case {
        set_form(&mut self.log, form);
        self
    }

    /// The bytes of stack that an exported call takes: those that it touches below the address to which it returns. Fails where the call
    /// does not give the reference's number.
    pub fn stack(&self, name: &str) -> usize {
        let [(_, none), (number, bytes)] =
            [&EMPTY, &EXPORTED].map(|calls| self.touched(name, calls));
        let mut lent = self.arguments.lend(name, &self.log);
        let expected = self.arguments.make(name, &REFERENCE, &self.log, &mut lent);
        assert_eq!(number, expected, "the number of {name}");
        bytes - none
    }

    /// The number of a call of one side, and how far down it touches the stack.
    fn touched(&self, name: &str, calls: &Calls) -> (u32, usize) {
        // A byte that the call writes is not the one or not the other.
        let [one, other] = [0x5a, 0xa5].map(|byte| {
            let (mut number, mut lent) = (0, self.arguments.lend(name, &self.log));
            let bytes = touched(byte, &mut || {
                let calls = black_box(calls);
                number = self.arguments.make(name, calls, &self.log, &mut lent);
            });
            (number, bytes)
        });
        one.max(other)
    }
}

/// Logs of the most workers, of form 2 and with receives that do not rise. No two checkpoints of a worker are in one interval.
pub fn cases() -> [Case; 3] {
    let last = MAX_WORKERS - 1;
    [
        Case::new(falling(deep(MAX_WORKERS, 16)), last),
        short_ring(),
        sharing(MAX_WORKERS),
    ]
}

/// The log of form 2 of this content and of two receives that do not rise, without the checkpoints that 28 refuses.
fn falling(mut description: Description) -> Vec<u8> {
    add_falling(&mut description);
    description.without_crowded(2).pack_as(2)
}

/// A log of the most workers with 20,000 events.
fn short_ring() -> Case {
    Case::new(falling(ring(MAX_WORKERS, 20_000)), MAX_WORKERS - 1)
}

/// A log of the most events in each worker: worker 0 receives sends of the others, which share bytes.
fn sharing(workers: usize) -> Case {
    let senders: Vec<usize> = (1..workers).collect();
    let sends = different_sends(&senders, &[], MAX_EVENTS as usize);
    Case::new(shared_sends(workers, 0, &sends), 0)
}

/// The places of the table in which `intervals` keeps the intervals at the starts of blocks of 2^b events.
pub const PLACES: usize = 32_768;

/// The smallest b for which a log has no more blocks than the table has places. A worker of c events has c / 2^b + 1 blocks.
pub fn block_bits(log: &[u8]) -> u32 {
    let counts = (0..worker_count(log)).map(|w| get(log, 8 + 20 * w) as usize);
    let blocks = |bits: u32| {
        counts
            .clone()
            .map(|count| (count >> bits) + 1)
            .sum::<usize>()
    };
    let bits = (0..32).find(|&bits| blocks(bits) <= PLACES);
    bits.expect("a log of at most 64 workers")
}

/// Logs for `intervals` with blocks of 1, 16 and 128 events, the largest that there are, by the b of [`block_bits`].
pub fn of_blocks() -> [(u32, Case); 3] {
    [
        (0, short_ring()),
        (4, sharing(8)),
        (7, sharing(MAX_WORKERS)),
    ]
}

/// The most bytes of stack that an exported call takes on these logs, in form 1 and in form 2.
pub fn of_forms(name: &str, cases: &[Case]) -> [usize; 2] {
    [1, 2].map(|form| {
        let cases = cases.iter().cloned();
        let bytes = cases.map(|case| case.of_form(form).stack(name));
        bytes.max().unwrap_or(0)
    })
}

/// The worker counts of [`OfVisits`].
pub const VISITED: [usize; 3] = [16, 32, MAX_WORKERS];

/// A log on which as many visits are open at a time as it has workers, one of [`VISITED`]; the breakpoint is the last event of the last one.
pub fn visited(workers: usize) -> Description {
    deep(workers, 10)
}

/// The stack of a call that makes visits, on logs of form 1, by the visits that are open at a time.
#[derive(Clone, Copy, Debug, PartialEq)]
pub struct OfVisits {
    /// The bytes on the logs of [`visited`].
    pub bytes: [usize; 3],
    /// The bytes of each open visit, from 32 to 64 workers.
    pub of_each: usize,
    /// The bytes that 128 workers would take, which is more than a log may have.
    pub of_128: usize,
}

impl OfVisits {
    /// The stack of an exported call.
    pub fn new(name: &str) -> OfVisits {
        let case = |workers| Case::new(visited(workers).pack(), workers - 1);
        let bytes = VISITED.map(|workers| case(workers).stack(name));
        let of_each = (bytes[2] - bytes[1]) / 32;
        OfVisits {
            bytes,
            of_each,
            of_128: bytes[2] + 64 * of_each,
        }
    }
}
