//! What the calls on a log give.

use std::fmt;

/// An event of a worker: the place at which a replay is to stop.
///
/// It prints as `worker/event`.
#[derive(Clone, Copy, Debug, PartialEq, Eq, Hash)]
pub struct Breakpoint {
    /// The worker's number, from 0.
    pub worker: u32,
    /// The event's index, from 1.
    pub event: u32,
}

impl fmt::Display for Breakpoint {
    fn fmt(&self, f: &mut fmt::Formatter<'_>) -> fmt::Result {
        write!(f, "{}/{}", self.worker, self.event)
    }
}

/// The workers with an event within a cut.
#[derive(Clone, Copy, Debug, PartialEq, Eq, Hash)]
pub(crate) struct Workers(u64);

impl Workers {
    pub(crate) fn new(word: u64) -> Workers {
        Workers(word)
    }

    fn has(self, worker: u32) -> bool {
        self.0.checked_shr(worker).is_some_and(|bits| bits & 1 == 1)
    }
}

/// The lower cut of a breakpoint, from [`Log::lower_cut`](crate::Log::lower_cut).
#[derive(Clone, Debug, PartialEq, Eq)]
pub struct LowerCut {
    /// For each worker, how many of its events are within the cut.
    pub cut: Vec<u32>,
    /// How many events the search for the cut visited, the breakpoint included.
    pub visits: u64,
    pub(crate) workers: Workers,
}

impl LowerCut {
    /// Whether some event of the worker is within the cut.
    pub fn has_worker(&self, worker: u32) -> bool {
        self.workers.has(worker)
    }
}

/// What a plan says of one worker.
#[derive(Clone, Copy, Debug, PartialEq, Eq, Hash)]
pub struct WorkerPlan {
    /// The events up to this index are within the lower cut; the replay of the worker ends here.
    pub cut: u32,
    /// The index of the checkpoint from which the worker starts.
    pub start: u32,
    /// The identifier of that checkpoint, without the mark; 0 is the initial state.
    pub identifier: u32,
}

/// The totals of a plan.
#[derive(Clone, Copy, Debug, PartialEq, Eq, Hash)]
pub struct Totals {
    /// How many events the search for the cut visited, the breakpoint included.
    pub visits: u64,
    /// The events that are replayed, of all workers together.
    pub events: u64,
    /// What these events cost, in units by the [table](crate::UnitTable) of the call.
    pub units: u64,
    workers: Workers,
}

impl Totals {
    /// The totals that a successful call wrote.
    pub(crate) fn new([visits, events, units, workers]: [u64; 4]) -> Totals {
        Totals {
            visits,
            events,
            units,
            workers: Workers::new(workers),
        }
    }

    /// Whether some event of the worker is within the lower cut.
    pub fn has_worker(&self, worker: u32) -> bool {
        self.workers.has(worker)
    }
}

/// A restore plan, from [`Log::plan`](crate::Log::plan).
///
/// Other starts than the planned ones can be written here and tried by a [`Replay`](crate::Replay); the totals stay those of the
/// plan as it was given.
#[derive(Clone, Debug, PartialEq, Eq)]
pub struct Plan {
    /// One entry for each worker, in order.
    pub workers: Vec<WorkerPlan>,
    /// The plan's totals.
    pub totals: Totals,
}

impl Plan {
    /// The plan that a successful call wrote.
    pub(crate) fn new(words: &[u32], totals: [u64; 4]) -> Plan {
        let (entries, _) = words.as_chunks::<3>();
        let entry = |&[cut, start, identifier]: &[u32; 3]| WorkerPlan {
            cut,
            start,
            identifier,
        };
        Plan {
            workers: entries.iter().map(entry).collect(),
            totals: Totals::new(totals),
        }
    }
}
