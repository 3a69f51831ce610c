//! An accepted log and the calls on it.

use crate::plan::Workers;
use crate::replay::StepRecord;
use crate::{calls, header, Breakpoint, LowerCut, Plan, Refusal, Restored, UnitTable};
use std::fmt;

/// An accepted log, of form 1 or 2, on bytes that it borrows. A log of form 1 may have two receives of one send. In a log of form 2 a
/// checkpoint may be withdrawn, by the top bit of its identifier word; the low 31 bits are its identifier. A withdrawn checkpoint is no
/// start of a plan and in no covering set. Beside this every method does the same for both forms, and the packed log has the form and the
/// marks of the log.
///
/// ```
/// use restore_planner::{Breakpoint, Log, Refusal};
///
/// let bytes = include_bytes!(concat!(env!("CARGO_MANIFEST_DIR"), "/examples/tube.log"));
/// let log = Log::new(bytes)?;
/// assert_eq!(log.worker_count(), 3);
/// assert_eq!(log.upper_line(Breakpoint { worker: 0, event: 2 })?, [2, 3, 3]);
/// assert_eq!(log.upper_line(Breakpoint { worker: 0, event: 9 }), Err(Refusal::Event));
///
/// let refusal = Log::new(b"not a log").unwrap_err();
/// assert_eq!(refusal.number(), 2);
/// # Ok::<(), Refusal>(())
/// ```
#[derive(Clone, Copy)]
pub struct Log<'a> {
    bytes: &'a [u8],
    workers: usize,
}

impl<'a> Log<'a> {
    /// The log in these bytes.
    ///
    /// # Errors
    ///
    /// Refusals 1 to 11 and 24, where the bytes are no log. Behind this call no method of the log gives any of these.
    pub fn new(bytes: &'a [u8]) -> Result<Log<'a>, Refusal> {
        Refusal::check(calls::log_refusal(bytes))?;
        Ok(Log {
            bytes,
            workers: header::worker_count(bytes),
        })
    }

    /// The log's bytes.
    pub fn as_bytes(&self) -> &'a [u8] {
        self.bytes
    }

    /// How many workers the log has.
    pub fn worker_count(&self) -> usize {
        self.workers
    }

    /// The dependency vector of an event: for its own worker the event, for each other worker the largest event of it that a
    /// receive up to this event names, else 0.
    ///
    /// # Errors
    ///
    /// [`Refusal::Worker`] or [`Refusal::Event`], where the log has no such event.
    pub fn vector(&self, at: Breakpoint) -> Result<Vec<u32>, Refusal> {
        let mut words = vec![0; self.workers];
        Refusal::check(calls::vector(self.bytes, at.worker, at.event, &mut words))?;
        Ok(words)
    }

    /// The lower cut of a breakpoint: the least consistent cut that has the breakpoint's event within it.
    ///
    /// # Errors
    ///
    /// [`Refusal::Worker`] or [`Refusal::Event`], where the log has no such event.
    pub fn lower_cut(&self, at: Breakpoint) -> Result<LowerCut, Refusal> {
        let mut cut = vec![0; self.workers];
        let mut scratch = self.scratch();
        let mut totals = [0; 2];
        Refusal::check(calls::lower_cut(
            self.bytes,
            at.worker,
            at.event,
            &mut cut,
            &mut scratch,
            &mut totals,
        ))?;
        let [visits, workers] = totals;
        Ok(LowerCut {
            cut,
            visits,
            workers: Workers::new(workers),
        })
    }

    /// The upper line of a breakpoint: for each worker, how many events it has before the first one that the breakpoint happened
    /// before, and for the breakpoint's own worker the breakpoint's event.
    ///
    /// # Errors
    ///
    /// [`Refusal::Worker`] or [`Refusal::Event`], where the log has no such event.
    pub fn upper_line(&self, at: Breakpoint) -> Result<Vec<u32>, Refusal> {
        let mut words = vec![0; self.workers];
        Refusal::check(calls::upper_line(
            self.bytes, at.worker, at.event, &mut words,
        ))?;
        Ok(words)
    }

    /// Whether a cut is consistent: the send of every receive within it is within it. One word for each worker is read, in order.
    ///
    /// # Errors
    ///
    /// [`Refusal::Words`] where there are fewer words than workers, [`Refusal::Cut`] where a word is over its worker's event count.
    pub fn is_consistent(&self, cut: &[u32]) -> Result<bool, Refusal> {
        let mut yes = [0];
        Refusal::check(calls::cut_test(self.bytes, cut, &mut yes))?;
        Ok(yes == [1])
    }

    /// Whether an identifier covers: every worker has a checkpoint with it, none of them withdrawn, and every receive after its worker's
    /// checkpoint, of a send with index smaller than or equal to the sender's checkpoint, has its data logged. Identifier 0 means the
    /// initial states. In a log of form 2 a number of 2³¹ or more is no identifier, and covers nothing.
    ///
    /// A replay of all events can start from the checkpoints of an identifier that covers. Where they are all at or below a breakpoint's
    /// lower cut, its plan starts no worker before them.
    ///
    /// ```
    /// use restore_planner::Log;
    ///
    /// # let bytes = include_bytes!(concat!(env!("CARGO_MANIFEST_DIR"), "/examples/tube.log"));
    /// let log = Log::new(bytes)?;
    /// assert!(log.covers(0)?);
    /// // Send 2/2 is the last event before worker 2's checkpoint 1, and worker 1 receives it after its own.
    /// assert!(!log.covers(1)?);
    /// # Ok::<(), restore_planner::Refusal>(())
    /// ```
    ///
    /// # Errors
    ///
    /// None: every number can be asked for.
    pub fn covers(&self, identifier: u32) -> Result<bool, Refusal> {
        let mut yes = [0];
        Refusal::check(calls::covers(self.bytes, identifier, &mut yes))?;
        Ok(yes == [1])
    }

    /// The restore plan of a breakpoint: the latest checkpoints, none of them withdrawn, from which the events within its lower cut can be
    /// replayed. Its units are by the table, and nothing else of it depends on the table. By no table do other checkpoints from which
    /// these events can be replayed have fewer units.
    ///
    /// For every identifier that [covers](Log::covers) and whose checkpoints are all at or below the lower cut, no worker starts before
    /// its checkpoint with that identifier.
    ///
    /// ```
    /// use restore_planner::{Breakpoint, Log, UnitTable, WorkerPlan};
    ///
    /// # let bytes = include_bytes!(concat!(env!("CARGO_MANIFEST_DIR"), "/examples/tube.log"));
    /// let log = Log::new(bytes)?;
    /// let plan = log.plan(Breakpoint { worker: 0, event: 2 }, &UnitTable::default())?;
    /// assert_eq!(plan.workers[1], WorkerPlan { cut: 3, start: 1, identifier: 1 });
    /// assert_eq!(plan.totals.units, 15);
    /// assert!(plan.totals.has_worker(2));
    /// # Ok::<(), restore_planner::Refusal>(())
    /// ```
    ///
    /// # Errors
    ///
    /// [`Refusal::Worker`] or [`Refusal::Event`], where the log has no such event.
    pub fn plan(&self, at: Breakpoint, table: &UnitTable) -> Result<Plan, Refusal> {
        let mut words = vec![0; 3 * self.workers];
        let mut scratch = self.scratch();
        let mut totals = [0; 4];
        Refusal::check(calls::plan(
            self.bytes,
            at.worker,
            at.event,
            table.words(),
            &mut words,
            &mut scratch,
            &mut totals,
        ))?;
        Ok(Plan::new(&words, totals))
    }

    /// The restore plan of a breakpoint, as [`Log::plan`] gives it, and one step for each worker number of the list from the planned
    /// starts.
    ///
    /// A step that is not done, of a number that is no worker's too, is an answer as any other and the list goes on. Each step
    /// tests the whole log again and has its positions kept: for a long list on a long log, [`Log::plan`] and
    /// [`Replay::run`](crate::Replay::run) come to the same plan, answers and last positions sooner.
    ///
    /// ```
    /// use restore_planner::{Breakpoint, Log, Step, UnitTable};
    ///
    /// # let bytes = include_bytes!(concat!(env!("CARGO_MANIFEST_DIR"), "/examples/tube.log"));
    /// let log = Log::new(bytes)?;
    /// let at = Breakpoint { worker: 0, event: 2 };
    /// let restored = log.restore_and_replay(at, &[0, 2], &UnitTable::default())?;
    /// assert_eq!(restored.plan.totals.units, 15);
    /// assert_eq!(restored.steps[0].answer, Ok(Step::Waits));
    /// assert_eq!(restored.steps[1].answer, Ok(Step::Done));
    /// assert_eq!(restored.positions, [1, 1, 1]);
    /// # Ok::<(), restore_planner::Refusal>(())
    /// ```
    ///
    /// # Errors
    ///
    /// [`Refusal::Worker`] or [`Refusal::Event`], where the log has no such event.
    pub fn restore_and_replay(
        &self,
        at: Breakpoint,
        workers: &[u32],
        table: &UnitTable,
    ) -> Result<Restored, Refusal> {
        let width = self.workers + 1;
        let mut words = vec![0; 3 * self.workers];
        let mut scratch = self.scratch();
        let mut positions = vec![0; self.workers];
        let mut steps = vec![0; workers.len() * width];
        let mut totals = [0; 4];
        Refusal::check(calls::restore_and_replay(
            self.bytes,
            at.worker,
            at.event,
            workers,
            table.words(),
            &mut words,
            &mut scratch,
            &mut positions,
            &mut steps,
            &mut totals,
        ))?;
        Ok(Restored {
            plan: Plan::new(&words, totals),
            steps: steps.chunks_exact(width).map(StepRecord::new).collect(),
            positions,
        })
    }

    /// Writes the packed log to the first bytes of `out`; gives how many they are. The other bytes stay as they are.
    ///
    /// The packed log has the header, and then for each worker its events and its checkpoints, in worker order and without gaps. It is
    /// the same for all logs of the same form, roles, events and checkpoints, wherever their sections are, and each method gives the
    /// same for it as for the log. It may be longer than the log, where sections of the log share bytes.
    ///
    /// ```
    /// use restore_planner::{Log, Refusal};
    ///
    /// let bytes = include_bytes!(concat!(env!("CARGO_MANIFEST_DIR"), "/examples/tube.log"));
    /// let log = Log::new(bytes)?;
    /// let mut out = [7; 300];
    /// assert_eq!(log.pack(&mut out)?, 212);
    /// // The tube log is packed.
    /// assert_eq!(out[..212], *bytes);
    /// assert!(out[212..].iter().all(|&byte| byte == 7));
    /// assert_eq!(log.pack(&mut out[..211]), Err(Refusal::OutBytes));
    /// # Ok::<(), Refusal>(())
    /// ```
    ///
    /// # Errors
    ///
    /// [`Refusal::PackedLength`] where the packed log would have over 4,194,304 bytes, else [`Refusal::OutBytes`] where `out` has fewer
    /// than the packed log. Both leave `out` as it is.
    pub fn pack(&self, out: &mut [u8]) -> Result<usize, Refusal> {
        let mut written = [0];
        Refusal::check(calls::pack(self.bytes, out, &mut written))?;
        let [length] = written;
        // At most the length of `out`.
        Ok(length as usize)
    }

    /// The packed log, as [`Log::pack`] writes it.
    ///
    /// ```
    /// use restore_planner::Log;
    ///
    /// # let bytes = include_bytes!(concat!(env!("CARGO_MANIFEST_DIR"), "/examples/tube.log"));
    /// let packed = Log::new(bytes)?.packed()?;
    /// assert_eq!(packed, bytes);
    /// assert_eq!(Log::new(&packed)?.packed()?, packed);
    /// # Ok::<(), restore_planner::Refusal>(())
    /// ```
    ///
    /// # Errors
    ///
    /// [`Refusal::PackedLength`] where the packed log would have over 4,194,304 bytes.
    pub fn packed(&self) -> Result<Vec<u8>, Refusal> {
        let mut bytes = vec![0; header::MOST_BYTES];
        let length = self.pack(&mut bytes)?;
        bytes.truncate(length);
        bytes.shrink_to_fit();
        Ok(bytes)
    }

    /// Writes the interval log to the first bytes of `out`; gives how many they are. The other bytes stay as they are.
    ///
    /// Interval k of a worker is its state after k of its receives. The interval log is of form 3, with a header and sections as in the
    /// packed log, and has the receives alone: each names, in place of the send, the interval of its sender in which the send is. Each
    /// checkpoint has its interval in place of its index, and those that are withdrawn are left out. It is the same for all logs of the
    /// same roles, events and checkpoints that are not withdrawn, of either form and wherever their sections are. Being of form 3, it is no
    /// [`Log`].
    ///
    /// Take the least cut of intervals that has the breakpoint's interval within it and, with each receive, the interval that the receive
    /// names. Its number for each worker is how many receives of that worker are within the breakpoint's lower cut.
    ///
    /// ```
    /// use restore_planner::{Log, Refusal};
    ///
    /// let bytes = include_bytes!(concat!(env!("CARGO_MANIFEST_DIR"), "/examples/tube.log"));
    /// let log = Log::new(bytes)?;
    /// let mut out = [7; 160];
    /// assert_eq!(log.intervals(&mut out)?, 152);
    /// // The second receive of worker 0, from worker 1, of a send behind one receive.
    /// assert_eq!(out[80..92], [2, 1, 0, 0, 1, 0, 0, 0, 5, 0, 0, 0]);
    /// assert_eq!(out[152..], [7; 8]);
    /// assert_eq!(log.intervals(&mut out[..151]), Err(Refusal::OutBytes));
    /// # Ok::<(), Refusal>(())
    /// ```
    ///
    /// # Errors
    ///
    /// [`Refusal::Interval`] where two checkpoints of a worker that are not withdrawn fall into one interval, else
    /// [`Refusal::PackedLength`] where the interval log would have over 4,194,304 bytes, else [`Refusal::OutBytes`] where `out` has fewer
    /// than the interval log. Each leaves `out` as it is.
    pub fn intervals(&self, out: &mut [u8]) -> Result<usize, Refusal> {
        let mut written = [0];
        Refusal::check(calls::intervals(self.bytes, out, &mut written))?;
        let [length] = written;
        // At most the length of `out`.
        Ok(length as usize)
    }

    /// The interval log, as [`Log::intervals`] writes it.
    ///
    /// ```
    /// use restore_planner::{Log, Refusal};
    ///
    /// # let bytes = include_bytes!(concat!(env!("CARGO_MANIFEST_DIR"), "/examples/tube.log"));
    /// let converted = Log::new(bytes)?.interval_log()?;
    /// assert_eq!(converted.len(), 152);
    /// assert_eq!(Log::new(&converted).unwrap_err(), Refusal::Form);
    /// # Ok::<(), Refusal>(())
    /// ```
    ///
    /// # Errors
    ///
    /// [`Refusal::Interval`] where two checkpoints of a worker that are not withdrawn fall into one interval, else
    /// [`Refusal::PackedLength`] where the interval log would have over 4,194,304 bytes.
    pub fn interval_log(&self) -> Result<Vec<u8>, Refusal> {
        let mut bytes = vec![0; header::MOST_BYTES];
        let length = self.intervals(&mut bytes)?;
        bytes.truncate(length);
        bytes.shrink_to_fit();
        Ok(bytes)
    }

    /// Scratch words for a call, as many as it needs.
    fn scratch(&self) -> Vec<u32> {
        let words = match self.workers {
            1 => 1,
            workers => 2 * workers,
        };
        vec![0; words]
    }
}

impl<'a> TryFrom<&'a [u8]> for Log<'a> {
    type Error = Refusal;

    fn try_from(bytes: &'a [u8]) -> Result<Log<'a>, Refusal> {
        Log::new(bytes)
    }
}

/// Prints the log's length and worker count and not its bytes.
impl fmt::Debug for Log<'_> {
    fn fmt(&self, f: &mut fmt::Formatter<'_>) -> fmt::Result {
        f.debug_struct("Log")
            .field("length", &self.bytes.len())
            .field("workers", &self.workers)
            .finish()
    }
}

#[cfg(test)]
mod tests {
    use super::Log;

    /// By document 02, note 8: no more than is needed.
    #[test]
    fn scratch_of_each_worker_count() {
        for (workers, words) in [(1, 1), (2, 4), (3, 6), (64, 128)] {
            let log = Log {
                bytes: &[],
                workers,
            };
            assert_eq!(log.scratch().len(), words);
        }
    }
}
