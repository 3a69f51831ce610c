//! A plan's replay, step by step.

use crate::{calls, Log, Plan, Refusal};
use std::fmt;

/// How a step of a worker went.
#[derive(Clone, Copy, Debug, PartialEq, Eq, Hash)]
#[must_use]
pub enum Step {
    /// 0: the step is done, and the worker's position is one higher.
    Done,
    /// 21: the worker is at its cut; its replay is over.
    AtCut,
    /// 22: the worker waits for another one: its next event receives a message that has not been sent again yet.
    Waits,
    /// 23: the worker can't go on: its next event receives a message, without its data logged, that no worker of this replay sends.
    Lost,
}

impl Step {
    /// What a step's answer means, for numbers that come from [`calls`].
    ///
    /// # Errors
    ///
    /// The refusal of this number, where it is none of 0, 21, 22 and 23.
    pub fn check(number: u32) -> Result<Step, Refusal> {
        match number {
            21 => Ok(Step::AtCut),
            22 => Ok(Step::Waits),
            23 => Ok(Step::Lost),
            other => Refusal::check(other).map(|()| Step::Done),
        }
    }

    /// The number of document 01.
    pub fn number(self) -> u32 {
        match self {
            Step::Done => 0,
            Step::AtCut => 21,
            Step::Waits => 22,
            Step::Lost => 23,
        }
    }
}

impl fmt::Display for Step {
    fn fmt(&self, f: &mut fmt::Formatter<'_>) -> fmt::Result {
        f.write_str(match self {
            Step::Done => "the step is done",
            Step::AtCut => "the worker is at its cut: its replay is over",
            Step::Waits => {
                "the worker waits: its next event receives a message that its sender has not replayed yet"
            }
            Step::Lost => {
                "the worker can't go on: its next event receives a message that was sent before its sender's start, \
                 and its data were not logged"
            }
        })
    }
}

/// What [`Replay::advance`] did.
#[derive(Clone, Copy, Debug, PartialEq, Eq, Hash)]
#[must_use]
pub enum Advance {
    /// This worker made a step.
    Stepped(u32),
    /// No step was made: every worker is at its cut.
    Finished,
    /// No step was made: no worker can make one, and some are not at their cuts. A plan as [`Log::plan`] gave it never comes to
    /// this on its log, whatever steps were made before: the library's proof of `restore_and_replay` says so. Other starts may.
    Stuck,
}

/// A replay: a log, a plan and for each worker a position, at first its start.
///
/// ```
/// use restore_planner::{Breakpoint, Log, Replay, Step, UnitTable};
///
/// # let bytes = include_bytes!(concat!(env!("CARGO_MANIFEST_DIR"), "/examples/tube.log"));
/// let log = Log::new(bytes)?;
/// let plan = log.plan(Breakpoint { worker: 0, event: 2 }, &UnitTable::default())?;
/// let mut replay = Replay::new(&log, &plan)?;
/// assert_eq!(replay.step(0)?, Step::Waits);
/// assert_eq!(replay.step(2)?, Step::Done);
/// assert_eq!(replay.positions(), [1, 1, 1]);
///
/// let answers = replay.run(&[2, 1, 1, 0])?;
/// assert!(answers.iter().all(|answer| *answer == Ok(Step::Done)));
/// assert!(replay.is_finished());
/// # Ok::<(), restore_planner::Refusal>(())
/// ```
#[derive(Clone, Debug)]
pub struct Replay<'a> {
    log: Log<'a>,
    /// The plan's entries: cut, start and identifier of each worker.
    words: Vec<u32>,
    positions: Vec<u32>,
}

impl<'a> Replay<'a> {
    /// A replay of a plan, at its starts. One entry of the plan for each worker of the log is read, in order.
    ///
    /// # Errors
    ///
    /// For a plan that is not this log's: [`Refusal::Words`] where it has fewer entries than the log has workers, [`Refusal::Cut`]
    /// where a start is above its cut or a cut over its worker's event count.
    pub fn new(log: &Log<'a>, plan: &Plan) -> Result<Replay<'a>, Refusal> {
        let entries = plan.workers.iter().take(log.worker_count());
        let mut replay = Replay {
            log: *log,
            words: entries
                .clone()
                .flat_map(|entry| [entry.cut, entry.start, entry.identifier])
                .collect(),
            positions: entries.map(|entry| entry.start).collect(),
        };
        // The list of no steps is refused where a step would be.
        replay.run(&[])?;
        Ok(replay)
    }

    /// The position of each worker: the events up to it have been replayed or lie before its start.
    pub fn positions(&self) -> &[u32] {
        &self.positions
    }

    /// Whether every worker is at its cut.
    pub fn is_finished(&self) -> bool {
        let cuts = self.words.iter().step_by(3);
        cuts.eq(&self.positions)
    }

    /// One step of a worker. A step that is [`Step::Done`] raises its position by one; any other changes nothing.
    ///
    /// # Errors
    ///
    /// [`Refusal::Worker`] where the log has no such worker.
    pub fn step(&mut self, worker: u32) -> Result<Step, Refusal> {
        Step::check(calls::step(
            self.log.as_bytes(),
            &self.words,
            &mut self.positions,
            worker,
        ))
    }

    /// One step of the first worker that can make one, if any can.
    ///
    /// This tests the whole log twice. For many steps on a long log use [`Replay::run`].
    ///
    /// # Errors
    ///
    /// None: what could be refused was accepted by [`Replay::new`].
    pub fn advance(&mut self) -> Result<Advance, Refusal> {
        if self.is_finished() {
            return Ok(Advance::Finished);
        }
        // A step that is not done changes nothing, so the first one that is done in a list of all workers can be made at once.
        let all: Vec<u32> = (0..).take(self.positions.len()).collect();
        let answers = self.clone().run(&all)?;
        for (worker, answer) in all.into_iter().zip(answers) {
            if answer? == Step::Done {
                return self.step(worker).map(|_| Advance::Stepped(worker));
            }
        }
        Ok(Advance::Stuck)
    }

    /// One step for each worker number of the list, in order, with the answer of each. An answer is [`Refusal::Worker`] where the
    /// log has no such worker, and the list goes on.
    ///
    /// The log and the plan are tested once for the whole list, so this is the call for many steps.
    ///
    /// # Errors
    ///
    /// None for the list: what could be refused was accepted by [`Replay::new`].
    pub fn run(&mut self, workers: &[u32]) -> Result<Vec<Result<Step, Refusal>>, Refusal> {
        let mut answers = vec![0; workers.len()];
        Refusal::check(calls::steps(
            self.log.as_bytes(),
            &self.words,
            &mut self.positions,
            workers,
            &mut answers,
        ))?;
        Ok(answers.into_iter().map(Step::check).collect())
    }
}

/// A step of a list, from [`Log::restore_and_replay`].
#[derive(Clone, Debug, PartialEq, Eq)]
pub struct StepRecord {
    /// How the step went; [`Refusal::Worker`] where the log has no such worker.
    pub answer: Result<Step, Refusal>,
    /// The position of each worker after the step.
    pub positions: Vec<u32>,
}

impl StepRecord {
    /// The record in the words that a successful call wrote: the answer and the positions.
    pub(crate) fn new(words: &[u32]) -> StepRecord {
        StepRecord {
            answer: Step::check(words[0]),
            positions: words[1..].to_vec(),
        }
    }
}

/// A restore plan and a list of its steps, from [`Log::restore_and_replay`].
#[derive(Clone, Debug, PartialEq, Eq)]
pub struct Restored {
    /// The plan of the breakpoint.
    pub plan: Plan,
    /// The steps, one for each number of the list, in order.
    pub steps: Vec<StepRecord>,
    /// The position of each worker after the list.
    pub positions: Vec<u32>,
}

impl Restored {
    /// Whether every worker is at its cut after the list. This is so exactly when the steps that are done number the plan's
    /// events.
    pub fn is_finished(&self) -> bool {
        let cuts = self.plan.workers.iter().map(|entry| &entry.cut);
        cuts.eq(&self.positions)
    }
}
