//! Restore plans and replays of a house log, over the proved static library `libplanner.a`.
//!
//! A [`Log`] is bytes that were accepted. It gives the [`Plan`] of a [`Breakpoint`]: for each worker the checkpoint to start from
//! and the event at which its replay ends. A [`UnitTable`], the host's own or the built-in one, says what the replay of an event costs. A
//! [`Replay`] makes the steps of a plan. [`Log::packed`] gives the log's content in the one layout that the archive has, and
//! [`Log::interval_log`] gives its receives and checkpoints in the state intervals of the partner's recovery tool.
//!
//! ```
//! use restore_planner::{Advance, Breakpoint, Log, Replay, UnitTable};
//!
//! # let bytes = include_bytes!(concat!(env!("CARGO_MANIFEST_DIR"), "/examples/tube.log"));
//! let log = Log::new(bytes)?;
//! let plan = log.plan(Breakpoint { worker: 0, event: 2 }, &UnitTable::default())?;
//! let mut replay = Replay::new(&log, &plan)?;
//! while let Advance::Stepped(worker) = replay.advance()? {
//!     println!("worker {worker} made a step: {:?}", replay.positions());
//! }
//! assert!(replay.is_finished());
//! # Ok::<(), restore_planner::Refusal>(())
//! ```
//!
//! What is not accepted is answered with a [`Refusal`]; nothing panics, whatever it is given. The module [`calls`] has the exported
//! functions as they are, on slices that the caller lends.
//!
//! Workers are numbered from 0, the events of a worker from 1. The library has no state: each method of a log or a replay hands it
//! the bytes and it tests them again, so many steps are made sooner by one [`Replay::run`] than one by one.
//!
//! Plans can be worked out beside each other, on several threads, since each call has its own words. Beside those for what it gives, a
//! lower cut or a plan needs scratch: 2 × n words of 32 bits for a log of n workers, or one where n is 1, which [`Log`] takes from the heap
//! for the call. It takes at most 20,888 bytes of stack at 64 workers, on a log of form 1 on which 64 visits are open at a time: 320 for
//! each of them, whatever the number of workers, so 41,368 at 128. On a log of form 2 the test of the log, which comes first, takes 77,128.
//! Every call takes less than 128 KiB.

#![deny(missing_docs, unsafe_code)]

pub mod calls;
mod header;
mod log;
mod plan;
mod refusal;
mod replay;
mod table;

pub use log::Log;
pub use plan::{Breakpoint, LowerCut, Plan, Totals, WorkerPlan};
pub use refusal::Refusal;
pub use replay::{Advance, Replay, Restored, Step, StepRecord};
pub use table::UnitTable;
