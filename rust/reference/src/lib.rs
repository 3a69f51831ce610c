//! The calls of document 01 with notes 1, 2, 3, 6, 7, 8 and 9 of document 02 (form 2 of the log, the packed log, the covering test,
//! withdrawn checkpoints, unit tables, the scratch of a plan, the interval log), written in Rust from their text alone.
//!
//! Tests and benchmarks compare the exported functions with these. Each call has the parameters of the exported function of its
//! name and does the same with every lent word and byte: a refusal returns its number and changes none; on success those past the
//! named ones are untouched. The lent scratch is never written.

#![forbid(unsafe_code)]
#![deny(missing_docs)]

mod causality;
mod intervals;
mod log;
mod pack;
mod repeats;
mod replay;
mod restore;
mod units;

pub use causality::{cut_test, lower_cut, scratch_words, upper_line, vector};
pub use intervals::intervals;
pub use log::{
    accept, log_refusal, Checkpoint, Event, Form, Log, Worker, FORMS, MAX_LOG, MAX_WORKERS,
};
pub use pack::pack;
pub use replay::{restore_and_replay, step, steps};
pub use restore::{covers, plan};
pub use units::{built_in_table, load_table, BUILT_IN};
