//! The exported functions of the static library, on numbers and slices.
//!
//! Each function lends its slices to the exported function of the same name and returns that function's number: 0, or the number
//! of a refusal; [`Refusal::check`](crate::Refusal::check) and [`Step::check`](crate::Step::check) say what it means. The exported
//! functions have no precondition, so any numbers and any slices are good. A refusal changes no lent word and no lent byte. On success
//! those past the named ones are untouched; scratch alone is free.
//!
//! Where a call is lent scratch, it needs 2 × n words for a log of n workers, or one where n is 1. More may be lent. What the scratch holds
//! before the call does not matter; after a success it is free, and a refusal leaves it as it was.
//!
//! This module has the declarations and all `unsafe` code of the crate. A slice is a pointer and then a length. The exported
//! functions read and write within the slices that they are lent and keep none of them; nothing checks that the declarations here
//! are those of the library.

#![allow(unsafe_code)]
#![deny(clippy::undocumented_unsafe_blocks)]

mod exported {
    extern "C" {
        pub fn log_refusal(log: *const u8, log_length: usize) -> u32;

        pub fn vector(
            log: *const u8,
            log_length: usize,
            worker: u32,
            event: u32,
            words: *mut u32,
            words_length: usize,
        ) -> u32;

        pub fn upper_line(
            log: *const u8,
            log_length: usize,
            worker: u32,
            event: u32,
            words: *mut u32,
            words_length: usize,
        ) -> u32;

        pub fn lower_cut(
            log: *const u8,
            log_length: usize,
            worker: u32,
            event: u32,
            words: *mut u32,
            words_length: usize,
            scratch: *mut u32,
            scratch_length: usize,
            totals: *mut u64,
            totals_length: usize,
        ) -> u32;

        pub fn load_table(table: *const u32, table_length: usize) -> u32;

        pub fn built_in_table(table: *mut u32, table_length: usize) -> u32;

        pub fn plan(
            log: *const u8,
            log_length: usize,
            worker: u32,
            event: u32,
            table: *const u32,
            table_length: usize,
            words: *mut u32,
            words_length: usize,
            scratch: *mut u32,
            scratch_length: usize,
            totals: *mut u64,
            totals_length: usize,
        ) -> u32;

        pub fn cut_test(
            log: *const u8,
            log_length: usize,
            words: *const u32,
            words_length: usize,
            answer: *mut u32,
            answer_length: usize,
        ) -> u32;

        pub fn covers(
            log: *const u8,
            log_length: usize,
            identifier: u32,
            answer: *mut u32,
            answer_length: usize,
        ) -> u32;

        pub fn step(
            log: *const u8,
            log_length: usize,
            words: *const u32,
            words_length: usize,
            positions: *mut u32,
            positions_length: usize,
            worker: u32,
        ) -> u32;

        pub fn steps(
            log: *const u8,
            log_length: usize,
            words: *const u32,
            words_length: usize,
            positions: *mut u32,
            positions_length: usize,
            workers: *const u32,
            workers_length: usize,
            answers: *mut u32,
            answers_length: usize,
        ) -> u32;

        pub fn restore_and_replay(
            log: *const u8,
            log_length: usize,
            worker: u32,
            event: u32,
            workers: *const u32,
            workers_length: usize,
            table: *const u32,
            table_length: usize,
            words: *mut u32,
            words_length: usize,
            scratch: *mut u32,
            scratch_length: usize,
            positions: *mut u32,
            positions_length: usize,
            steps: *mut u32,
            steps_length: usize,
            totals: *mut u64,
            totals_length: usize,
        ) -> u32;

        pub fn pack(
            log: *const u8,
            log_length: usize,
            out: *mut u8,
            out_length: usize,
            written: *mut u64,
            written_length: usize,
        ) -> u32;

        pub fn intervals(
            log: *const u8,
            log_length: usize,
            out: *mut u8,
            out_length: usize,
            written: *mut u64,
            written_length: usize,
        ) -> u32;
    }
}

/// 0 for an accepted log, else 1 to 11 or 24.
pub fn log_refusal(log: &[u8]) -> u32 {
    // SAFETY: each pointer goes with the length of its slice, which is borrowed for the whole call, alone where it is mutable.
    unsafe { exported::log_refusal(log.as_ptr(), log.len()) }
}

/// Writes the dependency vector of an event to n words.
pub fn vector(log: &[u8], worker: u32, event: u32, words: &mut [u32]) -> u32 {
    // SAFETY: each pointer goes with the length of its slice, which is borrowed for the whole call, alone where it is mutable.
    unsafe {
        exported::vector(
            log.as_ptr(),
            log.len(),
            worker,
            event,
            words.as_mut_ptr(),
            words.len(),
        )
    }
}

/// Writes the upper line of a breakpoint to n words.
pub fn upper_line(log: &[u8], worker: u32, event: u32, words: &mut [u32]) -> u32 {
    // SAFETY: each pointer goes with the length of its slice, which is borrowed for the whole call, alone where it is mutable.
    unsafe {
        exported::upper_line(
            log.as_ptr(),
            log.len(),
            worker,
            event,
            words.as_mut_ptr(),
            words.len(),
        )
    }
}

/// Writes the lower cut of a breakpoint to n words, and the visits and the workers word to two totals.
pub fn lower_cut(
    log: &[u8],
    worker: u32,
    event: u32,
    words: &mut [u32],
    scratch: &mut [u32],
    totals: &mut [u64],
) -> u32 {
    // SAFETY: each pointer goes with the length of its slice, which is borrowed for the whole call, alone where it is mutable.
    unsafe {
        exported::lower_cut(
            log.as_ptr(),
            log.len(),
            worker,
            event,
            words.as_mut_ptr(),
            words.len(),
            scratch.as_mut_ptr(),
            scratch.len(),
            totals.as_mut_ptr(),
            totals.len(),
        )
    }
}

/// 0 for a unit table that loads, else 27: other than 12 words, or a word outside 1 to 1,000.
pub fn load_table(table: &[u32]) -> u32 {
    // SAFETY: each pointer goes with the length of its slice, which is borrowed for the whole call, alone where it is mutable.
    unsafe { exported::load_table(table.as_ptr(), table.len()) }
}

/// Writes the built-in unit table to 12 words.
pub fn built_in_table(table: &mut [u32]) -> u32 {
    // SAFETY: each pointer goes with the length of its slice, which is borrowed for the whole call, alone where it is mutable.
    unsafe { exported::built_in_table(table.as_mut_ptr(), table.len()) }
}

/// Writes the plan of a breakpoint to 3 × n words (cut, start, identifier of each worker), and the visits, events, units and the
/// workers word to four totals. The units are by the unit table, on which nothing else of the plan depends; 27, where it does not load,
/// comes after 15. For every identifier that covers and whose checkpoints are all at or below the cut, no start is before the worker's
/// checkpoint with that identifier.
pub fn plan(
    log: &[u8],
    worker: u32,
    event: u32,
    table: &[u32],
    words: &mut [u32],
    scratch: &mut [u32],
    totals: &mut [u64],
) -> u32 {
    // SAFETY: each pointer goes with the length of its slice, which is borrowed for the whole call, alone where it is mutable.
    unsafe {
        exported::plan(
            log.as_ptr(),
            log.len(),
            worker,
            event,
            table.as_ptr(),
            table.len(),
            words.as_mut_ptr(),
            words.len(),
            scratch.as_mut_ptr(),
            scratch.len(),
            totals.as_mut_ptr(),
            totals.len(),
        )
    }
}

/// Writes 1 to the first word of `answer` where the first n words are a consistent cut, else 0.
pub fn cut_test(log: &[u8], words: &[u32], answer: &mut [u32]) -> u32 {
    // SAFETY: each pointer goes with the length of its slice, which is borrowed for the whole call, alone where it is mutable.
    unsafe {
        exported::cut_test(
            log.as_ptr(),
            log.len(),
            words.as_ptr(),
            words.len(),
            answer.as_mut_ptr(),
            answer.len(),
        )
    }
}

/// Writes 1 to the first word of `answer` where the identifier covers, else 0.
pub fn covers(log: &[u8], identifier: u32, answer: &mut [u32]) -> u32 {
    // SAFETY: each pointer goes with the length of its slice, which is borrowed for the whole call, alone where it is mutable.
    unsafe {
        exported::covers(
            log.as_ptr(),
            log.len(),
            identifier,
            answer.as_mut_ptr(),
            answer.len(),
        )
    }
}

/// One step of a worker over plan words: 0 with its position one higher, or a refusal.
pub fn step(log: &[u8], words: &[u32], positions: &mut [u32], worker: u32) -> u32 {
    // SAFETY: each pointer goes with the length of its slice, which is borrowed for the whole call, alone where it is mutable.
    unsafe {
        exported::step(
            log.as_ptr(),
            log.len(),
            words.as_ptr(),
            words.len(),
            positions.as_mut_ptr(),
            positions.len(),
            worker,
        )
    }
}

/// One step for each number of `workers`, in order. The log and the plan words are tested once; then word j of `answers` is the
/// answer of step j, and the positions are those after the last step.
pub fn steps(
    log: &[u8],
    words: &[u32],
    positions: &mut [u32],
    workers: &[u32],
    answers: &mut [u32],
) -> u32 {
    // SAFETY: each pointer goes with the length of its slice, which is borrowed for the whole call, alone where it is mutable.
    unsafe {
        exported::steps(
            log.as_ptr(),
            log.len(),
            words.as_ptr(),
            words.len(),
            positions.as_mut_ptr(),
            positions.len(),
            workers.as_ptr(),
            workers.len(),
            answers.as_mut_ptr(),
            answers.len(),
        )
    }
}

/// Writes the plan of a breakpoint to 3 × n words and its totals, as [`plan`] does with the same unit table, and makes one call of
/// [`step`] for each number of `workers` from the planned starts. For each of these calls its answer and then the n positions after it
/// stand in `steps`, n + 1 words each; the positions after the list stand in `positions`, n words.
#[allow(clippy::too_many_arguments)]
pub fn restore_and_replay(
    log: &[u8],
    worker: u32,
    event: u32,
    workers: &[u32],
    table: &[u32],
    words: &mut [u32],
    scratch: &mut [u32],
    positions: &mut [u32],
    steps: &mut [u32],
    totals: &mut [u64],
) -> u32 {
    // SAFETY: each pointer goes with the length of its slice, which is borrowed for the whole call, alone where it is mutable.
    unsafe {
        exported::restore_and_replay(
            log.as_ptr(),
            log.len(),
            worker,
            event,
            workers.as_ptr(),
            workers.len(),
            table.as_ptr(),
            table.len(),
            words.as_mut_ptr(),
            words.len(),
            scratch.as_mut_ptr(),
            scratch.len(),
            positions.as_mut_ptr(),
            positions.len(),
            steps.as_mut_ptr(),
            steps.len(),
            totals.as_mut_ptr(),
            totals.len(),
        )
    }
}

/// Writes the packed log to the first bytes of `out`, and how many they are to the first word of `written`.
pub fn pack(log: &[u8], out: &mut [u8], written: &mut [u64]) -> u32 {
    // SAFETY: each pointer goes with the length of its slice, which is borrowed for the whole call, alone where it is mutable.
    unsafe {
        exported::pack(
            log.as_ptr(),
            log.len(),
            out.as_mut_ptr(),
            out.len(),
            written.as_mut_ptr(),
            written.len(),
        )
    }
}

/// Writes the interval log to the first bytes of `out`, and how many they are to the first word of `written`.
pub fn intervals(log: &[u8], out: &mut [u8], written: &mut [u64]) -> u32 {
    // SAFETY: each pointer goes with the length of its slice, which is borrowed for the whole call, alone where it is mutable.
    unsafe {
        exported::intervals(
            log.as_ptr(),
            log.len(),
            out.as_mut_ptr(),
            out.len(),
            written.as_mut_ptr(),
            written.len(),
        )
    }
}
