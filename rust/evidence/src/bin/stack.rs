//! Measures the stack that each exported call takes, on logs that make it go deep.
//!
//! `cargo run --release --bin stack`: for each call the bytes of stack that it touches, on logs of form 1 and of form 2; for the calls
//! that make visits those on logs of 16, 32 and 64 workers on which as many visits are open at a time; for `intervals` those on logs with
//! blocks of 1, 16 and 128 events; and for each call the smallest stack of a thread on which it gives what the reference gives, what the
//! thread itself needs included. Each try of the last is a process of its own, which is ended where the stack is too small.
//!
//! `stack CALL BYTES`: one try.

use evidence::description::MAX_WORKERS;
use evidence::sides::{EXPORTED, NAMES, REFERENCE};
use evidence::stack::{cases, of_blocks, of_forms, Case, OfVisits, VISITED};
use std::process::{Command, ExitCode, Stdio};
use std::thread::Builder;

/// Sizes of a stack are tried in steps of this many bytes, up to the largest.
const PAGE: usize = 4_096;
const LARGEST: usize = 256 * PAGE;

/// The logs of a call: for `intervals` those of other blocks too.
fn cases_of(call: &str) -> Vec<Case> {
    let mut all = cases().to_vec();
    if call == "intervals" {
        for (_, case) in of_blocks() {
            if all.iter().all(|other| other.log != case.log) {
                all.push(case);
            }
        }
    }
    all
}

/// Makes a call on each log, on a thread with a stack of this many bytes.
fn try_call(call: &str, bytes: usize) {
    for Case { log, arguments } in cases_of(call) {
        let name = call.to_string();
        let (given, lent) = (arguments.clone(), log.clone());
        let thread = Builder::new()
            .stack_size(bytes)
            .spawn(move || given.answer(&name, &EXPORTED, &lent));
        let found = thread.expect("a thread").join().expect("an answer");
        // 26: the log whose sends share bytes would be too long, packed.
        assert!(matches!(found[0], 0 | 21..=23 | 26), "{call}: {}", found[0]);
        assert_eq!(found, arguments.answer(call, &REFERENCE, &log), "{call}");
    }
}

/// Whether a call gives its answers on a stack of this many bytes, in a process of its own.
fn is_enough(call: &str, bytes: usize) -> bool {
    let program = std::env::current_exe().expect("the program's path");
    let mut command = Command::new(program);
    command.args([call, &bytes.to_string()]);
    let status = command.stderr(Stdio::null()).status();
    status.expect("a process").success()
}

/// The smallest stack for a call, in pages.
fn smallest(call: &str) -> usize {
    let (mut few, mut enough) = (0, LARGEST / PAGE);
    assert!(is_enough(call, LARGEST), "{call} needs more than {LARGEST}");
    while few + 1 < enough {
        let middle = (few + enough) / 2;
        if is_enough(call, middle * PAGE) {
            enough = middle;
        } else {
            few = middle;
        }
    }
    enough
}

/// Prints the bytes of stack that each call takes.
fn print_bytes() {
    let cases = cases();
    println!(
        "bytes of stack that the call takes, the most on {} logs of {MAX_WORKERS} workers:",
        cases.len()
    );
    println!("  {:<18} {:>7} {:>7}", "call", "form 1", "form 2");
    for call in NAMES {
        let [one, two] = of_forms(call, &cases);
        println!("  {call:<18} {one:>7} {two:>7}");
    }
}

/// Prints the bytes of stack of the visits of the calls that make them.
fn print_visits() {
    println!("bytes of stack on logs of form 1 on which as many visits are open at a time as there are workers:");
    let [few, more, most] = VISITED.map(|workers| format!("{workers} workers"));
    println!(
        "  {:<18} {few:>10} {more:>10} {most:>10} {:>10} {:>11}",
        "call", "each visit", "128 workers"
    );
    for call in ["lower_cut", "plan", "restore_and_replay"] {
        let OfVisits {
            bytes: [few, more, most],
            of_each,
            of_128,
        } = OfVisits::new(call);
        println!("  {call:<18} {few:>10} {more:>10} {most:>10} {of_each:>10} {of_128:>11}");
    }
}

/// Prints the bytes of stack of `intervals` by the events of a block.
fn print_blocks() {
    println!("bytes of stack that intervals takes, by the events of a block:");
    println!("  {:<18} {:>7} {:>7}", "events", "form 1", "form 2");
    for (bits, case) in of_blocks() {
        let [one, two] = of_forms("intervals", &[case]);
        println!("  {:<18} {one:>7} {two:>7}", 1 << bits);
    }
}

/// Prints the smallest stack of a thread that makes each call.
fn print_smallest() {
    println!("the smallest stack of a thread that makes the call, in KiB:");
    for call in NAMES {
        println!("  {call:<18} {:>4}", smallest(call) * PAGE / 1_024);
    }
}

fn main() -> ExitCode {
    let arguments: Vec<String> = std::env::args().skip(1).collect();
    match &arguments[..] {
        [] => {
            print_bytes();
            print_visits();
            print_blocks();
            print_smallest();
            ExitCode::SUCCESS
        }
        [call, bytes] => {
            try_call(call, bytes.parse().expect("a number of bytes"));
            ExitCode::SUCCESS
        }
        _ => ExitCode::FAILURE,
    }
}
