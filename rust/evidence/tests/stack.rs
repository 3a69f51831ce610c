//! The stack of the exported calls: each gives its answers on a thread with 128 KiB, on logs that make it go deep; what the program `stack`
//! prints of the visits and of the blocks of `intervals`; and how the bytes are measured.

use evidence::description::Worker;
use evidence::sides::{NAMES, REFERENCE};
use evidence::stack::{block_bits, cases, of_blocks, visited, OfVisits, PLACES, VISITED};
use evidence::touched::touched;
use std::hint::black_box;
use std::process::Command;

/// The bytes of the stack, those of the thread itself included.
const STACK: usize = 128 * 1_024;

/// The bytes that an open visit may take: those of docs/DECISIONS.md, "Memory of a plan". With a row of 64 words it took 352.
const VISIT: usize = 320;

#[test]
fn every_call_needs_less_than_128_kib() {
    for call in NAMES {
        let mut command = Command::new(env!("CARGO_BIN_EXE_stack"));
        command.args([call, &STACK.to_string()]);
        let output = command.output().expect("a process");
        let errors = String::from_utf8_lossy(&output.stderr);
        assert!(
            output.status.success(),
            "{call}: {}\n{errors}",
            output.status
        );
    }
}

/// Writes to this many bytes of its frame.
#[inline(never)]
fn write<const BYTES: usize>() {
    let mut bytes = [0_u8; BYTES];
    black_box(&mut bytes);
}

/// The bytes of a frame are found with either byte before them, and those of the call itself are few.
#[test]
fn bytes_of_a_frame() {
    let frames: [(usize, fn()); 3] = [
        (1_000, write::<1_000>),
        (10_000, write::<10_000>),
        (100_000, write::<100_000>),
    ];
    for byte in [0x5a, 0xa5] {
        let none = touched(byte, &mut || ());
        for (bytes, write) in frames {
            let found = touched(byte, &mut || black_box(write)()) - none;
            assert!((bytes..bytes + 200).contains(&found), "{found} of {bytes}");
        }
    }
}

#[test]
fn the_same_bytes_each_time() {
    let [case, ..] = cases();
    for call in NAMES {
        let [first, again] = [case.stack(call), case.stack(call)];
        assert_eq!(first, again, "{call}");
    }
}

/// Each log has its blocks and is converted, with the table of [`PLACES`] numbers of 16 bits on the stack; in form 2 the test of the log,
/// which comes first, does not add to it.
#[test]
fn blocks_of_intervals() {
    const TABLE: usize = 2 * PLACES;
    for (bits, case) in of_blocks() {
        for form in [1, 2] {
            let case = case.clone().of_form(form);
            assert_eq!(block_bits(&case.log), bits);
            let answer = case.arguments.answer("intervals", &REFERENCE, &case.log);
            assert_eq!(answer[0], 0, "blocks of {} events", 1 << bits);
            let found = case.stack("intervals");
            assert!((TABLE..STACK - TABLE / 2).contains(&found), "{found} bytes");
        }
    }
}

/// The largest send of a worker that the first events of another name.
fn component(events: &Worker, event: u32, of: usize) -> u32 {
    let receives = events.events[..event as usize].iter();
    let sends = receives.filter(|e| e.kind != 1 && usize::from(e.peer) == of);
    sends.map(|e| e.send).max().unwrap_or(0)
}

/// How many visits of Figure 2 are open at a time, at the most, from this one on.
fn depth(workers: &[Worker], cut: &mut [u32], (worker, event): (usize, u32)) -> usize {
    let mut below = 0;
    for peer in 0..workers.len() {
        let named = component(&workers[worker], event, peer);
        if named > cut[peer] {
            cut[peer] = named;
            below = below.max(depth(workers, cut, (peer, named)));
        }
    }
    1 + below
}

/// As many visits are open at a time as there are workers, and each takes the same bytes, no more than it may.
#[test]
fn open_visits() {
    for workers in VISITED {
        let last = workers - 1;
        let log = visited(workers).workers;
        let event = log[last].events.len() as u32;
        let mut cut = vec![0; workers];
        cut[last] = event;
        assert_eq!(depth(&log, &mut cut, (last, event)), workers);
    }
    for call in ["lower_cut", "plan", "restore_and_replay"] {
        let OfVisits { bytes, of_each, .. } = OfVisits::new(call);
        let [of_16, of_32, of_64] = bytes;
        assert_eq!(of_64 - of_32, 32 * of_each, "{call}: {bytes:?}");
        assert_eq!(of_32 - of_16, 16 * of_each, "{call}: {bytes:?}");
        assert!(of_each <= VISIT, "{call}: {of_each} bytes for each visit");
    }
}
