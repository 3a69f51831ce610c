//! The bytes of stack that a call touches: the words below a frame are filled with a byte, the call is made, and the lowest word that has
//! changed is looked for.
//!
//! This module has all `unsafe` code of the crate.

#![allow(unsafe_code)]
#![deny(clippy::undocumented_unsafe_blocks)]

use std::hint::black_box;
use std::ptr;
use std::thread::{self, Builder};

/// The bytes that are filled.
const DEPTH: usize = 256 * 1_024;

/// The bytes of a word of the stack.
const WORD: usize = 8;

/// The stack of the thread that makes the call.
const STACK: usize = 4 * DEPTH;

/// The bytes between a variable of [`below_here`] and those that are filled. Its frame, and those of [`fill`], [`lowest`] and what they
/// call, end within them, optimised or not.
const OWN: usize = 16 * 1_024;

/// How far below a frame of its own a call touches the stack, in bytes, with the stack filled with this byte before. What the frames
/// between take is in the number too, so it is compared with that of a call that does nothing.
pub fn touched(byte: u8, call: &mut (dyn FnMut() + Send)) -> usize {
    thread::scope(|scope| {
        let thread = Builder::new()
            .stack_size(STACK)
            .spawn_scoped(scope, move || below_here(byte, call));
        let bytes = thread.expect("a thread").join().expect("a call");
        assert!(bytes < DEPTH, "the call takes {DEPTH} bytes or more");
        bytes
    })
}

#[inline(never)]
fn below_here(byte: u8, call: &mut dyn FnMut()) -> usize {
    let here = black_box(0_u8);
    let top = (&raw const here).expose_provenance().next_multiple_of(WORD) - OWN;
    fill(top, byte);
    far_below(call);
    let bytes = lowest(top, byte);
    black_box(&here);
    bytes
}

/// Makes a call from a frame that reaches below those bytes that are not filled, so that a call that does nothing changes one that is.
#[inline(never)]
fn far_below(call: &mut dyn FnMut()) {
    let mut space = [0_u8; 2 * OWN];
    black_box(&mut space);
    call();
    black_box(&mut space);
}

/// The words to fill: how far below an address each of them is.
fn places() -> impl DoubleEndedIterator<Item = usize> {
    (1..=DEPTH / WORD).map(|word| word * WORD)
}

/// Fills the words below an address, which is a multiple of their size.
#[inline(never)]
fn fill(top: usize, byte: u8) {
    for below in places() {
        let at = ptr::with_exposed_provenance_mut::<u64>(top - below);
        // SAFETY: the word is on the stack of this thread, which has STACK bytes, and OWN bytes or more below a variable of the caller's, so
        // below all frames: no variable is there. It is in no Rust allocation, so a volatile access needs no provenance.
        unsafe { at.write_volatile(u64::from_ne_bytes([byte; WORD])) }
    }
}

/// How far below an address the lowest of the filled words is that has changed; 0 where none has.
#[inline(never)]
fn lowest(top: usize, byte: u8) -> usize {
    let has_changed = |&below: &usize| {
        let at = ptr::with_exposed_provenance::<u64>(top - below);
        // SAFETY: the word is one that `fill` wrote, and below all frames as it was then.
        unsafe { at.read_volatile() != u64::from_ne_bytes([byte; WORD]) }
    };
    places().rev().find(has_changed).unwrap_or(0)
}
