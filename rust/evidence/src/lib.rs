//! What the tests and the benchmark share: seeded numbers, logs made and damaged, calls compared with the reference, what a comparison
//! prints where it fails, cuts of interval logs, and the stack that calls take.

#![deny(missing_docs, unsafe_code)]

pub mod compare;
pub mod damage;
pub mod description;
pub mod failure;
pub mod intervals;
pub mod random;
pub mod runs;
pub mod sides;
pub mod stack;
pub mod touched;
