//! A naive second evaluation of the second checker itself, for `--self`.
//!
//! Faults are found by listing them all and taking the earliest, runs by
//! asking for the value of a signal at a tick, correspondence by trying every
//! state and input, counts by fixing variables one by one. Where that would
//! take too long the method that was not used is used instead.

pub mod audit;
pub mod brute;
pub mod coarsest;
pub mod course;
pub mod face;
pub mod faults;
pub mod machine;
