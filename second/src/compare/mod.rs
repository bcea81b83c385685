//! Comparing the second checker with another one, call by call.

pub mod call;
pub mod coverage;
pub mod judge;
