//! An independent second checker for Yellopard.
//!
//! It answers the four calls (write, run, check, refine) from the paper's
//! words alone. The table that a caller lends enters only as a number: all
//! work here is done on plain owned data. Functions are truth tables where
//! their variables are few, and diagrams of this package's own elsewhere.

#![forbid(unsafe_code)]

pub mod algebra;
pub mod answer;
pub mod calls;
pub mod compare;
pub mod course;
pub mod diagram;
pub mod gen;
pub mod grouping;
pub mod hash;
pub mod naive;
pub mod pair;
pub mod room;
pub mod sheet;
pub mod table;
pub mod tick;
