//! Seeded, repeatable cases.

pub mod benches;
pub mod cases;
pub mod damage;
pub mod edit;
pub mod lanes;
pub mod long;
pub mod loose;
pub mod proposals;
pub mod rewrite;
pub mod rng;
pub mod rooms;
pub mod sheets;
pub mod themes;
