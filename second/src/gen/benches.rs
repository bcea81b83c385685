//! The paper's benches.

pub const L: [u8; 9] = [1, 0, 2, 0, 0, 7, 0, 1, 8];
pub const I: [u8; 13] = [1, 0, 2, 1, 3, 3, 1, 3, 0, 7, 0, 2, 8];
/// I with initial value 0.
pub const J: [u8; 13] = [1, 0, 2, 0, 3, 3, 1, 3, 0, 7, 0, 2, 8];
pub const D: [u8; 12] = [1, 0, 2, 0, 0, 2, 0, 1, 7, 0, 2, 8];
pub const K: [u8; 11] = [1, 0, 2, 0, 0, 3, 1, 7, 0, 2, 8];
pub const R: [u8; 7] = [2, 0, 0, 7, 0, 0, 8];
pub const W: [u8; 16] = [2, 1, 2, 2, 0, 0, 2, 0, 1, 4, 1, 2, 7, 0, 3, 8];

/// All of them; R and W have no inputs.
pub const ALL: [&[u8]; 7] = [&L, &I, &J, &D, &K, &R, &W];
