//! How much is lent: tables at, just above and just below the node counts,
//! results at, just above and just below the length needed, and rows with and
//! without a place for every number of an answer.

use crate::answer::LONGEST_ANSWER;
use crate::room::{MOST_NODES, NODE_WORDS};

use super::rng::Rng;

/// Table lengths for lists with these node counts, none above the limit. The
/// generous one comes first.
pub fn tables(rng: &mut Rng, counts: &[usize], limit: usize, edges: usize) -> Vec<usize> {
    let most = counts.iter().copied().max().unwrap_or(0);
    let generous = (most + rng.below(40)).min(limit);
    let mut capacities = vec![generous];
    let mut near: Vec<usize> = counts
        .iter()
        .flat_map(|count| [*count + 1, *count, count.saturating_sub(1)])
        .filter(|capacity| *capacity <= limit)
        .collect();
    near.sort_unstable();
    near.dedup();
    rng.shuffle(&mut near);
    near.truncate(edges);
    capacities.extend(near);
    capacities.iter().map(|n| words(rng, *n)).collect()
}

/// A table of capacity `n`: not always whole tens.
pub fn words(rng: &mut Rng, n: usize) -> usize {
    let more = if rng.chance(1, 2) {
        0
    } else {
        rng.below(NODE_WORDS)
    };
    NODE_WORDS * n + more
}

/// A table for files that are mostly refused.
pub fn any_table(rng: &mut Rng) -> usize {
    rng.below(2_000)
}

/// A table that is longer than any table can be used.
pub fn longest(rng: &mut Rng) -> usize {
    NODE_WORDS * MOST_NODES + rng.below(3_000)
}

/// The places of a row: mostly just enough for every answer.
pub fn row(rng: &mut Rng) -> usize {
    match rng.below(6) {
        0 => rng.below(LONGEST_ANSWER),
        1 => LONGEST_ANSWER + rng.between(1, 4),
        _ => LONGEST_ANSWER,
    }
}

/// A result length: mostly enough.
pub fn result(rng: &mut Rng, needed: usize) -> usize {
    match rng.below(12) {
        0 => needed.saturating_sub(1),
        1 => rng.below(needed + 1),
        2..=6 => needed,
        7..=8 => needed + 1,
        _ => needed + rng.below(40),
    }
}
