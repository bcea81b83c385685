//! Proposed groupings.

use crate::calls::{refine, Written};
use crate::grouping::{self, length};
use crate::room::NODE_WORDS;

use super::rng::Rng;

#[derive(Clone, Copy, PartialEq, Eq, Debug)]
pub enum Proposal {
    OneClass,
    AllSingle,
    Random,
    /// What refine wrote from one class, as it is.
    Refined,
    /// The same with random class numbers.
    Renumbered,
    /// The same with one signal moved.
    Disturbed,
    /// The same with two classes made one.
    Merged,
}

pub const PROPOSALS: [(usize, Proposal); 7] = [
    (6, Proposal::OneClass),
    (1, Proposal::AllSingle),
    (4, Proposal::Random),
    (3, Proposal::Refined),
    (2, Proposal::Renumbered),
    (3, Proposal::Disturbed),
    (3, Proposal::Merged),
];

/// The classes of a proposal for two sheets with `n` signals in all; where
/// there is no room to refine, the refined ones become one class.
pub fn classes(
    rng: &mut Rng,
    proposal: Proposal,
    a: &[u8],
    b: &[u8],
    n: usize,
    limit: usize,
) -> Vec<u8> {
    match proposal {
        Proposal::OneClass => vec![rng.byte(); n],
        Proposal::AllSingle => {
            let mut all: Vec<u8> = (0..=255).collect();
            rng.shuffle(&mut all);
            all.truncate(n);
            all
        }
        Proposal::Random => {
            let numbers = rng.between(1, 6);
            let numbers = rng.bytes(numbers);
            (0..n).map(|_| *rng.pick(&numbers)).collect()
        }
        Proposal::Refined => refined(a, b, n, limit),
        Proposal::Renumbered => renumbered(rng, &refined(a, b, n, limit)),
        Proposal::Disturbed => {
            let mut classes = refined(a, b, n, limit);
            let (v, w) = (rng.below(n), rng.below(n));
            classes[v] = classes[w];
            classes
        }
        Proposal::Merged => {
            let classes = refined(a, b, n, limit);
            let (kept, gone) = (classes[rng.below(n)], classes[rng.below(n)]);
            let merged = |class| if class == gone { kept } else { class };
            classes.into_iter().map(merged).collect()
        }
    }
}

fn refined(a: &[u8], b: &[u8], n: usize, limit: usize) -> Vec<u8> {
    let one_class = grouping::file(&vec![0; n]);
    let outcome = refine(a, b, &one_class, limit * NODE_WORDS, length(n));
    match outcome.written {
        Written::Bytes(bytes) => bytes[1..].iter().step_by(2).copied().collect(),
        _ => vec![0; n],
    }
}

/// The same grouping under random class numbers.
fn renumbered(rng: &mut Rng, classes: &[u8]) -> Vec<u8> {
    let mut numbers: Vec<u8> = (0..=255).collect();
    rng.shuffle(&mut numbers);
    classes
        .iter()
        .map(|class| numbers[usize::from(*class)])
        .collect()
}
