//! Functions as truth tables.
//!
//! The table of a function of k variables is a row of 2^k bits. The leading
//! variable is the highest bit of the index, so fixing leading variables means
//! taking one of the equal parts of the row: nothing has to be computed.

use crate::algebra::{Algebra, Full, Op};
use crate::hash::Set;

/// One word holds the table of the last six variables.
const WORD_VARIABLES: usize = 6;

/// Bit j of the index, over the 64 indices of one word.
const INDEX_BITS: [u64; WORD_VARIABLES] = [
    0xaaaa_aaaa_aaaa_aaaa,
    0xcccc_cccc_cccc_cccc,
    0xf0f0_f0f0_f0f0_f0f0,
    0xff00_ff00_ff00_ff00,
    0xffff_0000_ffff_0000,
    0xffff_ffff_0000_0000,
];

pub struct Tables {
    variables: usize,
}

impl Tables {
    /// Tables of at least six variables: behind fewer, variables are added on
    /// which no function depends, and those add no node to any count.
    pub fn new(variables: usize) -> Tables {
        Tables {
            variables: variables.max(WORD_VARIABLES),
        }
    }

    fn words(&self) -> usize {
        1 << (self.variables - WORD_VARIABLES)
    }
}

impl Algebra for Tables {
    type Function = Vec<u64>;

    fn constant(&self, value: bool) -> Vec<u64> {
        vec![if value { u64::MAX } else { 0 }; self.words()]
    }

    fn variable(&mut self, index: usize) -> Result<Vec<u64>, Full> {
        let bit = self.variables - 1 - index;
        let word = |place: usize| match bit.checked_sub(WORD_VARIABLES) {
            None => INDEX_BITS[bit],
            Some(bit) if place >> bit & 1 == 1 => u64::MAX,
            Some(_) => 0,
        };
        Ok((0..self.words()).map(word).collect())
    }

    fn combine(&mut self, op: Op, f: &Vec<u64>, g: &Vec<u64>) -> Result<Vec<u64>, Full> {
        let word = |(f, g): (&u64, &u64)| match op {
            Op::And => f & g,
            Op::Or => f | g,
            Op::Xor => f ^ g,
            Op::Equal => !(f ^ g),
        };
        Ok(f.iter().zip(g).map(word).collect())
    }

    /// Level by level, the different functions got by fixing so many leading
    /// variables. One that depends on the level's variable is counted there;
    /// one that does not is the same as its restriction and is met again one
    /// level on. So every different non-constant function is counted once.
    fn node_count(&self, list: &[Vec<u64>]) -> usize {
        let mut count = 0;
        let mut level: Set<&[u64]> = list.iter().map(Vec::as_slice).collect();
        let mut words = self.words();
        while words > 1 {
            words /= 2;
            let mut next = Set::default();
            for function in level {
                let (low, high) = function.split_at(words);
                count += usize::from(low != high);
                next.extend([low, high]);
            }
            level = next;
        }
        count + count_in_words(level.into_iter().map(|function| function[0]).collect())
    }
}

/// The same count for functions of the last six variables.
fn count_in_words(mut level: Set<u64>) -> usize {
    let mut count = 0;
    let mut bits = u64::BITS;
    while bits > 1 {
        bits /= 2;
        let mut next = Set::default();
        for function in level {
            let (low, high) = (function & ((1 << bits) - 1), function >> bits);
            count += usize::from(low != high);
            next.extend([low, high]);
        }
        level = next;
    }
    count
}

#[cfg(test)]
mod tests {
    use super::*;

    #[test]
    fn variables_count_one_each_and_constants_none() {
        let mut tables = Tables::new(9);
        let mut list = vec![tables.constant(false), tables.constant(true)];
        assert_eq!(tables.node_count(&list), 0);
        for index in 0..9 {
            list.push(tables.variable(index).unwrap());
            assert_eq!(tables.node_count(&list), index + 1);
        }
    }

    #[test]
    fn parity_has_two_nodes_per_variable_but_the_first() {
        let mut tables = Tables::new(8);
        let mut parity = tables.constant(false);
        for index in 0..8 {
            let variable = tables.variable(index).unwrap();
            parity = tables.combine(Op::Xor, &parity, &variable).unwrap();
        }
        assert_eq!(tables.node_count(&[parity]), 15);
    }
}
