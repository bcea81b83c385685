//! What the two ways of holding Boolean functions have in common, so that the
//! paper's lists are spelled out once for both.

use std::hash::Hash;

use crate::sheet::Gate;

/// An operation on two Boolean values.
#[derive(Clone, Copy, PartialEq, Eq, Hash, Debug)]
pub enum Op {
    And,
    Or,
    Xor,
    Equal,
}

impl Op {
    pub fn of(self, f: bool, g: bool) -> bool {
        match self {
            Op::And => f & g,
            Op::Or => f | g,
            Op::Xor => f != g,
            Op::Equal => f == g,
        }
    }
}

impl From<Gate> for Op {
    fn from(gate: Gate) -> Op {
        match gate {
            Gate::And => Op::And,
            Gate::Or => Op::Or,
            Gate::Xor => Op::Xor,
        }
    }
}

/// The list being worked has more nodes than were asked about.
#[derive(Clone, Copy, PartialEq, Eq, Debug)]
pub struct Full;

/// A way of holding functions of the joint variables. Functions are equal as
/// values exactly when they are equal as functions.
pub trait Algebra {
    type Function: Clone + Eq + Hash;

    fn constant(&self, value: bool) -> Self::Function;

    fn variable(&mut self, index: usize) -> Result<Self::Function, Full>;

    fn combine(
        &mut self,
        op: Op,
        f: &Self::Function,
        g: &Self::Function,
    ) -> Result<Self::Function, Full>;

    /// The paper's node count of a list.
    fn node_count(&self, list: &[Self::Function]) -> usize;

    fn complement(&mut self, f: &Self::Function) -> Result<Self::Function, Full> {
        let one = self.constant(true);
        self.combine(Op::Xor, f, &one)
    }
}
