//! Functions as decision diagrams, for more variables than tables can carry:
//! a plain list of nodes, one map that keeps them different, and one memory of
//! what was combined before.

use crate::algebra::{Algebra, Full, Op};
use crate::hash::{Map, Set};

/// A function is the number of its node; 0 and 1 are the constants.
pub type Function = u32;

#[derive(Clone, Copy, PartialEq, Eq, Hash, Debug)]
pub struct Node {
    pub variable: u8,
    /// What is left when the variable is 0, and when it is 1.
    pub low: Function,
    pub high: Function,
}

/// The constants stand below all variables.
const BELOW_ALL: u8 = u8::MAX;

pub struct Diagrams {
    limit: usize,
    /// The two constants, then the nodes, each behind its branches.
    nodes: Vec<Node>,
    numbers: Map<Node, Function>,
    combined: Map<(Op, Function, Function), Function>,
}

impl Diagrams {
    /// Diagrams of at most `limit` nodes. Where they only ever combine the
    /// functions of one list into further functions of that list, each node
    /// made is one that the list's count counts: combining goes down both
    /// functions by fixing leading variables, and what it makes on its way is
    /// the result with the same variables fixed. So a list that meets the limit
    /// has more nodes than it, and work can end there.
    pub fn new(limit: usize) -> Diagrams {
        let constant = |value| Node {
            variable: BELOW_ALL,
            low: value,
            high: value,
        };
        Diagrams {
            limit,
            nodes: vec![constant(0), constant(1)],
            numbers: Map::default(),
            combined: Map::default(),
        }
    }

    /// The nodes made so far, constants left out.
    pub fn made(&self) -> &[Node] {
        &self.nodes[2..]
    }

    /// The function's value where variable i has the value of place i.
    pub fn value(&self, mut f: Function, point: &[bool]) -> bool {
        while f > 1 {
            let node = self.nodes[f as usize];
            f = match point[usize::from(node.variable)] {
                true => node.high,
                false => node.low,
            };
        }
        f == 1
    }

    fn node(&mut self, variable: u8, low: Function, high: Function) -> Result<Function, Full> {
        if low == high {
            return Ok(low);
        }
        let node = Node {
            variable,
            low,
            high,
        };
        if let Some(&number) = self.numbers.get(&node) {
            return Ok(number);
        }
        if self.made().len() == self.limit {
            return Err(Full);
        }
        let number = self.nodes.len() as Function;
        self.nodes.push(node);
        self.numbers.insert(node, number);
        Ok(number)
    }

    /// The two restrictions of a function by the given variable, which stands
    /// at the function's first one or before it.
    fn branches(&self, f: Function, variable: u8) -> (Function, Function) {
        let node = self.nodes[f as usize];
        match node.variable == variable {
            true => (node.low, node.high),
            false => (f, f),
        }
    }

    fn descend(&mut self, op: Op, f: Function, g: Function) -> Result<Function, Full> {
        if let Some(done) = at_once(op, f, g) {
            return Ok(done);
        }
        if let Some(&known) = self.combined.get(&(op, f, g)) {
            return Ok(known);
        }
        let first = |f: Function| self.nodes[f as usize].variable;
        let variable = first(f).min(first(g));
        let (f0, f1) = self.branches(f, variable);
        let (g0, g1) = self.branches(g, variable);
        let low = self.descend(op, f0, g0)?;
        let high = self.descend(op, f1, g1)?;
        let result = self.node(variable, low, high)?;
        self.combined.insert((op, f, g), result);
        Ok(result)
    }
}

/// The result where one side is constant and leaves nothing to compute.
fn at_once(op: Op, f: Function, g: Function) -> Option<Function> {
    // All four operations are symmetric: the constant may stand on either side.
    let (constant, other) = match (f, g) {
        (0 | 1, _) => (f, g),
        (_, 0 | 1) => (g, f),
        _ => return None,
    };
    let column = |value| op.of(constant == 1, value);
    match (column(false), column(true)) {
        (false, false) => Some(0),
        (true, true) => Some(1),
        (false, true) => Some(other),
        (true, false) if other <= 1 => Some(1 - other),
        (true, false) => None,
    }
}

impl Algebra for Diagrams {
    type Function = Function;

    fn constant(&self, value: bool) -> Function {
        value.into()
    }

    fn variable(&mut self, index: usize) -> Result<Function, Full> {
        self.node(index as u8, 0, 1)
    }

    fn combine(&mut self, op: Op, f: &Function, g: &Function) -> Result<Function, Full> {
        self.descend(op, *f, *g)
    }

    /// The nodes that can be reached from the list.
    fn node_count(&self, list: &[Function]) -> usize {
        let mut reached: Set<Function> = Set::default();
        let mut open: Vec<Function> = list.to_vec();
        while let Some(f) = open.pop() {
            if f > 1 && reached.insert(f) {
                let node = self.nodes[f as usize];
                open.extend([node.low, node.high]);
            }
        }
        reached.len()
    }
}
