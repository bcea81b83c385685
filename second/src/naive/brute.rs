//! Correspondence by trying every state and every input, in the paper's words:
//! a grouping is a relation, and each round compares every two signals.

use std::collections::HashSet;

use super::machine::Raw;

/// Which two signals are together.
pub type Relation = Vec<Vec<bool>>;

/// The most variables for which every point is tried.
pub const MOST_TRIED: usize = 9;

/// The most variables for which a function fits one word.
pub const MOST_LITERAL: usize = 6;

/// What a variable stands for: what a register of A or of B holds, an input at
/// the present tick or at the next one.
#[derive(Clone, Copy, PartialEq, Eq, Debug)]
enum Variable {
    OfA,
    OfB,
    X,
    Y,
}

pub struct Machine {
    a: Raw,
    b: Raw,
    /// The variables of a step list in the paper's order, each by name; a point
    /// has a value for each of them. A start list has only the X among them.
    variables: Vec<Variable>,
    plain: Vec<bool>,
}

/// What the registers of A hold, and those of B.
type State = [Vec<bool>; 2];

impl Machine {
    pub fn new(a: Raw, b: Raw) -> Machine {
        let inputs = a.inputs();
        let variables = [
            vec![Variable::OfA; a.registers()],
            vec![Variable::OfB; b.registers()],
            vec![Variable::X; inputs],
            vec![Variable::Y; inputs],
        ];
        let mut machine = Machine {
            a,
            b,
            variables: variables.concat(),
            plain: Vec::new(),
        };
        machine.plain = machine.at(&machine.initial(), &[0]);
        machine
    }

    pub fn len(&self) -> usize {
        self.a.len() + self.b.len()
    }

    pub fn is_empty(&self) -> bool {
        self.len() == 0
    }

    /// The number of variables of the start list.
    pub fn start_variables(&self) -> usize {
        let is_x = |variable: &&Variable| **variable == Variable::X;
        self.variables.iter().filter(is_x).count()
    }

    /// The number of variables of a step list.
    pub fn step_variables(&self) -> usize {
        self.variables.len()
    }

    fn initial(&self) -> State {
        [self.a.initial(), self.b.initial()]
    }

    /// The values that a point gives to the variables of one name.
    fn named(&self, point: &[bool], name: Variable) -> Vec<bool> {
        let values = self.variables.iter().zip(point);
        values
            .filter(|(v, _)| **v == name)
            .map(|(_, b)| *b)
            .collect()
    }

    fn state(&self, point: &[bool]) -> State {
        [Variable::OfA, Variable::OfB].map(|name| self.named(point, name))
    }

    /// All f at a point.
    fn now(&self, point: &[bool]) -> Vec<bool> {
        let x = vector(&self.named(point, Variable::X));
        self.at(&self.state(point), &[x])
    }

    /// All f at a point, one tick on.
    fn next(&self, point: &[bool]) -> Vec<bool> {
        let [x, y] = [Variable::X, Variable::Y].map(|name| vector(&self.named(point, name)));
        self.at(&self.state(point), &[x, y])
    }

    /// All joint signals at the last tick of a run from any joint state.
    fn at(&self, [of_a, of_b]: &State, vectors: &[u8]) -> Vec<bool> {
        let mut values = self.a.values(of_a, vectors);
        values.extend(self.b.values(of_b, vectors));
        values
    }

    /// The same, normalised.
    fn h(&self, values: &[bool]) -> Vec<bool> {
        let signals = values.iter().zip(&self.plain);
        signals.map(|(f, plain)| f == plain).collect()
    }

    fn related(&self, together: impl Fn(usize, usize) -> bool) -> Relation {
        let row = |v| (0..self.len()).map(|w| together(v, w)).collect();
        (0..self.len()).map(row).collect()
    }

    pub fn relation(&self, classes: &[u8]) -> Relation {
        self.related(|v, w| classes[v] == classes[w])
    }

    /// For which two signals h is equal at s0 for all x.
    pub fn start(&self) -> Relation {
        let mut equal = self.related(|_, _| true);
        for x in points(self.start_variables()) {
            part(
                &mut equal,
                &self.h(&self.at(&self.initial(), &[vector(&x)])),
            );
        }
        equal
    }

    /// For which two signals h is equal after every (s, x) with Q, under all y.
    pub fn step(&self, together: &Relation) -> Relation {
        let mut equal = self.related(|_, _| true);
        for point in points(self.step_variables()) {
            if holds(together, &self.h(&self.now(&point))) {
                part(&mut equal, &self.h(&self.next(&point)));
            }
        }
        equal
    }

    /// The least output whose two signals are apart or of opposite polarity.
    pub fn least_unpaired(&self, together: &Relation) -> Option<usize> {
        let (a, b) = (self.a.outputs(), self.b.outputs());
        (0..a.len()).find(|&i| {
            let (v, w) = (a[i], b[i] + self.a.len());
            !together[v][w] || self.plain[v] != self.plain[w]
        })
    }

    /// The values of the start list's functions under inputs x.
    fn start_values(&self, x: &[bool]) -> Vec<bool> {
        let f = self.at(&self.initial(), &[vector(x)]);
        let h = self.h(&f);
        [f, h].concat()
    }

    /// The values of the step list's functions at one point, in their order.
    pub fn step_values(&self, together: &Relation, point: &[bool]) -> Vec<bool> {
        let f = self.now(point);
        let h = self.h(&f);
        let mut list = [f, h.clone()].concat();
        let mut q = true;
        for v in 0..self.len() {
            let first = (0..=v).find(|w| together[*w][v]).unwrap_or(v);
            if first != v {
                let equal = h[first] == h[v];
                q &= equal;
                list.extend([equal, q]);
            }
        }
        let next = self.next(point);
        let next_h = self.h(&next);
        list.extend(next);
        list.extend(&next_h);
        list.extend(next_h.iter().map(|h| q && *h));
        list
    }

    /// The start list's node count, by fixing variables; at most six of them.
    pub fn start_count(&self) -> usize {
        literal_count(self.start_variables(), |x| self.start_values(x))
    }

    /// A step list's node count, by fixing variables; at most six of them.
    pub fn step_count(&self, together: &Relation) -> usize {
        let values = |point: &[bool]| self.step_values(together, point);
        literal_count(self.step_variables(), values)
    }
}

/// Sets apart what has different values.
fn part(equal: &mut Relation, values: &[bool]) {
    for (row, v) in equal.iter_mut().zip(values) {
        for (cell, w) in row.iter_mut().zip(values) {
            *cell &= v == w;
        }
    }
}

/// Q: is everything that is together equal?
fn holds(together: &Relation, h: &[bool]) -> bool {
    let agrees = |(row, v): (&Vec<bool>, &bool)| row.iter().zip(h).all(|(t, w)| !*t || v == w);
    together.iter().zip(h).all(agrees)
}

/// Together in both.
pub fn both(one: &Relation, other: &Relation) -> Relation {
    let row = |(r, s): (&Vec<bool>, &Vec<bool>)| r.iter().zip(s).map(|(a, b)| *a && *b).collect();
    one.iter().zip(other).map(row).collect()
}

/// Input i in bit i.
fn vector(inputs: &[bool]) -> u8 {
    let bits = inputs.iter().enumerate();
    bits.map(|(i, bit)| u8::from(*bit) << i).sum()
}

/// All points of so many variables, the leading one as the highest bit.
fn points(variables: usize) -> impl Iterator<Item = Vec<bool>> {
    let point = move |index: usize| (0..variables).rev().map(|i| index >> i & 1 == 1).collect();
    (0..1usize << variables).map(point)
}

/// Counts the different non-constant functions got from a list's functions by
/// fixing leading variables. A function is one word, bit by point; a fixed one
/// is again a function of all the variables.
fn literal_count(variables: usize, list_at: impl Fn(&[bool]) -> Vec<bool>) -> usize {
    let values: Vec<Vec<bool>> = points(variables).map(|point| list_at(&point)).collect();
    let size = values.len();
    let bit = |i: usize, point: usize| u64::from(values[point][i]) << point;
    let function = |i: usize| (0..size).map(|point| bit(i, point)).sum();
    let functions: HashSet<u64> = (0..values[0].len()).map(function).collect();
    let mut fixed: HashSet<u64> = HashSet::new();
    for function in functions {
        for leading in 0..=variables {
            let part = size >> leading;
            for start in (0..size).step_by(part) {
                let value = |p: usize| function >> (start + p % part) & 1;
                fixed.insert((0..size).map(|p| value(p) << p).sum());
            }
        }
    }
    let all = if size == 64 {
        u64::MAX
    } else {
        (1 << size) - 1
    };
    fixed.into_iter().filter(|f| *f != 0 && *f != all).count()
}
