//! Room: the lists of functions that the paper counts, spelled out.

use crate::algebra::{Algebra, Full, Op};
use crate::diagram::Diagrams;
use crate::grouping;
use crate::pair::Pair;
use crate::table::Tables;

/// The greatest capacity there is.
pub const MOST_NODES: usize = 60_000;

/// A node takes ten of the lent words.
pub const NODE_WORDS: usize = 10;

/// The capacity N of a lent table of so many words.
pub fn capacity(words: usize) -> usize {
    (words / NODE_WORDS).min(MOST_NODES)
}

/// Where tables are no longer quicker than diagrams.
const MOST_TABLE_VARIABLES: usize = 12;

/// Where tables can still be used to confirm what diagrams gave.
const MOST_CROSSED_VARIABLES: usize = 16;

#[derive(Clone, Copy, PartialEq, Eq, Debug)]
pub enum Method {
    Tables,
    Diagrams,
}

/// Chooses a method by the number of variables.
pub type Choice = fn(usize) -> Method;

/// The second checker's choice.
pub fn usual(variables: usize) -> Method {
    match variables <= MOST_TABLE_VARIABLES {
        true => Method::Tables,
        false => Method::Diagrams,
    }
}

/// The other method, wherever both can be used.
pub fn crossed(variables: usize) -> Method {
    match usual(variables) {
        Method::Diagrams if variables <= MOST_CROSSED_VARIABLES => Method::Tables,
        _ => Method::Diagrams,
    }
}

/// A list that was worked.
#[derive(Clone, PartialEq, Eq, Debug)]
pub struct Worked {
    /// Its node count.
    pub nodes: usize,
    /// Per joint signal the first one whose function agrees with its own: at
    /// the start the normalised function, in a step Q times the next one.
    pub agreeing: Vec<usize>,
}

/// A list and the functions in it by which a grouping is split.
pub struct List<F> {
    pub all: Vec<F>,
    pub splitting: Vec<F>,
}

/// Works the start list, or finds that it has more than `limit` nodes.
pub fn start(pair: &Pair, limit: usize, choice: Choice) -> Result<Worked, Full> {
    match choice(pair.inputs()) {
        Method::Tables => work(Tables::new(pair.inputs()), limit, |t| start_list(pair, t)),
        Method::Diagrams => work(Diagrams::new(limit), limit, |d| start_list(pair, d)),
    }
}

/// Works the step list of a grouping, or finds it above `limit` nodes.
pub fn step(pair: &Pair, grouping: &[usize], limit: usize, choice: Choice) -> Result<Worked, Full> {
    let variables = pair.variables();
    match choice(variables) {
        Method::Tables => work(Tables::new(variables), limit, |t| {
            step_list(pair, grouping, t)
        }),
        Method::Diagrams => work(Diagrams::new(limit), limit, |d| {
            step_list(pair, grouping, d)
        }),
    }
}

fn work<A: Algebra>(
    mut algebra: A,
    limit: usize,
    list: impl Fn(&mut A) -> Result<List<A::Function>, Full>,
) -> Result<Worked, Full> {
    let list = list(&mut algebra)?;
    let nodes = algebra.node_count(&list.all);
    if nodes > limit {
        return Err(Full);
    }
    let agreeing = grouping::firsts(&list.splitting);
    Ok(Worked { nodes, agreeing })
}

/// All f at s0, then all h at s0; their only variables are the inputs x.
fn start_list<A: Algebra>(pair: &Pair, algebra: &mut A) -> Result<List<A::Function>, Full> {
    let state: Vec<_> = pair
        .initial()
        .iter()
        .map(|v| algebra.constant(*v))
        .collect();
    let x = variables(algebra, 0, pair.inputs())?;
    let f = pair.functions(algebra, &state, &x)?;
    let h = pair.normalised(algebra, &f)?;
    Ok(List {
        all: [f, h.clone()].concat(),
        splitting: h,
    })
}

/// The step list, in the paper's order.
pub fn step_list<A: Algebra>(
    pair: &Pair,
    grouping: &[usize],
    algebra: &mut A,
) -> Result<List<A::Function>, Full> {
    let (registers, inputs) = (pair.registers(), pair.inputs());
    let state = variables(algebra, 0, registers)?;
    let x = variables(algebra, registers, inputs)?;
    let f = pair.functions(algebra, &state, &x)?;
    let h = pair.normalised(algebra, &f)?;
    let mut all = [f.clone(), h.clone()].concat();

    let mut q = algebra.constant(true);
    for (v, &first) in grouping.iter().enumerate() {
        if v != first {
            let equal = algebra.combine(Op::Equal, &h[first], &h[v])?;
            q = algebra.combine(Op::And, &q, &equal)?;
            all.extend([equal, q.clone()]);
        }
    }

    let y = variables(algebra, registers + inputs, inputs)?;
    let next_f = pair.functions(algebra, &pair.next(&f), &y)?;
    let next_h = pair.normalised(algebra, &next_f)?;
    let under_q = |h: &A::Function| algebra.combine(Op::And, &q, h);
    let splitting = next_h.iter().map(under_q).collect::<Result<Vec<_>, _>>()?;
    all.extend([next_f, next_h, splitting.clone()].concat());
    Ok(List { all, splitting })
}

fn variables<A: Algebra>(
    algebra: &mut A,
    from: usize,
    count: usize,
) -> Result<Vec<A::Function>, Full> {
    (from..from + count).map(|i| algebra.variable(i)).collect()
}
