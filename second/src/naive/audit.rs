//! Where neither tables nor trying every point will do, the diagrams that were
//! counted are looked over: they are reduced, nothing was made beside the list,
//! and at random points the list's functions have the values they should have.

use crate::algebra::Algebra;
use crate::diagram::{Diagrams, Node};
use crate::gen::rng::Rng;
use crate::hash::Set;
use crate::pair::Pair;
use crate::room::step_list;

use super::brute::{Machine, Relation};

const POINTS: usize = 40;

/// What is wrong with the diagrams of a step list, if it fits the limit.
pub fn objection(
    machine: &Machine,
    pair: &Pair,
    grouping: &[usize],
    limit: usize,
    rng: &mut Rng,
) -> Option<String> {
    let mut diagrams = Diagrams::new(limit);
    let list = step_list(pair, grouping, &mut diagrams).ok()?;
    if let Some(node) = unreduced(diagrams.made()) {
        return Some(format!("the diagram is not reduced at {node:?}"));
    }
    if diagrams.node_count(&list.all) != diagrams.made().len() {
        return Some("nodes were made beside the list".into());
    }
    let together = relation(grouping);
    for _ in 0..POINTS {
        let values = (0..machine.step_variables()).map(|_| rng.chance(1, 2));
        let point: Vec<bool> = values.collect();
        let values = list.all.iter().map(|f| diagrams.value(*f, &point));
        if values.collect::<Vec<_>>() != machine.step_values(&together, &point) {
            return Some(format!("the list's values are wrong at {point:?}"));
        }
    }
    None
}

/// A node with equal branches, a branch that is not below it, or a double.
fn unreduced(nodes: &[Node]) -> Option<Node> {
    let mut seen: Set<Node> = Set::default();
    let below = |node: &Node, branch: u32| match branch.checked_sub(2) {
        None => true,
        Some(place) => nodes[place as usize].variable > node.variable,
    };
    let good =
        |node: &Node| node.low != node.high && below(node, node.low) && below(node, node.high);
    let bad = |node: &&Node| !good(node) || !seen.insert(**node);
    nodes.iter().find(bad).copied()
}

fn relation(grouping: &[usize]) -> Relation {
    let row = |first: &usize| grouping.iter().map(|other| other == first).collect();
    grouping.iter().map(row).collect()
}
