//! Is a grouping the coarsest one inside a proposal that satisfies Start and
//! Step? By trying every grouping there is.

use super::brute::{both, Machine, Relation};

/// The most signals for which every grouping is tried (203 of them).
pub const MOST_SIGNALS: usize = 6;

/// All groupings of `n` things, as class numbers from 0 in order of first member.
fn groupings(n: usize) -> Vec<Vec<u8>> {
    let mut all: Vec<Vec<u8>> = vec![Vec::new()];
    for _ in 0..n {
        let longer = all.iter().flat_map(|classes| {
            let classes_so_far = classes.iter().max().map_or(0, |most| most + 1);
            (0..=classes_so_far).map(|class| [&classes[..], &[class]].concat())
        });
        all = longer.collect();
    }
    all
}

/// Is everything that `fine` has together also together in `coarse`?
fn inside(fine: &Relation, coarse: &Relation) -> bool {
    both(fine, coarse) == *fine
}

/// What is wrong with `result` as the coarsest grouping inside `proposal`.
pub fn objection(machine: &Machine, proposal: &[u8], result: &[u8]) -> Option<String> {
    let proposal = machine.relation(proposal);
    let result = machine.relation(result);
    let start = machine.start();
    let satisfies =
        |grouping: &Relation| inside(grouping, &start) && inside(grouping, &machine.step(grouping));
    if !inside(&result, &proposal) {
        return Some("the grouping is not inside the proposal".into());
    }
    if !satisfies(&result) {
        return Some("the grouping fails Start or Step".into());
    }
    let relations = groupings(machine.len()).into_iter();
    let missed = relations
        .map(|classes| (machine.relation(&classes), classes))
        .filter(|(grouping, _)| inside(grouping, &proposal) && !inside(grouping, &result))
        .find(|(grouping, _)| satisfies(grouping));
    missed.map(|(_, classes)| format!("not the coarsest: {classes:?} satisfies Start and Step"))
}

#[cfg(test)]
mod tests {
    use super::groupings;

    #[test]
    fn bell_numbers() {
        let counts: Vec<usize> = (0..7).map(|n| groupings(n).len()).collect();
        assert_eq!(counts, [1, 1, 2, 5, 15, 52, 203]);
    }
}
