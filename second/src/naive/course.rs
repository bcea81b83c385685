//! The course that check and refine take, found by trying everything or, where
//! that takes too long, by the method that the second checker does not use.

use crate::answer;
use crate::calls::{Checking, Refining};
use crate::compare::call::Files;
use crate::course::{Course, End};
use crate::pair::Pair;
use crate::room::{self, MOST_NODES};
use crate::sheet;

use super::brute::{both, Machine, Relation, MOST_LITERAL, MOST_TRIED};
use super::faults;

/// The course of a check or a refinement whose files are accepted.
pub fn course(refines: bool, files: &Files, machine: &Machine, limit: usize) -> Course {
    match machine.step_variables() <= MOST_TRIED {
        true => tried(refines, files, machine, limit),
        false => crossed(refines, files, limit),
    }
}

/// The course by the method that the second checker does not use.
fn crossed(refines: bool, files: &Files, limit: usize) -> Course {
    let Files { a, b, p } = files;
    let course = match refines {
        false => Checking::new(a, b, p, limit, room::crossed)
            .course()
            .cloned(),
        true => Refining::new(a, b, p, limit, room::crossed)
            .course()
            .cloned(),
    };
    course.expect("the files were accepted before")
}

/// The course by trying everything.
fn tried(refines: bool, files: &Files, machine: &Machine, limit: usize) -> Course {
    let classes = faults::grouping(&files.p, machine.len()).expect("accepted before");
    let mut together = machine.relation(&classes);
    let mut counts = vec![start_count(files, machine)];
    let start = machine.start();
    if counts[0] > limit {
        return Course::from_parts(limit, Vec::new(), None);
    }
    let mut rounds = 0;
    let mut verdict = if refines {
        together = both(&together, &start);
        None
    } else {
        least_apart(&together, &start).map(|v| (answer::START, v))
    };
    while verdict.is_none() {
        let nodes = step_count(files, machine, &together);
        if nodes > limit {
            return Course::from_parts(limit, counts, None);
        }
        counts.push(nodes);
        let step = machine.step(&together);
        let next = both(&together, &step);
        verdict = match (refines, next == together) {
            (true, false) => None,
            (false, false) => least_apart(&together, &step).map(|v| (answer::STEP, v)),
            (_, true) => match machine.least_unpaired(&together) {
                Some(output) => Some((answer::OUTPUTS, output)),
                None => Some((answer::PROVED, 0)),
            },
        };
        if verdict.is_none() {
            together = next;
            rounds += 1;
        }
    }
    let (reason, index) = verdict.expect("the loop ends with one");
    let end = End {
        reason,
        index,
        rounds,
        grouping: firsts(&together),
    };
    Course::from_parts(limit, counts, Some(end))
}

/// The least signal that is apart from the first of its class.
fn least_apart(together: &Relation, equal: &Relation) -> Option<usize> {
    let first = firsts(together);
    (0..first.len()).find(|v| !equal[*v][first[*v]])
}

fn firsts(together: &Relation) -> Vec<usize> {
    let first = |row: &Vec<bool>| row.iter().position(|t| *t);
    together.iter().filter_map(first).collect()
}

/// The two sheets as the second checker reads them.
pub fn pair(files: &Files) -> Pair {
    let read = |file: &[u8]| sheet::read(file).expect("accepted before");
    let pair = Pair::of(read(&files.a), read(&files.b));
    pair.unwrap_or_else(|_| panic!("alike before"))
}

fn start_count(files: &Files, machine: &Machine) -> usize {
    if machine.start_variables() <= MOST_LITERAL {
        return machine.start_count();
    }
    let worked = room::start(&pair(files), MOST_NODES, room::crossed);
    worked.expect("at most 255 nodes per function").nodes
}

fn step_count(files: &Files, machine: &Machine, together: &Relation) -> usize {
    if machine.step_variables() <= MOST_LITERAL {
        return machine.step_count(together);
    }
    let grouping = firsts(together);
    match room::step(&pair(files), &grouping, MOST_NODES, room::crossed) {
        Ok(worked) => worked.nodes,
        Err(_) => MOST_NODES + 1,
    }
}
