//! The course that check and refine take: the lists they work one after the
//! other, and how they end. Room decides only how far along it a call comes,
//! so one course answers for every capacity up to the one it was made for.

use crate::algebra::Full;
use crate::answer::{Answer, Refusal, Verdict, NO_ROOM, OUTPUTS, PROVED, START, STEP};
use crate::grouping::split;
use crate::pair::Pair;
use crate::room::{self, Choice};

#[derive(Clone, PartialEq, Eq, Debug)]
pub struct Course {
    /// The greatest capacity this course answers for.
    limit: usize,
    /// The node counts of the lists in the order in which they are reached.
    pub counts: Vec<usize>,
    /// How it ends after these lists, or nothing if one more list is reached
    /// and has more than `limit` nodes.
    pub end: Option<End>,
}

#[derive(Clone, PartialEq, Eq, Debug)]
pub struct End {
    pub reason: u64,
    pub index: usize,
    pub rounds: usize,
    /// The grouping that the verdict is about.
    pub grouping: Vec<usize>,
}

impl Course {
    /// Checks a grouping, with room for `limit` nodes.
    pub fn of_check(pair: &Pair, grouping: &[usize], limit: usize, choice: Choice) -> Course {
        let mut course = Course::new(limit);
        course.end = course.check(pair, grouping, choice).ok();
        course
    }

    /// Refines a grouping, with room for `limit` nodes.
    pub fn of_refine(pair: &Pair, grouping: &[usize], limit: usize, choice: Choice) -> Course {
        let mut course = Course::new(limit);
        course.end = course.refine(pair, grouping, choice).ok();
        course
    }

    fn new(limit: usize) -> Course {
        Course::from_parts(limit, Vec::new(), None)
    }

    /// A course that was found in another way.
    pub fn from_parts(limit: usize, counts: Vec<usize>, end: Option<End>) -> Course {
        Course { limit, counts, end }
    }

    fn check(&mut self, pair: &Pair, grouping: &[usize], choice: Choice) -> Result<End, Full> {
        let ends = |reason, index| {
            Ok(End {
                reason,
                index,
                rounds: 0,
                grouping: grouping.to_vec(),
            })
        };
        let start = room::start(pair, self.limit, choice)?;
        self.counts.push(start.nodes);
        if let Some(v) = least_differing(grouping, &start.agreeing) {
            return ends(START, v);
        }
        let step = room::step(pair, grouping, self.limit, choice)?;
        self.counts.push(step.nodes);
        if let Some(v) = least_differing(grouping, &step.agreeing) {
            return ends(STEP, v);
        }
        let (reason, index) = outputs(pair, grouping);
        ends(reason, index)
    }

    fn refine(&mut self, pair: &Pair, proposal: &[usize], choice: Choice) -> Result<End, Full> {
        let start = room::start(pair, self.limit, choice)?;
        self.counts.push(start.nodes);
        let mut grouping = split(proposal, &start.agreeing);
        let mut rounds = 0;
        loop {
            let step = room::step(pair, &grouping, self.limit, choice)?;
            self.counts.push(step.nodes);
            let next = split(&grouping, &step.agreeing);
            if next == grouping {
                break;
            }
            grouping = next;
            rounds += 1;
        }
        let (reason, index) = outputs(pair, &grouping);
        Ok(End {
            reason,
            index,
            rounds,
            grouping,
        })
    }

    /// The answer with room for `capacity` nodes.
    pub fn answer(&self, capacity: usize) -> Answer {
        assert!(
            capacity <= self.limit,
            "a course knows nothing past its limit"
        );
        let too_large = self.counts.iter().position(|nodes| *nodes > capacity);
        match (too_large, &self.end) {
            (Some(list), _) => Answer::Refusal(Refusal::of_none(NO_ROOM, list)),
            (None, None) => Answer::Refusal(Refusal::of_none(NO_ROOM, self.counts.len())),
            (None, Some(end)) => Answer::Verdict(Verdict {
                reason: end.reason,
                index: end.index as u64,
                rounds: end.rounds as u64,
                nodes: self.counts.iter().copied().max().unwrap_or(0) as u64,
            }),
        }
    }
}

/// The least signal that does not agree with the first of its class.
fn least_differing(grouping: &[usize], agreeing: &[usize]) -> Option<usize> {
    let differs = |v: &usize| agreeing[*v] != agreeing[grouping[*v]];
    (0..grouping.len()).find(differs)
}

/// Reason and index once Start and Step hold.
fn outputs(pair: &Pair, grouping: &[usize]) -> (u64, usize) {
    match pair.least_unpaired(grouping) {
        Some(output) => (OUTPUTS, output),
        None => (PROVED, 0),
    }
}
