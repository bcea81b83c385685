//! Cases: a theme's calls, each with what the second checker says. A case is
//! made from its seed and number alone, so each can be repeated by itself.

use crate::answer::LONGEST_ANSWER;
use crate::calls::{Checking, Outcome, Refining};
use crate::compare::call::{Call, Files, Trial};
use crate::grouping;
use crate::room;
use crate::sheet::{Sheet, MOST_SIGNALS};

use super::proposals::{self, Proposal, PROPOSALS};
use super::rng::Rng;
use super::rooms;
use super::sheets;
use super::themes::{LONG_FILES, THEMES};

pub struct Case {
    pub theme: &'static str,
    pub trials: Vec<Trial>,
}

/// Case number `case` of a seed. Number 0 is the long files, so that every run
/// has them once; the themes of all others are drawn.
pub fn case(seed: u64, case: u64) -> Case {
    let mut rng = Rng::of(seed, case);
    let (theme, make) = match case {
        0 => LONG_FILES,
        _ => *rng.weighted(&THEMES),
    };
    let mut maker = Maker {
        rng,
        trials: Vec::new(),
    };
    make(&mut maker);
    Case {
        theme,
        trials: maker.trials,
    }
}

/// How much is tried on one pair of sheets.
#[derive(Clone, Copy)]
pub struct Effort {
    /// Proposals to try.
    pub proposals: usize,
    /// Tables near the node counts, per proposal and call.
    pub edges: usize,
    /// The greatest capacity lent.
    pub limit: usize,
}

/// Makes the calls of one case.
pub struct Maker {
    pub rng: Rng,
    trials: Vec<Trial>,
}

impl Maker {
    /// A call for which the second checker is asked afresh.
    pub fn call(&mut self, call: Call) {
        let outcome = call.outcome();
        self.put(call, outcome, &[]);
    }

    /// A call with its outcome, and the node counts of its lists if known.
    fn put(&mut self, call: Call, outcome: Outcome, counts: &[usize]) {
        self.trials.push(Trial {
            call,
            row: rooms::row(&mut self.rng),
            outcome,
            counts: counts.to_vec(),
        });
    }

    /// Gives every number of the answers so far a place in the row: for calls
    /// that are not made often enough to do without.
    pub fn lend_full_rows(&mut self) {
        for trial in &mut self.trials {
            trial.row = LONGEST_ANSWER;
        }
    }

    /// Checks and refines two sheets from several proposals.
    pub fn pair(&mut self, a: &Sheet, b: &Sheet, effort: Effort) {
        let n = a.signals.len() + b.signals.len();
        let a = sheets::file(&mut self.rng, a);
        let b = sheets::file(&mut self.rng, b);
        for _ in 0..effort.proposals {
            let proposal = *self.rng.weighted(&PROPOSALS);
            let p = self.proposal(proposal, &a, &b, n, effort.limit);
            let files = Files {
                a: a.clone(),
                b: b.clone(),
                p,
            };
            self.check(&files, effort);
            self.refine(&files, effort);
        }
    }

    fn proposal(&mut self, kind: Proposal, a: &[u8], b: &[u8], n: usize, limit: usize) -> Vec<u8> {
        grouping::file(&proposals::classes(&mut self.rng, kind, a, b, n, limit))
    }

    /// Checks three files with tables of several lengths.
    pub fn check(&mut self, files: &Files, effort: Effort) {
        let Files { a, b, p } = files;
        let checking = Checking::new(a, b, p, effort.limit, room::usual);
        let counts = checking.course().map_or(&[][..], |course| &course.counts);
        for words in rooms::tables(&mut self.rng, counts, effort.limit, effort.edges) {
            let call = Call::Check {
                files: files.clone(),
                words,
            };
            self.put(call, checking.outcome(words), counts);
        }
    }

    /// Refines three files with tables and results of several lengths.
    pub fn refine(&mut self, files: &Files, effort: Effort) {
        let Files { a, b, p } = files;
        let refining = Refining::new(a, b, p, effort.limit, room::usual);
        let counts = refining.course().map_or(&[][..], |course| &course.counts);
        let needed = refining.needed().unwrap_or(2 * MOST_SIGNALS);
        for words in rooms::tables(&mut self.rng, counts, effort.limit, effort.edges) {
            let result = rooms::result(&mut self.rng, needed);
            let call = Call::Refine {
                files: files.clone(),
                words,
                result,
            };
            self.put(call, refining.outcome(words, result), counts);
        }
    }

    /// Three files as they are, in one call, with any table.
    pub fn files(&mut self, files: Files) {
        match self.rng.chance(1, 2) {
            true => self.check_any(files),
            false => self.refine_any(files),
        }
    }

    /// Three files as they are, in both calls.
    pub fn both(&mut self, files: Files) {
        self.check_any(files.clone());
        self.refine_any(files);
    }

    fn check_any(&mut self, files: Files) {
        let words = rooms::any_table(&mut self.rng);
        self.call(Call::Check { files, words });
    }

    fn refine_any(&mut self, files: Files) {
        let words = rooms::any_table(&mut self.rng);
        let result = rooms::result(&mut self.rng, 40);
        self.call(Call::Refine {
            files,
            words,
            result,
        });
    }

    pub fn write(&mut self, a: Vec<u8>) {
        let result = rooms::result(&mut self.rng, a.len());
        self.call(Call::Write { a, result });
    }

    pub fn run(&mut self, a: Vec<u8>, vectors: Vec<u8>) {
        let result = rooms::result(&mut self.rng, vectors.len());
        self.call(Call::Run { a, vectors, result });
    }
}
