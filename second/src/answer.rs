//! What a call answers, in the paper's numbers.

pub const EQUIVALENT: u64 = 0;
pub const UNDECIDED: u64 = 1;
pub const SHORT: u64 = 10;
pub const KIND: u64 = 11;
pub const MANY: u64 = 12;
pub const VALUE: u64 = 13;
pub const LATER: u64 = 14;
pub const AFTER: u64 = 15;
pub const NO_OUTPUT: u64 = 16;
pub const DANGLING: u64 = 17;
pub const UNLIKE: u64 = 18;
pub const COUNT: u64 = 19;
pub const OUT: u64 = 20;
pub const VECTOR: u64 = 21;
pub const NO_ROOM: u64 = 22;

/// The files that a refusal names.
pub const FILE_A: u64 = 0;
pub const FILE_B: u64 = 1;
pub const FILE_GROUPING: u64 = 2;
pub const FILE_NONE: u64 = 3;

/// The reasons that a verdict gives; `PROVED` goes with EQUIVALENT.
pub const PROVED: u64 = 0;
pub const START: u64 = 1;
pub const STEP: u64 = 2;
pub const OUTPUTS: u64 = 3;

/// Every number with its name, in the order of the paper's table.
pub const NAMES: [(u64, &str); 15] = [
    (EQUIVALENT, "EQUIVALENT"),
    (UNDECIDED, "UNDECIDED"),
    (SHORT, "SHORT"),
    (KIND, "KIND"),
    (MANY, "MANY"),
    (VALUE, "VALUE"),
    (LATER, "LATER"),
    (AFTER, "AFTER"),
    (NO_OUTPUT, "NO OUTPUT"),
    (DANGLING, "DANGLING"),
    (UNLIKE, "UNLIKE"),
    (COUNT, "COUNT"),
    (OUT, "OUT"),
    (VECTOR, "VECTOR"),
    (NO_ROOM, "NO ROOM"),
];

/// What is wrong inside one file; which file it was is known to the caller.
#[derive(Clone, Copy, PartialEq, Eq, Debug)]
pub struct Fault {
    pub number: u64,
    pub position: usize,
}

impl Fault {
    pub fn new(number: u64, position: usize) -> Fault {
        Fault { number, position }
    }

    /// The same fault with its file named.
    pub fn of_file(self, file: u64) -> Refusal {
        Refusal {
            number: self.number,
            file,
            position: self.position as u64,
        }
    }
}

/// A call that was refused.
#[derive(Clone, Copy, PartialEq, Eq, Debug)]
pub struct Refusal {
    pub number: u64,
    pub file: u64,
    pub position: u64,
}

impl Refusal {
    /// A refusal that concerns no single file.
    pub fn of_none(number: u64, position: usize) -> Refusal {
        Fault::new(number, position).of_file(FILE_NONE)
    }
}

/// A call that came to a verdict.
#[derive(Clone, Copy, PartialEq, Eq, Debug)]
pub struct Verdict {
    pub reason: u64,
    pub index: u64,
    pub rounds: u64,
    pub nodes: u64,
}

/// How many numbers the longest answer has.
pub const LONGEST_ANSWER: usize = 5;

/// The answer to one call.
#[derive(Clone, Copy, PartialEq, Eq, Debug)]
pub enum Answer {
    Verdict(Verdict),
    Refusal(Refusal),
    /// The length that `write` or `run` wrote.
    Written(u64),
}

impl Answer {
    /// The answer's numbers in the order in which they are handed over.
    pub fn row(&self) -> Vec<u64> {
        match *self {
            Answer::Verdict(v) => {
                let number = if v.reason == PROVED {
                    EQUIVALENT
                } else {
                    UNDECIDED
                };
                vec![number, v.reason, v.index, v.rounds, v.nodes]
            }
            Answer::Refusal(r) => vec![r.number, r.file, r.position],
            Answer::Written(length) => vec![length],
        }
    }
}
