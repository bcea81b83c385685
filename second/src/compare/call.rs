//! One call with the files and lengths handed over, how it is put, and whoever
//! may answer it.

use std::fmt;

use crate::calls::{self, Outcome};

#[derive(Clone, PartialEq, Eq, Debug)]
pub struct Files {
    pub a: Vec<u8>,
    pub b: Vec<u8>,
    pub p: Vec<u8>,
}

/// `result` and `words` are the lengths of the lent result and table.
#[derive(Clone, PartialEq, Eq, Debug)]
pub enum Call {
    Write {
        a: Vec<u8>,
        result: usize,
    },
    Run {
        a: Vec<u8>,
        vectors: Vec<u8>,
        result: usize,
    },
    Check {
        files: Files,
        words: usize,
    },
    Refine {
        files: Files,
        words: usize,
        result: usize,
    },
}

pub const CALL_NAMES: [&str; 4] = ["write", "run", "check", "refine"];

impl Call {
    /// The call's place among the names.
    pub fn place(&self) -> usize {
        match self {
            Call::Write { .. } => 0,
            Call::Run { .. } => 1,
            Call::Check { .. } => 2,
            Call::Refine { .. } => 3,
        }
    }

    /// What the second checker says, asked afresh.
    pub fn outcome(&self) -> Outcome {
        match self {
            Call::Write { a, result } => calls::write(a, *result),
            Call::Run { a, vectors, result } => calls::run(a, vectors, *result),
            Call::Check { files, words } => calls::check(&files.a, &files.b, &files.p, *words),
            Call::Refine {
                files,
                words,
                result,
            } => calls::refine(&files.a, &files.b, &files.p, *words, *result),
        }
    }
}

impl fmt::Display for Call {
    fn fmt(&self, f: &mut fmt::Formatter) -> fmt::Result {
        writeln!(f, "  call    {}", CALL_NAMES[self.place()])?;
        match self {
            Call::Write { a, result } => {
                writeln!(f, "  a       {}", hex(a))?;
                write!(f, "  result  {result} bytes lent")
            }
            Call::Run { a, vectors, result } => {
                writeln!(f, "  a       {}", hex(a))?;
                writeln!(f, "  vectors {}", hex(vectors))?;
                write!(f, "  result  {result} numbers lent")
            }
            Call::Check { files, words } => {
                write!(f, "{files}")?;
                write!(f, "  table   {words} words lent")
            }
            Call::Refine {
                files,
                words,
                result,
            } => {
                write!(f, "{files}")?;
                writeln!(f, "  table   {words} words lent")?;
                write!(f, "  result  {result} bytes lent")
            }
        }
    }
}

impl fmt::Display for Files {
    fn fmt(&self, f: &mut fmt::Formatter) -> fmt::Result {
        writeln!(f, "  a       {}", hex(&self.a))?;
        writeln!(f, "  b       {}", hex(&self.b))?;
        writeln!(f, "  p       {}", hex(&self.p))
    }
}

/// A file that is longer than this is shown only in part.
const MOST_SHOWN: usize = 2_000;

/// So much is shown of such a file, at its front and at its end.
const PART_SHOWN: usize = 20;

pub fn hex(bytes: &[u8]) -> String {
    let whole = |bytes: &[u8]| {
        let byte = |byte: &u8| format!("{byte:02x}");
        bytes.iter().map(byte).collect::<Vec<_>>().join(" ")
    };
    if bytes.len() <= MOST_SHOWN {
        return whole(bytes);
    }
    let front = whole(&bytes[..PART_SHOWN]);
    let end = whole(&bytes[bytes.len() - PART_SHOWN..]);
    format!("{front} .. {end} ({} bytes)", bytes.len())
}

/// A call as it is put to a face, and what the second checker says of it.
#[derive(Clone, PartialEq, Eq, Debug)]
pub struct Trial {
    pub call: Call,
    /// The places of the row that is lent for the answer's numbers.
    pub row: usize,
    pub outcome: Outcome,
    /// The node counts of the lists that the call works, as far as they were
    /// found when its table was chosen.
    pub counts: Vec<usize>,
}

impl fmt::Display for Trial {
    fn fmt(&self, f: &mut fmt::Formatter) -> fmt::Result {
        writeln!(f, "{}", self.call)?;
        write!(f, "  row     {} places lent", self.row)
    }
}

/// Whoever answers calls by filling lent buffers. The answer's numbers (five of
/// a verdict, three of a refusal, one length written) go to the front of the
/// row, as many as it has places for; what is returned is how many there are.
pub trait Face {
    fn write(&mut self, a: &[u8], result: &mut [u8], row: &mut [u64]) -> usize;

    fn run(&mut self, a: &[u8], vectors: &[u8], result: &mut [u16], row: &mut [u64]) -> usize;

    fn check(&mut self, files: &Files, table: &mut [u16], row: &mut [u64]) -> usize;

    fn refine(
        &mut self,
        files: &Files,
        table: &mut [u16],
        result: &mut [u8],
        row: &mut [u64],
    ) -> usize;

    /// Anything else to be said against what the second checker gave.
    fn objection(&mut self, _call: &Call, _outcome: &Outcome) -> Option<String> {
        None
    }
}
