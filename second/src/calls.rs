//! The four calls, each with what it answers and what it writes.

use crate::answer::{self, Answer, Refusal, FILE_A, FILE_B, FILE_GROUPING};
use crate::course::Course;
use crate::grouping;
use crate::pair::Pair;
use crate::room::{self, capacity, Choice};
use crate::sheet::{self, Sheet};
use crate::tick;

/// What a call puts into the result buffer.
#[derive(Clone, PartialEq, Eq, Debug)]
pub enum Written {
    Nothing,
    Bytes(Vec<u8>),
    Numbers(Vec<u16>),
}

#[derive(Clone, PartialEq, Eq, Debug)]
pub struct Outcome {
    pub answer: Answer,
    pub written: Written,
}

impl Outcome {
    fn only(answer: Answer) -> Outcome {
        Outcome {
            answer,
            written: Written::Nothing,
        }
    }
}

impl From<Refusal> for Outcome {
    fn from(refusal: Refusal) -> Outcome {
        Outcome::only(Answer::Refusal(refusal))
    }
}

/// Writes the sheet in file `a`, into a result of so many bytes.
pub fn write(a: &[u8], result: usize) -> Outcome {
    let sheet = match read_a(a) {
        Ok(sheet) => sheet,
        Err(refusal) => return refusal.into(),
    };
    let bytes = sheet.bytes();
    if bytes.len() > result {
        return Refusal::of_none(answer::OUT, bytes.len()).into();
    }
    Outcome {
        answer: Answer::Written(bytes.len() as u64),
        written: Written::Bytes(bytes),
    }
}

/// Runs the sheet in file `a`, into a result of so many numbers.
pub fn run(a: &[u8], vectors: &[u8], result: usize) -> Outcome {
    let sheet = match read_a(a) {
        Ok(sheet) => sheet,
        Err(refusal) => return refusal.into(),
    };
    if vectors.len() > result {
        return Refusal::of_none(answer::OUT, vectors.len()).into();
    }
    if let Some(tick) = tick::first_bad_vector(&sheet, vectors) {
        return Refusal::of_none(answer::VECTOR, tick).into();
    }
    Outcome {
        answer: Answer::Written(vectors.len() as u64),
        written: Written::Numbers(tick::run(&sheet, vectors)),
    }
}

/// Checks a grouping, with a table of so many words.
pub fn check(a: &[u8], b: &[u8], p: &[u8], words: usize) -> Outcome {
    Checking::new(a, b, p, capacity(words), room::usual).outcome(words)
}

/// Refines a grouping, with a table of so many words and a result of so many
/// bytes.
pub fn refine(a: &[u8], b: &[u8], p: &[u8], words: usize, result: usize) -> Outcome {
    Refining::new(a, b, p, capacity(words), room::usual).outcome(words, result)
}

/// A check of three files, for every table up to a limit.
pub struct Checking(Result<Course, Refusal>);

impl Checking {
    pub fn new(a: &[u8], b: &[u8], p: &[u8], limit: usize, choice: Choice) -> Checking {
        let files = read_files(a, b, p);
        Checking(files.map(|(pair, grouping)| Course::of_check(&pair, &grouping, limit, choice)))
    }

    pub fn course(&self) -> Option<&Course> {
        self.0.as_ref().ok()
    }

    pub fn outcome(&self, words: usize) -> Outcome {
        match &self.0 {
            Err(refusal) => (*refusal).into(),
            Ok(course) => Outcome::only(course.answer(capacity(words))),
        }
    }
}

/// A refinement of three files, for every table up to a limit.
pub struct Refining(Result<(usize, Course), Refusal>);

impl Refining {
    pub fn new(a: &[u8], b: &[u8], p: &[u8], limit: usize, choice: Choice) -> Refining {
        let files = read_files(a, b, p);
        Refining(files.map(|(pair, grouping)| {
            let course = Course::of_refine(&pair, &grouping, limit, choice);
            (grouping::length(pair.signals()), course)
        }))
    }

    pub fn course(&self) -> Option<&Course> {
        self.0.as_ref().ok().map(|(_, course)| course)
    }

    /// The length that the result needs, if the files are accepted.
    pub fn needed(&self) -> Option<usize> {
        self.0.as_ref().ok().map(|(needed, _)| *needed)
    }

    pub fn outcome(&self, words: usize, result: usize) -> Outcome {
        let (needed, course) = match &self.0 {
            Err(refusal) => return (*refusal).into(),
            Ok((needed, course)) => (*needed, course),
        };
        if needed > result {
            return Refusal::of_none(answer::OUT, needed).into();
        }
        let answer = course.answer(capacity(words));
        match (&answer, &course.end) {
            (Answer::Verdict(_), Some(end)) => {
                let classes = grouping::numbers(&end.grouping);
                let written = Written::Bytes(grouping::file(&classes));
                Outcome { answer, written }
            }
            _ => Outcome::only(answer),
        }
    }
}

fn read_a(a: &[u8]) -> Result<Sheet, Refusal> {
    sheet::read(a).map_err(|fault| fault.of_file(FILE_A))
}

/// A, B, UNLIKE, grouping.
fn read_files(a: &[u8], b: &[u8], p: &[u8]) -> Result<(Pair, Vec<usize>), Refusal> {
    let a = read_a(a)?;
    let b = sheet::read(b).map_err(|fault| fault.of_file(FILE_B))?;
    let unlike = |position| Refusal::of_none(answer::UNLIKE, position);
    let pair = Pair::of(a, b).map_err(unlike)?;
    let grouping = grouping::read(p, pair.signals());
    let grouping = grouping.map_err(|fault| fault.of_file(FILE_GROUPING))?;
    Ok((pair, grouping))
}
