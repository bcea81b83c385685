//! Puts one call to a face and compares everything that comes back.

use std::fmt::Debug;

use crate::calls::Written;
use crate::room::{capacity, NODE_WORDS};

use super::call::{Call, Face, Trial};

/// So much is kept behind each lent buffer, to see that nobody writes there.
const GUARD: usize = 24;

/// Compares a face with the second checker.
pub struct Judge<F> {
    face: F,
    /// The table to lend from. It is full of the pattern between the calls.
    table: Vec<u16>,
}

impl<F: Face> Judge<F> {
    pub fn new(face: F) -> Judge<F> {
        Judge {
            face,
            table: Vec::new(),
        }
    }

    /// Everything that disagrees, in words.
    pub fn judge(&mut self, trial: &Trial) -> Result<(), String> {
        let Trial { call, outcome, .. } = trial;
        let expected = outcome.answer.row();
        let placed = &expected[..expected.len().min(trial.row)];
        let mut row = Lent::new("row", trial.row, row_pattern);
        let mut complaints = Vec::new();
        let count = self.put(trial, row.slice(), &mut complaints);
        if count != expected.len() {
            complaints.push("the answers differ in length".into());
        }
        complaints.extend(row.complaint(placed));
        complaints.extend(self.face.objection(call, outcome));
        if complaints.is_empty() {
            return Ok(());
        }
        let answered = &row.slice()[..count.min(trial.row)];
        let complaints = complaints.join("; ");
        Err(format!(
            "answered {answered:?} of {count} numbers, expected {expected:?}: {complaints}"
        ))
    }

    /// Puts the call, and looks at what was lent for it beside the row.
    fn put(&mut self, trial: &Trial, row: &mut [u64], complaints: &mut Vec<String>) -> usize {
        let face = &mut self.face;
        let written = &trial.outcome.written;
        match &trial.call {
            Call::Write { a, result } => {
                let mut lent = Lent::new("result", *result, byte_pattern);
                let count = face.write(a, lent.slice(), row);
                complaints.extend(lent.complaint(bytes(written)));
                count
            }
            Call::Run { a, vectors, result } => {
                let mut lent = Lent::new("result", *result, word_pattern);
                let count = face.run(a, vectors, lent.slice(), row);
                complaints.extend(lent.complaint(numbers(written)));
                count
            }
            Call::Check { files, words } => {
                grow_table(&mut self.table, *words);
                let count = face.check(files, &mut self.table[..*words], row);
                complaints.extend(table_complaint(&mut self.table, *words));
                count
            }
            Call::Refine {
                files,
                words,
                result,
            } => {
                grow_table(&mut self.table, *words);
                let mut lent = Lent::new("result", *result, byte_pattern);
                let count = face.refine(files, &mut self.table[..*words], lent.slice(), row);
                complaints.extend(lent.complaint(bytes(written)));
                complaints.extend(table_complaint(&mut self.table, *words));
                count
            }
        }
    }
}

/// A buffer that is lent full of a pattern.
struct Lent<T> {
    name: &'static str,
    elements: Vec<T>,
    pattern: fn(usize) -> T,
}

impl<T: Copy + PartialEq + Debug> Lent<T> {
    fn new(name: &'static str, length: usize, pattern: fn(usize) -> T) -> Lent<T> {
        let elements = (0..length + GUARD).map(pattern).collect();
        Lent {
            name,
            elements,
            pattern,
        }
    }

    fn slice(&mut self) -> &mut [T] {
        let length = self.elements.len() - GUARD;
        &mut self.elements[..length]
    }

    /// It must hold what was to be written, and the pattern behind that.
    fn complaint(&self, written: &[T]) -> Option<String> {
        let wanted = |place: usize| match written.get(place) {
            Some(element) => *element,
            None => (self.pattern)(place),
        };
        let mut found = self.elements.iter().enumerate();
        let (place, element) = found.find(|(place, element)| **element != wanted(*place))?;
        let (name, wanted) = (self.name, wanted(place));
        Some(format!(
            "{name} element {place} is {element:?}, expected {wanted:?}"
        ))
    }
}

fn bytes(written: &Written) -> &[u8] {
    match written {
        Written::Bytes(bytes) => bytes,
        _ => &[],
    }
}

fn numbers(written: &Written) -> &[u16] {
    match written {
        Written::Numbers(numbers) => numbers,
        _ => &[],
    }
}

fn grow_table(table: &mut Vec<u16>, words: usize) {
    while table.len() < words + GUARD {
        table.push(table_pattern(table.len()));
    }
}

/// The first 10N words must be zero and all others as they were. Afterwards
/// the table is full of the pattern again.
fn table_complaint(table: &mut [u16], words: usize) -> Option<String> {
    let cleared = NODE_WORDS * capacity(words);
    let wanted = |place| match place < cleared {
        true => 0,
        false => table_pattern(place),
    };
    let mut found = table[..words + GUARD].iter().enumerate();
    let wrong = found.find(|(place, word)| **word != wanted(*place));
    let complaint = wrong.map(|(place, word)| {
        let wanted = wanted(place);
        format!("table word {place} is {word}, expected {wanted}")
    });
    // Where all is as it should be, only the cleared words need mending.
    let changed = if complaint.is_some() {
        table.len()
    } else {
        cleared
    };
    for (place, word) in table[..changed].iter_mut().enumerate() {
        *word = table_pattern(place);
    }
    complaint
}

/// Greater than any number of an answer.
fn row_pattern(place: usize) -> u64 {
    u64::MAX - place as u64
}

fn byte_pattern(place: usize) -> u8 {
    (place as u8).wrapping_mul(37) ^ 0xa5
}

fn word_pattern(place: usize) -> u16 {
    (place as u16).wrapping_mul(0x6f3b) ^ 0x5aa5
}

/// Never zero: a table that is lent need not be empty.
fn table_pattern(place: usize) -> u16 {
    (place as u16).wrapping_mul(0x2c9d) | 1
}
