//! Groupings of the joint list.
//!
//! In memory a grouping is a list that names, for every joint signal, the
//! first member of its class. Two groupings are then equal as lists exactly
//! when they are equal as groupings.

use crate::answer::{self, Fault};
use crate::sheet::END;

pub const CLASS: u8 = 0x11;

/// Reads a grouping of `n` signals.
pub fn read(file: &[u8], n: usize) -> Result<Vec<usize>, Fault> {
    let mut classes = Vec::new();
    let mut offset = 0;
    loop {
        match file.get(offset..) {
            None | Some([]) => return Err(Fault::new(answer::SHORT, file.len())),
            Some([CLASS]) => return Err(Fault::new(answer::SHORT, offset)),
            Some([CLASS, class, ..]) => classes.push(*class),
            Some([END]) if classes.len() == n => return Ok(firsts(&classes)),
            Some([END]) => return Err(Fault::new(answer::COUNT, offset)),
            Some([END, ..]) => return Err(Fault::new(answer::AFTER, offset + 1)),
            Some(_) => return Err(Fault::new(answer::KIND, offset)),
        }
        offset += 2;
    }
}

/// For every place the first place that carries the same label.
pub fn firsts<T: PartialEq>(labels: &[T]) -> Vec<usize> {
    let first = |label| labels.iter().position(|other| other == label);
    labels.iter().filter_map(first).collect()
}

/// Splits a grouping: together stays what was together and has equal labels.
pub fn split(grouping: &[usize], labels: &[usize]) -> Vec<usize> {
    let both: Vec<_> = grouping.iter().zip(labels).collect();
    firsts(&both)
}

/// The class numbers that the program writes: from 0 in order of first member.
pub fn numbers(grouping: &[usize]) -> Vec<u8> {
    let is_first = |v: &usize| grouping[*v] == *v;
    let number = |first: &usize| (0..*first).filter(is_first).count() as u8;
    grouping.iter().map(number).collect()
}

/// A grouping file with these class numbers.
pub fn file(classes: &[u8]) -> Vec<u8> {
    let records = classes.iter().flat_map(|class| [CLASS, *class]);
    records.chain([END]).collect()
}

/// The length of the file that the program writes for `n` signals.
pub fn length(n: usize) -> usize {
    2 * n + 1
}
