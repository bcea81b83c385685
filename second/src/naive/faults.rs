//! Refusals of one file, by listing all its faults and taking the earliest.

use crate::answer::{self, Fault};

#[derive(Clone, PartialEq, Eq, Debug)]
pub struct Record {
    pub offset: usize,
    pub kind: u8,
    pub body: Vec<u8>,
}

/// The records of a file up to END, or up to where no record can be cut.
struct Cut {
    records: Vec<Record>,
    /// Why no further record can be cut, if END was not reached.
    broken: Option<Fault>,
}

/// Body lengths by kind, in a sheet and in a grouping.
const IN_SHEET: [(u8, usize); 8] = [
    (1, 1),
    (2, 2),
    (3, 1),
    (4, 2),
    (5, 2),
    (6, 2),
    (7, 2),
    (8, 0),
];
const IN_GROUPING: [(u8, usize); 2] = [(0x11, 1), (8, 0)];

fn cut(file: &[u8], kinds: &[(u8, usize)]) -> Cut {
    let mut records: Vec<Record> = Vec::new();
    let mut offset = 0;
    let broken = loop {
        if records.last().is_some_and(|record| record.kind == 8) {
            break None;
        }
        if offset == file.len() {
            break Some(Fault::new(answer::SHORT, offset));
        }
        let kind = file[offset];
        let Some((_, length)) = kinds.iter().find(|(known, _)| *known == kind) else {
            break Some(Fault::new(answer::KIND, offset));
        };
        let next = offset + 1 + length;
        if next > file.len() {
            break Some(Fault::new(answer::SHORT, offset));
        }
        let body = file[offset + 1..next].to_vec();
        records.push(Record { offset, kind, body });
        offset = next;
    };
    Cut { records, broken }
}

/// When a fault is met: by record, then by the order within a record.
type Time = (usize, usize);

fn order(number: u64) -> usize {
    let order = [
        answer::KIND,
        answer::SHORT,
        answer::MANY,
        answer::VALUE,
        answer::LATER,
        answer::AFTER,
        answer::NO_OUTPUT,
        answer::COUNT,
        answer::DANGLING,
    ];
    let place = order.iter().position(|known| *known == number);
    place.expect("a fault of a file")
}

fn earliest(faults: Vec<(usize, Fault)>) -> Option<Fault> {
    let time = |(record, fault): &(usize, Fault)| -> Time { (*record, order(fault.number)) };
    faults.into_iter().min_by_key(time).map(|(_, fault)| fault)
}

/// The records of a sheet, or its refusal.
pub fn sheet(file: &[u8]) -> Result<Vec<Record>, Fault> {
    let Cut { records, broken } = cut(file, &IN_SHEET);
    let mut faults: Vec<(usize, Fault)> = Vec::new();
    let mut tally = Tally::default();
    for (place, record) in records.iter().enumerate() {
        tally[usize::from(record.kind)] += 1;
        let found = sheet_faults(file, &records, record, &tally).into_iter();
        faults.extend(found.map(|fault| (place, fault)));
    }
    faults.extend(broken.map(|fault| (records.len(), fault)));
    match earliest(faults) {
        Some(fault) => Err(fault),
        None => Ok(records),
    }
}

/// How many records of each kind there are up to a record, itself included.
type Tally = [usize; 9];

fn sheet_faults(file: &[u8], records: &[Record], record: &Record, tally: &Tally) -> Vec<Fault> {
    let mut faults = Vec::new();
    let mut test = |wrong: bool, number: u64, position: usize| {
        if wrong {
            faults.push(Fault::new(number, position));
        }
    };
    let signals: usize = tally[1..=6].iter().sum();
    let many = match record.kind {
        1 => tally[1] > 8 || signals > 120,
        2 => tally[2] > 12 || signals > 120,
        7 => tally[7] > 16,
        8 => false,
        _ => signals > 120,
    };
    test(many, answer::MANY, record.offset);
    let value = record.kind == 2 && record.body[0] > 1;
    test(value, answer::VALUE, record.offset);
    // The record's own number is one less than the signals up to it.
    let not_lower = |operand: &u8| usize::from(*operand) + 1 >= signals;
    let later = (3..=6).contains(&record.kind) && record.body.iter().any(not_lower);
    test(later, answer::LATER, record.offset);
    if record.kind == 8 {
        let after = record.offset + 1;
        test(after < file.len(), answer::AFTER, after);
        test(tally[7] == 0, answer::NO_OUTPUT, record.offset);
        let names_none =
            |r: &&Record| [2, 7].contains(&r.kind) && usize::from(r.body[1]) >= signals;
        let dangling = records.iter().find(names_none).map(|r| r.offset);
        test(dangling.is_some(), answer::DANGLING, dangling.unwrap_or(0));
    }
    faults
}

/// The class numbers of a grouping of `n` signals, or its refusal.
pub fn grouping(file: &[u8], n: usize) -> Result<Vec<u8>, Fault> {
    let Cut { records, broken } = cut(file, &IN_GROUPING);
    let mut faults: Vec<(usize, Fault)> = Vec::new();
    if let Some((last, before)) = records.split_last().filter(|(last, _)| last.kind == 8) {
        let place = before.len();
        if last.offset + 1 != file.len() {
            faults.push((place, Fault::new(answer::AFTER, last.offset + 1)));
        }
        if before.len() != n {
            faults.push((place, Fault::new(answer::COUNT, last.offset)));
        }
    }
    faults.extend(broken.map(|fault| (records.len(), fault)));
    match earliest(faults) {
        Some(fault) => Err(fault),
        None => Ok(records[..n].iter().map(|record| record.body[0]).collect()),
    }
}
