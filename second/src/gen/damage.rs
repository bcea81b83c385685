//! Damaged files of every kind.

use crate::grouping::CLASS;
use crate::sheet::{
    body_length, END, INPUT, MOST_INPUTS, MOST_OUTPUTS, MOST_REGISTERS, MOST_SIGNALS, NOT, OUTPUT,
    REGISTER,
};

use super::rng::Rng;

type Record = Vec<u8>;
type Damage = fn(&mut Rng, Vec<Record>) -> Vec<Record>;

/// What can happen to the records of a sheet, END included.
const TO_SHEETS: [Damage; 12] = [
    truncated,
    other_byte,
    byte_gone,
    byte_more,
    unknown_kind,
    value_above_1,
    later_operand,
    dangling_name,
    bytes_after_end,
    without_end,
    without_outputs,
    past_a_limit,
];

/// What can happen to the records of a grouping.
const TO_GROUPINGS: [Damage; 8] = [
    truncated,
    other_byte,
    byte_gone,
    byte_more,
    unknown_kind,
    bytes_after_end,
    without_end,
    other_count,
];

/// A damaged sheet file: mostly one thing is wrong, sometimes two or three.
pub fn sheet(rng: &mut Rng, file: &[u8]) -> Vec<u8> {
    damaged(rng, file, &TO_SHEETS)
}

/// A damaged grouping file.
pub fn grouping(rng: &mut Rng, file: &[u8]) -> Vec<u8> {
    damaged(rng, file, &TO_GROUPINGS)
}

/// A sheet file with a limit met or passed by one.
pub fn at_a_limit(rng: &mut Rng, file: &[u8]) -> Vec<u8> {
    past_a_limit(rng, records(file)).concat()
}

fn damaged(rng: &mut Rng, file: &[u8], damages: &[Damage]) -> Vec<u8> {
    let mut records = records(file);
    let times = *rng.weighted(&[(4, 1), (2, 2), (1, 3)]);
    for _ in 0..times {
        let damage = *rng.pick(damages);
        records = damage(rng, records);
    }
    records.concat()
}

/// Cuts a file into records; what can't be cut stays one piece at the end.
fn records(file: &[u8]) -> Vec<Record> {
    let mut records = Vec::new();
    let mut rest = file;
    while let Some(&kind) = rest.first() {
        let body = if kind == CLASS {
            Some(1)
        } else {
            body_length(kind)
        };
        let length = body.map_or(rest.len(), |body| rest.len().min(body + 1));
        let (record, behind) = rest.split_at(length);
        records.push(record.to_vec());
        rest = behind;
    }
    records
}

/// Damages the file as a whole row of bytes; what comes out is cut afresh.
fn as_bytes(whole: Vec<Record>, damage: impl FnOnce(&mut Vec<u8>)) -> Vec<Record> {
    let mut bytes = whole.concat();
    damage(&mut bytes);
    records(&bytes)
}

fn truncated(rng: &mut Rng, records: Vec<Record>) -> Vec<Record> {
    as_bytes(records, |bytes| {
        let length = rng.below(bytes.len() + 1);
        bytes.truncate(length);
    })
}

fn other_byte(rng: &mut Rng, records: Vec<Record>) -> Vec<Record> {
    as_bytes(records, |bytes| {
        if !bytes.is_empty() {
            let place = rng.below(bytes.len());
            bytes[place] = likely_byte(rng);
        }
    })
}

fn byte_gone(rng: &mut Rng, records: Vec<Record>) -> Vec<Record> {
    as_bytes(records, |bytes| {
        if !bytes.is_empty() {
            bytes.remove(rng.below(bytes.len()));
        }
    })
}

fn byte_more(rng: &mut Rng, records: Vec<Record>) -> Vec<Record> {
    as_bytes(records, |bytes| {
        let place = rng.below(bytes.len() + 1);
        bytes.insert(place, likely_byte(rng));
    })
}

fn bytes_after_end(rng: &mut Rng, mut records: Vec<Record>) -> Vec<Record> {
    let count = rng.between(1, 4);
    records.push((0..count).map(|_| likely_byte(rng)).collect());
    records
}

fn without_end(_: &mut Rng, mut records: Vec<Record>) -> Vec<Record> {
    records.retain(|record| record.first() != Some(&END));
    records
}

fn without_outputs(_: &mut Rng, mut records: Vec<Record>) -> Vec<Record> {
    records.retain(|record| record.first() != Some(&OUTPUT));
    records
}

fn unknown_kind(rng: &mut Rng, mut records: Vec<Record>) -> Vec<Record> {
    let kind = *rng.pick(&[0x00, 0x01, 0x07, 0x09, 0x10, CLASS, 0x12, 0x80, 0xff]);
    if !records.is_empty() {
        let place = rng.below(records.len());
        records[place][0] = kind;
    }
    records
}

/// Changes a whole record of one of these kinds, if there is one. The number of
/// the signal that the record defines (or would define) is handed on.
fn change_one(
    rng: &mut Rng,
    records: &mut [Record],
    kinds: &[u8],
    change: impl FnOnce(&mut Rng, &mut Record, usize),
) {
    let is_meant = |record: &Record| {
        let known = record.first().filter(|kind| kinds.contains(kind));
        known.and_then(|kind| body_length(*kind)) == Some(record.len().wrapping_sub(1))
    };
    let meant: Vec<usize> = (0..records.len())
        .filter(|i| is_meant(&records[*i]))
        .collect();
    if !meant.is_empty() {
        let place = *rng.pick(&meant);
        let number = signals(&records[..place]);
        change(rng, &mut records[place], number);
    }
}

fn signals(records: &[Record]) -> usize {
    let is_signal = |record: &&Record| matches!(record.first(), Some(INPUT..=6));
    records.iter().filter(is_signal).count()
}

fn value_above_1(rng: &mut Rng, mut records: Vec<Record>) -> Vec<Record> {
    change_one(rng, &mut records, &[REGISTER], |rng, record, _| {
        record[1] = *rng.pick(&[2, 3, 0x80, 0xfe, 0xff]);
    });
    records
}

fn later_operand(rng: &mut Rng, mut records: Vec<Record>) -> Vec<Record> {
    change_one(rng, &mut records, &[NOT, 4, 5, 6], |rng, record, number| {
        let place = rng.between(1, record.len() - 1);
        let later = number + *rng.pick(&[0, 0, 1, 2, 50]);
        record[place] = later.min(255) as u8;
    });
    records
}

/// Names no signal in one record, or in several: then the first is answered.
fn dangling_name(rng: &mut Rng, mut records: Vec<Record>) -> Vec<Record> {
    let count = signals(&records);
    for _ in 0..rng.between(1, 3) {
        change_one(rng, &mut records, &[REGISTER, OUTPUT], |rng, record, _| {
            let name = count + *rng.pick(&[0, 0, 0, 1, 7, 255]);
            record[2] = name.min(255) as u8;
        });
    }
    records
}

/// A record of this kind with only zeros in its body.
fn plain_record(kind: u8) -> Record {
    let body = body_length(kind).unwrap_or(0);
    [vec![kind], vec![0; body]].concat()
}

/// Adds records until a limit is met, and mostly one more. The last one may
/// have something else wrong with it, which must not be what is answered.
fn past_a_limit(rng: &mut Rng, mut records: Vec<Record>) -> Vec<Record> {
    let (kind, most) = *rng.pick(&[
        (INPUT, MOST_INPUTS),
        (REGISTER, MOST_REGISTERS),
        (NOT, MOST_SIGNALS),
        (OUTPUT, MOST_OUTPUTS),
    ]);
    let end = records.iter().position(|record| record[0] == END);
    let behind = records.split_off(end.unwrap_or(records.len()));
    let present = match kind {
        NOT => signals(&records),
        _ => records.iter().filter(|record| record[0] == kind).count(),
    };
    let missing = most.saturating_sub(present);
    records.extend(vec![plain_record(kind); missing]);
    if rng.chance(3, 4) {
        // Any signal is one too many where the signals are.
        let kind = if kind == NOT {
            rng.between(1, 6) as u8
        } else {
            kind
        };
        records.push(plain_record(kind));
    }
    if let Some(last) = records.last_mut().filter(|_| rng.chance(1, 3)) {
        last[1..].fill(rng.byte());
    }
    if rng.chance(5, 6) {
        records.extend(behind);
    }
    records
}

/// A grouping with more or fewer classes than before.
fn other_count(rng: &mut Rng, mut records: Vec<Record>) -> Vec<Record> {
    match rng.below(4) {
        0 => records.retain(|record| record.first() != Some(&CLASS)),
        1 if !records.is_empty() => drop(records.remove(0)),
        2 => records.insert(0, vec![CLASS, rng.byte()]),
        _ => {
            let count = rng.between(2, 300);
            records.splice(0..0, vec![vec![CLASS, 5]; count]);
        }
    }
    records
}

/// A byte that means something more often than not.
pub fn likely_byte(rng: &mut Rng) -> u8 {
    match rng.chance(3, 4) {
        true => *rng.pick(&[0, 1, 2, 3, 4, 5, 6, 7, 8, 9, CLASS, 0x12]),
        false => rng.byte(),
    }
}

/// Random bytes, most of them likely ones.
pub fn noise(rng: &mut Rng) -> Vec<u8> {
    let length = *rng.weighted(&[(8, 8), (6, 24), (1, 90)]);
    let length = rng.below(length + 1);
    (0..length).map(|_| likely_byte(rng)).collect()
}
