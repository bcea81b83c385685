//! The naive evaluation as somebody who answers calls.

use crate::answer::{self, Answer, Fault, Refusal, Verdict};
use crate::calls::{self, Outcome, Written};
use crate::compare::call::{Call, Face, Files};
use crate::course::Course;
use crate::gen::rng::Rng;
use crate::gen::sheets::vectors;
use crate::grouping;
use crate::room::capacity;

use super::brute::{Machine, MOST_TRIED};
use super::machine::Raw;
use super::{audit, coarsest, course, faults};

/// Ticks for which two equivalent sheets are run.
const TICKS: usize = 60;

pub struct Naive {
    rng: Rng,
    /// The course of the last files asked about: they come back at many sizes.
    last: Option<(bool, Files, usize, Course)>,
}

impl Naive {
    pub fn new(seed: u64) -> Naive {
        Naive {
            rng: Rng::of(seed, u64::MAX),
            last: None,
        }
    }

    fn course(&mut self, refines: bool, files: &Files, machine: &Machine, words: usize) -> Course {
        if let Some((of_refine, of_files, limit, course)) = &self.last {
            if *of_refine == refines && of_files == files && capacity(words) <= *limit {
                return course.clone();
            }
        }
        let limit = capacity(words);
        let course = course::course(refines, files, machine, limit);
        self.last = Some((refines, files.clone(), limit, course.clone()));
        course
    }
}

fn read(file: &[u8], name: u64) -> Result<Raw, Refusal> {
    let records = faults::sheet(file).map_err(|fault| fault.of_file(name))?;
    Ok(Raw::new(records))
}

fn read_all(files: &Files) -> Result<Machine, Refusal> {
    let a = read(&files.a, answer::FILE_A)?;
    let b = read(&files.b, answer::FILE_B)?;
    let none = |number, position| Fault::new(number, position).of_file(answer::FILE_NONE);
    if a.inputs() != b.inputs() {
        return Err(none(answer::UNLIKE, 0));
    }
    if a.outputs().len() != b.outputs().len() {
        return Err(none(answer::UNLIKE, 1));
    }
    let n = a.len() + b.len();
    match faults::grouping(&files.p, n) {
        Ok(_) => Ok(Machine::new(a, b)),
        Err(fault) => Err(fault.of_file(answer::FILE_GROUPING)),
    }
}

fn clear(table: &mut [u16]) {
    let cleared = 10 * (table.len() / 10).min(60_000);
    table[..cleared].fill(0);
}

/// The numbers of a refusal that names no file.
fn refused(number: u64, position: usize) -> Vec<u64> {
    vec![number, 3, position as u64]
}

fn row(refusal: Refusal) -> Vec<u64> {
    vec![refusal.number, refusal.file, refusal.position]
}

/// The answer that a course comes to in a table of so many tens.
fn answered(course: &Course, tens: usize) -> Vec<u64> {
    let mut nodes = 0;
    for (list, count) in course.counts.iter().enumerate() {
        if *count > tens || *count > 60_000 {
            return refused(22, list);
        }
        nodes = nodes.max(*count as u64);
    }
    match &course.end {
        None => refused(22, course.counts.len()),
        Some(end) => {
            let number = u64::from(end.reason != 0);
            vec![
                number,
                end.reason,
                end.index as u64,
                end.rounds as u64,
                nodes,
            ]
        }
    }
}

/// Puts as many numbers into a row as it has places for.
fn put(numbers: &[u64], row: &mut [u64]) -> usize {
    for (place, number) in row.iter_mut().zip(numbers) {
        *place = *number;
    }
    numbers.len()
}

fn written(a: &[u8], result: &mut [u8]) -> Vec<u64> {
    let file = match read(a, 0) {
        Ok(raw) => raw.file(),
        Err(refusal) => return row(refusal),
    };
    match result.get_mut(..file.len()) {
        None => refused(20, file.len()),
        Some(place) => {
            place.copy_from_slice(&file);
            vec![file.len() as u64]
        }
    }
}

fn ran(a: &[u8], vectors: &[u8], result: &mut [u16]) -> Vec<u64> {
    let raw = match read(a, 0) {
        Ok(raw) => raw,
        Err(refusal) => return row(refusal),
    };
    let Some(place) = result.get_mut(..vectors.len()) else {
        return refused(20, vectors.len());
    };
    for (tick, vector) in vectors.iter().enumerate() {
        if (raw.inputs()..8).any(|bit| vector & (1 << bit) != 0) {
            return refused(21, tick);
        }
    }
    place.copy_from_slice(&raw.run(vectors));
    vec![vectors.len() as u64]
}

impl Face for Naive {
    fn write(&mut self, a: &[u8], result: &mut [u8], row: &mut [u64]) -> usize {
        put(&written(a, result), row)
    }

    fn run(&mut self, a: &[u8], vectors: &[u8], result: &mut [u16], row: &mut [u64]) -> usize {
        put(&ran(a, vectors, result), row)
    }

    fn check(&mut self, files: &Files, table: &mut [u16], row: &mut [u64]) -> usize {
        put(&self.checked(files, table), row)
    }

    fn refine(
        &mut self,
        files: &Files,
        table: &mut [u16],
        result: &mut [u8],
        row: &mut [u64],
    ) -> usize {
        put(&self.refined(files, table, result), row)
    }

    fn objection(&mut self, call: &Call, outcome: &Outcome) -> Option<String> {
        let (files, words) = match call {
            Call::Check { files, words } | Call::Refine { files, words, .. } => (files, *words),
            _ => return None,
        };
        let Answer::Verdict(verdict) = outcome.answer else {
            return None;
        };
        if verdict.reason == answer::PROVED && !self.run_alike(files) {
            return Some("the two sheets run differently".into());
        }
        let machine = read_all(files).ok()?;
        let Written::Bytes(bytes) = &outcome.written else {
            return None;
        };
        let result = faults::grouping(bytes, machine.len()).ok()?;
        if verdict.rounds >= machine.len() as u64 {
            return Some("there are more rounds than n - 1".into());
        }
        if machine.step_variables() > MOST_TRIED {
            if !passes_check(files, bytes, words, &verdict) {
                return Some("what it wrote does not pass a check".into());
            }
            let grouping = grouping::firsts(&result);
            let limit = capacity(words);
            return audit::objection(
                &machine,
                &course::pair(files),
                &grouping,
                limit,
                &mut self.rng,
            );
        }
        if machine.len() > coarsest::MOST_SIGNALS {
            return None;
        }
        let proposal = faults::grouping(&files.p, machine.len()).ok()?;
        coarsest::objection(&machine, &proposal, &result)
    }
}

impl Naive {
    fn checked(&mut self, files: &Files, table: &mut [u16]) -> Vec<u64> {
        clear(table);
        match read_all(files) {
            Err(refusal) => row(refusal),
            Ok(machine) => {
                let course = self.course(false, files, &machine, table.len());
                answered(&course, table.len() / 10)
            }
        }
    }

    fn refined(&mut self, files: &Files, table: &mut [u16], result: &mut [u8]) -> Vec<u64> {
        clear(table);
        let machine = match read_all(files) {
            Err(refusal) => return row(refusal),
            Ok(machine) => machine,
        };
        let needed = 2 * machine.len() + 1;
        if result.len() < needed {
            return refused(20, needed);
        }
        let course = self.course(true, files, &machine, table.len());
        let row = answered(&course, table.len() / 10);
        if let (5, Some(end)) = (row.len(), &course.end) {
            write_classes(&end.grouping, result);
        }
        row
    }

    fn run_alike(&mut self, files: &Files) -> bool {
        let (Ok(a), Ok(b)) = (read(&files.a, 0), read(&files.b, 1)) else {
            return false;
        };
        let vectors = vectors(&mut self.rng, a.inputs(), TICKS);
        a.run(&vectors) == b.run(&vectors)
    }
}

/// Start and Step hold for what refine wrote: checked with the same table, it
/// comes to the same reason.
fn passes_check(files: &Files, written: &[u8], words: usize, verdict: &Verdict) -> bool {
    match calls::check(&files.a, &files.b, written, words).answer {
        Answer::Verdict(v) => (v.reason, v.index) == (verdict.reason, verdict.index),
        _ => false,
    }
}

/// Class numbers from 0 in order of first member.
fn write_classes(first: &[usize], result: &mut [u8]) {
    let mut members: Vec<usize> = Vec::new();
    for (v, first) in first.iter().enumerate() {
        let known = members.iter().position(|member| member == first);
        let class = known.unwrap_or_else(|| {
            members.push(*first);
            members.len() - 1
        });
        result[2 * v] = 0x11;
        result[2 * v + 1] = class as u8;
    }
    result[2 * first.len()] = 8;
}
