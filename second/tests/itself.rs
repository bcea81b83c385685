//! The second checker against its own naive evaluation, on a short run of the
//! cases that `compare` makes, and the marks of a good comparison.

use std::ops::BitXorAssign;

use second::calls::Written;
use second::compare::call::{Call, Face, Files, Trial, CALL_NAMES};
use second::compare::coverage::Coverage;
use second::compare::judge::Judge;
use second::gen::cases::case;
use second::naive::face::Naive;

const SEED: u64 = 2;
const CASES: u64 = 300;

/// So many cases are certain to reach everything that can be reached.
const CASES_FOR_ALL: u64 = 6_000;

#[test]
fn agrees_with_the_naive_evaluation() {
    let mut judge = Judge::new(Naive::new(SEED));
    for number in 0..CASES {
        for trial in case(SEED, number).trials {
            if let Err(complaint) = judge.judge(&trial) {
                panic!("case {number}: {complaint}\n{trial}");
            }
        }
    }
}

/// What a case says of a call from one course for many sizes is what the call
/// says when it is asked afresh.
#[test]
fn cases_say_what_the_calls_say() {
    for number in 0..CASES {
        for trial in case(SEED, number).trials {
            let afresh = trial.call.outcome();
            assert_eq!(afresh, trial.outcome, "case {number}\n{trial}");
        }
    }
}

#[test]
fn cases_are_repeatable() {
    for number in 0..CASES / 10 {
        let trials = |_| case(SEED, number).trials;
        assert!(trials(0) == trials(1), "case {number}");
    }
}

/// What was never reached is named, until it is reached.
#[test]
fn what_is_missed_is_named() {
    let mut coverage = Coverage::default();
    let none = coverage.missed();
    for number in [0, 1, 10, 11, 12, 13, 14, 15, 16, 17, 18, 19, 20, 21, 22] {
        let name = format!("number {number} ");
        assert!(none.iter().any(|what| what.starts_with(&name)), "{name}");
    }
    for reason in 0..4 {
        let name = format!("reason {reason} ");
        assert!(none.iter().any(|what| what.starts_with(&name)), "{name}");
    }
    for number in 0..CASES_FOR_ALL {
        let case = case(SEED, number);
        for trial in &case.trials {
            coverage.count(case.theme, trial);
        }
    }
    assert_eq!(coverage.missed(), Vec::<String>::new());
}

/// A face that does one thing wrong.
struct Wrong {
    right: Naive,
    slip: Slip,
}

#[derive(Clone, Copy, PartialEq, Eq, Debug)]
enum Slip {
    WritesBeyond,
    WritesWhenRefused,
    LeavesAWord,
    ClearsTooMuch,
    OtherNumber,
    FillsTheRow,
    LeavesAShortRow,
    CountsPlaces,
}

impl Wrong {
    fn is(&self, slip: Slip) -> bool {
        self.slip == slip
    }

    fn spoil_result<T: BitXorAssign + From<u8>>(&self, count: usize, result: &mut [T]) {
        let is_refused = count == 3;
        let beyond = self.is(Slip::WritesBeyond) && !is_refused;
        let refused = self.is(Slip::WritesWhenRefused) && is_refused;
        if let Some(last) = result.last_mut().filter(|_| beyond || refused) {
            *last ^= T::from(1);
        }
    }

    fn spoil_table(&self, table: &mut [u16]) {
        let cleared = table.len() / 10 * 10;
        if self.is(Slip::LeavesAWord) && cleared > 0 {
            table[cleared - 1] = 1;
        }
        if self.is(Slip::ClearsTooMuch) {
            table.fill(0);
        }
    }

    /// Spoils a row of which the old contents are known.
    fn spoil_row(&self, count: usize, old: &[u64], row: &mut [u64]) -> usize {
        let places = row.len();
        match self.slip {
            Slip::OtherNumber if places >= count => row[count - 1] += 1,
            Slip::FillsTheRow if places > count => row[places - 1] = 0,
            Slip::LeavesAShortRow if places < count => row.copy_from_slice(old),
            Slip::CountsPlaces => return count.min(places),
            _ => {}
        }
        count
    }
}

impl Face for Wrong {
    fn write(&mut self, a: &[u8], result: &mut [u8], row: &mut [u64]) -> usize {
        let old = row.to_vec();
        let count = self.right.write(a, result, row);
        self.spoil_result(count, result);
        self.spoil_row(count, &old, row)
    }

    fn run(&mut self, a: &[u8], vectors: &[u8], result: &mut [u16], row: &mut [u64]) -> usize {
        let old = row.to_vec();
        let count = self.right.run(a, vectors, result, row);
        self.spoil_result(count, result);
        self.spoil_row(count, &old, row)
    }

    fn check(&mut self, files: &Files, table: &mut [u16], row: &mut [u64]) -> usize {
        let old = row.to_vec();
        let count = self.right.check(files, table, row);
        self.spoil_table(table);
        self.spoil_row(count, &old, row)
    }

    fn refine(
        &mut self,
        files: &Files,
        table: &mut [u16],
        result: &mut [u8],
        row: &mut [u64],
    ) -> usize {
        let old = row.to_vec();
        let count = self.right.refine(files, table, result, row);
        self.spoil_result(count, result);
        self.spoil_table(table);
        self.spoil_row(count, &old, row)
    }
}

/// Is there nothing beyond what was written?
fn is_exact(trial: &Trial) -> bool {
    let written = match &trial.outcome.written {
        Written::Nothing => return false,
        Written::Bytes(bytes) => bytes.len(),
        Written::Numbers(numbers) => numbers.len(),
    };
    match trial.call {
        Call::Check { .. } => false,
        Call::Write { result, .. } | Call::Run { result, .. } | Call::Refine { result, .. } => {
            result == written
        }
    }
}

/// Is the slip noticed in the call at this place among the names?
fn is_noticed(slip: Slip, place: usize) -> bool {
    let right = Naive::new(SEED);
    let mut judge = Judge::new(Wrong { right, slip });
    let mut notices = |trial: &Trial| {
        let is_meant = trial.call.place() == place && !is_exact(trial);
        is_meant && judge.judge(trial).is_err()
    };
    (1..CASES).any(|number| case(SEED, number).trials.iter().any(&mut notices))
}

#[test]
fn slips_are_noticed() {
    let (results, tables, rows) = ([0, 1, 3], [2, 3], [0, 1, 2, 3]);
    for (slip, places) in [
        (Slip::WritesBeyond, &results[..]),
        (Slip::WritesWhenRefused, &results),
        (Slip::LeavesAWord, &tables),
        (Slip::ClearsTooMuch, &tables),
        (Slip::OtherNumber, &rows),
        (Slip::FillsTheRow, &rows),
        (Slip::LeavesAShortRow, &rows),
        (Slip::CountsPlaces, &rows),
    ] {
        for &place in places {
            assert!(is_noticed(slip, place), "{slip:?} of {}", CALL_NAMES[place]);
        }
    }
}
