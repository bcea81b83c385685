//! Which answers the cases reached, and how much was lent for them.

use std::collections::BTreeMap;
use std::fmt;

use crate::answer::{self, Answer, LONGEST_ANSWER, NAMES};
use crate::calls::Written;
use crate::room::capacity;

use super::call::{Call, Trial, CALL_NAMES};

/// Places of the calls among their names.
const WRITE: usize = 0;
const RUN: usize = 1;
const CHECK: usize = 2;
const REFINE: usize = 3;

const ALL: &[usize] = &[WRITE, RUN, CHECK, REFINE];
const ON_PAIRS: &[usize] = &[CHECK, REFINE];

/// The calls that can answer a number and, for a refusal, the files that it can
/// name. A grouping has no limit of its own: one that is too long has the wrong
/// count.
fn reachable(number: u64) -> (&'static [usize], &'static [u64]) {
    match number {
        answer::EQUIVALENT | answer::UNDECIDED => (ON_PAIRS, &[]),
        answer::SHORT | answer::KIND | answer::AFTER => (ALL, &[0, 1, 2]),
        answer::MANY | answer::VALUE | answer::LATER => (ALL, &[0, 1]),
        answer::NO_OUTPUT | answer::DANGLING => (ALL, &[0, 1]),
        answer::UNLIKE | answer::NO_ROOM => (ON_PAIRS, &[3]),
        answer::COUNT => (ON_PAIRS, &[2]),
        answer::OUT => (&[WRITE, RUN, REFINE], &[3]),
        answer::VECTOR => (&[RUN], &[3]),
        _ => unreachable!("a number of no answer"),
    }
}

/// Reasons that the calls can give: check all of them, refine only OUTPUTS.
const REASONS: [(u64, &str, &[usize]); 4] = [
    (answer::PROVED, "proved", ON_PAIRS),
    (answer::START, "START", &[CHECK]),
    (answer::STEP, "STEP", &[CHECK]),
    (answer::OUTPUTS, "OUTPUTS", ON_PAIRS),
];

/// How many numbers an answer has.
const ANSWERS: [usize; 3] = [1, 3, LONGEST_ANSWER];

/// Rows with more places than any answer needs are counted together.
const MORE_PLACES: usize = LONGEST_ANSWER + 1;

/// How often so much was lent: one less than a mark, as much, one more.
type Marks = [usize; 3];

fn count_marks(counts: &mut Marks, lent: usize, marks: &[usize]) {
    let near = [lent + 1, lent, lent.wrapping_sub(1)];
    for (times, mark) in counts.iter_mut().zip(near) {
        *times += usize::from(marks.contains(&mark));
    }
}

/// Something that is counted in parts, with a name for each.
type Parts<'c> = (&'static str, &'static [&'static str], &'c [usize]);

#[derive(Default)]
pub struct Coverage {
    pub calls: usize,
    themes: BTreeMap<&'static str, usize>,
    /// By number and call, number and file, reason and call.
    numbers: BTreeMap<(u64, usize), usize>,
    files: BTreeMap<(u64, u64), usize>,
    reasons: BTreeMap<(u64, usize), usize>,
    /// Calls that wrote, by call.
    written: BTreeMap<usize, usize>,
    /// By the answer's numbers and the row's places.
    rows: BTreeMap<(usize, usize), usize>,
    /// NO ROOM by list: the start list, the first step list, a later one.
    lists: [usize; 3],
    /// Verdicts of refine by rounds: none, one, more.
    rounds: [usize; 3],
    /// UNLIKE by position: the inputs differ, only the outputs do.
    unlike: [usize; 2],
    /// Capacities against the node counts, results against the length needed.
    tables: Marks,
    results: Marks,
}

fn add<K: Ord>(counts: &mut BTreeMap<K, usize>, key: K) {
    *counts.entry(key).or_default() += 1;
}

fn times<K: Ord>(counts: &BTreeMap<K, usize>, key: K) -> usize {
    counts.get(&key).copied().unwrap_or(0)
}

impl Coverage {
    pub fn count(&mut self, theme: &'static str, trial: &Trial) {
        let answer = &trial.outcome.answer;
        self.calls += 1;
        add(&mut self.themes, theme);
        let places = trial.row.min(MORE_PLACES);
        add(&mut self.rows, (answer.row().len(), places));
        self.count_answer(&trial.call, answer);
        self.count_lent(trial);
    }

    fn count_answer(&mut self, call: &Call, answer: &Answer) {
        let place = call.place();
        match answer {
            Answer::Written(_) => add(&mut self.written, place),
            Answer::Verdict(verdict) => {
                add(&mut self.numbers, (answer.row()[0], place));
                add(&mut self.reasons, (verdict.reason, place));
                if place == REFINE {
                    self.rounds[verdict.rounds.min(2) as usize] += 1;
                }
            }
            Answer::Refusal(refusal) => {
                add(&mut self.numbers, (refusal.number, place));
                add(&mut self.files, (refusal.number, refusal.file));
                match refusal.number {
                    answer::NO_ROOM => self.lists[refusal.position.min(2) as usize] += 1,
                    answer::UNLIKE => self.unlike[refusal.position.min(1) as usize] += 1,
                    _ => {}
                }
            }
        }
    }

    fn count_lent(&mut self, trial: &Trial) {
        if let Call::Check { words, .. } | Call::Refine { words, .. } = trial.call {
            count_marks(&mut self.tables, capacity(words), &trial.counts);
        }
        let lent = match trial.call {
            Call::Check { .. } => return,
            Call::Write { result, .. } | Call::Run { result, .. } | Call::Refine { result, .. } => {
                result
            }
        };
        let needed = match (&trial.outcome.answer, &trial.outcome.written) {
            (Answer::Refusal(out), _) if out.number == answer::OUT => out.position as usize,
            (_, Written::Bytes(bytes)) => bytes.len(),
            (_, Written::Numbers(numbers)) => numbers.len(),
            _ => return,
        };
        count_marks(&mut self.results, lent, &[needed]);
    }

    /// What is counted beside the numbers, files, reasons and rows.
    fn parts(&self) -> [Parts<'_>; 5] {
        let marks = &["one below", "at", "one above"];
        let lists = &["start list", "first step list", "later"];
        [
            ("N against a node count", marks, &self.tables),
            ("result against the length needed", marks, &self.results),
            ("NO ROOM", lists, &self.lists),
            ("UNLIKE", &["inputs", "only outputs"], &self.unlike),
            ("refined in rounds", &["none", "one", "more"], &self.rounds),
        ]
    }

    /// What no case reached, though a case could.
    pub fn missed(&self) -> Vec<String> {
        let mut missed = Vec::new();
        let mut test = |times: usize, what: String| {
            if times == 0 {
                missed.push(what);
            }
        };
        for (number, name) in NAMES {
            let (places, files) = reachable(number);
            for &place in places {
                let what = format!("number {number} {name} of {}", CALL_NAMES[place]);
                test(times(&self.numbers, (number, place)), what);
            }
            for &file in files {
                let what = format!("number {number} {name} with file {file}");
                test(times(&self.files, (number, file)), what);
            }
        }
        for place in [WRITE, RUN] {
            let what = format!("a length of {}", CALL_NAMES[place]);
            test(times(&self.written, place), what);
        }
        for (reason, name, places) in REASONS {
            for &place in places {
                let what = format!("reason {reason} {name} of {}", CALL_NAMES[place]);
                test(times(&self.reasons, (reason, place)), what);
            }
        }
        for numbers in ANSWERS {
            for places in 0..=MORE_PLACES {
                let what = format!("{numbers} numbers in a row of {places}");
                test(times(&self.rows, (numbers, places)), what);
            }
        }
        for (what, names, counts) in self.parts() {
            for (name, &times) in names.iter().zip(counts) {
                test(times, format!("{what}: {name}"));
            }
        }
        missed
    }
}

impl fmt::Display for Coverage {
    fn fmt(&self, f: &mut fmt::Formatter) -> fmt::Result {
        writeln!(
            f,
            "no. name          write     run   check  refine |  file A  file B grouping   none"
        )?;
        for (number, name) in NAMES {
            write!(f, "{number:3} {name:10}")?;
            for place in 0..CALL_NAMES.len() {
                write!(f, " {:7}", times(&self.numbers, (number, place)))?;
            }
            write!(f, " |")?;
            for file in 0..4 {
                write!(f, " {:7}", times(&self.files, (number, file)))?;
            }
            writeln!(f)?;
        }
        let written = |place| times(&self.written, place);
        writeln!(f, "    wrote      {:7} {:7}", written(WRITE), written(RUN))?;
        for (reason, name, _) in REASONS {
            let given = |place| times(&self.reasons, (reason, place));
            writeln!(
                f,
                "reason {reason} {name:8}           {:7} {:7}",
                given(CHECK),
                given(REFINE)
            )?;
        }
        writeln!(
            f,
            "places of the row    0       1       2       3       4       5    more"
        )?;
        for numbers in ANSWERS {
            write!(f, "  {numbers} numbers   ")?;
            for places in 0..=MORE_PLACES {
                write!(f, " {:7}", times(&self.rows, (numbers, places)))?;
            }
            writeln!(f)?;
        }
        for (what, names, counts) in self.parts() {
            let part = |(name, times): (&&str, &usize)| format!("{name} {times}");
            let parts: Vec<String> = names.iter().zip(counts).map(part).collect();
            writeln!(f, "{what}: {}", parts.join(", "))?;
        }
        for (theme, calls) in &self.themes {
            writeln!(f, "{calls:8} calls  {theme}")?;
        }
        Ok(())
    }
}
