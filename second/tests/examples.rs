//! The board pairs under `examples/`: the second checker prints each line that is expected there.

use std::fs;
use std::path::{Path, PathBuf};

use second::answer::Answer;
use second::calls::{check, refine};
use second::grouping;
use second::sheet;

/// What the two programs lend.
const WORDS: usize = 30_000;
const RESULT: usize = 481;

fn root() -> PathBuf {
    Path::new(env!("CARGO_MANIFEST_DIR")).join("..")
}

/// One class of everything; that of a damaged sheet may be anything.
fn one_class(a: &[u8], b: &[u8]) -> Vec<u8> {
    let signals = |file| sheet::read(file).map_or(0, |sheet| sheet.signals.len());
    grouping::file(&vec![0; signals(a) + signals(b)])
}

fn line(mode: &str, answer: &Answer) -> String {
    let row = answer.row();
    let (words, numbers) = match answer {
        Answer::Verdict(_) if row[0] == 0 => (format!("{mode} EQUIVALENT"), &row[1..]),
        Answer::Verdict(_) => (format!("{mode} UNDECIDED"), &row[1..]),
        _ => ("refused".to_string(), &row[..]),
    };
    numbers.iter().fold(words, |line, n| format!("{line} {n}"))
}

/// The line for a command, `./yellopard MODE OLD NEW [GROUPING]`.
fn answered(command: &str) -> String {
    let words: Vec<&str> = command.split(' ').collect();
    let file = |i: usize| fs::read(root().join(words[i])).unwrap();
    let (a, b) = (file(2), file(3));
    let p = match words.len() {
        4 => one_class(&a, &b),
        _ => file(4),
    };
    let outcome = match words[1] {
        "check" => check(&a, &b, &p, WORDS),
        _ => refine(&a, &b, &p, WORDS, RESULT),
    };
    line(words[1], &outcome.answer)
}

#[test]
fn examples() {
    let mut commands = 0;
    for folder in fs::read_dir(root().join("examples")).unwrap() {
        let expected = folder.unwrap().path().join("expected");
        let Ok(text) = fs::read_to_string(&expected) else {
            continue;
        };
        let lines: Vec<&str> = text.lines().collect();
        for (i, command) in lines.iter().enumerate() {
            let Some(command) = command.strip_prefix("$ ") else {
                continue;
            };
            assert_eq!(answered(command), lines[i + 1], "{command}");
            commands += 1;
        }
    }
    assert!(commands >= 9);
}
