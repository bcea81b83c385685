//! The paper's ten marked cases, on the second checker alone.

use second::answer::{Answer, Refusal, Verdict};
use second::calls::{check, refine, run, write, Outcome, Written};
use second::gen::benches::{D, I, J, K, L, R, W};
use second::grouping;
use second::room::NODE_WORDS;

/// Room for every marked case.
const WORDS: usize = 3_000 * NODE_WORDS;
const RESULT: usize = 481;

fn one_class(n: usize) -> Vec<u8> {
    grouping::file(&vec![0; n])
}

fn verdict(reason: u64, index: u64, rounds: u64, nodes: u64) -> Answer {
    Answer::Verdict(Verdict {
        reason,
        index,
        rounds,
        nodes,
    })
}

fn refusal(number: u64, file: u64, position: u64) -> Answer {
    Answer::Refusal(Refusal {
        number,
        file,
        position,
    })
}

/// The verdict without its nodes, which most cases leave open.
fn without_nodes(outcome: &Outcome) -> (u64, u64, u64) {
    match outcome.answer {
        Answer::Verdict(v) => (v.reason, v.index, v.rounds),
        ref other => panic!("not a verdict: {other:?}"),
    }
}

/// Refines from one class: reason, index, rounds, and the classes written.
fn refined(a: &[u8], b: &[u8], n: usize) -> ((u64, u64, u64), Vec<u8>) {
    let outcome = refine(a, b, &one_class(n), WORDS, RESULT);
    let Written::Bytes(bytes) = &outcome.written else {
        panic!("nothing written");
    };
    assert_eq!(bytes.len(), 2 * n + 1);
    assert_eq!(bytes[2 * n], 8);
    assert!(bytes.iter().step_by(2).take(n).all(|kind| *kind == 0x11));
    let classes = bytes[1..].iter().step_by(2).copied().collect();
    (without_nodes(&outcome), classes)
}

#[test]
fn case_1() {
    assert_eq!(refined(&L, &I, 6), ((0, 0, 0), vec![0, 1, 0, 1, 1, 0]));
}

#[test]
fn case_2() {
    let at = |nodes: usize| refine(&L, &I, &one_class(6), nodes * NODE_WORDS, RESULT).answer;
    assert_eq!(at(15), verdict(0, 0, 0, 15));
    assert_eq!(at(14), refusal(22, 3, 1));
    assert_eq!(at(2), refusal(22, 3, 1));
    assert_eq!(at(1), refusal(22, 3, 0));
}

#[test]
fn case_3() {
    assert_eq!(refined(&L, &J, 6), ((3, 0, 1), vec![0, 1, 0, 2, 2, 0]));
}

#[test]
fn case_4() {
    assert_eq!(refined(&L, &D, 5), ((3, 0, 1), vec![0, 1, 0, 1, 2]));
}

#[test]
fn case_5() {
    assert_eq!(refined(&L, &K, 5), ((3, 0, 0), vec![0, 1, 0, 1, 1]));
}

#[test]
fn case_6() {
    assert_eq!(refined(&R, &W, 5), ((3, 0, 2), vec![0, 1, 2, 3, 4]));
    let vectors = [0; 40];
    let zeros = Written::Numbers(vec![0; 40]);
    assert_eq!(run(&R, &vectors, 40).written, zeros);
    assert_eq!(run(&W, &vectors, 40).written, zeros);
}

#[test]
fn case_7() {
    let outcome = check(&L, &D, &grouping::file(&[0, 1, 0, 1, 1]), WORDS);
    assert_eq!(without_nodes(&outcome), (2, 4, 0));
}

#[test]
fn case_8() {
    let one = check(&L, &I, &one_class(6), WORDS);
    assert_eq!(without_nodes(&one), (1, 1, 0));
    let six = check(&L, &I, &grouping::file(&[0, 1, 2, 3, 4, 5]), WORDS);
    assert_eq!(without_nodes(&six), (3, 0, 0));
}

#[test]
fn case_9() {
    let vectors = [1, 0, 1];
    let on = |sheet: &[u8]| run(sheet, &vectors, 3);
    assert_eq!(on(&L).answer, Answer::Written(3));
    assert_eq!(on(&L).written, Written::Numbers(vec![0, 1, 0]));
    assert_eq!(on(&D).written, Written::Numbers(vec![0, 0, 1]));
}

#[test]
fn case_10() {
    let at = |file: &[u8]| write(file, RESULT).answer;
    assert_eq!(at(&[]), refusal(10, 0, 0));
    assert_eq!(at(&[8]), refusal(16, 0, 0));
    assert_eq!(at(&[2, 2]), refusal(10, 0, 0));
    assert_eq!(at(&[7, 0, 0, 8]), refusal(17, 0, 0));
    let d_and_one = [&D[..], &[0]].concat();
    assert_eq!(at(&d_and_one), refusal(15, 0, 12));
}

/// What the refine program prints for L and I, as a row.
#[test]
fn whole_output() {
    let outcome = refine(&L, &I, &grouping::file(&[7; 6]), WORDS, RESULT);
    assert_eq!(outcome.answer.row(), [0, 0, 0, 0, 15]);
}
