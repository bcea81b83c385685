//! What is refused, and what is refused first, written down by hand.

use second::answer::Answer;
use second::calls::{check, refine, run, write};
use second::gen::benches::{D, L, R, W};
use second::grouping;

const WORDS: usize = 30_000;
const RESULT: usize = 481;

type Row = Vec<u64>;

fn written(file: &[u8]) -> Row {
    write(file, RESULT).answer.row()
}

fn checked(a: &[u8], b: &[u8], p: &[u8]) -> Row {
    check(a, b, p, WORDS).answer.row()
}

/// Twelve registers, then more bytes.
fn after_registers(more: &[u8]) -> Vec<u8> {
    [&[2, 0, 0].repeat(12)[..], more].concat()
}

/// An input and 119 inverters, then more bytes.
fn after_signals(more: &[u8]) -> Vec<u8> {
    [&[1, 0][..], &[3, 0].repeat(119), more].concat()
}

#[test]
fn short_gives_the_record_or_the_length() {
    assert_eq!(written(&[1, 0, 1]), [10, 0, 2]);
    assert_eq!(written(&[1, 0, 4, 0]), [10, 0, 2]);
    assert_eq!(written(&[1, 0]), [10, 0, 2]);
    assert_eq!(written(&L[..8]), [10, 0, 8]);
}

#[test]
fn kinds_of_groupings_are_unknown_in_sheets_and_the_other_way_round() {
    for kind in [0x00, 0x09, 0x0a, 0x10, 0x11, 0x12, 0xff] {
        assert_eq!(written(&[1, 0, kind, 0, 0, 8]), [11, 0, 2]);
    }
    for kind in [
        0x00, 0x01, 0x02, 0x03, 0x04, 0x05, 0x06, 0x07, 0x09, 0x10, 0x12,
    ] {
        assert_eq!(checked(&L, &L, &[0x11, 0, kind]), [11, 2, 2]);
    }
}

#[test]
fn within_a_record_kind_short_many_value_later() {
    assert_eq!(written(&after_registers(&[9])), [11, 0, 36]);
    assert_eq!(written(&after_registers(&[2, 2])), [10, 0, 36]);
    assert_eq!(written(&after_registers(&[2, 2, 0])), [12, 0, 36]);
    assert_eq!(written(&after_signals(&[3, 255])), [12, 0, 240]);
    assert_eq!(written(&after_signals(&[2, 2, 0])), [12, 0, 240]);
    assert_eq!(written(&after_signals(&[3])), [10, 0, 240]);
    assert_eq!(written(&[2, 2, 0, 8]), [13, 0, 0]);
    assert_eq!(written(&[2, 1, 0, 3, 1, 8]), [14, 0, 3]);
    assert_eq!(written(&[2, 1, 0, 4, 0, 1, 8]), [14, 0, 3]);
    assert_eq!(written(&[2, 1, 0, 4, 1, 0, 8]), [14, 0, 3]);
    assert_eq!(written(&[3, 0, 8]), [14, 0, 0]);
}

#[test]
fn files_are_read_left_to_right() {
    assert_eq!(written(&[2, 2, 0, 9]), [13, 0, 0]);
    assert_eq!(written(&[9, 2, 2, 0]), [11, 0, 0]);
    assert_eq!(written(&[7, 0, 9, 2, 0, 9, 3]), [10, 0, 6]);
}

#[test]
fn at_end_after_then_no_output_then_dangling() {
    assert_eq!(written(&[8, 8]), [15, 0, 1]);
    assert_eq!(written(&[2, 0, 5, 8, 9, 9]), [15, 0, 4]);
    assert_eq!(written(&[2, 0, 5, 8]), [16, 0, 3]);
    assert_eq!(written(&[2, 0, 0, 2, 0, 2, 7, 0, 2, 8]), [17, 0, 3]);
    assert_eq!(written(&[7, 0, 2, 2, 0, 0, 2, 0, 2, 8]), [17, 0, 0]);
}

#[test]
fn groupings() {
    let p = |n: usize| grouping::file(&vec![3; n]);
    assert_eq!(checked(&L, &L, &[]), [10, 2, 0]);
    assert_eq!(checked(&L, &L, &p(4)[..8]), [10, 2, 8]);
    assert_eq!(checked(&L, &L, &[0x11, 0, 0x11]), [10, 2, 2]);
    assert_eq!(checked(&L, &L, &p(3)), [19, 2, 6]);
    assert_eq!(checked(&L, &L, &p(5)), [19, 2, 10]);
    assert_eq!(checked(&L, &L, &p(300)), [19, 2, 600]);
    assert_eq!(checked(&L, &L, &[p(3), vec![0]].concat()), [15, 2, 7]);
    assert_eq!(checked(&L, &L, &[8]), [19, 2, 0]);
}

#[test]
fn calls_go_a_b_unlike_grouping_out_room() {
    let one = |n: usize| grouping::file(&vec![0; n]);
    let two_outputs = [1, 0, 7, 0, 0, 7, 0, 0, 8];
    assert_eq!(checked(&[], &[], &[]), [10, 0, 0]);
    assert_eq!(checked(&L, &[], &[]), [10, 1, 0]);
    assert_eq!(checked(&L, &R, &[]), [18, 3, 0]);
    assert_eq!(checked(&L, &two_outputs, &[]), [18, 3, 1]);
    assert_eq!(checked(&R, &two_outputs, &[]), [18, 3, 0]);
    let refined = |p: &[u8], words, result| refine(&L, &D, p, words, result).answer.row();
    assert_eq!(refined(&one(4), 0, 0), [19, 2, 8]);
    assert_eq!(refined(&one(5), 0, 10), [20, 3, 11]);
    assert_eq!(refined(&one(5), 0, 11), [22, 3, 0]);
    assert_eq!(refined(&one(5), 19, 11), [22, 3, 0]);
    assert_eq!(refined(&one(5), 20, 11), [22, 3, 1]);
    // START comes before the step list's room.
    assert_eq!(check(&L, &D, &one(5), 20).answer.row(), [1, 1, 1, 0, 2]);
}

#[test]
fn a_pair_without_inputs_needs_no_room_to_start() {
    let p = grouping::file(&[0; 5]);
    assert_eq!(refine(&R, &W, &p, 9, 11).answer.row(), [22, 3, 1]);
}

#[test]
fn runs_go_sheet_out_vector() {
    let row = |a: &[u8], vectors: &[u8], result| run(a, vectors, result).answer.row();
    assert_eq!(row(&[], &[9], 0), [10, 0, 0]);
    assert_eq!(row(&L, &[1, 2], 1), [20, 3, 2]);
    assert_eq!(row(&L, &[1, 2, 2], 3), [21, 3, 1]);
    assert_eq!(row(&R, &[0, 0, 1], 9), [21, 3, 2]);
    assert_eq!(row(&L, &[], 0), [0]);
    let eight = [[1, 0].repeat(8), vec![7, 0, 7, 8]].concat();
    assert_eq!(row(&eight, &[0xff, 0x7f], 2), [2]);
}

#[test]
fn writing_moves_outputs_behind_signals() {
    let strewn = [7, 9, 1, 1, 5, 7, 8, 0, 2, 1, 0, 8];
    assert_eq!(write(&strewn, 11).answer.row(), [20, 3, 12]);
    let outcome = write(&strewn, 12);
    assert_eq!(outcome.answer, Answer::Written(12));
    let moved = vec![1, 5, 2, 1, 0, 7, 9, 1, 7, 8, 0, 8];
    assert_eq!(outcome.written, second::calls::Written::Bytes(moved));
}
