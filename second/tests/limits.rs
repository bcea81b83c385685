//! The paper's 'Run only' cases: each limit is accepted, one more is MANY.

use second::answer::{Answer, Fault, MANY};
use second::calls::write;
use second::sheet::{read, END, INPUT, NOT, OUTPUT, REGISTER};

/// So many equal records with one output and END; the last record's offset.
fn file(record: &[u8], count: usize) -> (Vec<u8>, usize) {
    let mut file = record.repeat(count);
    let last = file.len() - record.len();
    file.extend([OUTPUT, 0, 0, END]);
    (file, last)
}

fn limit(record: &[u8], most: usize) {
    let (accepted, _) = file(record, most);
    assert_eq!(read(&accepted).map(|sheet| sheet.signals.len()), Ok(most));
    let (refused, last) = file(record, most + 1);
    assert_eq!(read(&refused), Err(Fault::new(MANY, last)));
}

#[test]
fn eight_inputs() {
    limit(&[INPUT, 0], 8);
}

#[test]
fn twelve_registers() {
    limit(&[REGISTER, 1, 0], 12);
}

/// Signals: an input, then inverters.
fn inverters(signals: usize) -> Vec<u8> {
    let mut file = vec![INPUT, 0];
    for operand in 0..signals - 1 {
        file.extend([NOT, operand as u8]);
    }
    file
}

#[test]
fn a_hundred_and_twenty_signals() {
    let ending = [OUTPUT, 0, 119, END];
    let accepted = [inverters(120), ending.to_vec()].concat();
    assert_eq!(read(&accepted).map(|sheet| sheet.signals.len()), Ok(120));
    let refused = [inverters(121), ending.to_vec()].concat();
    assert_eq!(read(&refused), Err(Fault::new(MANY, 240)));
}

#[test]
fn sixteen_outputs() {
    let outputs = |count| [inverters(1), [OUTPUT, 0, 0].repeat(count), vec![END]].concat();
    assert_eq!(read(&outputs(16)).map(|sheet| sheet.outputs.len()), Ok(16));
    assert_eq!(read(&outputs(17)), Err(Fault::new(MANY, 50)));
}

/// The longest accepted sheet has 409 bytes.
#[test]
fn longest_sheet() {
    let mut file = [REGISTER, 1, 119].repeat(12);
    for _ in 12..120 {
        file.extend([4, 0, 0]);
    }
    file.extend([OUTPUT, 0, 119].repeat(16));
    file.push(END);
    assert_eq!(file.len(), 409);
    assert_eq!(write(&file, 409).answer, Answer::Written(409));
}
