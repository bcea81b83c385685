//! One edit to a sheet, after which it may or may not run as before.

use crate::sheet::{Gate, Sheet, Signal};

use super::rng::Rng;

type Edit = fn(&mut Sheet, &mut Rng, usize) -> bool;

const EDITS: [Edit; 5] = [
    other_gate,
    other_operand,
    other_initial_value,
    other_source,
    moved_output,
];

/// The sheet with one edit; where none of those tried applies, as it was.
pub fn edit(rng: &mut Rng, sheet: &Sheet) -> Sheet {
    let mut edited = sheet.clone();
    for _ in 0..40 {
        let edit = *rng.pick(&EDITS);
        let v = rng.below(edited.signals.len());
        if edit(&mut edited, rng, v) {
            break;
        }
    }
    edited
}

fn other_gate(sheet: &mut Sheet, rng: &mut Rng, v: usize) -> bool {
    let Signal::Gate { gate, .. } = &mut sheet.signals[v] else {
        return false;
    };
    let others = match *gate {
        Gate::And => [Gate::Or, Gate::Xor],
        Gate::Or => [Gate::And, Gate::Xor],
        Gate::Xor => [Gate::And, Gate::Or],
    };
    *gate = *rng.pick(&others);
    true
}

fn other_operand(sheet: &mut Sheet, rng: &mut Rng, v: usize) -> bool {
    match &mut sheet.signals[v] {
        Signal::Not { operand } => *operand = rng.below(v),
        Signal::Gate { left, .. } if rng.chance(1, 2) => *left = rng.below(v),
        Signal::Gate { right, .. } => *right = rng.below(v),
        _ => return false,
    }
    true
}

fn other_initial_value(sheet: &mut Sheet, _: &mut Rng, v: usize) -> bool {
    let Signal::Register { initial, .. } = &mut sheet.signals[v] else {
        return false;
    };
    *initial = !*initial;
    true
}

fn other_source(sheet: &mut Sheet, rng: &mut Rng, v: usize) -> bool {
    let signals = sheet.signals.len();
    let Signal::Register { source, .. } = &mut sheet.signals[v] else {
        return false;
    };
    *source = rng.below(signals);
    true
}

fn moved_output(sheet: &mut Sheet, rng: &mut Rng, v: usize) -> bool {
    let output = rng.below(sheet.outputs.len());
    sheet.outputs[output].signal = v;
    true
}
