//! How a tick runs.

use crate::sheet::{Sheet, Signal};

/// What the registers hold at tick 0, in their order.
pub fn initial(sheet: &Sheet) -> Vec<bool> {
    let initial = |signal: &Signal| match signal {
        Signal::Register { initial, .. } => Some(*initial),
        _ => None,
    };
    sheet.signals.iter().filter_map(initial).collect()
}

/// The values of all signals in one tick.
pub fn values(sheet: &Sheet, registers: &[bool], vector: u8) -> Vec<bool> {
    let mut registers = registers.iter();
    let mut inputs = 0;
    let mut values: Vec<bool> = Vec::with_capacity(sheet.signals.len());
    for signal in &sheet.signals {
        let value = match *signal {
            Signal::Input { .. } => {
                inputs += 1;
                vector >> (inputs - 1) & 1 == 1
            }
            Signal::Register { .. } => *registers.next().expect("a value for every register"),
            Signal::Not { operand } => !values[operand],
            Signal::Gate { gate, left, right } => gate.of(values[left], values[right]),
        };
        values.push(value);
    }
    values
}

/// What the registers hold in the next tick: all of them change at once.
pub fn next(sheet: &Sheet, values: &[bool]) -> Vec<bool> {
    let next = |signal: &Signal| match signal {
        Signal::Register { source, .. } => Some(values[*source]),
        _ => None,
    };
    sheet.signals.iter().filter_map(next).collect()
}

/// The number that one tick gives: output i in bit i.
pub fn outputs(sheet: &Sheet, values: &[bool]) -> u16 {
    let bits = sheet.outputs.iter().enumerate();
    bits.map(|(i, output)| u16::from(values[output.signal]) << i)
        .sum()
}

/// The first tick whose vector has a bit beyond the inputs.
pub fn first_bad_vector(sheet: &Sheet, vectors: &[u8]) -> Option<usize> {
    let inputs = sheet.inputs();
    vectors
        .iter()
        .position(|vector| u16::from(*vector) >> inputs != 0)
}

/// Runs a sheet from tick 0, one vector per tick.
pub fn run(sheet: &Sheet, vectors: &[u8]) -> Vec<u16> {
    let mut registers = initial(sheet);
    let mut results = Vec::with_capacity(vectors.len());
    for vector in vectors {
        let values = values(sheet, &registers, *vector);
        results.push(outputs(sheet, &values));
        registers = next(sheet, &values);
    }
    results
}
