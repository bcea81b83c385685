//! Random sheets of all sizes.

use crate::sheet::{
    Gate, Output, Sheet, Signal, END, MOST_INPUTS, MOST_OUTPUTS, MOST_REGISTERS, MOST_SIGNALS,
};

use super::rng::Rng;

#[derive(Clone, Copy, PartialEq, Eq, Debug)]
pub enum Scale {
    Tiny,
    Small,
    Medium,
    Large,
    /// Every number at its limit.
    Full,
}

#[derive(Clone, Copy, PartialEq, Eq, Debug)]
pub struct Size {
    pub inputs: usize,
    pub registers: usize,
    pub gates: usize,
    pub outputs: usize,
}

/// A random size. There is at least one signal that is not a gate.
pub fn size(rng: &mut Rng, scale: Scale) -> Size {
    let (inputs, registers, gates, outputs) = match scale {
        Scale::Tiny => (2, 2, 4, 2),
        Scale::Small => (2, 4, 12, 3),
        Scale::Medium => (4, 6, 30, 6),
        Scale::Large => (MOST_INPUTS, MOST_REGISTERS, 100, MOST_OUTPUTS),
        Scale::Full => return full(),
    };
    let inputs = rng.between(0, inputs);
    let registers = rng.between(usize::from(inputs == 0), registers);
    let gates = rng.between(0, gates);
    Size {
        inputs,
        registers,
        gates,
        outputs: rng.between(1, outputs),
    }
}

fn full() -> Size {
    Size {
        inputs: MOST_INPUTS,
        registers: MOST_REGISTERS,
        gates: MOST_SIGNALS - MOST_INPUTS - MOST_REGISTERS,
        outputs: MOST_OUTPUTS,
    }
}

/// A size for a sheet that is to be paired with one of another size.
pub fn alike(rng: &mut Rng, scale: Scale, to: Size) -> Size {
    let other = size(rng, scale);
    Size {
        inputs: to.inputs,
        registers: other.registers.max(usize::from(to.inputs == 0)),
        gates: other.gates,
        outputs: to.outputs,
    }
}

pub fn gate(rng: &mut Rng) -> Gate {
    *rng.pick(&[Gate::And, Gate::Or, Gate::Xor])
}

/// An operand below `number`, more often one of the nearest.
fn operand(rng: &mut Rng, number: usize) -> usize {
    match rng.chance(1, 2) {
        true => rng.below(number),
        false => number - 1 - rng.below(number.min(5)),
    }
}

/// A random sheet of the given size; its signals stand in any allowed order.
pub fn sheet(rng: &mut Rng, size: Size) -> Sheet {
    let count = size.inputs + size.registers + size.gates;
    // 0 input, 1 register, 2 gate; the first can't be a gate.
    let mut kinds = [
        vec![0; size.inputs],
        vec![1; size.registers],
        vec![2; size.gates],
    ]
    .concat();
    rng.shuffle(&mut kinds);
    if let Some(place) = kinds.iter().position(|kind| *kind != 2) {
        kinds.swap(0, place);
    }
    let signal = |(number, kind): (usize, &usize)| match kind {
        0 => Signal::Input { pin: rng.byte() },
        1 => Signal::Register {
            initial: rng.chance(1, 2),
            source: rng.below(count),
        },
        _ if rng.chance(1, 4) => Signal::Not {
            operand: operand(rng, number),
        },
        _ => Signal::Gate {
            gate: gate(rng),
            left: operand(rng, number),
            right: operand(rng, number),
        },
    };
    let signals = kinds.iter().enumerate().map(signal).collect();
    let output = |_| Output {
        pin: rng.byte(),
        signal: rng.below(count),
    };
    let outputs = (0..size.outputs).map(output).collect();
    Sheet { signals, outputs }
}

/// A sheet of the size that nothing constrains.
pub fn any_sheet(rng: &mut Rng, scale: Scale) -> Sheet {
    let size = size(rng, scale);
    sheet(rng, size)
}

/// Random vectors for a sheet with so many inputs, none with a bit beyond them.
pub fn vectors(rng: &mut Rng, inputs: usize, ticks: usize) -> Vec<u8> {
    let unused = MOST_INPUTS - inputs;
    let vector = |_| (u16::from(rng.byte()) >> unused) as u8;
    (0..ticks).map(vector).collect()
}

/// A file of the sheet, its outputs strewn among the signals.
pub fn strewn(rng: &mut Rng, sheet: &Sheet) -> Vec<u8> {
    let mut outputs = sheet.outputs.iter().peekable();
    let mut file = Vec::new();
    for signal in &sheet.signals {
        while rng.chance(1, 3) {
            file.extend(outputs.next().into_iter().flat_map(Output::record));
        }
        file.extend(signal.record());
    }
    file.extend(outputs.flat_map(Output::record));
    file.push(END);
    file
}

/// A file of the sheet, as the writer makes it or strewn.
pub fn file(rng: &mut Rng, sheet: &Sheet) -> Vec<u8> {
    match rng.chance(1, 2) {
        true => sheet.bytes(),
        false => strewn(rng, sheet),
    }
}
