//! Sheets: reading one from a file, and writing one.

use crate::answer::{self, Fault};

/// Kinds of record. Kind 11 (hexadecimal) is known in groupings only.
pub const INPUT: u8 = 0x01;
pub const REGISTER: u8 = 0x02;
pub const NOT: u8 = 0x03;
pub const AND: u8 = 0x04;
pub const OR: u8 = 0x05;
pub const XOR: u8 = 0x06;
pub const OUTPUT: u8 = 0x07;
pub const END: u8 = 0x08;

/// The limits of one sheet.
pub const MOST_INPUTS: usize = 8;
pub const MOST_REGISTERS: usize = 12;
pub const MOST_SIGNALS: usize = 120;
pub const MOST_OUTPUTS: usize = 16;

#[derive(Clone, Copy, PartialEq, Eq, Debug)]
pub enum Gate {
    And,
    Or,
    Xor,
}

impl Gate {
    pub fn of(self, left: bool, right: bool) -> bool {
        match self {
            Gate::And => left & right,
            Gate::Or => left | right,
            Gate::Xor => left ^ right,
        }
    }

    fn kind(self) -> u8 {
        match self {
            Gate::And => AND,
            Gate::Or => OR,
            Gate::Xor => XOR,
        }
    }
}

#[derive(Clone, Copy, PartialEq, Eq, Debug)]
pub enum Signal {
    Input {
        pin: u8,
    },
    Register {
        initial: bool,
        source: usize,
    },
    Not {
        operand: usize,
    },
    Gate {
        gate: Gate,
        left: usize,
        right: usize,
    },
}

impl Signal {
    pub fn is_input(&self) -> bool {
        matches!(self, Signal::Input { .. })
    }

    pub fn is_register(&self) -> bool {
        matches!(self, Signal::Register { .. })
    }

    /// The record that defines this signal.
    pub fn record(&self) -> Vec<u8> {
        match *self {
            Signal::Input { pin } => vec![INPUT, pin],
            Signal::Register { initial, source } => vec![REGISTER, initial as u8, source as u8],
            Signal::Not { operand } => vec![NOT, operand as u8],
            Signal::Gate { gate, left, right } => vec![gate.kind(), left as u8, right as u8],
        }
    }
}

#[derive(Clone, Copy, PartialEq, Eq, Debug)]
pub struct Output {
    pub pin: u8,
    pub signal: usize,
}

impl Output {
    pub fn record(&self) -> Vec<u8> {
        vec![OUTPUT, self.pin, self.signal as u8]
    }
}

#[derive(Clone, PartialEq, Eq, Debug, Default)]
pub struct Sheet {
    pub signals: Vec<Signal>,
    pub outputs: Vec<Output>,
}

impl Sheet {
    pub fn inputs(&self) -> usize {
        self.signals.iter().filter(|s| s.is_input()).count()
    }

    pub fn registers(&self) -> usize {
        self.signals.iter().filter(|s| s.is_register()).count()
    }

    /// The file that the sheet writer makes: signals, outputs, END.
    pub fn bytes(&self) -> Vec<u8> {
        let signals = self.signals.iter().flat_map(Signal::record);
        let outputs = self.outputs.iter().flat_map(Output::record);
        signals.chain(outputs).chain([END]).collect()
    }

    /// Would one more signal or output of this kind be too many?
    fn is_full_for(&self, kind: u8) -> bool {
        match kind {
            OUTPUT => self.outputs.len() >= MOST_OUTPUTS,
            INPUT if self.inputs() >= MOST_INPUTS => true,
            REGISTER if self.registers() >= MOST_REGISTERS => true,
            _ => self.signals.len() >= MOST_SIGNALS,
        }
    }
}

/// The length of a record's body, or nothing if the kind is unknown in a sheet.
pub fn body_length(kind: u8) -> Option<usize> {
    match kind {
        INPUT | NOT => Some(1),
        REGISTER | AND | OR | XOR | OUTPUT => Some(2),
        END => Some(0),
        _ => None,
    }
}

/// Reads a sheet. The tests stand in the paper's order.
pub fn read(file: &[u8]) -> Result<Sheet, Fault> {
    let mut sheet = Sheet::default();
    // Names that may point forward: looked at when END tells how many signals
    // there are. Each goes with the offset of its record.
    let mut names: Vec<(usize, usize)> = Vec::new();
    let mut offset = 0;
    loop {
        let Some(&kind) = file.get(offset) else {
            return Err(Fault::new(answer::SHORT, file.len()));
        };
        let Some(length) = body_length(kind) else {
            return Err(Fault::new(answer::KIND, offset));
        };
        let Some(body) = file.get(offset + 1..offset + 1 + length) else {
            return Err(Fault::new(answer::SHORT, offset));
        };
        if kind == END {
            at_end(file, offset, &sheet, &names)?;
            return Ok(sheet);
        }
        if let Some(name) = take(&mut sheet, kind, body, offset)? {
            names.push((offset, name));
        }
        offset += 1 + length;
    }
}

/// Takes one record other than END into the sheet; answers the signal that it
/// names and that need not be defined yet.
fn take(sheet: &mut Sheet, kind: u8, body: &[u8], offset: usize) -> Result<Option<usize>, Fault> {
    if sheet.is_full_for(kind) {
        return Err(Fault::new(answer::MANY, offset));
    }
    let own_number = sheet.signals.len();
    let operand = |place: usize| match usize::from(body[place]) {
        lower if lower < own_number => Ok(lower),
        _ => Err(Fault::new(answer::LATER, offset)),
    };
    let signal = match kind {
        INPUT => Signal::Input { pin: body[0] },
        REGISTER if body[0] > 1 => return Err(Fault::new(answer::VALUE, offset)),
        REGISTER => Signal::Register {
            initial: body[0] == 1,
            source: body[1].into(),
        },
        NOT => Signal::Not {
            operand: operand(0)?,
        },
        OUTPUT => {
            let signal = body[1].into();
            sheet.outputs.push(Output {
                pin: body[0],
                signal,
            });
            return Ok(Some(signal));
        }
        _ => Signal::Gate {
            gate: match kind {
                AND => Gate::And,
                OR => Gate::Or,
                _ => Gate::Xor,
            },
            left: operand(0)?,
            right: operand(1)?,
        },
    };
    sheet.signals.push(signal);
    Ok(match signal {
        Signal::Register { source, .. } => Some(source),
        _ => None,
    })
}

/// What is tested at END: AFTER, NO OUTPUT, DANGLING.
fn at_end(
    file: &[u8],
    offset: usize,
    sheet: &Sheet,
    names: &[(usize, usize)],
) -> Result<(), Fault> {
    if file.len() > offset + 1 {
        return Err(Fault::new(answer::AFTER, offset + 1));
    }
    if sheet.outputs.is_empty() {
        return Err(Fault::new(answer::NO_OUTPUT, offset));
    }
    match names.iter().find(|(_, name)| *name >= sheet.signals.len()) {
        Some(&(record, _)) => Err(Fault::new(answer::DANGLING, record)),
        None => Ok(()),
    }
}
