//! Loose sheets: operands may be later signals for a while, so that a sheet
//! can be redrawn by adding signals at its end. Settling puts all signals into
//! a random order that the paper allows.

use crate::sheet::{Sheet, Signal, MOST_REGISTERS, MOST_SIGNALS};

use super::rng::Rng;

/// A place where a signal is named.
#[derive(Clone, Copy, PartialEq, Eq, Debug)]
pub enum Use {
    Source(usize),
    Left(usize),
    Right(usize),
    Output(usize),
}

pub struct Loose {
    pub sheet: Sheet,
}

impl Loose {
    pub fn new(sheet: &Sheet) -> Loose {
        Loose {
            sheet: sheet.clone(),
        }
    }

    /// Is there space for so many more signals, and registers among them?
    pub fn has_space(&self, signals: usize, registers: usize) -> bool {
        self.sheet.signals.len() + signals <= MOST_SIGNALS
            && self.sheet.registers() + registers <= MOST_REGISTERS
    }

    pub fn add(&mut self, signal: Signal) -> usize {
        self.sheet.signals.push(signal);
        self.sheet.signals.len() - 1
    }

    /// Every place that names signal `v`.
    pub fn uses(&self, v: usize) -> Vec<Use> {
        let mut uses = Vec::new();
        for (w, signal) in self.sheet.signals.iter().enumerate() {
            match *signal {
                Signal::Register { source, .. } if source == v => uses.push(Use::Source(w)),
                Signal::Not { operand } if operand == v => uses.push(Use::Left(w)),
                Signal::Gate { left, right, .. } => {
                    uses.extend((left == v).then_some(Use::Left(w)));
                    uses.extend((right == v).then_some(Use::Right(w)));
                }
                _ => {}
            }
        }
        let outputs = self.sheet.outputs.iter().enumerate();
        uses.extend(
            outputs
                .filter(|(_, o)| o.signal == v)
                .map(|(i, _)| Use::Output(i)),
        );
        uses
    }

    /// Makes one place name another signal.
    pub fn redirect(&mut self, place: Use, to: usize) {
        let signals = &mut self.sheet.signals;
        match place {
            Use::Output(i) => self.sheet.outputs[i].signal = to,
            Use::Source(w) => {
                if let Signal::Register { source, .. } = &mut signals[w] {
                    *source = to;
                }
            }
            Use::Left(w) => match &mut signals[w] {
                Signal::Not { operand } => *operand = to,
                Signal::Gate { left, .. } => *left = to,
                _ => {}
            },
            Use::Right(w) => {
                if let Signal::Gate { right, .. } = &mut signals[w] {
                    *right = to;
                }
            }
        }
    }

    /// A random allowed order; the inputs keep theirs, as they are paired by it.
    pub fn settle(self, rng: &mut Rng) -> Sheet {
        let old = &self.sheet.signals;
        let mut place: Vec<Option<usize>> = vec![None; old.len()];
        let mut order: Vec<usize> = Vec::new();
        while order.len() < old.len() {
            let ready = |v: &usize| place[*v].is_none() && is_ready(old, &place, *v);
            let ready: Vec<usize> = (0..old.len()).filter(ready).collect();
            let v = *rng.pick(&ready);
            place[v] = Some(order.len());
            order.push(v);
        }
        let renamed = |v: usize| place[v].expect("every signal has a place");
        let signals = order.iter().map(|v| rename(old[*v], renamed)).collect();
        let mut outputs = self.sheet.outputs.clone();
        for output in &mut outputs {
            output.signal = renamed(output.signal);
        }
        Sheet { signals, outputs }
    }
}

fn is_ready(signals: &[Signal], place: &[Option<usize>], v: usize) -> bool {
    match signals[v] {
        Signal::Input { .. } => (0..v).all(|w| !signals[w].is_input() || place[w].is_some()),
        Signal::Register { .. } => true,
        Signal::Not { operand } => place[operand].is_some(),
        Signal::Gate { left, right, .. } => place[left].is_some() && place[right].is_some(),
    }
}

fn rename(signal: Signal, renamed: impl Fn(usize) -> usize) -> Signal {
    match signal {
        Signal::Input { .. } => signal,
        Signal::Register { initial, source } => Signal::Register {
            initial,
            source: renamed(source),
        },
        Signal::Not { operand } => Signal::Not {
            operand: renamed(operand),
        },
        Signal::Gate { gate, left, right } => Signal::Gate {
            gate,
            left: renamed(left),
            right: renamed(right),
        },
    }
}
