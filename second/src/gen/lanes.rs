//! Sorter lanes: chains of bin registers that move on when a pulse comes and
//! hold otherwise.

use crate::sheet::{Gate, Output, Sheet, Signal};

use super::rng::Rng;

/// How the hold logic of a bin is drawn.
#[derive(Clone, Copy, PartialEq, Eq, Debug)]
pub enum Drawing {
    /// (pulse and before) or (not pulse and bin).
    Chosen,
    /// bin xor (pulse and (bin xor before)).
    Changed,
}

/// Something wrong with one bin.
#[derive(Clone, Copy, PartialEq, Eq, Debug)]
pub enum Bug {
    HoldsOnPulse,
    StartsFull,
    SkipsABin,
    IgnoresPulse,
}

pub const BUGS: [Bug; 4] = [
    Bug::HoldsOnPulse,
    Bug::StartsFull,
    Bug::SkipsABin,
    Bug::IgnoresPulse,
];

/// Lanes that share one pulse; each has an input of its own and so many bins.
#[derive(Clone, Copy, PartialEq, Eq, Debug)]
pub struct Lanes {
    pub lanes: usize,
    pub bins: usize,
}

/// The signals of a sheet being drawn: inputs (the pulse is input 0), then the
/// registers of all bins, then gates.
struct Drawer {
    signals: Vec<Signal>,
}

impl Drawer {
    fn gate(&mut self, gate: Gate, left: usize, right: usize) -> usize {
        self.signals.push(Signal::Gate { gate, left, right });
        self.signals.len() - 1
    }

    fn not(&mut self, operand: usize) -> usize {
        self.signals.push(Signal::Not { operand });
        self.signals.len() - 1
    }

    /// What a bin takes next.
    fn hold(&mut self, drawing: Drawing, pulse: usize, before: usize, bin: usize) -> usize {
        match drawing {
            Drawing::Chosen => {
                let hold = self.not(pulse);
                let moved = self.gate(Gate::And, pulse, before);
                let held = self.gate(Gate::And, hold, bin);
                self.gate(Gate::Or, moved, held)
            }
            Drawing::Changed => {
                let differs = self.gate(Gate::Xor, bin, before);
                let change = self.gate(Gate::And, pulse, differs);
                self.gate(Gate::Xor, bin, change)
            }
        }
    }
}

/// Draws lanes, with a bug planted in one of the bins if one is given. Each
/// output carries the last bin of its lane.
pub fn draw(lanes: Lanes, drawing: Drawing, bug: Option<(usize, Bug)>) -> Sheet {
    let inputs = 1 + lanes.lanes;
    let bins = lanes.lanes * lanes.bins;
    let mut drawer = Drawer {
        signals: (0..inputs)
            .map(|i| Signal::Input { pin: i as u8 })
            .collect(),
    };
    let bug_at = |bin: usize| bug.filter(|(place, _)| *place == bin).map(|(_, bug)| bug);
    for bin in 0..bins {
        drawer.signals.push(Signal::Register {
            initial: bug_at(bin) == Some(Bug::StartsFull),
            source: 0,
        });
    }
    for bin in 0..bins {
        let register = inputs + bin;
        let lane_input = 1 + bin / lanes.bins;
        let before = |steps: usize| match bin % lanes.bins {
            place if place < steps => lane_input,
            _ => register - steps,
        };
        let next = match bug_at(bin) {
            Some(Bug::HoldsOnPulse) => {
                let late = drawer.not(0);
                drawer.hold(drawing, late, before(1), register)
            }
            Some(Bug::SkipsABin) => drawer.hold(drawing, 0, before(2), register),
            Some(Bug::IgnoresPulse) => before(1),
            _ => drawer.hold(drawing, 0, before(1), register),
        };
        if let Signal::Register { source, .. } = &mut drawer.signals[register] {
            *source = next;
        }
    }
    let output = |lane| Output {
        pin: lane as u8,
        signal: inputs + (lane + 1) * lanes.bins - 1,
    };
    Sheet {
        signals: drawer.signals,
        outputs: (0..lanes.lanes).map(output).collect(),
    }
}

/// Random lanes of at most so many bins in all.
pub fn lanes(rng: &mut Rng, most_bins: usize) -> Lanes {
    let bins = rng.between(1, most_bins);
    let lanes = rng.between(1, (most_bins / bins).min(7));
    Lanes { lanes, bins }
}

pub fn bug(rng: &mut Rng, lanes: Lanes) -> (usize, Bug) {
    (rng.below(lanes.lanes * lanes.bins), *rng.pick(&BUGS))
}

#[cfg(test)]
mod tests {
    use super::*;
    use crate::tick::run;

    #[test]
    fn a_lane_moves_on_pulses_only() {
        let lanes = Lanes { lanes: 1, bins: 2 };
        // Pulse in bit 0, item in bit 1.
        let vectors = [0b11, 0b00, 0b01, 0b00, 0b01, 0b00];
        for drawing in [Drawing::Chosen, Drawing::Changed] {
            let sheet = draw(lanes, drawing, None);
            assert_eq!(run(&sheet, &vectors), [0, 0, 0, 1, 1, 0]);
        }
    }
}
