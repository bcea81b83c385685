//! Redrawing a sheet so that it runs as before.

use crate::sheet::{Gate, Sheet, Signal};

use super::loose::Loose;
use super::rng::Rng;
use super::sheets::gate;

type Rewrite = fn(&mut Loose, &mut Rng, usize);

/// All ways to redraw, each at a signal given to it.
const REWRITES: [Rewrite; 8] = [
    double_negation,
    de_morgan,
    without_xor,
    negated_register,
    doubled_register,
    retimed,
    absorbed,
    dead_logic,
];

/// Redraws a sheet in so many places.
pub fn redraw(rng: &mut Rng, sheet: &Sheet, places: usize) -> Sheet {
    let mut loose = Loose::new(sheet);
    for _ in 0..places {
        let rewrite = *rng.pick(&REWRITES);
        let v = rng.below(loose.sheet.signals.len());
        rewrite(&mut loose, rng, v);
    }
    loose.settle(rng)
}

fn not(operand: usize) -> Signal {
    Signal::Not { operand }
}

fn two(gate: Gate, left: usize, right: usize) -> Signal {
    Signal::Gate { gate, left, right }
}

/// One user of v gets NOT NOT v instead.
fn double_negation(loose: &mut Loose, rng: &mut Rng, v: usize) {
    let uses = loose.uses(v);
    if loose.has_space(2, 0) && !uses.is_empty() {
        let once = loose.add(not(v));
        let twice = loose.add(not(once));
        loose.redirect(*rng.pick(&uses), twice);
    }
}

/// AND as NOT (NOT or NOT), OR as NOT (NOT and NOT).
fn de_morgan(loose: &mut Loose, _: &mut Rng, v: usize) {
    let Signal::Gate { gate, left, right } = loose.sheet.signals[v] else {
        return;
    };
    let dual = match gate {
        Gate::And => Gate::Or,
        Gate::Or => Gate::And,
        Gate::Xor => return,
    };
    if loose.has_space(3, 0) {
        let (left, right) = (loose.add(not(left)), loose.add(not(right)));
        let inner = loose.add(two(dual, left, right));
        loose.sheet.signals[v] = not(inner);
    }
}

/// XOR as (OR) and not (AND).
fn without_xor(loose: &mut Loose, _: &mut Rng, v: usize) {
    let Signal::Gate { gate, left, right } = loose.sheet.signals[v] else {
        return;
    };
    if gate == Gate::Xor && loose.has_space(3, 0) {
        let either = loose.add(two(Gate::Or, left, right));
        let all = loose.add(two(Gate::And, left, right));
        let not_all = loose.add(not(all));
        loose.sheet.signals[v] = two(Gate::And, either, not_all);
    }
}

/// A register that holds the opposite, with the opposite initial value.
fn negated_register(loose: &mut Loose, _: &mut Rng, v: usize) {
    let Signal::Register { initial, source } = loose.sheet.signals[v] else {
        return;
    };
    // The old register becomes a gate, so the registers do not grow in number.
    if loose.has_space(2, 0) {
        let opposite = loose.add(not(source));
        let register = loose.add(Signal::Register {
            initial: !initial,
            source: opposite,
        });
        loose.sheet.signals[v] = not(register);
    }
}

/// A second register beside one; each user takes either.
fn doubled_register(loose: &mut Loose, rng: &mut Rng, v: usize) {
    let register = loose.sheet.signals[v];
    if register.is_register() && loose.has_space(1, 1) {
        let uses = loose.uses(v);
        let double = loose.add(register);
        for place in uses {
            if rng.chance(1, 2) {
                loose.redirect(place, double);
            }
        }
    }
}

/// Registers moved forward over the gate that they feed.
fn retimed(loose: &mut Loose, _: &mut Rng, v: usize) {
    let register = |w: usize| match loose.sheet.signals[w] {
        Signal::Register { initial, source } => Some((initial, source)),
        _ => None,
    };
    let moved = match loose.sheet.signals[v] {
        Signal::Not { operand } => register(operand).map(|(i, s)| (!i, not(s))),
        Signal::Gate { gate, left, right } => register(left)
            .zip(register(right))
            .map(|((i, s), (j, t))| (gate.of(i, j), two(gate, s, t))),
        _ => None,
    };
    let Some((initial, before)) = moved else {
        return;
    };
    if loose.has_space(1, 1) {
        let source = loose.add(before);
        loose.sheet.signals[v] = Signal::Register { initial, source };
    }
}

/// One user of v gets v and (v or w), where w is an input or a register: such
/// a w can't close a circle of gates.
fn absorbed(loose: &mut Loose, rng: &mut Rng, v: usize) {
    let uses = loose.uses(v);
    let is_free = |w: &usize| {
        let signal = loose.sheet.signals[*w];
        signal.is_input() || signal.is_register()
    };
    let free: Vec<usize> = (0..loose.sheet.signals.len()).filter(is_free).collect();
    if loose.has_space(2, 0) && !uses.is_empty() {
        let inner = loose.add(two(Gate::Or, v, *rng.pick(&free)));
        let outer = loose.add(two(Gate::And, v, inner));
        loose.redirect(*rng.pick(&uses), outer);
    }
}

/// A signal that nobody uses.
fn dead_logic(loose: &mut Loose, rng: &mut Rng, v: usize) {
    let w = rng.below(loose.sheet.signals.len());
    if rng.chance(1, 3) && loose.has_space(1, 1) {
        let initial = rng.chance(1, 2);
        loose.add(Signal::Register { initial, source: w });
    } else if loose.has_space(1, 0) {
        loose.add(two(gate(rng), v, w));
    }
}

#[cfg(test)]
mod tests {
    use super::*;
    use crate::gen::sheets::{any_sheet, Scale};
    use crate::sheet::read;
    use crate::tick::run;

    #[test]
    fn redrawn_sheets_are_accepted_and_run_as_before() {
        for case in 0..400 {
            let mut rng = Rng::of(7, case);
            let scale = *rng.pick(&[Scale::Tiny, Scale::Small, Scale::Medium, Scale::Large]);
            let sheet = any_sheet(&mut rng, scale);
            let redrawn = redraw(&mut rng, &sheet, 12);
            assert_eq!(read(&redrawn.bytes()).as_ref(), Ok(&redrawn));
            let mask = ((1u16 << sheet.inputs()) - 1) as u8;
            let vectors: Vec<u8> = (0..50).map(|_| rng.byte() & mask).collect();
            assert_eq!(
                run(&sheet, &vectors),
                run(&redrawn, &vectors),
                "case {case}"
            );
        }
    }
}
