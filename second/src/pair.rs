//! Two sheets side by side: the joint list, its polarities, and its functions.

use crate::algebra::{Algebra, Full};
use crate::sheet::{Sheet, Signal};
use crate::tick;

pub struct Pair {
    a: Sheet,
    b: Sheet,
    /// Per joint signal: is its value 1 at tick 0 under all zeros?
    plain: Vec<bool>,
}

impl Pair {
    /// Pairs two sheets, or gives the position of UNLIKE.
    pub fn of(a: Sheet, b: Sheet) -> Result<Pair, usize> {
        if a.inputs() != b.inputs() {
            return Err(0);
        }
        if a.outputs.len() != b.outputs.len() {
            return Err(1);
        }
        let at_start = |sheet: &Sheet| tick::values(sheet, &tick::initial(sheet), 0);
        let plain = [at_start(&a), at_start(&b)].concat();
        Ok(Pair { a, b, plain })
    }

    /// The length n of the joint list.
    pub fn signals(&self) -> usize {
        self.plain.len()
    }

    pub fn inputs(&self) -> usize {
        self.a.inputs()
    }

    pub fn registers(&self) -> usize {
        self.a.registers() + self.b.registers()
    }

    /// The variables of a step list: registers, inputs x, inputs y.
    pub fn variables(&self) -> usize {
        self.registers() + 2 * self.inputs()
    }

    /// The least output that is not paired under a grouping.
    pub fn least_unpaired(&self, grouping: &[usize]) -> Option<usize> {
        let outputs = self.a.outputs.iter().zip(&self.b.outputs);
        let mut joint = outputs.map(|(a, b)| (a.signal, self.a.signals.len() + b.signal));
        joint.position(|(v, w)| grouping[v] != grouping[w] || self.plain[v] != self.plain[w])
    }

    /// The initial joint state.
    pub fn initial(&self) -> Vec<bool> {
        [tick::initial(&self.a), tick::initial(&self.b)].concat()
    }

    /// What the registers hold one tick after signals with these values.
    pub fn next<F: Clone>(&self, values: &[F]) -> Vec<F> {
        let (of_a, of_b) = values.split_at(self.a.signals.len());
        let sides = [(&self.a, of_a), (&self.b, of_b)];
        let sources = sides.iter().flat_map(|(sheet, values)| {
            let next = |signal: &Signal| match signal {
                Signal::Register { source, .. } => Some(values[*source].clone()),
                _ => None,
            };
            sheet.signals.iter().filter_map(next)
        });
        sources.collect()
    }

    /// The functions of all joint signals, from those of registers and inputs.
    pub fn functions<A: Algebra>(
        &self,
        algebra: &mut A,
        registers: &[A::Function],
        inputs: &[A::Function],
    ) -> Result<Vec<A::Function>, Full> {
        let (of_a, of_b) = registers.split_at(self.a.registers());
        let mut all = functions_of(&self.a, algebra, of_a, inputs)?;
        all.extend(functions_of(&self.b, algebra, of_b, inputs)?);
        Ok(all)
    }

    /// The same functions normalised: complemented for flipped signals.
    pub fn normalised<A: Algebra>(
        &self,
        algebra: &mut A,
        functions: &[A::Function],
    ) -> Result<Vec<A::Function>, Full> {
        let signals = functions.iter().zip(&self.plain);
        let normalise = |(f, plain): (&A::Function, &bool)| match plain {
            true => Ok(f.clone()),
            false => algebra.complement(f),
        };
        signals.map(normalise).collect()
    }
}

fn functions_of<A: Algebra>(
    sheet: &Sheet,
    algebra: &mut A,
    registers: &[A::Function],
    inputs: &[A::Function],
) -> Result<Vec<A::Function>, Full> {
    let mut registers = registers.iter().cloned();
    let mut inputs = inputs.iter().cloned();
    let mut functions: Vec<A::Function> = Vec::with_capacity(sheet.signals.len());
    for signal in &sheet.signals {
        let function = match *signal {
            Signal::Input { .. } => inputs.next().expect("a function for every input"),
            Signal::Register { .. } => registers.next().expect("a function for every register"),
            Signal::Not { operand } => algebra.complement(&functions[operand])?,
            Signal::Gate { gate, left, right } => {
                algebra.combine(gate.into(), &functions[left], &functions[right])?
            }
        };
        functions.push(function);
    }
    Ok(functions)
}
