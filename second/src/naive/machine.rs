//! Values of signals, by following definitions backwards from the raw records.

use super::faults::Record;

/// A sheet as its raw records.
pub struct Raw {
    signals: Vec<Record>,
    outputs: Vec<Record>,
}

/// Values found so far: by tick, then by signal.
type Known = Vec<Vec<Option<bool>>>;

impl Raw {
    pub fn new(records: Vec<Record>) -> Raw {
        let (outputs, others): (Vec<_>, Vec<_>) = records.into_iter().partition(|r| r.kind == 7);
        let signals = others.into_iter().filter(|r| r.kind != 8).collect();
        Raw { signals, outputs }
    }

    pub fn len(&self) -> usize {
        self.signals.len()
    }

    pub fn is_empty(&self) -> bool {
        self.signals.is_empty()
    }

    pub fn inputs(&self) -> usize {
        self.before(self.len(), 1)
    }

    pub fn registers(&self) -> usize {
        self.before(self.len(), 2)
    }

    /// The signals that the outputs carry.
    pub fn outputs(&self) -> Vec<usize> {
        let carried = |output: &Record| output.body[1].into();
        self.outputs.iter().map(carried).collect()
    }

    /// How many of the first `v` signals are of this kind.
    fn before(&self, v: usize, kind: u8) -> usize {
        self.signals[..v].iter().filter(|r| r.kind == kind).count()
    }

    /// The file of the sheet writer.
    pub fn file(&self) -> Vec<u8> {
        let mut file = Vec::new();
        for record in self.signals.iter().chain(&self.outputs) {
            file.push(record.kind);
            file.extend(&record.body);
        }
        file.push(8);
        file
    }

    /// The value of signal `v` at tick `t`: what the registers hold at tick 0
    /// is given, everything else follows.
    fn value(&self, v: usize, t: usize, first: &[bool], vectors: &[u8], known: &mut Known) -> bool {
        if let Some(value) = known[t][v] {
            return value;
        }
        let record = &self.signals[v];
        let at = |place: usize| usize::from(record.body[place]);
        let mut ask = |w: usize, t: usize| self.value(w, t, first, vectors, known);
        let value = match record.kind {
            1 => vectors[t] & (1 << self.before(v, 1)) != 0,
            2 if t == 0 => first[self.before(v, 2)],
            2 => ask(at(1), t - 1),
            3 => !ask(at(0), t),
            4 => ask(at(0), t) && ask(at(1), t),
            5 => ask(at(0), t) || ask(at(1), t),
            _ => ask(at(0), t) != ask(at(1), t),
        };
        known[t][v] = Some(value);
        value
    }

    /// The initial values of the registers.
    pub fn initial(&self) -> Vec<bool> {
        let registers = self.signals.iter().filter(|r| r.kind == 2);
        registers.map(|r| r.body[0] == 1).collect()
    }

    /// All signals at the last of the ticks that the vectors give.
    pub fn values(&self, first: &[bool], vectors: &[u8]) -> Vec<bool> {
        let mut known = vec![vec![None; self.len()]; vectors.len()];
        let last = vectors.len() - 1;
        let mut value = |v| self.value(v, last, first, vectors, &mut known);
        (0..self.len()).map(&mut value).collect()
    }

    /// A run: one number per tick.
    pub fn run(&self, vectors: &[u8]) -> Vec<u16> {
        let mut known = vec![vec![None; self.len()]; vectors.len()];
        let first = self.initial();
        let mut results = Vec::new();
        for t in 0..vectors.len() {
            let mut result = 0;
            for (i, v) in self.outputs().into_iter().enumerate() {
                if self.value(v, t, &first, vectors, &mut known) {
                    result |= 1 << i;
                }
            }
            results.push(result);
        }
        results
    }
}
