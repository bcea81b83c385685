//! Long files: a call answers by the same rules whatever their length is.

use crate::compare::call::{Call, Files};
use crate::grouping::{self, CLASS};
use crate::sheet::{read, END, INPUT};

use super::cases::Maker;
use super::lanes::{self, Drawing};
use super::rewrite::redraw;
use super::rng::Rng;
use super::sheets;

/// What is long here: bytes of a file, ticks of a run, a result.
const LONG: usize = 1_000_000;

/// A table with room for the pairs made here.
const WORDS: usize = 30_000;

/// The calls with long files. They are the same in kind for every seed.
pub fn long_files(maker: &mut Maker) {
    zeros(maker);
    too_many_records(maker);
    long_groupings(maker);
    long_after_end(maker);
    long_runs(maker);
    long_results(maker);
    maker.lend_full_rows();
}

/// Three files that are accepted: small lanes, their redraw, and a grouping.
fn good_files(rng: &mut Rng) -> Files {
    let shape = lanes::lanes(rng, 3);
    let a = lanes::draw(shape, Drawing::Chosen, None);
    let b = redraw(rng, &a, 4);
    let n = a.signals.len() + b.signals.len();
    Files {
        a: sheets::file(rng, &a),
        b: sheets::file(rng, &b),
        p: grouping::file(&rng.bytes(n)),
    }
}

/// In every call, each file in turn becomes what `bytes` makes of it.
fn each_file(maker: &mut Maker, bytes: impl Fn(&[u8]) -> Vec<u8>) {
    let good = good_files(&mut maker.rng);
    let [a, b, p] = [&good.a, &good.b, &good.p].map(|file| bytes(file));
    maker.write(a.clone());
    maker.run(a.clone(), vec![0, 1]);
    maker.both(Files { a, ..good.clone() });
    maker.both(Files { b, ..good.clone() });
    maker.both(Files { p, ..good });
}

/// KIND at the first of many bytes.
fn zeros(maker: &mut Maker) {
    each_file(maker, |_| vec![0; LONG]);
}

/// AFTER with much after END.
fn long_after_end(maker: &mut Maker) {
    let more = maker.rng.bytes(LONG);
    each_file(maker, |good| [good, &more].concat());
}

/// MANY at the ninth of very many inputs.
fn too_many_records(maker: &mut Maker) {
    let a = [INPUT, 0].repeat(LONG / 2);
    let good = good_files(&mut maker.rng);
    maker.write(a.clone());
    maker.files(Files { a, ..good });
}

/// COUNT, SHORT, KIND and AFTER behind far too many classes.
fn long_groupings(maker: &mut Maker) {
    let good = good_files(&mut maker.rng);
    let classes = maker.rng.bytes(LONG / 2);
    let records: Vec<u8> = classes.iter().flat_map(|class| [CLASS, *class]).collect();
    for ending in [&[END][..], &[], &[CLASS], &[0], &[END, 0]] {
        let p = [&records, ending].concat();
        maker.both(Files { p, ..good.clone() });
    }
}

/// Many ticks: a result that is long enough, one that is one too short, and a
/// vector with a bit beyond the inputs at the last tick.
fn long_runs(maker: &mut Maker) {
    let a = good_files(&mut maker.rng).a;
    let inputs = read(&a).expect("the lanes are accepted").inputs();
    let vectors = sheets::vectors(&mut maker.rng, inputs, LONG);
    let mut faulty = vectors.clone();
    faulty[LONG - 1] |= 1 << inputs;
    for (vectors, result) in [(vectors.clone(), LONG), (vectors, LONG - 1), (faulty, LONG)] {
        let a = a.clone();
        maker.call(Call::Run { a, vectors, result });
    }
}

/// Results that are far longer than what is written.
fn long_results(maker: &mut Maker) {
    let files = good_files(&mut maker.rng);
    maker.call(Call::Write {
        a: files.a.clone(),
        result: LONG,
    });
    maker.call(Call::Refine {
        files,
        words: WORDS,
        result: LONG,
    });
}
