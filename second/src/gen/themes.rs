//! The themes that cases are made on.

use crate::compare::call::{Call, Files};
use crate::grouping;
use crate::room::MOST_NODES;
use crate::sheet::{read, Sheet, MOST_SIGNALS};

use super::benches;
use super::cases::{Effort, Maker};
use super::damage;
use super::edit::edit;
use super::lanes::{self, Drawing};
use super::long::long_files;
use super::rewrite::redraw;
use super::rng::Rng;
use super::rooms;
use super::sheets::{self, alike, any_sheet, size, Scale};

/// A theme's name, and what makes a case of it.
type Theme = (&'static str, fn(&mut Maker));

/// The theme of which each run has one case.
pub const LONG_FILES: Theme = ("long files", long_files);

/// The other themes, each as likely as its number says.
pub const THEMES: [(usize, Theme); 22] = [
    (120, ("random pairs, tiny", |m| random_pair(m, Scale::Tiny))),
    (
        60,
        ("random pairs, small", |m| random_pair(m, Scale::Small)),
    ),
    (
        16,
        ("random pairs, medium", |m| random_pair(m, Scale::Medium)),
    ),
    (6, ("random pairs, large", |m| random_pair(m, Scale::Large))),
    (2, ("random pairs, full", |m| random_pair(m, Scale::Full))),
    (
        90,
        ("redrawn pairs, tiny", |m| redrawn_pair(m, Scale::Tiny)),
    ),
    (
        40,
        ("redrawn pairs, small", |m| redrawn_pair(m, Scale::Small)),
    ),
    (
        16,
        ("redrawn pairs, medium", |m| redrawn_pair(m, Scale::Medium)),
    ),
    (
        6,
        ("redrawn pairs, large", |m| redrawn_pair(m, Scale::Large)),
    ),
    (70, ("one edit", one_edit)),
    (20, ("lanes", |m| lane_pair(m, 5, 3_000))),
    (6, ("long lanes", |m| lane_pair(m, 12, 10_000))),
    (3, ("crowded tables", |m| lane_pair(m, 12, MOST_NODES))),
    (15, ("benches", bench_pair)),
    (800, ("damaged files", damaged_files)),
    (20, ("truncated files", truncated_files)),
    (100, ("limits", limits)),
    (40, ("unlike pairs", unlike_pair)),
    (300, ("noise", noise)),
    (250, ("runs", runs)),
    (150, ("writes", writes)),
    (2, ("longest tables", longest_tables)),
];

fn effort(scale: Scale) -> Effort {
    let (proposals, edges, limit) = match scale {
        Scale::Tiny => (2, 4, 3_000),
        Scale::Small => (2, 3, 3_000),
        Scale::Medium => (1, 3, 3_000),
        Scale::Large | Scale::Full => (1, 2, 2_000),
    };
    Effort {
        proposals,
        edges,
        limit,
    }
}

fn random_pair(maker: &mut Maker, scale: Scale) {
    let rng = &mut maker.rng;
    let size_a = size(rng, scale);
    let size_b = alike(rng, scale, size_a);
    let (a, b) = (sheets::sheet(rng, size_a), sheets::sheet(rng, size_b));
    maker.pair(&a, &b, effort(scale));
}

fn redrawn_pair(maker: &mut Maker, scale: Scale) {
    let a = any_sheet(&mut maker.rng, scale);
    let places = maker.rng.below(8);
    let b = redraw(&mut maker.rng, &a, places);
    match maker.rng.chance(1, 2) {
        true => maker.pair(&a, &b, effort(scale)),
        false => maker.pair(&b, &a, effort(scale)),
    }
}

/// A sheet against itself with one edit, redrawn or not.
fn one_edit(maker: &mut Maker) {
    let rng = &mut maker.rng;
    let scale = *rng.weighted(&[(20, Scale::Tiny), (10, Scale::Small), (1, Scale::Medium)]);
    let a = any_sheet(rng, scale);
    let mut b = edit(rng, &a);
    if rng.chance(1, 3) {
        b = redraw(rng, &b, 3);
    }
    maker.pair(&a, &b, effort(scale));
}

/// Lanes against their redraw, or against one with a bug.
fn lane_pair(maker: &mut Maker, most_bins: usize, limit: usize) {
    let rng = &mut maker.rng;
    let shape = lanes::lanes(rng, most_bins);
    let a = lanes::draw(shape, Drawing::Chosen, None);
    let bug = rng.chance(1, 2).then(|| lanes::bug(rng, shape));
    let drawing = *rng.pick(&[Drawing::Chosen, Drawing::Changed]);
    let mut b = lanes::draw(shape, drawing, bug);
    if rng.chance(1, 2) {
        b = redraw(rng, &b, 4);
    }
    let effort = Effort {
        proposals: 1,
        edges: 2,
        limit,
    };
    maker.pair(&a, &b, effort);
}

fn bench(rng: &mut Rng) -> Vec<u8> {
    rng.pick(&benches::ALL).to_vec()
}

fn bench_pair(maker: &mut Maker) {
    let sheet = |rng: &mut Rng| read(&bench(rng)).expect("the benches are accepted");
    let (a, b) = (sheet(&mut maker.rng), sheet(&mut maker.rng));
    maker.pair(&a, &b, effort(Scale::Tiny));
}

/// Three good files: a tiny pair, alike most often, and a grouping for it.
fn good_files(rng: &mut Rng) -> Files {
    let scale = *rng.weighted(&[(12, Scale::Tiny), (4, Scale::Small), (1, Scale::Medium)]);
    let size_a = size(rng, scale);
    let mut size_b = alike(rng, scale, size_a);
    if rng.chance(1, 12) {
        size_b = size(rng, scale);
    }
    let (a, b) = (sheets::sheet(rng, size_a), sheets::sheet(rng, size_b));
    let n = a.signals.len() + b.signals.len();
    Files {
        a: sheets::file(rng, &a),
        b: sheets::file(rng, &b),
        p: grouping::file(&rng.bytes(n)),
    }
}

/// One file damaged, sometimes two: then the first in order must be named.
fn damaged_files(maker: &mut Maker) {
    let rng = &mut maker.rng;
    let mut files = good_files(rng);
    let times = if rng.chance(1, 5) { 2 } else { 1 };
    for _ in 0..times {
        match rng.below(3) {
            0 => files.a = damage::sheet(rng, &files.a),
            1 => files.b = damage::sheet(rng, &files.b),
            _ => files.p = damage::grouping(rng, &files.p),
        }
    }
    let a = files.a.clone();
    maker.files(files);
    match maker.rng.below(4) {
        0 => maker.write(a),
        1 => {
            let vectors = maker.rng.bytes(3);
            maker.run(a, vectors);
        }
        _ => {}
    }
}

/// One file cut at each place.
fn truncated_files(maker: &mut Maker) {
    let files = good_files(&mut maker.rng);
    let which = maker.rng.below(4);
    let whole = [&files.a, &files.b, &files.p, &files.a][which].clone();
    for length in 0..whole.len() {
        let cut = whole[..length].to_vec();
        let mut files = files.clone();
        match which {
            0 => files.a = cut,
            1 => files.b = cut,
            2 => files.p = cut,
            _ => {
                maker.write(cut);
                continue;
            }
        }
        maker.files(files);
    }
}

/// A limit met or passed by one, in a file by itself or in one of two.
fn limits(maker: &mut Maker) {
    let mut files = good_files(&mut maker.rng);
    let a = damage::at_a_limit(&mut maker.rng, &files.a);
    match maker.rng.below(4) {
        0 => return maker.write(a),
        1 => return maker.run(a, vec![0, 1]),
        2 => files.a = a,
        _ => files.b = damage::at_a_limit(&mut maker.rng, &files.b),
    }
    maker.files(files);
}

/// Sheets of sizes that nothing makes alike.
fn unlike_pair(maker: &mut Maker) {
    let rng = &mut maker.rng;
    let mut files = good_files(rng);
    let other = scaled_sheet(rng);
    files.b = sheets::file(rng, &other);
    maker.files(files);
}

fn noise(maker: &mut Maker) {
    let mut files = good_files(&mut maker.rng);
    let bytes = damage::noise(&mut maker.rng);
    match maker.rng.below(5) {
        0 => files.a = bytes,
        1 => files.b = bytes,
        2 => files.p = bytes,
        3 => return maker.write(bytes),
        _ => return maker.run(bytes, vec![0]),
    }
    maker.files(files);
}

fn any_scale(rng: &mut Rng) -> Scale {
    *rng.weighted(&[
        (8, Scale::Tiny),
        (6, Scale::Small),
        (3, Scale::Medium),
        (2, Scale::Large),
        (1, Scale::Full),
    ])
}

fn scaled_sheet(rng: &mut Rng) -> Sheet {
    let scale = any_scale(rng);
    any_sheet(rng, scale)
}

/// Runs, some with a bit beyond the inputs.
fn runs(maker: &mut Maker) {
    let rng = &mut maker.rng;
    let sheet = scaled_sheet(rng);
    let most = *rng.weighted(&[(20, 12), (4, 60), (1, 400)]);
    let ticks = rng.below(most + 1);
    let mut vectors = sheets::vectors(rng, sheet.inputs(), ticks);
    if ticks > 0 && rng.chance(1, 4) {
        for _ in 0..rng.between(1, 2) {
            let tick = rng.below(ticks);
            vectors[tick] |= 1 << rng.below(8);
        }
    }
    let a = sheets::file(rng, &sheet);
    maker.run(a, vectors);
}

/// Writes; what was written is written again.
fn writes(maker: &mut Maker) {
    let sheet = scaled_sheet(&mut maker.rng);
    let a = sheets::strewn(&mut maker.rng, &sheet);
    maker.write(a);
    maker.write(sheet.bytes());
}

/// Tables that are longer than any capacity.
fn longest_tables(maker: &mut Maker) {
    let files = good_files(&mut maker.rng);
    let words = rooms::longest(&mut maker.rng);
    let call = match maker.rng.chance(1, 2) {
        true => Call::Check { files, words },
        false => Call::Refine {
            files,
            words,
            result: grouping::length(2 * MOST_SIGNALS),
        },
    };
    maker.call(call);
}
