//! Whole cards: scoring, refinement, unmasking and reading beside the Rust's `demodulate` in one piece.
use super::Kind;
use super::illum::{model, put_model};
use super::stats::{put_stats, stats};
use crate::calls::demod::*;
use crate::calls::modulate::{bits_a_cell, read, unmask_luma};
use crate::calls::refine::{Refining, refine};
use crate::card::make::{self, Channel};
use crate::rng::Rng;
use crate::words::{List, Record};

pub const KIND: Kind = Kind {
    name: "whole",
    seed: 11,
    random: 6,
    header: "
        MODEL is: terms side rms rejected kept width, then f64: affine 3 x 4, gain 3 x width, flare 3 x width (see illum)
        STATS is: l0 l1 sigma_l sigma_ab level0 level1 (f32), samples (a count)
        whole side hues size mask |xs| |ys| grid |raw| |cxs| |cys| |cell_raw| |palette| MODEL STATS chroma
            = no modules cells |luma| |colours| |chroma| |luma bits| |chroma bits|
            A card read from its raw colours: score, then add_local_luma, then unmask_luma, then read_list of the unmasked
            luma scores and of the chroma scores. luma (before unmasking), colours and chroma are those that the Rust's
            `demodulate` gives in one piece, its last call included. `no` is the number of the first call refused;
            modules and cells are how many have a mark.
            xs and ys i32, cxs and cys u16, colours three f32 each; every output as long as it must be, which for the
            chroma scores is the last word before `=`
    ",
    structured,
    one,
};

/// What a card is like, but for its colours.
#[derive(Clone, Copy)]
struct Plan {
    side: usize,
    k: usize,
    size: usize,
    /// How far outside the grid the ring modules stand, 1 to 6; 0 for none.
    ring: i64,
}

fn plan(side: usize, k: usize, size: usize, ring: i64) -> Plan {
    Plan { side, k, size, ring }
}

/// The answers of `demodulate` with its last call, where scoring and refinement accept the card.
fn put_whole(out: &mut List, q: &Scoring, mask: u8) {
    let record = Record::new("whole").w(q.side).w(q.k).w(q.size).w(mask).slice(&q.xs).slice(&q.ys).w(q.grid);
    let record = record.slice(&q.raw).slice(&q.cxs).slice(&q.cys).slice(&q.cell_raw).slice(&q.palette);
    let chroma = bits_a_cell(q.k) * q.entries();
    let record = put_stats(put_model(record, &q.model), &q.stats).w(chroma).is();
    let held = match accepted(q, chroma) {
        Ok(held) => held,
        Err(number) => return record.w(number).end(out),
    };
    let whole = q.demodulated(true);
    let colours: Vec<f32> = whole.colours.iter().flat_map(|c| [c.r, c.g, c.b]).collect();
    let mut unmasked = whole.luma.clone();
    unmask_luma(&mut unmasked, q.side, &q.xs, &q.ys, q.grid, mask).expect("what scoring accepts");
    let bits = |scores: &[f32]| -> Vec<u8> { scores.iter().map(|&s| read(s)).collect() };
    let record = record.w(0u8).all(held).slice(&whole.luma).slice(&colours).slice(&whole.chroma);
    record.slice(&bits(&unmasked)).slice(&bits(&whole.chroma)).end(out);
}

/// How many modules and cells have a mark, or the number of the first call refused.
fn accepted(q: &Scoring, chroma: usize) -> Result<[usize; 2], u32> {
    let m = q.xs.len();
    let (mut luma, mut colours) = (vec![0.0; m], vec![0.0; 3 * m]);
    let held = score(q, &mut luma, &mut colours, &mut vec![0.0; chroma])?;
    let refining = Refining {
        side: q.side,
        k: q.k,
        xs: q.xs.clone(),
        ys: q.ys.clone(),
        grid: q.grid,
        colours,
        palette: q.palette.clone(),
        stats: q.stats,
    };
    refine(&refining, &mut luma, &mut vec![0.0; (q.side + 12) * (q.side + 12)])?;
    Ok(held)
}

/// The upper and the left side of the square that stands `ring` outside the grid.
fn ring_places(p: Plan) -> Vec<(i64, i64)> {
    let (from, to) = (-p.ring, p.side as i64 - 1 + p.ring);
    let upper = (from..=to).map(|x| (x, from));
    let left = (from + 1..=to).map(|y| (from, y));
    if p.ring == 0 { vec![] } else { upper.chain(left).collect() }
}

/// A card whose grid is full, seen through a channel, with the model that undoes all of it but the glare.
fn card(rng: &mut Rng, p: Plan, channel: &Channel) -> Scoring {
    let Plan { side, k, size, .. } = p;
    let palette = make::palette(k, 30.0, 75.0, 50.0, 0.0);
    let mut q = Scoring {
        side,
        k,
        size,
        xs: vec![],
        ys: vec![],
        grid: side * side,
        raw: vec![],
        cxs: vec![],
        cys: vec![],
        cell_raw: vec![],
        palette,
        model: channel.undone(),
        // With chroma off no weight makes a score unsure: there a wider sigma does.
        stats: stats(30.0, 75.0, if k == 1 { 8.0 } else { 3.0 }, 4.0, [0.0; 2]),
    };
    let cells = side.div_ceil(size);
    let hues: Vec<usize> = (0..cells * cells).map(|_| rng.below(k)).collect();
    let grid = (0..side * side).map(|i| ((i % side) as i64, (i / side) as i64));
    for (i, (x, y)) in grid.chain(ring_places(p)).enumerate() {
        let hue = if i < q.grid { hues[i / side / size * cells + i % side / size] } else { rng.below(k) };
        let light = rng.chance(2);
        let c = make::colour(&q.palette, k, light, hue);
        q.xs.push(x as i32);
        q.ys.push(y as i32);
        q.raw.extend(channel.observe(rng, x as f64 + 0.5, y as f64 + 0.5, c));
    }
    if k > 1 {
        add_cells(rng, &mut q, channel, &hues);
    }
    q
}

fn add_cells(rng: &mut Rng, q: &mut Scoring, channel: &Channel, hues: &[usize]) {
    let (cells, size) = (q.side.div_ceil(q.size), q.size as f64);
    for (i, &hue) in hues.iter().enumerate() {
        let (cx, cy) = (i % cells, i / cells);
        let light = rng.chance(2);
        let c = make::colour(&q.palette, q.k, light, hue);
        q.cxs.push(cx as u16);
        q.cys.push(cy as u16);
        q.cell_raw.extend(channel.observe(rng, (cx as f64 + 0.5) * size, (cy as f64 + 0.5) * size, c));
    }
}

fn structured(out: &mut List) {
    let rng = &mut Rng::new(110);
    let mut put = |p: Plan, glare: f64, change: &dyn Fn(&mut Scoring)| {
        let channel = Channel::new(rng, p.side).glared(glare);
        let mut q = card(rng, p, &channel);
        change(&mut q);
        put_whole(out, &q, rng.below(256) as u8);
    };
    for k in [1, 2, 4, 8, 16] {
        for (size, ring) in [(1, 1), (2, 0), (16, 4)] {
            put(plan(5, k, size, ring), 0.1, &|_| ());
        }
    }
    put(plan(21, 2, 2, 0), 0.2, &|_| ());
    put(plan(9, 1, 1, 6), 0.4, &|_| ());
    // From a single module on; no window of side 3 without a ring has 12 samples.
    for (side, ring) in [(1, 0), (1, 6), (3, 0), (4, 0)] {
        put(plan(side, 2, 1, ring), 0.1, &|_| ());
    }
    // From no glare to one that hides the card.
    for glare in [0.0, 0.3, 1.0, 10.0] {
        put(plan(7, 1, 1, 0), glare, &|_| ());
        put(plan(7, 4, 2, 0), glare, &|_| ());
    }
    // The sigma vanishes at the light level: the chroma scores of light cells are NaN.
    for (k, size) in [(2, 1), (4, 2), (16, 1)] {
        put(plan(5, k, size, 1), 0.1, &|q| q.stats.sigma_ab_level = [1_099_511_627_776.0, 0.75]);
    }
    // A figure a level; a wide and a narrow noise record; reversed levels.
    put(plan(5, 2, 1, 3), 0.1, &|q| q.stats.sigma_ab_level = [5.0, 2.5]);
    put(plan(5, 4, 1, 0), 0.1, &|q| (q.stats.sigma_l, q.stats.sigma_ab) = (40.0, 40.0));
    put(plan(5, 2, 1, 0), 0.1, &|q| (q.stats.sigma_l, q.stats.sigma_ab) = (0.75, 0.75));
    put(plan(5, 1, 1, 0), 0.1, &|q| (q.stats.l0, q.stats.l1) = (75.0, 30.0));
    put(plan(5, 2, 1, 0), 0.1, &|q| q.palette[..2].copy_from_slice(&[75.0, 30.0]));
    // Too dark to correct over a part of the card.
    for (k, ring) in [(1, 0), (2, 1)] {
        put(plan(3, k, 1, ring), 0.1, &|q| q.model.gain[1][..2].copy_from_slice(&[0.05, 0.2]));
    }
}

fn one(out: &mut List, rng: &mut Rng) {
    let p = Plan {
        side: rng.between(4, 8) as usize,
        k: rng.pick(&[1, 2, 2, 4, 4, 8, 16]),
        size: rng.pick(&[1, 1, 2, 3, 16]),
        ring: rng.pick(&[0, 0, 1, 2, 6]),
    };
    let channel = Channel::new(rng, p.side);
    let mut q = card(rng, p, &channel);
    (q.stats.sigma_l, q.stats.sigma_ab) = (rng.single(0.75, 12.0), rng.single(0.75, 9.0));
    if rng.chance(2) {
        q.stats.sigma_ab_level = [rng.single(0.75, 9.0), rng.single(0.75, 9.0)];
    }
    if rng.chance(4) {
        q.model = model(rng, 9, p.side);
    }
    if rng.chance(5) {
        let at = rng.below(q.raw.len());
        q.raw[at] = rng.float32();
    }
    put_whole(out, &q, rng.below(256) as u8);
}
