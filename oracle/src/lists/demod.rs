//! Scoring: `demodulate` without its last call.
use super::Kind;
use super::illum::{Beyond, beyond_bounds, dark, model, put_model};
use super::stats::{any_stats, put_stats, stats};
use crate::calls::demod::*;
use crate::calls::illum::identity;
use crate::calls::modulate::bits_a_cell;
use crate::card::make::{self, Channel};
use crate::rng::Rng;
use crate::words::{List, Record};

pub const KIND: Kind = Kind {
    name: "demod",
    seed: 8,
    random: 14,
    header: "
        MODEL is: terms side rms rejected kept width, then f64: affine 3 x 4, gain 3 x width, flare 3 x width (see illum)
        STATS is: l0 l1 sigma_l sigma_ab level0 level1 (f32), samples (a count)
        score side hues size |xs| |ys| grid |raw| |cxs| |cys| |cell_raw| |palette| MODEL STATS luma colours chroma fill
            = no modules cells |luma|' |colours|' |chroma|'
            modules and cells are how many have a mark, where `no` is 0; xs and ys i32, cxs and cys u16, colours three f32 each; luma, colours and chroma are the lengths of the
            three outputs, every element `fill` before; they are given after a refusal too
            refused 2, 3, 4, 5, 6, 7, 8, 9, 10, 12
    ",
    structured,
    one,
};

/// The lengths that the outputs need: scores, colours, chroma scores.
fn lengths(q: &Scoring) -> [usize; 3] {
    [q.xs.len(), 3 * q.xs.len(), bits_a_cell(q.k) * q.entries()]
}

fn put_score(out: &mut List, q: &Scoring, lengths: [usize; 3]) {
    let fill = 0.625f32;
    let record = Record::new("score").w(q.side).w(q.k).w(q.size).slice(&q.xs).slice(&q.ys).w(q.grid).slice(&q.raw);
    let record = record.slice(&q.cxs).slice(&q.cys).slice(&q.cell_raw).slice(&q.palette);
    let record = put_stats(put_model(record, &q.model), &q.stats).all(lengths).w(fill).is();
    let [mut luma, mut colours, mut chroma] = lengths.map(|n| vec![fill; n]);
    let record = match score(q, &mut luma, &mut colours, &mut chroma) {
        Ok(held) => record.w(0u8).all(held),
        Err(number) => record.w(number),
    };
    record.slice(&luma).slice(&colours).slice(&chroma).end(out);
}

/// A card of `grid` grid modules, `ring` ring modules and `cells` cells, seen through a mild channel.
fn card(rng: &mut Rng, k: usize, size: usize, [grid, ring, cells]: [usize; 3]) -> Scoring {
    let palette = make::palette(k, 30.0, 75.0, 50.0, 0.0);
    let channel = Channel::new(rng, 21);
    let mut q = Scoring {
        side: 21,
        k,
        size,
        xs: vec![],
        ys: vec![],
        grid,
        raw: vec![],
        cxs: vec![],
        cys: vec![],
        cell_raw: vec![],
        palette,
        model: identity(21).unwrap(),
        stats: stats(30.0, 75.0, 3.0, 4.0, [0.0; 2]),
    };
    for i in 0..grid + ring {
        let out = if i < grid { 0 } else { 6 };
        let (x, y) = (rng.between(-out, 20 + out), rng.between(-out, 20 + out));
        let (light, hue) = (rng.chance(2), rng.below(k));
        let c = make::colour(&q.palette, k, light, hue);
        q.xs.push(x as i32);
        q.ys.push(y as i32);
        q.raw.extend(channel.observe(rng, x as f64, y as f64, c));
    }
    for _ in 0..cells {
        let (cx, cy) = (rng.below(21), rng.below(21));
        let (light, hue) = (rng.chance(2), rng.below(k));
        let c = make::colour(&q.palette, k, light, hue);
        q.cxs.push(cx as u16);
        q.cys.push(cy as u16);
        q.cell_raw.extend(channel.observe(rng, cx as f64, cy as f64, c));
    }
    q
}

fn structured(out: &mut List) {
    let rng = &mut Rng::new(80);
    for k in [1, 2, 4, 8, 16] {
        for (size, counts) in [(1, [3, 2, 2]), (2, [2, 2, 2]), (16, [2, 0, 3])] {
            let mut q = card(rng, k, size, counts);
            if size == 2 {
                q.model = model(rng, 4, 21);
                q.stats.sigma_ab_level = [5.0, 2.5];
            }
            put_score(out, &q, lengths(&q).map(|n| n + size % 2));
        }
    }
    for counts in [[0, 0, 0], [0, 3, 0], [3, 0, 0], [0, 0, 2]] {
        let mut q = card(rng, 4, 1, counts);
        q.model = model(rng, 9, 21);
        put_score(out, &q, lengths(&q));
    }
    unusual(out, rng);
    refused(out, rng);
    for case in beyond_bounds() {
        beyond(out, &case);
    }
    marks(out);
}

/// Cards too dark to correct, all over or in part, in all channels or in one: with chroma and without, with ring
/// modules that carry it and that do not, and with a module listed twice.
fn marks(out: &mut List) {
    let rng = &mut Rng::new(82);
    for (k, size, counts) in [(1, 1, [3, 2, 2]), (2, 1, [4, 3, 3]), (4, 2, [3, 2, 4]), (2, 7, [5, 0, 2])] {
        for (c0, c1) in [(0.01, 0.0), (0.05, 0.0), (0.05, 0.2), (0.0, -0.1)] {
            let mut q = card(rng, k, size, counts);
            q.model = dark(21, c0, c1);
            (q.xs[1], q.ys[1]) = (q.xs[0], q.ys[0]);
            put_score(out, &q, lengths(&q));
            q.model.gain[1] = identity(21).unwrap().gain[1];
            put_score(out, &q, lengths(&q));
        }
    }
}

/// One module and, where its place can be a cell's, one cell that is corrected beyond 1,048,576.
fn beyond(out: &mut List, (model, [x, y], colour): &Beyond) {
    let mut q = card(&mut Rng::new(81), 1, 1, [0, 0, 0]);
    q.model = model.clone();
    let mut module = q.clone();
    (module.xs, module.ys) = (vec![(x - 0.5) as i32], vec![(y - 0.5) as i32]);
    module.raw = colour.to_vec();
    put_score(out, &module, lengths(&module));
    if *x > 0.0 && *y > 0.0 {
        let mut cell = q;
        (cell.k, cell.palette) = (2, make::palette(2, 30.0, 75.0, 50.0, 0.0));
        (cell.cxs, cell.cys) = (vec![(x - 0.5) as u16], vec![(y - 0.5) as u16]);
        cell.cell_raw = colour.to_vec();
        put_score(out, &cell, lengths(&cell));
    }
}

/// Repeats, ring modules inside the grid, the corners of the places, a vanishing sigma (NaN chroma scores),
/// reversed levels, colours at the limit.
fn unusual(out: &mut List, rng: &mut Rng) {
    let base = card(rng, 2, 1, [3, 2, 2]);
    let mut put = |change: &dyn Fn(&mut Scoring)| {
        let mut q = base.clone();
        change(&mut q);
        put_score(out, &q, lengths(&q));
    };
    put(&|q| (q.xs, q.ys) = (vec![4; 5], vec![4; 5]));
    put(&|q| (q.xs, q.ys) = (vec![0, 20, 0, -6, 26], vec![0, 20, 20, 26, -6]));
    put(&|q| (q.cxs, q.cys) = (vec![1023, 0], vec![1023, 1023]));
    // The interpolated sigma is 0 at the light level; a cell that lies on its hue point scores 0/0.
    put(&|q| {
        (q.stats.l0, q.stats.l1) = (0.0, 1.0);
        q.stats.sigma_ab_level = [1_099_511_627_776.0, 0.75];
        let c = make::colour(&q.palette, 2, true, 0);
        q.cell_raw = [c.r, c.g, c.b].repeat(2);
    });
    put(&|q| (q.stats.l0, q.stats.l1) = (75.0, 30.0));
    put(&|q| (q.stats.l0, q.stats.l1) = (50.0, 50.0));
    put(&|q| q.raw[4] = 1_048_576.0);
    put(&|q| q.raw[4] = -1_048_576.0);
    put(&|q| q.cell_raw = vec![-0.0, 1e-40, -1e-40, 0.0, 0.0, 0.0]);
    put(&|q| q.palette[6..].iter_mut().for_each(|v| *v = 1_048_576.0));
    put(&|q| (q.stats.sigma_l, q.stats.sigma_ab) = (1e12, 1e12));
}

fn refused(out: &mut List, rng: &mut Rng) {
    let base = card(rng, 2, 1, [2, 1, 1]);
    let mut put = |change: &dyn Fn(&mut Scoring)| {
        let mut q = base.clone();
        change(&mut q);
        put_score(out, &q, lengths(&base));
    };
    put(&|q| (q.side, q.k) = (0, 3));
    put(&|q| (q.side, q.k) = (1025, 3));
    put(&|q| (q.k, q.size) = (3, 0));
    put(&|q| (q.size, q.ys) = (0, vec![1]));
    put(&|q| q.size = 17);
    put(&|q| q.ys.truncate(2));
    put(&|q| q.ys.push(3));
    put(&|q| q.cys.push(3));
    put(&|q| q.raw.truncate(8));
    put(&|q| q.cell_raw.truncate(2));
    put(&|q| q.palette.truncate(17));
    put(&|q| (q.grid, q.palette) = (9, vec![]));
    put(&|q| (q.grid, q.xs[0]) = (4, 30));
    put(&|q| (q.grid, q.k) = (4, 1));
    put(&|q| (q.xs[0], q.raw[0]) = (21, f32::NAN));
    put(&|q| (q.ys[2], q.raw[0]) = (26, f32::NAN));
    put(&|q| (q.ys[2], q.raw[0]) = (27, f32::NAN));
    put(&|q| q.xs[1] = -1);
    put(&|q| (q.cxs[0], q.raw[0]) = (1024, f32::NAN));
    put(&|q| (q.k, q.cys[0]) = (1, 1024));
    put(&|q| (q.raw[8], q.stats.sigma_l) = (f32::INFINITY, 0.0));
    put(&|q| (q.cell_raw[2], q.stats.sigma_l) = (-1_048_577.0, 0.0));
    put(&|q| (q.k, q.cell_raw[0]) = (1, f32::NAN));
    put(&|q| (q.palette[1], q.model.terms) = (f32::NAN, 1));
    put(&|q| (q.stats.l0, q.stats.sigma_l) = (f32::NAN, 0.0));
    put(&|q| (q.stats.sigma_ab, q.model.terms) = (0.5, 1));
    put(&|q| (q.stats.sigma_ab_level[1], q.model.terms) = (0.5, 1));
    put(&|q| (q.model.terms, q.model.affine[0][0]) = (1, 1e30));
    put(&|q| q.model.side = 0.0);
    put(&|q| q.model.affine[2] = [0.0, 0.0, 0.0, 1_048_576.1]);
    put(&|q| (q.model.affine[2][2], q.raw, q.cell_raw[2]) = (1e30, vec![0.0; 9], 1.0));
    // With chroma off cells are neither corrected nor scored.
    put(&|q| (q.k, q.model.affine[2][2], q.raw, q.cell_raw[2]) = (1, 1e30, vec![0.0; 9], 1.0));
    for i in 0..3 {
        let mut room = lengths(&base);
        room[i] -= 1;
        put_score(out, &base, room);
    }
}

fn one(out: &mut List, rng: &mut Rng) {
    let (k, size) = (rng.pick(&[1, 2, 4]), rng.pick(&[1, 1, 2, 7]));
    let counts = [rng.below(4), rng.below(3), rng.below(3)];
    let mut q = card(rng, k, size, counts);
    q.stats = any_stats(rng);
    if rng.chance(2) {
        let terms = rng.pick(&[4, 9]);
        q.model = model(rng, terms, 21);
    }
    if rng.chance(5) && !q.raw.is_empty() {
        let at = rng.below(q.raw.len());
        q.raw[at] = rng.float32();
    }
    if rng.chance(4) {
        q.model = dark(21, rng.real(-0.1, 0.1), rng.real(-0.2, 0.2));
    }
    put_score(out, &q, lengths(&q));
}
