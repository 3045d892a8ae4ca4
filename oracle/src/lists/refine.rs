//! Local refinement: `add_local_luma`.
use super::Kind;
use super::illum::zeros;
use super::stats::{any_stats, put_stats, stats};
use crate::calls::refine::*;
use crate::card::make;
use crate::rng::Rng;
use crate::words::{List, Record};

pub const KIND: Kind = Kind {
    name: "refine",
    seed: 9,
    random: 12,
    header: "
        STATS is: l0 l1 sigma_l sigma_ab level0 level1 (f32), samples (a count)
        refine side hues |xs| |ys| grid |colours| |palette| STATS |luma| len fill = no |luma|' zeros
            xs and ys i32, colours three f32 each, luma f32; the scratch has `len` elements, each `fill` before; after
            the call its first `zeros` are +0 and the rest `fill`; refused 2, 3, 5, 6, 7, 8, 9
    ",
    structured,
    one,
};

fn put_refine(out: &mut List, q: &Refining, luma: &[f32], len: usize) {
    let fill = f32::MAX;
    let record = Record::new("refine").w(q.side).w(q.k).slice(&q.xs).slice(&q.ys).w(q.grid).slice(&q.colours);
    let record = put_stats(record.slice(&q.palette), &q.stats).slice(luma).w(len).w(fill).is();
    let (mut luma, mut scratch) = (luma.to_vec(), vec![fill; len]);
    let number = refine(q, &mut luma, &mut scratch).err().unwrap_or(0);
    record.w(number).slice(&luma).w(zeros(&scratch, fill)).end(out);
}

/// A refinement of all modules with as much scratch as it needs, and one element more.
fn put_whole(out: &mut List, q: &Refining, luma: &[f32]) {
    put_refine(out, q, luma, (q.side + 12) * (q.side + 12) + 1);
}

/// Modules at the given places, of random levels, under an additive slope and noise.
fn window(rng: &mut Rng, k: usize, places: &[(i32, i32)], slope: f32, noise: f32) -> Refining {
    let palette = make::palette(k, 30.0, 75.0, 50.0, 0.0);
    let mut colours = Vec::new();
    for &(x, _) in places {
        let (light, hue) = (rng.chance(2), rng.below(k));
        let c = make::colour(&palette, k, light, hue);
        colours.extend([c.r, c.g, c.b].map(|v| v + slope * x as f32 + noise * rng.normal() as f32));
    }
    Refining {
        side: 9,
        k,
        xs: places.iter().map(|p| p.0).collect(),
        ys: places.iter().map(|p| p.1).collect(),
        grid: places.iter().take_while(|p| (0..9).contains(&p.0) && (0..9).contains(&p.1)).count(),
        colours,
        palette,
        stats: stats(30.0, 75.0, 3.0, 4.0, [0.0; 2]),
    }
}

/// `count` places in rows of `width` from (x, y) on.
fn rows(x: i32, y: i32, width: i32, count: i32) -> Vec<(i32, i32)> {
    (0..count).map(|i| (x + i % width, y + i / width)).collect()
}

fn scores(rng: &mut Rng, n: usize) -> Vec<f32> {
    (0..n).map(|_| rng.single(-13.0, 13.0)).collect()
}

fn structured(out: &mut List) {
    let rng = &mut Rng::new(90);
    for k in [1, 2, 4, 16] {
        for count in [11, 12, 16] {
            let q = window(rng, k, &rows(0, 0, 4, count), 0.0, 0.01);
            put_whole(out, &q, &scores(rng, count as usize));
        }
    }
    // A window of more than 7 by 7; corners and ring modules; a row that no window joins.
    for (k, places) in
        [(1, rows(0, 0, 9, 81)), (2, rows(-6, -6, 4, 16)), (2, rows(5, 5, 4, 20)), (1, rows(-6, 3, 21, 21))]
    {
        let q = window(rng, k, &places, 0.02, 0.01);
        put_whole(out, &q, &scores(rng, places.len()));
    }
    // Steep slopes, where the first split is wrong and several refits follow; clean ones end at once.
    for (slope, noise) in [(0.0, 0.0), (0.05, 0.0), (0.2, 0.0), (0.2, 0.02), (-0.5, 0.05), (0.0, 0.3), (0.08, 0.1)] {
        let q = window(rng, 2, &rows(2, 2, 5, 25), slope, noise);
        put_whole(out, &q, &scores(rng, 25));
    }
    skipped(out, rng);
    levels(out, rng);
    refused(out, rng);
}

/// Magnitudes around 12; the clamp at 20 and the amount of 8; repeats, whose last colour counts; a tail.
fn skipped(out: &mut List, rng: &mut Rng) {
    let q = window(rng, 1, &rows(0, 0, 4, 16), 0.0, 0.02);
    let below = f32::from_bits(12f32.to_bits() - 1);
    let mut luma = scores(rng, 16);
    luma[..10].copy_from_slice(&[12.0, -12.0, below, -below, 0.0, -0.0, 20.0, -20.0, 1e-40, 1_048_576.0]);
    luma.extend([f32::NAN, 3.0]);
    put_whole(out, &q, &luma);
    let mut places = rows(0, 0, 4, 14);
    places.extend([(0, 0), (1, 0), (1, 0)]);
    let q = window(rng, 1, &places, 0.0, 0.02);
    put_whole(out, &q, &scores(rng, 17));
    // Twelve entries on eleven places.
    let mut places = rows(0, 0, 4, 11);
    places.push((0, 0));
    let q = window(rng, 1, &places, 0.0, 0.02);
    put_whole(out, &q, &scores(rng, 12));
}

/// Exact two-level windows, one level alone, samples equal to the split, reversed and equal palette levels.
fn levels(out: &mut List, rng: &mut Rng) {
    let places = rows(3, 3, 4, 12);
    let base = window(rng, 1, &places, 0.0, 0.0);
    let luma = scores(rng, 12);
    let mut put = |values: &dyn Fn(usize) -> f32, k: usize, levels: [f32; 2]| {
        let mut q = base.clone();
        q.colours = (0..12).flat_map(|i| [values(i); 3]).collect();
        q.k = k;
        q.palette = make::palette(k, 30.0, 75.0, 50.0, 0.0);
        q.palette[..2].copy_from_slice(&levels);
        put_whole(out, &q, &luma);
    };
    let two = |i: usize| if i % 3 == 0 { 0.5 } else { 0.125 };
    let three = |i: usize| [0.125, 0.25, 0.375][i * 7 % 3];
    for k in [1, 2] {
        for l in [[30.0, 75.0], [75.0, 30.0], [50.0, 50.0], [0.0, 1_048_576.0], [-1_048_576.0, 0.0]] {
            put(&two, k, l);
        }
    }
    put(&three, 1, [30.0, 75.0]);
    put(&|_| 0.25, 1, [30.0, 75.0]);
    put(&|_| -0.0, 1, [30.0, 75.0]);
    put(&|i| if i == 5 { 1_048_576.0 } else { 0.0 }, 1, [30.0, 75.0]);
    put(&|i| if i == 5 { -1_048_576.0 } else { 1e-40 }, 2, [30.0, 75.0]);
    put(&|i| i as f32 * 1e-30, 1, [30.0, 75.0]);
    put(&|i| i as f32 * 1e-30, 1, [50.0, 50.0]);
    put(&|i| if i < 4 { 0.5 } else { 0.25 }, 1, [30.0, 75.0]);
    put(&|i| i as f32, 1, [30.0, 75.0]);
    put(&|i| (i * i) as f32 * 0.01, 2, [30.0, 75.0]);
}

fn refused(out: &mut List, rng: &mut Rng) {
    let base = window(rng, 2, &rows(0, 0, 3, 3), 0.0, 0.0);
    let luma = [1.0, 2.0, 3.0];
    let mut put = |luma: &[f32], len: usize, change: &dyn Fn(&mut Refining)| {
        let mut q = base.clone();
        change(&mut q);
        put_refine(out, &q, luma, len);
    };
    put(&luma, 441, &|_| ());
    put(&luma, 440, &|q| q.grid = 4);
    put(&luma, 441, &|q| (q.side, q.k) = (0, 3));
    put(&luma, 441, &|q| (q.side, q.k) = (1025, 3));
    put(&luma, 441, &|q| (q.side, q.k) = (usize::MAX, 3));
    put(&luma, 441, &|q| (q.k, q.palette) = (3, vec![]));
    put(&luma, 441, &|q| q.side = 10);
    put(&luma, 441, &|q| q.ys.push(0));
    put(&luma, 441, &|q| q.colours.truncate(8));
    put(&luma[..2], 441, &|q| q.grid = 4);
    put(&luma, 441, &|q| q.palette.truncate(17));
    put(&luma, 441, &|q| (q.grid, q.xs[0]) = (4, 40));
    put(&luma, 441, &|q| (q.xs[0], q.colours[0]) = (9, f32::NAN));
    put(&luma, 441, &|q| (q.grid, q.ys[2]) = (0, 15));
    put(&luma, 441, &|q| (q.grid, q.ys[2]) = (0, 14));
    put(&luma, 441, &|q| (q.colours[8], q.stats.sigma_l) = (f32::NAN, 0.0));
    put(&luma, 441, &|q| q.colours[8] = 1_048_577.0);
    put(&luma, 441, &|q| q.palette[5] = f32::INFINITY);
    put(&[1.0, f32::NAN, 0.0], 441, &|q| q.stats.sigma_ab = 0.0);
    put(&[1.0, 0.0, -1_048_577.0], 441, &|_| ());
    put(&[1.0, 0.0, -1_048_576.0, f32::NAN], 441, &|_| ());
    put(&luma, 441, &|q| q.stats.l1 = f32::INFINITY);
    put(&luma, 441, &|q| q.stats.sigma_ab = 0.7);
    put(&luma, 441, &|q| q.stats.sigma_ab_level[0] = 0.7);
    put(&[], 441, &|q| (q.xs, q.ys, q.grid, q.colours) = (vec![], vec![], 0, vec![]));
    put(&[1.0], 441, &|q| (q.xs, q.ys, q.grid, q.colours) = (vec![], vec![], 1, vec![]));
}

fn one(out: &mut List, rng: &mut Rng) {
    let k = rng.pick(&[1, 1, 2, 4]);
    let count = rng.between(10, 30) as i32;
    let mut places = rows(rng.between(-6, 8) as i32, rng.between(-6, 8) as i32, rng.between(3, 6) as i32, count);
    places.iter_mut().for_each(|p| *p = (p.0.min(14), p.1.min(14)));
    if rng.chance(3) {
        for p in &mut places {
            *p = (rng.between(0, 8) as i32, rng.between(0, 8) as i32);
        }
    }
    let (slope, noise) = (rng.single(-0.1, 0.1), rng.pick(&[0.0, 0.01, 0.05, 0.2]));
    let mut q = window(rng, k, &places, slope, noise);
    if rng.chance(3) {
        q.stats = any_stats(rng);
    }
    let mut luma = scores(rng, places.len());
    if rng.chance(6) {
        let at = rng.below(q.colours.len());
        q.colours[at] = rng.float32();
    }
    if rng.chance(6) {
        let at = rng.below(luma.len());
        luma[at] = rng.float32();
    }
    put_whole(out, &q, &luma);
}
