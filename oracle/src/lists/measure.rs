//! Measuring the channel's noise.
use super::Kind;
use super::illum::{Beyond, beyond_bounds, dark, model, put_model, zeros};
use super::stats::put_stats;
use crate::calls::illum::identity;
use crate::calls::measure::*;
use crate::card::make::{self, Channel};
use crate::rng::Rng;
use crate::words::{List, Record};

pub const KIND: Kind = Kind {
    name: "measure",
    seed: 7,
    random: 20,
    header: "
        MODEL is: terms side rms rejected kept width, then f64: affine 3 x 4, gain 3 x width, flare 3 x width (see illum)
        STATS is: l0 l1 sigma_l sigma_ab level0 level1 (f32), samples (a count)
        measure |flat| n side MODEL |palette| hues len fill = no STATS held zeros     eight f32 a reference, n references;
            held is how many of them have a mark; the scratch has `len` elements, each `fill` before; after the call its first `zeros` are +0 and the rest
            `fill`; refused 2, 3, 5, 6, 7, 8, 10, 12
    ",
    structured,
    one,
};

pub fn put_measure(out: &mut List, q: &Measuring, len: usize) {
    let fill = -3.25f32;
    let record = put_model(Record::new("measure").slice(&q.flat).w(q.n).w(q.side), &q.model);
    let record = record.slice(&q.palette).w(q.k).w(len).w(fill).is();
    let mut scratch = vec![fill; len];
    let record = match measure(q, &mut scratch) {
        Ok((stats, held)) => put_stats(record.w(0u8), &stats).w(held),
        Err(number) => record.w(number),
    };
    record.w(zeros(&scratch, fill)).end(out);
}

/// `dark` and `light` references of palette colours, then `grey` ones of none.
pub fn counted(rng: &mut Rng, k: usize, dark: usize, light: usize, grey: usize) -> Measuring {
    let palette = make::palette(k, 30.0, 75.0, 50.0, 0.0);
    let mut flat = Vec::new();
    for i in 0..dark + light + grey {
        let c = if i < dark + light {
            make::colour(&palette, k, i >= dark, i % k)
        } else {
            crate::calls::color::Linear::new(1.0, 1.0, 1.0)
        };
        let nominal = [c.r, c.g, c.b];
        flat.extend([rng.single(0.0, 21.0), rng.single(0.0, 21.0)]);
        flat.extend(nominal.map(|v| v + 0.01 * rng.normal() as f32));
        flat.extend(nominal);
    }
    Measuring { n: dark + light + grey, flat, side: 21, model: identity(21).unwrap(), palette, k }
}

fn structured(out: &mut List) {
    let rng = &mut Rng::new(70);
    // Under 8 references; 2 and 3 of a level; 7 and 8 colourful ones of a level; none colourful.
    for (k, dark, light, grey) in [
        (2, 0, 0, 0),
        (2, 4, 3, 0),
        (2, 4, 4, 0),
        (2, 2, 6, 0),
        (2, 6, 2, 0),
        (2, 3, 5, 0),
        (2, 5, 3, 0),
        (2, 2, 2, 6),
        (2, 7, 7, 0),
        (2, 8, 7, 0),
        (4, 7, 8, 0),
        (4, 8, 8, 0),
        (1, 4, 4, 0),
        (1, 6, 7, 2),
        (8, 9, 9, 3),
        (16, 8, 8, 1),
    ] {
        let q = counted(rng, k, dark, light, grey);
        put_measure(out, &q, 4 * q.n + k % 3);
    }
    borders(out, rng);
    refused(out, rng);
    middles(out, rng);
    for case in beyond_bounds() {
        beyond(out, rng, case);
    }
    marks(out);
}

/// References seen at a hundredth of their light by a model that says so, all of them held; under 8; with fewer than 3
/// of a level; and a gain that is held over a part of the card, in all channels or in one.
fn marks(out: &mut List) {
    let rng = &mut Rng::new(71);
    let cases = [
        (4, 3, 0.01, 0.0),
        (4, 4, 0.01, 0.0),
        (2, 6, 0.01, 0.0),
        (9, 9, 0.05, 0.2),
        (9, 9, 0.0, -0.1),
        (6, 6, 0.05, 0.0),
    ];
    for (dark_ones, light, c0, c1) in cases {
        let mut q = counted(rng, 2, dark_ones, light, 0);
        q.model = dark(21, c0, c1);
        q.flat.chunks_mut(8).for_each(|r| r[2..5].iter_mut().for_each(|v| *v *= 0.01));
        put_measure(out, &q, 4 * q.n);
        q.model.gain[0] = identity(21).unwrap().gain[0];
        q.model.gain[2] = q.model.gain[0];
        put_measure(out, &q, 4 * q.n);
    }
}

/// Eight references, the last of which is corrected beyond 1,048,576, and the others are not.
fn beyond(out: &mut List, rng: &mut Rng, (model, [x, y], colour): Beyond) {
    let mut q = counted(rng, 1, 4, 4, 0);
    let centre = model.side / 2.0;
    q.flat.chunks_mut(8).for_each(|r| r[..2].fill(centre));
    q.flat[56..58].copy_from_slice(&[x, y]);
    q.flat[58..61].copy_from_slice(&colour);
    q.model = model;
    put_measure(out, &q, 4 * q.n);
}

/// References whose nominal L is exactly the middle of the levels, so that they count as light: five of eight, white,
/// and five of twelve, red, which count for the chroma of their level too.
fn middles(out: &mut List, rng: &mut Rng) {
    for (n, [r, g, b], l) in [(8, [1.0, 1.0, 1.0], 100.0), (12, [1.0, 0.0, 0.0], 53.24079)] {
        let mut q = counted(rng, 2, n, 0, 0);
        q.palette[..2].copy_from_slice(&[l - 8.0, l + 8.0]);
        for (i, reference) in q.flat.chunks_mut(8).enumerate() {
            let light = [0.9, 1.0, 1.1][(i > 2) as usize + (i > 7) as usize];
            let nominal = [light * r, light * g, light * b];
            reference[2..5].copy_from_slice(&nominal.map(|v| v + 0.01 * rng.normal() as f32));
            reference[5..].copy_from_slice(&nominal);
        }
        put_measure(out, &q, 4 * q.n);
    }
}

/// Deviations around 12, chroma around 20, reversed and equal levels.
fn borders(out: &mut List, rng: &mut Rng) {
    for (l0, l1) in
        [(75.0, 30.0), (50.0, 50.0), (0.0, 100.0), (18.0, 87.0), (17.99, 87.1), (42.0, 63.0), (30.0, 1e5), (-1e6, 1e6)]
    {
        let mut q = counted(rng, 2, 4, 5, 0);
        q.palette[..2].copy_from_slice(&[l0, l1]);
        put_measure(out, &q, 4 * q.n);
    }
    for chroma in [19.0, 19.999, 20.0, 20.001] {
        let mut q = counted(rng, 2, 9, 9, 0);
        let palette = make::palette(2, 30.0, 75.0, chroma, 0.0);
        for (i, r) in q.flat.chunks_mut(8).enumerate() {
            let c = make::colour(&palette, 2, i >= 9, i % 2);
            r[5..].copy_from_slice(&[c.r, c.g, c.b]);
        }
        put_measure(out, &q, 4 * q.n);
    }
}

fn refused(out: &mut List, rng: &mut Rng) {
    let good = counted(rng, 2, 4, 4, 0);
    let mut put = |len: usize, change: &dyn Fn(&mut Measuring)| {
        let mut q = good.clone();
        change(&mut q);
        put_measure(out, &q, len);
    };
    put(32, &|q| (q.side, q.k) = (0, 3));
    put(32, &|q| (q.side, q.k) = (1025, 3));
    put(31, &|q| q.k = 3);
    put(31, &|q| q.flat[0] = f32::NAN);
    put(36, &|q| q.n = 9);
    put(36, &|q| q.n = usize::MAX);
    put(32, &|q| q.palette.truncate(17));
    put(32, &|q| (q.flat[1], q.flat[2]) = (38.0, f32::NAN));
    put(32, &|q| (q.flat[62], q.model.terms) = (1_048_577.0, 5));
    put(32, &|q| q.flat[63] = f32::NAN);
    put(32, &|q| q.palette[17] = f32::INFINITY);
    put(32, &|q| (q.model.terms, q.model.affine[0][0]) = (5, 1e30));
    put(32, &|q| q.model.side = 20.5);
    put(32, &|q| q.model.residual_rms = f32::INFINITY);
    put(32, &|q| q.model.affine[1][1] = 1e30);
    put(32, &|q| q.model.affine[2] = [f64::MAX; 4]);
    // Corrected colours at and beyond 1,048,576; with under 8 references none is corrected.
    put(32, &|q| q.model.affine[1] = [0.0, 0.0, 0.0, 1_048_576.0]);
    put(32, &|q| q.model.affine[1] = [0.0, 0.0, 0.0, 1_048_576.1]);
    put(32, &|q| (q.n, q.model.affine[1][1]) = (7, 1e30));
    put(32, &|q| (q.n, q.flat[3]) = (7, 2e6));
    put(32, &|q| (q.n, q.flat[59]) = (7, 2e6));
    put(32, &|q| q.model.side = 1024.0);
}

fn one(out: &mut List, rng: &mut Rng) {
    let k = rng.pick(&[1, 2, 4]);
    let n = rng.between(6, 20) as usize;
    let palette = make::palette(k, rng.single(20.0, 40.0), rng.single(60.0, 85.0), rng.single(15.0, 60.0), 1.0);
    let channel = Channel::new(rng, 21);
    let mut flat = make::references(rng, n, 21, k, &palette, &channel);
    if rng.chance(4) {
        let at = rng.below(flat.len());
        flat[at] = rng.float32();
    }
    let terms = rng.pick(&[4, 9]);
    let model = match rng.below(4) {
        0 => dark(21, rng.real(-0.1, 0.1), rng.real(-0.2, 0.2)),
        1 => identity(21).unwrap(),
        _ => model(rng, terms, 21),
    };
    put_measure(out, &Measuring { n, flat, side: 21, model, palette, k }, 4 * n);
}
