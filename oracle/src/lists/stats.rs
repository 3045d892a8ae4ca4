//! The noise record's methods and the margin check.
use super::Kind;
use crate::calls::color::Lab;
use crate::calls::stats::*;
use crate::card::make;
use crate::rng::{Rng, special32};
use crate::words::{List, Record};

pub const KIND: Kind = Kind {
    name: "stats",
    seed: 6,
    random: 130,
    header: "
        STATS is: l0 l1 sigma_l sigma_ab level0 level1 (f32), samples (a count)
        PALETTE is a slice of f32: two levels, a and b per hue, Lab per colour (dark by hue, then light)
        nominal PALETTE hues = no STATS     refused 3, 5, 8
        sigma_ab_at STATS count l.. = no r..     f32; `count` calls with one record, which all refuse or none; 8, 9
        luma_llr STATS count l.. = no r..     the same
        reliability STATS PALETTE hues count (l a b).. = no r..     `count` calls; refused 3, 5, 8, 9
        hue_log_likelihoods STATS PALETTE hues l a b |out| = no |out|'     refused 3, 5, 8, 9
        margin STATS PALETTE hues = no yes     refused 3, 5, 8, 9
        margin_at STATS PALETTE hues nine = no yes     the same with 9 for 13 where nine is 1
    ",
    structured,
    one,
};

/// A noise record as words.
pub fn put_stats(record: Record, s: &ChannelStats) -> Record {
    record.w(s.l0).w(s.l1).w(s.sigma_l).w(s.sigma_ab).all(s.sigma_ab_level).w(s.samples)
}

pub fn stats(l0: f32, l1: f32, sigma_l: f32, sigma_ab: f32, sigma_ab_level: [f32; 2]) -> ChannelStats {
    ChannelStats { l0, l1, sigma_l, sigma_ab, sigma_ab_level, samples: 12 }
}

fn put_nominal(out: &mut List, palette: &[f32], k: usize) {
    let record = Record::new("nominal").slice(palette).w(k).is();
    match nominal(palette, k) {
        Ok(s) => put_stats(record.w(0u8), &s).end(out),
        Err(number) => record.w(number).end(out),
    }
}

fn put_at(out: &mut List, s: &ChannelStats, ls: &[f32]) {
    let sigmas: Result<Vec<f32>, u32> = ls.iter().map(|&l| sigma_ab_at(s, l)).collect();
    put_stats(Record::new("sigma_ab_at"), s).slice(ls).answer(sigmas).end(out);
    let llrs: Result<Vec<f32>, u32> = ls.iter().map(|&l| luma_llr(s, l)).collect();
    put_stats(Record::new("luma_llr"), s).slice(ls).answer(llrs).end(out);
}

fn lab(c: [f32; 3]) -> Lab {
    Lab::new(c[0], c[1], c[2])
}

fn put_reliability(out: &mut List, s: &ChannelStats, palette: &[f32], k: usize, samples: &[[f32; 3]]) {
    let record = put_stats(Record::new("reliability"), s).slice(palette).w(k);
    let weights: Result<Vec<f32>, u32> = samples.iter().map(|&c| reliability(s, lab(c), palette, k)).collect();
    record.w(samples.len()).all(samples.iter().flatten().copied()).answer(weights).end(out);
}

fn put_likelihoods(out: &mut List, s: &ChannelStats, palette: &[f32], k: usize, sample: [f32; 3], before: &[f32]) {
    let record = put_stats(Record::new("hue_log_likelihoods"), s).slice(palette).w(k).all(sample).slice(before);
    let mut after = before.to_vec();
    let result = hue_log_likelihoods(s, lab(sample), palette, k, &mut after);
    record.is().w(result.err().unwrap_or(0)).slice(&after).end(out);
}

fn put_margin(out: &mut List, s: &ChannelStats, palette: &[f32], k: usize) {
    let record = put_stats(Record::new("margin"), s).slice(palette).w(k);
    record.answer(margin(s, palette, k).map(|yes| [yes])).end(out);
}

/// The check at its second setting, and at the first by the same call.
fn put_settings(out: &mut List, s: &ChannelStats, palette: &[f32], k: usize) {
    for (nine, least) in [(1u8, 9.0), (0, 13.0)] {
        let record = put_stats(Record::new("margin_at"), s).slice(palette).w(k).w(nine);
        record.answer(margin_at(least, s, palette, k).map(|yes| [yes])).end(out);
    }
}

fn structured(out: &mut List) {
    let worked = stats(0.0, 100.0, 6.0, 6.0, [2.0, 4.0]);
    let luma = stats(20.0, 80.0, 6.0, 6.0, [0.0; 2]);
    let ls = [
        50.0,
        44.0,
        20.0,
        0.0,
        -0.0,
        100.0,
        120.0,
        -20.0,
        80.0,
        f32::NAN,
        f32::INFINITY,
        f32::NEG_INFINITY,
        f32::MAX,
        1e-40,
    ];
    for s in [worked, luma] {
        put_at(out, &s, &ls);
        put_at(out, &s, &special32());
    }
    let low = 0.75f32;
    let under = f32::from_bits(low.to_bits() - 1);
    let most = 1_099_511_627_776.0f32;
    let over = f32::from_bits(most.to_bits() + 1);
    for levels in [
        [0.0, 0.0],
        [-0.0, 2.0],
        [2.0, -0.0],
        [low, low],
        [under, 1.0],
        [1.0, under],
        [-1.0, 1.0],
        [most, low],
        [low, most],
        [over, 1.0],
        [f32::NAN, 1.0],
    ] {
        put_at(out, &stats(0.0, 100.0, 6.0, 6.0, levels), &ls[..8]);
    }
    for (l0, l1) in [
        (50.0, 50.0),
        (50.0, 50.001),
        (50.0, 50.0005),
        (80.0, 20.0),
        (most, -most),
        (-most, most),
        (over, 0.0),
        (0.0, f32::NAN),
        (f32::INFINITY, 0.0),
    ] {
        put_at(out, &stats(l0, l1, 6.0, 6.0, [2.0, 4.0]), &ls[..10]);
    }
    for (sl, sab) in
        [(low, low), (under, 1.0), (1.0, under), (-1.0, 1.0), (most, most), (over, under), (f32::NAN, 0.0), (0.0, 0.0)]
    {
        put_at(out, &stats(20.0, 80.0, sl, sab, [0.0; 2]), &ls[..6]);
    }
    palettes(out);
    margins(out);
}

/// Methods over a palette: its own colours, far ones, NaN; refusals of the palette and of lengths.
fn palettes(out: &mut List) {
    for k in [1, 2, 4, 8, 16] {
        let palette = make::palette(k, 30.0, 75.0, 50.0, 1.0);
        let last = palette.len() - 3;
        let own = [palette[last], palette[last + 1], palette[last + 2]];
        let samples = [
            own,
            [30.0, 0.0, 0.0],
            [52.5, 3.0, -4.0],
            [1e6, 0.0, 0.0],
            [f32::NAN, 0.0, 0.0],
            [0.0, f32::INFINITY, 0.0],
            [1e30; 3],
        ];
        for s in [stats(30.0, 75.0, 3.0, 4.0, [0.0; 2]), stats(31.0, 74.0, 0.75, 0.75, [5.0, 1.5])] {
            put_reliability(out, &s, &palette, k, &samples);
            put_likelihoods(out, &s, &palette, k, own, &vec![9.0; k]);
            put_likelihoods(out, &s, &palette, k, samples[2], &vec![9.0; k + 1]);
        }
        put_likelihoods(out, &stats(30.0, 75.0, 3.0, 4.0, [0.0; 2]), &palette, k, samples[4], &vec![9.0; k]);
        put_nominal(out, &palette, k);
    }
    let good = stats(30.0, 75.0, 3.0, 4.0, [0.0; 2]);
    // The interpolated sigma is 0 here, so that likelihoods are NaN or infinite.
    let vanishing = stats(0.0, 1.0, 3.0, 4.0, [1_099_511_627_776.0, 0.75]);
    let palette = make::palette(2, 30.0, 75.0, 50.0, 0.0);
    put_at(out, &vanishing, &[1.0, 0.5, 0.0]);
    put_reliability(out, &vanishing, &palette, 2, &[[75.0, 50.0, 0.0], [75.0, -50.0, 1.0]]);
    put_likelihoods(out, &vanishing, &palette, 2, [75.0, 50.0, 0.0], &[9.0; 2]);
    let bad_record = stats(30.0, 75.0, 0.5, 4.0, [0.0; 2]);
    let mut bad = palette.clone();
    for (value, at) in [(f32::NAN, 0), (1_048_577.0, 3), (f32::NEG_INFINITY, 17), (1_048_576.0, 17), (-1_048_577.0, 17)]
    {
        bad[at] = value;
        put_nominal(out, &bad, 2);
        put_reliability(out, &bad_record, &bad, 2, &[[50.0, 0.0, 0.0]]);
        put_likelihoods(out, &bad_record, &bad, 2, [50.0, 0.0, 0.0], &[9.0; 2]);
        bad[at] = palette[at];
    }
    for (k, cut, room) in [
        (0, 18, 2),
        (3, 18, 2),
        (usize::MAX, 18, 2),
        (2, 17, 2),
        (2, 18, 1),
        (1, 18, 0),
        (1, 18, 1),
        (4, 18, 4),
        (2, 18, 3),
    ] {
        put_nominal(out, &palette[..cut], k);
        put_reliability(out, &bad_record, &palette[..cut], k, &[[50.0, 0.0, 0.0]]);
        put_reliability(out, &good, &palette[..cut], k, &[[50.0, 0.0, 0.0]]);
        put_likelihoods(out, &bad_record, &palette[..cut], k, [50.0, 0.0, 0.0], &vec![9.0; room]);
        put_likelihoods(out, &good, &palette[..cut], k, [50.0, 0.0, 0.0], &vec![9.0; room]);
    }
}

/// The margin check, yes and just no: each of its sentences at its border.
fn margins(out: &mut List) {
    for k in [1, 2, 4, 8, 16] {
        let palette = make::palette(k, 20.0, 80.0, 60.0, 0.0);
        for sigma in [0.75, 2.0, 3.0, 6.0] {
            put_margin(out, &stats(20.0, 80.0, sigma, sigma, [0.0; 2]), &palette, k);
        }
        put_margin(out, &stats(20.0, 80.0, 3.0, 3.0, [1.0, 1.25]), &palette, k);
    }
    let palette = make::palette(2, 20.0, 80.0, 60.0, 0.0);
    for (l0, l1, sigma_l, sigma_ab, levels) in [
        (20.0, 20.0, 1.0, 1.0, [0.0, 0.0]),
        (80.0, 20.0, 1.0, 1.0, [0.0, 0.0]),
        (-256.0, 256.0, 4.0, 1.0, [0.0, 0.0]),
        (-256.1, 256.0, 4.0, 1.0, [0.0, 0.0]),
        (20.0, 256.1, 4.0, 1.0, [0.0, 0.0]),
        (20.0, 80.0, 1000.0, 1.0, [0.0, 0.0]),
        (20.0, 80.0, 1.0, 1000.0, [1.0, 1.0]),
        (20.0, 80.0, 1.0, 1000.1, [1.0, 1.0]),
        (20.0, 80.0, 1.0, 1.0, [1000.1, 0.0]),
        (20.0, 80.0, 1.0, 1.0, [0.0, 1000.0]),
        (20.0, 80.0, 0.5, 1.0, [0.0, 0.0]),
        (f32::NAN, 80.0, 1.0, 1.0, [0.0, 0.0]),
    ] {
        put_margin(out, &stats(l0, l1, sigma_l, sigma_ab, levels), &palette, 2);
    }
    let clean = stats(20.0, 80.0, 3.0, 3.0, [0.0; 2]);
    for (at, value) in [
        (6, 256.0),
        (6, -256.0),
        (6, -256.1),
        (7, 63.0),
        (7, 63.1),
        (7, 56.9),
        (8, 3.1),
        (8, -3.0),
        (4, 48.0),
        (4, 47.9),
        (6, f32::NAN),
        (0, 1e5),
    ] {
        let mut changed = palette.clone();
        changed[at] = value;
        put_margin(out, &clean, &changed, 2);
    }
    for l in [26.0, 27.0, 27.5, 28.0, 30.0] {
        let mut changed = make::palette(1, 20.0, 80.0, 0.0, 0.0);
        changed[4] = l;
        put_margin(out, &stats(20.0, 80.0, 9.0, 3.0, [0.0; 2]), &changed, 1);
        changed[7] = 100.0 - l;
        put_margin(out, &stats(20.0, 80.0, 9.0, 3.0, [0.0; 2]), &changed, 1);
    }
    put_margin(out, &clean, &palette, 3);
    put_margin(out, &clean, &palette[..17], 2);
    settings(out);
}

/// The margin check at 9 and at 13: exactly 9, 13 and 8, just below 9, the largest sigmas at the widest levels, a hue
/// point exactly four sigmas away; refusals.
fn settings(out: &mut List) {
    let level = |l0: f32, l1: f32, sigma: f32, dark: f32| {
        let mut palette = make::palette(1, l0, l1, 0.0, 0.0);
        (palette[4], palette[7]) = (dark, -dark);
        (stats(l0, l1, sigma, 3.0, [0.0; 2]), palette)
    };
    let under = f32::from_bits(2f32.to_bits() - 1);
    for (l0, dark) in [(-18.0, -2.0), (-18.0, -under), (-26.0, -2.0), (-16.0, -2.0)] {
        let (s, palette) = level(l0, -l0, 2.0, dark);
        put_settings(out, &s, &palette, 1);
    }
    for sigma in [91.0, 91.1, 107.0, 108.0] {
        let (s, palette) = level(-256.0, 256.0, sigma, -256.0);
        put_settings(out, &s, &palette, 1);
    }
    let near = stats(20.0, 50.0, 6.0, 3.0, [0.0; 2]);
    for distance in [12.0, 12.1] {
        let mut palette = make::palette(2, 20.0, 50.0, 6.0, 0.0);
        for at in [2, 7, 13] {
            palette[at] = distance - 6.0;
        }
        put_settings(out, &near, &palette, 2);
    }
    let palette = make::palette(2, 20.0, 50.0, 60.0, 0.0);
    put_settings(out, &near, &palette, 2);
    put_settings(out, &near, &palette, 3);
    put_settings(out, &near, &palette[..17], 2);
    put_settings(out, &stats(f32::NAN, 50.0, 0.5, 3.0, [0.0; 2]), &palette, 2);
    put_settings(out, &stats(20.0, 50.0, 0.5, 3.0, [0.0; 2]), &palette, 2);
}

/// A record of ordinary size, or with a wild number in it.
pub fn any_stats(rng: &mut Rng) -> ChannelStats {
    let level = |rng: &mut Rng| if rng.chance(2) { 0.0 } else { rng.single(0.75, 12.0) };
    let mut s = stats(
        rng.single(10.0, 40.0),
        rng.single(50.0, 90.0),
        rng.single(0.75, 9.0),
        rng.single(0.75, 9.0),
        [level(rng), level(rng)],
    );
    if rng.chance(8) {
        let v = rng.float32();
        match rng.below(5) {
            0 => s.l0 = v,
            1 => s.l1 = v,
            2 => s.sigma_l = v,
            3 => s.sigma_ab = v,
            _ => s.sigma_ab_level[rng.below(2)] = v,
        }
    }
    s
}

fn one(out: &mut List, rng: &mut Rng) {
    let s = any_stats(rng);
    let k = rng.pick(&[1, 2, 4]);
    let (chroma, spread) = (rng.single(20.0, 70.0), rng.pick(&[0.0, 1.0, 4.0]));
    let palette = make::palette(k, s.l0, s.l1, chroma, spread);
    let mut sample = || -> [f32; 3] {
        if rng.chance(6) {
            std::array::from_fn(|_| rng.float32())
        } else {
            [rng.single(0.0, 100.0), rng.single(-80.0, 80.0), rng.single(-80.0, 80.0)]
        }
    };
    let samples = [sample(), sample(), sample()];
    match rng.below(4) {
        0 => put_at(out, &s, &[samples[0][0], samples[1][0], rng.float32()]),
        1 => put_reliability(out, &s, &palette, k, &samples),
        2 => put_likelihoods(out, &s, &palette, k, samples[0], &vec![9.0; k]),
        _ => {
            put_margin(out, &s, &palette, k);
            put_settings(out, &s, &palette, k);
        }
    }
}
