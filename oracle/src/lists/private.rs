//! Private functions of the Rust, through the shims, which the port has no public form of: nothing replays them.
use super::Kind;
use super::illum::{put_model, with_outliers};
use crate::calls::illum::{Model, identity, references};
use crate::rng::{Rng, special32};
use crate::words::{List, Record};
use lcr_core::color::shim::{lab_f, lab_f_inv};
use lcr_decode::demod::shim::local_fit;
use lcr_decode::illum::shim::fit_once;
use lcr_decode::math::shim::select;

pub const KIND: Kind = Kind {
    name: "private",
    seed: 10,
    random: 70,
    header: "
        MODEL is: terms side rms rejected kept width, then f64: affine 3 x 4, gain 3 x width, flare 3 x width (see illum)
        select |v| k = r |v|'     f32; k is below the length
        lab_f t = r, lab_f_inv t = r     f32
        fit_once |flat| |active| version = found MODEL     f32, eight a reference; active 0 or 1 for each; one pass over the
            active ones on a card of side 21, the model's counts and rms 0; found 0: none, and no values
        local_fit count (dx dy y).. y0 gap = found amount base step     f32; found 0: none, and no values
    ",
    structured,
    one,
};

fn put_select(out: &mut List, v: &[f32], k: usize) {
    let record = Record::new("select").slice(v).w(k);
    let mut v = v.to_vec();
    let r = select(&mut v, k);
    record.is().w(r).slice(&v).end(out);
}

fn put_lab(out: &mut List, t: f32) {
    Record::new("lab_f").w(t).is().w(lab_f(t)).end(out);
    Record::new("lab_f_inv").w(t).is().w(lab_f_inv(t)).end(out);
}

fn put_fit_once(out: &mut List, rng: &mut Rng, n: usize, live: usize, terms: usize) {
    let flat = with_outliers(rng, n, 0);
    let active: Vec<bool> = (0..n).map(|i| i < live).collect();
    let mut start = identity(21).unwrap();
    start.terms = terms;
    let record = Record::new("fit_once").slice(&flat).slice(&active).w(if terms == 4 { 9 } else { 10 }).is();
    match fit_once(&start.rust(), &references(&flat, n), &active) {
        Some(model) => put_model(record.w(1u8), &Model::of(&model)).end(out),
        None => record.w(0u8).end(out),
    }
}

fn put_local_fit(out: &mut List, near: &[(f32, f32, f32)], y0: f32, gap: f32) {
    let record =
        Record::new("local_fit").w(near.len()).all(near.iter().flat_map(|n| [n.0, n.1, n.2])).w(y0).w(gap).is();
    match local_fit(near, y0, gap) {
        Some((amount, base, step)) => record.w(1u8).w(amount).w(base).w(step).end(out),
        None => record.w(0u8).end(out),
    }
}

/// The window's offsets in its order, so many of them, with a value for each.
fn near(count: usize, value: impl FnMut(usize) -> f32) -> Vec<(f32, f32, f32)> {
    let values: Vec<f32> = (0..count).map(value).collect();
    (0..count).map(|i| ((i % 7) as f32 - 3.0, (i / 7) as f32 - 3.0, values[i])).collect()
}

fn structured(out: &mut List) {
    for t in special32() {
        put_lab(out, t);
    }
    for n in 1..=5 {
        for k in 0..n {
            put_select(out, &(0..n).map(|i| [2.0, 0.0, f32::NAN, -0.0, 2.0][i]).collect::<Vec<_>>(), k);
        }
    }
    for (n, live, terms) in [(8, 8, 4), (9, 7, 4), (9, 8, 4), (10, 9, 9), (8, 8, 9), (24, 24, 4)] {
        put_fit_once(out, &mut Rng::new(5), n, live, terms);
    }
    for count in [1, 12, 49] {
        put_local_fit(out, &near(count, |_| 0.25), 0.25, 0.4);
        put_local_fit(out, &near(count, |i| if i % 3 == 0 { 0.5 } else { 0.125 }), 0.3, 0.4);
        put_local_fit(out, &near(count, |i| if i % 3 == 0 { 0.5 } else { 0.125 }), 0.125, -0.4);
        put_local_fit(out, &near(count, |i| [0.125, 0.25, 0.375][i * 5 % 3]), 0.25, 0.0);
        put_local_fit(out, &near(count, |i| i as f32 * 1e-30), 0.0, 1e-38);
        put_local_fit(out, &near(count, |i| -(i as f32)), 0.0, 0.4);
    }
}

fn one(out: &mut List, rng: &mut Rng) {
    match rng.below(3) {
        0 => put_lab(out, rng.single(-0.01, 1.2)),
        1 => {
            let v: Vec<f32> =
                (0..rng.between(1, 12)).map(|_| rng.pick(&[0.0, -0.0, 1.0, 2.0, 3.0, f32::NAN])).collect();
            put_select(out, &v, rng.below(v.len()));
        }
        _ => {
            let (slope, noise, count) = (rng.real(-0.2, 0.2), rng.pick(&[0.0, 0.02, 0.2]), rng.pick(&[12, 20, 49]));
            let values =
                near(count, |i| (0.4 * rng.below(2) as f64 + slope * (i % 7) as f64 + noise * rng.normal()) as f32);
            put_local_fit(out, &values, rng.single(0.0, 1.0), rng.single(0.1, 0.6));
        }
    }
}
