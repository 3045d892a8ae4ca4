//! The identity model, correction and the fit.
use super::Kind;
use crate::calls::illum::*;
use crate::card::make::{self, Channel};
use crate::rng::{Rng, special32};
use crate::words::{List, Record};
use lcr_decode::illum::shim::{basis, deshade};

pub const KIND: Kind = Kind {
    name: "illum",
    seed: 5,
    random: 12,
    header: "
        MODEL is: terms side rms rejected kept width, then f64: affine 3 x 4, gain 3 x width, flare 3 x width. side and
            rms are f32, the others counts. width is 4 or 9; of the nine coefficients of a gain or flare those from
            width on are +0. Coefficients from `terms` on are no numbers of the model; those that come out are +0.
        identity side = no MODEL     refused 2
        correct MODEL count (x y r g b).. = (no r g b mark mark mark)..     f32; `count` calls with one model; a mark a
            channel; refused 8, 10
        fit |flat| n side version len fill = no MODEL zeros     f32, eight a reference (x, y, observed, nominal), n
            references; the scratch has `len` elements, each `fill` before; after the call its first `zeros` are +0
            and the rest `fill`; refused 2, 5, 6, 7, 8, 11 (11 too has zeroed the scratch)
        basis terms side x y = values     side, x, y f32; as many f64 as terms, 4 or 9
        deshade MODEL x y r g b = d d d     f32; the three channels' inverses as f64, at the position's basis
    ",
    structured,
    one,
};

/// A model as words.
pub fn put_model(record: Record, m: &Model) -> Record {
    let beyond_four = m.gain.iter().chain(&m.flare).any(|v| v[4..].iter().any(|c| c.to_bits() != 0));
    let width = if m.terms == 9 || beyond_four { 9 } else { 4 };
    let surfaces = m.gain.iter().chain(&m.flare).flat_map(|v| v[..width].iter().copied());
    let record = record.w(m.terms).w(m.side).w(m.residual_rms).w(m.rejected).w(m.kept).w(width);
    record.all(m.affine.into_iter().flatten()).all(surfaces)
}

/// How many elements at the head of a lent slice are +0, the rest being as before.
pub fn zeros(scratch: &[f32], fill: f32) -> usize {
    let count = scratch.iter().take_while(|v| v.to_bits() == 0).count();
    assert!(scratch[count..].iter().all(|v| v.to_bits() == fill.to_bits()));
    count
}

fn put_identity(out: &mut List, side: usize) {
    let record = Record::new("identity").w(side).is();
    match identity(side) {
        Ok(model) => put_model(record.w(0u8), &model).end(out),
        Err(number) => record.w(number).end(out),
    }
}

fn put_correct(out: &mut List, model: &Model, samples: &[[f32; 5]]) {
    let record = put_model(Record::new("correct"), model).w(samples.len());
    let mut record = record.all(samples.iter().flatten().copied()).is();
    for &[x, y, r, g, b] in samples {
        record = match correct(model, x, y, [r, g, b]) {
            Ok((colour, marks)) => record.w(0u8).all(colour).all(marks),
            Err(number) => record.w(number),
        };
    }
    record.end(out);
}

pub fn put_fit(out: &mut List, flat: &[f32], n: usize, side: usize, version: u8, len: usize) {
    let fill = 7.5f32;
    let record = Record::new("fit").slice(flat).w(n).w(side).w(version).w(len).w(fill).is();
    let mut scratch = vec![fill; len];
    let result = fit(flat, n, side, version, &mut scratch);
    let record = match &result {
        Ok(model) => put_model(record.w(0u8), model),
        Err(number) => record.w(*number),
    };
    record.w(zeros(&scratch, fill)).end(out);
}

/// A fit of all references with as much scratch as it needs, and one element more.
pub fn put_whole_fit(out: &mut List, flat: &[f32], side: usize, version: u8) {
    put_fit(out, flat, flat.len() / 8, side, version, flat.len() / 2 + 1);
}

/// References of a random channel.
fn seen(rng: &mut Rng, n: usize, side: usize) -> Vec<f32> {
    let k = rng.pick(&[1, 2, 4]);
    let palette = make::palette(k, 30.0, 75.0, 50.0, 0.0);
    let channel = Channel::new(rng, side);
    make::references(rng, n, side, k, &palette, &channel)
}

fn structured(out: &mut List) {
    for side in [0, 1, 21, 1024, 1025, usize::MAX] {
        put_identity(out, side);
    }
    let rng = &mut Rng::new(50);
    for (version, counts) in [(9, &[0, 7, 8, 9, 11, 12, 23, 24][..]), (10, &[0, 7, 8, 9, 12, 24, 53, 54])] {
        for &n in counts {
            put_whole_fit(out, &seen(rng, n, 21), 21, version);
        }
    }
    put_whole_fit(out, &seen(rng, 200, 33), 33, 10);
    rejections(out, rng);
    degenerate(out, rng);
    refused(out, rng);
    corrections(out, rng);
    surfaces(out);
    second_pass(out);
    bad_numbers(out);
    marks(out);
}

/// The same gain all over the card, in one channel or in all: either zero, next to 0.05 and there; and positions that
/// are no numbers, or so far away that a gradient is. A mark does not depend on the colour.
fn marks(out: &mut List) {
    let under = f64::from_bits(0.05f64.to_bits() - 1);
    let few = [[0.0, 0.0, 1.0, 1.0, 1.0], [7.5, 20.5, 0.0, -0.0, 0.5]];
    for gain in [0.0, -0.0, under, 0.05, -under, -0.05] {
        for channel in 0..3 {
            let mut m = identity(21).unwrap();
            m.gain[channel][0] = gain;
            put_correct(out, &m, &few);
        }
    }
    let everywhere = [f32::NAN, f32::INFINITY, f32::NEG_INFINITY, 1e38, -1e38, 10.5].map(|x| [x, 10.5, 1.0, 1.0, 1.0]);
    for (terms, slopes) in [(4, [0.0; 3]), (4, [0.01, 0.0, -0.01]), (9, [0.04, -0.04, 0.05])] {
        let mut m = identity(21).unwrap();
        m.terms = terms;
        for c in 0..3 {
            (m.gain[c][0], m.gain[c][1]) = (0.01, slopes[c]);
        }
        put_correct(out, &m, &everywhere);
        let across: Vec<[f32; 5]> = (0..21).map(|x| [x as f32 + 0.5, 3.5, 0.25, 0.5, 0.75]).collect();
        put_correct(out, &m, &across);
    }
}

/// The gain c0 + c1 u in every channel, which is held over a part of the card.
pub fn dark(side: usize, c0: f64, c1: f64) -> Model {
    let mut m = identity(side).unwrap();
    for gain in &mut m.gain {
        (gain[0], gain[1]) = (c0, c1);
    }
    m
}

/// Two private functions of the Rust, through the shims, which the port has in the open.
fn put_surface(out: &mut List, rng: &mut Rng, [x, y, r, g, b]: [f32; 5]) {
    let (terms, side) = (rng.pick(&[4, 9]), rng.pick(&[1, 21, 1024]));
    let mut m = model(rng, terms, side);
    if rng.chance(3) {
        m.gain[1] = [0.0; 9];
        m.gain[1][0] = rng.pick(&[0.0, 0.04, -0.04, -1.0]);
    }
    let values = basis(&m.rust(), x, y, terms);
    Record::new("basis").w(terms).w(m.side).w(x).w(y).is().all(values.iter().copied()).end(out);
    let inverse = deshade(&m.rust(), &values, linear(&[r, g, b]));
    put_model(Record::new("deshade"), &m).all([x, y, r, g, b]).is().all(inverse).end(out);
}

fn surfaces(out: &mut List) {
    for v in [f32::NAN, f32::INFINITY, f32::NEG_INFINITY, -0.0, f32::MAX] {
        put_surface(out, &mut Rng::new(3), [v, 1.0, 0.25, 0.5, 0.75]);
    }
    let rng = &mut Rng::new(51);
    for _ in 0..20 {
        let sample = std::array::from_fn(|i| rng.single(0.0, if i < 2 { 30.0 } else { 1.0 }));
        put_surface(out, rng, sample);
    }
}

/// References without noise under a mild gradient, the first `outliers` of them far off.
pub fn with_outliers(rng: &mut Rng, n: usize, outliers: usize) -> Vec<f32> {
    let mut flat = Vec::new();
    for i in 0..n {
        let (x, y) = (rng.single(0.0, 21.0), rng.single(0.0, 21.0));
        let nominal: [f32; 3] = std::array::from_fn(|_| rng.single(0.05, 0.9));
        let shade = 0.7 + x / 60.0 + if i < outliers { 0.9 } else { 0.001 * rng.unit() as f32 };
        flat.extend([x, y]);
        flat.extend(nominal.map(|v| v * shade));
        flat.extend(nominal);
    }
    flat
}

fn rejections(out: &mut List, rng: &mut Rng) {
    for (n, outliers) in [(8, 1), (9, 1), (9, 2), (10, 2), (11, 1), (11, 3), (12, 3), (12, 4)] {
        put_whole_fit(out, &with_outliers(rng, n, outliers), 21, 1);
    }
    put_whole_fit(out, &with_outliers(rng, 12, 4), 21, 200);
}

fn repeated(n: usize, one: [f32; 8]) -> Vec<f32> {
    one.repeat(n)
}

/// Equal references, zero and negative gains, huge colours, a second pass without a solution.
fn degenerate(out: &mut List, rng: &mut Rng) {
    for value in [0.0, 0.5, 1e4, 1e6] {
        put_whole_fit(out, &repeated(8, [3.0, 4.0, value, value, value, value, value, value]), 21, 1);
    }
    for factor in [0.0, -0.0, -1.0, 0.04, 2e6, 1e10, 1e18, 1e19, 3e38] {
        let mut flat = with_outliers(rng, 9, 0);
        flat.chunks_mut(8).for_each(|r| r[2..5].iter_mut().for_each(|v| *v *= factor));
        put_whole_fit(out, &flat, 21, 1);
    }
    // Contradictions: every residual is finite, but not the sum of their squares.
    for size in [5e18, 1e19, 2e19, 3e38] {
        let flat: Vec<f32> = (0..9)
            .flat_map(|i| [3.0, i as f32, 0.1, 0.2, 0.3, size, if i % 2 == 0 { size } else { -size }, size])
            .collect();
        put_whole_fit(out, &flat, 21, 1);
    }
    for size in [2e6, 1e19, 3e38] {
        let mut flat = with_outliers(rng, 8, 0);
        flat[3] = size;
        flat[6] = -size;
        put_whole_fit(out, &flat, 21, 10);
    }
    // Nine equal references and three that contradict each other: the three are rejected, the nine alone have
    // no affine solution.
    let mut flat = repeated(9, [3.0, 4.0, 1e4, 1e4, 1e4, 1e4, 1e4, 1e4]);
    for (i, nominal) in [0.0f32, 5e3, 2e4].into_iter().enumerate() {
        flat.extend([1.0 + i as f32, 9.0, 10.0, 20.0, 30.0, nominal, 2.0 * nominal, nominal]);
    }
    put_whole_fit(out, &flat, 21, 1);
}

/// Pass one is finite and pass two is not: two nominal colours are huge, and pass one's residuals still have squares.
/// With 4 terms and with 9: the residual of a rejected reference alone, the root mean square alone, a live residual.
fn second_pass(out: &mut List) {
    for (seed, n, version) in [(0, 9, 1), (9, 9, 10), (389, 9, 1), (103, 9, 10), (676, 10, 1), (676, 10, 10)] {
        let rng = &mut Rng::new(seed);
        let mut flat = with_outliers(rng, n, 0);
        for reference in flat.chunks_mut(8).take(2) {
            reference[5..].fill_with(|| (rng.normal() * 1e19) as f32);
        }
        put_whole_fit(out, &flat, 21, version);
    }
}

fn refused(out: &mut List, rng: &mut Rng) {
    let good = with_outliers(rng, 8, 0);
    for (n, side, len) in [
        (8, 0, 32),
        (8, 1025, 0),
        (8, 21, 31),
        (9, 21, 36),
        (1 << 61, 21, 40),
        (usize::MAX, 21, 40),
        (7, 21, 28),
        (8, 1, 32),
    ] {
        put_fit(out, &good, n, side, 1, len);
    }
    let longer = [&good[..], &[f32::NAN; 9]].concat();
    put_fit(out, &longer, 8, 21, 1, 34);
    let after = |v: f32| f32::from_bits(v.to_bits() + 1);
    for (at, value) in [
        (0, -16.0),
        (0, after(-16.0)),
        (9, 37.0),
        (9, after(37.0)),
        (57, f32::NAN),
        (1, f32::INFINITY),
        (1, f32::NEG_INFINITY),
    ] {
        let mut flat = good.clone();
        flat[at] = value;
        put_whole_fit(out, &flat, 21, 1);
    }
    for (at, value) in [(2, f32::NAN), (7, f32::INFINITY), (60, f32::NEG_INFINITY)] {
        let mut flat = good.clone();
        flat[at] = value;
        put_whole_fit(out, &flat, 21, 1);
        flat[57] = -17.0;
        put_whole_fit(out, &flat, 21, 1);
    }
    // Fewer than 8 references are checked all the same.
    put_whole_fit(out, &[1.0, 1.0, f32::NAN, 0.0, 0.0, 0.0, 0.0, 0.0], 21, 1);
    put_whole_fit(out, &[1.0, 38.0, 0.0, 0.0, 0.0, 0.0, 0.0, 0.0], 21, 1);
}

/// A model near the identity with surfaces of its own.
pub fn model(rng: &mut Rng, terms: usize, side: usize) -> Model {
    let mut m = identity(side).unwrap();
    m.terms = terms;
    m.kept = 12;
    m.residual_rms = rng.single(0.0, 0.01);
    for c in 0..3 {
        for (i, v) in m.affine[c].iter_mut().enumerate() {
            *v = if i == c { rng.real(0.8, 1.2) } else { rng.real(-0.05, 0.05) };
        }
        for i in 0..terms.min(9) {
            m.gain[c][i] = if i == 0 { rng.real(0.7, 1.3) } else { rng.real(-0.1, 0.1) };
            m.flare[c][i] = rng.real(-0.02, 0.05);
        }
    }
    m
}

fn corrections(out: &mut List, rng: &mut Rng) {
    let mut plain: Vec<[f32; 5]> = (0..10)
        .map(|_| std::array::from_fn(|i| if i < 2 { rng.single(-6.0, 30.0) } else { rng.single(-0.2, 1.5) }))
        .collect();
    for v in [f32::NAN, f32::INFINITY, f32::NEG_INFINITY, f32::MAX, -0.0, f32::from_bits(1)] {
        plain.push([v, 3.0, 0.25, 0.5, 0.75]);
        plain.push([3.0, v, -0.0, 0.5, 0.75]);
    }
    for v in special32().into_iter().step_by(3).chain([1_048_576.0, -1_048_576.0, 1_048_576.1]) {
        plain.push([3.0, 4.0, v, 0.5, 0.75]);
    }
    put_correct(out, &identity(21).unwrap(), &plain);
    put_correct(out, &model(rng, 4, 21), &plain);
    put_correct(out, &model(rng, 9, 40), &plain);
    // Held, zero and negative gains: the gain at the middle of the card is the first coefficient.
    let few = [[10.5, 10.5, 0.25, 0.5, 0.75], [0.0, 0.0, 0.25, 0.5, 0.75]];
    let below = f64::from_bits(0.05f64.to_bits() - 1);
    for gains in [[0.05, below, 0.0], [-0.05, -below, -0.0], [1e-300, -1e-300, -1.0], [f64::MAX, 1e-3, -1e300]] {
        let mut m = model(rng, 4, 21);
        for c in 0..3 {
            m.gain[c] = [0.0; 9];
            m.gain[c][0] = gains[c];
        }
        put_correct(out, &m, &few);
    }
    bad_models(out, rng, &few);
}

fn bad_models(out: &mut List, rng: &mut Rng, samples: &[[f32; 5]]) {
    let base = model(rng, 4, 21);
    let mut put = |change: &dyn Fn(&mut Model)| {
        let mut m = base.clone();
        change(&mut m);
        put_correct(out, &m, samples);
    };
    for terms in [0, 3, 5, 10, usize::MAX] {
        put(&|m| m.terms = terms);
    }
    for side in [0.0, -0.0, 0.5, 1.0, 20.5, 1024.0, 1025.0, -3.0, f32::NAN, f32::INFINITY] {
        put(&|m| m.side = side);
    }
    put(&|m| m.residual_rms = f32::NAN);
    put(&|m| m.affine[2][3] = f64::INFINITY);
    put(&|m| m.gain[1][3] = f64::NAN);
    put(&|m| m.flare[0][0] = f64::NEG_INFINITY);
    // No numbers of a model with four terms.
    put(&|m| m.gain[1][4] = f64::NAN);
    put(&|m| m.flare[2][8] = f64::INFINITY);
    put(&|m| (m.rejected, m.kept) = (u32::MAX, u32::MAX));
    let mut nine = model(rng, 9, 21);
    nine.flare[2][8] = f64::NAN;
    put_correct(out, &nine, &[samples[0], [f32::NAN, 0.0, 2e6, 0.0, 0.0]]);
}

/// Each part of a model, of 4 terms and of 9, with one number that is not finite. An infinite gain makes a channel's
/// inverse 0, so that the corrected colour is finite and does not show it.
fn bad_numbers(out: &mut List) {
    const INF: f64 = f64::INFINITY;
    let rng = &mut Rng::new(52);
    for (terms, places, values, gains) in [
        (4, [0, 1, 3], [INF, -INF, f64::NAN], [INF, -INF, INF]),
        (9, [8, 4, 0], [f64::NAN, INF, -INF], [-INF, INF, -INF]),
    ] {
        let base = model(rng, terms, 21);
        let mut put = |change: &dyn Fn(&mut Model)| {
            let mut m = base.clone();
            change(&mut m);
            put_correct(out, &m, &[[15.0, 17.0, 0.25, 0.5, 0.75]]);
        };
        for c in 0..3 {
            put(&|m| m.affine[c][c] = values[c]);
            put(&|m| m.gain[c][places[c]] = gains[c]);
            put(&|m| m.flare[c][places[c]] = values[c]);
        }
        put(&|m| m.gain[0][terms - 1] = f64::NAN);
        put(&|m| m.residual_rms = gains[0] as f32);
    }
}

/// A model, a position and a colour that it corrects beyond 1,048,576.
pub type Beyond = (Model, [f32; 2], [f32; 3]);

/// The model of nine terms that takes colours farthest from 0 where u and v have this sign: all affine numbers alike,
/// all flare coefficients alike in magnitude, and gains of 0, which are held.
fn farthest(side: usize, sign: i32, affine: f64, flare: f64) -> Model {
    let mut m = identity(side).unwrap();
    m.terms = 9;
    m.affine = [[affine; 4]; 3];
    m.gain = [[0.0; 9]; 3];
    let signs = [1, sign, sign, 1, 1, 1, sign, sign, 1];
    m.flare = [signs.map(|s| -flare * s as f64); 3];
    m
}

/// Corrections beyond 1,048,576, each with one thing outside the bounds within which there are none: a model's numbers
/// from -8 to 8, a position from -side to 2 x side, a colour from -256 to 256. All else is at its bound or near. In
/// order: an affine row of 12, flares of 13, gains whose surface is no number, colours of 1,000 and of -1,000, and a
/// position to the right, below, to the left and above.
pub fn beyond_bounds() -> Vec<Beyond> {
    let (corner, full) = ([19.5; 2], [256.0; 3]);
    let inside = farthest(10, 1, 8.0, 8.0);
    let (mut affine, mut gains) = (inside.clone(), inside.clone());
    affine.affine[1] = [12.0; 4];
    gains.gain[2] = [0.0, f64::MAX, -f64::MAX, 0.0, 0.0, 0.0, 0.0, 0.0, 0.0];
    let mut cases = vec![
        (affine, corner, full),
        (farthest(10, 1, 8.0, 13.0), corner, full),
        (gains, corner, full),
        (inside, corner, [1000.0; 3]),
        (farthest(10, 1, 8.0, -8.0), corner, [-1000.0; 3]),
    ];
    let (right, left) = (farthest(2, 1, 8.0, 8.0), farthest(2, -1, 8.0, 8.0));
    for (model, far, near) in [(right, 5.5, 3.5), (left, -3.5, -1.5)] {
        cases.push((model.clone(), [far, near], full));
        cases.push((model, [near, far], full));
    }
    cases
}

fn one(out: &mut List, rng: &mut Rng) {
    match rng.below(4) {
        0 => {
            let n = rng.between(8, 16) as usize;
            let version = rng.pick(&[1, 10]);
            put_whole_fit(out, &seen(rng, n, 21), 21, version);
        }
        1 => {
            let n = rng.between(8, 13) as usize;
            let outliers = rng.below(5);
            let mut flat = with_outliers(rng, n, outliers);
            if rng.chance(2) {
                let at = rng.below(flat.len());
                flat[at] = rng.float32();
            }
            let version = rng.pick(&[1, 10]);
            put_whole_fit(out, &flat, 21, version);
        }
        _ => {
            let side = rng.between(1, 1024) as usize;
            let terms = rng.pick(&[4, 9]);
            let mut m = model(rng, terms, side);
            if rng.chance(2) {
                let (c, i) = (rng.below(3), rng.below(terms));
                m.gain[c][i] = rng.float64();
                m.flare[c][i] = rng.normal();
            }
            if rng.chance(4) {
                m.gain.iter_mut().flatten().for_each(|v| *v *= 0.05);
            }
            let samples: Vec<[f32; 5]> = (0..6)
                .map(|_| {
                    std::array::from_fn(|i| {
                        if i < 2 {
                            rng.single(-16.0, side as f64 + 16.0)
                        } else if rng.chance(6) {
                            rng.float32()
                        } else {
                            rng.single(0.0, 1.0)
                        }
                    })
                })
                .collect();
            put_correct(out, &m, &samples);
        }
    }
}
