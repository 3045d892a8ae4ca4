//! References as records: `fit` and `measure` over a slice of them, which answer as over the same floats.
use super::illum::{beyond_bounds, put_fit, put_whole_fit, with_outliers};
use super::measure::{counted, put_measure};
use super::{Kind, illum, measure};
use crate::rng::Rng;
use crate::words::List;

pub const KIND: Kind = Kind {
    name: "records",
    seed: 12,
    random: 4,
    header: "
        Those of the lists of `illum` and `measure` with eight references in 64 floats, and others of up to 64 references.
        MODEL is: terms side rms rejected kept width, then f64: affine 3 x 4, gain 3 x width, flare 3 x width (see illum)
        STATS is: l0 l1 sigma_l sigma_ab level0 level1 (f32), samples (a count)
        fit |flat| n side version len fill = no MODEL zeros     f32, eight a reference (x, y, observed, nominal), n
            references, all of them there; the scratch has `len` elements, each `fill` before; after the call its first
            `zeros` are +0 and the rest `fill`; refused 2, 5, 6, 7, 8, 11 (11 too has zeroed the scratch)
        measure |flat| n side MODEL |palette| hues len fill = no STATS held zeros     the same; refused 2, 3, 5, 6, 7, 8, 10, 12
    ",
    structured,
    one,
};

/// The records of a list that have eight references in 64 floats.
fn eights(out: &mut List, kind: &Kind, name: &str) {
    let body = String::from_utf8(kind.body().0).expect("ASCII");
    for line in body.lines() {
        let words: Vec<&str> = line.split(' ').collect();
        if words[0] == name && words[1] == "40" && words[66] == "8" {
            out.records += 1;
            out.put(line);
        }
    }
}

fn structured(out: &mut List) {
    eights(out, &illum::KIND, "fit");
    eights(out, &measure::KIND, "measure");
    let rng = &mut Rng::new(120);
    fits(out, rng);
    measures(out, rng);
}

/// Of none to 64 references, some of them rejected; 5, 7, 8 and 11 by the last of them.
fn fits(out: &mut List, rng: &mut Rng) {
    for (n, outliers, version) in
        [(0, 0, 1), (7, 1, 1), (9, 2, 1), (12, 3, 10), (24, 2, 9), (54, 9, 10), (64, 6, 10), (64, 20, 1)]
    {
        put_whole_fit(out, &with_outliers(rng, n, outliers), 21, version);
    }
    let good = with_outliers(rng, 24, 0);
    put_fit(out, &good, 24, 21, 1, 95);
    for (at, value) in [(185, -17.0), (191, f32::INFINITY), (191, 3e38)] {
        let mut flat = good.clone();
        flat[at] = value;
        put_whole_fit(out, &flat, 21, 1);
    }
}

/// Of 9 to 64 references; 5, 7, 8 and 12 by the last of them.
fn measures(out: &mut List, rng: &mut Rng) {
    for (k, dark, light, grey) in [(2, 4, 5, 0), (4, 12, 12, 0), (4, 20, 20, 14), (8, 30, 30, 4), (16, 32, 32, 0)] {
        let q = counted(rng, k, dark, light, grey);
        put_measure(out, &q, 4 * q.n + 1);
    }
    let good = counted(rng, 2, 12, 12, 0);
    put_measure(out, &good, 95);
    for (at, value) in [(185, -17.0), (191, 2e6)] {
        let mut q = good.clone();
        q.flat[at] = value;
        put_measure(out, &q, 96);
    }
    let (mut q, (model, place, colour)) = (good, beyond_bounds().swap_remove(3));
    q.flat.chunks_mut(8).for_each(|r| r[..2].fill(5.0));
    q.flat[184..186].copy_from_slice(&place);
    q.flat[186..189].copy_from_slice(&colour);
    q.model = model;
    put_measure(out, &q, 96);
}

fn one(out: &mut List, rng: &mut Rng) {
    let n = rng.below(65);
    if rng.chance(2) {
        let (outliers, version) = (rng.below(n / 3 + 1), rng.pick(&[1, 10]));
        put_whole_fit(out, &with_outliers(rng, n, outliers), 21, version);
    } else {
        let (k, dark) = (rng.pick(&[1, 2, 4]), rng.below(n + 1));
        let q = counted(rng, k, dark, n - dark, 0);
        put_measure(out, &q, 4 * n);
    }
}
