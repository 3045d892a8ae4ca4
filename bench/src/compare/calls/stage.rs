//! The model, the noise record, scoring and refinement.
use super::Record;
use crate::lent::{Element, Lent};
use crate::library::*;

pub fn replay(t: &mut Record) -> bool {
    match t.name {
        "identity" => {
            let r = unsafe { purdolve_identity(t.inputs.count()) };
            let same = modelled(t, r);
            t.add(r.number, same)
        }
        "correct" => correct(t),
        "fit" => fit(t),
        "kept" => kept(t),
        "nearest" | "within" | "cut_off" => near(t),
        "nominal" => {
            let palette = Lent::new(t.inputs.singles());
            let r = unsafe { purdolve_nominal(palette.ptr(), palette.len(), t.inputs.count()) };
            let same = noise(t, r) && palette.untouched();
            t.add(r.number, same)
        }
        "sigma_ab_at" => figures(t, |noise, l| unsafe { purdolve_sigma_ab_at(noise, l) }),
        "luma_llr" => figures(t, |noise, l| unsafe { purdolve_luma_llr(noise, l) }),
        "reliability" => reliability(t),
        "hue_log_likelihoods" => hue_log_likelihoods(t),
        "colour_counts" => colour_counts(t),
        "margin" => margin(t),
        "margin_at" => margin_at(t),
        "measure" => measure(t),
        "score" => score(t),
        "refine" => refine(t),
        "whole" => read_bits(t),
        _ => return false,
    }
    true
}

fn same_model(a: &Model, b: &Model) -> bool {
    let numbers = |m: &Model| -> Vec<f64> {
        m.affine.iter().flatten().chain(m.gain.iter().flatten()).chain(m.flare.iter().flatten()).copied().collect()
    };
    let (p, q) = (numbers(a), numbers(b));
    let floats =
        p.iter().zip(&q).all(|(x, y)| x.same(*y)) && a.side.same(b.side) && a.residual_rms.same(b.residual_rms);
    floats && (a.terms, a.rejected, a.kept) == (b.terms, b.rejected, b.kept)
}

const NO_MODEL: Model = Model {
    affine: [[0.0; 4]; 3],
    gain: [[0.0; 9]; 3],
    flare: [[0.0; 9]; 3],
    terms: 0,
    side: 0.0,
    residual_rms: 0.0,
    rejected: 0,
    kept: 0,
};

/// The number and the model, which is all zeros beside a refusal.
fn modelled(t: &mut Record, r: Modelled) -> bool {
    if r.number as u64 != t.answer.word() {
        return false;
    }
    let want = if r.number == 0 { t.answer.model() } else { NO_MODEL };
    same_model(&r.model, &want)
}

/// The number and the noise record, which is all zeros beside a refusal.
fn noise(t: &mut Record, r: NoiseAnswer) -> bool {
    if r.number as u64 != t.answer.word() {
        return false;
    }
    if r.number != 0 {
        return floats(&r.noise).iter().all(|v| v.bits() == 0) && r.noise.samples == 0;
    }
    same_noise(&r.noise, &t.answer.stats())
}

fn floats(s: &Stats) -> [f32; 6] {
    [s.l0, s.l1, s.sigma_l, s.sigma_ab, s.sigma_ab_dark, s.sigma_ab_light]
}

fn same_noise(a: &Stats, b: &Stats) -> bool {
    floats(a).iter().zip(floats(b)).all(|(v, w)| v.same(w)) && a.samples == b.samples
}

/// The number and the float, which is zero beside a refusal.
fn figure(t: &mut Record, r: FloatAnswer, number: u32) -> bool {
    let same = r.number == number && if number == 0 { r.value.same(t.answer.single()) } else { r.value.bits() == 0 };
    t.add(r.number, same);
    same
}

fn correct(t: &mut Record) {
    let (model, count) = (t.inputs.model(), t.inputs.count());
    for _ in 0..count {
        let (x, y, c) = (t.inputs.single(), t.inputs.single(), t.inputs.linear());
        let r = model.correct(x, y, c);
        let mut same = r.number as u64 == t.answer.word();
        for v in [r.colour.r, r.colour.g, r.colour.b] {
            same &= if r.number == 0 && same { v.same(t.answer.single()) } else { v.bits() == 0 };
        }
        for mark in r.held {
            same &= if r.number == 0 && same { mark as u64 == t.answer.word() } else { !mark };
        }
        t.add(r.number, same);
    }
}

/// The references of a record, as many as it says. The flat form takes their number from the length: where a record's slice
/// is shorter than that, ours ends within a reference.
fn references(t: &mut Record) -> Lent<f32> {
    let (mut flat, n) = (t.inputs.singles(), t.inputs.count());
    if n <= flat.len() / 8 {
        flat.truncate(8 * n);
    } else if flat.len() % 8 == 0 {
        flat.push(0.0);
    }
    Lent::new(flat)
}

/// The same floats as records, eight each, where the last is whole: the record forms must answer as the flat ones.
fn records(flat: &Lent<f32>) -> Option<*const Reference> {
    (flat.len() % 8 == 0).then(|| flat.ptr().cast())
}

/// A scratch of `len` elements, each `fill`.
fn scratch(t: &mut Record) -> Lent<f32> {
    let len = t.inputs.count();
    Lent::new(vec![t.inputs.single(); len])
}

fn fit(t: &mut Record) {
    let flat = references(t);
    let (side, version) = (t.inputs.count(), t.inputs.byte());
    let mut work = scratch(t);
    let mut marks = Lent::new(vec![9u8; flat.len() / 8]);
    let (kept, len) = (marks.ptr_mut(), marks.len());
    let r = unsafe { purdolve_fit_flat(flat.ptr(), flat.len(), side, version, kept, len, work.ptr_mut(), work.len()) };
    let mut same = modelled(t, r) && flat.untouched() && (r.number == 0 || marks.untouched());
    if r.number != 0 && r.number != 11 {
        same &= work.untouched();
    }
    same = same && work.zeroed(t.answer.count());
    t.add(r.number, same);
    if let Some(refs) = records(&flat) {
        let (mut other, mut again) = (work.again(), marks.again());
        let (kept, n) = (again.ptr_mut(), flat.len() / 8);
        let q = unsafe { purdolve_fit(refs, n, side, version, kept, len, other.ptr_mut(), other.len()) };
        let alike = q.number == r.number && same_model(&q.model, &r.model);
        t.add(q.number, alike && other.left(&work) && again.left(&marks) && flat.untouched());
    }
}

/// Which references a fit kept, in marks of any length.
fn kept(t: &mut Record) {
    let flat = Lent::new(t.inputs.singles());
    let (side, version, len) = (t.inputs.count(), t.inputs.byte(), t.inputs.count());
    let mut marks = Lent::new(vec![t.inputs.byte(); len]);
    let mut work = Lent::new(vec![0.0; flat.len() / 2]);
    let (kept, w) = (marks.ptr_mut(), work.len());
    let r = unsafe { purdolve_fit_flat(flat.ptr(), flat.len(), side, version, kept, len, work.ptr_mut(), w) };
    let mut same = r.number as u64 == t.answer.word() && flat.untouched();
    if same && r.number == 0 {
        same = r.model.rejected as u64 == t.answer.word() && r.model.kept as u64 == t.answer.word();
    }
    same = same && marks.is(&t.answer.bytes(), len) && (r.number == 0 || marks.untouched());
    t.add(r.number, same);
}

/// The references near a module, by each of the three queries.
fn near(t: &mut Record) {
    let (xy, kept) = (Lent::new(t.inputs.singles()), Lent::new(t.inputs.bytes()));
    let (side, x, y) = (t.inputs.count(), t.inputs.word() as i32, t.inputs.word() as i32);
    let asked = if t.name == "nearest" { 0 } else { t.inputs.word() as u32 };
    let len = t.inputs.count();
    let mut room = Lent::new(vec![t.inputs.word() as u32; len]);
    let (p, n, k, m, o) = (xy.ptr(), xy.len(), kept.ptr(), kept.len(), room.ptr_mut());
    let r = match t.name {
        "nearest" => unsafe { purdolve_nearest(p, n, k, m, side, x, y, o, len) },
        "within" => unsafe { purdolve_within(p, n, k, m, side, x, y, f32::from_bits(asked), o, len) },
        _ => unsafe { purdolve_cut_off(p, n, k, m, side, x, y, asked as i32, o, len) },
    };
    let mut same = r.number as u64 == t.answer.word() && xy.untouched() && kept.untouched();
    if same && r.number == 0 {
        same = r.value as u64 == t.answer.word();
    }
    let want = t.answer.slice(|words| words.word() as u32);
    t.add(r.number, same && room.is(&want, len) && (r.number == 0 || room.untouched()));
}

fn figures(t: &mut Record, call: impl Fn(Stats, f32) -> FloatAnswer) {
    let (noise, count, number) = (t.inputs.stats(), t.inputs.count(), t.answer.word() as u32);
    for _ in 0..count {
        let r = call(noise, t.inputs.single());
        figure(t, r, number);
    }
}

fn reliability(t: &mut Record) {
    let (noise, palette) = (t.inputs.stats(), Lent::new(t.inputs.singles()));
    let (hues, count, number) = (t.inputs.count(), t.inputs.count(), t.answer.word() as u32);
    for _ in 0..count {
        let r = unsafe { purdolve_reliability(noise, t.inputs.lab(), palette.ptr(), palette.len(), hues) };
        assert!(palette.untouched());
        figure(t, r, number);
    }
}

fn hue_log_likelihoods(t: &mut Record) {
    let (noise, palette) = (t.inputs.stats(), Lent::new(t.inputs.singles()));
    let (hues, sample) = (t.inputs.count(), t.inputs.lab());
    let mut out = Lent::new(t.inputs.singles());
    let r = unsafe {
        purdolve_hue_log_likelihoods(noise, sample, palette.ptr(), palette.len(), hues, out.ptr_mut(), out.len())
    };
    let mut same = r as u64 == t.answer.word() && palette.untouched();
    if r != 0 {
        same &= out.untouched();
    }
    same &= out.is(&t.answer.singles(), hues);
    t.add(r, same);
}

fn colour_counts(t: &mut Record) {
    let (noise, palette) = (t.inputs.stats(), Lent::new(t.inputs.singles()));
    let (hues, length) = (t.inputs.count(), t.inputs.count());
    let mut out = Lent::new(vec![7u32; length]);
    let r = unsafe { purdolve_colour_counts(noise, palette.ptr(), palette.len(), hues, out.ptr_mut(), out.len()) };
    let mut same = r as u64 == t.answer.word() && palette.untouched();
    if r != 0 {
        same &= out.untouched();
    }
    same &= out.is(&t.answer.slice(|w| w.word() as u32), hues.saturating_mul(2).saturating_add(1));
    t.add(r, same);
}

fn margin(t: &mut Record) {
    let (noise, palette) = (t.inputs.stats(), Lent::new(t.inputs.singles()));
    let r = unsafe { purdolve_margin(noise, palette.ptr(), palette.len(), t.inputs.count()) };
    t.flag(r);
}

fn margin_at(t: &mut Record) {
    let (noise, palette) = (t.inputs.stats(), Lent::new(t.inputs.singles()));
    let (hues, nine) = (t.inputs.count(), t.inputs.flag());
    let r = unsafe { purdolve_margin_at(nine, noise, palette.ptr(), palette.len(), hues) };
    t.flag(r);
}

fn measure(t: &mut Record) {
    let flat = references(t);
    let (side, model) = (t.inputs.count(), t.inputs.model());
    let (palette, hues) = (Lent::new(t.inputs.singles()), t.inputs.count());
    let mut work = scratch(t);
    let r = unsafe {
        purdolve_measure_flat(
            flat.ptr(),
            flat.len(),
            side,
            model,
            palette.ptr(),
            palette.len(),
            hues,
            work.ptr_mut(),
            work.len(),
        )
    };
    let mut same = noise(t, NoiseAnswer { number: r.number, noise: r.noise });
    same = same && counts(t, r.number, [r.held]) && flat.untouched() && palette.untouched();
    if r.number != 0 {
        same &= work.untouched();
    }
    same = same && work.zeroed(t.answer.count());
    t.add(r.number, same);
    if let Some(refs) = records(&flat) {
        let mut other = work.again();
        let (n, p, w) = (flat.len() / 8, palette.ptr(), other.len());
        let q = unsafe { purdolve_measure(refs, n, side, model, p, palette.len(), hues, other.ptr_mut(), w) };
        let alike = (q.number, q.held) == (r.number, r.held) && same_noise(&q.noise, &r.noise);
        t.add(q.number, alike && other.left(&work) && flat.untouched() && palette.untouched());
    }
}

/// How many colours have a mark: in the record where the call is accepted, and zeros where it is refused.
fn counts<const N: usize>(t: &mut Record, number: u32, held: [usize; N]) -> bool {
    held.into_iter().all(|n| n as u64 == if number == 0 { t.answer.word() } else { 0 })
}

fn score(t: &mut Record) {
    let i = &mut t.inputs;
    let (side, hues, size) = (i.count(), i.count(), i.count());
    let (xs, ys, grid) = (Lent::new(i.places()), Lent::new(i.places()), i.count());
    let raw = Lent::new(i.singles());
    let (cxs, cys) = (Lent::new(i.shorts()), Lent::new(i.shorts()));
    let (craw, palette) = (Lent::new(i.singles()), Lent::new(i.singles()));
    let (model, noise) = (i.model(), i.stats());
    let lengths = [i.count(), i.count(), i.count()];
    let fill = i.single();
    let [mut luma, mut colours, mut chroma] = lengths.map(|n| Lent::new(vec![fill; n]));
    let r = unsafe {
        purdolve_score(
            side,
            hues,
            size,
            xs.ptr(),
            xs.len(),
            ys.ptr(),
            ys.len(),
            grid,
            raw.ptr(),
            raw.len(),
            cxs.ptr(),
            cxs.len(),
            cys.ptr(),
            cys.len(),
            craw.ptr(),
            craw.len(),
            palette.ptr(),
            palette.len(),
            model,
            noise,
            luma.ptr_mut(),
            luma.len(),
            colours.ptr_mut(),
            colours.len(),
            chroma.ptr_mut(),
            chroma.len(),
        )
    };
    let mut same = r.number as u64 == t.answer.word() && counts(t, r.number, r.held);
    same &= xs.untouched() && ys.untouched() && raw.untouched();
    same &= cxs.untouched() && cys.untouched() && craw.untouched() && palette.untouched();
    if r.number != 0 {
        same &= luma.untouched() && colours.untouched() && chroma.untouched();
    }
    if same {
        same &= luma.is(&t.answer.singles(), xs.len()) && colours.is(&t.answer.singles(), 3 * xs.len());
        same &= chroma.is(&t.answer.singles(), chroma.len());
    }
    t.add(r.number, same);
}

fn refine(t: &mut Record) {
    let i = &mut t.inputs;
    let (side, hues) = (i.count(), i.count());
    let (xs, ys, grid) = (Lent::new(i.places()), Lent::new(i.places()), i.count());
    let (colours, palette, noise) = (Lent::new(i.singles()), Lent::new(i.singles()), i.stats());
    let mut luma = Lent::new(i.singles());
    let mut work = scratch(t);
    let r = unsafe {
        purdolve_add_local_luma(
            luma.ptr_mut(),
            luma.len(),
            side,
            hues,
            xs.ptr(),
            xs.len(),
            ys.ptr(),
            ys.len(),
            grid,
            colours.ptr(),
            colours.len(),
            palette.ptr(),
            palette.len(),
            noise,
            work.ptr_mut(),
            work.len(),
        )
    };
    let mut same = r as u64 == t.answer.word() && xs.untouched() && ys.untouched();
    same &= colours.untouched() && palette.untouched();
    if r != 0 {
        same &= luma.untouched() && work.untouched();
    }
    same &= luma.is(&t.answer.singles(), xs.len());
    same = same && work.zeroed(t.answer.count());
    t.add(r, same);
}

/// A whole card in one call, beside the Rust's `demodulate` in one piece, its luma scores unmasked, and the bits of both lists.
fn read_bits(t: &mut Record) {
    t.name = "read_bits";
    let i = &mut t.inputs;
    let (side, hues, size, mask) = (i.count(), i.count(), i.count(), i.byte());
    let (xs, ys, grid) = (Lent::new(i.places()), Lent::new(i.places()), i.count());
    let raw = Lent::new(i.singles());
    let (cxs, cys) = (Lent::new(i.shorts()), Lent::new(i.shorts()));
    let (craw, palette) = (Lent::new(i.singles()), Lent::new(i.singles()));
    let (model, noise, places) = (i.model(), i.stats(), i.count());
    let (modules, square) = (xs.len(), (side + 12) * (side + 12));
    let [mut luma, mut colours, mut chroma, mut work] =
        [modules, 3 * modules, places, square].map(|n| Lent::new(vec![3.5f32; n]));
    let [mut bits, mut symbols] = [modules, places].map(|n| Lent::new(vec![7u8; n]));
    let r = unsafe {
        purdolve_read_bits(
            side,
            hues,
            size,
            xs.ptr(),
            xs.len(),
            ys.ptr(),
            ys.len(),
            grid,
            raw.ptr(),
            raw.len(),
            cxs.ptr(),
            cxs.len(),
            cys.ptr(),
            cys.len(),
            craw.ptr(),
            craw.len(),
            palette.ptr(),
            palette.len(),
            mask,
            model,
            noise,
            luma.ptr_mut(),
            luma.len(),
            colours.ptr_mut(),
            colours.len(),
            chroma.ptr_mut(),
            chroma.len(),
            work.ptr_mut(),
            work.len(),
            bits.ptr_mut(),
            bits.len(),
            symbols.ptr_mut(),
            symbols.len(),
        )
    };
    let mut same = r.number as u64 == t.answer.word() && counts(t, r.number, r.held);
    same &= xs.untouched() && ys.untouched() && raw.untouched();
    same &= cxs.untouched() && cys.untouched() && craw.untouched() && palette.untouched();
    if r.number != 0 {
        // Where all is lent that the calls need, only scoring refuses.
        same &= luma.untouched() && colours.untouched() && chroma.untouched() && work.untouched();
        same &= bits.untouched() && symbols.untouched();
    } else if same {
        let mut unmasked = t.answer.singles();
        same = oracle::calls::modulate::unmask_luma(&mut unmasked, side, xs.now(), ys.now(), grid, mask).is_ok();
        same &= luma.is(&unmasked, modules) && colours.is(&t.answer.singles(), 3 * modules);
        same &= chroma.is(&t.answer.singles(), places) && work.zeroed(square);
        same &= bits.is(&t.answer.bytes(), modules) && symbols.is(&t.answer.bytes(), places);
    }
    t.add(r.number, same);
}
