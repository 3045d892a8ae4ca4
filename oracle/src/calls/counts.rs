//! Document 02's colour counts, written from its words over the Rust's conversions, unit model and noise record. The Rust
//! has no such call.
use super::color::{Lab, Srgb8, linear_to_lab, palette, srgb8_to_linear};
use super::stats::*;
use crate::refusals::*;
use lcr_decode::illum::IlluminationModel;
use std::cmp::Ordering;
use std::sync::OnceLock;

/// The 32,768 colours whose three bytes are multiples of 8, as scoring takes a sample, under the unit model.
fn samples() -> &'static [Lab] {
    static SAMPLES: OnceLock<Vec<Lab>> = OnceLock::new();
    SAMPLES.get_or_init(|| {
        let (model, bytes) = (IlluminationModel::identity(1), || (0..=248u8).step_by(8));
        let all = bytes().flat_map(|r| bytes().flat_map(move |g| bytes().map(move |b| Srgb8::new(r, g, b))));
        all.map(|c| linear_to_lab(model.correct(0.5, 0.5, srgb8_to_linear(c)))).collect()
    })
}

/// The highest likelihood's hue, the lowest on equality, a NaN ranking below every other.
fn highest(likelihoods: &[f32]) -> usize {
    let compare = |a: f32, b: f32| match (a.is_nan(), b.is_nan()) {
        (false, false) => a.partial_cmp(&b).expect("numbers"),
        (a, b) => b.cmp(&a),
    };
    let beaten = |h: usize| likelihoods.iter().any(|&v| compare(v, likelihoods[h]) == Ordering::Greater);
    (0..likelihoods.len()).find(|&h| !beaten(h)).expect("hues")
}

/// A class a level and hue, and the last. With chroma off there is one hue.
pub fn classes(k: usize) -> usize {
    2 * k + 1
}

pub fn colour_counts(s: &ChannelStats, flat: &[f32], k: usize, out: &mut [u32]) -> Result<(), u32> {
    first(&[
        (3, bad_hues(k)),
        (5, short_palette(flat, k) || out.len() < classes(k)),
        (8, bad_figures(s) || bad_palette(flat, k)),
        (9, bad_record(s)),
    ])?;
    let (palette, mut likelihoods) = (palette(flat, k), Vec::new());
    out[..classes(k)].fill(0);
    for &sample in samples() {
        let score = s.luma_llr(sample.l);
        s.hue_log_likelihoods(sample, &palette, &mut likelihoods);
        let class = if score > 0.0 {
            highest(&likelihoods)
        } else if score < 0.0 {
            k + highest(&likelihoods)
        } else {
            2 * k
        };
        out[class] += 1;
    }
    Ok(())
}
