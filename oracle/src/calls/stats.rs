//! demod.rs: the noise record and its methods; the margin check is document 01's.
use super::color::palette;
use crate::refusals::*;
use lcr_core::color::Lab;
pub use lcr_decode::demod::ChannelStats;

/// The noise figures, without `samples`.
fn figures(s: &ChannelStats) -> [f32; 6] {
    [s.l0, s.l1, s.sigma_l, s.sigma_ab, s.sigma_ab_level[0], s.sigma_ab_level[1]]
}

/// 8 for a noise record.
pub fn bad_figures(s: &ChannelStats) -> bool {
    bad_noise_figures(&figures(s))
}

/// 9 for a noise record.
pub fn bad_record(s: &ChannelStats) -> bool {
    bad_sigmas(s.sigma_l, s.sigma_ab, s.sigma_ab_level)
}

/// 5 for a palette: two levels, two numbers a hue, six a hue for its two colours.
pub fn short_palette(flat: &[f32], k: usize) -> bool {
    (flat.len() as u128) < 2 + 8 * k as u128
}

/// 8 for a palette.
pub fn bad_palette(flat: &[f32], k: usize) -> bool {
    unbounded(&flat[..flat.len().min(k.saturating_mul(8).saturating_add(2))])
}

fn record(s: &ChannelStats) -> Result<(), u32> {
    first(&[(8, bad_figures(s)), (9, bad_record(s))])
}

fn record_and_palette(s: &ChannelStats, flat: &[f32], k: usize, lengths: bool) -> Result<(), u32> {
    first(&[
        (3, bad_hues(k)),
        (5, short_palette(flat, k) || lengths),
        (8, bad_figures(s) || bad_palette(flat, k)),
        (9, bad_record(s)),
    ])
}

pub fn nominal(flat: &[f32], k: usize) -> Result<ChannelStats, u32> {
    first(&[(3, bad_hues(k)), (5, short_palette(flat, k)), (8, bad_palette(flat, k))])?;
    Ok(ChannelStats::nominal(&palette(flat, k)))
}

pub fn sigma_ab_at(s: &ChannelStats, l: f32) -> Result<f32, u32> {
    record(s)?;
    Ok(s.sigma_ab_at(l))
}

pub fn luma_llr(s: &ChannelStats, l: f32) -> Result<f32, u32> {
    record(s)?;
    Ok(s.luma_llr(l))
}

pub fn reliability(s: &ChannelStats, sample: Lab, flat: &[f32], k: usize) -> Result<f32, u32> {
    record_and_palette(s, flat, k, false)?;
    Ok(s.reliability(sample, &palette(flat, k)))
}

pub fn hue_log_likelihoods(s: &ChannelStats, sample: Lab, flat: &[f32], k: usize, out: &mut [f32]) -> Result<(), u32> {
    record_and_palette(s, flat, k, out.len() < k)?;
    let mut likelihoods = Vec::new();
    s.hue_log_likelihoods(sample, &palette(flat, k), &mut likelihoods);
    out[..k].copy_from_slice(&likelihoods);
    Ok(())
}

/// Document 01's margin check: yes exactly when every sentence holds, in f32.
pub fn margin(s: &ChannelStats, flat: &[f32], k: usize) -> Result<bool, u32> {
    margin_at(13.0, s, flat, k)
}

/// The same with another number for its 13.
pub fn margin_at(least: f32, s: &ChannelStats, flat: &[f32], k: usize) -> Result<bool, u32> {
    record_and_palette(s, flat, k, false)?;
    let palette = palette(flat, k);
    let levels =
        s.l0 < s.l1 && s.l0.abs() <= 256.0 && s.l1.abs() <= 256.0 && palette.lab.iter().all(|c| c.l.abs() <= 256.0);
    let sigmas = figures(s)[2..].iter().all(|&v| v <= 1000.0);
    let half = s.sigma_l / 2.0;
    let dark = palette.lab[..k].iter().all(|c| s.luma_llr(c.l + half) >= least);
    let light = palette.lab[k..].iter().all(|c| s.luma_llr(c.l - half) <= -least);
    let hues = k == 1
        || palette.lab.iter().enumerate().all(|(i, c)| {
            let sigma = s.sigma_ab_at(c.l);
            palette.hue_ab.iter().enumerate().all(|(h, [a, b])| {
                let (da, db) = ((c.a - a).abs(), (c.b - b).abs());
                if h == i % k { da <= sigma && db <= sigma } else { da > 4.0 * sigma || db > 4.0 * sigma }
            })
        });
    Ok(levels && sigmas && dark && light && hues)
}
