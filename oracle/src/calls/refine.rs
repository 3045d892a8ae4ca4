//! demod.rs: refinement, which is `demodulate`'s last call, `add_local_luma`.
use super::color::palette;
use super::illum::linear;
use super::modulate::bad_modules;
use super::stats::*;
use crate::refusals::*;
use lcr_decode::demod::add_local_luma;

/// Everything that refinement takes but the scores and its scratch.
#[derive(Clone)]
pub struct Refining {
    pub side: usize,
    pub k: usize,
    pub xs: Vec<i32>,
    pub ys: Vec<i32>,
    pub grid: usize,
    pub colours: Vec<f32>,
    pub palette: Vec<f32>,
    pub stats: ChannelStats,
}

pub fn refine(q: &Refining, luma: &mut [f32], scratch: &mut [f32]) -> Result<(), u32> {
    let m = q.xs.len();
    let [pairs, counts, places] = bad_modules(q.side, &q.xs, &q.ys, q.grid);
    let lengths = short(q.colours.len(), m, 3)
        || luma.len() < m
        || short_palette(&q.palette, q.k)
        || short(scratch.len(), q.side.saturating_add(12), q.side.saturating_add(12));
    let values = unbounded(&q.colours[..q.colours.len().min(3 * m)]) || unbounded(&luma[..luma.len().min(m)]);
    first(&[
        (2, bad_side(q.side)),
        (3, bad_hues(q.k)),
        (5, pairs || lengths),
        (6, counts),
        (7, places),
        (8, values || bad_palette(&q.palette, q.k) || bad_figures(&q.stats)),
        (9, bad_record(&q.stats)),
    ])?;
    scratch[..(q.side + 12) * (q.side + 12)].fill(0.0);
    let at: Vec<_> = (0..m).map(|i| (q.xs[i], q.ys[i], linear(&q.colours[3 * i..]))).collect();
    add_local_luma(&mut luma[..m], &at, q.side as u16, &palette(&q.palette, q.k), &q.stats, q.k > 1);
    Ok(())
}
