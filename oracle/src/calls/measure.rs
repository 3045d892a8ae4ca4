//! demod.rs: measuring the channel's noise.
use super::color::palette;
use super::illum::*;
use super::stats::{ChannelStats, bad_palette, short_palette};
use crate::refusals::*;

/// Everything that `measure` takes but its scratch.
#[derive(Clone)]
pub struct Measuring {
    pub flat: Vec<f32>,
    pub n: usize,
    pub side: usize,
    pub model: Model,
    pub palette: Vec<f32>,
    pub k: usize,
}

/// The noise record, and how many references have a mark: under 8 none is corrected.
pub fn measure(q: &Measuring, scratch: &mut [f32]) -> Result<(ChannelStats, usize), u32> {
    let colours = reference_colours(&q.flat, q.n);
    first(&[
        (2, bad_side(q.side)),
        (3, bad_hues(q.k)),
        (5, short(q.flat.len(), q.n, 8) || short(scratch.len(), q.n, 4) || short_palette(&q.palette, q.k)),
        (6, many_references(q.n)),
        (7, misplaced_references(&q.flat, q.n, q.side)),
        (8, unbounded(&colours) || bad_palette(&q.palette, q.k)),
        (10, q.model.bad()),
    ])?;
    let (references, model) = (references(&q.flat, q.n), q.model.rust());
    let late = q.n >= 8 && references.iter().any(|r| unbounded_colour(model.correct(r.x, r.y, r.observed)));
    first(&[(12, late)])?;
    scratch[..4 * q.n].fill(0.0);
    let corrected = if q.n >= 8 { &references[..] } else { &[] };
    let held = corrected.iter().filter(|r| any_held(&q.model, r.x, r.y)).count();
    Ok((lcr_decode::demod::measure(&references, &model, &palette(&q.palette, q.k)), held))
}
