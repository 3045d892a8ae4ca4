//! The noise record, scoring and refinement (`demod.rs` of the Rust).
use crate::color::{Lab, Linear};
use crate::illum::{IlluminationModel, Reference};
use crate::layout::{Layout, hue_classes, symbol_bits};
use crate::palette::Palette;
use crate::{Refusal, ffi};
use alloc::vec;
use alloc::vec::Vec;

/// Largest magnitude of a score.
pub const LLR_CLAMP: f32 = 20.0;

/// The channel's noise, measured or nominal.
#[repr(C)]
#[derive(Copy, Clone, PartialEq, Debug)]
pub struct ChannelStats {
    /// Observed L of the dark level.
    pub l0: f32,
    /// Observed L of the light level.
    pub l1: f32,
    /// Luma noise, in L.
    pub sigma_l: f32,
    /// Chroma noise of both levels, in the plane of a and b.
    pub sigma_ab: f32,
    /// Chroma noise of each level, dark then light; 0 where not measured.
    pub sigma_ab_level: [f32; 2],
    /// References that the record rests on.
    pub samples: u32,
}

/// The settings of the margin check: how far from 0 the luma score of every palette colour must lie half a sigma off.
#[derive(Copy, Clone, PartialEq, Eq, Debug)]
pub enum Threshold {
    /// 13, the margin of the read guarantee.
    Thirteen,
    /// 9, its second setting, where no refined score may be a NaN.
    Nine,
}

impl ChannelStats {
    /// The record to fall back on: the palette's levels, sigmas 6, samples 0. Refused: 3, 5, 8.
    pub fn nominal(palette: &Palette) -> Result<ChannelStats, Refusal> {
        let answer = ffi::nominal(&palette.flat(), palette.hues);
        Refusal::check(answer.number).map(|()| answer.noise)
    }

    /// Chroma noise at lightness `l`. Refused: 8, 9.
    pub fn sigma_ab_at(&self, l: f32) -> Result<f32, Refusal> {
        ffi::purdolve_sigma_ab_at(*self, l).checked()
    }

    /// Log-likelihood ratio of lightness `l`, positive for dark. Refused: 8, 9.
    ///
    /// ```
    /// # use purdolve::demod::ChannelStats;
    /// let stats = ChannelStats { l0: 20.0, l1: 80.0, sigma_l: 6.0, sigma_ab: 6.0, sigma_ab_level: [0.0; 2], samples: 0 };
    /// assert_eq!(stats.luma_llr(44.0), Ok(10.0));
    /// ```
    pub fn luma_llr(&self, l: f32) -> Result<f32, Refusal> {
        ffi::purdolve_luma_llr(*self, l).checked()
    }

    /// How much to believe a sample, from 0 to 1. Refused: 3, 5, 8, 9.
    pub fn reliability(&self, sample: Lab, palette: &Palette) -> Result<f32, Refusal> {
        ffi::reliability(*self, sample, &palette.flat(), palette.hues).checked()
    }

    /// The log-likelihood of each hue for a sample, up to a constant that all share. `out` is replaced. Refused: 3, 5, 8,
    /// 9; `out` is then as it was.
    pub fn hue_log_likelihoods(&self, sample: Lab, palette: &Palette, out: &mut Vec<f32>) -> Result<(), Refusal> {
        let mut hues = [0.0; 16];
        Refusal::check(ffi::hue_log_likelihoods(*self, sample, &palette.flat(), palette.hues, &mut hues))?;
        out.clear();
        out.extend_from_slice(&hues[..palette.hues]);
        Ok(())
    }

    /// How many of the 32,768 sRGB colours whose bytes are multiples of 8 fall to each level and hue of the palette: dark
    /// by hue, light by hue, and last those whose luma score is zero or NaN. Refused: 3, 5, 8, 9.
    pub fn colour_counts(&self, palette: &Palette) -> Result<Vec<u32>, Refusal> {
        let mut counts = vec![0; 2 * hue_classes(palette.hues) + 1];
        Refusal::check(ffi::colour_counts(*self, &palette.flat(), palette.hues, &mut counts))?;
        Ok(counts)
    }

    /// The margin check: whether, with this noise, the palette's levels and hues lie far enough apart for the read
    /// guarantee. Refused: 3, 5, 8, 9.
    pub fn margin(&self, palette: &Palette) -> Result<bool, Refusal> {
        let answer = ffi::margin(*self, &palette.flat(), palette.hues);
        Refusal::check(answer.number).map(|()| answer.yes)
    }

    /// The margin check at one of its settings; `margin` is that at 13. At 9 the read guarantee asks besides that no
    /// score is a NaN after [`add_local_luma`]. Refused: 3, 5, 8, 9.
    pub fn margin_at(&self, least: Threshold, palette: &Palette) -> Result<bool, Refusal> {
        let answer = ffi::margin_at(least == Threshold::Nine, *self, &palette.flat(), palette.hues);
        Refusal::check(answer.number).map(|()| answer.yes)
    }
}

/// Measures the noise record from references that the model corrects. Refused: 3, 5, 6, 7, 8, 10, 12.
pub fn measure(refs: &[Reference], illum: &IlluminationModel, palette: &Palette) -> Result<ChannelStats, Refusal> {
    measure_held(refs, illum, palette).map(|(stats, _)| stats)
}

/// The same, with how many of the references have a mark: a channel's gain, where they stand, was held at 0.05. With fewer
/// than 8 references none is corrected, and none has one. Refused: 3, 5, 6, 7, 8, 10, 12.
pub fn measure_held(
    refs: &[Reference],
    illum: &IlluminationModel,
    palette: &Palette,
) -> Result<(ChannelStats, usize), Refusal> {
    let mut scratch = vec![0.0; 4 * refs.len()];
    let palette_numbers = palette.flat();
    let answer = ffi::measure_flat(ffi::flat(refs), illum.side(), *illum, &palette_numbers, palette.hues, &mut scratch);
    Refusal::check(answer.number).map(|()| (answer.noise, answer.held))
}

/// How many colours of a card have a mark: a channel's gain, where they stand, was held at 0.05.
#[repr(C)]
#[derive(Copy, Clone, PartialEq, Eq, Default, Debug)]
pub struct Held {
    /// Modules; a ring module that carries chroma is one.
    pub modules: usize,
    /// Cells; none with chroma off, where they are not corrected.
    pub cells: usize,
}

/// The raw colours of a card, sampled from its picture.
#[derive(Copy, Clone, Debug)]
pub struct RawColours<'a> {
    /// One for each module: the layout's grid modules, then its ring modules.
    pub modules: &'a [Linear],
    /// One for each chroma cell.
    pub cells: &'a [Linear],
}

/// Scores of a card.
#[derive(Clone, Debug)]
pub struct Demodulation {
    /// One for each module, positive for dark.
    pub luma: Vec<f32>,
    /// log2(hues) for each cell and then, at cell size 1, for each ring module. Empty with chroma off.
    pub chroma: Vec<f32>,
    /// The noise record that they were scaled by.
    pub stats: ChannelStats,
    /// The corrected colour of each module.
    pub colours: Vec<Linear>,
    /// How many modules and cells have a mark.
    pub held: Held,
}

/// Scores a card without refining: what [`demodulate`] does before its last call. Refused: 2 to 10 and 12.
pub fn score(
    raw: RawColours,
    layout: &Layout,
    palette: &Palette,
    illum: &IlluminationModel,
    stats: &ChannelStats,
) -> Result<Demodulation, Refusal> {
    let places = layout.places();
    let mut scores = blank(layout, palette, stats);
    scores.held = ffi::score(raw, &places, &palette.flat(), palette.hues, *illum, &mut scores).checked()?;
    Ok(scores)
}

/// Room for the scores of a card.
fn blank(layout: &Layout, palette: &Palette, stats: &ChannelStats) -> Demodulation {
    let modules = layout.payload.len() + layout.ring.len();
    Demodulation {
        luma: vec![0.0; modules],
        chroma: vec![0.0; symbol_bits(palette.hues) * layout.symbols()],
        stats: *stats,
        colours: vec![Linear::default(); modules],
        held: Held::default(),
    }
}

/// Refinement's scratch. A side above 1,024 is refused before any length.
fn window(side: usize) -> Vec<f32> {
    let edge = side.min(1024) + 12;
    vec![0.0; edge * edge]
}

/// Scores a card from its raw colours and refines its luma scores. Chroma is on where the palette has more than one hue.
/// Refused: 2 to 10 and 12.
pub fn demodulate(
    raw: RawColours,
    layout: &Layout,
    palette: &Palette,
    illum: &IlluminationModel,
    stats: &ChannelStats,
) -> Result<Demodulation, Refusal> {
    let mut scores = score(raw, layout, palette, illum, stats)?;
    let places = layout.places();
    refine(&mut scores.luma, (&places.xs, &places.ys), places.side, places.grid, &scores.colours, palette, stats)?;
    Ok(scores)
}

/// Refines luma scores by what the corrected colours around each module show. `at` has the position and corrected colour of
/// the module of each score; a position is from -6 to side + 5. Refused: 2, 3, 5, 6, 7, 8, 9; `luma` is then as it was.
pub fn add_local_luma(
    luma: &mut [f32],
    at: &[(i32, i32, Linear)],
    side: u16,
    palette: &Palette,
    stats: &ChannelStats,
) -> Result<(), Refusal> {
    let xs: Vec<i32> = at.iter().map(|&(x, _, _)| x).collect();
    let ys: Vec<i32> = at.iter().map(|&(_, y, _)| y).collect();
    let colours: Vec<Linear> = at.iter().map(|&(_, _, c)| c).collect();
    // Which of them lie on the grid decides only what places are let pass.
    refine(luma, (&xs, &ys), side.into(), 0, &colours, palette, stats)
}

fn refine(
    luma: &mut [f32],
    (xs, ys): (&[i32], &[i32]),
    side: usize,
    grid: usize,
    colours: &[Linear],
    palette: &Palette,
    stats: &ChannelStats,
) -> Result<(), Refusal> {
    let mut scratch = window(side);
    let palette_numbers = palette.flat();
    let number =
        ffi::add_local_luma(luma, side, palette.hues, (xs, ys), grid, colours, &palette_numbers, *stats, &mut scratch);
    Refusal::check(number)
}

/// Turns the sign of the score of each grid module whose bit the luma mask turned. Refused: 2, 5, 6, 7; `llrs` is then as
/// it was.
pub fn unmask_luma(llrs: &mut [f32], layout: &Layout, mask_id: u8) -> Result<(), Refusal> {
    Refusal::check(ffi::unmask_luma(llrs, &layout.places(), mask_id))
}

/// Reads a card from its raw colours in one call: scores it, refines and unmasks its luma scores, and reads. The bits are one
/// for each module, the grid modules first, and then those of the symbols: inside the margin, with each corrected colour
/// within half a sigma of its drawn colour, the very bits that [`draw`](crate::modulate::draw) was given; elsewhere one may
/// be 2, an erasure. Refused: 2 to 10
/// and 12.
pub fn read_bits(
    raw: RawColours,
    layout: &Layout,
    palette: &Palette,
    illum: &IlluminationModel,
    stats: &ChannelStats,
    mask_id: u8,
) -> Result<Vec<u8>, Refusal> {
    read_bits_held(raw, layout, palette, illum, stats, mask_id).map(|(bits, _)| bits)
}

/// The same, with how many modules and cells have a mark. Refused: 2 to 10 and 12.
pub fn read_bits_held(
    raw: RawColours,
    layout: &Layout,
    palette: &Palette,
    illum: &IlluminationModel,
    stats: &ChannelStats,
    mask_id: u8,
) -> Result<(Vec<u8>, Held), Refusal> {
    let places = layout.places();
    let mut scores = blank(layout, palette, stats);
    let mut scratch = window(places.side);
    let mut bits = vec![0; scores.luma.len() + scores.chroma.len()];
    let halves = bits.split_at_mut(scores.luma.len());
    let palette_numbers = palette.flat();
    let held = ffi::read_bits(
        raw,
        &places,
        &palette_numbers,
        palette.hues,
        mask_id,
        *illum,
        &mut scores,
        &mut scratch,
        halves,
    )
    .checked()?;
    Ok((bits, held))
}
