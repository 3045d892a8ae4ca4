//! The functions of the static library, as its header (bindings/c/purdolve.h) declares them, and their forms on slices. All
//! `unsafe` of the crate stands here.
//!
//! What the library asks of a caller is that each pointer is not null and aligned, that as many elements lie behind it as the
//! length says, and that what is written overlaps nothing else. A slice's pointer and length say just that, and an exclusive
//! reference overlaps nothing, so each form on slices is safe.
use crate::Refusal;
use crate::color::{Lab, Linear, Srgb8};
use crate::demod::{ChannelStats, Demodulation, Held, RawColours};
use crate::illum::{IlluminationModel, Reference};
use crate::layout::Places;
use crate::totals::{Ratio, Totals};
use core::slice;

#[repr(C)]
pub struct Xyz {
    x: f32,
    y: f32,
    z: f32,
}

impl From<[f32; 3]> for Xyz {
    fn from([x, y, z]: [f32; 3]) -> Xyz {
        Xyz { x, y, z }
    }
}

impl From<Xyz> for [f32; 3] {
    fn from(c: Xyz) -> [f32; 3] {
        [c.x, c.y, c.z]
    }
}

#[repr(C)]
pub struct SolveAnswer {
    pub number: u32,
    pub solved: bool,
}

#[repr(C)]
pub struct NumberAnswer {
    pub number: u32,
    pub value: usize,
}

impl NumberAnswer {
    pub fn checked(self) -> Result<usize, Refusal> {
        Refusal::check(self.number).map(|()| self.value)
    }
}

#[repr(C)]
pub struct FlagAnswer {
    pub number: u32,
    pub yes: bool,
}

#[repr(C)]
pub struct FloatAnswer {
    pub number: u32,
    pub value: f32,
}

impl FloatAnswer {
    pub fn checked(self) -> Result<f32, Refusal> {
        Refusal::check(self.number).map(|()| self.value)
    }
}

#[repr(C)]
pub struct LinearAnswer {
    pub number: u32,
    pub colour: Linear,
    pub held: [bool; 3],
}

#[repr(C)]
pub struct Modelled {
    pub number: u32,
    pub model: IlluminationModel,
}

#[repr(C)]
pub struct NoiseAnswer {
    pub number: u32,
    pub noise: ChannelStats,
}

#[repr(C)]
pub struct TotalsAnswer {
    pub number: u32,
    pub totals: Totals,
}

#[repr(C)]
pub struct RatioAnswer {
    pub number: u32,
    pub ratio: Ratio,
}

#[repr(C)]
pub struct MeasureAnswer {
    pub number: u32,
    pub noise: ChannelStats,
    pub held: usize,
}

#[repr(C)]
pub struct ScoreAnswer {
    pub number: u32,
    pub held: Held,
}

impl ScoreAnswer {
    pub fn checked(self) -> Result<Held, Refusal> {
        Refusal::check(self.number).map(|()| self.held)
    }
}

// The sizes that the library was built for.
const _: () = {
    assert!(size_of::<usize>() == 8);
    assert!(size_of::<Srgb8>() == 3);
    assert!(size_of::<Linear>() == 12 && size_of::<Lab>() == 12 && size_of::<Xyz>() == 12);
    assert!(size_of::<Reference>() == 32 && align_of::<Reference>() == 4);
    assert!(size_of::<IlluminationModel>() == 552 && size_of::<Modelled>() == 560);
    assert!(size_of::<ChannelStats>() == 28 && size_of::<NoiseAnswer>() == 32);
    assert!(size_of::<MeasureAnswer>() == 40 && size_of::<ScoreAnswer>() == 24);
    assert!(size_of::<SolveAnswer>() == 8 && size_of::<FlagAnswer>() == 8 && size_of::<FloatAnswer>() == 8);
    assert!(size_of::<NumberAnswer>() == 16 && size_of::<LinearAnswer>() == 20);
    assert!(size_of::<Totals>() == 40 && size_of::<TotalsAnswer>() == 48 && size_of::<RatioAnswer>() == 24);
};

// What takes values, and references to arrays of a fixed length, is safe to call with any.
unsafe extern "C" {
    pub safe fn purdolve_abs(x: f32) -> f32;
    pub safe fn purdolve_abs_f64(x: f64) -> f64;
    pub safe fn purdolve_max(a: f32, b: f32) -> f32;
    pub safe fn purdolve_min(a: f32, b: f32) -> f32;
    pub safe fn purdolve_clamp(x: f32, lo: f32, hi: f32) -> f32;
    pub safe fn purdolve_widen(x: f32) -> f64;
    pub safe fn purdolve_narrow(x: f64) -> f32;
    pub safe fn purdolve_sqrt(x: f32) -> f32;
    pub safe fn purdolve_cbrt(x: f32) -> f32;

    pub safe fn purdolve_from_hex(hex: u32) -> Srgb8;
    pub safe fn purdolve_to_hex(c: Srgb8) -> u32;
    pub safe fn purdolve_rec709_luma(c: Srgb8) -> f32;
    pub safe fn purdolve_clamped(c: Linear) -> Linear;
    pub safe fn purdolve_in_gamut(c: Linear) -> bool;
    pub safe fn purdolve_luminance(c: Linear) -> f32;
    pub safe fn purdolve_chroma(c: Lab) -> f32;
    pub safe fn purdolve_ab_distance(c: Lab, other: Lab) -> f32;
    pub safe fn purdolve_srgb_to_linear(v: u8) -> f32;
    pub safe fn purdolve_srgb8_to_linear(c: Srgb8) -> Linear;
    pub safe fn purdolve_srgb8_to_lab(c: Srgb8) -> Lab;
    pub safe fn purdolve_linear_to_xyz(c: Linear) -> Xyz;
    pub safe fn purdolve_xyz_to_linear(c: Xyz) -> Linear;
    pub safe fn purdolve_xyz_to_lab(c: Xyz) -> Lab;
    pub safe fn purdolve_lab_to_xyz(c: Lab) -> Xyz;
    pub safe fn purdolve_linear_to_lab(c: Linear) -> Lab;
    pub safe fn purdolve_lab_to_linear(c: Lab) -> Linear;
    pub safe fn purdolve_palette_len(hues: usize) -> NumberAnswer;
    pub safe fn purdolve_palette_is_empty(hues: usize) -> FlagAnswer;
    pub safe fn purdolve_palette_index(light: bool, hue: usize, hues: usize) -> NumberAnswer;

    pub safe fn purdolve_gray(n: usize) -> usize;
    pub safe fn purdolve_gray_inverse(g: usize) -> usize;
    pub safe fn purdolve_chroma_symbol_to_hue(symbol: usize, hues: usize) -> NumberAnswer;
    pub safe fn purdolve_hue_to_chroma_symbol(hue: usize, hues: usize) -> NumberAnswer;
    pub safe fn purdolve_luma_mask(id: u8, x: u16, y: u16) -> bool;
    pub safe fn purdolve_chroma_rotation(cx: u16, cy: u16, hues: usize) -> NumberAnswer;
    pub safe fn purdolve_chroma_mask_apply(hue: usize, cx: u16, cy: u16, hues: usize) -> NumberAnswer;
    pub safe fn purdolve_chroma_mask_remove(hue: usize, cx: u16, cy: u16, hues: usize) -> NumberAnswer;
    pub safe fn purdolve_grid_level(bit: u8, mask: u8, x: u16, y: u16) -> u8;
    pub safe fn purdolve_ring_level(bit: u8) -> u8;
    pub safe fn purdolve_cell_hue(symbol: usize, cx: u16, cy: u16, hues: usize) -> NumberAnswer;
    pub safe fn purdolve_ring_hue(symbol: usize, hues: usize) -> NumberAnswer;
    pub safe fn purdolve_read(score: f32) -> u8;

    pub safe fn purdolve_identity(side: usize) -> Modelled;
    pub safe fn purdolve_correct_lent(
        terms: usize,
        side: f32,
        residual_rms: f32,
        affine_r: &[f64; 4],
        affine_g: &[f64; 4],
        affine_b: &[f64; 4],
        gain_r: &[f64; 9],
        gain_g: &[f64; 9],
        gain_b: &[f64; 9],
        flare_r: &[f64; 9],
        flare_g: &[f64; 9],
        flare_b: &[f64; 9],
        x: f32,
        y: f32,
        colour: Linear,
    ) -> LinearAnswer;
    pub safe fn purdolve_sigma_ab_at(noise: ChannelStats, l: f32) -> FloatAnswer;
    pub safe fn purdolve_luma_llr(noise: ChannelStats, l: f32) -> FloatAnswer;
    pub safe fn purdolve_add_totals(a: Totals, b: Totals) -> TotalsAnswer;
    pub safe fn purdolve_mean(totals: Totals) -> RatioAnswer;
}

// What takes slices: a pointer and a length each.
unsafe extern "C" {
    fn purdolve_solve(
        a: *mut f64,
        a_len: usize,
        b: *mut f64,
        b_len: usize,
        x: *mut f64,
        x_len: usize,
        n: usize,
    ) -> SolveAnswer;
    fn purdolve_least_squares(
        rows: *const f64,
        rows_len: usize,
        targets: *const f64,
        targets_len: usize,
        terms: usize,
        x: *mut f64,
        x_len: usize,
    ) -> SolveAnswer;
    fn purdolve_add_row(
        ata: *mut f64,
        atb: *mut f64,
        atb_len: usize,
        row: *const f64,
        row_len: usize,
        target: f64,
        terms: usize,
    ) -> u32;
    fn purdolve_finish(
        ata: *mut f64,
        atb: *mut f64,
        atb_len: usize,
        x: *mut f64,
        x_len: usize,
        terms: usize,
    ) -> SolveAnswer;
    fn purdolve_median(values: *mut f32, values_len: usize) -> f32;
    fn purdolve_mad_sigma(values: *const f32, values_len: usize, scratch: *mut f32, scratch_len: usize) -> FloatAnswer;
    fn purdolve_chroma_bit_llrs(
        ll: *const f32,
        ll_len: usize,
        masked: bool,
        cx: u16,
        cy: u16,
        hues: usize,
        out: *mut f32,
        out_len: usize,
    ) -> u32;
    fn purdolve_unmask_luma(
        luma: *mut f32,
        luma_len: usize,
        side: usize,
        xs: *const i32,
        xs_len: usize,
        ys: *const i32,
        ys_len: usize,
        grid: usize,
        mask: u8,
    ) -> u32;
    fn purdolve_read_list(scores: *const f32, scores_len: usize, bits: *mut u8, bits_len: usize) -> u32;
    fn purdolve_page(
        side: usize,
        terms: usize,
        kept: u32,
        rejected: u32,
        held: usize,
        xs: *const i32,
        xs_len: usize,
        ys: *const i32,
        ys_len: usize,
        grid: usize,
        luma: *const f32,
        luma_len: usize,
        page: *mut u8,
        page_len: usize,
    ) -> u32;
    fn purdolve_symbol_of_bits(bits: *const u8, bits_len: usize, hues: usize) -> NumberAnswer;
    fn purdolve_draw(
        bits: *const u8,
        bits_len: usize,
        side: usize,
        hues: usize,
        size: usize,
        xs: *const i32,
        xs_len: usize,
        ys: *const i32,
        ys_len: usize,
        grid: usize,
        cxs: *const u16,
        cxs_len: usize,
        cys: *const u16,
        cys_len: usize,
        mask: u8,
        levels: *mut u8,
        levels_len: usize,
        drawn: *mut usize,
        drawn_len: usize,
    ) -> u32;
    fn purdolve_fit_flat(
        flat: *const f32,
        flat_len: usize,
        side: usize,
        version: u8,
        kept: *mut u8,
        kept_len: usize,
        scratch: *mut f32,
        scratch_len: usize,
    ) -> Modelled;
    fn purdolve_nearest(
        xy: *const f32,
        xy_len: usize,
        kept: *const u8,
        kept_len: usize,
        side: usize,
        x: i32,
        y: i32,
        out: *mut u32,
        out_len: usize,
    ) -> NumberAnswer;
    fn purdolve_within(
        xy: *const f32,
        xy_len: usize,
        kept: *const u8,
        kept_len: usize,
        side: usize,
        x: i32,
        y: i32,
        radius: f32,
        out: *mut u32,
        out_len: usize,
    ) -> NumberAnswer;
    fn purdolve_cut_off(
        xy: *const f32,
        xy_len: usize,
        kept: *const u8,
        kept_len: usize,
        side: usize,
        x: i32,
        y: i32,
        column: i32,
        out: *mut u32,
        out_len: usize,
    ) -> NumberAnswer;
    fn purdolve_measure_flat(
        flat: *const f32,
        flat_len: usize,
        side: usize,
        model: IlluminationModel,
        palette: *const f32,
        palette_len: usize,
        hues: usize,
        scratch: *mut f32,
        scratch_len: usize,
    ) -> MeasureAnswer;
    fn purdolve_nominal(palette: *const f32, palette_len: usize, hues: usize) -> NoiseAnswer;
    fn purdolve_reliability(
        noise: ChannelStats,
        sample: Lab,
        palette: *const f32,
        palette_len: usize,
        hues: usize,
    ) -> FloatAnswer;
    fn purdolve_hue_log_likelihoods(
        noise: ChannelStats,
        sample: Lab,
        palette: *const f32,
        palette_len: usize,
        hues: usize,
        out: *mut f32,
        out_len: usize,
    ) -> u32;
    fn purdolve_add_card(totals: Totals, luma: *const f32, luma_len: usize) -> TotalsAnswer;
    fn purdolve_colour_counts(
        noise: ChannelStats,
        palette: *const f32,
        palette_len: usize,
        hues: usize,
        out: *mut u32,
        out_len: usize,
    ) -> u32;
    fn purdolve_margin(noise: ChannelStats, palette: *const f32, palette_len: usize, hues: usize) -> FlagAnswer;
    fn purdolve_margin_at(
        nine: bool,
        noise: ChannelStats,
        palette: *const f32,
        palette_len: usize,
        hues: usize,
    ) -> FlagAnswer;
    fn purdolve_score(
        side: usize,
        hues: usize,
        size: usize,
        xs: *const i32,
        xs_len: usize,
        ys: *const i32,
        ys_len: usize,
        grid: usize,
        raw: *const f32,
        raw_len: usize,
        cxs: *const u16,
        cxs_len: usize,
        cys: *const u16,
        cys_len: usize,
        craw: *const f32,
        craw_len: usize,
        palette: *const f32,
        palette_len: usize,
        model: IlluminationModel,
        noise: ChannelStats,
        luma: *mut f32,
        luma_len: usize,
        colours: *mut f32,
        colours_len: usize,
        chroma: *mut f32,
        chroma_len: usize,
    ) -> ScoreAnswer;
    fn purdolve_read_bits(
        side: usize,
        hues: usize,
        size: usize,
        xs: *const i32,
        xs_len: usize,
        ys: *const i32,
        ys_len: usize,
        grid: usize,
        raw: *const f32,
        raw_len: usize,
        cxs: *const u16,
        cxs_len: usize,
        cys: *const u16,
        cys_len: usize,
        craw: *const f32,
        craw_len: usize,
        palette: *const f32,
        palette_len: usize,
        mask: u8,
        model: IlluminationModel,
        noise: ChannelStats,
        luma: *mut f32,
        luma_len: usize,
        colours: *mut f32,
        colours_len: usize,
        chroma: *mut f32,
        chroma_len: usize,
        scratch: *mut f32,
        scratch_len: usize,
        bits: *mut u8,
        bits_len: usize,
        symbols: *mut u8,
        symbols_len: usize,
    ) -> ScoreAnswer;
    fn purdolve_add_local_luma(
        luma: *mut f32,
        luma_len: usize,
        side: usize,
        hues: usize,
        xs: *const i32,
        xs_len: usize,
        ys: *const i32,
        ys_len: usize,
        grid: usize,
        colours: *const f32,
        colours_len: usize,
        palette: *const f32,
        palette_len: usize,
        noise: ChannelStats,
        scratch: *mut f32,
        scratch_len: usize,
    ) -> u32;
}

unsafe extern "C" {
    fn purdolve_read_card(file: *const u8, file_len: usize, out: *mut u8, out_len: usize) -> usize;
}

pub fn read_card(file: &[u8], out: &mut [u8]) -> usize {
    unsafe { purdolve_read_card(file.as_ptr(), file.len(), out.as_mut_ptr(), out.len()) }
}

/// References as flat floats: a reference is eight floats in their order, without padding.
pub fn flat(refs: &[Reference]) -> &[f32] {
    unsafe { slice::from_raw_parts(refs.as_ptr().cast(), 8 * refs.len()) }
}

/// Colours as flat floats: a colour is three floats, without padding.
fn components(colours: &[Linear]) -> &[f32] {
    unsafe { slice::from_raw_parts(colours.as_ptr().cast(), 3 * colours.len()) }
}

fn components_mut(colours: &mut [Linear]) -> &mut [f32] {
    unsafe { slice::from_raw_parts_mut(colours.as_mut_ptr().cast(), 3 * colours.len()) }
}

pub fn solve(a: &mut [f64], b: &mut [f64], x: &mut [f64], n: usize) -> SolveAnswer {
    unsafe { purdolve_solve(a.as_mut_ptr(), a.len(), b.as_mut_ptr(), b.len(), x.as_mut_ptr(), x.len(), n) }
}

pub fn least_squares(rows: &[f64], targets: &[f64], terms: usize, x: &mut [f64]) -> SolveAnswer {
    unsafe {
        purdolve_least_squares(
            rows.as_ptr(),
            rows.len(),
            targets.as_ptr(),
            targets.len(),
            terms,
            x.as_mut_ptr(),
            x.len(),
        )
    }
}

pub fn add_row(ata: &mut [f64; 324], atb: &mut [f64], row: &[f64], target: f64, terms: usize) -> u32 {
    unsafe { purdolve_add_row(ata.as_mut_ptr(), atb.as_mut_ptr(), atb.len(), row.as_ptr(), row.len(), target, terms) }
}

pub fn finish(ata: &mut [f64; 324], atb: &mut [f64], x: &mut [f64], terms: usize) -> SolveAnswer {
    unsafe { purdolve_finish(ata.as_mut_ptr(), atb.as_mut_ptr(), atb.len(), x.as_mut_ptr(), x.len(), terms) }
}

pub fn median(values: &mut [f32]) -> f32 {
    unsafe { purdolve_median(values.as_mut_ptr(), values.len()) }
}

pub fn mad_sigma(values: &[f32], scratch: &mut [f32]) -> FloatAnswer {
    unsafe { purdolve_mad_sigma(values.as_ptr(), values.len(), scratch.as_mut_ptr(), scratch.len()) }
}

pub fn chroma_bit_llrs(ll: &[f32], cell: Option<(u16, u16)>, hues: usize, out: &mut [f32]) -> u32 {
    let (cx, cy) = cell.unwrap_or_default();
    unsafe {
        purdolve_chroma_bit_llrs(ll.as_ptr(), ll.len(), cell.is_some(), cx, cy, hues, out.as_mut_ptr(), out.len())
    }
}

pub fn unmask_luma(luma: &mut [f32], places: &Places, mask: u8) -> u32 {
    unsafe {
        purdolve_unmask_luma(
            luma.as_mut_ptr(),
            luma.len(),
            places.side,
            places.xs.as_ptr(),
            places.xs.len(),
            places.ys.as_ptr(),
            places.ys.len(),
            places.grid,
            mask,
        )
    }
}

pub fn read_list(scores: &[f32], bits: &mut [u8]) -> u32 {
    unsafe { purdolve_read_list(scores.as_ptr(), scores.len(), bits.as_mut_ptr(), bits.len()) }
}

pub fn page(places: &Places, illum: &IlluminationModel, held: usize, luma: &[f32], page: &mut [u8]) -> u32 {
    unsafe {
        purdolve_page(
            places.side,
            illum.terms(),
            illum.kept,
            illum.rejected,
            held,
            places.xs.as_ptr(),
            places.xs.len(),
            places.ys.as_ptr(),
            places.ys.len(),
            places.grid,
            luma.as_ptr(),
            luma.len(),
            page.as_mut_ptr(),
            page.len(),
        )
    }
}

pub fn symbol_of_bits(bits: &[u8], hues: usize) -> NumberAnswer {
    unsafe { purdolve_symbol_of_bits(bits.as_ptr(), bits.len(), hues) }
}

pub fn draw(bits: &[u8], places: &Places, hues: usize, mask: u8, levels: &mut [u8], drawn: &mut [usize]) -> u32 {
    unsafe {
        purdolve_draw(
            bits.as_ptr(),
            bits.len(),
            places.side,
            hues,
            places.size,
            places.xs.as_ptr(),
            places.xs.len(),
            places.ys.as_ptr(),
            places.ys.len(),
            places.grid,
            places.cxs.as_ptr(),
            places.cxs.len(),
            places.cys.as_ptr(),
            places.cys.len(),
            mask,
            levels.as_mut_ptr(),
            levels.len(),
            drawn.as_mut_ptr(),
            drawn.len(),
        )
    }
}

pub fn fit_flat(flat: &[f32], side: usize, version: u8, kept: &mut [u8], scratch: &mut [f32]) -> Modelled {
    unsafe {
        purdolve_fit_flat(
            flat.as_ptr(),
            flat.len(),
            side,
            version,
            kept.as_mut_ptr(),
            kept.len(),
            scratch.as_mut_ptr(),
            scratch.len(),
        )
    }
}

pub fn nearest(xy: &[f32], kept: &[u8], side: usize, x: i32, y: i32, out: &mut [u32]) -> NumberAnswer {
    let (xs, ks, os) = (xy.len(), kept.len(), out.len());
    unsafe { purdolve_nearest(xy.as_ptr(), xs, kept.as_ptr(), ks, side, x, y, out.as_mut_ptr(), os) }
}

pub fn within(xy: &[f32], kept: &[u8], side: usize, x: i32, y: i32, radius: f32, out: &mut [u32]) -> NumberAnswer {
    let (xs, ks, os) = (xy.len(), kept.len(), out.len());
    unsafe { purdolve_within(xy.as_ptr(), xs, kept.as_ptr(), ks, side, x, y, radius, out.as_mut_ptr(), os) }
}

pub fn cut_off(xy: &[f32], kept: &[u8], side: usize, x: i32, y: i32, column: i32, out: &mut [u32]) -> NumberAnswer {
    let (xs, ks, os) = (xy.len(), kept.len(), out.len());
    unsafe { purdolve_cut_off(xy.as_ptr(), xs, kept.as_ptr(), ks, side, x, y, column, out.as_mut_ptr(), os) }
}

pub fn measure_flat(
    flat: &[f32],
    side: usize,
    model: IlluminationModel,
    palette: &[f32],
    hues: usize,
    scratch: &mut [f32],
) -> MeasureAnswer {
    unsafe {
        purdolve_measure_flat(
            flat.as_ptr(),
            flat.len(),
            side,
            model,
            palette.as_ptr(),
            palette.len(),
            hues,
            scratch.as_mut_ptr(),
            scratch.len(),
        )
    }
}

pub fn nominal(palette: &[f32], hues: usize) -> NoiseAnswer {
    unsafe { purdolve_nominal(palette.as_ptr(), palette.len(), hues) }
}

pub fn reliability(noise: ChannelStats, sample: Lab, palette: &[f32], hues: usize) -> FloatAnswer {
    unsafe { purdolve_reliability(noise, sample, palette.as_ptr(), palette.len(), hues) }
}

pub fn hue_log_likelihoods(noise: ChannelStats, sample: Lab, palette: &[f32], hues: usize, out: &mut [f32]) -> u32 {
    unsafe {
        purdolve_hue_log_likelihoods(noise, sample, palette.as_ptr(), palette.len(), hues, out.as_mut_ptr(), out.len())
    }
}

pub fn add_card(totals: Totals, luma: &[f32]) -> TotalsAnswer {
    unsafe { purdolve_add_card(totals, luma.as_ptr(), luma.len()) }
}

pub fn colour_counts(noise: ChannelStats, palette: &[f32], hues: usize, out: &mut [u32]) -> u32 {
    unsafe { purdolve_colour_counts(noise, palette.as_ptr(), palette.len(), hues, out.as_mut_ptr(), out.len()) }
}

pub fn margin(noise: ChannelStats, palette: &[f32], hues: usize) -> FlagAnswer {
    unsafe { purdolve_margin(noise, palette.as_ptr(), palette.len(), hues) }
}

pub fn margin_at(nine: bool, noise: ChannelStats, palette: &[f32], hues: usize) -> FlagAnswer {
    unsafe { purdolve_margin_at(nine, noise, palette.as_ptr(), palette.len(), hues) }
}

pub fn score(
    raw: RawColours,
    places: &Places,
    palette: &[f32],
    hues: usize,
    model: IlluminationModel,
    scores: &mut Demodulation,
) -> ScoreAnswer {
    let (modules, cells) = (components(raw.modules), components(raw.cells));
    let noise = scores.stats;
    let (luma, chroma) = (&mut scores.luma, &mut scores.chroma);
    let colours = components_mut(&mut scores.colours);
    unsafe {
        purdolve_score(
            places.side,
            hues,
            places.size,
            places.xs.as_ptr(),
            places.xs.len(),
            places.ys.as_ptr(),
            places.ys.len(),
            places.grid,
            modules.as_ptr(),
            modules.len(),
            places.cxs.as_ptr(),
            places.cxs.len(),
            places.cys.as_ptr(),
            places.cys.len(),
            cells.as_ptr(),
            cells.len(),
            palette.as_ptr(),
            palette.len(),
            model,
            noise,
            luma.as_mut_ptr(),
            luma.len(),
            colours.as_mut_ptr(),
            colours.len(),
            chroma.as_mut_ptr(),
            chroma.len(),
        )
    }
}

#[allow(clippy::too_many_arguments)]
pub fn read_bits(
    raw: RawColours,
    places: &Places,
    palette: &[f32],
    hues: usize,
    mask: u8,
    model: IlluminationModel,
    scores: &mut Demodulation,
    scratch: &mut [f32],
    (bits, symbols): (&mut [u8], &mut [u8]),
) -> ScoreAnswer {
    let (modules, cells) = (components(raw.modules), components(raw.cells));
    let noise = scores.stats;
    let (luma, chroma) = (&mut scores.luma, &mut scores.chroma);
    let colours = components_mut(&mut scores.colours);
    unsafe {
        purdolve_read_bits(
            places.side,
            hues,
            places.size,
            places.xs.as_ptr(),
            places.xs.len(),
            places.ys.as_ptr(),
            places.ys.len(),
            places.grid,
            modules.as_ptr(),
            modules.len(),
            places.cxs.as_ptr(),
            places.cxs.len(),
            places.cys.as_ptr(),
            places.cys.len(),
            cells.as_ptr(),
            cells.len(),
            palette.as_ptr(),
            palette.len(),
            mask,
            model,
            noise,
            luma.as_mut_ptr(),
            luma.len(),
            colours.as_mut_ptr(),
            colours.len(),
            chroma.as_mut_ptr(),
            chroma.len(),
            scratch.as_mut_ptr(),
            scratch.len(),
            bits.as_mut_ptr(),
            bits.len(),
            symbols.as_mut_ptr(),
            symbols.len(),
        )
    }
}

#[allow(clippy::too_many_arguments)]
pub fn add_local_luma(
    luma: &mut [f32],
    side: usize,
    hues: usize,
    (xs, ys): (&[i32], &[i32]),
    grid: usize,
    colours: &[Linear],
    palette: &[f32],
    noise: ChannelStats,
    scratch: &mut [f32],
) -> u32 {
    let colours = components(colours);
    unsafe {
        purdolve_add_local_luma(
            luma.as_mut_ptr(),
            luma.len(),
            side,
            hues,
            xs.as_ptr(),
            xs.len(),
            ys.as_ptr(),
            ys.len(),
            grid,
            colours.as_ptr(),
            colours.len(),
            palette.as_ptr(),
            palette.len(),
            noise,
            scratch.as_mut_ptr(),
            scratch.len(),
        )
    }
}
