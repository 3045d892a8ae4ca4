//! What the static library of the stage exports, as Rust declares it.
#![allow(dead_code)]

#[repr(C)]
#[derive(Clone, Copy, Debug)]
pub struct Srgb8 {
    pub r: u8,
    pub g: u8,
    pub b: u8,
}

#[repr(C)]
#[derive(Clone, Copy, Debug)]
pub struct Xyz {
    pub x: f32,
    pub y: f32,
    pub z: f32,
}

#[repr(C)]
#[derive(Clone, Copy, Debug)]
pub struct Linear {
    pub r: f32,
    pub g: f32,
    pub b: f32,
}

#[repr(C)]
#[derive(Clone, Copy, Debug)]
pub struct Lab {
    pub l: f32,
    pub a: f32,
    pub b: f32,
}

#[repr(C)]
#[derive(Clone, Copy, Debug)]
pub struct Model {
    pub affine: [[f64; 4]; 3],
    pub gain: [[f64; 9]; 3],
    pub flare: [[f64; 9]; 3],
    pub terms: usize,
    pub side: f32,
    pub residual_rms: f32,
    pub rejected: u32,
    pub kept: u32,
}

impl Model {
    /// `purdolve_correct_lent` of the model's parts, as the bindings hand them on.
    pub fn correct(&self, x: f32, y: f32, colour: Linear) -> LinearAnswer {
        purdolve_correct_lent(
            self.terms,
            self.side,
            self.residual_rms,
            &self.affine[0],
            &self.affine[1],
            &self.affine[2],
            &self.gain[0],
            &self.gain[1],
            &self.gain[2],
            &self.flare[0],
            &self.flare[1],
            &self.flare[2],
            x,
            y,
            colour,
        )
    }
}

#[repr(C)]
#[derive(Clone, Copy, Debug)]
pub struct Modelled {
    pub number: u32,
    pub model: Model,
}

#[repr(C)]
#[derive(Clone, Copy, Debug)]
pub struct Stats {
    pub l0: f32,
    pub l1: f32,
    pub sigma_l: f32,
    pub sigma_ab: f32,
    pub sigma_ab_dark: f32,
    pub sigma_ab_light: f32,
    pub samples: u32,
}

#[repr(C)]
pub struct Reference {
    pub x: f32,
    pub y: f32,
    pub observed: Linear,
    pub nominal: Linear,
}

#[repr(C)]
#[derive(Clone, Copy, Debug)]
pub struct SolveAnswer {
    pub number: u32,
    pub solved: bool,
}

#[repr(C)]
#[derive(Clone, Copy, Debug)]
pub struct LinearAnswer {
    pub number: u32,
    pub colour: Linear,
    pub held: [bool; 3],
}

#[repr(C)]
#[derive(Clone, Copy, Debug)]
pub struct NoiseAnswer {
    pub number: u32,
    pub noise: Stats,
}

/// Cards, modules, undecided, under 12, sum.
#[repr(C)]
#[derive(Clone, Copy, Debug)]
pub struct Totals {
    pub fields: [u64; 5],
}

#[repr(C)]
#[derive(Clone, Copy, Debug)]
pub struct TotalsAnswer {
    pub number: u32,
    pub totals: Totals,
}

#[repr(C)]
#[derive(Clone, Copy, Debug)]
pub struct RatioAnswer {
    pub number: u32,
    pub numerator: u64,
    pub denominator: u64,
}

#[repr(C)]
#[derive(Clone, Copy, Debug)]
pub struct MeasureAnswer {
    pub number: u32,
    pub noise: Stats,
    pub held: usize,
}

#[repr(C)]
#[derive(Clone, Copy, Debug)]
pub struct ScoreAnswer {
    pub number: u32,
    pub held: [usize; 2],
}

#[repr(C)]
#[derive(Clone, Copy, Debug)]
pub struct NumberAnswer {
    pub number: u32,
    pub value: usize,
}

#[repr(C)]
#[derive(Clone, Copy, Debug)]
pub struct FlagAnswer {
    pub number: u32,
    pub yes: bool,
}

#[repr(C)]
#[derive(Clone, Copy, Debug)]
pub struct FloatAnswer {
    pub number: u32,
    pub value: f32,
}

unsafe extern "C" {
    pub fn purdolve_solve(
        a: *mut f64,
        a_len: usize,
        b: *mut f64,
        b_len: usize,
        x: *mut f64,
        x_len: usize,
        n: usize,
    ) -> SolveAnswer;
    pub fn purdolve_median(values: *mut f32, values_len: usize) -> f32;
    pub fn purdolve_linear_to_lab(c: Linear) -> Lab;
    pub safe fn purdolve_correct_lent(
        terms: usize,
        side: f32,
        residual_rms: f32,
        affine_r: &[f64; 4],
        affine_g: &[f64; 4],
        affine_b: &[f64; 4],
        gain_r: &[f64; 9],
        gain_g: &[f64; 9],
        gain_b: &[f64; 9],
        flare_r: &[f64; 9],
        flare_g: &[f64; 9],
        flare_b: &[f64; 9],
        x: f32,
        y: f32,
        colour: Linear,
    ) -> LinearAnswer;
    pub fn purdolve_fit_flat(
        flat: *const f32,
        flat_len: usize,
        side: usize,
        version: u8,
        kept: *mut u8,
        kept_len: usize,
        scratch: *mut f32,
        scratch_len: usize,
    ) -> Modelled;
    pub fn purdolve_fit(
        refs: *const Reference,
        refs_len: usize,
        side: usize,
        version: u8,
        kept: *mut u8,
        kept_len: usize,
        scratch: *mut f32,
        scratch_len: usize,
    ) -> Modelled;
    pub fn purdolve_nearest(
        xy: *const f32,
        xy_len: usize,
        kept: *const u8,
        kept_len: usize,
        side: usize,
        x: i32,
        y: i32,
        out: *mut u32,
        out_len: usize,
    ) -> NumberAnswer;
    pub fn purdolve_within(
        xy: *const f32,
        xy_len: usize,
        kept: *const u8,
        kept_len: usize,
        side: usize,
        x: i32,
        y: i32,
        radius: f32,
        out: *mut u32,
        out_len: usize,
    ) -> NumberAnswer;
    pub fn purdolve_cut_off(
        xy: *const f32,
        xy_len: usize,
        kept: *const u8,
        kept_len: usize,
        side: usize,
        x: i32,
        y: i32,
        column: i32,
        out: *mut u32,
        out_len: usize,
    ) -> NumberAnswer;
    pub fn purdolve_measure(
        refs: *const Reference,
        refs_len: usize,
        side: usize,
        model: Model,
        palette: *const f32,
        palette_len: usize,
        hues: usize,
        scratch: *mut f32,
        scratch_len: usize,
    ) -> MeasureAnswer;
    pub fn purdolve_measure_flat(
        flat: *const f32,
        flat_len: usize,
        side: usize,
        model: Model,
        palette: *const f32,
        palette_len: usize,
        hues: usize,
        scratch: *mut f32,
        scratch_len: usize,
    ) -> MeasureAnswer;
    pub fn purdolve_score(
        side: usize,
        hues: usize,
        size: usize,
        xs: *const i32,
        xs_len: usize,
        ys: *const i32,
        ys_len: usize,
        grid: usize,
        raw: *const f32,
        raw_len: usize,
        cxs: *const u16,
        cxs_len: usize,
        cys: *const u16,
        cys_len: usize,
        craw: *const f32,
        craw_len: usize,
        palette: *const f32,
        palette_len: usize,
        model: Model,
        noise: Stats,
        luma: *mut f32,
        luma_len: usize,
        colours: *mut f32,
        colours_len: usize,
        chroma: *mut f32,
        chroma_len: usize,
    ) -> ScoreAnswer;
    pub fn purdolve_read_bits(
        side: usize,
        hues: usize,
        size: usize,
        xs: *const i32,
        xs_len: usize,
        ys: *const i32,
        ys_len: usize,
        grid: usize,
        raw: *const f32,
        raw_len: usize,
        cxs: *const u16,
        cxs_len: usize,
        cys: *const u16,
        cys_len: usize,
        craw: *const f32,
        craw_len: usize,
        palette: *const f32,
        palette_len: usize,
        mask: u8,
        model: Model,
        noise: Stats,
        luma: *mut f32,
        luma_len: usize,
        colours: *mut f32,
        colours_len: usize,
        chroma: *mut f32,
        chroma_len: usize,
        scratch: *mut f32,
        scratch_len: usize,
        bits: *mut u8,
        bits_len: usize,
        symbols: *mut u8,
        symbols_len: usize,
    ) -> ScoreAnswer;
    pub fn purdolve_add_local_luma(
        luma: *mut f32,
        luma_len: usize,
        side: usize,
        hues: usize,
        xs: *const i32,
        xs_len: usize,
        ys: *const i32,
        ys_len: usize,
        grid: usize,
        colours: *const f32,
        colours_len: usize,
        palette: *const f32,
        palette_len: usize,
        noise: Stats,
        scratch: *mut f32,
        scratch_len: usize,
    ) -> u32;
    pub fn purdolve_abs(x: f32) -> f32;
    pub fn purdolve_abs_f64(x: f64) -> f64;
    pub fn purdolve_max(a: f32, b: f32) -> f32;
    pub fn purdolve_min(a: f32, b: f32) -> f32;
    pub fn purdolve_clamp(x: f32, lo: f32, hi: f32) -> f32;
    pub fn purdolve_widen(x: f32) -> f64;
    pub fn purdolve_narrow(x: f64) -> f32;
    pub fn purdolve_sqrt(x: f32) -> f32;
    pub fn purdolve_cbrt(x: f32) -> f32;
    pub fn purdolve_add_row(
        ata: *mut f64,
        atb: *mut f64,
        atb_len: usize,
        row: *const f64,
        row_len: usize,
        target: f64,
        terms: usize,
    ) -> u32;
    pub fn purdolve_finish(
        ata: *mut f64,
        atb: *mut f64,
        atb_len: usize,
        x: *mut f64,
        x_len: usize,
        terms: usize,
    ) -> SolveAnswer;
    pub fn purdolve_least_squares(
        rows: *const f64,
        rows_len: usize,
        targets: *const f64,
        targets_len: usize,
        terms: usize,
        x: *mut f64,
        x_len: usize,
    ) -> SolveAnswer;
    pub fn purdolve_mad_sigma(
        values: *const f32,
        values_len: usize,
        scratch: *mut f32,
        scratch_len: usize,
    ) -> FloatAnswer;
    pub fn purdolve_from_hex(hex: u32) -> Srgb8;
    pub fn purdolve_to_hex(c: Srgb8) -> u32;
    pub fn purdolve_rec709_luma(c: Srgb8) -> f32;
    pub fn purdolve_clamped(c: Linear) -> Linear;
    pub fn purdolve_in_gamut(c: Linear) -> bool;
    pub fn purdolve_luminance(c: Linear) -> f32;
    pub fn purdolve_chroma(c: Lab) -> f32;
    pub fn purdolve_ab_distance(c: Lab, other: Lab) -> f32;
    pub fn purdolve_srgb_to_linear(v: u8) -> f32;
    pub fn purdolve_srgb8_to_linear(c: Srgb8) -> Linear;
    pub fn purdolve_srgb8_to_lab(c: Srgb8) -> Lab;
    pub fn purdolve_linear_to_xyz(c: Linear) -> Xyz;
    pub fn purdolve_xyz_to_linear(c: Xyz) -> Linear;
    pub fn purdolve_xyz_to_lab(c: Xyz) -> Lab;
    pub fn purdolve_lab_to_xyz(c: Lab) -> Xyz;
    pub fn purdolve_lab_to_linear(c: Lab) -> Linear;
    pub fn purdolve_palette_len(hues: usize) -> NumberAnswer;
    pub fn purdolve_palette_is_empty(hues: usize) -> FlagAnswer;
    pub fn purdolve_palette_index(light: bool, hue: usize, hues: usize) -> NumberAnswer;
    pub fn purdolve_gray(n: usize) -> usize;
    pub fn purdolve_gray_inverse(g: usize) -> usize;
    pub fn purdolve_chroma_symbol_to_hue(symbol: usize, hues: usize) -> NumberAnswer;
    pub fn purdolve_hue_to_chroma_symbol(hue: usize, hues: usize) -> NumberAnswer;
    pub fn purdolve_luma_mask(id: u8, x: u16, y: u16) -> bool;
    pub fn purdolve_chroma_rotation(cx: u16, cy: u16, hues: usize) -> NumberAnswer;
    pub fn purdolve_chroma_mask_apply(hue: usize, cx: u16, cy: u16, hues: usize) -> NumberAnswer;
    pub fn purdolve_chroma_mask_remove(hue: usize, cx: u16, cy: u16, hues: usize) -> NumberAnswer;
    pub fn purdolve_chroma_bit_llrs(
        ll: *const f32,
        ll_len: usize,
        masked: bool,
        cx: u16,
        cy: u16,
        hues: usize,
        out: *mut f32,
        out_len: usize,
    ) -> u32;
    pub fn purdolve_unmask_luma(
        luma: *mut f32,
        luma_len: usize,
        side: usize,
        xs: *const i32,
        xs_len: usize,
        ys: *const i32,
        ys_len: usize,
        grid: usize,
        mask: u8,
    ) -> u32;
    pub fn purdolve_read(score: f32) -> u8;
    pub fn purdolve_read_list(scores: *const f32, scores_len: usize, bits: *mut u8, bits_len: usize) -> u32;
    pub fn purdolve_page(
        side: usize,
        terms: usize,
        kept: u32,
        rejected: u32,
        held: usize,
        xs: *const i32,
        xs_len: usize,
        ys: *const i32,
        ys_len: usize,
        grid: usize,
        luma: *const f32,
        luma_len: usize,
        page: *mut u8,
        page_len: usize,
    ) -> u32;
    pub fn purdolve_grid_level(bit: u8, mask: u8, x: u16, y: u16) -> u8;
    pub fn purdolve_ring_level(bit: u8) -> u8;
    pub fn purdolve_symbol_of_bits(bits: *const u8, bits_len: usize, hues: usize) -> NumberAnswer;
    pub fn purdolve_cell_hue(symbol: usize, cx: u16, cy: u16, hues: usize) -> NumberAnswer;
    pub fn purdolve_ring_hue(symbol: usize, hues: usize) -> NumberAnswer;
    pub fn purdolve_draw(
        bits: *const u8,
        bits_len: usize,
        side: usize,
        hues: usize,
        size: usize,
        xs: *const i32,
        xs_len: usize,
        ys: *const i32,
        ys_len: usize,
        grid: usize,
        cxs: *const u16,
        cxs_len: usize,
        cys: *const u16,
        cys_len: usize,
        mask: u8,
        levels: *mut u8,
        levels_len: usize,
        drawn: *mut usize,
        drawn_len: usize,
    ) -> u32;
    pub fn purdolve_identity(side: usize) -> Modelled;
    pub fn purdolve_nominal(palette: *const f32, palette_len: usize, hues: usize) -> NoiseAnswer;
    pub fn purdolve_sigma_ab_at(noise: Stats, l: f32) -> FloatAnswer;
    pub fn purdolve_luma_llr(noise: Stats, l: f32) -> FloatAnswer;
    pub fn purdolve_reliability(
        noise: Stats,
        sample: Lab,
        palette: *const f32,
        palette_len: usize,
        hues: usize,
    ) -> FloatAnswer;
    pub fn purdolve_hue_log_likelihoods(
        noise: Stats,
        sample: Lab,
        palette: *const f32,
        palette_len: usize,
        hues: usize,
        out: *mut f32,
        out_len: usize,
    ) -> u32;
    pub fn purdolve_add_card(totals: Totals, luma: *const f32, luma_len: usize) -> TotalsAnswer;
    pub fn purdolve_add_totals(a: Totals, b: Totals) -> TotalsAnswer;
    pub fn purdolve_mean(totals: Totals) -> RatioAnswer;
    pub fn purdolve_colour_counts(
        noise: Stats,
        palette: *const f32,
        palette_len: usize,
        hues: usize,
        out: *mut u32,
        out_len: usize,
    ) -> u32;
    pub fn purdolve_margin(noise: Stats, palette: *const f32, palette_len: usize, hues: usize) -> FlagAnswer;
    pub fn purdolve_margin_at(
        nine: bool,
        noise: Stats,
        palette: *const f32,
        palette_len: usize,
        hues: usize,
    ) -> FlagAnswer;
}
