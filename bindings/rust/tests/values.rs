//! Known answers: the worked examples of the scope, and others that can be worked out by hand.
use purdolve::color::{self, Lab, Linear, Srgb8};
use purdolve::demod::{
    ChannelStats, Held, RawColours, Threshold, demodulate, measure, measure_held, read_bits, read_bits_held,
};
use purdolve::illum::{BIQUADRATIC_FROM_VERSION, IlluminationModel, Reference};
use purdolve::layout::Layout;
use purdolve::math::{NormalEquations, least_squares, mad_sigma, median, solve};
use purdolve::modulate::{
    cell_hue, chroma_bit_llrs, grid_level, read, read_list, ring_hue, ring_level, symbol_of_bits,
};
use purdolve::palette::Palette;
use purdolve::{float, mask, symbol};

fn black_and_white() -> Palette {
    Palette {
        hues: 1,
        lab: vec![Lab::new(0.0, 0.0, 0.0), Lab::new(100.0, 0.0, 0.0)],
        level_l: [0.0, 100.0],
        hue_ab: vec![[0.0, 0.0]],
    }
}

fn stats(l0: f32, l1: f32, sigma: f32, levels: [f32; 2]) -> ChannelStats {
    ChannelStats { l0, l1, sigma_l: sigma, sigma_ab: sigma, sigma_ab_level: levels, samples: 0 }
}

#[test]
fn floats() {
    assert_eq!((float::abs(-2.0), float::abs_f64(-2.5)), (2.0, 2.5));
    assert_eq!((float::max(f32::NAN, 2.0), float::min(1.0, 2.0)), (2.0, 1.0));
    assert_eq!((float::clamp(5.0, 0.0, 1.0), float::widen(0.5), float::narrow(0.1)), (1.0, 0.5, 0.1));
    assert_eq!((float::sqrt(2.25), float::cbrt(27.0), float::cbrt(-8.0)), (1.5, 3.0, -2.0));
    assert!(float::sqrt(-1.0).is_nan());
}

#[test]
fn medians_and_deviations() {
    assert_eq!(median(&mut []), 0.0);
    assert_eq!(median(&mut [3.0]), 3.0);
    assert_eq!(median(&mut [4.0, 1.0, 3.0, 2.0]), 2.5);
    assert_eq!(mad_sigma(&[1.0, 1.0, 1.0]), 0.0);
    assert_eq!(mad_sigma(&[]), 0.0);
    assert_eq!(mad_sigma(&[1.0, 2.0, 3.0, 4.0, 5.0]), 1.4826);
}

#[test]
fn linear_systems() {
    assert_eq!(solve(&mut [2.0, 0.0, 0.0, 4.0], &mut [2.0, 8.0], 2), Ok(Some(vec![1.0, 2.0])));
    assert_eq!(solve(&mut [0.0; 4], &mut [2.0, 8.0], 2), Ok(None));
    let rows = [(vec![1.0, 0.0], 3.0), (vec![0.0, 1.0], 4.0), (vec![1.0, 1.0], 7.0)];
    let x = least_squares(&rows, 2).unwrap().unwrap();
    assert!((x[0] - 3.0).abs() < 1e-6 && (x[1] - 4.0).abs() < 1e-6);
    let mut equations = NormalEquations::new(2);
    for (row, target) in &rows {
        equations.add_row(row, *target).unwrap();
    }
    assert_eq!(equations.finish(), Ok(Some(x)));
    assert_eq!(least_squares(&rows[..1], 2), Ok(None));
    assert_eq!(least_squares(&[], 4), Ok(None));
}

#[test]
fn colours() {
    let white = Srgb8::from_hex(0xFFFFFF);
    assert_eq!((white, white.to_hex()), (Srgb8::new(255, 255, 255), 0xFFFFFF));
    assert!((white.rec709_luma() - 255.0).abs() < 1e-3);
    assert_eq!((color::srgb_to_linear(0), color::srgb_to_linear(255)), (0.0, 1.0));
    assert_eq!(color::srgb_to_linear(9).to_bits(), 0x3B33070A);
    assert_eq!(color::srgb8_to_linear(white), Linear::new(1.0, 1.0, 1.0));
    assert_eq!(color::srgb8_to_lab(white), Lab::new(100.0, 0.0, 0.0));
    assert_eq!(color::linear_to_lab(Linear::default()), Lab::default());
    assert_eq!(color::lab_to_linear(Lab::default()), Linear::default());
    let xyz = color::linear_to_xyz(Linear::new(1.0, 1.0, 1.0));
    assert_eq!(xyz.map(f32::to_bits), [0x3F735201, 0x3F800001, 0x3F8B5EC8]);
    assert_eq!(color::lab_to_xyz(Lab::new(100.0, 0.0, 0.0)), [0.95047, 1.0, 1.08883]);
    assert_eq!(color::xyz_to_lab([0.95047, 1.0, 1.08883]), Lab::new(100.0, 0.0, 0.0));
    assert!((color::xyz_to_linear([0.95047, 1.0, 1.08883]).g - 1.0).abs() < 1e-6);
    let c = Linear::new(-1.0, 0.5, 2.0);
    assert_eq!(c.clamped(), Linear::new(0.0, 0.5, 1.0));
    assert!(c.clamped().in_gamut() && !c.in_gamut());
    assert_eq!(Linear::new(1.0, 0.0, 0.0).luminance().to_bits(), 0x3E59B3D0);
    assert_eq!(Lab::new(50.0, 3.0, 4.0).chroma(), 5.0);
    assert_eq!(Lab::new(50.0, 3.0, 4.0).ab_distance(Lab::default()), 5.0);
    let palette = black_and_white();
    assert_eq!((palette.len(), palette.is_empty(), palette.index(true, 7)), (Ok(2), Ok(false), Ok(1)));
}

#[test]
fn symbols_and_masks() {
    assert_eq!((symbol::gray(2), symbol::gray_inverse(3)), (3, 2));
    assert_eq!((symbol::chroma_symbol_to_hue(3, 4), symbol::hue_to_chroma_symbol(2, 4)), (Ok(2), Ok(3)));
    assert!(mask::luma_mask(0, 0, 0) && !mask::luma_mask(0, 1, 0) && mask::luma_mask(8, 0, 0));
    assert_eq!(mask::chroma_rotation(1, 2, 4), Ok(3));
    assert_eq!((mask::chroma_mask_apply(3, 1, 0, 4), mask::chroma_mask_remove(0, 1, 0, 4)), (Ok(0), Ok(3)));
    assert_eq!((symbol_of_bits(&[1, 0], 4), cell_hue(3, 1, 0, 4), ring_hue(3, 4)), (Ok(2), Ok(3), Ok(2)));
    assert_eq!((grid_level(1, 0, 0, 0), ring_level(7)), (0, 1));
    assert_eq!((read(-1.0), read(f32::NAN), read_list(&[1.0, -1.0, 0.0])), (1, 2, vec![0, 1, 2]));
    let mut bits = vec![9.0; 7];
    chroma_bit_llrs(&[0.0, -1.0, -4.0, -9.0], None, 4, &mut bits).unwrap();
    assert_eq!(bits, [4.0, 1.0]);
    chroma_bit_llrs(&[0.0, -1.0, -4.0, -9.0], Some((1, 0)), 4, &mut bits).unwrap();
    assert_eq!(bits, [-1.0, 4.0]);
}

#[test]
fn noise_figures() {
    let palette = black_and_white();
    assert_eq!(ChannelStats::nominal(&palette), Ok(stats(0.0, 100.0, 6.0, [0.0; 2])));
    assert_eq!(stats(0.0, 100.0, 6.0, [2.0, 4.0]).sigma_ab_at(50.0), Ok(3.0));
    let noise = stats(20.0, 80.0, 6.0, [0.0; 2]);
    assert_eq!([50.0, 44.0, 20.0].map(|l| noise.luma_llr(l)), [Ok(0.0), Ok(10.0), Ok(20.0)]);
    let noise = stats(0.0, 100.0, 6.0, [0.0; 2]);
    assert_eq!(noise.reliability(Lab::default(), &palette), Ok(1.0));
    let mut hues = vec![9.0; 7];
    noise.hue_log_likelihoods(Lab::new(0.0, 6.0, 6.0), &palette, &mut hues).unwrap();
    assert_eq!(hues, [-1.0]);
    assert_eq!(noise.margin(&palette), Ok(true));
    assert_eq!(stats(47.0, 53.0, 6.0, [0.0; 2]).margin(&palette), Ok(false));
    assert_eq!(noise.margin_at(Threshold::Thirteen, &palette), Ok(true));
    // 14 × (102 - 8) / 128 is 10.28, and 14 × (102 - 192) / 128 is -9.84
    let between = stats(44.0, 58.0, 8.0, [0.0; 2]);
    assert_eq!(between.margin_at(Threshold::Nine, &palette), Ok(true));
    assert_eq!(between.margin_at(Threshold::Thirteen, &palette), Ok(false));
    assert_eq!(stats(44.0, 56.0, 8.0, [0.0; 2]).margin_at(Threshold::Nine, &palette), Ok(false));
}

/// References at a part of their light.
fn references(n: usize, light: f32) -> Vec<Reference> {
    (0..n)
        .map(|i| {
            let v = (i * 5 % 7) as f32 / 8.0;
            let nominal = Linear::new(v, 0.5 * v + 0.1, (i % 3) as f32 / 4.0);
            let observed = Linear::new(light * nominal.r, light * nominal.g, light * nominal.b);
            Reference { x: (i % 4) as f32, y: (i / 4) as f32, observed, nominal }
        })
        .collect()
}

#[test]
fn marks() {
    let palette = black_and_white();
    let colour = Linear::new(0.5, 0.25, 0.125);
    for (n, light, held) in [(12, 1.0, false), (12, 0.01, true), (7, 0.01, false)] {
        let seen = references(n, light);
        let model = IlluminationModel::fit(&seen, 21, 1).unwrap();
        let marked = model.correct_marked(1.5, 1.5, colour).unwrap();
        assert_eq!((Ok(marked.colour), marked.held), (model.correct(1.5, 1.5, colour), [held; 3]));
        let (stats, marks) = measure_held(&seen, &model, &palette).unwrap();
        assert_eq!((Ok(stats), marks), (measure(&seen, &model, &palette), if held { n } else { 0 }));
        let raw = RawColours { modules: &[colour; 2], cells: &[] };
        let layout = Layout { side: 21, chroma_cell: 1, payload: vec![(0, 0), (1, 0)], ..Layout::default() };
        let wanted = Held { modules: if held { 2 } else { 0 }, cells: 0 };
        let noise = ChannelStats::nominal(&palette).unwrap();
        assert_eq!(demodulate(raw, &layout, &palette, &model, &noise).unwrap().held, wanted);
        let (bits, counts) = read_bits_held(raw, &layout, &palette, &model, &noise, 0).unwrap();
        assert_eq!((Ok(bits), counts), (read_bits(raw, &layout, &palette, &model, &noise, 0), wanted));
    }
}

#[test]
fn models() {
    let model = IlluminationModel::identity(21).unwrap();
    assert_eq!((model.terms(), model.kept, model.rejected, model.residual_rms), (4, 0, 0, 0.0));
    let colour = Linear::new(0.5, 0.25, 0.125);
    assert_eq!(model.correct(3.5, 4.5, colour), Ok(colour));
    assert_eq!(IlluminationModel::fit(&[], 21, BIQUADRATIC_FROM_VERSION - 1), Ok(model));
    assert_eq!(IlluminationModel::fit(&[], 21, BIQUADRATIC_FROM_VERSION).map(|m| m.terms()), Ok(9));
}

#[test]
fn colour_counts() {
    let palette = black_and_white();
    let nominal = ChannelStats::nominal(&palette).unwrap();
    assert_eq!(nominal.colour_counts(&palette), Ok(vec![12_708, 20_060, 0]));
    assert_eq!(stats(50.0, 50.0, 6.0, [0.0; 2]).colour_counts(&palette), Ok(vec![0, 0, 32_768]));
    let three = Palette { hues: 3, ..palette };
    assert_eq!(nominal.colour_counts(&three), Err(purdolve::Refusal::Hues));
}

/// References of a known shade, the third seen far too bright.
fn shaded(n: usize) -> Vec<Reference> {
    let one = |i: usize| {
        let v = 0.1 + 0.07 * (i * 5 % 11) as f32;
        let nominal = Linear::new(v, 0.9 - v, 0.2 + 0.5 * v);
        let seen = if i == 2 { 2.0 } else { 0.8 };
        let observed = Linear::new(seen * nominal.r, seen * nominal.g, seen * nominal.b);
        Reference { x: (i % 5) as f32 * 4.0, y: (i / 5) as f32 * 4.0, observed, nominal }
    };
    (0..n).map(one).collect()
}

#[test]
fn kept_references() {
    let (model, kept) = IlluminationModel::fit_kept(&shaded(16), 21, 1).unwrap();
    assert_eq!(IlluminationModel::fit(&shaded(16), 21, 1), Ok(model));
    assert_eq!(kept.iter().filter(|&&k| k).count(), model.kept as usize);
    assert!(model.kept + model.rejected == 16 && !kept[2]);
    let (model, kept) = IlluminationModel::fit_kept(&shaded(7), 21, 1).unwrap();
    assert_eq!((model.kept, kept), (0, vec![false; 7]));
}
