//! Each refusal, by a call that gives it, and what was lent to a refused call.
use purdolve::Refusal;
use purdolve::color::{Lab, Linear};
use purdolve::demod::{
    ChannelStats, Demodulation, RawColours, Threshold, add_local_luma, demodulate, measure, unmask_luma,
};
use purdolve::illum::{IlluminationModel, Reference};
use purdolve::layout::Layout;
use purdolve::math::{NormalEquations, least_squares, solve};
use purdolve::modulate::{chroma_bit_llrs, draw};
use purdolve::near::{Query, near};
use purdolve::page::page;
use purdolve::palette::Palette;
use purdolve::readcard::read_card;
use purdolve::totals::Totals;
use purdolve::{mask, symbol};

const WHITE: Linear = Linear::new(1.0, 1.0, 1.0);

fn black_and_white() -> Palette {
    Palette {
        hues: 1,
        lab: vec![Lab::new(0.0, 0.0, 0.0), Lab::new(100.0, 0.0, 0.0)],
        level_l: [0.0, 100.0],
        hue_ab: vec![[0.0, 0.0]],
    }
}

fn two_modules() -> Layout {
    Layout { side: 21, chroma_cell: 1, payload: vec![(0, 0), (1, 0)], ..Layout::default() }
}

fn noise() -> ChannelStats {
    ChannelStats::nominal(&black_and_white()).unwrap()
}

/// Scores two white modules of a layout.
fn scored(layout: &Layout, palette: &Palette, stats: &ChannelStats) -> Result<Demodulation, Refusal> {
    let model = IlluminationModel::identity(21).unwrap();
    demodulate(RawColours { modules: &[WHITE; 2], cells: &[] }, layout, palette, &model, stats)
}

/// References on a plane, observed in `light`.
fn references(count: usize, light: f32) -> Vec<Reference> {
    let nominal = |i: usize| Linear::new((i % 3) as f32 / 2.0, (i % 5) as f32 / 4.0, (i % 7) as f32 / 6.0);
    let seen = |c: Linear| Linear::new(light * c.r, light * c.g, light * c.b);
    let at = |i: usize| (i % 6) as f32;
    (0..count).map(|i| Reference { x: at(i), y: at(i / 6), observed: seen(nominal(i)), nominal: nominal(i) }).collect()
}

#[test]
fn card_file() {
    assert_eq!(read_card(&[]), Err(Refusal::CardFile));
    assert_eq!(read_card(&[0; 16385]), Err(Refusal::CardFile));
}

#[test]
fn side() {
    assert_eq!(IlluminationModel::identity(0), Err(Refusal::Side));
    assert_eq!(IlluminationModel::fit(&[], 1025, 1), Err(Refusal::Side));
    let layout = Layout { side: u16::MAX, ..two_modules() };
    assert_eq!(scored(&layout, &black_and_white(), &noise()).unwrap_err(), Refusal::Side);
    let at = [(0, 0, WHITE)];
    assert_eq!(add_local_luma(&mut [1.0], &at, u16::MAX, &black_and_white(), &noise()), Err(Refusal::Side));
}

#[test]
fn hues() {
    assert_eq!(symbol::chroma_symbol_to_hue(1, 3), Err(Refusal::Hues));
    assert_eq!(mask::chroma_mask_apply(1, 0, 0, 0), Err(Refusal::Hues));
    let palette = Palette { hues: 32, ..black_and_white() };
    assert_eq!(palette.index(false, 0), Err(Refusal::Hues));
    assert_eq!(scored(&two_modules(), &palette, &noise()).unwrap_err(), Refusal::Hues);
    assert_eq!(ChannelStats::nominal(&Palette { hues: usize::MAX, ..palette }), Err(Refusal::Hues));
}

#[test]
fn cell_size() {
    for chroma_cell in [0, 17] {
        let layout = Layout { chroma_cell, ..two_modules() };
        assert_eq!(scored(&layout, &black_and_white(), &noise()).unwrap_err(), Refusal::CellSize);
        assert_eq!(draw(&[0, 0], &layout, 1, 0), Err(Refusal::CellSize));
    }
}

#[test]
fn lengths() {
    assert_eq!(solve(&mut [1.0; 3], &mut [1.0; 2], 2), Err(Refusal::Length));
    assert_eq!(solve(&mut [1.0; 4], &mut [1.0; 2], usize::MAX), Err(Refusal::Length));
    assert_eq!(least_squares(&[(vec![1.0], 1.0), (vec![1.0, 2.0], 1.0)], 2), Err(Refusal::Length));
    assert_eq!(least_squares(&[(vec![1.0], 1.0)], usize::MAX), Err(Refusal::Length));
    assert_eq!(draw(&[0], &two_modules(), 1, 0), Err(Refusal::Length));
    assert_eq!(unmask_luma(&mut [1.0], &two_modules(), 0), Err(Refusal::Length));
    for palette in [
        Palette { hue_ab: vec![], ..black_and_white() },
        Palette { lab: vec![Lab::default()], ..black_and_white() },
        Palette { hues: 2, ..black_and_white() },
    ] {
        assert_eq!(ChannelStats::nominal(&palette), Err(Refusal::Length));
    }
    let mut out = vec![9.0];
    assert_eq!(chroma_bit_llrs(&[0.0; 3], None, 4, &mut out), Err(Refusal::Length));
    assert_eq!(out, [9.0]);
}

#[test]
fn counts() {
    assert_eq!(solve(&mut [1.0; 4], &mut [1.0; 2], 0), Err(Refusal::Count));
    assert_eq!(solve(&mut [1.0; 361], &mut [1.0; 19], 19), Err(Refusal::Count));
    assert_eq!(least_squares(&[(vec![1.0; 19], 1.0)], 19), Err(Refusal::Count));
    assert_eq!(least_squares(&[], usize::MAX), Err(Refusal::Count));
    assert_eq!(least_squares(&[], 0), Err(Refusal::Count));
    assert_eq!(NormalEquations::new(0).finish(), Err(Refusal::Count));
    assert_eq!(IlluminationModel::fit(&references(16385, 1.0), 21, 1), Err(Refusal::Count));
}

#[test]
fn places() {
    let mut refs = references(1, 1.0);
    refs[0].x = 37.5;
    assert_eq!(IlluminationModel::fit(&refs, 21, 1), Err(Refusal::Place));
    assert_eq!(mask::chroma_rotation(1024, 0, 4), Err(Refusal::Place));
    let layout = Layout { payload: vec![(0, 0), (21, 0)], ..two_modules() };
    assert_eq!(scored(&layout, &black_and_white(), &noise()).unwrap_err(), Refusal::Place);
    let mut luma = [1.0];
    let at = [(-7, 0, WHITE)];
    assert_eq!(add_local_luma(&mut luma, &at, 21, &black_and_white(), &noise()), Err(Refusal::Place));
    assert_eq!(luma, [1.0]);
}

#[test]
fn numbers() {
    let model = IlluminationModel::identity(21).unwrap();
    assert_eq!(model.correct(0.0, 0.0, Linear::new(0.0, 2e6, 0.0)), Err(Refusal::Number));
    let mut refs = references(1, 1.0);
    refs[0].observed.g = f32::NAN;
    assert_eq!(IlluminationModel::fit(&refs, 21, 1), Err(Refusal::Number));
    assert_eq!(measure(&refs, &model, &black_and_white()), Err(Refusal::Number));
    let palette = Palette { level_l: [0.0, f32::INFINITY], ..black_and_white() };
    assert_eq!(ChannelStats::nominal(&palette), Err(Refusal::Number));
    assert_eq!(ChannelStats { l0: 2e12, ..noise() }.luma_llr(0.0), Err(Refusal::Number));
    let mut luma = [f32::NAN];
    let at = [(0, 0, WHITE)];
    assert_eq!(add_local_luma(&mut luma, &at, 21, &black_and_white(), &noise()), Err(Refusal::Number));
}

#[test]
fn sigmas() {
    let fine = ChannelStats { sigma_ab_level: [0.0, 0.5], ..noise() };
    assert_eq!(fine.sigma_ab_at(50.0), Err(Refusal::Sigma));
    assert_eq!(fine.margin(&black_and_white()), Err(Refusal::Sigma));
    assert_eq!(fine.margin_at(Threshold::Nine, &black_and_white()), Err(Refusal::Sigma));
    assert_eq!(scored(&two_modules(), &black_and_white(), &fine).unwrap_err(), Refusal::Sigma);
}

#[test]
fn model() {
    let mut model = IlluminationModel::identity(21).unwrap();
    model.residual_rms = f32::NAN;
    assert_eq!(model.correct(0.0, 0.0, WHITE), Err(Refusal::Model));
    assert_eq!(measure(&[], &model, &black_and_white()), Err(Refusal::Model));
}

#[test]
fn fit() {
    let mut refs = references(8, 1.0);
    for (i, r) in refs.iter_mut().enumerate() {
        r.nominal.r = (i % 3) as f32 * 1e38;
        r.observed.r = (i % 5) as f32 * 5e37;
    }
    assert_eq!(IlluminationModel::fit(&refs, 21, 1), Err(Refusal::Fit));
}

#[test]
fn corrected() {
    // Fitted where it is nearly dark, so that the model makes everything a million times as bright.
    let model = IlluminationModel::fit(&references(36, 1e-6), 21, 1).unwrap();
    let mut bright = references(8, 1.0);
    bright[3].observed = Linear::new(100.0, 100.0, 100.0);
    assert_eq!(measure(&bright, &model, &black_and_white()), Err(Refusal::Corrected));
    let raw = RawColours { modules: &[Linear::new(100.0, 100.0, 100.0); 2], cells: &[] };
    let scores = demodulate(raw, &two_modules(), &black_and_white(), &model, &noise());
    assert_eq!(scores.unwrap_err(), Refusal::Corrected);
}

#[test]
fn wide_page() -> Result<(), Refusal> {
    let at = |side| Layout { side, payload: vec![(0, 0), (1, 0), (0, 0)], ..Layout::default() };
    let model = IlluminationModel::identity(40)?;
    let text = page(&[1.0, f32::NAN, -1.0], &at(40), &model, 0)?;
    assert_eq!(text.len(), 51 * 41);
    assert_eq!(text.lines().nth(1), Some("12......................................          "));
    assert_eq!(page(&[1.0; 3], &at(41), &model, 0), Err(Refusal::Page));
    assert_eq!(page(&[1.0; 2], &at(41), &model, 0), Err(Refusal::Length));
    assert_eq!(page(&[1.0; 3], &at(1), &model, 0), Err(Refusal::Place));
    assert_eq!(page(&[1.0; 3], &at(41), &model, 1_048_577), Err(Refusal::Count));
    let mut many = model;
    many.kept = 16_385;
    assert_eq!(page(&[1.0; 3], &at(41), &many, 0), Err(Refusal::Count));
    Ok(())
}

#[test]
fn radius() {
    let at = |radius, module| near(&[[10.5, 10.5]], &[true], 21, module, Query::Within(radius));
    assert_eq!(at(-0.0, (10, 10)), Ok(vec![0]));
    for radius in [-1e-45, -1.0, f32::NAN, f32::INFINITY, f32::NEG_INFINITY] {
        assert_eq!(at(radius, (10, 10)), Err(Refusal::Radius));
        assert_eq!(at(radius, (27, 10)), Err(Refusal::Place));
    }
    assert_eq!(near(&[[10.5, 10.5]], &[], 21, (10, 10), Query::Within(-1.0)), Err(Refusal::Length));
    assert_eq!(near(&[[0.0; 2]; 16385], &[true; 16385], 21, (0, 0), Query::Nearest), Err(Refusal::Count));
    assert_eq!(near(&[], &[], 0, (0, 0), Query::CutOff(0)), Err(Refusal::Side));
}

#[test]
fn a_refusal_has_its_number_and_sentence() {
    let refusal = IlluminationModel::identity(0).unwrap_err();
    assert_eq!(refusal.number(), 2);
    assert_eq!(refusal.to_string(), "refused 2: The side is 0 or above 1,024.");
}

#[test]
fn totals() {
    let full = Totals { cards: 65_535, ..Totals::default() };
    assert_eq!(full.add_card(&[1.0]), Err(Refusal::Totals));
    assert_eq!(full.add(&Totals { cards: 1, ..Totals::default() }), Err(Refusal::Totals));
    assert_eq!(full.add(&Totals::default()), Ok(full));
    assert_eq!(Totals { cards: 1, modules: 1, sum: 1_310_721, ..Totals::default() }.mean(), Err(Refusal::Totals));
    assert_eq!(Totals::default().add_card(&vec![0.0; 1_048_577]), Err(Refusal::Count));
}

#[test]
fn score() {
    for bad in [f32::NAN, f32::INFINITY, -20.000_002] {
        assert_eq!(Totals::default().add_card(&[1.0, bad]), Err(Refusal::Score));
    }
    assert_eq!(Totals::default().add_card(&[20.0, -20.0]).unwrap().sum, 40 * 65_536);
}
