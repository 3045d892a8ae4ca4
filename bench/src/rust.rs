//! The Rust's side: its functions as published, called without any refusal before them.
use super::Case;
use lcr_core::color::{Linear, linear_to_lab};
use lcr_core::hook::{Shape, set_refining, set_ring_places, set_shape};
use lcr_core::layout::Layout;
use lcr_core::palette::Palette;
use lcr_decode::demod::{ChannelStats, add_local_luma, demodulate, measure};
use lcr_decode::illum::{IlluminationModel, Reference};
use lcr_decode::image::ImageView;
use lcr_decode::math::{median, solve};
use lcr_decode::transform::Transform;
use oracle::calls::color::palette;
use oracle::calls::illum::{linear, references};
use oracle::calls::modulate::{bits_a_cell, empty_layout};
use oracle::card::make::{self, Channel};
use oracle::rng::Rng;
use std::hint::black_box;

/// Palettes, references and modules of a card of this side and hue count, seen through one channel.
pub struct Seen {
    pub side: usize,
    pub k: usize,
    pub flat_palette: Vec<f32>,
    pub flat_references: Vec<f32>,
    pub places: Vec<(i32, i32)>,
    pub raw: Vec<f32>,
}

pub fn seen(side: usize, k: usize, count: usize) -> Seen {
    let rng = &mut Rng::new(100);
    let flat_palette = make::palette(k, 30.0, 75.0, 50.0, 0.0);
    let channel = Channel::new(rng, side);
    let flat_references = make::references(rng, count, side, k, &flat_palette, &channel);
    let places: Vec<(i32, i32)> = (0..side * side).map(|i| ((i % side) as i32, (i / side) as i32)).collect();
    let mut raw = Vec::new();
    for &(x, y) in &places {
        let (light, hue) = (rng.chance(2), rng.below(k));
        raw.extend(channel.observe(rng, x as f64 + 0.5, y as f64 + 0.5, make::colour(&flat_palette, k, light, hue)));
    }
    Seen { side, k, flat_palette, flat_references, places, raw }
}

impl Seen {
    fn palette(&self) -> Palette {
        palette(&self.flat_palette, self.k)
    }

    fn references(&self) -> Vec<Reference> {
        references(&self.flat_references, self.flat_references.len() / 8)
    }

    /// The references in 64 random orders.
    pub fn orders(&self) -> Vec<Vec<f32>> {
        let rng = &mut Rng::new(64);
        let mut one: Vec<&[f32]> = self.flat_references.chunks(8).collect();
        let mut shuffled = || {
            (1..one.len()).rev().for_each(|i| one.swap(i, rng.below(i + 1)));
            one.concat()
        };
        (0..64).map(|_| shuffled()).collect()
    }

    fn colours(&self) -> Vec<Linear> {
        self.raw.chunks(3).map(linear).collect()
    }

    /// All modules as grid modules, each its own cell.
    fn layout(&self) -> Layout {
        let mut layout = empty_layout(0);
        layout.side = self.side as u16;
        layout.payload = self.places.iter().map(|&(x, y)| (x as u16, y as u16)).collect();
        if self.k > 1 {
            layout.chroma_cells = layout.payload.clone();
        }
        layout
    }
}

fn case(name: &'static str, units: usize, call: impl FnMut() + 'static) -> Case {
    Case { name, units, call: Box::new(call) }
}

fn solving(name: &'static str, n: usize) -> Case {
    let rng = &mut Rng::new(n as u64);
    let a: Vec<f64> = (0..n * n).map(|_| rng.normal()).collect();
    let b: Vec<f64> = (0..n).map(|_| rng.normal()).collect();
    let (mut a2, mut b2) = (a.clone(), b.clone());
    case(name, 1, move || {
        a2.copy_from_slice(&a);
        b2.copy_from_slice(&b);
        black_box(solve(&mut a2, &mut b2, n));
    })
}

fn medians(name: &'static str, n: usize) -> Case {
    let rng = &mut Rng::new(n as u64);
    let values: Vec<f32> = (0..n).map(|_| rng.normal() as f32).collect();
    let mut copy = values.clone();
    case(name, 1, move || {
        copy.copy_from_slice(&values);
        black_box(median(&mut copy));
    })
}

fn labs() -> Case {
    let colours = seen(32, 4, 0).colours();
    case("linear_to_lab", colours.len(), move || {
        for &c in &colours {
            black_box(linear_to_lab(c));
        }
    })
}

fn corrections(name: &'static str, version: u8) -> Case {
    let card = seen(32, 4, 64);
    let (model, colours) = (IlluminationModel::fit(&card.references(), 32, version), card.colours());
    case(name, colours.len(), move || {
        for (&c, &(x, y)) in colours.iter().zip(&card.places) {
            black_box(model.correct(x as f32 + 0.5, y as f32 + 0.5, c));
        }
    })
}

fn fits(name: &'static str, n: usize) -> Case {
    let references = seen(32, 4, n).references();
    case(name, 1, move || {
        black_box(IlluminationModel::fit(black_box(&references), 32, 1));
    })
}

fn measurements() -> Case {
    let card = seen(32, 4, 256);
    let (references, palette) = (card.references(), card.palette());
    let model = IlluminationModel::fit(&references, 32, 1);
    case("measure 256", 1, move || {
        black_box(measure(black_box(&references), &model, &palette));
    })
}

/// The same references in 64 orders, one after the other: a processor learns the branches of a call that is made again and again.
fn measurements_in_turn() -> Case {
    let card = seen(32, 4, 256);
    let (orders, palette) = (card.orders(), card.palette());
    let orders: Vec<Vec<Reference>> = orders.iter().map(|flat| references(flat, 256)).collect();
    let model = IlluminationModel::fit(&card.references(), 32, 1);
    let mut turn = 0;
    case("measure 256, in 64 orders", 1, move || {
        turn += 1;
        black_box(measure(black_box(&orders[turn % 64]), &model, &palette));
    })
}

/// `demodulate` with or without its last call, over a card of 32 by 32 modules.
fn scores(name: &'static str, k: usize, refining: bool) -> Case {
    let card = seen(32, k, 64);
    let (layout, palette, modules, references) = (card.layout(), card.palette(), card.colours(), card.references());
    let model = IlluminationModel::fit(&references, 32, 1);
    let stats = measure(&references, &model, &palette);
    case(name, modules.len(), move || {
        set_shape(Some(Shape { hues: k, bits: bits_a_cell(k), cell: 1 }));
        set_ring_places(Vec::new());
        set_refining(refining);
        let image = ImageView::of(&modules, &modules);
        black_box(demodulate(&image, &Transform::IDENTITY, &layout, &palette, &model, &stats, k > 1));
    })
}

/// Refinement of every module: all scores are below 12 in magnitude.
fn refinement() -> Case {
    let card = seen(32, 2, 0);
    let at: Vec<(i32, i32, Linear)> = card.places.iter().zip(card.colours()).map(|(&(x, y), c)| (x, y, c)).collect();
    let palette = card.palette();
    let stats = ChannelStats::nominal(&palette);
    let luma = vec![1.0f32; at.len()];
    let mut copy = luma.clone();
    case("refine, a module", at.len(), move || {
        copy.copy_from_slice(&luma);
        add_local_luma(&mut copy, &at, 32, &palette, &stats, true);
        black_box(&copy);
    })
}

/// Fit, measure and `demodulate` with its last call.
fn whole_card() -> Case {
    let card = seen(32, 2, 64);
    let (layout, palette, modules, references) = (card.layout(), card.palette(), card.colours(), card.references());
    case("whole card", 1, move || {
        set_shape(Some(Shape { hues: 2, bits: 1, cell: 1 }));
        set_ring_places(Vec::new());
        set_refining(true);
        let model = IlluminationModel::fit(&references, 32, 1);
        let stats = measure(&references, &model, &palette);
        let image = ImageView::of(&modules, &modules);
        black_box(demodulate(&image, &Transform::IDENTITY, &layout, &palette, &model, &stats, true));
    })
}

pub fn cases() -> Vec<Case> {
    vec![
        solving("solve 4", 4),
        solving("solve 9", 9),
        solving("solve 18", 18),
        medians("median 100", 100),
        medians("median 1000", 1000),
        labs(),
        corrections("correct, 4 terms", 1),
        corrections("correct, 9 terms", 10),
        fits("fit 64", 64),
        fits("fit 256", 256),
        fits("fit 1024", 1024),
        measurements(),
        measurements_in_turn(),
        scores("score a module, 1 hue", 1, false),
        scores("score a module, 2 hues", 2, false),
        scores("score a module, 4 hues", 4, false),
        refinement(),
        whole_card(),
    ]
}
