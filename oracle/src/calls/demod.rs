//! demod.rs: scoring, which is `demodulate` without its last call.
use super::color::palette;
use super::illum::{Model, any_held, linear, unbounded_colour};
use super::modulate::{bad_modules, bits_a_cell, chroma_entries, empty_layout};
use super::stats::*;
use crate::refusals::*;
use lcr_core::color::Linear;
use lcr_core::hook::{Shape, set_refining, set_ring_places, set_shape};
use lcr_decode::demod::{Demodulation, demodulate};
use lcr_decode::image::ImageView;
use lcr_decode::transform::Transform;

/// Everything that scoring takes but its outputs.
#[derive(Clone)]
pub struct Scoring {
    pub side: usize,
    pub k: usize,
    pub size: usize,
    pub xs: Vec<i32>,
    pub ys: Vec<i32>,
    pub grid: usize,
    pub raw: Vec<f32>,
    pub cxs: Vec<u16>,
    pub cys: Vec<u16>,
    pub cell_raw: Vec<f32>,
    pub palette: Vec<f32>,
    pub model: Model,
    pub stats: ChannelStats,
}

/// The first 3 n floats, or as many as there are.
fn used(colours: &[f32], n: usize) -> &[f32] {
    &colours[..colours.len().min(3 * n)]
}

impl Scoring {
    /// Entries of the chroma score list; none with chroma off.
    pub fn entries(&self) -> usize {
        if self.k == 1 { 0 } else { chroma_entries(self.cxs.len(), self.xs.len(), self.grid, self.size) }
    }

    fn refused(&self, luma: usize, colours: usize, chroma: usize) -> Result<(), u32> {
        let (m, c) = (self.xs.len(), self.cxs.len());
        let [pairs, counts, places] = bad_modules(self.side, &self.xs, &self.ys, self.grid);
        let inputs = pairs || c != self.cys.len() || short(self.raw.len(), m, 3) || short(self.cell_raw.len(), c, 3);
        let outputs = luma < m || short(colours, m, 3) || short(chroma, self.entries(), bits_a_cell(self.k));
        let colours = unbounded(used(&self.raw, m)) || unbounded(used(&self.cell_raw, c));
        first(&[
            (2, bad_side(self.side)),
            (3, bad_hues(self.k)),
            (4, bad_cell_size(self.size)),
            (5, inputs || outputs || short_palette(&self.palette, self.k)),
            (6, counts || many(c)),
            (7, places || misplaced_cells(&self.cxs, &self.cys)),
            (8, colours || bad_palette(&self.palette, self.k) || bad_figures(&self.stats)),
            (9, bad_record(&self.stats)),
            (10, self.model.bad()),
        ])?;
        first(&[(12, self.beyond())])
    }

    /// Where the modules stand, and the cells that are corrected: none with chroma off.
    fn centres(&self) -> [Vec<(f32, f32)>; 2] {
        let module = |i: usize| (self.xs[i] as f32 + 0.5, self.ys[i] as f32 + 0.5);
        let size = self.size as f32;
        let centre = |c: u16| c as f32 * size + size / 2.0;
        let cell = |i: usize| (centre(self.cxs[i]), centre(self.cys[i]));
        let cells = if self.k > 1 { self.cxs.len() } else { 0 };
        [(0..self.xs.len()).map(module).collect(), (0..cells).map(cell).collect()]
    }

    /// 12: a corrected colour of a module or, with chroma on, of a cell.
    fn beyond(&self) -> bool {
        let model = self.model.rust();
        self.centres().iter().zip([&self.raw, &self.cell_raw]).any(|(places, raw)| {
            places.iter().zip(raw.chunks(3)).any(|(&(x, y), c)| unbounded_colour(model.correct(x, y, linear(c))))
        })
    }

    /// How many modules and how many cells have a mark.
    fn held(&self) -> [usize; 2] {
        self.centres().map(|places| places.iter().filter(|&&(x, y)| any_held(&self.model, x, y)).count())
    }

    /// The Rust's `demodulate` on the raw colours, with or without its last call.
    pub fn demodulated(&self, refining: bool) -> Demodulation {
        let mut layout = empty_layout(0);
        layout.side = self.side as u16;
        layout.payload = (0..self.grid).map(|i| (self.xs[i] as u16, self.ys[i] as u16)).collect();
        layout.chroma_cells = self.cxs.iter().copied().zip(self.cys.iter().copied()).collect();
        layout.ring_cells = self.xs.len() - self.grid;
        set_shape(Some(Shape { hues: self.k, bits: bits_a_cell(self.k), cell: self.size as u16 }));
        set_ring_places((self.grid..self.xs.len()).map(|i| (self.xs[i], self.ys[i])).collect());
        set_refining(refining);
        let colours = |flat: &[f32], n: usize| -> Vec<Linear> { flat[..3 * n].chunks(3).map(linear).collect() };
        let (modules, cells) = (colours(&self.raw, self.xs.len()), colours(&self.cell_raw, self.cxs.len()));
        let image = ImageView::of(&modules, &cells);
        let palette = palette(&self.palette, self.k);
        let out =
            demodulate(&image, &Transform::IDENTITY, &layout, &palette, &self.model.rust(), &self.stats, self.k > 1);
        set_shape(None);
        set_refining(true);
        out
    }
}

/// How many modules and how many cells have a mark.
pub fn score(q: &Scoring, luma: &mut [f32], colours: &mut [f32], chroma: &mut [f32]) -> Result<[usize; 2], u32> {
    q.refused(luma.len(), colours.len(), chroma.len())?;
    let scored = q.demodulated(false);
    luma[..scored.luma.len()].copy_from_slice(&scored.luma);
    chroma[..scored.chroma.len()].copy_from_slice(&scored.chroma);
    for (out, c) in colours.chunks_mut(3).zip(&scored.colours) {
        out.copy_from_slice(&[c.r, c.g, c.b]);
    }
    Ok(q.held())
}
