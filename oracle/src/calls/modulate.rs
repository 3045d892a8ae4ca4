//! symbol.rs, mask.rs and modulate.rs; drawing goes through the Rust's `modulate`, reading is document 01's.
use crate::refusals::*;
use lcr_core::grid::{ModuleGrid, ModuleRole};
use lcr_core::hook::{Shape, set_shape};
use lcr_core::layout::{Layout, NO_CHROMA};
use lcr_core::version::{EccLevel, Profile, Version};
use lcr_core::{FormatInfo, mask, modulate as rust, symbol};

pub use mask::luma_mask;
pub use symbol::{gray, gray_inverse};

/// log2 of a hue count that document 01 allows (some number below 64 for any other).
pub fn bits_a_cell(k: usize) -> usize {
    k.trailing_zeros().min(63) as usize
}

/// The number of entries of the chroma list: cells, then, at cell size 1, ring modules.
pub fn chroma_entries(cells: usize, modules: usize, grid: usize, size: usize) -> usize {
    cells + if size == 1 { modules.saturating_sub(grid) } else { 0 }
}

pub fn chroma_symbol_to_hue(s: usize, k: usize) -> Result<usize, u32> {
    first(&[(3, bad_hues(k))])?;
    Ok(symbol::chroma_symbol_to_hue(s, k))
}

pub fn hue_to_chroma_symbol(h: usize, k: usize) -> Result<usize, u32> {
    first(&[(3, bad_hues(k))])?;
    Ok(symbol::hue_to_chroma_symbol(h, k))
}

fn bad_rotation(cx: u16, cy: u16, k: usize) -> Result<(), u32> {
    first(&[(3, bad_hues(k)), (7, misplaced_cells(&[cx], &[cy]))])
}

pub fn chroma_rotation(cx: u16, cy: u16, k: usize) -> Result<usize, u32> {
    bad_rotation(cx, cy, k)?;
    Ok(mask::chroma_rotation(cx, cy, k))
}

/// Document 01: any hue, answering as for its remainder. The unaltered Rust adds first.
fn reduced(h: usize, k: usize) -> usize {
    if cfg!(proper) { h % k } else { h }
}

pub fn chroma_mask_apply(h: usize, cx: u16, cy: u16, k: usize) -> Result<usize, u32> {
    bad_rotation(cx, cy, k)?;
    Ok(mask::chroma_mask_apply(reduced(h, k), cx, cy, k))
}

pub fn chroma_mask_remove(h: usize, cx: u16, cy: u16, k: usize) -> Result<usize, u32> {
    bad_rotation(cx, cy, k)?;
    Ok(mask::chroma_mask_remove(reduced(h, k), cx, cy, k))
}

pub fn chroma_bit_llrs(ll: &[f32], cell: Option<(u16, u16)>, k: usize, out: &mut [f32]) -> Result<(), u32> {
    let (cx, cy) = cell.unwrap_or((0, 0));
    let lengths = ll.len() < k || out.len() < bits_a_cell(k);
    first(&[(3, bad_hues(k)), (5, lengths), (7, misplaced_cells(&[cx], &[cy]))])?;
    let mut bits = Vec::new();
    rust::chroma_bit_llrs(ll, cell, k, &mut bits);
    out[..bits.len()].copy_from_slice(&bits);
    Ok(())
}

/// Sentences on a list of modules: 5 (pairs), 6 and 7.
pub fn bad_modules(side: usize, xs: &[i32], ys: &[i32], grid: usize) -> [bool; 3] {
    [xs.len() != ys.len(), many(xs.len()) || grid > xs.len(), misplaced_modules(side, grid, xs, ys)]
}

pub fn unmask_luma(luma: &mut [f32], side: usize, xs: &[i32], ys: &[i32], grid: usize, id: u8) -> Result<(), u32> {
    let [pairs, counts, places] = bad_modules(side, xs, ys, grid);
    first(&[(2, bad_side(side)), (5, pairs || luma.len() < xs.len()), (6, counts), (7, places)])?;
    let mut layout = empty_layout(0);
    layout.payload = (0..grid).map(|i| (xs[i] as u16, ys[i] as u16)).collect();
    lcr_decode::demod::unmask_luma(luma, &layout, id);
    Ok(())
}

/// Reading: a score below zero is 1, one above it is 0, and either zero or NaN is 2, no bit.
pub fn read(score: f32) -> u8 {
    if score < 0.0 {
        1
    } else if score > 0.0 {
        0
    } else {
        2
    }
}

pub fn read_list(scores: &[f32], out: &mut [u8]) -> Result<(), u32> {
    first(&[(5, out.len() < scores.len())])?;
    for (o, &s) in out.iter_mut().zip(scores) {
        *o = read(s);
    }
    Ok(())
}

/// Everything that `draw` takes but its two outputs.
#[derive(Clone)]
pub struct Drawing {
    pub bits: Vec<u8>,
    pub side: usize,
    pub k: usize,
    pub size: usize,
    pub xs: Vec<i32>,
    pub ys: Vec<i32>,
    pub grid: usize,
    pub cxs: Vec<u16>,
    pub cys: Vec<u16>,
    pub mask: u8,
}

pub fn draw(d: &Drawing, levels: &mut [u8], hues: &mut [usize]) -> Result<(), u32> {
    let m = d.xs.len();
    let entries = if d.k > 1 { chroma_entries(d.cxs.len(), m, d.grid, d.size) } else { 0 };
    let q = bits_a_cell(d.k);
    let [pairs, counts, places] = bad_modules(d.side, &d.xs, &d.ys, d.grid);
    let lengths = d.cxs.len() != d.cys.len()
        || short(d.bits.len().saturating_sub(m), entries, q)
        || d.bits.len() < m
        || levels.len() < m
        || hues.len() < entries;
    first(&[
        (2, bad_side(d.side)),
        (3, bad_hues(d.k)),
        (4, bad_cell_size(d.size)),
        (5, pairs || lengths),
        (6, counts || many(d.cxs.len())),
        (7, places || misplaced_cells(&d.cxs, &d.cys)),
    ])?;
    set_shape(Some(Shape { hues: d.k, bits: q, cell: d.size as u16 }));
    for (i, level) in levels[..m].iter_mut().enumerate() {
        let colour = if i < d.grid {
            drawn_grid(d, (d.xs[i] as u16, d.ys[i] as u16), None, d.bits[i], &[])
        } else {
            drawn_ring(d, d.bits[i], &[])
        };
        *level = (colour / d.k) as u8;
    }
    for (j, hue) in hues[..entries].iter_mut().enumerate() {
        let symbol = &d.bits[m + j * q..m + (j + 1) * q];
        let colour = match d.cxs.get(j) {
            Some(&cx) => drawn_grid(d, (0, 0), Some((cx, d.cys[j])), 0, symbol),
            None => drawn_ring(d, 0, symbol),
        };
        *hue = colour % d.k;
    }
    set_shape(None);
    Ok(())
}

fn format(mask: u8) -> FormatInfo {
    FormatInfo { version: Version::MIN, profile: Profile::C1, ecc: EccLevel::DEFAULT, mask, reference_border: false }
}

fn booleans(bits: &[u8]) -> Vec<bool> {
    bits.iter().map(|&b| b != 0).collect()
}

/// The palette index that the Rust draws for one grid module in one chroma cell.
fn drawn_grid(d: &Drawing, place: (u16, u16), cell: Option<(u16, u16)>, bit: u8, symbol: &[u8]) -> usize {
    let mut layout = empty_layout(place.0.max(place.1) as usize + 1);
    layout.payload = vec![place];
    if let Some(cell) = cell {
        layout.chroma_cells = vec![cell];
        layout.chroma_of.set(place.0, place.1, 0);
    }
    let drawn = rust::modulate(&layout, format(d.mask), &booleans(&[bit]), &booleans(symbol));
    *drawn.modules.at(place.0, place.1) as usize
}

/// The palette index that the Rust draws for one ring module.
fn drawn_ring(d: &Drawing, bit: u8, symbol: &[u8]) -> usize {
    let mut layout = empty_layout(1);
    layout.ring_cells = 1;
    rust::modulate(&layout, format(d.mask), &booleans(&[bit]), &booleans(symbol)).ring[0] as usize
}

/// A layout with nothing in it, its grids of this side.
pub fn empty_layout(side: usize) -> Layout {
    let side = side as u16;
    Layout {
        version: Version::MIN,
        profile: Profile::C1,
        side,
        roles: ModuleGrid::new(side, ModuleRole::Payload),
        fixed: ModuleGrid::new(side, None),
        ref_color: ModuleGrid::new(side, u8::MAX),
        format_cells: [Vec::new(), Vec::new()],
        payload: Vec::new(),
        chroma_cells: Vec::new(),
        chroma_of: ModuleGrid::new(side, NO_CHROMA),
        alignment_centers: Vec::new(),
        ring_cells: 0,
    }
}
