//! Bit scores, drawing and reading (`modulate.rs` of the Rust; drawing and reading are the stage's own).
use crate::layout::{Layout, symbol_bits};
use crate::{Refusal, ffi};
use alloc::vec;
use alloc::vec::Vec;

/// The bit scores of one symbol from the log-likelihoods of its hues, positive for 0: of a cell, or, with `None`, of a ring
/// module. `out` is replaced. Refused: 3, 5, 7; `out` is then as it was.
///
/// ```
/// let mut bits = Vec::new();
/// purdolve::modulate::chroma_bit_llrs(&[0.0, -1.0, -4.0, -9.0], Some((1, 0)), 4, &mut bits)?;
/// assert_eq!(bits, [-1.0, 4.0]);
/// # Ok::<(), purdolve::Refusal>(())
/// ```
pub fn chroma_bit_llrs(
    hue_ll: &[f32],
    cell: Option<(u16, u16)>,
    hues: usize,
    out: &mut Vec<f32>,
) -> Result<(), Refusal> {
    let mut bits = [0.0; 4];
    Refusal::check(ffi::chroma_bit_llrs(hue_ll, cell, hues, &mut bits))?;
    out.clear();
    out.extend_from_slice(&bits[..symbol_bits(hues)]);
    Ok(())
}

/// What a card is drawn in.
#[derive(Clone, PartialEq, Eq, Debug)]
pub struct Drawn {
    /// The level of each module, 1 for light.
    pub levels: Vec<u8>,
    /// The hue of each symbol; empty with chroma off.
    pub hues: Vec<usize>,
}

/// Draws a card from its bits, other than 0 being 1: one for each module, then those of the symbols, high bit first.
/// Refused: 2, 3, 4, 5, 6, 7.
pub fn draw(bits: &[u8], layout: &Layout, hues: usize, mask_id: u8) -> Result<Drawn, Refusal> {
    let places = layout.places();
    let symbols = if symbol_bits(hues) > 0 { layout.symbols() } else { 0 };
    let mut drawn = Drawn { levels: vec![0; places.xs.len()], hues: vec![0; symbols] };
    Refusal::check(ffi::draw(bits, &places, hues, mask_id, &mut drawn.levels, &mut drawn.hues))?;
    Ok(drawn)
}

/// The level of a grid module, 1 for light: its bit, turned where the mask turns it.
pub fn grid_level(bit: u8, mask_id: u8, x: u16, y: u16) -> u8 {
    ffi::purdolve_grid_level(bit, mask_id, x, y)
}

/// The level of a ring module, 1 for light: its bit.
pub fn ring_level(bit: u8) -> u8 {
    ffi::purdolve_ring_level(bit)
}

/// The symbol of the first log2(hues) bits, high bit first. Refused: 3, 5.
pub fn symbol_of_bits(bits: &[u8], hues: usize) -> Result<usize, Refusal> {
    ffi::symbol_of_bits(bits, hues).checked()
}

/// The hue in which cell (cx, cy) is drawn for its symbol. Refused: 3, 7.
pub fn cell_hue(symbol: usize, cx: u16, cy: u16, hues: usize) -> Result<usize, Refusal> {
    ffi::purdolve_cell_hue(symbol, cx, cy, hues).checked()
}

/// The hue in which a ring module is drawn for its symbol. Refused: 3.
pub fn ring_hue(symbol: usize, hues: usize) -> Result<usize, Refusal> {
    ffi::purdolve_ring_hue(symbol, hues).checked()
}

/// The bit that a score stands for: 1 below zero, 0 above it, and 2, an erasure for the error corrector, for either
/// zero and for NaN. 2 is no bit to draw: [`draw`] takes it for 1.
pub fn read(score: f32) -> u8 {
    ffi::purdolve_read(score)
}

/// The bit of each score, or 2.
pub fn read_list(scores: &[f32]) -> Vec<u8> {
    let mut bits = vec![0; scores.len()];
    // Room for one bit a score is never refused.
    ffi::read_list(scores, &mut bits);
    bits
}
