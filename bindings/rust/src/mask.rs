//! Luma masks and hue rotation (`mask.rs` of the Rust).
use crate::{Refusal, ffi};

/// Number of luma masks.
pub const MASK_COUNT: u8 = 8;

/// Whether luma mask `id`, of which the low three bits count, turns the bit of module (x, y).
pub fn luma_mask(id: u8, x: u16, y: u16) -> bool {
    ffi::purdolve_luma_mask(id, x, y)
}

/// By how many hues cell (cx, cy) is rotated. Refused: 3, 7.
pub fn chroma_rotation(cx: u16, cy: u16, hues: usize) -> Result<usize, Refusal> {
    ffi::purdolve_chroma_rotation(cx, cy, hues).checked()
}

/// The hue rotated as cell (cx, cy) is. Refused: 3, 7.
pub fn chroma_mask_apply(hue: usize, cx: u16, cy: u16, hues: usize) -> Result<usize, Refusal> {
    ffi::purdolve_chroma_mask_apply(hue, cx, cy, hues).checked()
}

/// The hue rotated back. Refused: 3, 7.
pub fn chroma_mask_remove(hue: usize, cx: u16, cy: u16, hues: usize) -> Result<usize, Refusal> {
    ffi::purdolve_chroma_mask_remove(hue, cx, cy, hues).checked()
}
