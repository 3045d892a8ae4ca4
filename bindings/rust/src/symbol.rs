//! Gray code, symbols and hues (`symbol.rs` of the Rust).
use crate::{Refusal, ffi};

/// The reflected binary code of `n`.
pub fn gray(n: usize) -> usize {
    ffi::purdolve_gray(n)
}

/// The number whose reflected binary code is `g`.
pub fn gray_inverse(g: usize) -> usize {
    ffi::purdolve_gray_inverse(g)
}

/// The hue of a symbol. Refused: 3.
pub fn chroma_symbol_to_hue(symbol: usize, hues: usize) -> Result<usize, Refusal> {
    ffi::purdolve_chroma_symbol_to_hue(symbol, hues).checked()
}

/// The symbol of a hue. Refused: 3.
pub fn hue_to_chroma_symbol(hue: usize, hues: usize) -> Result<usize, Refusal> {
    ffi::purdolve_hue_to_chroma_symbol(hue, hues).checked()
}
