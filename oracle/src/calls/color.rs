//! color.rs and palette.rs: every call takes every float; only the palette's places can refuse a hue count.
use crate::refusals::*;
pub use lcr_core::color::*;
use lcr_core::palette::Palette;

/// The linear value of one sRGB byte.
pub fn srgb_to_linear(v: u8) -> f32 {
    srgb_to_linear_f(v as f32 / 255.0)
}

/// A palette in the Rust's form from the flat slice: two levels, a and b per hue, Lab per colour.
pub fn palette(flat: &[f32], k: usize) -> Palette {
    let lab = flat[2 + 2 * k..2 + 8 * k].chunks(3).map(|c| Lab::new(c[0], c[1], c[2])).collect();
    Palette {
        hues: k,
        colors: vec![Srgb8::default(); 2 * k],
        linear: Vec::new(),
        lab,
        level_l: [flat[0], flat[1]],
        hue_ab: flat[2..2 + 2 * k].chunks(2).map(|c| [c[0], c[1]]).collect(),
    }
}

/// The place of a colour among the palette's colours.
pub fn index(l: bool, h: usize, k: usize) -> Result<usize, u32> {
    first(&[(3, bad_hues(k))])?;
    Ok(palette(&vec![0.0; 2 + 8 * k], k).index(l, h))
}

/// The number of the palette's colours.
pub fn len(k: usize) -> Result<usize, u32> {
    first(&[(3, bad_hues(k))])?;
    Ok(palette(&vec![0.0; 2 + 8 * k], k).len())
}

/// Whether the palette has no colours: never.
pub fn is_empty(k: usize) -> Result<bool, u32> {
    first(&[(3, bad_hues(k))])?;
    Ok(palette(&vec![0.0; 2 + 8 * k], k).is_empty())
}
