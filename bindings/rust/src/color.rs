//! Colours and their conversions (`color.rs` of the Rust). Every float is taken; nothing is refused.
use crate::ffi;

/// An encoded sRGB colour.
#[repr(C)]
#[derive(Copy, Clone, PartialEq, Eq, Debug, Default, Hash)]
pub struct Srgb8 {
    /// Red.
    pub r: u8,
    /// Green.
    pub g: u8,
    /// Blue.
    pub b: u8,
}

impl Srgb8 {
    /// From its components.
    pub const fn new(r: u8, g: u8, b: u8) -> Srgb8 {
        Srgb8 { r, g, b }
    }

    /// From 0xRRGGBB.
    pub fn from_hex(hex: u32) -> Srgb8 {
        ffi::purdolve_from_hex(hex)
    }

    /// 0xRRGGBB.
    pub fn to_hex(self) -> u32 {
        ffi::purdolve_to_hex(self)
    }

    /// Rec. 709 luma of the encoded values, from 0 to 255.
    pub fn rec709_luma(self) -> f32 {
        ffi::purdolve_rec709_luma(self)
    }
}

/// Linear light, nominally from 0 to 1.
#[repr(C)]
#[derive(Copy, Clone, PartialEq, Debug, Default)]
pub struct Linear {
    /// Red.
    pub r: f32,
    /// Green.
    pub g: f32,
    /// Blue.
    pub b: f32,
}

impl Linear {
    /// From its components.
    pub const fn new(r: f32, g: f32, b: f32) -> Linear {
        Linear { r, g, b }
    }

    /// Each component held to the range from 0 to 1.
    pub fn clamped(self) -> Linear {
        ffi::purdolve_clamped(self)
    }

    /// Whether each component is from 0 to 1, give or take 1e-4.
    pub fn in_gamut(self) -> bool {
        ffi::purdolve_in_gamut(self)
    }

    /// Relative luminance.
    pub fn luminance(self) -> f32 {
        ffi::purdolve_luminance(self)
    }
}

/// CIELAB under D65.
#[repr(C)]
#[derive(Copy, Clone, PartialEq, Debug, Default)]
pub struct Lab {
    /// Lightness.
    pub l: f32,
    /// Green to red.
    pub a: f32,
    /// Blue to yellow.
    pub b: f32,
}

impl Lab {
    /// From its components.
    pub const fn new(l: f32, a: f32, b: f32) -> Lab {
        Lab { l, a, b }
    }

    /// Chroma.
    pub fn chroma(self) -> f32 {
        ffi::purdolve_chroma(self)
    }

    /// The distance in the plane of a and b.
    pub fn ab_distance(self, other: Lab) -> f32 {
        ffi::purdolve_ab_distance(self, other)
    }
}

/// The linear light of an sRGB byte: the float nearest IEC 61966-2-1.
pub fn srgb_to_linear(v: u8) -> f32 {
    ffi::purdolve_srgb_to_linear(v)
}

/// The linear light of an sRGB colour.
pub fn srgb8_to_linear(c: Srgb8) -> Linear {
    ffi::purdolve_srgb8_to_linear(c)
}

/// sRGB to CIELAB.
///
/// ```
/// use purdolve::color::{Lab, Srgb8, srgb8_to_lab};
/// assert_eq!(srgb8_to_lab(Srgb8::from_hex(0xFFFFFF)), Lab::new(100.0, 0.0, 0.0));
/// ```
pub fn srgb8_to_lab(c: Srgb8) -> Lab {
    ffi::purdolve_srgb8_to_lab(c)
}

/// Linear sRGB to XYZ.
pub fn linear_to_xyz(c: Linear) -> [f32; 3] {
    ffi::purdolve_linear_to_xyz(c).into()
}

/// XYZ to linear sRGB, which may lie outside the gamut.
pub fn xyz_to_linear(xyz: [f32; 3]) -> Linear {
    ffi::purdolve_xyz_to_linear(xyz.into())
}

/// XYZ to CIELAB.
pub fn xyz_to_lab(xyz: [f32; 3]) -> Lab {
    ffi::purdolve_xyz_to_lab(xyz.into())
}

/// CIELAB to XYZ.
pub fn lab_to_xyz(lab: Lab) -> [f32; 3] {
    ffi::purdolve_lab_to_xyz(lab).into()
}

/// Linear sRGB to CIELAB.
pub fn linear_to_lab(c: Linear) -> Lab {
    ffi::purdolve_linear_to_lab(c)
}

/// CIELAB to linear sRGB, which may lie outside the gamut.
pub fn lab_to_linear(lab: Lab) -> Linear {
    ffi::purdolve_lab_to_linear(lab)
}
