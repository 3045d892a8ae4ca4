//! The palette as the stage takes it (`palette.rs` of the Rust, without its constructors).
use crate::color::Lab;
use crate::{Refusal, ffi};
use alloc::vec::Vec;

/// A card's inks: two levels of each hue. A reader fills these from the fields of the same names of its own palette.
#[derive(Clone, Debug)]
pub struct Palette {
    /// Number of hues.
    pub hues: usize,
    /// Lab of each colour: the dark ones by hue, then the light ones.
    pub lab: Vec<Lab>,
    /// L of the dark and of the light level.
    pub level_l: [f32; 2],
    /// a and b of each hue.
    pub hue_ab: Vec<[f32; 2]>,
}

impl Palette {
    /// Number of colours. Refused: 3.
    pub fn len(&self) -> Result<usize, Refusal> {
        let answer = ffi::purdolve_palette_len(self.hues);
        Refusal::check(answer.number).map(|()| answer.value)
    }

    /// Whether it has no colour, which is false. Refused: 3.
    pub fn is_empty(&self) -> Result<bool, Refusal> {
        let answer = ffi::purdolve_palette_is_empty(self.hues);
        Refusal::check(answer.number).map(|()| answer.yes)
    }

    /// The place of the colour of level `l`, light where true, and hue `h`. Refused: 3.
    pub fn index(&self, l: bool, h: usize) -> Result<usize, Refusal> {
        let answer = ffi::purdolve_palette_index(l, h, self.hues);
        Refusal::check(answer.number).map(|()| answer.value)
    }

    /// The numbers in the order in which the stage takes them. Where a list is too short they end there, so that the call
    /// is refused by 5.
    pub(crate) fn flat(&self) -> Vec<f32> {
        let mut flat = Vec::from(self.level_l);
        flat.extend(self.hue_ab.iter().take(self.hues).flatten());
        if self.hue_ab.len() >= self.hues {
            let colours = self.lab.iter().take(self.hues.saturating_mul(2));
            flat.extend(colours.flat_map(|c| [c.l, c.a, c.b]));
        }
        flat
    }
}
