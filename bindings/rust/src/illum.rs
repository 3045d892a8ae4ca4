//! The illumination model and its fit (`illum.rs` of the Rust).
use crate::color::Linear;
use crate::{Refusal, ffi};
use alloc::vec;
use alloc::vec::Vec;

/// The version from which on a model's surfaces have 9 terms; below it they have 4.
pub const BIQUADRATIC_FROM_VERSION: u8 = 10;

/// One known colour, observed.
#[repr(C)]
#[derive(Copy, Clone, Debug)]
pub struct Reference {
    /// Position in modules, across; (0.5, 0.5) is the centre of module (0, 0).
    pub x: f32,
    /// Position in modules, down.
    pub y: f32,
    /// What the camera saw.
    pub observed: Linear,
    /// What was printed.
    pub nominal: Linear,
}

/// A fitted correction from observed to nominal colours.
#[repr(C)]
#[derive(Copy, Clone, PartialEq, Debug)]
pub struct IlluminationModel {
    affine: [[f64; 4]; 3],
    gain: [[f64; 9]; 3],
    flare: [[f64; 9]; 3],
    terms: usize,
    side: f32,
    /// Root mean square of the residuals of the references kept.
    pub residual_rms: f32,
    /// References that the fit set aside.
    pub rejected: u32,
    /// References that it rests on.
    pub kept: u32,
}

/// A corrected colour, with a mark for each channel.
#[derive(Copy, Clone, PartialEq, Debug)]
pub struct Marked {
    /// The colour, as [`IlluminationModel::correct`] gives it.
    pub colour: Linear,
    /// Red, green, blue: whether the channel's gain at the position was under 0.05 in magnitude, and so was held at 0.05.
    pub held: [bool; 3],
}

impl IlluminationModel {
    /// The model that corrects nothing. Refused: 2.
    pub fn identity(side: u16) -> Result<IlluminationModel, Refusal> {
        let answer = ffi::purdolve_identity(side.into());
        Refusal::check(answer.number).map(|()| answer.model)
    }

    /// Fits the model to references. Refused: 2, 6, 7, 8 (only where a colour is not finite), 11.
    ///
    /// ```
    /// use purdolve::illum::IlluminationModel;
    /// let model = IlluminationModel::fit(&[], 21, 10)?;
    /// assert_eq!((model.terms(), model.kept, model.rejected), (9, 0, 0));
    /// # Ok::<(), purdolve::Refusal>(())
    /// ```
    pub fn fit(refs: &[Reference], side: u16, version: u8) -> Result<IlluminationModel, Refusal> {
        IlluminationModel::fit_kept(refs, side, version).map(|(model, _)| model)
    }

    /// Fits the model, and says which references were kept: none where the model's `kept` is 0. Refused as `fit`.
    ///
    /// ```
    /// use purdolve::color::Linear;
    /// use purdolve::illum::{IlluminationModel, Reference};
    /// let grey = Linear::new(0.5, 0.5, 0.5);
    /// let (model, kept) = IlluminationModel::fit_kept(&[Reference { x: 0.5, y: 0.5, observed: grey, nominal: grey }], 21, 1)?;
    /// assert_eq!((model.kept, kept), (0, vec![false]));
    /// # Ok::<(), purdolve::Refusal>(())
    /// ```
    pub fn fit_kept(refs: &[Reference], side: u16, version: u8) -> Result<(IlluminationModel, Vec<bool>), Refusal> {
        let mut kept = vec![0; refs.len()];
        let mut scratch = vec![0.0; 4 * refs.len()];
        let answer = ffi::fit_flat(ffi::flat(refs), side.into(), version, &mut kept, &mut scratch);
        Refusal::check(answer.number).map(|()| (answer.model, kept.iter().map(|&mark| mark != 0).collect()))
    }

    /// A colour observed at a position, any float, as it would be under even light. Refused: 8, 10.
    pub fn correct(&self, x: f32, y: f32, observed: Linear) -> Result<Linear, Refusal> {
        self.correct_marked(x, y, observed).map(|marked| marked.colour)
    }

    /// The same, with the channels whose gain was held. Refused: 8, 10.
    ///
    /// ```
    /// use purdolve::{color::Linear, illum::IlluminationModel};
    /// let model = IlluminationModel::identity(21)?;
    /// let marked = model.correct_marked(0.5, 0.5, Linear { r: 1.0, g: 0.5, b: 0.25 })?;
    /// assert_eq!((marked.colour.g, marked.held), (0.5, [false; 3]));
    /// # Ok::<(), purdolve::Refusal>(())
    /// ```
    pub fn correct_marked(&self, x: f32, y: f32, observed: Linear) -> Result<Marked, Refusal> {
        let answer = ffi::purdolve_correct_lent(
            self.terms,
            self.side,
            self.residual_rms,
            &self.affine[0],
            &self.affine[1],
            &self.affine[2],
            &self.gain[0],
            &self.gain[1],
            &self.gain[2],
            &self.flare[0],
            &self.flare[1],
            &self.flare[2],
            x,
            y,
            observed,
        );
        Refusal::check(answer.number).map(|()| Marked { colour: answer.colour, held: answer.held })
    }

    /// Terms of its surfaces: 4 or 9.
    pub fn terms(&self) -> usize {
        self.terms
    }

    /// The side of the card that it was fitted for.
    pub(crate) fn side(&self) -> usize {
        self.side as usize
    }
}
