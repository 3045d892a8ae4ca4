//! illum.rs: the illumination model, correction and the fit.
use crate::refusals::*;
use lcr_core::color::Linear;
use lcr_core::hook::{kept, passes_were_finite};
use lcr_decode::illum::{IlluminationModel, Reference, shim};

/// The model with fixed arrays; coefficients from `terms` on are no numbers of it.
#[derive(Clone, Debug)]
pub struct Model {
    pub terms: usize,
    pub side: f32,
    pub residual_rms: f32,
    pub rejected: u32,
    pub kept: u32,
    pub affine: [[f64; 4]; 3],
    pub gain: [[f64; 9]; 3],
    pub flare: [[f64; 9]; 3],
}

impl Model {
    pub fn of(rust: &IlluminationModel) -> Model {
        let p = shim::parts(rust);
        let nine = |v: &Vec<f64>| std::array::from_fn(|i| v.get(i).copied().unwrap_or(0.0));
        Model {
            terms: p.terms,
            side: p.side,
            residual_rms: p.residual_rms,
            rejected: p.rejected,
            kept: p.kept,
            affine: p.affine,
            gain: p.gain.each_ref().map(nine),
            flare: p.flare.each_ref().map(nine),
        }
    }

    /// The Rust's own, for a model that meets sentence 10.
    pub fn rust(&self) -> IlluminationModel {
        let used = |v: &[f64; 9]| v[..self.terms].to_vec();
        shim::model(&shim::Parts {
            affine: self.affine,
            gain: self.gain.each_ref().map(used),
            flare: self.flare.each_ref().map(used),
            terms: self.terms,
            side: self.side,
            residual_rms: self.residual_rms,
            rejected: self.rejected,
            kept: self.kept,
        })
    }

    /// Sentence 10.
    pub fn bad(&self) -> bool {
        let used = self.terms.min(9);
        let surfaces = self.gain.iter().chain(&self.flare).flat_map(|v| &v[..used]);
        let doubles: Vec<f64> = self.affine.iter().flatten().chain(surfaces).copied().collect();
        bad_model(self.terms, self.side, &[self.residual_rms], &doubles)
    }
}

pub fn linear(c: &[f32]) -> Linear {
    Linear::new(c[0], c[1], c[2])
}

pub fn unbounded_colour(c: Linear) -> bool {
    unbounded(&[c.r, c.g, c.b])
}

/// Records from flat floats, eight a reference.
pub fn references(flat: &[f32], n: usize) -> Vec<Reference> {
    let one = |r: &[f32]| Reference { x: r[0], y: r[1], observed: linear(&r[2..5]), nominal: linear(&r[5..8]) };
    flat[..8 * n].chunks(8).map(one).collect()
}

/// 7 for references: one of their positions.
pub fn misplaced_references(flat: &[f32], n: usize, side: usize) -> bool {
    flat.chunks(8).take(n).any(|r| r.iter().take(2).any(|&v| misplaced_reference(v, side)))
}

/// Both colours of each reference.
pub fn reference_colours(flat: &[f32], n: usize) -> Vec<f32> {
    flat.chunks(8).take(n).flat_map(|r| r.iter().skip(2).copied()).collect()
}

pub fn identity(side: usize) -> Result<Model, u32> {
    first(&[(2, bad_side(side))])?;
    Ok(Model::of(&IlluminationModel::identity(side as u16)))
}

pub fn fit(flat: &[f32], n: usize, side: usize, version: u8, scratch: &mut [f32]) -> Result<Model, u32> {
    fit_kept(flat, n, side, version, n, scratch).map(|(model, _)| model)
}

/// The fit, and which of the references it kept, with room for `marks` marks; none where the model's kept is 0.
pub fn fit_kept(
    flat: &[f32],
    n: usize,
    side: usize,
    version: u8,
    marks: usize,
    scratch: &mut [f32],
) -> Result<(Model, Vec<bool>), u32> {
    first(&[
        (2, bad_side(side)),
        (5, short(flat.len(), n, 8) || short(marks, n, 1) || short(scratch.len(), n, 4)),
        (6, many_references(n)),
        (7, misplaced_references(flat, n, side)),
        (8, not_finite(&reference_colours(flat, n))),
    ])?;
    scratch[..4 * n].fill(0.0);
    passes_were_finite();
    kept();
    let model = IlluminationModel::fit(&references(flat, n), side as u16, version);
    first(&[(11, !passes_were_finite())])?;
    let kept = if model.kept == 0 { vec![false; n] } else { kept() };
    Ok((Model::of(&model), kept))
}

/// The marks: whether each channel's gain at a position, before it is held, is under 0.05 in magnitude.
pub fn held(model: &Model, x: f32, y: f32) -> [bool; 3] {
    let basis = shim::basis(&model.rust(), x, y, model.terms);
    model.gain.map(|gain| basis.iter().zip(gain).fold(0.0, |g, (b, c)| g + c * b).abs() < 0.05)
}

/// Whether one of them is set.
pub fn any_held(model: &Model, x: f32, y: f32) -> bool {
    held(model, x, y).contains(&true)
}

/// The corrected colour, and its marks.
pub fn correct(model: &Model, x: f32, y: f32, c: [f32; 3]) -> Result<([f32; 3], [bool; 3]), u32> {
    first(&[(8, unbounded(&c)), (10, model.bad())])?;
    let c = model.rust().correct(x, y, linear(&c));
    Ok(([c.r, c.g, c.b], held(model, x, y)))
}
