
/// Private fields and functions for the oracle.
pub mod shim {
    use super::*;

    /// The model's numbers in the open.
    #[derive(Clone, Debug)]
    pub struct Parts {
        pub affine: [[f64; 4]; 3],
        pub gain: [Vec<f64>; 3],
        pub flare: [Vec<f64>; 3],
        pub terms: usize,
        pub side: f32,
        pub residual_rms: f32,
        pub rejected: u32,
        pub kept: u32,
    }

    pub fn parts(m: &IlluminationModel) -> Parts {
        Parts {
            affine: m.affine,
            gain: m.gain.clone(),
            flare: m.flare.clone(),
            terms: m.terms,
            side: m.side,
            residual_rms: m.residual_rms,
            rejected: m.rejected,
            kept: m.kept,
        }
    }

    pub fn model(p: &Parts) -> IlluminationModel {
        IlluminationModel {
            affine: p.affine,
            gain: p.gain.clone(),
            flare: p.flare.clone(),
            terms: p.terms,
            side: p.side,
            residual_rms: p.residual_rms,
            rejected: p.rejected,
            kept: p.kept,
        }
    }

    /// Every number of the model and every residual is finite.
    pub fn finite(m: &IlluminationModel, residuals: &[f32]) -> bool {
        let surfaces = m.gain.iter().chain(&m.flare).flatten();
        m.affine.iter().flatten().chain(surfaces).all(|v| v.is_finite())
            && m.residual_rms.is_finite()
            && residuals.iter().all(|r| r.is_finite())
    }

    pub fn basis(m: &IlluminationModel, x: f32, y: f32, terms: usize) -> Vec<f64> {
        m.basis(x, y, terms)
    }

    pub fn deshade(m: &IlluminationModel, basis: &[f64], observed: Linear) -> [f64; 3] {
        super::deshade(&m.gain, &m.flare, basis, observed)
    }

    pub fn fit_once(m: &IlluminationModel, refs: &[Reference], active: &[bool]) -> Option<IlluminationModel> {
        let (affine, gain, flare) = m.fit_once(refs, active, m.terms)?;
        Some(IlluminationModel { affine, gain, flare, ..m.clone() })
    }
}
