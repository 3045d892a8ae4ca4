
/// Private functions for the oracle.
pub mod shim {
    pub fn local_fit(near: &[(f32, f32, f32)], y0: f32, gap: f32) -> Option<(f32, f32, f32)> {
        super::local_fit(near, &mut Vec::new(), &mut Vec::new(), y0, gap)
    }
}
