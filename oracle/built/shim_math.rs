
/// Private functions for the oracle.
pub mod shim {
    pub fn select(v: &mut [f32], k: usize) -> f32 {
        super::select(v, k)
    }
}
