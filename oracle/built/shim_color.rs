
/// Private functions for the oracle.
pub mod shim {
    pub fn lab_f(t: f32) -> f32 {
        super::lab_f(t)
    }

    pub fn lab_f_inv(t: f32) -> f32 {
        super::lab_f_inv(t)
    }
}
