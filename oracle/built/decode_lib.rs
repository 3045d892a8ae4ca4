//! lib.rs of the built copy of lcr-decode: the colour stage's files.
extern crate alloc;
pub mod demod;
pub mod illum;
pub mod image;
pub mod math;
pub mod sample;
pub mod transform;
