//! Document 01's public calls: its refusals, then the Rust's functions, on lent slices as the calls take them.
//! `Err(number)` is a refusal; lent memory is then untouched, save that 11 leaves scratch all zero.

pub mod color;
pub mod counts;
pub mod demod;
pub mod illum;
pub mod math;
pub mod measure;
pub mod modulate;
pub mod near;
pub mod page;
pub mod refine;
pub mod stats;
pub mod totals;
