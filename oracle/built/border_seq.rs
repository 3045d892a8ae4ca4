//! Stub of a file that is not there; never read.
pub const SEQUENCES: [&[u8]; 1] = [&[]];
