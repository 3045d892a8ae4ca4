//! Stub of a file that is not there; no error is ever made.
#[derive(Debug)]
pub enum LcrError {
    BadVersion(u32),
    BadProfile(u8),
    BadEccLevel(u8),
    FormatUndecodable,
}
