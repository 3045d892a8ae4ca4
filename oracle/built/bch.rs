//! Stub of a file that is not there; never called.
use crate::error::LcrError;

pub fn encode(_bits: u16) -> u32 {
    unimplemented!()
}

pub fn decode(_word: u32) -> Result<(u16, u32), LcrError> {
    unimplemented!()
}
