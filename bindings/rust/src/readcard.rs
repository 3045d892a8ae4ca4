//! A whole card file.
use crate::{Refusal, ffi};
use alloc::string::String;
use alloc::vec;

/// Room for the listing of every card file.
const LISTING_ROOM: usize = 101_047;

/// Reads a card file: fits, measures, scores, refines, unmasks and reads, and gives the listing. Refused: 1, or the number of
/// the first call refused.
pub fn read_card(file: &[u8]) -> Result<String, Refusal> {
    let mut text = vec![0; LISTING_ROOM];
    let length = ffi::read_card(file, &mut text);
    text.truncate(length);
    let listing = String::from_utf8_lossy(&text).into_owned();
    match listing.strip_prefix("refused ").and_then(|number| number.trim_end().parse().ok()) {
        Some(number) => Refusal::check(number).map(|()| listing),
        None => Ok(listing),
    }
}
