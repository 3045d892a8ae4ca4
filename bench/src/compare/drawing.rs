//! The drawing of one element, which no list has: against the oracle's masks and hues.
use crate::Tallies;
use crate::library::*;
use oracle::calls::modulate::{self, bits_a_cell};
use oracle::rng::Rng;

const HUES: [usize; 7] = [1, 2, 4, 8, 16, 0, 3];

fn number(answer: NumberAnswer) -> Result<usize, u32> {
    if answer.number == 0 { Ok(answer.value) } else { Err(answer.number) }
}

fn told(tallies: &mut Tallies, name: &str, ours: NumberAnswer, theirs: Result<usize, u32>) {
    let zero = answer_is_zero(ours);
    tallies.add(name, ours.number, number(ours) == theirs && zero, &format!("{ours:?} {theirs:?}"));
}

/// A refusal has no value, which is 0.
fn answer_is_zero(answer: NumberAnswer) -> bool {
    answer.number == 0 || answer.value == 0
}

pub fn elements(tallies: &mut Tallies, count: u64, seed: u64) {
    let rng = &mut Rng::new(seed);
    for _ in 0..count {
        let (hues, symbol) = (rng.pick(&HUES), rng.bits() as usize);
        let end = if rng.chance(8) { 65536 } else { 1024 };
        let (cx, cy) = (rng.below(end) as u16, rng.below(end) as u16);
        let hue = modulate::chroma_symbol_to_hue(symbol, hues);
        told(tallies, "ring_hue", unsafe { purdolve_ring_hue(symbol, hues) }, hue);
        let drawn = hue.and_then(|h| modulate::chroma_mask_apply(h, cx, cy, hues));
        told(tallies, "cell_hue", unsafe { purdolve_cell_hue(symbol, cx, cy, hues) }, drawn);
        symbols(tallies, rng, hues);
        levels(tallies, rng, cx, cy);
    }
}

fn symbols(tallies: &mut Tallies, rng: &mut Rng, hues: usize) {
    let bits: Vec<u8> = (0..rng.below(7)).map(|_| if rng.chance(2) { 0 } else { rng.bits() as u8 }).collect();
    let theirs = if !matches!(hues, 1 | 2 | 4 | 8 | 16) {
        Err(3)
    } else if bits.len() < bits_a_cell(hues) {
        Err(5)
    } else {
        Ok(bits[..bits_a_cell(hues)].iter().fold(0, |s, &b| 2 * s + (b != 0) as usize))
    };
    told(tallies, "symbol_of_bits", unsafe { purdolve_symbol_of_bits(bits.as_ptr(), bits.len(), hues) }, theirs);
}

fn levels(tallies: &mut Tallies, rng: &mut Rng, x: u16, y: u16) {
    let (bit, mask) = (if rng.chance(2) { 0 } else { rng.bits() as u8 }, rng.bits() as u8);
    let light = (bit != 0) != lcr_core::mask::luma_mask(mask, x, y);
    let ours = unsafe { purdolve_grid_level(bit, mask, x, y) };
    tallies.add("grid_level", 0, ours == light as u8, &format!("{bit} {mask} {x} {y}"));
    let ours = unsafe { purdolve_ring_level(bit) };
    tallies.add("ring_level", 0, ours == (bit != 0) as u8, &format!("{bit}"));
}
