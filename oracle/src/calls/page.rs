//! Document 02's page for the panel door, from its words; the Rust has none.
use super::modulate::{bad_modules, read};
use crate::refusals::*;
use std::collections::HashMap;

const COLUMNS: usize = 50;

/// The widest side that has a page.
const WIDEST: usize = 40;

/// Everything that `page` takes but the page.
#[derive(Clone)]
pub struct Laying {
    pub side: usize,
    pub terms: usize,
    pub kept: u32,
    pub rejected: u32,
    pub held: usize,
    pub xs: Vec<i32>,
    pub ys: Vec<i32>,
    pub grid: usize,
    pub luma: Vec<f32>,
}

impl Laying {
    /// The page as text: a line of numbers, then a line for each row of the grid.
    fn text(&self) -> String {
        let mut shown = HashMap::new();
        for ((&x, &y), &score) in self.xs.iter().zip(&self.ys).zip(&self.luma) {
            shown.insert((x, y), char::from(b'0' + read(score)));
        }
        let (side, terms, kept, rejected, held) = (self.side, self.terms, self.kept, self.rejected, self.held);
        let mut lines = vec![format!("{side:>10}{terms:>10}{kept:>10}{rejected:>10}{held:>10}")];
        for y in 0..self.side as i32 {
            lines.push((0..self.side as i32).map(|x| shown.get(&(x, y)).unwrap_or(&'.')).collect());
        }
        lines.iter().map(|line| format!("{line:<COLUMNS$}\n")).collect()
    }
}

pub fn page(p: &Laying, out: &mut [u8]) -> Result<(), u32> {
    let [pairs, counts, places] = bad_modules(p.side, &p.xs, &p.ys, p.grid);
    first(&[
        (2, bad_side(p.side)),
        (5, pairs || p.luma.len() < p.xs.len() || short(out.len(), p.side.saturating_add(1), COLUMNS + 1)),
        (6, counts || p.kept > 16_384 || p.rejected > 16_384 || p.held > 1_048_576),
        (7, places),
        (10, p.terms != 4 && p.terms != 9),
        (14, p.side > WIDEST),
    ])?;
    let text = p.text();
    out[..text.len()].copy_from_slice(text.as_bytes());
    Ok(())
}
