//! A page of a read card, for the panel door; the stage's own.
use crate::illum::IlluminationModel;
use crate::layout::Layout;
use crate::{Refusal, ffi};
use alloc::string::String;
use alloc::vec;

/// The columns of a line; a line feed comes after them.
pub const COLUMNS: usize = 50;

/// Lays a read card out from its unmasked luma scores, one a module. Line one gives the side, the model's terms, how many
/// references it kept and rejected, and `held`, how many modules scoring found too dark to correct
/// ([`Demodulation::held_modules`](crate::demod::Demodulation)), each right-aligned in ten columns. Below it stands every row of the grid, one column a
/// module: 0, 1 or 2 as [`read`](crate::modulate::read) reads its score, or a dot where no listed module stands; of several
/// modules at one position the last shows. Each line is padded to 50 columns and ends in one line feed. Refused: 2, 5, 6, 7,
/// and 14 where the side is above 40.
///
/// ```
/// use purdolve::illum::IlluminationModel;
/// use purdolve::layout::Layout;
/// use purdolve::page::page;
///
/// let layout = Layout { side: 3, payload: vec![(2, 0), (0, 2)], ..Layout::default() };
/// let model = IlluminationModel::fit(&[], layout.side, 1)?;
/// let text = page(&[-20.0, 20.0], &layout, &model, 7)?;
/// let lines: Vec<&str> = text.lines().map(str::trim_end).collect();
/// assert_eq!(lines, ["         3         4         0         0         7", "..1", "...", "0.."]);
/// # Ok::<(), purdolve::Refusal>(())
/// ```
pub fn page(luma: &[f32], layout: &Layout, illum: &IlluminationModel, held: usize) -> Result<String, Refusal> {
    let mut text = vec![0; (COLUMNS + 1) * (usize::from(layout.side) + 1)];
    Refusal::check(ffi::page(&layout.places(), illum, held, luma, &mut text))?;
    Ok(text.into_iter().map(char::from).collect())
}
