//! Linear systems and order statistics (`math.rs` of the Rust).
use crate::{Refusal, ffi};
use alloc::vec;
use alloc::vec::Vec;

/// The largest matrix size and term count.
const MOST_TERMS: usize = 18;

/// Solves the `n` by `n` system a x = b by elimination with row exchanges; `None` where there is no solution. `a` and `b`
/// are left as elimination leaves them. Refused: 5, 6.
///
/// ```
/// let (mut a, mut b) = ([2.0, 0.0, 0.0, 4.0], [2.0, 8.0]);
/// assert_eq!(purdolve::math::solve(&mut a, &mut b, 2), Ok(Some(vec![1.0, 2.0])));
/// ```
pub fn solve(a: &mut [f64], b: &mut [f64], n: usize) -> Result<Option<Vec<f64>>, Refusal> {
    // A matrix of n rows that is long enough has n numbers; one that is not is refused whatever x has.
    let mut x = vec![0.0; n.min(a.len())];
    let answer = ffi::solve(a, b, &mut x, n);
    Refusal::check(answer.number)?;
    Ok(answer.solved.then_some(x))
}

/// Fits x so that each row's first `terms` numbers, times x, come nearest the row's target in the sum of squares; `None`
/// where there is no solution, as with fewer rows than terms. Refused: 5 (a row is shorter than `terms`), 6.
pub fn least_squares(rows: &[(Vec<f64>, f64)], terms: usize) -> Result<Option<Vec<f64>>, Refusal> {
    let mut flat = Vec::new();
    let mut targets = Vec::with_capacity(rows.len());
    for (row, target) in rows {
        flat.extend(row.iter().take(terms));
        targets.push(*target);
        if row.len() < terms {
            // The list ends here, so it is shorter than terms times rows, and the call says so.
            targets.extend(rows[targets.len()..].iter().map(|(_, target)| *target));
            break;
        }
    }
    // Without rows every term count above the limit is as good as the next, and x need not be as long as it.
    let terms = if rows.is_empty() { terms.min(MOST_TERMS + 1) } else { terms };
    let mut x = vec![0.0; terms.min(flat.len().max(MOST_TERMS + 1))];
    let answer = ffi::least_squares(&flat, &targets, terms, &mut x);
    Refusal::check(answer.number)?;
    Ok(answer.solved.then_some(x))
}

/// The normal equations of a least-squares fit, row by row.
#[derive(Clone, Debug)]
pub struct NormalEquations {
    ata: [f64; 324],
    atb: [f64; MOST_TERMS],
    terms: usize,
}

impl NormalEquations {
    /// Of no row yet, in `terms` unknowns.
    pub fn new(terms: usize) -> NormalEquations {
        NormalEquations { ata: [0.0; 324], atb: [0.0; MOST_TERMS], terms }
    }

    /// Adds a row of numbers and its target. Refused: 5, 6.
    pub fn add_row(&mut self, row: &[f64], target: f64) -> Result<(), Refusal> {
        Refusal::check(ffi::add_row(&mut self.ata, &mut self.atb, row, target, self.terms))
    }

    /// The solution, as [`least_squares`] has it but for its test of the number of rows. Refused: 6.
    pub fn finish(mut self) -> Result<Option<Vec<f64>>, Refusal> {
        let mut x = [0.0; MOST_TERMS];
        let answer = ffi::finish(&mut self.ata, &mut self.atb, &mut x, self.terms);
        Refusal::check(answer.number)?;
        Ok(answer.solved.then(|| x[..self.terms].to_vec()))
    }
}

/// The median, 0 where there are no values. Reorders its argument.
///
/// ```
/// assert_eq!(purdolve::math::median(&mut [4.0, 1.0, 3.0, 2.0]), 2.5);
/// ```
pub fn median(values: &mut [f32]) -> f32 {
    ffi::median(values)
}

/// The median absolute deviation, scaled to estimate a standard deviation.
pub fn mad_sigma(values: &[f32]) -> f32 {
    // Scratch of this length is never refused.
    ffi::mad_sigma(values, &mut vec![0.0; 2 * values.len()]).value
}
