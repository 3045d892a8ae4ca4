//! math.rs: linear systems, least squares, median, deviation.
use crate::refusals::*;
use lcr_decode::math as rust;

/// The number of "no solution" in the lists: an answer, not a refusal.
pub const NO_SOLUTION: u32 = 0xFFFF;

fn solved(solution: Option<Vec<f64>>, x: &mut [f64]) -> Result<(), u32> {
    let solution = solution.ok_or(NO_SOLUTION)?;
    x[..solution.len()].copy_from_slice(&solution);
    Ok(())
}

pub fn solve(a: &mut [f64], b: &mut [f64], x: &mut [f64], n: usize) -> Result<(), u32> {
    first(&[(5, short(a.len(), n, n) || b.len() < n || x.len() < n), (6, bad_terms(n))])?;
    solved(rust::solve(&mut a[..n * n], &mut b[..n], n), x)
}

/// One row into the normal equations, as the loop of `least_squares` adds it.
pub fn add_row(m: &mut [f64; 324], rhs: &mut [f64], row: &[f64], target: f64, terms: usize) -> Result<(), u32> {
    first(&[(5, row.len() < terms || rhs.len() < terms), (6, bad_terms(terms))])?;
    for i in 0..terms {
        rhs[i] += row[i] * target;
        for j in 0..terms {
            m[i * terms + j] += row[i] * row[j];
        }
    }
    Ok(())
}

/// The end of `least_squares`: 1e-9 onto the diagonal, then `solve`.
pub fn finish(m: &mut [f64; 324], rhs: &mut [f64], x: &mut [f64], terms: usize) -> Result<(), u32> {
    first(&[(5, rhs.len() < terms || x.len() < terms), (6, bad_terms(terms))])?;
    for i in 0..terms {
        m[i * terms + i] += 1e-9;
    }
    solve(m, rhs, x, terms)
}

pub fn least_squares(rows: &[f64], targets: &[f64], terms: usize, x: &mut [f64]) -> Result<(), u32> {
    first(&[(5, short(rows.len(), targets.len(), terms) || x.len() < terms), (6, bad_terms(terms))])?;
    let rows: Vec<_> = rows.chunks(terms).map(<[f64]>::to_vec).zip(targets.iter().copied()).collect();
    solved(rust::least_squares(&rows, terms), x)
}

pub fn median(values: &mut [f32]) -> f32 {
    rust::median(values)
}

pub fn mad_sigma(values: &[f32], scratch: &mut [f32]) -> Result<f32, u32> {
    first(&[(5, short(scratch.len(), values.len(), 2))])?;
    scratch[..2 * values.len()].fill(0.0);
    Ok(rust::mad_sigma(values))
}
