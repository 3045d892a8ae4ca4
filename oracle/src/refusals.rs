//! Document 01's sentences, one function each. Every sentence is tried over everything that a call takes
//! before the next one; the first that holds gives the call's number. The Rust has none of them.

/// The first number whose sentence holds.
pub fn first(sentences: &[(u32, bool)]) -> Result<(), u32> {
    match sentences.iter().find(|(_, holds)| *holds) {
        Some((number, _)) => Err(*number),
        None => Ok(()),
    }
}

pub const LIMIT: f32 = 1_048_576.0;
pub const NOISE_LIMIT: f32 = 1_099_511_627_776.0;

/// 2: the side is 0 or above 1,024.
pub fn bad_side(side: usize) -> bool {
    side == 0 || side > 1024
}

/// 3: the hue count is not 1, 2, 4, 8 or 16.
pub fn bad_hues(k: usize) -> bool {
    ![1, 2, 4, 8, 16].contains(&k)
}

/// 4: the chroma cell size is 0 or above 16.
pub fn bad_cell_size(size: usize) -> bool {
    size == 0 || size > 16
}

/// 5: a slice of `len` does not hold `rows` times `width`, which may be beyond any usize.
pub fn short(len: usize, rows: usize, width: usize) -> bool {
    (len as u128) < rows as u128 * width as u128
}

/// 6: a matrix size or term count is outside 1 to 18.
pub fn bad_terms(n: usize) -> bool {
    n == 0 || n > 18
}

/// 6: more than 16,384 references.
pub fn many_references(n: usize) -> bool {
    n > 16_384
}

/// 6: more than 1,048,576 modules or cells.
pub fn many(n: usize) -> bool {
    n > 1_048_576
}

/// 7: a reference position is not a number from -16 to side + 16.
pub fn misplaced_reference(v: f32, side: usize) -> bool {
    !(v >= -16.0 && v <= (side + 16) as f32)
}

/// 7: a grid module is outside 0 to side - 1, or a ring module outside -6 to side + 5.
pub fn misplaced_modules(side: usize, grid: usize, xs: &[i32], ys: &[i32]) -> bool {
    xs.iter().zip(ys).enumerate().any(|(i, (&x, &y))| {
        let out = if i < grid { 0 } else { 6 };
        [x, y].iter().any(|&v| (v as i64) < -out || v as i64 >= side as i64 + out)
    })
}

/// 7: a cell coordinate is above 1,023.
pub fn misplaced_cells(cxs: &[u16], cys: &[u16]) -> bool {
    cxs.iter().chain(cys).any(|&c| c > 1023)
}

/// 8: a colour, palette number or score is not finite or has magnitude above 1,048,576.
pub fn unbounded(values: &[f32]) -> bool {
    values.iter().any(|v| !(v.abs() <= LIMIT))
}

/// 8, `fit`: a reference colour is not finite.
pub fn not_finite(values: &[f32]) -> bool {
    values.iter().any(|v| !v.is_finite())
}

/// 8: a noise figure is not finite or above 2^40 in magnitude.
pub fn bad_noise_figures(values: &[f32]) -> bool {
    values.iter().any(|v| !(v.abs() <= NOISE_LIMIT))
}

/// 9: `sigma_l` or `sigma_ab` is below 0.75, or a level figure is neither 0 nor at least 0.75.
pub fn bad_sigmas(sigma_l: f32, sigma_ab: f32, levels: [f32; 2]) -> bool {
    sigma_l < 0.75 || sigma_ab < 0.75 || levels.iter().any(|&s| !(s == 0.0 || s >= 0.75))
}

/// 10: terms neither 4 nor 9, the side no whole number from 1 to 1,024, or a number not finite.
pub fn bad_model(terms: usize, side: f32, singles: &[f32], doubles: &[f64]) -> bool {
    (terms != 4 && terms != 9)
        || !(side >= 1.0 && side <= 1024.0 && side.fract() == 0.0)
        || not_finite(singles)
        || doubles.iter().any(|v| !v.is_finite())
}
