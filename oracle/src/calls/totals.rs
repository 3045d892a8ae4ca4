//! Document 02's totals over a season's cards, written from its words in whole numbers. The Rust has none.
use crate::refusals::{first, many};

/// Cards, modules, undecided modules, modules under 12, and the sum of magnitudes in 65,536ths.
pub type Totals = [u64; 5];

/// 18: the batch has more than 65,535 cards, or its totals pass 1,048,576 modules a card, their modules in a count, or
/// 1,310,720 a module in the sum.
fn bad_totals(t: Totals) -> bool {
    let [cards, modules, undecided, under, sum] = t.map(u128::from);
    let counts = undecided > modules || under > modules;
    cards > 65_535 || modules > 1_048_576 * cards || counts || sum > 1_310_720 * modules
}

/// 18: the two together have more than 65,535 cards.
fn too_many(a: Totals, b: Totals) -> bool {
    a[0] as u128 + b[0] as u128 > 65_535
}

/// 19: a score is a NaN or above 20 in magnitude.
fn bad_scores(luma: &[f32]) -> bool {
    luma.iter().any(|v| v.is_nan() || v.abs() > 20.0)
}

/// The magnitude in whole 65,536ths, ties to even: m / 2^k, and the remainder decides.
fn parts(v: f32) -> u64 {
    let bits = v.to_bits() & 0x7FFF_FFFF;
    let (m, field) = if bits < 0x80_0000 { (bits, 1) } else { (bits & 0x7F_FFFF | 0x80_0000, bits >> 23) };
    let k = 150 - 16 - field;
    if k > 60 {
        return 0; // m has at most 24 binary digits
    }
    let (whole, rest, half) = (m as u64 >> k, m as u64 & ((1 << k) - 1), 1 << (k - 1));
    whole + (rest > half || rest == half && whole % 2 == 1) as u64
}

fn plus(a: Totals, b: Totals) -> Totals {
    std::array::from_fn(|i| a[i] + b[i])
}

pub fn add_card(t: Totals, luma: &[f32]) -> Result<Totals, u32> {
    let full = bad_totals(t) || too_many(t, [1, 0, 0, 0, 0]);
    first(&[(6, many(luma.len())), (18, full), (19, bad_scores(luma))])?;
    let count = |of: fn(f32) -> bool| luma.iter().filter(|v| of(**v)).count() as u64;
    let sum = luma.iter().map(|&v| parts(v)).sum();
    Ok(plus(t, [1, luma.len() as u64, count(|v| v == 0.0), count(|v| v.abs() < 12.0), sum]))
}

pub fn add_totals(a: Totals, b: Totals) -> Result<Totals, u32> {
    first(&[(18, bad_totals(a) || bad_totals(b) || too_many(a, b))])?;
    Ok(plus(a, b))
}

/// The mean magnitude as numerator and denominator without common factor.
pub fn mean(t: Totals) -> Result<[u64; 2], u32> {
    first(&[(18, bad_totals(t))])?;
    let (modules, sum) = (t[1], t[4]);
    if modules == 0 {
        return Ok([0, 1]);
    }
    let divisor = common(sum, modules);
    Ok([sum / divisor, modules / divisor])
}

/// The greatest common divisor of a and b, b above 0, by halving and subtracting.
fn common(a: u64, b: u64) -> u64 {
    let (mut a, mut b) = (a, b);
    let twos = (a | b).trailing_zeros();
    b >>= b.trailing_zeros();
    while a != 0 {
        a >>= a.trailing_zeros();
        (a, b) = (a.abs_diff(b), a.min(b));
    }
    b << twos
}
