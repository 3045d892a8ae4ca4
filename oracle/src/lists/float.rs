//! Roots, conversions and comparisons. The hardware's square root and conversions; cube roots by whole numbers.
use super::Kind;
use crate::exact::{Document01, cbrt};
use crate::rng::{Rng, special32, special64};
use crate::words::{List, Record};

pub const KIND: Kind = Kind {
    name: "float",
    seed: 1,
    random: 2300,
    header: "
        sqrt x = r           f32; the nearest square root, by the hardware
        cbrt x = r           f32; the nearest cube root, by exact whole numbers
        narrow x = r         f64 to f32, to nearest, ties to even, by the hardware
        widen x = r          f32 to f64
        abs x = r, abs_f64 x = r
        max a b = r          b where a < b or a is NaN, else a
        min a b = r          b where b < a or a is NaN, else a
        clamp x lo hi = r    lo <= hi, neither NaN
    ",
    structured,
    one,
};

fn sqrt(out: &mut List, x: f32) {
    Record::new("sqrt").w(x).is().w(x.sqrt()).end(out);
}

fn cube_root(out: &mut List, x: f32) {
    // In the unaltered build, the Rust's own; so too max and min below.
    let root = if cfg!(proper) { cbrt(x) } else { x.cbrt() };
    Record::new("cbrt").w(x).is().w(root).end(out);
}

fn narrow(out: &mut List, x: f64) {
    Record::new("narrow").w(x).is().w(x as f32).end(out);
}

fn widen(out: &mut List, x: f32) {
    Record::new("widen").w(x).is().w(x as f64).end(out);
}

fn abs(out: &mut List, x: f32) {
    Record::new("abs").w(x).is().w(x.abs()).end(out);
}

fn abs_f64(out: &mut List, x: f64) {
    Record::new("abs_f64").w(x).is().w(x.abs()).end(out);
}

fn max_min(out: &mut List, a: f32, b: f32) {
    let (max, min) = if cfg!(proper) { (a.max01(b), a.min01(b)) } else { (a.max(b), a.min(b)) };
    Record::new("max").w(a).w(b).is().w(max).end(out);
    Record::new("min").w(a).w(b).is().w(min).end(out);
}

fn clamp(out: &mut List, x: f32, lo: f32, hi: f32) {
    if lo <= hi {
        Record::new("clamp").w(x).w(lo).w(hi).is().w(x.clamp(lo, hi)).end(out);
    }
}

fn structured(out: &mut List) {
    for x in special32() {
        sqrt(out, x);
        cube_root(out, x);
        widen(out, x);
        abs(out, x);
        narrow(out, x as f64);
    }
    for x in special64() {
        abs_f64(out, x);
        narrow(out, x);
    }
    roots_near_powers(out);
    conversions_near_ties(out);
    let few: Vec<f32> = [0, 1, 0x3F80_0000, 0x7F7F_FFFF, 0x7F80_0000, 0x7FC0_0000, 0x7F80_0001]
        .iter()
        .flat_map(|&b| [b, b | 0x8000_0000])
        .map(f32::from_bits)
        .collect();
    for &a in &few {
        for &b in &few {
            max_min(out, a, b);
        }
        for (lo, hi) in [(-0.0, 0.0), (0.0, -0.0), (0.0, 1.0), (-20.0, 20.0), (1.0, 1.0), (f32::NEG_INFINITY, -1.0)] {
            clamp(out, a, lo, hi);
        }
    }
}

/// Roots of squares and cubes of whole numbers and of their neighbours; every exponent, where the result may
/// carry to the next power of two.
fn roots_near_powers(out: &mut List) {
    for n in [2u32, 3, 5, 27, 255, 1000, 4095, 4096] {
        let square = ((n * n) as f32).to_bits();
        for bits in [square - 1, square, square + 1] {
            sqrt(out, f32::from_bits(bits));
        }
    }
    for n in [2u32, 3, 5, 27, 100, 255, 256] {
        let cube = ((n * n * n) as f32).to_bits();
        for bits in [cube - 1, cube, cube + 1, cube | 0x8000_0000] {
            cube_root(out, f32::from_bits(bits));
        }
    }
    for field in 0..255u32 {
        sqrt(out, f32::from_bits(field << 23 | 0x7F_FFFF));
        cube_root(out, f32::from_bits(field << 23 | 0x7F_FFFF));
    }
    for bit in 0..23 {
        for low in [1u32 << bit, (1 << bit) | 1] {
            sqrt(out, f32::from_bits(low));
            cube_root(out, f32::from_bits(low));
        }
    }
}

/// Middles between neighbouring floats, and their f64 neighbours: among the subnormals, at carries to the
/// next power of two, at the largest float.
fn conversions_near_ties(out: &mut List) {
    for bits in [
        0u32,
        1,
        2,
        0x007F_FFFE,
        0x007F_FFFF,
        0x0080_0000,
        0x3F7F_FFFF,
        0x3F80_0000,
        0x3F80_0001,
        0x4B7F_FFFF,
        0x7F7F_FFFE,
    ] {
        let middle = (f32::from_bits(bits) as f64 + f32::from_bits(bits + 1) as f64) / 2.0;
        ties(out, middle);
    }
    ties(out, f32::MAX as f64 + (f32::MAX as f64 - f32::from_bits(0x7F7F_FFFE) as f64) / 2.0);
}

fn ties(out: &mut List, middle: f64) {
    for bits in [middle.to_bits() - 1, middle.to_bits(), middle.to_bits() + 1] {
        narrow(out, f64::from_bits(bits));
        narrow(out, -f64::from_bits(bits));
    }
}

/// An f64 in or near the range of f32, every second one a tie or next to one.
fn near_single(rng: &mut Rng) -> f64 {
    let field = rng.between(1023 - 152, 1023 + 129) as u64;
    let mut fraction = rng.bits() >> 12;
    if rng.chance(2) {
        let cut = 29 + (1023 - 126 - field as i64).clamp(0, 23) as u64;
        fraction = (fraction >> cut << cut | 1 << (cut - 1)).wrapping_add(rng.between(-1, 1) as u64) & ((1 << 52) - 1);
    }
    f64::from_bits((rng.bits() & 1) << 63 | field << 52 | fraction)
}

fn one(out: &mut List, rng: &mut Rng) {
    match rng.below(16) {
        0..4 => sqrt(out, f32::from_bits(rng.bits() as u32 & 0x7FFF_FFFF)),
        4..8 => cube_root(out, rng.any32()),
        8..12 => narrow(out, near_single(rng)),
        12 | 13 => max_min(out, rng.float32(), rng.float32()),
        14 => clamp(out, rng.float32(), -1.0, 1.0),
        _ => {
            let (a, b) = (rng.float32(), rng.float32());
            clamp(out, rng.float32(), a.min01(b), a.max01(b));
        }
    }
}
