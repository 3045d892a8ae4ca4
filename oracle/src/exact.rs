//! Document 01's arithmetic where it is not the Rust's own: the nearest cube root, the 256 sRGB values,
//! `max`, `min` and `powi`. Exact whole numbers throughout; nothing is taken from memory.
//! This file is part of the generator, and of the built copy of lcr-core in the oracle proper.

use std::cmp::Ordering;

/// The f32 nearest the cube root. Zeros, infinities and NaN are themselves; the sign is kept.
pub fn cbrt(x: f32) -> f32 {
    if x == 0.0 || !x.is_finite() {
        return x;
    }
    let bits = x.to_bits() & 0x7FFF_FFFF;
    // |x| = m * 2^e with m of exactly 24 bits.
    let (mut m, mut e) = match bits >> 23 {
        0 => (bits, -149),
        field => (bits & 0x7F_FFFF | 0x80_0000, field as i32 - 150),
    };
    while m < 0x80_0000 {
        m <<= 1;
        e -= 1;
    }
    // r in 1..=3 makes e - r a multiple of three; then |x| = n * 2^(e - r - 48) with n in [2^72, 2^75).
    let r = 1 + (e - 1).rem_euclid(3);
    let n = (m as u128) << (r + 48);
    let root = integer_root(n); // 25 bits, the last one being worth half a unit of the result
    // A tie would need an odd root whose cube is n, and n is even.
    let nearest = (root + 1) >> 1;
    let unit = f64::from_bits(((1023 + 1 + (e - r - 48) / 3) as u64) << 52);
    let value = nearest as f64 * unit;
    (value as f32).copysign(x)
}

/// The largest whole number whose cube is at most `n`: a guess, then put right exactly.
fn integer_root(n: u128) -> u128 {
    let mut root = (n as f64).cbrt() as u128;
    while root * root * root > n {
        root -= 1;
    }
    while (root + 1) * (root + 1) * (root + 1) <= n {
        root += 1;
    }
    root
}

/// The f32 nearest the linear value of an sRGB byte: v / 3294.6 up to 10, else the 12/5 power of
/// (40 v + 561) / 10761.
pub fn srgb_byte(v: u8) -> f32 {
    let v = v as u64;
    if v <= 10 { nearest(10 * v, 32946, 1, 1) } else { nearest(40 * v + 561, 10761, 12, 5) }
}

/// `srgb_to_linear_f` at a byte's argument `v / 255`; None elsewhere.
pub fn srgb(v: f32) -> Option<f32> {
    let byte = (v * 255.0).round() as u8;
    (byte as f32 / 255.0 == v).then(|| srgb_byte(byte))
}

/// The f32 nearest y, where y^root = (p / q)^power: a search over the ordered bit patterns up to 1.
fn nearest(p: u64, q: u64, power: u32, root: u32) -> f32 {
    let (p, q) = (Whole::from(p).power(power), Whole::from(q).power(power));
    // half = h * 2^e is compared with y as h^root * q against p, powers of two on the side they belong to.
    let compare = |h: u64, e: i32| {
        let (mut left, mut right) = (Whole::from(h).power(root).times(&q), p.clone());
        let shift = e * root as i32;
        if shift < 0 {
            right = right.shifted(-shift as u32)
        } else {
            left = left.shifted(shift as u32)
        }
        left.compare(&right)
    };
    let below = |bits: u32| {
        // The middle between this float and the next one up lies below y.
        let (m, e) = match bits >> 23 {
            0 => (bits, -149),
            field => (bits & 0x7F_FFFF | 0x80_0000, field as i32 - 150),
        };
        compare(2 * m as u64 + 1, e - 1) == Ordering::Less
    };
    let (mut lo, mut hi) = (0, 1f32.to_bits());
    while lo < hi {
        let mid = lo + (hi - lo) / 2;
        if below(mid) { lo = mid + 1 } else { hi = mid }
    }
    f32::from_bits(lo)
}

/// A whole number, 32 bits a digit, least first, no leading zero.
#[derive(Clone)]
struct Whole(Vec<u32>);

impl Whole {
    fn from(v: u64) -> Whole {
        Whole(vec![v as u32, (v >> 32) as u32]).trimmed()
    }

    fn trimmed(mut self) -> Whole {
        while self.0.last() == Some(&0) {
            self.0.pop();
        }
        self
    }

    fn times(&self, other: &Whole) -> Whole {
        let mut out = vec![0u32; self.0.len() + other.0.len()];
        for (i, &a) in self.0.iter().enumerate() {
            let mut carry = 0u64;
            for (j, &b) in other.0.iter().enumerate() {
                carry += out[i + j] as u64 + a as u64 * b as u64;
                out[i + j] = carry as u32;
                carry >>= 32;
            }
            out[i + other.0.len()] = carry as u32;
        }
        Whole(out).trimmed()
    }

    fn power(&self, n: u32) -> Whole {
        (0..n).fold(Whole::from(1), |out, _| out.times(self))
    }

    fn shifted(&self, bits: u32) -> Whole {
        let mut out = vec![0; bits as usize / 32];
        out.extend(self.times(&Whole::from(1 << (bits % 32))).0);
        Whole(out).trimmed()
    }

    fn compare(&self, other: &Whole) -> Ordering {
        let digits = |w: &Whole| w.0.iter().rev().copied().collect::<Vec<_>>();
        self.0.len().cmp(&other.0.len()).then_with(|| digits(self).cmp(&digits(other)))
    }
}

/// Document 01's `max`, `min` and `powi`, as methods beside the Rust's own.
pub trait Document01: PartialOrd + Copy + std::ops::Mul<Output = Self> {
    /// b where a < b or a is NaN, else a.
    fn max01(self, b: Self) -> Self {
        if self < b || is_nan(self) { b } else { self }
    }

    /// b where b < a or a is NaN, else a.
    fn min01(self, b: Self) -> Self {
        if b < self || is_nan(self) { b } else { self }
    }

    /// `powi(2)` is one product, `powi(4)` that product squared.
    fn powi01(self, n: i32) -> Self {
        let square = self * self;
        match n {
            2 => square,
            4 => square * square,
            _ => unimplemented!("document 01 defines powi(2) and powi(4)"),
        }
    }
}

#[allow(clippy::eq_op)]
fn is_nan<T: PartialOrd>(x: T) -> bool {
    x.partial_cmp(&x).is_none()
}

impl Document01 for f32 {}
impl Document01 for usize {}
