//! A seeded stream of numbers (splitmix64), and floats of every kind from it.

/// Orders of size of ordinary numbers.
const SIZES: [f64; 9] = [1e-6, 1e-3, 1e-2, 0.1, 1.0, 10.0, 100.0, 1e3, 1e6];

pub struct Rng(u64);

impl Rng {
    pub fn new(seed: u64) -> Rng {
        Rng(seed)
    }

    pub fn bits(&mut self) -> u64 {
        self.0 = self.0.wrapping_add(0x9E37_79B9_7F4A_7C15);
        let mut z = self.0;
        z = (z ^ (z >> 30)).wrapping_mul(0xBF58_476D_1CE4_E5B9);
        z = (z ^ (z >> 27)).wrapping_mul(0x94D0_49BB_1331_11EB);
        z ^ (z >> 31)
    }

    /// A whole number below `n`.
    pub fn below(&mut self, n: usize) -> usize {
        (self.bits() % n as u64) as usize
    }

    /// A whole number from `lo` to `hi`.
    pub fn between(&mut self, lo: i64, hi: i64) -> i64 {
        lo + self.below((hi - lo + 1) as usize) as i64
    }

    pub fn chance(&mut self, one_in: usize) -> bool {
        self.below(one_in) == 0
    }

    pub fn pick<T: Copy>(&mut self, from: &[T]) -> T {
        from[self.below(from.len())]
    }

    /// An f64 in [0, 1).
    pub fn unit(&mut self) -> f64 {
        (self.bits() >> 11) as f64 / (1u64 << 53) as f64
    }

    /// An f64 between `lo` and `hi`.
    pub fn real(&mut self, lo: f64, hi: f64) -> f64 {
        lo + (hi - lo) * self.unit()
    }

    /// An f32 between `lo` and `hi`.
    pub fn single(&mut self, lo: f64, hi: f64) -> f32 {
        self.real(lo, hi) as f32
    }

    /// Roughly normal, mean 0, deviation 1: the sum of 12 uniform numbers.
    pub fn normal(&mut self) -> f64 {
        (0..12).map(|_| self.unit()).sum::<f64>() - 6.0
    }

    /// An f32 of any bit pattern.
    pub fn any32(&mut self) -> f32 {
        f32::from_bits(self.bits() as u32)
    }

    /// An f32 of any kind: special, any pattern, or of ordinary size.
    pub fn float32(&mut self) -> f32 {
        match self.below(4) {
            0 => self.pick(&special32()),
            1 => self.any32(),
            _ => (self.normal() * self.pick(&SIZES)) as f32,
        }
    }

    /// An f64 of any kind.
    pub fn float64(&mut self) -> f64 {
        match self.below(4) {
            0 => self.pick(&special64()),
            1 => f64::from_bits(self.bits()),
            _ => self.normal() * self.pick(&SIZES),
        }
    }
}

/// The corners of f32, of both signs.
pub fn special32() -> Vec<f32> {
    let positive: [u32; 22] = [
        0,
        1,
        2,
        3,
        0x007F_FFFE,
        0x007F_FFFF,
        0x0080_0000,
        0x0080_0001,
        0x00FF_FFFF,
        0x0100_0000,
        0x3F7F_FFFF,
        0x3F80_0000,
        0x3F80_0001,
        0x3FFF_FFFF,
        0x4000_0000,
        0x7F00_0000,
        0x7F7F_FFFE,
        0x7F7F_FFFF,
        0x7F80_0000,
        0x7F80_0001,
        0x7FC0_0000,
        0x7FFF_FFFF,
    ];
    positive.iter().flat_map(|&b| [b, b | 0x8000_0000]).map(f32::from_bits).collect()
}

/// The corners of f64, of both signs.
pub fn special64() -> Vec<f64> {
    let positive: [u64; 14] = [
        0,
        1,
        0x000F_FFFF_FFFF_FFFF,
        0x0010_0000_0000_0000,
        0x3D71_9799_812D_EA11,
        0x3D71_9799_812D_EA10,
        0x3FEF_FFFF_FFFF_FFFF,
        0x3FF0_0000_0000_0000,
        0x3FF0_0000_0000_0001,
        0x7FEF_FFFF_FFFF_FFFF,
        0x7FF0_0000_0000_0000,
        0x7FF0_0000_0000_0001,
        0x7FF8_0000_0000_0000,
        0x7FFF_FFFF_FFFF_FFFF,
    ];
    positive.iter().flat_map(|&b| [b, b | 1 << 63]).map(f64::from_bits).collect()
}
