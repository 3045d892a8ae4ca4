//! Slices as they are lent to the library: between guards, which must be as they were after the call.

/// A thing that a slice is made of, compared by its bits.
pub trait Element: Copy {
    const GUARD: Self;
    fn bits(self) -> u64;
    /// The same bits, or both a NaN.
    fn same(self, other: Self) -> bool {
        self.bits() == other.bits()
    }
}

macro_rules! whole_elements {
    ($($t:ty)*) => {$(impl Element for $t {
        const GUARD: $t = 0x5A as $t;
        fn bits(self) -> u64 {
            self as u64
        }
    })*};
}
whole_elements!(u8 u16 u32 i32 usize);

macro_rules! float_elements {
    ($($t:ty)*) => {$(impl Element for $t {
        const GUARD: $t = -12345.678;
        fn bits(self) -> u64 {
            self.to_bits() as u64
        }
        fn same(self, other: $t) -> bool {
            self.bits() == other.bits() || self.is_nan() && other.is_nan()
        }
    })*};
}
float_elements!(f32 f64);

const GUARDS: usize = 24;

/// A slice between guards, and what it was before the call.
pub struct Lent<T> {
    room: Vec<T>,
    before: Vec<T>,
}

impl<T: Element> Lent<T> {
    pub fn new(values: Vec<T>) -> Lent<T> {
        let mut room = vec![T::GUARD; GUARDS];
        room.extend(&values);
        room.extend([T::GUARD; GUARDS]);
        Lent { room, before: values }
    }

    pub fn len(&self) -> usize {
        self.before.len()
    }

    pub fn ptr(&self) -> *const T {
        self.room[GUARDS..].as_ptr()
    }

    pub fn ptr_mut(&mut self) -> *mut T {
        self.room[GUARDS..].as_mut_ptr()
    }

    pub fn now(&self) -> &[T] {
        &self.room[GUARDS..GUARDS + self.len()]
    }

    fn guarded(&self) -> bool {
        let outside = self.room[..GUARDS].iter().chain(&self.room[GUARDS + self.len()..]);
        outside.copied().all(|v| v.bits() == T::GUARD.bits())
    }

    /// The same as before the call, to be lent once more.
    pub fn again(&self) -> Lent<T> {
        Lent::new(self.before.clone())
    }

    /// Two calls left the same.
    pub fn left(&self, other: &Lent<T>) -> bool {
        let same = self.now().iter().zip(other.now()).all(|(a, b)| a.same(*b));
        self.guarded() && self.len() == other.len() && same
    }

    /// Nothing was written: every byte is as it was.
    pub fn untouched(&self) -> bool {
        self.guarded() && self.now().iter().zip(&self.before).all(|(a, b)| a.bits() == b.bits())
    }

    /// What stands there is this, a NaN for a NaN, and a longer slice keeps its tail to the byte.
    pub fn is(&self, want: &[T], used: usize) -> bool {
        let tail = self.now().iter().zip(&self.before).skip(used).all(|(a, b)| a.bits() == b.bits());
        let head = self.len() == want.len() && self.now().iter().zip(want).all(|(a, b)| a.same(*b));
        self.guarded() && head && tail
    }

    /// The first elements are zero, and the others as they were.
    pub fn zeroed(&self, zeros: usize) -> bool {
        let mut want = self.before.clone();
        let cleared = self.now().iter().take(zeros).all(|v| v.bits() == 0);
        want[..zeros.min(self.len())].copy_from_slice(&self.now()[..zeros.min(self.len())]);
        cleared && zeros <= self.len() && self.is(&want, zeros)
    }
}
