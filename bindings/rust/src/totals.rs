//! Totals over a season's cards, which add up; the Rust has none.
use crate::{Refusal, ffi};

/// What a batch of cards adds up to. Its default is the totals of no card.
///
/// ```
/// # use purdolve::totals::Totals;
/// let monday = Totals::default().add_card(&[20.0, -11.0, 0.0])?;
/// let tuesday = Totals::default().add_card(&[-16.0])?;
/// let both = monday.add(&tuesday)?;
/// assert_eq!((both.cards, both.modules, both.undecided, both.under), (2, 4, 1, 2));
/// assert_eq!(both.sum, 47 * 65_536);
/// let mean = both.mean()?;
/// assert_eq!((mean.numerator, mean.denominator), (47 * 16_384, 1));
/// # Ok::<(), purdolve::Refusal>(())
/// ```
#[repr(C)]
#[derive(Copy, Clone, PartialEq, Eq, Default, Debug)]
pub struct Totals {
    /// Cards.
    pub cards: u64,
    /// Modules of these cards.
    pub modules: u64,
    /// Modules whose score reads as 2.
    pub undecided: u64,
    /// Modules whose score's magnitude is under 12.
    pub under: u64,
    /// The sum of the magnitudes, each in whole 65,536ths.
    pub sum: u64,
}

/// Two whole numbers without common factor.
#[repr(C)]
#[derive(Copy, Clone, PartialEq, Eq, Debug)]
pub struct Ratio {
    /// What is divided.
    pub numerator: u64,
    /// By what, which is above 0.
    pub denominator: u64,
}

impl Totals {
    /// These and a card, by its refined luma scores, one a module. Refused: 6, 18, 19.
    pub fn add_card(&self, luma: &[f32]) -> Result<Totals, Refusal> {
        let answer = ffi::add_card(*self, luma);
        Refusal::check(answer.number).map(|()| answer.totals)
    }

    /// These and those of another batch. Refused: 18.
    pub fn add(&self, other: &Totals) -> Result<Totals, Refusal> {
        let answer = ffi::purdolve_add_totals(*self, *other);
        Refusal::check(answer.number).map(|()| answer.totals)
    }

    /// The mean magnitude of a score in 65,536ths; 0 over 1 with no modules. Refused: 18.
    pub fn mean(&self) -> Result<Ratio, Refusal> {
        let answer = ffi::purdolve_mean(*self);
        Refusal::check(answer.number).map(|()| answer.ratio)
    }
}
