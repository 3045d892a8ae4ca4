//! The refusals of the stage, each with its number and its sentence.
use core::fmt;

/// Makes the enum and all that depends on which refusals there are of one list, which has, in checking order, the name,
/// the number and the sentence of each.
macro_rules! refusals {
    ($($name:ident = $number:literal, $sentence:literal;)*) => {
        /// Why a call was refused: the first sentence that held, in the order in which they stand here. What was lent to
        /// the call is as it was.
        #[derive(Clone, Copy, PartialEq, Eq, Hash, Debug)]
        #[non_exhaustive]
        pub enum Refusal {
            $(
                #[doc = concat!("Number ", $number, ". ", $sentence)]
                $name,
            )*
            /// A number that this crate does not know: the library is newer than it.
            Unknown(u32),
        }

        impl Refusal {
            /// Its number, from 1.
            pub fn number(self) -> u32 {
                match self {
                    $(Refusal::$name => $number,)*
                    Refusal::Unknown(number) => number,
                }
            }

            /// The sentence that holds where a call is refused so.
            pub fn sentence(self) -> &'static str {
                match self {
                    $(Refusal::$name => $sentence,)*
                    Refusal::Unknown(_) => "The library answered a number that this crate does not know.",
                }
            }

            /// What a call's number says: 0 is acceptance.
            pub(crate) fn check(number: u32) -> Result<(), Refusal> {
                match number {
                    0 => Ok(()),
                    $($number => Err(Refusal::$name),)*
                    _ => Err(Refusal::Unknown(number)),
                }
            }
        }

        /// The refusals that have a sentence.
        #[cfg(test)]
        const KNOWN: &[Refusal] = &[$(Refusal::$name),*];
    };
}

// made from docs/refusals.txt by bindings/refusals
refusals! {
    CardFile = 1, "The card file exceeds 16,384 bytes, has a side above 64 or breaks its layout (`readcard` only).";
    Side = 2, "The side is 0 or above 1,024.";
    Hues = 3, "The hue count is not 1, 2, 4, 8 or 16.";
    CellSize = 4, "The chroma cell size is 0 or above 16.";
    Length = 5, "A lent slice is shorter than its length, or two slices that run in pairs differ in length.";
    Count = 6, "There are more than 16,384 references, more than 1,048,576 modules or cells, more grid modules than \
        modules, or a matrix size or term count outside 1 to 18.";
    Place = 7, "A reference position is not a number from -16 to side + 16, a grid module is outside 0 to side - 1, a \
        ring module is outside -6 to side + 5, or a cell coordinate is above 1,023.";
    Number = 8, "A colour, palette number or score given to refinement is not finite or has magnitude above 1,048,576, \
        or a noise figure is not finite or above 2^40 in magnitude; `fit` refuses reference colours only where they \
        are not finite.";
    Sigma = 9, "`sigma_l` or `sigma_ab` is below 0.75, or a level's sigma is neither 0 nor at least 0.75.";
    Model = 10, "A model's terms are neither 4 nor 9, its side is not a whole number from 1 to 1,024, or one of its \
        numbers is not finite.";
    Fit = 11, "After a pass of `fit`, a number of the model or a reference's residual is not finite.";
    Corrected = 12, "A corrected colour of a module, cell or measured reference is not finite or has magnitude above \
        1,048,576.";
    Page = 14, "The side is above 40 where a page is laid out.";
    Radius = 15, "The radius within which references are asked for is negative or not finite.";
    Totals = 18, "Totals have more than 65,535 cards, or would have with what is added, more than 1,048,576 modules a \
        card, a count above their modules, or a sum above 1,310,720 a module.";
    Score = 19, "A score that is added to totals is NaN or above 20 in magnitude.";
}
// end of docs/refusals.txt

impl fmt::Display for Refusal {
    fn fmt(&self, f: &mut fmt::Formatter) -> fmt::Result {
        write!(f, "refused {}: {}", self.number(), self.sentence())
    }
}

impl core::error::Error for Refusal {}

#[cfg(test)]
mod tests {
    use super::*;

    #[test]
    fn a_number_leads_back_to_its_refusal() {
        for &refusal in KNOWN {
            assert_eq!(Refusal::check(refusal.number()), Err(refusal));
        }
    }

    #[test]
    fn numbers_are_different_and_not_0() {
        for (place, refusal) in KNOWN.iter().enumerate() {
            assert_ne!(refusal.number(), 0);
            assert!(KNOWN[..place].iter().all(|before| before.number() != refusal.number()));
        }
    }

    #[test]
    fn other_numbers_are_acceptance_or_unknown() {
        assert_eq!(Refusal::check(0), Ok(()));
        for number in [99, u32::MAX] {
            assert_eq!(Refusal::check(number), Err(Refusal::Unknown(number)));
            assert_eq!(Refusal::Unknown(number).number(), number);
        }
    }
}
