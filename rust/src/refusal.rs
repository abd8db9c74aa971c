//! Why a call is refused (SPECIFICATION, chapter 9).

use std::error::Error;
use std::fmt;

/// Why a call is refused: the refusals of SPECIFICATION 9.1 that this crate's functions give.
///
/// A refused call leaves the memory that it was lent as it was.
///
/// ```
/// let why = murm::library_circuit_matrix(1, &[0, 7], &mut [0; 16]).unwrap_err();
/// assert_eq!(why, murm::Refusal::NotValid(1));
/// assert_eq!((why.number(), why.position()), (7, 1));
/// assert_eq!(why.to_string(), "refused 7 1: the code at position 1 is not valid at the width");
/// ```
#[derive(Clone, Copy, Debug, PartialEq, Eq, Hash)]
#[non_exhaustive]
pub enum Refusal {
    /// 5: one of the three arrays has fewer than Q × E places.
    ArrayTooShort,
    /// 6: the width is above 5.
    WidthTooLarge,
    /// 7: a code is not valid at the width. With the position of the first such code.
    NotValid(usize),
    /// 8: a coefficient would be outside -32767 to 32767. With the position of the first gate where
    /// this is so.
    DoesNotFit(usize),
    /// 9: a matrix does not have exactly 4 × 4^n coefficients, where n is the width.
    LengthNotExact,
    /// 10: a coefficient of the matrix that is asked is -32768.
    OutOfRange,
    /// 11: the matrix that is asked is not in lowest denominator: its exponent is above 0, and all
    /// its entries are divisible by sqrt(2).
    NotLowest,
    /// 12: the lent list has fewer than G places.
    ListTooShort,
    /// 13: the record is bad, or parents or codes that an answer meets are
    /// (SPECIFICATION 9.3). A table that was built and not altered never gives this.
    BadTable,
}

impl Refusal {
    /// The refusal's number in SPECIFICATION 9.1.
    pub const fn number(self) -> u32 {
        match self {
            Refusal::ArrayTooShort => 5,
            Refusal::WidthTooLarge => 6,
            Refusal::NotValid(_) => 7,
            Refusal::DoesNotFit(_) => 8,
            Refusal::LengthNotExact => 9,
            Refusal::OutOfRange => 10,
            Refusal::NotLowest => 11,
            Refusal::ListTooShort => 12,
            Refusal::BadTable => 13,
        }
    }

    /// The position in the list, counted from 0. It is 0 except for `NotValid` and `DoesNotFit`.
    /// A position above 4294967295 is given as 4294967295.
    pub const fn position(self) -> usize {
        match self {
            Refusal::NotValid(position) | Refusal::DoesNotFit(position) => position,
            _ => 0,
        }
    }

    /// The refusal of a number and a position, if this crate knows the number.
    fn from_parts(number: u32, position: usize) -> Option<Refusal> {
        Some(match number {
            5 => Refusal::ArrayTooShort,
            6 => Refusal::WidthTooLarge,
            7 => Refusal::NotValid(position),
            8 => Refusal::DoesNotFit(position),
            9 => Refusal::LengthNotExact,
            10 => Refusal::OutOfRange,
            11 => Refusal::NotLowest,
            12 => Refusal::ListTooShort,
            13 => Refusal::BadTable,
            _ => return None,
        })
    }
}

impl fmt::Display for Refusal {
    fn fmt(&self, f: &mut fmt::Formatter<'_>) -> fmt::Result {
        write!(f, "refused {} {}: ", self.number(), self.position())?;
        match self {
            Refusal::ArrayTooShort => {
                f.write_str("an array of the table has fewer than Q × E places")
            }
            Refusal::WidthTooLarge => f.write_str("the width is above 5"),
            Refusal::NotValid(position) => {
                write!(
                    f,
                    "the code at position {position} is not valid at the width"
                )
            }
            Refusal::DoesNotFit(position) => {
                write!(
                    f,
                    "a coefficient would be outside -32767 to 32767 at the gate at position {position}"
                )
            }
            Refusal::LengthNotExact => {
                f.write_str("the matrix does not have exactly 4 × 4^width coefficients")
            }
            Refusal::OutOfRange => f.write_str("a coefficient of the matrix is -32768"),
            Refusal::NotLowest => f.write_str("the matrix is not in lowest denominator"),
            Refusal::ListTooShort => f.write_str("the lent list has fewer than G places"),
            Refusal::BadTable => {
                f.write_str("the table's limits, counts, parents or codes are bad")
            }
        }
    }
}

impl Error for Refusal {}

/// What the number that a function of the archive returns says: the answer, or else
/// refusal × 2^32 + position (SPECIFICATION 14.2).
///
/// # Panics
///
/// If the refusal is none that this crate knows, which an archive of this version never gives.
pub(crate) fn answer_of(returned: u64) -> Result<u32, Refusal> {
    let (number, low) = ((returned >> 32) as u32, returned as u32);
    if number == 0 {
        return Ok(low);
    }
    Err(
        Refusal::from_parts(number, low as usize).unwrap_or_else(|| {
            panic!("libmurm_c.a refused by {number}, which this crate does not know")
        }),
    )
}

#[cfg(test)]
mod tests {
    use super::*;

    #[test]
    fn numbers_and_positions() {
        for number in 5..=13 {
            for position in [0, 1, u32::MAX] {
                let refusal = answer_of(u64::from(number) << 32 | u64::from(position)).unwrap_err();
                assert_eq!(refusal.number(), number);
                let told = if matches!(number, 7 | 8) {
                    position as usize
                } else {
                    0
                };
                assert_eq!(refusal.position(), told);
                assert!(refusal
                    .to_string()
                    .starts_with(&format!("refused {number} {told}: ")));
            }
        }
    }

    #[test]
    fn answers() {
        for answer in [0, 1, 64, 65535, u32::MAX] {
            assert_eq!(answer_of(u64::from(answer)), Ok(answer));
        }
    }

    #[test]
    #[should_panic(expected = "refused by 14")]
    fn another_number() {
        let _ = answer_of(14 << 32);
    }
}
