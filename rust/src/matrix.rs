//! A list becomes a matrix (SPECIFICATION, chapter 4).

use crate::refusal::answer_of;
use crate::{ffi, Gate, Query, Refusal, MAX_WIDTH};

/// How many coefficients a matrix of a width has: 4 × 4^n. None for a width above 5.
pub const fn coefficient_count(width: u32) -> Option<usize> {
    if width > MAX_WIDTH {
        return None;
    }
    Some(4 << (2 * width))
}

/// Puts the matrix of a list of gates into `out` and returns its exponent k.
///
/// The list is given by its codes, the oldest gate first; it may be empty. `out` has exactly
/// [`coefficient_count`] places: four for each entry, a, b, c and d, the entries row after row.
/// The entry stands for (a + b ω + c ω² + d ω³) / √2^k, where ω is the eighth root of one with
/// ω⁴ = -1. Qubit 0 is the highest bit of a row's number. The matrix is in lowest denominator.
///
/// # Errors
///
/// A [`Refusal`]: 6, 9, 7, 8, tried in this order. `out` is then as it was.
///
/// ```
/// use murm::{library_circuit_matrix, Gate, Refusal};
///
/// let mut out = [0; 16];
/// assert_eq!(library_circuit_matrix(1, &[Gate::h(0).code()], &mut out), Ok(1));
/// assert_eq!(out, [1, 0, 0, 0, 1, 0, 0, 0, 1, 0, 0, 0, -1, 0, 0, 0]);
///
/// let refused = library_circuit_matrix(1, &[Gate::h(1).code()], &mut out);
/// assert_eq!(refused, Err(Refusal::NotValid(0)));
/// ```
pub fn library_circuit_matrix(width: u32, codes: &[u32], out: &mut [i16]) -> Result<u16, Refusal> {
    let exponent = answer_of(ffi::library_circuit_matrix(width, codes, out))?;
    Ok(u16::try_from(exponent).expect("an exponent is below 65535"))
}

/// The matrix of a list of gates, the oldest first.
///
/// This is [`library_circuit_matrix`] with memory of its own.
///
/// # Errors
///
/// 6 if the width is above 5, 7 if a gate has a qubit that is not below the width, 8 if a
/// coefficient would be outside -32767 to 32767.
///
/// ```
/// use murm::{matrix_of, Gate};
///
/// let bell = matrix_of(2, &[Gate::h(0), Gate::cx(0, 1)])?;
/// assert_eq!(bell.exponent(), 1);
/// assert_eq!(bell.entry(3, 0), [1, 0, 0, 0]);
/// # Ok::<(), murm::Refusal>(())
/// ```
pub fn matrix_of(width: u32, gates: &[Gate]) -> Result<Matrix, Refusal> {
    let codes: Vec<u32> = gates.iter().map(|gate| gate.code()).collect();
    // Any length does for a width above 5, which is refused before the length is looked at.
    let mut coefficients = vec![0; coefficient_count(width).unwrap_or(0)];
    let exponent = library_circuit_matrix(width, &codes, &mut coefficients)?;
    Ok(Matrix {
        width,
        exponent,
        coefficients,
    })
}

/// The exact matrix of a list of gates, made by [`matrix_of`].
///
/// Two of them are equal where they have the same width and the same value, phase included.
#[derive(Clone, Debug, PartialEq, Eq, Hash)]
pub struct Matrix {
    width: u32,
    exponent: u16,
    coefficients: Vec<i16>,
}

impl Matrix {
    /// The number of qubits.
    pub fn width(&self) -> u32 {
        self.width
    }

    /// The exponent k: all entries are over √2^k.
    pub fn exponent(&self) -> u16 {
        self.exponent
    }

    /// All coefficients, four for each entry, the entries row after row.
    pub fn coefficients(&self) -> &[i16] {
        &self.coefficients
    }

    /// The coefficients a, b, c, d of one entry.
    ///
    /// # Panics
    ///
    /// If the row or the column is not below 2^n, where n is the width.
    pub fn entry(&self, row: usize, column: usize) -> [i16; 4] {
        let size = 1 << self.width;
        assert!(
            row < size && column < size,
            "entry ({row}, {column}) of {size} rows and columns"
        );
        let at = 4 * (row * size + column);
        [0, 1, 2, 3].map(|i| self.coefficients[at + i])
    }

    /// The matrix as it is asked of a table.
    pub fn as_query(&self) -> Query<'_> {
        Query {
            width: self.width,
            exponent: self.exponent,
            coefficients: &self.coefficients,
        }
    }
}
