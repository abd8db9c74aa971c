//! A matrix is answered from a table (SPECIFICATION, chapter 7).

use crate::refusal::answer_of;
use crate::{ffi, Gate, Matrix, Refusal, MAX_GATES};

/// What the archive returns where a table has no list for a matrix.
const NONE: u32 = u32::MAX;

/// What stands as the parent and the code of node 0 of each width (SPECIFICATION 2.10).
pub const MARK: u32 = u32::MAX;

/// The limits of a table, and how many nodes each width has (SPECIFICATION 6.1, 14.3).
///
/// Any numbers may stand in it; limits and counts that no table has are refused by 13.
#[derive(Clone, Copy, Debug, PartialEq, Eq, Hash)]
pub struct Record {
    /// Q: the table has widths 1 to Q. From 1 to 5.
    pub q: u32,
    /// G: the most gates of a list. From 0 to 64.
    pub g: u32,
    /// E: the most nodes of each width. From 1 to 1,000,000.
    pub e: u32,
    /// B: the kinds of the lists' gates, as a sum of [`Kind::basis_bit`](crate::Kind::basis_bit).
    pub b: u32,
    /// The number of nodes of widths 1 to 5, each from 1 to E. Those above Q are not looked at.
    pub counts: [usize; 5],
}

/// The three arrays of a table (SPECIFICATION 6.2, 6.11).
///
/// Each has Q × E places or more. Node j of width w is at place (w - 1) × E + j.
#[derive(Clone, Copy, Debug)]
pub struct Arrays<'a> {
    /// The fingerprint of each node's matrix.
    pub fingerprints: &'a [u64],
    /// The number of each node's parent; [`MARK`] for node 0.
    pub parents: &'a [u32],
    /// The code of each node's last gate; [`MARK`] for node 0.
    pub codes: &'a [u32],
}

/// A matrix that is asked (SPECIFICATION 7.1).
#[derive(Clone, Copy, Debug)]
pub struct Query<'a> {
    /// The number of qubits.
    pub width: u32,
    /// The exponent k: all entries are over √2^k.
    pub exponent: u16,
    /// The coefficients, as [`library_circuit_matrix`](crate::library_circuit_matrix) leaves them.
    pub coefficients: &'a [i16],
}

/// Asks a table for a list of gates whose matrix is a power of ω times the query.
///
/// `Some(count)`: the first `count` places of `out` are the codes of the list, the oldest gate
/// first, and the later places are as they were. `None`: the table gives no list, and all places
/// of `out` are as they were. That an answered list is right is proved for all records and arrays,
/// also for those that no build made.
///
/// # Errors
///
/// A [`Refusal`]: 13 of the record, 5, 6, 9, 10, 11, 12, 13 of a node that is met, tried in this order.
/// `out` is then as it was. With [`MAX_GATES`] places it is never refused by 12.
///
/// ```
/// use murm::{matrix_of, synthesize, Arrays, Gate, Kind, Record, MARK};
///
/// // All products of S and its inverse: nothing, S, Sdg, and S twice.
/// let basis = [Kind::S, Kind::Sdg].iter().filter_map(|kind| kind.basis_bit()).sum();
/// let record = Record { q: 1, g: 8, e: 4, b: basis, counts: [4, 0, 0, 0, 0] };
/// let arrays = Arrays {
///     fingerprints: &[
///         0x29cc3c6d2113fdc4,
///         0x45bb475b3b2a7d1d,
///         0x091e144b25807b85,
///         0xbeb5662ea166a017,
///     ],
///     parents: &[MARK, 0, 0, 1],
///     codes: &[MARK, Gate::s(0).code(), Gate::sdg(0).code(), Gate::s(0).code()],
/// };
/// let z = matrix_of(1, &[Gate::z(0)])?;
/// let mut list = [0; 8];
/// assert_eq!(synthesize(&record, arrays, z.as_query(), &mut list)?, Some(2));
/// assert_eq!(list[..2], [12288, 12288]);
///
/// let t = matrix_of(1, &[Gate::t(0)])?;
/// assert_eq!(synthesize(&record, arrays, t.as_query(), &mut list)?, None);
/// # Ok::<(), murm::Refusal>(())
/// ```
pub fn synthesize(
    record: &Record,
    arrays: Arrays<'_>,
    query: Query<'_>,
    out: &mut [u32],
) -> Result<Option<usize>, Refusal> {
    let count = answer_of(ffi::synthesize(record, arrays, query, out))?;
    Ok((count != NONE).then_some(count as usize))
}

/// A list of gates that a table has for a matrix, up to a power of ω.
///
/// This is [`synthesize`] with memory of its own.
///
/// # Errors
///
/// 13 if the record is bad, 5 if an array is too short, 13 if the parents or codes that the node
/// found leads to are bad.
///
/// ```
/// use murm::{gates_of, matrix_of, Arrays, Gate, Kind, Record, MARK};
///
/// // The empty list and X.
/// let b = Kind::X.basis_bit().unwrap();
/// let record = Record { q: 1, g: 1, e: 2, b, counts: [2, 0, 0, 0, 0] };
/// let fingerprints = &[0x29cc3c6d2113fdc4, 0x9844fa5b7fd30705];
/// let codes = &[MARK, Gate::x(0).code()];
/// let arrays = Arrays { fingerprints, parents: &[MARK, 0], codes };
///
/// let hzh = matrix_of(1, &[Gate::h(0), Gate::z(0), Gate::h(0)])?;
/// assert_eq!(gates_of(&record, arrays, &hzh)?, Some(vec![Gate::x(0)]));
/// # Ok::<(), murm::Refusal>(())
/// ```
pub fn gates_of(
    record: &Record,
    arrays: Arrays<'_>,
    matrix: &Matrix,
) -> Result<Option<Vec<Gate>>, Refusal> {
    let mut list = [0; MAX_GATES];
    let count = synthesize(record, arrays, matrix.as_query(), &mut list)?;
    Ok(count.map(|count| list[..count].iter().map(|&code| gate_of(code)).collect()))
}

fn gate_of(code: u32) -> Gate {
    Gate::try_from(code).expect("the codes of an answer are valid")
}
