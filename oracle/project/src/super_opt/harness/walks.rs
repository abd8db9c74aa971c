//! A build, written from the documents alone, in either mode, by the scan and through
//! an index that is cleared and kept up. It is for small tables: every node's matrix
//! is kept. Fingerprints may be weakened, so that they clash.

use std::iter;

use super::exact::{LIMIT, Matrix, gate};
use super::lent::{By, Lookup, Mode, Table};
use super::rules::{EMPTY, MARK, led_to, part_size, put_in};
use super::tables::Limits;

/// How a build is done: in which mode, with which fingerprints, and within which limit
/// of coefficients. Weakened fingerprints are the remainders by a number.
#[derive(Clone, Copy)]
pub(super) struct Manner {
    pub(super) mode: Mode,
    pub(super) weak: Option<u64>,
    pub(super) limit: i64,
}

impl Manner {
    /// With the fingerprints and the limit as they are.
    pub(super) fn plain(mode: Mode) -> Self {
        Self::within(mode, LIMIT)
    }

    /// The same within another limit.
    pub(super) fn within(mode: Mode, limit: i64) -> Self {
        let weak = None;
        Self { mode, weak, limit }
    }

    /// A matrix's fingerprint.
    pub(super) fn print(self, matrix: &Matrix) -> u64 {
        let print = matrix.fingerprint();
        self.weak.map_or(print, |weak| print % weak)
    }
}

/// One width as it is built.
struct Walk<'a> {
    width: u32,
    limits: Limits,
    manner: Manner,
    prints: Vec<u64>,
    parents: Vec<u32>,
    codes: Vec<u32>,
    matrices: Vec<Matrix>,
    /// The part of the index, where nodes are looked up through one.
    part: Option<&'a mut [u32]>,
    depth: u64,
    saturated: bool,
}

/// What a build leaves of a table's arrays and record, and of an index; or its
/// refusal: 1 to 5, then 17.
pub(super) fn build(
    lent: &Table,
    manner: Manner,
    lookup: Lookup,
) -> Result<(Table, Vec<u32>), u64> {
    let limits = lent.limits;
    let lengths = [
        lent.fingerprints.len(),
        lent.parents.len(),
        lent.codes.len(),
    ];
    let places = lengths.into_iter().min().expect("three arrays");
    if let Some(row) = limits.refusal(places as u64) {
        return Err(u64::from(row));
    }
    let mut index = lookup.index.to_vec();
    let mut parts = Vec::new();
    if lookup.by == By::Index {
        let size = part_size(&limits, index.len()).ok_or(17u64)?;
        index.fill(EMPTY);
        parts = index.chunks_exact_mut(size).collect();
    }
    let mut parts = parts.into_iter();
    let mut table = lent.clone();
    table.record = [0; 15];
    for width in 1..=limits.qubits {
        let walk = Walk::new(width, limits, manner, parts.next()).to_its_end();
        let (row, count) = (width as usize - 1, walk.prints.len());
        let start = row * limits.entries as usize;
        table.fingerprints[start..][..count].copy_from_slice(&walk.prints);
        table.parents[start..][..count].copy_from_slice(&walk.parents);
        table.codes[start..][..count].copy_from_slice(&walk.codes);
        let numbers = [count as u64, walk.depth, u64::from(walk.saturated)];
        table.record[3 * row..][..3].copy_from_slice(&numbers);
    }
    Ok((table, index))
}

impl<'a> Walk<'a> {
    /// Node 0 alone.
    fn new(width: u32, limits: Limits, manner: Manner, part: Option<&'a mut [u32]>) -> Self {
        let mut walk = Self {
            width,
            limits,
            manner,
            prints: Vec::new(),
            parents: Vec::new(),
            codes: Vec::new(),
            matrices: Vec::new(),
            part,
            depth: 0,
            saturated: false,
        };
        walk.append(Matrix::identity(width), MARK, MARK);
        walk
    }

    fn append(&mut self, matrix: Matrix, parent: u32, code: u32) {
        let (node, print) = (self.prints.len(), self.manner.print(&matrix));
        if let Some(part) = &mut self.part {
            put_in(part, print, node);
        }
        self.prints.push(print);
        self.parents.push(parent);
        self.codes.push(code);
        self.matrices.push(matrix);
    }

    /// By fingerprint: whether some entry has the candidate's. Keeping: "exactly if
    /// some entry of its width has the same fingerprint and is equal up to phase".
    fn is_known(&self, matrix: &Matrix) -> bool {
        let mut entries = self.with_print(self.manner.print(matrix));
        match self.manner.mode {
            Mode::ByPrint => entries.next().is_some(),
            Mode::Keeping => entries.any(|node| self.matrices[node].equal_up_to_phase(matrix)),
        }
    }

    /// The entries with a fingerprint, rising.
    fn with_print(&self, print: u64) -> impl Iterator<Item = usize> {
        let from = move |start: usize| match &self.part {
            Some(part) => led_to(part, &self.prints, print, start),
            None => (start..self.prints.len()).find(|&node| self.prints[node] == print),
        };
        iter::successors(from(0), move |&node| from(node + 1))
    }

    fn to_its_end(mut self) -> Self {
        let generators = generators(self.limits.basis, self.width);
        if generators.is_empty() {
            return self;
        }
        let mut layer = 0..1;
        for _ in 0..self.limits.gates {
            let end = self.prints.len();
            for node in layer {
                for &code in &generators {
                    if !self.tries(node, code) {
                        self.saturated = true;
                        return self;
                    }
                }
            }
            self.depth += 1;
            layer = end..self.prints.len();
            if layer.is_empty() {
                break;
            }
        }
        self
    }

    /// One candidate; whether the walk goes on.
    fn tries(&mut self, node: usize, code: u32) -> bool {
        if node > 0 && is_skipped(self.width, self.codes[node], code) {
            return true;
        }
        let mut matrix = self.matrices[node].clone();
        if !matrix.step(code, self.manner.limit) || self.is_known(&matrix) {
            return true;
        }
        if self.prints.len() == self.limits.entries as usize {
            return false;
        }
        self.append(matrix, node as u32, code);
        true
    }
}

/// The codes of a basis at a width, rising.
pub(super) fn generators(basis: u32, width: u32) -> Vec<u32> {
    let of_basis = |code: &u32| match gate(*code, width) {
        Some((kind, _)) => basis >> kind.number & 1 != 0,
        None => false,
    };
    (0..12 * 4096).filter(of_basis).collect()
}

/// Whether a generator after a gate inverts it, or shares no qubit with it and has
/// the lower code.
fn is_skipped(width: u32, last: u32, code: u32) -> bool {
    let inverts = |kind: u32| match kind {
        3 => 4,
        4 => 3,
        5 => 6,
        6 => 5,
        _ => kind,
    };
    let inverse = inverts(last / 4096) * 4096 + last % 4096 == code;
    let bits = |code: u32| gate(code, width).expect("a code of the basis").1;
    let (last_bits, new_bits) = (bits(last), bits(code));
    let disjoint = last_bits.iter().all(|bit| !new_bits.contains(bit));
    inverse || disjoint && code < last
}
