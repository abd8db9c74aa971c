//! A table in lent arrays, how it is built and looked up, and what it says.

use super::tables::Limits;

/// When a candidate of a build is known: where an entry has its fingerprint, or
/// where one has it and is equal up to phase.
#[derive(Clone, Copy, Debug, PartialEq)]
pub(super) enum Mode {
    ByPrint,
    Keeping,
}

impl Mode {
    pub(super) const BOTH: [Mode; 2] = [Mode::ByPrint, Mode::Keeping];
}

/// How nodes are looked up.
#[derive(Clone, Copy, Debug, PartialEq)]
pub(super) enum By {
    Scan,
    Index,
}

/// The same with the index that is lent. The scan is not to look at it.
#[derive(Clone, Copy)]
pub(super) struct Lookup<'a> {
    pub(super) by: By,
    pub(super) index: &'a [u32],
}

/// The scan, with no index lent.
pub(super) const SCAN: Lookup<'static> = Lookup {
    by: By::Scan,
    index: &[],
};

/// Through this index.
pub(super) fn through(index: &[u32]) -> Lookup<'_> {
    Lookup {
        by: By::Index,
        index,
    }
}

/// A table: the limits; count, depth and saturated of each width from 1 to 5; and the
/// three arrays.
#[derive(Clone)]
pub(super) struct Table {
    pub(super) limits: Limits,
    pub(super) record: [u64; 15],
    pub(super) fingerprints: Vec<u64>,
    pub(super) parents: Vec<u32>,
    pub(super) codes: Vec<u32>,
}

/// What a table answers.
#[derive(Debug, PartialEq)]
pub(super) enum Reply {
    List(Vec<u32>),
    None,
    Refused(u64),
}

/// What a find says: a node and its gate count.
#[derive(Debug, PartialEq)]
pub(super) enum Finding {
    Node(usize, usize),
    None,
    Refused(u64),
}

impl Table {
    /// Arrays of so many places, nothing built.
    pub(super) fn with_places(limits: Limits, places: usize) -> Self {
        Self {
            limits,
            record: [0; 15],
            fingerprints: vec![0; places],
            parents: vec![0; places],
            codes: vec![0; places],
        }
    }

    /// The count of a width from 1 to 5.
    pub(super) fn count(&self, width: usize) -> usize {
        self.record[3 * (width - 1)] as usize
    }

    /// Whether another table of the same limits has the same record and nodes.
    /// Unfilled places play no part.
    pub(super) fn same_nodes(&self, other: &Self) -> bool {
        let nodes = |table: &Self| -> Vec<(u64, u32, u32)> {
            let entries = table.limits.entries as usize;
            let filled = |&place: &usize| place % entries < table.count(place / entries + 1);
            let places = (0..table.limits.qubits as usize * entries).filter(filled);
            let node = |place: usize| {
                let print = table.fingerprints[place];
                (print, table.parents[place], table.codes[place])
            };
            places.map(node).collect()
        };
        self.record == other.record && nodes(self) == nodes(other)
    }
}
