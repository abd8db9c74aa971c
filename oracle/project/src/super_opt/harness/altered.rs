//! The places of a table that are altered, and the values that they get.

use super::lent::Table;

/// A place of a table. A node's place is one of the three arrays' filled places.
#[derive(Clone, Copy)]
pub(super) enum Place {
    Fingerprint(usize),
    Parent(usize),
    Code(usize),
    Qubits,
    Gates,
    Entries,
    Basis,
    /// The count of a width, whose place in the record this is.
    Count(usize),
    /// The length of one of the three arrays.
    Length(usize),
}

use Place::{Basis, Code, Count, Entries, Fingerprint, Gates, Length, Parent, Qubits};

impl Place {
    pub(super) fn is_of_node(&self) -> bool {
        matches!(self, Fingerprint(_) | Parent(_) | Code(_))
    }

    /// A place that the array no longer has stays as it is.
    pub(super) fn set(self, table: &mut Table, value: u64) {
        let limits = &mut table.limits;
        match self {
            Fingerprint(place) => put(&mut table.fingerprints, place, value),
            Parent(place) => put(&mut table.parents, place, value as u32),
            Code(place) => put(&mut table.codes, place, value as u32),
            Qubits => limits.qubits = value as u32,
            Gates => limits.gates = value as u32,
            Entries => limits.entries = value as u32,
            Basis => limits.basis = value as u32,
            Count(place) => table.record[place] = value,
            Length(0) => table.fingerprints.truncate(value as usize),
            Length(1) => table.parents.truncate(value as usize),
            Length(_) => table.codes.truncate(value as usize),
        }
    }
}

fn put<T>(array: &mut [T], place: usize, value: T) {
    if let Some(held) = array.get_mut(place) {
        *held = value;
    }
}

/// Every filled place of the three arrays, every limit and every count of the
/// record, and the three lengths. Depths and flags are not asked with.
pub(super) fn places(table: &Table) -> Vec<Place> {
    let mut all = vec![Qubits, Gates, Entries, Basis];
    all.extend((0..15).step_by(3).map(Count));
    all.extend((0..3).map(Length));
    for width in 0..table.limits.qubits as usize {
        let start = width * table.limits.entries as usize;
        for place in start..start + table.record[3 * width] as usize {
            all.extend([Fingerprint(place), Parent(place), Code(place)]);
        }
    }
    all
}

/// The values that a place gets, none of them what it holds. Strangers are
/// fingerprints that may be asked and that no node has.
pub(super) fn values(table: &Table, place: Place, strangers: &[u64]) -> Vec<u64> {
    let limits = table.limits;
    let entries = limits.entries as usize;
    let (old, mut new): (u64, Vec<u64>) = match place {
        Fingerprint(place) => {
            let start = place / entries * entries;
            let count = table.record[3 * (place / entries)] as usize;
            let next = start + (place - start + 1) % count;
            let others = [start, next, start + count - 1, start + count / 2];
            let old = table.fingerprints[place];
            let mut new = vec![0, u64::MAX, old ^ 1, old ^ 1 << 63];
            new.extend(others.map(|other| table.fingerprints[other]));
            new.extend(strangers.iter().skip(place % 3).step_by(3));
            (old, new)
        }
        Parent(place) => {
            let node = (place % entries) as u64;
            let count = table.record[3 * (place / entries)];
            let new = [
                node,
                node + 1,
                node.wrapping_sub(1),
                0,
                1,
                node / 2,
                count - 1,
                count,
                entries as u64,
                1 << 31,
                4294967294,
                4294967295,
            ];
            (u64::from(table.parents[place]), new.to_vec())
        }
        Code(place) => {
            let old = table.codes[place];
            let new = wrong_codes(old, (place / entries) as u32 + 1);
            (u64::from(old), new.into_iter().map(u64::from).collect())
        }
        Qubits => {
            let new = [0, 1, 2, 3, 4, 5, 6, 4294967295];
            (u64::from(limits.qubits), new.to_vec())
        }
        Gates => {
            let old = u64::from(limits.gates);
            let new = [0, 1, 2, old.wrapping_sub(1), old + 1, 64, 65, 4294967295];
            (old, new.to_vec())
        }
        Entries => {
            let old = u64::from(limits.entries);
            let new = [
                0,
                1,
                old - 1,
                old + 1,
                2 * old,
                2 * old + 1,
                1000000,
                1000001,
                4294967295,
            ];
            (old, new.to_vec())
        }
        Basis => {
            let old = u64::from(limits.basis);
            let new = [
                0,
                1,
                2,
                32,
                128,
                383,
                3967,
                4095,
                4096,
                old | 128,
                old | 1 << 25,
                old | 1 << 31,
                old & (old - 1),
                old ^ 32,
                4294967295,
            ];
            (old, new.to_vec())
        }
        Count(place) => {
            let old = table.record[place];
            let entries = entries as u64;
            let new = [
                0,
                1,
                old.wrapping_sub(1),
                old + 1,
                entries,
                entries + 1,
                old + (1 << 32),
                u64::MAX,
            ];
            (old, new.to_vec())
        }
        Length(_) => {
            let places = u64::from(limits.qubits) * entries as u64;
            let new = [0, 1, places - 1, places, places + 1];
            (2 * places, new.to_vec())
        }
    };
    new.sort_unstable();
    new.dedup();
    new.retain(|&value| value != old);
    new
}

/// Codes of each kind, some valid at the width; operands that are too large,
/// equal, out of order or not used; kinds that are none, or that only lists
/// have; bits above.
fn wrong_codes(old: u32, width: u32) -> Vec<u32> {
    let mut codes: Vec<u32> = (0..8).map(|kind| kind * 4096).collect();
    codes.extend([0x8010, 0x8100, 0x9010, 0x9100, 0x9000, 0xa012, 0xa102]);
    codes.extend([0xa021, 0xb012, 0xb021, 0xb000, 0xc000, 0xf000]);
    codes.extend([0x10000, 0x13010, 0x14010, 0x19010, 0x1a012]);
    codes.extend([width * 256, 0x8000 + width * 16, 0xa010 + width]);
    codes.extend([old.wrapping_add(1), old ^ 16, old ^ 256, old ^ 1 << 16]);
    codes.extend([old ^ 1 << 31, 4294963200, 4294967294, 4294967295]);
    codes
}
