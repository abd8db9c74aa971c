//! Several causes of a refusal at once. Of each set of causes the first in the
//! order of the operation is told; without any there is a list.

use super::damage::{MOST, TABLES, built, lent, limits_of, listed};
use super::exact::times_root;
use super::indexes::{sizes, used};
use super::lent::{By, Finding, Lookup, Mode, Reply, Table};
use super::random::Random;
use super::rules::{Asked, fill, written};
use super::tally::Tally;

/// How often each set of causes is asked, of each table.
const ROUNDS: usize = 8;

/// What each cause of an answer is told by, in order.
const ANSWER: [u64; 9] = [13, 5, 17, 6, 9, 10, 11, 12, 13];

/// The place of 17 there, which the scan does not try, and of 12, which a find does
/// not try.
const NO_PARTS: usize = 2;
const SHORT_LIST: usize = 7;
const BAD_CHAIN: usize = 8;

/// The same of a write, of a fill, and of a build.
const WRITE: [u64; 5] = [13, 5, 16, 12, 13];
const FILL: [u64; 3] = [13, 5, 17];
const BUILD: [u64; 6] = [1, 2, 3, 4, 5, 17];

pub(super) fn run(tally: &mut Tally) {
    let mut random = Random::new(53);
    for limits in TABLES {
        let table = built(limits_of(limits), tally);
        for _ in 0..ROUNDS {
            for causes in 0..1 << ANSWER.len() {
                for by in [By::Scan, By::Index] {
                    answer(&table, by, causes, &mut random, tally);
                }
            }
            for causes in 0..1 << WRITE.len() {
                write(&table, causes, &mut random, tally);
            }
            for causes in 0..1 << FILL.len() {
                fill_index(&table, causes, &mut random, tally);
            }
            for causes in 0..1 << BUILD.len() {
                for mode in Mode::BOTH {
                    for by in [By::Scan, By::Index] {
                        build(&table, mode, by, causes, &mut random, tally);
                    }
                }
            }
        }
    }
}

/// The number of the first of a set of causes.
fn first(order: &[u64], causes: usize) -> Option<u64> {
    (0..order.len())
        .find(|&cause| causes >> cause & 1 != 0)
        .map(|cause| order[cause])
}

/// A width of the table, and one of its nodes.
fn node_of(table: &Table, random: &mut Random) -> (u32, usize) {
    let width = 1 + random.below(table.limits.qubits as usize);
    (width as u32, random.below(table.count(width)))
}

/// The record is made bad, in one of the ways that there are.
fn break_record(table: &mut Table, random: &mut Random) {
    let row = 3 * random.below(table.limits.qubits as usize);
    let limits = &mut table.limits;
    match random.below(13) {
        0 => limits.qubits = 0,
        1 => limits.qubits = 6,
        2 => limits.qubits = 4294967295,
        3 => limits.entries = 0,
        4 => limits.entries = 1_000_001,
        5 => limits.entries = 4294967295,
        6 => limits.basis = 0,
        7 => limits.basis |= 128,
        8 => limits.basis |= 4096,
        9 => limits.gates = 65,
        10 => limits.gates = 4294967295,
        11 => table.record[row] = 0,
        _ => table.record[row] = u64::from(limits.entries) + 1,
    }
}

/// One of the arrays is made one place too short.
fn shorten(table: &mut Table, random: &mut Random) {
    let places = table.limits.qubits as usize * table.limits.entries as usize;
    match random.below(3) {
        0 => table.fingerprints.truncate(places - 1),
        1 => table.parents.truncate(places - 1),
        _ => table.codes.truncate(places - 1),
    }
}

/// An index of Q parts, each too small; or of other than Q parts; or nearly right.
fn break_parts(index: &mut Vec<u32>, table: &Table, random: &mut Random) {
    let qubits = table.limits.qubits as usize;
    let size = sizes(table.limits.entries)[0];
    let places = match random.below(8) {
        0 => 0,
        1 => qubits * size - 1,
        2 => qubits * size + 1,
        3 => qubits * size / 2,
        4 => (qubits + 1) * size + usize::from(qubits == 1),
        5 => qubits * (size - 1),
        6 => qubits * (size + 2),
        _ => size * 3 * qubits,
    };
    index.resize(places, 0);
}

/// The chain of a node is made bad, at the node or at node 0.
fn break_chain(table: &mut Table, width: u32, node: usize, random: &mut Random) {
    let start = (width as usize - 1) * table.limits.entries as usize;
    let place = start + node;
    match random.below(5) {
        0 if node > 0 => table.parents[place] = node as u32,
        1 if node > 0 => table.codes[place] = 0x14010,
        2 if node > 0 => table.codes[place] = 4294967295,
        3 => table.codes[start] = 0,
        _ => table.parents[start] = 0,
    }
}

/// The matrix of a node, with some of the causes 6, 9, 10, 11.
fn query(table: &Table, width: u32, node: usize, causes: [bool; 4]) -> Asked {
    let [wide, length, past, divisible] = causes;
    let list = written(table, width, node).expect("a table as it was built");
    let mut matrix = listed(width, &list);
    if divisible {
        matrix.exponent += 1;
        matrix.entries = matrix.entries.into_iter().map(times_root).collect();
    }
    if past {
        matrix.entries[0] = [-32768, 0, 0, 0];
    }
    let mut coefficients = matrix.coefficients();
    if wide {
        coefficients.resize(4 << 12, 0);
    }
    if length {
        coefficients.pop();
    }
    let width = if wide { 6 } else { width };
    Asked::new(width, matrix.exponent as u16, coefficients)
}

/// An answer and a find with a set of causes. The node's place, and no other of
/// its width, has the fingerprint of what is asked. The scan is lent the same index.
fn answer(table: &Table, by: By, causes: usize, random: &mut Random, tally: &mut Tally) {
    let has = |cause: usize| causes >> cause & 1 != 0;
    let gates = table.limits.gates as usize;
    if has(SHORT_LIST) && gates == 0 {
        return;
    }
    let (width, node) = node_of(table, random);
    let asked = query(table, width, node, [3, 4, 5, 6].map(has));
    let list = written(table, width, node).expect("a table as it was built");
    let mut altered = table.clone();
    let start = (width as usize - 1) * table.limits.entries as usize;
    altered.fingerprints[start..][..table.count(width as usize)].fill(0);
    if let Some((_, print)) = &asked.value {
        altered.fingerprints[start + node] = *print;
    }
    if has(BAD_CHAIN) {
        break_chain(&mut altered, width, node, random);
    }
    let size = random.one_of(&sizes(table.limits.entries));
    let places = table.limits.qubits as usize * size;
    let mut index = fill(&altered, places).expect("an index of Q parts");
    if has(NO_PARTS) {
        break_parts(&mut index, table, random);
    }
    if has(1) {
        shorten(&mut altered, random);
    }
    if has(0) {
        break_record(&mut altered, random);
    }
    let room = match has(SHORT_LIST) {
        true => random.below(gates),
        false => random.one_of(&[gates, MOST]),
    };
    let causes = match by {
        By::Scan => causes & !(1 << NO_PARTS),
        By::Index => causes,
    };
    let expected = match first(&ANSWER, causes) {
        Some(number) => Reply::Refused(number),
        None => Reply::List(list.clone()),
    };
    let finding = match first(&ANSWER, causes & !(1 << SHORT_LIST)) {
        Some(number) => Finding::Refused(number),
        None => Finding::Node(node, list.len()),
    };
    tally.tables += 1;
    tally.new_questions();
    let lookup = Lookup { by, index: &index };
    let (reply, found) = tally.ask_by(&altered, lookup, 0, &asked, room);
    if reply != expected || found != finding {
        tally.differs(format!(
            "causes {causes:#b} by {by:?}: {reply:?}, {found:?}"
        ));
    }
}

/// A fill with a set of causes.
fn fill_index(table: &Table, causes: usize, random: &mut Random, tally: &mut Tally) {
    let has = |cause: usize| causes >> cause & 1 != 0;
    let mut altered = table.clone();
    let size = random.one_of(&sizes(table.limits.entries));
    let mut index = used(table.limits.qubits as usize * size, random);
    if has(2) {
        break_parts(&mut index, table, random);
    }
    if has(1) {
        shorten(&mut altered, random);
    }
    if has(0) {
        break_record(&mut altered, random);
    }
    let filled = tally.fill(&altered, &mut index);
    if filled != (causes == 0) {
        tally.differs(format!("causes {causes:#b} of a fill: filled {filled}"));
    }
}

/// A build with a set of causes.
fn build(table: &Table, mode: Mode, by: By, causes: usize, random: &mut Random, tally: &mut Tally) {
    let has = |cause: usize| causes >> cause & 1 != 0;
    let mut altered = lent(table.limits);
    let size = random.one_of(&sizes(table.limits.entries));
    let mut index = used(table.limits.qubits as usize * size, random);
    if has(5) {
        break_parts(&mut index, table, random);
    }
    if has(4) {
        shorten(&mut altered, random);
    }
    let limits = &mut altered.limits;
    if has(3) {
        match random.below(3) {
            0 => limits.gates = 65,
            1 => limits.gates = 4294967295,
            _ => limits.entries = random.one_of(&[1_000_001, 4294967295]),
        }
    }
    if has(2) {
        limits.basis = random.one_of(&[0, 128, 4096, limits.basis | 128, 4294967295]);
    }
    if has(1) {
        limits.entries = 0;
        if has(3) {
            limits.gates = 65;
        }
    }
    if has(0) {
        limits.qubits = random.one_of(&[0, 6, 4294967295]);
    }
    let causes = match by {
        By::Scan => causes & !(1 << 5),
        By::Index => causes,
    };
    let number = tally.build(&mut altered, mode, by, &mut index);
    if number != first(&BUILD, causes).unwrap_or(0) {
        tally.differs(format!("causes {causes:#b} of a build by {by:?}: {number}"));
    }
}

/// A write with a set of causes.
fn write(table: &Table, causes: usize, random: &mut Random, tally: &mut Tally) {
    let has = |cause: usize| causes >> cause & 1 != 0;
    let limits = table.limits;
    if has(3) && limits.gates == 0 {
        return;
    }
    let (mut width, mut node) = node_of(table, random);
    let list = written(table, width, node).expect("a table as it was built");
    let mut altered = table.clone();
    if has(4) {
        break_chain(&mut altered, width, node, random);
    }
    if has(2) {
        // The node is past the count, or the width has none: not even where the
        // record says so.
        let count = table.count(width as usize);
        match random.below(4) {
            0 => width = 0,
            1 => width = random.one_of(&[6, 4294967295]),
            2 => {
                width = limits.qubits + 1 + random.below(5 - limits.qubits as usize) as u32;
                altered.record[3 * (width as usize - 1)] = u64::from(limits.entries);
            }
            _ => {
                let past = [
                    count,
                    count + 1,
                    limits.entries as usize,
                    4294967295,
                    1 << 40,
                ];
                node = random.one_of(&past);
            }
        }
    }
    if has(1) {
        shorten(&mut altered, random);
    }
    if has(0) {
        break_record(&mut altered, random);
    }
    let gates = limits.gates as usize;
    let room = match has(3) {
        true => random.below(gates),
        false => random.one_of(&[gates, MOST]),
    };
    let expected = match first(&WRITE, causes) {
        Some(number) => Reply::Refused(number),
        None => Reply::List(list),
    };
    tally.tables += 1;
    let reply = tally.write(&altered, width, node, room);
    if reply != expected {
        tally.differs(format!("causes {causes:#b} of a write: {reply:?}"));
    }
}
