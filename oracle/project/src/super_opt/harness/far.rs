//! Lists whose coefficients pass 127, up to the limit of 32767 and past it: what
//! `inputs all` and `inputs sample` have last. The second reading is their measure.

use super::codes::{list_codes, list_codes_of};
use super::edges::Edge;
use super::exact::{LIMIT, Matrix, most};
use super::far_edges;
use super::further::growing_codes_of;
use super::further_edges::Found;
use super::inputs::{MOST_GATES, TRAP, evenly, list};
use super::lists::List;
use super::random::Random;
use crate::circuit::GateKind as Kind;

/// A list that fits up to its last gate, where its raw coefficients pass 32767.
#[rustfmt::skip]
const FAR_TRAP: [u32; 117] = [
    0, 24576, 0, 20480, 0, 24576, 0, 20480, 0, 20480, 0, 24576, 0, 20480, 0, 24576, 0, 20480,
    0, 20480, 0, 20480, 0, 20480, 0, 20480, 0, 24576, 0, 24576, 0, 20480, 0, 24576, 0, 20480,
    0, 20480, 0, 24576, 0, 24576, 0, 24576, 0, 20480, 0, 20480, 0, 24576, 0, 24576, 0, 24576,
    0, 24576, 0, 24576, 0, 24576, 0, 24576, 0, 24576, 0, 24576, 0, 24576, 0, 20480, 0, 24576,
    0, 24576, 0, 20480, 0, 20480, 0, 20480, 0, 20480, 0, 20480, 0, 24576, 0, 24576, 0, 24576,
    0, 24576, 0, 20480, 0, 20480, 0, 24576, 0, 20480, 0, 24576, 0, 20480, 0, 20480, 0, 24576,
    0, 20480, 0, 24576, 0, 24576, 0, 20480, 0,
];

/// How many random lists a width has, from 1 on, and how many that come back to a
/// short one.
const RANDOM: [usize; 5] = [1000, 800, 600, 300, 150];
const RETURNING: [usize; 5] = [200, 200, 200, 100, 50];

/// All lists of every sort.
pub(super) fn lists() -> Vec<List> {
    [traps(), roots(), random(), returning(), far_edges::lists()].concat()
}

/// Some lists of every sort, few of them wide, whose matrices are long.
pub(super) fn sample() -> Vec<List> {
    let narrow = |mut lists: Vec<List>, width: u32| {
        lists.retain(|list| list.width <= width);
        lists
    };
    [
        traps(),
        narrow(roots(), 2),
        evenly(narrow(random(), 2), 12),
        some_returning(),
        some_edges(),
    ]
    .concat()
}

pub(super) fn some_returning() -> Vec<List> {
    let mut lists = returning();
    lists.retain(|list| list.width <= 3);
    evenly(lists, 12)
}

/// For each part and edge at the widths 1 and 2 the first list found, without its last
/// gate and with it; at the others one that fits, and the first of each that does not.
pub(super) fn some_edges() -> Vec<List> {
    let mut lists = Vec::new();
    for width in 1..=5 {
        let found = far_edges::firsts(width);
        if width > 2 {
            let fits = |one: &&Found| matches!(one.edge, Edge::Reaches | Edge::ReachesBelow);
            let (fit, others): (Vec<&Found>, Vec<&Found>) = found.iter().partition(fits);
            let taken = fit.into_iter().take(1).chain(others);
            lists.extend(taken.flat_map(|one| one.ends().pop()));
        } else {
            lists.extend(found.iter().flat_map(|one| one.ends()));
        }
    }
    lists
}

/// The trap; the list before its last gate, and before its last two; and the trap
/// before a valid code and before one that is not. The same of the list that the
/// original refuses, twice as long by its inverse.
fn traps() -> Vec<List> {
    let mut lists: Vec<List> = [115, 116, 117]
        .map(|count| list(1, FAR_TRAP[..count].to_vec()))
        .into();
    lists.push(list(1, [&FAR_TRAP[..], &[20480]].concat()));
    lists.push(list(1, [&FAR_TRAP[..], &[7 * 4096]].concat()));
    lists.push(list(1, [&TRAP[..], &inverse(&TRAP)].concat()));
    lists.push(list(
        1,
        [&FAR_TRAP[..100], &inverse(&FAR_TRAP[..100])].concat(),
    ));
    lists
}

/// T and Ch in turns on one pair of qubits, as in `further`: the inactive rows hold
/// sqrt(2)^k. The last list before (0, 16384, 0, -16384) becomes 32768, the one after
/// it, and that with a code that is not valid.
fn roots() -> Vec<List> {
    let mut lists = Vec::new();
    for width in 2..=5 {
        for ch in list_codes_of(Kind::Ch, width) {
            let t = Kind::T as u32 * 4096 + ch / 16 % 16 * 256;
            let codes = [t, ch].repeat(MOST_GATES / 2);
            let refused = Matrix::of_list(width as u32, &codes, LIMIT);
            let (end, before) = refused.expect_err("it comes to the limit");
            assert_eq!(most(&before.raw(codes[end]).entries), LIMIT + 1, "32768");
            lists.push(list(width, codes[..end].to_vec()));
            lists.push(list(width, codes[..=end].to_vec()));
            lists.push(list(width, [&codes[..=end], &[28672]].concat()));
        }
    }
    lists
}

/// Random lists of all kinds that let coefficients grow, of up to 256 gates.
fn random() -> Vec<List> {
    let mut random = Random::new(801);
    let mut lists = Vec::new();
    for width in 1..=5 {
        for number in 0..RANDOM[width - 1] {
            let count = match number % 3 {
                0 => MOST_GATES,
                1 => 100 + random.below(MOST_GATES - 99),
                _ => 60 + random.below(120),
            };
            lists.push(list(width, growing_codes_of(width, count, &mut random)));
        }
    }
    lists
}

/// Random lists that come back to a short one.
fn returning() -> Vec<List> {
    let mut random = Random::new(802);
    let mut lists = Vec::new();
    for width in 1..=5 {
        for _ in 0..RETURNING[width - 1] {
            lists.push(list(width, returning_codes(width, &mut random)));
        }
    }
    lists
}

/// A list, its inverse, and up to three gates.
pub(super) fn returning_codes(width: usize, random: &mut Random) -> Vec<u32> {
    let mut codes = there_and_back(width, random);
    let others = of_tables(width);
    for _ in 0..random.below(4) {
        codes.push(random.one_of(&others));
    }
    codes
}

/// The codes of the eleven kinds.
fn of_tables(width: usize) -> Vec<u32> {
    let mut codes = list_codes(width);
    codes.retain(|code| code / 4096 < 12);
    codes
}

/// A list of H, T and Tdg and some other gates of tables, and its inverse. In most of
/// them coefficients pass 127 before they shrink again.
pub(super) fn there_and_back(width: usize, random: &mut Random) -> Vec<u32> {
    let others = of_tables(width);
    let mut codes = Vec::new();
    let count = 30 + random.below(90);
    while codes.len() < count {
        let qubit = random.below(width) as u32 * 256;
        codes.push(random.one_of(&[Kind::T, Kind::Tdg]) as u32 * 4096 + qubit);
        codes.push(qubit);
        if random.below(6) == 0 {
            codes.push(random.one_of(&others));
        }
    }
    let mut back = inverse(&codes);
    codes.append(&mut back);
    codes
}

/// The inverse of a list of gates of tables: S and Sdg, T and Tdg exchanged.
fn inverse(codes: &[u32]) -> Vec<u32> {
    let undone = |&code: &u32| match code / 4096 {
        3 | 5 => code + 4096,
        4 | 6 => code - 4096,
        _ => code,
    };
    codes.iter().rev().map(undone).collect()
}
