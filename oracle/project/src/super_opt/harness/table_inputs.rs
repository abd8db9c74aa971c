//! `inputs tables`: the tables that port and original are compared on, each
//! with what it is asked, as lines for the mode `lines`. The same lines come out
//! in every run.

use std::io::{self, Write};

use super::codes::FURTHER;
use super::inputs::evenly;
use super::lent::Mode;
use super::questions::{Asker, finds};
use super::random::Random;
use super::tables::{Built, Limits, PLACES};

/// How much is asked after a table.
#[derive(Clone, Copy)]
enum Asked {
    Some,
    All,
}

/// Tables of one sort, how many of them the sample takes, and how much is asked
/// after each.
type Group = (fn() -> Vec<Limits>, usize, Asked);

const GROUPS: &[Group] = &[
    (pencil, usize::MAX, Asked::All),
    (refused, 60, Asked::Some),
    (small_bases, 60, Asked::Some),
    (wide_bases, 12, Asked::Some),
    (all_generators, 2, Asked::Some),
    (random, 30, Asked::All),
    (deep, 8, Asked::All),
    (large, 0, Asked::All),
    (further_bases, usize::MAX, Asked::Some),
];

/// The sample takes no table that may have more nodes than this, and asks all
/// sorts of questions of narrow tables only.
const SAMPLE_PLACES: u64 = 700;
const SAMPLE_QUBITS: u32 = 3;

/// Lines that name no table.
const BROKEN: [&str; 8] = [
    "table 1 8 10",
    "table 1 8 10 24 0",
    "table 1 8 10 4294967296",
    "table 1 8 10 -1",
    "table 1 8  10 24",
    "table 1 8 10 24 ",
    "table ",
    "table 1 8 10 24a",
];

/// A matrix that is asked where there is no table.
const UNASKED: &str = "matrix 1 0 1 0 0 0 0 0 0 0 0 0 0 0 1 0 0 0";

/// A node that is asked for where there is no table.
const UNWRITTEN: &str = "write 1 0 64";

/// One line of so many, counted through all tables.
struct Every {
    step: usize,
    seen: usize,
}

impl Every {
    fn of(step: usize) -> Self {
        Self { step, seen: 0 }
    }

    fn takes(&mut self) -> bool {
        self.seen += 1;
        self.seen.is_multiple_of(self.step)
    }
}

pub(super) fn write(sample: bool, out: &mut dyn Write) -> io::Result<()> {
    for line in BROKEN {
        writeln!(out, "{line}\n{UNASKED}")?;
    }
    for line in finds(&[UNASKED.to_owned()]) {
        writeln!(out, "{line}\n{UNWRITTEN}")?;
    }
    // Of the lines of each sort that `questions` has. The steps are such that
    // every place of a table's lines comes up.
    let steps = if sample {
        [1, 11, 4, 307, 7, 29]
    } else {
        [1, 1, 1, 11, 1, 1]
    };
    let mut every = steps.map(Every::of);
    for (group, (limits, wanted, asked)) in GROUPS.iter().enumerate() {
        let mut limits: Vec<(usize, Limits)> = limits().into_iter().enumerate().collect();
        if sample {
            let places = |limits: &Limits| u64::from(limits.qubits) * u64::from(limits.entries);
            let small = |limits: &Limits| places(limits) <= SAMPLE_PLACES;
            limits.retain(|(_, limits)| small(limits) || limits.refusal(PLACES).is_some());
            limits = evenly(limits, *wanted);
        }
        for (number, limits) in limits {
            let seed = (1000000 * (group + 1) + number) as u64;
            writeln!(out, "{}", limits.line())?;
            let short = sample && limits.qubits > SAMPLE_QUBITS;
            let asked = if short { Asked::Some } else { *asked };
            for (lines, every) in questions(limits, asked, seed).iter().zip(&mut every) {
                for line in lines.iter().filter(|_| every.takes()) {
                    writeln!(out, "{line}")?;
                }
            }
        }
    }
    Ok(())
}

/// What is asked after a table: matrices, the same for their nodes, lists of
/// nodes, and nodes at and past the ends; then matrices with coefficients past 127,
/// and the same for their nodes.
fn questions(limits: Limits, asked: Asked, seed: u64) -> [Vec<String>; 6] {
    if limits.refusal(PLACES).is_some() {
        let matrices = vec![UNASKED.to_owned()];
        let finds = finds(&matrices);
        let nodes = vec![UNWRITTEN.to_owned()];
        return [matrices, finds, nodes, Vec::new(), Vec::new(), Vec::new()];
    }
    let mut asker = Asker {
        limits,
        table: Built::of(limits, Mode::ByPrint).table,
        random: Random::new(seed),
    };
    let matrices = match asked {
        Asked::Some => asker.some(),
        Asked::All => asker.all(),
    };
    let (nodes, ends) = (asker.nodes(), asker.node_ends());
    asker.random = Random::new(100_000_000 + seed);
    let far = asker.far(matches!(asked, Asked::All));
    let (found, far_found) = (finds(&matrices), finds(&far));
    [matrices, found, nodes, ends, far, far_found]
}

/// The tables of SPECIFICATION 10.7 and 11.2, and more that come to their
/// limits exactly: X has two products at width 1 and four at width 2, S four,
/// H and S 24.
fn pencil() -> Vec<Limits> {
    let tables = [
        [1, 8, 1, 2],
        [1, 8, 2, 2],
        [1, 0, 1, 2],
        [1, 0, 2, 2],
        [1, 1, 2, 2],
        [1, 8, 3, 2],
        [1, 8, 24, 9],
        [1, 8, 23, 9],
        [1, 8, 25, 9],
        [1, 64, 24, 9],
        [1, 8, 10, 24],
        [1, 8, 4, 24],
        [1, 8, 3, 24],
        [1, 2, 10, 24],
        [1, 1, 10, 24],
        [2, 8, 4, 2],
        [2, 8, 3, 2],
        [2, 2, 4, 2],
        [1, 8, 5, 256],
        [2, 8, 6, 256],
        [2, 8, 5, 256],
        [3, 8, 12, 1024],
        [5, 0, 1, 3967],
        [5, 64, 1, 3967],
        [5, 8, 1, 2048],
    ];
    tables.map(Limits::of).to_vec()
}

/// Every choice of limits at or past their ends, with a basis that has few
/// products.
fn refused() -> Vec<Limits> {
    let mut tables = Vec::new();
    for qubits in [0, 1, 5, 6, 4294967295] {
        for gates in [0, 64, 65, 4294967295] {
            for entries in [0, 1, 20000, 20001, 100000, 100001, 1000000, 1000001] {
                for basis in [2, 0, 128, 130, 4096, 8192, 4294967295] {
                    tables.push(Limits::of([qubits, gates, entries, basis]));
                }
            }
        }
    }
    tables.extend(
        [
            [2, 8, 50001, 9],
            [5, 8, 4294967295, 9],
            [1, 8, 4294967295, 9],
        ]
        .map(Limits::of),
    );
    tables
}

/// The 2,047 bases.
pub(super) fn bases() -> impl Iterator<Item = u32> {
    (1..4096).filter(|basis| basis & !3967 == 0)
}

fn small_bases() -> Vec<Limits> {
    bases().map(|basis| Limits::of([2, 3, 12, basis])).collect()
}

/// Every basis at three widths, with room for all of the second depth or not.
fn wide_bases() -> Vec<Limits> {
    let mut random = Random::new(21);
    let one = |basis| {
        let gates = 1 + random.below(4) as u32;
        let entries = 1 + random.below(120) as u32;
        Limits::of([3, gates, entries, basis])
    };
    bases().map(one).collect()
}

/// The first depth at all widths, of some bases. The most generators are 105.
fn all_generators() -> Vec<Limits> {
    let some = bases().enumerate().filter(|(number, _)| number % 12 == 5);
    some.map(|(_, basis)| Limits::of([5, 1, 106, basis]))
        .collect()
}

/// Any basis, or one of up to three kinds.
pub(super) fn basis(random: &mut Random) -> u32 {
    let all: Vec<u32> = bases().collect();
    if random.below(2) == 0 {
        return random.one_of(&all);
    }
    let kinds: Vec<u32> = (0..12).filter(|kind| *kind != 7).collect();
    (0..3).fold(0, |basis, _| basis | 1 << random.one_of(&kinds))
}

fn random() -> Vec<Limits> {
    let mut random = Random::new(22);
    let one = |number: usize| {
        let qubits = 1 + number as u32 % 5;
        let most = random.one_of(&[20, 200, 1000, 2000]);
        let entries = 1 + random.below(most) as u32;
        let gates = random.below(9) as u32;
        Limits::of([qubits, gates, entries, basis(&mut random)])
    };
    (0..400).map(one).collect()
}

/// Gate limits up to 64, which are reached by few tables: most end before or
/// are saturated.
fn deep() -> Vec<Limits> {
    let mut random = Random::new(23);
    let one = |number: usize| {
        let qubits = 1 + number as u32 % 3;
        let most = random.one_of(&[100, 1000, 3000]);
        let entries = 1 + random.below(most) as u32;
        let gates = random.one_of(&[9, 10, 13, 14, 20, 30, 40, 50, 60, 63, 64]);
        Limits::of([qubits, gates, entries, basis(&mut random)])
    };
    let mut tables: Vec<Limits> = (0..120).map(one).collect();
    // One chain of T has eight products, one of H and T very many.
    tables.extend([[1, 64, 8, 32], [1, 64, 3000, 33], [2, 64, 3000, 289]].map(Limits::of));
    tables
}

/// Many nodes: the 11,520 products of H, S and Cx at width 2, and one fewer; and
/// arrays that are filled to their last places.
fn large() -> Vec<Limits> {
    let most = PLACES as u32;
    let tables = [
        [2, 64, 11520, 265],
        [2, 64, 11519, 265],
        [1, 13, most, 383],
        [2, 5, most / 2, 3967],
        [3, 3, most / 3, 3967],
        [3, 5, 12000, 383],
        [4, 3, most / 4, 383],
        [5, 2, most / 5, 3967],
        [5, 3, most / 5, 3967],
        [5, 64, 1024, 8],
        [5, 64, 1023, 8],
    ];
    tables.map(Limits::of).to_vec()
}

/// Each bit that no kind of a table has, the six kinds that lists take among
/// them, alone and beside all others; and some of the six where other rows
/// hold too.
fn further_bases() -> Vec<Limits> {
    let mut tables = Vec::new();
    for bit in (0..32).map(|place| 1 << place) {
        if bit & 3967 == 0 {
            tables.extend([[1, 8, 10, bit], [2, 3, 12, 3967 | bit]]);
        }
    }
    for kind in FURTHER {
        let basis = 2 | 1 << kind as u32;
        tables.extend([
            [0, 8, 10, basis],
            [1, 8, 0, basis],
            [1, 65, 10, basis],
            [5, 8, 20001, basis],
        ]);
    }
    tables.into_iter().map(Limits::of).collect()
}
