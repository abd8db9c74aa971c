//! Lists that come to the limit of 32767, and lists that just pass it, at an H, an Sx
//! or a Ch. The original overflows long before, and the second reading is their
//! measure. They are found by random walks, as in `edges`. Few walks come to such an
//! edge: which ones do is kept here, by their numbers, and mode `edges` finds them
//! anew.

use std::io::{self, Write};

use super::codes::{list_codes, list_codes_of};
use super::edges::EDGES;
use super::exact::{LIMIT, Matrix};
use super::further_edges::{Found, check, look, target};
use super::inputs::MOST_GATES;
use super::lists::List;
use super::random::Random;
use super::refusals::Cause;
use crate::circuit::GateKind as Kind;

/// How many lists of each sort are wanted at a width.
const WANTED: usize = 3;

/// Up to which number the mode `edges` makes walks at a width.
const MOST_WALKS: [u64; 5] = [1_200_000, 300_000, 80_000, 80_000, 14_000];

/// Where the largest coefficient is.
pub(super) const PARTS: [Cause; 5] = [
    Cause::H,
    Cause::SxFirst,
    Cause::SxSecond,
    Cause::ChActive,
    Cause::ChInactive,
];

/// The walks at each width that come to an edge.
#[rustfmt::skip]
const WALKS: [&[u64]; 5] = [
    &[
        0, 2, 4, 16, 19, 9568, 19398, 26024, 27402, 31805, 37578, 43620, 48694, 87212,
        105381, 110763, 116266, 145013, 155303, 160918, 163599, 197681, 201049, 210254,
        301171, 450165, 481395, 839479, 861503,
    ],
    &[
        0, 2, 3, 5, 10, 12, 14, 2142, 2617, 3154, 5996, 7436, 9200, 9560, 9673, 10474,
        14979, 15724, 17340, 19936, 21025, 24751, 29683, 29965, 33090, 33951, 33962, 34727,
        35578, 36266, 37328, 42978, 43304, 47551, 47644, 55295, 56070, 56211, 56420, 57468,
        60378, 72370, 87841, 92533, 97834, 118186, 167538,
    ],
    &[
        0, 1, 2, 106, 123, 188, 1182, 1546, 3898, 4146, 4315, 4414, 5162, 5907, 6178, 7286,
        7776, 8261, 9042, 9061, 9650, 10710, 11223, 12108, 12421, 12590, 12842, 18203,
        19194, 19460, 21034, 22365, 26024, 34731, 35888, 40412, 50297,
    ],
    &[
        0, 2, 3, 406, 981, 982, 1086, 1330, 1505, 2255, 4984, 6050, 6098, 6422, 7463, 8178,
        9308, 11180, 12790, 12953, 13517, 14080, 14456, 18181, 19788, 24119, 30032, 31305,
        47304, 51489, 55549, 62022, 79605,
    ],
    &[
        0, 1, 2, 3, 5, 86, 186, 332, 412, 446, 582, 590, 634, 754, 890, 994, 1547, 1775,
        2046, 2428, 2999, 3108, 3180, 3386, 6242, 8172, 13429, 13999,
    ],
];

/// Mode `edges`: the numbers of the walks that come to an edge, for `WALKS`, and how
/// many lists of each sort they have.
pub(super) fn run(_: &[String], out: &mut dyn Write) -> io::Result<()> {
    for width in 1..=5 {
        let (found, walks) = search(width, 0..MOST_WALKS[width - 1]);
        let walks: Vec<String> = walks.iter().map(u64::to_string).collect();
        writeln!(out, "    &[{}],", walks.join(", "))?;
        for part in PARTS {
            let counts = EDGES.map(|edge| {
                let same = |one: &&Found| (one.part, one.edge) == (part, edge);
                found.iter().filter(same).count().to_string()
            });
            writeln!(out, "// {width} {part:?} {}", counts.join(" "))?;
        }
        out.flush()?;
    }
    Ok(())
}

/// The lists at a width whose last gate comes to an edge.
pub(super) fn found(width: usize) -> Vec<Found> {
    search(width, WALKS[width - 1].iter().copied()).0
}

pub(super) fn lists() -> Vec<List> {
    let found = (1..=5).flat_map(found);
    found.flat_map(|found| found.around()).collect()
}

/// For each part and edge the first list found at a width.
pub(super) fn firsts(width: usize) -> Vec<Found> {
    let found = found(width);
    let sorts = PARTS
        .into_iter()
        .flat_map(|part| EDGES.map(|edge| (part, edge)));
    sorts
        .filter_map(|sort| found.iter().find(|one| (one.part, one.edge) == sort))
        .cloned()
        .collect()
}

/// What walks of these numbers come to, until enough lists of each sort are found; and
/// the numbers of those that came to one of them.
fn search(width: usize, numbers: impl Iterator<Item = u64>) -> (Vec<Found>, Vec<u64>) {
    let kinds = [Kind::H, Kind::Sx, Kind::Ch].map(|kind| list_codes_of(kind, width));
    let choices = Choices {
        any: list_codes(width),
        mixers: [
            kinds[0].clone(),
            kinds[..2].concat(),
            [&kinds[0][..], &kinds[2]].concat(),
            kinds.concat(),
        ],
    };
    let (mut found, mut walks): (Vec<Found>, Vec<u64>) = (Vec::new(), Vec::new());
    let parts = PARTS.len() - if width == 1 { 2 } else { 0 };
    for number in numbers {
        if found.len() == parts * EDGES.len() * WANTED {
            break;
        }
        let before = found.len();
        walk(width, number, &choices, &kinds.concat(), &mut found);
        if found.len() > before {
            walks.push(number);
        }
    }
    (found, walks)
}

struct Choices {
    any: Vec<u32>,
    mixers: [Vec<u32>; 4],
}

/// One walk: T or Tdg on a qubit and H, Sx or Ch there, which lets coefficients grow,
/// with other gates between; until a gate does not fit, or no place is left for what
/// may follow.
fn walk(width: usize, number: u64, choices: &Choices, asked: &[u32], found: &mut Vec<Found>) {
    let mut random = Random::new(1_000_000 * (700 + width as u64) + number);
    let mixers = &choices.mixers[(number % 4) as usize];
    let mut matrix = Matrix::identity(width as u32);
    let mut codes = Vec::new();
    while codes.len() + 6 < MOST_GATES {
        let mixer = random.one_of(mixers);
        let turn = random.one_of(&[Kind::T, Kind::Tdg]) as u32 * 4096;
        let mut gates = vec![turn + 256 * target(mixer), mixer];
        if random.below(8) == 0 {
            gates.insert(0, random.one_of(&choices.any));
        }
        let fits = gates.iter().all(|&code| {
            codes.push(code);
            matrix.step(code, LIMIT)
        });
        if !fits {
            return;
        }
        for (code, part, edge) in look(&matrix, asked, LIMIT) {
            let same = |one: &&Found| (one.part, one.edge) == (part, edge);
            if found.iter().filter(same).count() < WANTED {
                let one = Found {
                    part,
                    edge,
                    width,
                    codes: [&codes[..], &[code]].concat(),
                };
                check(&one, LIMIT);
                found.push(one);
            }
        }
    }
}
