//! Lists with the six kinds that tables do not have: what `inputs all` and
//! `inputs sample` have after the lists of the eleven kinds.

use super::codes::{FURTHER, list_codes, list_codes_of, list_kinds};
use super::edges::EDGES;
use super::further_edges::{self, Found, PARTS};
use super::inputs::{evenly, list};
use super::lists::List;
use super::random::Random;
use crate::circuit::GateKind as Kind;

/// The most gates of a random list.
const GATES: usize = 60;

/// How many random lists a width has, from 1 on.
const RANDOM: [usize; 5] = [5000, 5000, 5000, 4000, 2000];

/// Each number below this is asked as a list of one gate. The kinds end at
/// 110,591.
const NUMBERS: u32 = 110_700;

/// All lists of every sort.
pub(super) fn lists() -> Vec<List> {
    [
        numbers(),
        short(),
        random(),
        not_valid(),
        roots(),
        further_edges::lists(),
    ]
    .concat()
}

/// Some lists of every sort, few of them wide, whose matrices are long.
pub(super) fn sample() -> Vec<List> {
    [
        one_of_each(),
        some_numbers(),
        evenly(narrow(short(), 2, 3), 40),
        evenly(narrow(random(), 3, 20), 40),
        evenly(narrow(not_valid(), 5, 8), 40),
        narrow(roots(), 2, 60),
        some_edges(),
    ]
    .concat()
}

/// Those up to a width and a length.
fn narrow(mut lists: Vec<List>, width: u32, most: usize) -> Vec<List> {
    lists.retain(|list| list.width <= width && list.codes.len() <= most);
    lists
}

/// Numbers past the kinds: a bit too much above a valid code, and the largest.
fn past(width: usize) -> Vec<u32> {
    let mut numbers = vec![
        NUMBERS, 114688, 131072, 262144, 1048576, 2147483647, 2147483648, 4294963200, 4294967294,
        4294967295,
    ];
    for code in list_codes(width) {
        numbers.extend([1 << 17, 1 << 20, 1 << 31].map(|bit: u32| bit + code));
    }
    numbers
}

/// Every number up to some past the kinds, as a list of one gate at each width.
fn numbers() -> Vec<List> {
    (0..=5)
        .flat_map(|width| {
            let numbers = (0..NUMBERS).chain(past(width));
            numbers.map(move |code| list(width, vec![code]))
        })
        .collect()
}

/// Numbers past 65535, at the ends of the kinds, and between them.
fn some_numbers() -> Vec<List> {
    let mut lists = Vec::new();
    for (width, code) in [
        (0, 61440),
        (0, 106514),
        (1, 65536),
        (1, 65792),
        (1, 65537),
        (1, 77824),
        (2, 77840),
        (2, 78080),
        (2, 106514),
        (3, 106514),
        (3, 106529),
        (3, 107010),
        (3, 107042),
        (3, 106512),
        (3, 106513),
        (3, 106498),
        (3, 106515),
        (3, 110591),
        (3, 110592),
        (3, 110699),
        (3, 237586),
    ] {
        lists.push(list(width, vec![code]));
    }
    for kind in [12, 13, 14, 17, 18, 21, 22, 23, 24, 27, 31, 32, 1048575] {
        lists.push(list(3, vec![kind * 4096 + 16]));
    }
    lists
}

/// A gate of each of the six kinds at each width; two of them in a list where
/// the matrix is long.
fn one_of_each() -> Vec<List> {
    let mut lists = Vec::new();
    for width in 1..=4 {
        for kind in FURTHER {
            let wanted = if width < 4 { 2 } else { 1 };
            let codes = evenly(list_codes_of(kind, width), wanted);
            lists.extend(codes.into_iter().map(|code| list(width, vec![code])));
        }
    }
    for pair in FURTHER.chunks_exact(2) {
        let codes = pair.iter().map(|&kind| list_codes_of(kind, 5)[3]);
        lists.push(list(5, codes.collect()));
    }
    lists
}

/// Every list of up to three gates at width 1, of one and two at the widths 2 and
/// 3, where one at least is of the six kinds.
fn short() -> Vec<List> {
    let mut lists = Vec::new();
    for (width, most) in [(1, 3), (2, 2), (3, 2)] {
        let codes = list_codes(width);
        let mut layer = vec![Vec::new()];
        for _ in 0..most {
            let longer = |prefix: &Vec<u32>| {
                let prefix = prefix.clone();
                codes
                    .iter()
                    .map(move |&code| [&prefix[..], &[code]].concat())
            };
            layer = layer.iter().flat_map(longer).collect::<Vec<_>>();
            let further = layer.iter().filter(|codes| has_further(codes)).cloned();
            lists.extend(further.map(|codes| list(width, codes)));
        }
    }
    lists
}

fn has_further(codes: &[u32]) -> bool {
    let is_further = |&code: &u32| FURTHER.iter().any(|&kind| kind as u32 == code / 4096);
    codes.iter().any(is_further)
}

/// How the gates of a random list are chosen.
#[derive(Clone, Copy)]
enum Style {
    /// Any kind, each as likely.
    Any,
    /// T or Tdg on a qubit and then one of these kinds there, which lets
    /// coefficients grow, with other gates between.
    Growing(&'static [Kind]),
    /// The same by H and, after so many gates, by one of these kinds.
    After(usize, &'static [Kind]),
}

const STYLES: [Style; 10] = [
    Style::Any,
    Style::Growing(&[Kind::Sx]),
    Style::Growing(&[Kind::Ch]),
    Style::Growing(&[Kind::Sx, Kind::Ch]),
    Style::Growing(&[Kind::H, Kind::Sx, Kind::Ch]),
    Style::After(24, &[Kind::Sx]),
    Style::After(24, &[Kind::Ch]),
    Style::After(34, &[Kind::Sx]),
    Style::After(34, &[Kind::Ch]),
    Style::After(40, &[Kind::Sx, Kind::Ch]),
];

/// The codes of a width by their kinds.
struct Choices {
    width: usize,
    kinds: Vec<Vec<u32>>,
}

impl Choices {
    fn of(width: usize) -> Self {
        let kinds = list_kinds().map(|kind| list_codes_of(kind, width));
        let kinds = kinds.filter(|codes| !codes.is_empty()).collect();
        Self { width, kinds }
    }

    fn any(&self, random: &mut Random) -> u32 {
        let kind = &self.kinds[random.below(self.kinds.len())];
        random.one_of(kind)
    }

    /// A gate of one of these kinds that acts on the qubit, or an H where the
    /// width has none such.
    fn on(&self, qubit: u32, kinds: &[Kind], random: &mut Random) -> u32 {
        let kind = random.one_of(kinds);
        if kind != Kind::Ch {
            return kind as u32 * 4096 + qubit * 256;
        }
        if self.width == 1 {
            return qubit * 256;
        }
        let step = 1 + random.below(self.width - 1) as u32;
        let control = (qubit + step) % self.width as u32;
        Kind::Ch as u32 * 4096 + control * 256 + qubit * 16
    }

    fn codes(&self, style: Style, count: usize, random: &mut Random) -> Vec<u32> {
        let mut codes = Vec::new();
        while codes.len() < count {
            let kinds = match style {
                Style::Any => {
                    codes.push(self.any(random));
                    continue;
                }
                Style::After(from, _) if codes.len() < from => &[Kind::H],
                Style::Growing(kinds) | Style::After(_, kinds) => kinds,
            };
            let qubit = random.below(self.width) as u32;
            if random.below(8) == 0 {
                codes.push(self.any(random));
            }
            let turn = random.one_of(&[Kind::T, Kind::Tdg]);
            codes.push(turn as u32 * 4096 + qubit * 256);
            codes.push(self.on(qubit, kinds, random));
        }
        codes.truncate(count);
        codes
    }
}

/// Up to so many gates of any kinds.
pub(super) fn any_codes(width: usize, most: usize, random: &mut Random) -> Vec<u32> {
    let count = random.below(most + 1);
    Choices::of(width).codes(Style::Any, count, random)
}

/// Gates that let coefficients grow, mostly until the original overflows.
pub(super) fn growing_codes(width: usize, random: &mut Random) -> Vec<u32> {
    growing_codes_of(width, GATES, random)
}

/// So many gates that let coefficients grow.
pub(super) fn growing_codes_of(width: usize, count: usize, random: &mut Random) -> Vec<u32> {
    let style = STYLES[1 + random.below(STYLES.len() - 1)];
    Choices::of(width).codes(style, count, random)
}

/// A gate of one of the six kinds, where the width has one.
pub(super) fn further_code(width: usize, random: &mut Random) -> u32 {
    let kinds = FURTHER.map(|kind| list_codes_of(kind, width));
    let kinds: Vec<&Vec<u32>> = kinds.iter().filter(|codes| !codes.is_empty()).collect();
    let kind = kinds[random.below(kinds.len())];
    random.one_of(kind)
}

/// Random lists of every width and style.
fn random() -> Vec<List> {
    let mut random = Random::new(401);
    let mut lists = Vec::new();
    for width in 1..=5 {
        let choices = Choices::of(width);
        for number in 0..RANDOM[width - 1] {
            let count = match number / STYLES.len() % 4 {
                0 => random.below(GATES + 1),
                _ => GATES,
            };
            let style = STYLES[number % STYLES.len()];
            lists.push(list(width, choices.codes(style, count, &mut random)));
        }
    }
    lists
}

/// Codes of the six kinds that are not valid, at a random place of a list; and
/// two of them in one, where the first is told.
fn not_valid() -> Vec<List> {
    let mut random = Random::new(402);
    let mut lists = Vec::new();
    for width in 1..=5 {
        let choices = Choices::of(width);
        let bad = invalid_codes(width);
        for &code in &bad {
            for second in [None, Some(random.one_of(&bad))] {
                let mut codes = choices.codes(Style::Any, 8, &mut random);
                let place = random.below(8);
                codes[place] = code;
                if let Some(second) = second {
                    codes[place + random.below(8 - place)] = second;
                }
                lists.push(list(width, codes));
            }
        }
    }
    lists
}

/// Operands that are out of range, equal, or not used.
pub(super) fn invalid_codes(width: usize) -> Vec<u32> {
    let valid = list_codes(width);
    let n = width as u32;
    let operands = [
        n * 256,
        15 * 256,
        n * 16,
        16 + n,
        n,
        0x000,
        0x110,
        0x440,
        0x001,
        0x010,
        0x100,
        0x011,
        0x101,
        0x012,
        0x122,
        0x121,
        0x112,
        0x01f,
        0x0f1,
        0xf01,
        0xfff,
        n * 256 + 16,
        256 + n * 16,
        n * 256 + 1,
        256 + n,
        256 + n * 16 + 2,
    ];
    let mut codes = Vec::new();
    for kind in FURTHER {
        codes.extend(operands.map(|operands| kind as u32 * 4096 + operands));
    }
    codes.retain(|code| !valid.contains(code));
    codes
}

/// T and Ch in turns on one pair of qubits. No sum is formed in the inactive
/// rows, they hold sqrt(2)^k: after 24 pairs (0, 64, 0, -64), of which the next
/// Ch makes 128, where the original overflows. A code that is not valid is told
/// before that.
fn roots() -> Vec<List> {
    let mut lists = Vec::new();
    for width in 2..=5 {
        for ch in list_codes_of(Kind::Ch, width) {
            let t = Kind::T as u32 * 4096 + ch / 16 % 16 * 256;
            let codes = [t, ch].repeat(25);
            lists.push(list(width, codes[..48].to_vec()));
            lists.push(list(width, codes.clone()));
            lists.push(list(width, [&codes[..], &[28672]].concat()));
        }
    }
    lists
}

/// For each part of an Sx and a Ch and each edge the first list found at the
/// least width, and one at the next.
pub(super) fn some_edges() -> Vec<List> {
    let found: Vec<Vec<Found>> = (1..=3).map(further_edges::search).collect();
    let mut lists = Vec::new();
    for part in PARTS {
        for edge in EDGES {
            let first = |found: &Vec<Found>| {
                let same = |one: &&Found| one.part == part && one.edge == edge;
                found.iter().find(same).cloned()
            };
            let firsts = found.iter().filter_map(first).take(2);
            lists.extend(firsts.flat_map(|found| found.ends()));
        }
    }
    lists
}
