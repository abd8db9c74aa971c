//! Mode `inputs`: the lists that port and original are compared on, as lines
//! for the mode `list`. `inputs all` has every group whole; `inputs sample` has
//! some of each; both end in damaged lines. The same lines come out in every
//! run. The groups here are of the eleven kinds that tables have; those with the
//! six further kinds are in `further`, those with large coefficients in `far`.
//! `inputs tables all` and `inputs tables
//! sample` are in `table_inputs`, `inputs circuits sample` and `inputs circuits
//! part N` in `run_inputs`.

use std::io::{self, Write};

use super::codes::{code_of, valid_gates};
use super::edges;
use super::far;
use super::further;
use super::lists::List;
use super::random::Random;
use super::run_inputs;
use super::table_inputs;
use crate::circuit::GateKind as Kind;
use crate::super_opt::murm::LibraryGate as Gate;

/// The most gates that a line may name.
pub(super) const MOST_GATES: usize = 256;

/// A list that fits in the original up to its last gate, where its raw coefficients
/// pass 127, although they would not once lowered.
pub(super) const TRAP: [u32; 52] = [
    0, 24576, 0, 20480, 0, 20480, 0, 24576, 0, 24576, 0, 20480, 0, 24576, 0, 20480, 0, 20480, 0,
    24576, 0, 24576, 0, 20480, 0, 24576, 0, 20480, 0, 20480, 0, 24576, 0, 20480, 0, 24576, 0,
    24576, 0, 20480, 0, 24576, 0, 24576, 0, 24576, 0, 24576, 0, 20480, 0, 0,
];

/// Lines that are no lists; the last has no newline.
const DAMAGED: &str = concat!(
    "\nlist\nlist \nlist 1\nlist 1 1\nlist 1 2 0\nlist 1 1 0 0\nlist 1 1 0 \n list 1 1 0\n",
    "list  1 1 0\nlist 1  1 0\nlist 1 1 0\r\nlist\t1 1 0\nlists 1 1 0\nmaps 1 0 1\n",
    "list 4294967296 0\nlist 9999999999 0\nlist 00000000001 0\nlist 0000000001 0\n",
    "list -1 0\nlist +1 0\nlist 1 1 1a\nlist 1 1 0",
);

/// Lists of one sort, and how many of them the sample takes.
type Group = (fn() -> Vec<List>, usize);

const GROUPS: &[Group] = &[
    (traps, usize::MAX),
    (short, 70),
    (single, 60),
    (random, 90),
    (edges::lists, 150),
    (invalid, 100),
    (too_wide, 20),
];

pub(super) fn run(arguments: &[String], out: &mut dyn Write) -> io::Result<()> {
    let words: Vec<&str> = arguments.iter().map(String::as_str).collect();
    let sample = match words[..] {
        ["all"] => false,
        ["sample"] => true,
        ["tables", "all"] => return table_inputs::write(false, out),
        ["tables", "sample"] => return table_inputs::write(true, out),
        ["circuits", "sample"] => return run_inputs::write_sample(out),
        ["circuits", "part", number] => {
            return run_inputs::write_part(number.parse().map_err(io::Error::other)?, out);
        }
        _ => {
            let usage =
                "usage: oracle inputs [tables] all|sample, oracle inputs circuits sample|part N";
            return Err(io::Error::other(usage));
        }
    };
    for (lists, wanted) in GROUPS {
        let mut lists = lists();
        if sample {
            lists = spread(lists, *wanted);
        }
        for list in lists {
            writeln!(out, "{}", list.line())?;
        }
    }
    let (further, far) = if sample {
        (further::sample(), far::sample())
    } else {
        (further::lists(), far::lists())
    };
    for list in further.into_iter().chain(far) {
        writeln!(out, "{}", list.line())?;
    }
    writeln!(out, "list 1 257{}", " 0".repeat(257))?;
    write!(out, "{DAMAGED}")
}

/// So many of the lists, or all of them. Of long ones only every tenth is
/// considered.
fn spread(mut lists: Vec<List>, wanted: usize) -> Vec<List> {
    let mut long = 0;
    lists.retain(|list| {
        long += usize::from(list.codes.len() > 70);
        list.codes.len() <= 70 || long % 10 == 1
    });
    evenly(lists, wanted)
}

/// So many of these, evenly spread, or all of them.
pub(super) fn evenly<T>(all: Vec<T>, wanted: usize) -> Vec<T> {
    let count = all.len();
    let taken = |place: usize| place == 0 || place * wanted / count > (place - 1) * wanted / count;
    all.into_iter()
        .enumerate()
        .filter(|&(place, _)| wanted >= count || taken(place))
        .map(|(_, one)| one)
        .collect()
}

pub(super) fn list(width: usize, codes: Vec<u32>) -> List {
    let width = width as u32;
    List { width, codes }
}

/// The codes of the eleven kinds that are valid at the width.
pub(super) fn valid_codes(width: usize) -> Vec<u32> {
    valid_gates(width).into_iter().map(code_of).collect()
}

/// The trap; the list before its last gate, and before its last two; and the
/// trap before a code that is not valid.
fn traps() -> Vec<List> {
    let mut lists: Vec<List> = [50, 51, 52]
        .map(|count| list(1, TRAP[..count].to_vec()))
        .into();
    lists.push(list(1, [&TRAP[..], &[20480]].concat()));
    lists.push(list(1, [&TRAP[..], &[7 * 4096]].concat()));
    lists
}

/// Every list of valid codes of the eleven kinds: up to three gates at width 1,
/// two at width 2, one at the other widths.
fn short() -> Vec<List> {
    let mut lists = Vec::new();
    for (width, most) in [(0, 1), (1, 3), (2, 2), (3, 1), (4, 1), (5, 1)] {
        let codes = valid_codes(width);
        let mut layer = vec![Vec::new()];
        for count in 0..=most {
            lists.extend(layer.iter().map(|prefix| list(width, prefix.clone())));
            if count < most {
                let longer = |prefix: &Vec<u32>| {
                    let prefix = prefix.clone();
                    codes
                        .iter()
                        .map(move |&code| [&prefix[..], &[code]].concat())
                };
                layer = layer.iter().flat_map(longer).collect();
            }
        }
    }
    lists
}

/// One code, valid or not: kinds 0 to 12, operands 0 to 5.
fn single() -> Vec<List> {
    let mut lists = Vec::new();
    for width in 0..=5 {
        for kind in 0..=12 {
            for operands in 0..6 * 6 * 6 {
                let (a, b, c) = (operands / 36, operands / 6 % 6, operands % 6);
                lists.push(list(width, vec![kind * 4096 + a * 256 + b * 16 + c]));
            }
        }
    }
    lists
}

/// How the gates of a random list are chosen.
#[derive(Clone, Copy)]
enum Style {
    /// Any valid code of the eleven kinds.
    Any,
    /// So many H at random places, and anything else around them.
    WithH(usize),
    /// No T, no doubly controlled gate: the exponent stays small.
    Clifford,
    /// H, T and Tdg, and Cx.
    Growing,
}

/// Random lists of every width and style, up to the most gates. At width 0 no
/// code is valid, so those are of codes of width 5.
fn random() -> Vec<List> {
    let with_h = [0, 1, 3, 6, 10, 13, 16, 20, 26].map(Style::WithH);
    let styles = [&with_h[..], &[Style::Any, Style::Clifford, Style::Growing]].concat();
    let mut random = Random::new(1);
    let mut lists = Vec::new();
    for round in 0..100 {
        for &style in &styles {
            for width in 1..=5 {
                let most = match round % 5 {
                    0 => 8,
                    1 => 32,
                    2 => 64,
                    _ => MOST_GATES,
                };
                let count = match round % 10 {
                    9 => MOST_GATES,
                    _ => random.below(most + 1),
                };
                lists.push(list(width, random_codes(width, style, count, &mut random)));
            }
        }
    }
    for _ in 0..100 {
        let count = random.below(MOST_GATES + 1);
        lists.push(list(0, random_codes(5, Style::Any, count, &mut random)));
    }
    lists
}

fn random_codes(width: usize, style: Style, count: usize, random: &mut Random) -> Vec<u32> {
    let of = |taken: fn(Gate) -> bool| -> Vec<u32> {
        let gates = valid_gates(width).into_iter();
        gates.filter(|&gate| taken(gate)).map(code_of).collect()
    };
    let choices = match style {
        Style::Any => of(|_| true),
        Style::WithH(_) => of(|gate| !matches!(gate, Gate::H(_))),
        Style::Clifford => of(|gate| {
            use Gate::{Ccx, Ccz, T, Tdg};
            !matches!(gate, T(_) | Tdg(_) | Ccx(..) | Ccz(..))
        }),
        Style::Growing => of(|gate| {
            use Gate::{Cnot, H, T, Tdg};
            matches!(gate, H(_) | T(_) | Tdg(_) | Cnot(..))
        }),
    };
    let mut codes: Vec<u32> = (0..count).map(|_| random.one_of(&choices)).collect();
    if let Style::WithH(most) = style {
        let h = of(|gate| matches!(gate, Gate::H(_)));
        for _ in 0..most.min(count) {
            codes[random.below(count)] = random.one_of(&h);
        }
    }
    codes
}

/// Codes that no library gate has at a width, each put at every place of a valid
/// list; and two of them in one list, where the first that is not valid is told.
fn invalid() -> Vec<List> {
    let mut random = Random::new(2);
    let mut lists = Vec::new();
    for width in 0..=5 {
        let bad = foreign_codes(width);
        for &code in &bad {
            lists.push(list(width, vec![code]));
        }
        if width == 0 {
            continue;
        }
        for &code in &bad {
            for place in 0..8 {
                let mut codes = random_codes(width, Style::Any, 8, &mut random);
                codes[place] = code;
                lists.push(list(width, codes));
            }
        }
        for place in 0..MOST_GATES {
            let mut codes = random_codes(width, Style::WithH(6), MOST_GATES, &mut random);
            codes[place] = random.one_of(&bad);
            let second = place + random.below(MOST_GATES - place);
            codes[second] = random.one_of(&bad);
            lists.push(list(width, codes));
        }
    }
    lists
}

/// Codes that no library gate has at the width. Those of the kinds 15, 16 and 26
/// may be valid in lists.
pub(super) fn foreign_codes(width: usize) -> Vec<u32> {
    let valid = valid_codes(width);
    let n = width as u32;
    let kind = |kind: Kind| kind as u32 * 4096;
    let mut codes: Vec<u32> = Vec::new();
    // Kinds that are none of the eleven, with operands that would do.
    for none in [
        7, 12, 13, 14, 15, 16, 17, 26, 31, 32, 255, 256, 4096, 65535, 1048575,
    ] {
        codes.extend([none * 4096, none * 4096 + 16, none * 4096 + 18]);
    }
    // Valid codes with a bit too much above, and the largest numbers.
    for &code in valid.iter().take(3) {
        codes.extend([1 << 16, 1 << 20, 1 << 31].map(|bit: u32| bit + code));
    }
    codes.extend([4294967295, 4294967294, 4294963200, 2147483648, 2147483647]);
    // An operand out of range; an operand that the kind does not use.
    for one in [
        Kind::H,
        Kind::X,
        Kind::Z,
        Kind::S,
        Kind::Sdg,
        Kind::T,
        Kind::Tdg,
    ] {
        codes.extend([n * 256, 15 * 256, 16, 1, 255].map(|operands| kind(one) + operands));
    }
    for two in [Kind::Cx, Kind::Cz] {
        codes.extend([n * 16, n * 256, 15 * 16, 15 * 256, 17].map(|operands| kind(two) + operands));
    }
    for three in [Kind::Ccx, Kind::Ccz] {
        let operands = [16 + n, n * 16 + 2, n * 256 + 18, 16 + 15, 0x12f, 0xf12];
        codes.extend(operands.map(|operands| kind(three) + operands));
    }
    // Equal operands, and operands out of order.
    for two in [Kind::Cx, Kind::Cz] {
        codes.extend([0x000, 0x110, 0x440].map(|operands| kind(two) + operands));
    }
    codes.extend([0x100, 0x210, 0x430].map(|operands| kind(Kind::Cz) + operands));
    for three in [Kind::Ccx, Kind::Ccz] {
        let equal = [0x000, 0x001, 0x010, 0x100, 0x011, 0x110, 0x101, 0x122];
        codes.extend(equal.map(|operands| kind(three) + operands));
        codes.extend([0x102, 0x210, 0x201, 0x120].map(|operands| kind(three) + operands));
    }
    codes.extend([0x021, 0x132].map(|operands| kind(Kind::Ccz) + operands));
    codes.retain(|code| !valid.contains(code));
    codes
}

/// Widths that are too large, whatever the list is.
fn too_wide() -> Vec<List> {
    let mut lists = Vec::new();
    for width in [
        6, 7, 8, 16, 31, 32, 33, 63, 64, 255, 256, 65535, 65536, 2147483648, 4294967295,
    ] {
        for codes in [
            vec![],
            vec![0],
            vec![7 * 4096],
            TRAP.to_vec(),
            vec![4294967295; 3],
        ] {
            lists.push(List { width, codes });
        }
    }
    lists
}
