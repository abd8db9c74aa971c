//! Mode `damage`: tables that the port built are altered in one place or in
//! some, and asked for answers, nodes and lists; then indexes, by `indexes`, and tables
//! with clashes, by `clashes`. What the port says must be what `rules` decides; every
//! list answered must give the matrix asked, by an exact product; and of the lent list
//! only the places of a list may change. `damage clashes` asks the tables with clashes
//! alone.

use std::io::{self, Write};

use super::altered::{Place, places, values};
use super::clashes;
use super::exact::{LIMIT, Matrix, times_root, turned};
use super::indexes;
use super::lent::{By, Finding, Reply, Table};
use super::orders;
use super::random::Random;
use super::rules::{Asked, written};
use super::tables::Limits;
use super::tally::Tally;
use super::weakened;

/// Q, G, E and B of the tables that are altered.
pub(super) const TABLES: [[u32; 4]; 14] = [
    [1, 8, 10, 24],
    [1, 8, 24, 9],
    [1, 8, 23, 9],
    [1, 64, 8, 32],
    [1, 5, 40, 383],
    [1, 0, 3, 3967],
    [2, 8, 5, 2],
    [2, 2, 30, 265],
    [2, 3, 20, 3967],
    [2, 6, 12, 546],
    [3, 2, 12, 3967],
    [3, 1, 34, 3967],
    [3, 8, 10, 1024],
    [3, 4, 16, 2561],
];

/// How often several places are altered at once, in each table.
const ROUNDS: usize = 2000;

/// The longest list that a table may answer.
pub(super) const MOST: usize = 64;

/// The code of T on qubit 0.
pub(super) const T: u32 = 20480;

pub(super) fn run(arguments: &[String], out: &mut dyn Write) -> io::Result<()> {
    let mut tally = Tally::new();
    let words: Vec<&str> = arguments.iter().map(String::as_str).collect();
    match words[..] {
        [] => (),
        ["clashes"] => {
            clashes::run(&mut tally);
            weakened::run(&mut tally, out)?;
            return tally.report_part(out);
        }
        _ => return Err(io::Error::other("usage: oracle damage [clashes]")),
    }
    refused_builds(&mut tally);
    mode_numbers(&mut tally);
    for limits in TABLES {
        damage(limits_of(limits), &mut tally);
    }
    orders::run(&mut tally);
    planted(&mut tally);
    long_chain(&mut tally);
    indexes::run(&mut tally);
    clashes::run(&mut tally);
    weakened::run(&mut tally, out)?;
    tally.report(out)
}

pub(super) fn limits_of([qubits, gates, entries, basis]: [u32; 4]) -> Limits {
    Limits {
        qubits,
        gates,
        entries,
        basis,
    }
}

/// A matrix as it is asked, times a power of omega.
pub(super) fn asked(matrix: &Matrix, power: usize) -> Asked {
    let mut matrix = matrix.clone();
    for entry in &mut matrix.entries {
        *entry = turned(*entry, power);
    }
    Asked::new(matrix.width, matrix.exponent as u16, matrix.coefficients())
}

/// The matrix of a list that fits.
pub(super) fn listed(width: u32, codes: &[u32]) -> Matrix {
    Matrix::of_list(width, codes, LIMIT).expect("the list fits")
}

/// Arrays of twice as many places as a table has, that look like nodes: T after
/// the root.
pub(super) fn lent(limits: Limits) -> Table {
    let size = limits.qubits as usize * limits.entries as usize;
    let mut table = Table::with_places(limits, 2 * size);
    table.fingerprints.fill(listed(1, &[T]).fingerprint());
    table.codes.fill(T);
    table
}

/// A table that the port built, in places that held something, with as many
/// places again behind it.
pub(super) fn built(limits: Limits, tally: &mut Tally) -> Table {
    let mut table = lent(limits);
    let lent = table.clone();
    let size = limits.qubits as usize * limits.entries as usize;
    let refusal = table.build();
    assert_eq!(refusal, 0, "the limits are not refused");
    for place in 0..2 * size {
        let width = place / limits.entries as usize;
        let count = table.record.get(3 * width).copied().unwrap_or(0);
        let node = place % limits.entries as usize;
        let filled = width < limits.qubits as usize && (node as u64) < count;
        let same = table.fingerprints[place] == lent.fingerprints[place]
            && table.parents[place] == lent.parents[place]
            && table.codes[place] == lent.codes[place];
        if !filled && !same {
            tally.differs(format!("{} wrote to place {place}", limits.line()));
        }
    }
    table
}

/// Every node's matrix, and others.
pub(super) fn questions(table: &Table) -> Vec<Asked> {
    let limits = table.limits;
    let mut all = Vec::new();
    for width in 1..=limits.qubits {
        let start = (width as usize - 1) * limits.entries as usize;
        let count = table.record[3 * (width as usize - 1)] as usize;
        let mut lists: Vec<Vec<u32>> = vec![Vec::new()];
        for node in 1..count {
            let parent = table.parents[start + node] as usize;
            lists.push([&lists[parent][..], &[table.codes[start + node]]].concat());
        }
        for (node, list) in lists.iter().enumerate() {
            all.push(asked(&listed(width, list), node % 8));
        }
        for (power, list) in [[T, 0], [0, T], [4096, T], [12288, 0]].iter().enumerate() {
            all.push(asked(&listed(width, &list[..1]), power));
            all.push(asked(&listed(width, list), power));
        }
        // Not unitary; not lowest; -32768, and what lies within the limit; the low bytes
        // of the identity; a wrong length.
        let size = 1 << (2 * width);
        all.push(Asked::new(width, 1, [1, 0, 0, 0].repeat(size)));
        all.push(Asked::new(width, 0, vec![0; 4 * size]));
        all.push(Asked::new(width, 1, vec![0; 4 * size]));
        let mut scaled = listed(width, &[0]);
        scaled.exponent += 1;
        scaled.entries = scaled.entries.into_iter().map(times_root).collect();
        all.push(asked(&scaled, 0));
        let last = |coefficient: i16| {
            let mut all = vec![0; 4 * size];
            all[4 * size - 1] = coefficient;
            all
        };
        all.push(Asked::new(width, 0, last(i16::MIN)));
        all.push(Asked::new(width, 1, last(i16::MIN)));
        for within in [-128, 128, 32767, -32767] {
            all.push(Asked::new(width, 0, last(within)));
        }
        let mut low = Matrix::identity(width).coefficients();
        low[4 * size - 4] += 256;
        all.push(Asked::new(width, 0, low));
        all.push(Asked::new(width, 0, vec![i16::MIN; 4 * size - 1]));
        all.push(Asked::new(width, 0, vec![0; 8 * size]));
        all.push(Asked::new(width, 0, vec![0; 2 * size]));
        all.push(Asked::new(width, 0, Vec::new()));
    }
    all.push(asked(&Matrix::identity(0), 0));
    for width in limits.qubits + 1..=5 {
        all.push(asked(&Matrix::identity(width), 0));
    }
    all.push(Asked::new(6, 0, vec![i16::MIN; 16]));
    all.push(Asked::new(4294967295, 0, vec![0; 4]));
    all
}

/// How many places the list of a question has: mostly enough for any answer,
/// sometimes just enough, and sometimes one too few, or none.
pub(super) fn room(gates: u32, number: usize) -> usize {
    match number % 12 {
        3 => gates as usize,
        7 => (gates as usize).saturating_sub(1),
        11 if number % 5 == 0 => 0,
        _ => MOST,
    }
}

/// The lists of all nodes that a table was built with, and of others, at every
/// width and at some that there are not; the lent lists have places enough for
/// any list, about as many as the gate limit, about as many as the list, or none.
fn write_all(table: &Table, altered: &Table, choice: &mut Random, tally: &mut Tally) {
    let entries = altered.limits.entries as usize;
    let gates = altered.limits.gates.min(MOST as u32 + 1) as usize;
    for width in [0, 1, 2, 3, 4, 5, 6, 4294967295] {
        let (built, count) = match width {
            1..=5 => (table.count(width as usize), altered.count(width as usize)),
            _ => (0, table.count(1)),
        };
        let mut nodes: Vec<usize> = (0..built).collect();
        nodes.extend([0, 1, count.wrapping_sub(1), count, count.wrapping_add(1)]);
        nodes.extend([entries.wrapping_sub(1), entries, entries + 1]);
        nodes.extend([4294967295, 1 << 40, usize::MAX]);
        for node in nodes {
            let own = written(altered, width, node).map_or(gates, |list| list.len());
            let short = gates.saturating_sub(1);
            let rooms = [
                MOST,
                MOST,
                gates,
                gates + 1,
                short,
                own,
                own.saturating_sub(1),
                0,
            ];
            tally.write(altered, width, node, choice.one_of(&rooms));
        }
    }
}

/// A table as it was built, altered in each place, and altered in several.
fn damage(limits: Limits, tally: &mut Tally) {
    let table = built(limits, tally);
    let questions = questions(&table);
    let mut choice = Random::new(47);
    tally.new_questions();
    let mut ask_all = |altered: &Table| {
        tally.tables += 1;
        for (number, asked) in questions.iter().enumerate() {
            tally.ask(altered, number, asked, room(limits.gates, number));
        }
        write_all(&table, altered, &mut choice, tally);
    };
    ask_all(&table);
    let strangers: Vec<u64> = questions
        .iter()
        .filter_map(|asked| asked.value.as_ref().map(|(_, print)| *print))
        .filter(|print| !table.fingerprints.contains(print))
        .collect();
    let places = places(&table);
    for &place in &places {
        for value in values(&table, place, &strangers) {
            let mut altered = table.clone();
            place.set(&mut altered, value);
            ask_all(&altered);
        }
    }
    let nodes: Vec<Place> = places.iter().copied().filter(Place::is_of_node).collect();
    let mut random = Random::new(31);
    for _ in 0..ROUNDS {
        let mut altered = table.clone();
        for round in 0..2 + random.below(3) {
            // Most records altered twice are refused at once.
            let from = if round == 0 { &places } else { &nodes };
            let place = random.one_of(from);
            let value = random.one_of(&values(&table, place, &strangers));
            place.set(&mut altered, value);
        }
        ask_all(&altered);
    }
}

/// A refused build leaves arrays and record as they were.
fn refused_builds(tally: &mut Tally) {
    let cases = [
        ([0, 65, 0, 0], 40, 1),
        ([6, 8, 4, 9], 40, 1),
        ([4294967295, 8, 4, 9], 40, 1),
        ([2, 65, 0, 0], 40, 2),
        ([2, 65, 4, 0], 40, 3),
        ([2, 65, 4, 128], 40, 3),
        ([2, 65, 4, 4096], 40, 3),
        ([2, 65, 4, 9], 40, 4),
        ([2, 64, 1000001, 9], 40, 4),
        ([2, 64, 21, 9], 40, 5),
        ([5, 64, 1000000, 9], 40, 5),
        ([2, 8, 20, 9], 40, 0),
    ];
    for (limits, places, expected) in cases {
        let mut table = Table::with_places(limits_of(limits), places);
        table.fingerprints.fill(77);
        table.parents.fill(78);
        table.codes.fill(79);
        table.record.fill(80);
        let lent = table.clone();
        let refusal = table.build();
        let same = table.fingerprints == lent.fingerprints
            && table.parents == lent.parents
            && table.codes == lent.codes
            && table.record == lent.record;
        if refusal != expected || same != (expected != 0) {
            tally.differs(format!("build {limits:?} ended with {refusal}"));
        }
    }
}

/// Every number is that of a mode: 0 of the one, all others of the other. Both come to
/// the same table here.
fn mode_numbers(tally: &mut Tally) {
    for limits in TABLES.map(limits_of) {
        let expected = built(limits, tally);
        let places = limits.qubits as usize * indexes::sizes(limits.entries)[0];
        for mode in [0, 1, 2, 255, 256, 65536, 1 << 31, 4294967294, 4294967295] {
            for by in [By::Scan, By::Index] {
                let mut table = lent(limits);
                let number = table.build_numbered(mode, by, &mut vec![0; places]);
                if number != 0 || !indexes::same(&table, &expected) {
                    let line = limits.line();
                    tally.differs(format!("{line} in the mode {mode} by {by:?}: {number}"));
                }
            }
        }
    }
}

/// A node planted past the count is not found, and not written.
fn planted(tally: &mut Tally) {
    let t = listed(1, &[T]);
    for place in 4..10 {
        let mut table = Table::with_places(limits_of([1, 8, 10, 24]), 10);
        assert_eq!(table.build(), 0, "the limits are not refused");
        assert_eq!(table.record[0], 4, "the worked table has four nodes");
        table.fingerprints[place] = t.fingerprint();
        table.parents[place] = 0;
        table.codes[place] = T;
        tally.tables += 1;
        for power in 0..8 {
            let (reply, found) = tally.ask(&table, 0, &asked(&t, power), MOST);
            if reply != Reply::None || found != Finding::None {
                tally.differs(format!("a node past the count: {reply:?}, {found:?}"));
            }
        }
        let reply = tally.write(&table, 1, place, MOST);
        if reply != Reply::Refused(16) {
            tally.differs(format!("a node past the count was written: {reply:?}"));
        }
    }
}

/// A chain of a million nodes, each a gate after the one before. Node i has i
/// gates: up to G they are answered, where the product is the one asked, and
/// written.
fn long_chain(tally: &mut Tally) {
    const NODES: usize = 1_000_000;
    const S: u32 = 12288;
    let mut table = Table::with_places(limits_of([1, 64, NODES as u32, 8]), NODES);
    table.record[0] = NODES as u64;
    for node in 0..NODES {
        table.fingerprints[node] = node as u64;
        table.parents[node] = (node as u32).wrapping_sub(1);
        table.codes[node] = S;
    }
    table.codes[0] = 4294967295;
    tally.new_questions();
    for (node, expected) in [
        (NODES - 1, Reply::Refused(13)),
        (NODES / 2, Reply::Refused(13)),
        (66, Reply::Refused(13)),
        (65, Reply::Refused(13)),
        (64, Reply::List(vec![S; 64])),
        (63, Reply::List(vec![S; 63])),
        (1, Reply::List(vec![S])),
        (0, Reply::List(Vec::new())),
    ] {
        // The matrix is that of the chain's gates, S four times being one.
        let question = listed(1, &vec![S; node % 4]);
        let old = table.fingerprints[node];
        table.fingerprints[node] = question.fingerprint();
        tally.tables += 1;
        let (reply, found) = tally.ask(&table, node, &asked(&question, 5), MOST);
        let written = tally.write(&table, 1, node, MOST);
        let finding = match &expected {
            Reply::List(list) => Finding::Node(node, list.len()),
            _ => Finding::Refused(13),
        };
        if reply != expected || written != expected || found != finding {
            tally.differs(format!(
                "node {node} of a long chain: {reply:?}, {found:?}, {written:?}"
            ));
        }
        table.fingerprints[node] = old;
    }
    for node in [NODES, NODES + 1, 4294967295] {
        let reply = tally.write(&table, 1, node, MOST);
        if reply != Reply::Refused(16) {
            tally.differs(format!("node {node} of a long chain: {reply:?}"));
        }
    }
}
