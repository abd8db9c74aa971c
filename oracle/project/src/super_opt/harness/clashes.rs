//! Part of the mode `damage`: tables in which several nodes of a width have one
//! fingerprint, some of them with bad chains. A build cannot be made to leave such a
//! table: fingerprints of 64 bits did not clash wherever one was built. Each is asked by
//! the scan, through an index that is filled from it, and through altered ones.

use super::damage::{MOST, TABLES, asked, limits_of, listed};
use super::exact::{LIMIT, Matrix, ORIGINAL_LIMIT, gate};
use super::indexes::{WIDE, built, sizes, used};
use super::lent::{Finding, Reply, Table, through};
use super::random::Random;
use super::rules::{Asked, EMPTY, part_size, probe, written};
use super::tally::Tally;

/// How often some nodes of each table get one fingerprint, and are spoilt, at random.
const ROUNDS: usize = 400;

/// Codes of width 1.
const H: u32 = 0;
const X: u32 = 4096;
const S: u32 = 12288;
const SDG: u32 = 16384;
const T: u32 = 20480;
const TDG: u32 = 24576;

/// 50 gates, after which one H comes within 127 and a second one passes it, although two
/// come to nothing.
#[rustfmt::skip]
const LARGE: [u32; 50] = [
    H, TDG, H, T, H, T, H, TDG, H, TDG, H, T, H, TDG, H, T, H, T, H, TDG, H, TDG, H, T, H,
    TDG, H, T, H, T, H, TDG, H, T, H, TDG, H, TDG, H, T, H, TDG, H, TDG, H, TDG, H, TDG, H, T,
];

/// 53 gates within 127, after which H passes it.
#[rustfmt::skip]
const LARGER: [u32; 53] = [
    TDG, H, T, H, T, H, TDG, H, TDG, H, T, H, T, H, T, H, TDG, H, T, H, TDG, H, T, H, T, H,
    T, H, TDG, H, TDG, H, TDG, H, TDG, H, T, H, T, H, TDG, H, TDG, H, T, H, TDG, H, TDG, H,
    TDG, H, S,
];

/// 60 gates that fit, after which one more H fits and two do not, although two come to
/// nothing. Only with Ccx, and so from width 3 on, were lists found that pass 32767
/// within 64 gates.
#[rustfmt::skip]
const FAR_LARGE: [u32; 60] = [
    512, 256, 41248, 256, 40978, 256, 41248, 256, 40978, 256, 41248, 512, 25088, 256, 40978,
    0, 40993, 0, 24576, 512, 41248, 512, 40993, 0, 40978, 0, 40993, 0, 40978, 0, 40993, 0,
    40978, 0, 40993, 0, 40978, 0, 40993, 0, 40978, 0, 40993, 0, 40978, 0, 40993, 0, 40978,
    0, 40993, 0, 40978, 0, 20480, 256, 41248, 256, 40978, 256,
];

/// 60 gates that fit, after which H does not.
#[rustfmt::skip]
const FAR_LARGER: [u32; 60] = [
    512, 256, 41248, 256, 40978, 256, 41248, 256, 40978, 256, 41248, 512, 25088, 256, 40978,
    0, 40993, 0, 24576, 512, 41248, 512, 40993, 0, 40978, 0, 40993, 0, 40978, 0, 40993, 0,
    40978, 0, 40993, 0, 40978, 0, 40993, 0, 40978, 0, 20992, 256, 40978, 256, 41248, 256,
    40978, 256, 41248, 256, 40978, 256, 41248, 256, 40978, 256, 0, 12288,
];

/// How many places a width has in a table that is one chain.
const CHAIN: usize = 70;

/// How the chain of a node is made bad.
#[derive(Clone, Copy, Debug, PartialEq)]
enum Spoil {
    Parent,
    Code,
    Basis,
    Length,
    Marks,
}

const SPOILS: [Spoil; 5] = [
    Spoil::Parent,
    Spoil::Code,
    Spoil::Basis,
    Spoil::Length,
    Spoil::Marks,
];

pub(super) fn run(tally: &mut Tally) {
    let mut random = Random::new(73);
    tally.begin_part();
    let mut asker = Asker {
        random: &mut random,
        tally,
        turn: 0,
    };
    worked(&mut asker);
    for limits in TABLES.into_iter().chain(WIDE).map(limits_of) {
        let table = built(limits, asker.random, asker.tally);
        for width in 1..=limits.qubits {
            asker.tally.new_questions();
            let part = Part::of(&table, width);
            part.pairs(&mut asker);
            part.twice(&mut asker);
            part.groups(&mut asker);
            part.one_print(&mut asker);
            part.strangers(&mut asker);
            part.remainders(&mut asker);
            part.any(&mut asker);
        }
    }
    for width in 1..=5 {
        passes_127(width, &mut asker);
    }
    for width in 3..=5 {
        does_not_fit(width, &mut asker);
    }
    tally.end_part();
}

/// What asks a table with clashes.
struct Asker<'a> {
    random: &'a mut Random,
    tally: &'a mut Tally,
    /// Which alteration of an index comes next.
    turn: usize,
}

impl Asker<'_> {
    /// Asks with a lent list that is mostly long enough for any answer; what is found.
    fn ask(&mut self, table: &Table, number: usize, asked: &Asked) -> Finding {
        let gates = table.limits.gates as usize;
        let room = match self.turn % 10 {
            4 => gates,
            7 => gates.saturating_sub(1),
            _ => MOST,
        };
        self.ask_in(table, number, asked, room).1
    }

    /// Asks by the scan, through an index that is filled from the table, which must
    /// be the same, and through some altered ones, with a lent list of so many places.
    /// The number is the question's.
    fn ask_in(
        &mut self,
        table: &Table,
        number: usize,
        asked: &Asked,
        room: usize,
    ) -> (Reply, Finding) {
        self.tally.tables += 1;
        let told = self.tally.ask(table, number, asked, room);
        let size = self.random.one_of(&sizes(table.limits.entries)[..2]);
        let mut index = used(table.limits.qubits as usize * size, self.random);
        if !self.tally.fill(table, &mut index) {
            return told;
        }
        self.tally.indexes += 1;
        let lookup = through(&index);
        let through_it = self.tally.ask_by(table, lookup, number, asked, room);
        if through_it != told {
            let line = table.limits.line();
            self.tally.differs(format!(
                "{line} with clashes, through a filled index: {through_it:?}, {told:?}"
            ));
        }
        for _ in 0..3 {
            let altered = self.altered(table, &index, asked);
            self.tally.indexes += 1;
            let lookup = through(&altered);
            self.tally.ask_by(table, lookup, number, asked, room);
        }
        told
    }

    /// A filled index altered where the nodes with the fingerprint of a question
    /// stand.
    fn altered(&mut self, table: &Table, filled: &[u32], asked: &Asked) -> Vec<u32> {
        self.turn += 1;
        let width = asked.width as usize;
        let (_, print) = asked.value.as_ref().expect("a matrix of the table");
        let size = part_size(&table.limits, filled.len()).expect("an index of Q parts");
        let mut index = filled.to_vec();
        let part = &mut index[(width - 1) * size..][..size];
        let count = table.count(width);
        let start = (width - 1) * table.limits.entries as usize;
        let prints = &table.fingerprints[start..][..count];
        let way: Vec<usize> = probe(size, *print).collect();
        let stand: Vec<usize> = way
            .iter()
            .copied()
            .filter(|&place| prints.get(part[place] as usize) == Some(print))
            .collect();
        let nodes: Vec<u32> = stand.iter().map(|&place| part[place]).collect();
        if nodes.is_empty() {
            return index;
        }
        let random = &mut *self.random;
        let place = random.one_of(&stand);
        match self.turn % 9 {
            // Falling.
            0 => put(part, &stand, nodes.iter().rev()),
            // In any order.
            1 => {
                let mut shuffled = nodes.clone();
                for last in (1..shuffled.len()).rev() {
                    shuffled.swap(last, random.below(last + 1));
                }
                put(part, &stand, shuffled.iter());
            }
            // The first two exchanged.
            2 if stand.len() > 1 => part.swap(stand[0], stand[1]),
            // One is empty, or not a node's, or another node's.
            3 => part[place] = EMPTY,
            4 => part[place] = random.one_of(&[count as u32, count as u32 + 1, EMPTY - 1]),
            5 => part[place] = random.one_of(&nodes),
            // No place is empty; the nodes stand as they stood.
            6 => {
                for place in way.iter().filter(|place| !stand.contains(place)) {
                    part[*place] = random.below(count) as u32;
                }
            }
            // All places have nodes with the fingerprint, in any order.
            7 => part.fill_with(|| random.one_of(&nodes)),
            // The same with some other numbers among them.
            _ => part.fill_with(|| match random.below(4) {
                0 => EMPTY - random.below(3) as u32,
                1 => random.below(2 * count) as u32,
                _ => random.one_of(&nodes),
            }),
        }
        index
    }

    /// A difference from what is expected without `rules`.
    fn expect(&mut self, table: &Table, what: &str, found: &Finding, expected: &Finding) {
        if found != expected {
            let line = table.limits.line();
            self.tally
                .differs(format!("{line}, {what}: {found:?}, expected {expected:?}"));
        }
    }
}

fn put<'a>(part: &mut [u32], places: &[usize], nodes: impl Iterator<Item = &'a u32>) {
    for (&place, &node) in places.iter().zip(nodes) {
        part[place] = node;
    }
}

/// The worked table, whose nodes are I, S, Sdg and S S: Z.
fn worked(asker: &mut Asker) {
    let z = listed(1, &[8192]);
    let print = z.fingerprint();
    let worked = |asker: &mut Asker| {
        asker.tally.new_questions();
        built(limits_of([1, 8, 10, 24]), asker.random, asker.tally)
    };
    // A node before the one that answers, whose product is another.
    let mut table = worked(asker);
    table.fingerprints[1] = print;
    expect_list(asker, &table, &z, Reply::List(vec![S, S]));
    // The same with a code that is not of the basis; it is in the other's chain too.
    let mut table = worked(asker);
    (table.fingerprints[1], table.codes[1]) = (print, X);
    expect_list(asker, &table, &z, Reply::Refused(13));
    // The same where the node that would answer, now Sdg Sdg, has a good chain.
    (table.parents[3], table.codes[3]) = (2, SDG);
    expect_list(asker, &table, &z, Reply::Refused(13));
    table.fingerprints[1] = 0;
    expect_list(asker, &table, &z, Reply::List(vec![SDG, SDG]));
    // A node after the one that answers: of another product, and with a bad chain.
    for code in [S, X] {
        let mut table = worked(asker);
        table.record[0] = 5;
        (table.fingerprints[4], table.parents[4]) = (print, 0);
        table.codes[4] = code;
        expect_list(asker, &table, &z, Reply::List(vec![S, S]));
        // Without the fingerprint of the one that answers it is met.
        table.fingerprints[3] = 0;
        let expected = match code {
            S => Reply::None,
            _ => Reply::Refused(13),
        };
        expect_list(asker, &table, &z, expected);
    }
    // Every node has it.
    let mut table = worked(asker);
    table.fingerprints[..4].fill(print);
    expect_list(asker, &table, &z, Reply::List(vec![S, S]));
}

fn expect_list(asker: &mut Asker, table: &Table, matrix: &Matrix, expected: Reply) {
    asker.tally.new_questions();
    for power in 0..8 {
        let (reply, _) = asker.ask_in(table, power, &asked(matrix, power), MOST);
        if reply != expected {
            asker.tally.differs(format!(
                "the worked table: {reply:?}, expected {expected:?}"
            ));
        }
    }
}

/// One width of a table that was built, with its nodes' lists, what is asked for each,
/// and their fingerprints.
struct Part<'a> {
    table: &'a Table,
    width: u32,
    start: usize,
    lists: Vec<Vec<u32>>,
    questions: Vec<Asked>,
    prints: Vec<u64>,
}

impl<'a> Part<'a> {
    fn of(table: &'a Table, width: u32) -> Self {
        let start = (width as usize - 1) * table.limits.entries as usize;
        let count = table.count(width as usize);
        let list = |node| written(table, width, node).expect("a table as it was built");
        let lists: Vec<Vec<u32>> = (0..count).map(list).collect();
        let question = |(node, list): (usize, &Vec<u32>)| asked(&listed(width, list), node % 8);
        Self {
            table,
            width,
            start,
            questions: lists.iter().enumerate().map(question).collect(),
            lists,
            prints: table.fingerprints[start..][..count].to_vec(),
        }
    }

    fn count(&self) -> usize {
        self.lists.len()
    }

    /// The node, with its gate count: what is found for its own matrix, since no two
    /// products of a built table are equal up to phase.
    fn node(&self, node: usize) -> Finding {
        Finding::Node(node, self.lists[node].len())
    }

    /// A copy in which these nodes have the fingerprint of one.
    fn copied(&self, node: usize, others: impl IntoIterator<Item = usize>) -> Table {
        let mut table = self.table.clone();
        for other in others {
            table.fingerprints[self.start + other] = self.prints[node];
        }
        table
    }

    /// Makes the chain of a node bad, unless this cannot be so; for the matrix of
    /// another node.
    fn spoil(&self, table: &mut Table, node: usize, spoil: Spoil, asked: usize, r: &mut Random) {
        let place = self.start + node;
        let count = self.count() as u32;
        match spoil {
            Spoil::Marks => {
                let mark = [0, 1, EMPTY - 1];
                match r.below(2) {
                    0 => table.parents[self.start] = r.one_of(&mark),
                    _ => table.codes[self.start] = r.one_of(&mark),
                }
            }
            _ if node == 0 => (),
            Spoil::Parent => {
                let node = node as u32;
                let parents = [node, node + 1, count - 1, count, EMPTY - 1, EMPTY];
                let above: Vec<u32> = parents.into_iter().filter(|&p| p >= node).collect();
                table.parents[place] = r.one_of(&above);
            }
            Spoil::Code => {
                let width = self.width;
                let codes = [
                    width * 256,
                    1,
                    S + 16,
                    0x8000,
                    0x9100,
                    0xb000,
                    0xc000,
                    0x10000,
                    0x13010,
                    0x1a012,
                    1 << 31,
                    EMPTY,
                ];
                let invalid = |code: &u32| gate(*code, width).is_none();
                let invalid: Vec<u32> = codes.into_iter().filter(invalid).collect();
                table.codes[place] = r.one_of(&invalid);
            }
            Spoil::Basis => {
                let basis = table.limits.basis;
                let other = |code: &u32| match gate(*code, self.width) {
                    Some((kind, _)) => basis >> kind.number & 1 == 0,
                    None => false,
                };
                let codes: Vec<u32> = (0..12 * 16).map(|code| code * 256).filter(other).collect();
                if !codes.is_empty() {
                    table.codes[place] = r.one_of(&codes);
                }
            }
            Spoil::Length => {
                // A node of the same layer is put before the last gate.
                table.parents[place] = node as u32 - 1;
                table.limits.gates = self.lists[asked].len() as u32;
            }
        }
    }

    /// One node has the fingerprint of another, with a good chain and with a bad one.
    fn pairs(&self, asker: &mut Asker) {
        for node in 0..self.count() {
            let question = &self.questions[node];
            for other in (0..self.count()).filter(|&other| other != node) {
                let table = self.copied(node, [other]);
                let found = asker.ask(&table, node, question);
                asker.expect(&table, "a copied fingerprint", &found, &self.node(node));
                // What is asked for the other one has no node now.
                let found = asker.ask(&table, other, &self.questions[other]);
                asker.expect(&table, "a lost fingerprint", &found, &Finding::None);
                for spoil in SPOILS {
                    let mut table = self.copied(node, [other]);
                    self.spoil(&mut table, other, spoil, node, asker.random);
                    let found = asker.ask(&table, node, question);
                    let first = other < node && other > 0;
                    let expected = match spoil {
                        Spoil::Marks => Finding::Refused(13),
                        Spoil::Parent | Spoil::Code if first => Finding::Refused(13),
                        Spoil::Parent | Spoil::Code => self.node(node),
                        _ => continue,
                    };
                    asker.expect(&table, "a bad chain", &found, &expected);
                }
            }
        }
    }

    /// A node has the list of another too: the lower one is found; through an index in
    /// which the two are exchanged the other.
    fn twice(&self, asker: &mut Asker) {
        let limits = self.table.limits;
        for node in 1..self.count() {
            for other in node + 1..self.count() {
                let mut table = self.copied(node, [other]);
                table.parents[self.start + other] = table.parents[self.start + node];
                table.codes[self.start + other] = table.codes[self.start + node];
                let found = asker.ask(&table, node, &self.questions[node]);
                asker.expect(&table, "a list twice", &found, &self.node(node));
                let size = asker.random.one_of(&sizes(limits.entries)[..2]);
                let mut index = used(limits.qubits as usize * size, asker.random);
                asker.tally.fill(&table, &mut index);
                let part = &mut index[(self.width as usize - 1) * size..][..size];
                for held in part {
                    *held = match *held as usize {
                        held if held == node => other as u32,
                        held if held == other => node as u32,
                        _ => *held,
                    };
                }
                asker.tally.indexes += 1;
                let (_, found) =
                    asker
                        .tally
                        .ask_by(&table, through(&index), node, &self.questions[node], MOST);
                let expected = Finding::Node(other, self.lists[node].len());
                asker.expect(&table, "a list twice, exchanged", &found, &expected);
            }
        }
    }

    /// All nodes before one, all after it, all, and some have its fingerprint; with
    /// good chains, and with up to three bad ones.
    fn groups(&self, asker: &mut Asker) {
        for node in 0..self.count() {
            let before: Vec<usize> = (0..node).collect();
            let after: Vec<usize> = (node..self.count()).collect();
            let mut groups = vec![[&before[..], &after[..]].concat(), before, after];
            for _ in 0..4 {
                let random = &mut *asker.random;
                let some = (0..self.count()).filter(|_| random.below(2) == 0);
                groups.push(some.collect());
            }
            for group in groups.iter().filter(|group| !group.is_empty()) {
                let table = self.copied(node, group.iter().copied());
                let found = asker.ask(&table, node, &self.questions[node]);
                asker.expect(&table, "a group", &found, &self.node(node));
                for spoilt in 1..4 {
                    let mut table = table.clone();
                    for _ in 0..spoilt {
                        let (other, spoil) = (
                            asker.random.one_of(group),
                            asker.random.one_of(&SPOILS[..4]),
                        );
                        self.spoil(&mut table, other, spoil, node, asker.random);
                    }
                    asker.ask(&table, node, &self.questions[node]);
                }
            }
        }
    }

    /// All nodes have one fingerprint, each in turn that of the node that is asked for.
    /// Each is found; through an index in which the nodes fall, the last one alone: from
    /// the others on there is none.
    fn one_print(&self, asker: &mut Asker) {
        let limits = self.table.limits;
        for node in 0..self.count() {
            let table = self.copied(node, 0..self.count());
            let found = asker.ask(&table, node, &self.questions[node]);
            asker.expect(&table, "one fingerprint", &found, &self.node(node));
            for size in sizes(limits.entries) {
                let mut index = used(limits.qubits as usize * size, asker.random);
                asker.tally.fill(&table, &mut index);
                let part = &mut index[(self.width as usize - 1) * size..][..size];
                let last = self.count() as u32 - 1;
                for held in part.iter_mut().filter(|held| **held <= last) {
                    *held = last - *held;
                }
                asker.tally.indexes += 1;
                let question = &self.questions[node];
                let (_, found) = asker
                    .tally
                    .ask_by(&table, through(&index), node, question, MOST);
                let expected = match node as u32 == last {
                    true => self.node(node),
                    false => Finding::None,
                };
                asker.expect(&table, "one fingerprint, falling", &found, &expected);
            }
        }
    }

    /// All nodes have the fingerprint of a matrix that is none's: all are looked at, and
    /// none is found.
    fn strangers(&self, asker: &mut Asker) {
        for (number, list) in [&[H, T][..], &[T, H, T], &[H, T, H], &[X, T]]
            .into_iter()
            .enumerate()
        {
            let matrix = listed(self.width, list);
            let print = matrix.fingerprint();
            if self.prints.contains(&print) {
                continue;
            }
            let mut table = self.table.clone();
            table.fingerprints[self.start..][..self.count()].fill(print);
            let question = asked(&matrix, number);
            let found = asker.ask(&table, self.count() + number, &question);
            asker.expect(&table, "a stranger's fingerprint", &found, &Finding::None);
            // With one bad chain it is refused, whichever that is.
            for node in 1..self.count() {
                let mut table = table.clone();
                self.spoil(&mut table, node, Spoil::Parent, 0, asker.random);
                let found = asker.ask(&table, self.count() + number, &question);
                let bad = Finding::Refused(13);
                asker.expect(&table, "a stranger's, bad", &found, &bad);
            }
        }
    }

    /// The nodes whose fingerprints have one remainder get the one that is asked for: so
    /// a table with weakened fingerprints answers.
    fn remainders(&self, asker: &mut Asker) {
        for weak in [2, 3, 16] {
            for node in 0..self.count() {
                let same = |other: &usize| self.prints[*other] % weak == self.prints[node] % weak;
                let table = self.copied(node, (0..self.count()).filter(same));
                let found = asker.ask(&table, node, &self.questions[node]);
                asker.expect(&table, "a weakened fingerprint", &found, &self.node(node));
            }
        }
    }

    /// Any nodes have the fingerprint of one; any are spoilt, those of its chain among
    /// them, and parents are others, below or not.
    fn any(&self, asker: &mut Asker) {
        for _ in 0..ROUNDS {
            let node = asker.random.below(self.count());
            let group: Vec<usize> = (0..self.count())
                .filter(|_| asker.random.below(3) > 0)
                .collect();
            let mut table = self.copied(node, group);
            for _ in 0..asker.random.below(4) {
                let other = asker.random.below(self.count());
                let (spoil, asked) = (asker.random.one_of(&SPOILS), node);
                match asker.random.below(3) {
                    0 => {
                        let parent = asker.random.below(other + 1) as u32;
                        table.parents[self.start + other] = parent;
                    }
                    1 if spoil == Spoil::Length => {
                        table.limits.gates = asker.random.below(MOST + 1) as u32;
                    }
                    _ => self.spoil(&mut table, other, spoil, asked, asker.random),
                }
            }
            asker.ask(&table, node, &self.questions[node]);
            let other = asker.random.below(self.count());
            asker.ask(&table, other, &self.questions[other]);
        }
    }
}

/// A table whose last width is one chain, by the places of its nodes, and where its part
/// starts. No node has a fingerprint yet.
fn chain_of(width: u32, list: &[u32]) -> (Table, usize) {
    let basis = 1 | 8 | 32 | 64 | 1024;
    let limits = limits_of([width, MOST as u32, CHAIN as u32, basis]);
    let start = (width as usize - 1) * CHAIN;
    let mut chain = Table::with_places(limits, width as usize * CHAIN);
    for row in 0..width as usize {
        chain.record[3 * row] = 1;
        (chain.parents[CHAIN * row], chain.codes[CHAIN * row]) = (EMPTY, EMPTY);
    }
    for (node, &code) in (1..).zip(list) {
        chain.parents[start + node] = node as u32 - 1;
        chain.codes[start + node] = code;
    }
    chain.record[3 * (width as usize - 1)] = list.len() as u64 + 1;
    (chain, start)
}

/// Chains whose last gate passes 127, where the original would overflow. They fit: the
/// node is found by its product, also after another node with its fingerprint.
fn passes_127(width: u32, asker: &mut Asker) {
    for list in [[&LARGE[..], &[H, H]].concat(), [&LARGER[..], &[H]].concat()] {
        let end = list.len();
        let before = Matrix::of_list(width, &list, ORIGINAL_LIMIT);
        let (place, _) = before.expect_err("it passes 127");
        assert_eq!(place, end - 1, "at its end");
        let (mut table, start) = chain_of(width, &list);
        let matrix = listed(width, &list);
        table.fingerprints[start + end] = matrix.fingerprint();
        asker.tally.new_questions();
        for power in 0..8 {
            let found = asker.ask(&table, power, &asked(&matrix, power));
            asker.expect(
                &table,
                "a product past 127",
                &found,
                &Finding::Node(end, end),
            );
        }
        table.fingerprints[start + 3] = matrix.fingerprint();
        let found = asker.ask(&table, 0, &asked(&matrix, 0));
        asker.expect(&table, "after another", &found, &Finding::Node(end, end));
    }
}

/// A chain whose last gate does not fit, with the fingerprint of one of its beginnings,
/// before and after a node that has that beginning as its list.
fn does_not_fit(width: u32, asker: &mut Asker) {
    for list in [
        [&FAR_LARGE[..], &[H, H]].concat(),
        [&FAR_LARGER[..], &[H]].concat(),
    ] {
        let end = list.len();
        let before = Matrix::of_list(width, &list, LIMIT);
        let (place, _) = before.expect_err("it does not fit");
        assert_eq!(place, end - 1, "at its end");
        let (mut chain, start) = chain_of(width, &list);
        // Three more nodes, each of which may be a beginning again, or what follows the
        // gate that does not fit.
        chain.record[3 * (width as usize - 1)] = end as u64 + 4;
        for node in end + 1..end + 4 {
            chain.parents[start + node] = 0;
            chain.codes[start + node] = T;
        }
        asker.tally.new_questions();
        for beginning in [1, 2, 10, 27, end - 4, end - 3, end - 2, end - 1] {
            let matrix = listed(width, &list[..beginning]);
            let print = matrix.fingerprint();
            let question = asked(&matrix, beginning % 8);
            let again = |table: &mut Table, node: usize| {
                table.fingerprints[start + node] = print;
                table.parents[start + node] = beginning as u32 - 1;
                table.codes[start + node] = list[beginning - 1];
            };
            let mut expect = |table: &Table, what: &str, expected: Finding| {
                let found = asker.ask(table, beginning, &question);
                asker.expect(table, what, &found, &expected);
            };
            let mut table = chain.clone();
            table.fingerprints[start + end] = print;
            expect(&table, "a product that does not fit", Finding::None);
            // What follows it does not fit either.
            (table.parents[start + end + 1], table.codes[start + end + 1]) = (end as u32, T);
            table.fingerprints[start + end + 1] = print;
            expect(&table, "products that do not fit", Finding::None);
            again(&mut table, end + 2);
            let answers = Finding::Node(end + 2, beginning);
            expect(&table, "a node after it", answers);
            // Longer than G it is bad.
            table.limits.gates = end as u32;
            expect(&table, "longer than G", Finding::Refused(13));
            table.limits.gates = end as u32 - 1;
            expect(&table, "longer than G", Finding::Refused(13));
            table.limits.gates = MOST as u32;
            // A bad chain between the two.
            table.codes[start + end + 1] = X;
            expect(&table, "a bad chain after it", Finding::Refused(13));
            // The beginning itself before all of them.
            table.fingerprints[start + beginning] = print;
            let answers = Finding::Node(beginning, beginning);
            expect(&table, "a node before it", answers);
            // And every node.
            table.fingerprints[start..][..end + 4].fill(print);
            let answers = Finding::Node(beginning, beginning);
            expect(&table, "every node", answers);
        }
    }
}
