//! Part of the mode `damage`: indexes. Each is built and filled by the port, must be
//! what `rules` and `walks` make of it, place by place, and is asked as it is and
//! altered.

use super::altered::{places, values};
use super::damage::{MOST, T, TABLES, asked, lent, limits_of, listed, questions, room};
use super::exact::Matrix;
use super::lent::{By, Finding, Lookup, Mode, SCAN, Table, through};
use super::random::Random;
use super::rules::{Asked, EMPTY};
use super::tables::Limits;
use super::tally::Tally;

/// Tables of the widths above 3, beside those that are altered.
pub(super) const WIDE: [[u32; 4]; 4] = [
    [4, 2, 14, 3967],
    [4, 8, 16, 2],
    [5, 1, 9, 3967],
    [5, 2, 12, 546],
];

/// How often an index of each table is filled at random.
const ROUNDS: usize = 300;

pub(super) fn run(tally: &mut Tally) {
    let mut random = Random::new(59);
    for limits in TABLES.into_iter().chain(WIDE).map(limits_of) {
        let table = built(limits, &mut random, tally);
        let questions = questions(&table);
        tally.new_questions();
        let mut asker = Asker {
            table: &table,
            questions: &questions,
            random: &mut random,
            tally,
        };
        asker.filled();
        asker.places();
        asker.one_number();
        asker.last_places();
        asker.any();
        asker.altered_tables();
    }
    of_other_tables(&mut random, tally);
    equal_fingerprints(&mut random, tally);
    lengths(&mut random, tally);
    long(tally);
}

/// The sizes that parts have here: the least power of two that is at least twice E,
/// twice that, and eight times that.
pub(super) fn sizes(entries: u32) -> [usize; 3] {
    let least = (2 * entries as usize).next_power_of_two();
    [least, 2 * least, 8 * least]
}

/// An index that was used before: empty places, small numbers and large ones.
pub(super) fn used(places: usize, random: &mut Random) -> Vec<u32> {
    let one = |_| match random.below(4) {
        0 => EMPTY,
        1 => EMPTY - random.below(3) as u32,
        _ => random.below(40) as u32,
    };
    (0..places).map(one).collect()
}

/// A table that is built in each mode, through an index of each size and by the scan,
/// with the same arrays and record each time. A fill leaves the index that the build
/// left.
pub(super) fn built(limits: Limits, random: &mut Random, tally: &mut Tally) -> Table {
    let mut by_scan = lent(limits);
    let places = limits.qubits as usize * sizes(limits.entries)[0];
    let mut index = used(places, random);
    tally.build(&mut by_scan, Mode::ByPrint, By::Scan, &mut index);
    let mut kept = lent(limits);
    tally.build(&mut kept, Mode::Keeping, By::Scan, &mut index);
    if !same(&kept, &by_scan) {
        tally.differs(format!("{} built by the scan", limits.line()));
    }
    for size in sizes(limits.entries) {
        let mut index = used(limits.qubits as usize * size, random);
        for mode in Mode::BOTH {
            let mut table = lent(limits);
            tally.build(&mut table, mode, By::Index, &mut index);
            let mut filled = used(index.len(), random);
            let filled_as = tally.fill(&table, &mut filled) && filled == index;
            if !same(&table, &by_scan) || !filled_as {
                tally.differs(format!(
                    "{} built {mode:?} with parts of {size}",
                    limits.line()
                ));
            }
        }
    }
    by_scan
}

/// Whether record and arrays are the same.
pub(super) fn same(one: &Table, other: &Table) -> bool {
    one.record == other.record
        && one.fingerprints == other.fingerprints
        && one.parents == other.parents
        && one.codes == other.codes
}

/// A table and what it is asked, with indexes of many contents.
struct Asker<'a> {
    table: &'a Table,
    questions: &'a [Asked],
    random: &'a mut Random,
    tally: &'a mut Tally,
}

impl Asker<'_> {
    /// The index that a fill leaves, with parts of this size.
    fn index(&mut self, size: usize) -> Vec<u32> {
        let mut index = used(self.table.limits.qubits as usize * size, self.random);
        self.tally.fill(self.table, &mut index);
        index
    }

    /// Asks everything, or what is of one width, through an index of any content.
    fn ask(&mut self, table: &Table, index: &[u32], width: Option<u32>) {
        self.tally.indexes += 1;
        for (number, asked) in self.questions.iter().enumerate() {
            if width.is_none_or(|width| asked.width == width) {
                let room = room(self.table.limits.gates, number);
                let lookup = through(index);
                self.tally.ask_by(table, lookup, number, asked, room);
            }
        }
    }

    /// Through an index that was filled from the table it is as by the scan,
    /// whatever index the scan is lent.
    fn same_as_scan(&mut self, table: &Table, index: &[u32]) {
        self.tally.indexes += 1;
        for (number, asked) in self.questions.iter().enumerate() {
            let room = room(self.table.limits.gates, number);
            let mut ask = |by| {
                let lookup = Lookup { by, index };
                self.tally.ask_by(table, lookup, number, asked, room)
            };
            let (one, other) = (ask(By::Index), ask(By::Scan));
            if one != other {
                let table = table.limits.line();
                self.tally.differs(format!(
                    "{table} through a filled index: {one:?}, {other:?}"
                ));
            }
        }
    }

    fn filled(&mut self) {
        for size in sizes(self.table.limits.entries) {
            let index = self.index(size);
            self.same_as_scan(self.table, &index);
        }
    }

    /// Each place altered in turn.
    fn places(&mut self) {
        let size = sizes(self.table.limits.entries)[0];
        let index = self.index(size);
        for place in 0..index.len() {
            let width = place / size + 1;
            let count = self.table.count(width) as u32;
            let held = index[place];
            let node = held.min(count);
            let mut new = vec![EMPTY, count, count + 1, 0, count - 1, (node + 1) % count];
            new.extend([self.random.below(count as usize) as u32, EMPTY - 1]);
            new.sort_unstable();
            new.dedup();
            new.retain(|&value| value != held);
            for value in new {
                let mut altered = index.clone();
                altered[place] = value;
                self.ask(self.table, &altered, Some(width as u32));
            }
        }
    }

    /// One number everywhere: no place is empty, or all are.
    fn one_number(&mut self) {
        let limits = self.table.limits;
        let most = (1..=limits.qubits as usize).map(|width| self.table.count(width));
        let most = most.max().expect("a width") as u32;
        for size in sizes(limits.entries) {
            for number in (0..most + 2).chain([limits.entries, EMPTY - 1, EMPTY]) {
                let index = vec![number; limits.qubits as usize * size];
                self.ask(self.table, &index, None);
            }
        }
    }

    /// A node at the last place that its probe comes to, or at the one before it, and
    /// no place empty.
    fn last_places(&mut self) {
        let limits = self.table.limits;
        let size = sizes(limits.entries)[0];
        for width in 1..=limits.qubits as usize {
            let count = self.table.count(width);
            for node in 0..count {
                let print = self.table.fingerprints[(width - 1) * limits.entries as usize + node];
                for (number, step) in [
                    (EMPTY - 1, size - 1),
                    (count as u32, size - 1),
                    (((node + 1) % count) as u32, size - 1),
                    (EMPTY - 1, size - 2),
                ] {
                    let place = (print as usize + step) % size;
                    let mut index = vec![number; limits.qubits as usize * size];
                    index[(width - 1) * size + place] = node as u32;
                    self.ask(self.table, &index, Some(width as u32));
                }
            }
        }
    }

    /// Any content, of the table as it was built and of an altered one.
    fn any(&mut self) {
        let places_of_table = places(self.table);
        let count = self.table.count(1);
        for round in 0..ROUNDS {
            let mut table = self.table.clone();
            if round % 2 == 1 {
                let place = self.random.one_of(&places_of_table);
                let value = self.random.one_of(&values(&table, place, &[]));
                place.set(&mut table, value);
            }
            let size = self.random.one_of(&sizes(self.table.limits.entries)[..2]);
            let mut index = self.index(size);
            // So many of 16 places are altered.
            let altered = self.random.below(17);
            for place in &mut index {
                if self.random.below(16) < altered {
                    *place = match self.random.below(8) {
                        0 => EMPTY,
                        1 => EMPTY - 1 - self.random.below(3) as u32,
                        2 => (count + self.random.below(3)) as u32,
                        3 => self.random.below(1 << 32) as u32,
                        _ => self.random.below(count) as u32,
                    };
                }
            }
            self.ask(&table, &index, None);
        }
    }

    /// Each alteration of the table, asked through the index that was filled before
    /// it and through one that is filled after it.
    fn altered_tables(&mut self) {
        let size = sizes(self.table.limits.entries)[0];
        let before = self.index(size);
        let strangers: Vec<u64> = self
            .questions
            .iter()
            .filter_map(|asked| asked.value.as_ref().map(|(_, print)| *print))
            .filter(|print| !self.table.fingerprints.contains(print))
            .collect();
        for place in places(self.table) {
            for value in values(self.table, place, &strangers) {
                let mut table = self.table.clone();
                place.set(&mut table, value);
                self.ask(&table, &before, None);
                let mut after = used(before.len(), self.random);
                if self.tally.fill(&table, &mut after) {
                    self.same_as_scan(&table, &after);
                }
            }
        }
    }
}

/// Indexes that were filled from other tables with as many places.
fn of_other_tables(random: &mut Random, tally: &mut Tally) {
    const BASES: [u32; 6] = [9, 24, 383, 546, 1025, 3967];
    for qubits in 1..=5 {
        let build = |basis: u32, tally: &mut Tally| {
            let mut table = lent(limits_of([qubits, 3, 12, basis]));
            tally.build(&mut table, Mode::ByPrint, By::Scan, &mut []);
            table
        };
        let tables = BASES.map(|basis| build(basis, tally));
        for table in &tables {
            let questions = questions(table);
            tally.new_questions();
            for other in &tables {
                let mut asker = Asker {
                    table: other,
                    questions: &questions,
                    random,
                    tally,
                };
                let index = asker.index(sizes(12)[0]);
                asker.ask(table, &index, None);
            }
        }
    }
}

/// 1,000 nodes that all have one fingerprint, each T after node 0; but for node 0,
/// or not.
fn equal_fingerprints(random: &mut Random, tally: &mut Tally) {
    const NODES: usize = 1000;
    let (root, t) = (Matrix::identity(1), listed(1, &[T]));
    let (root_print, t_print) = (root.fingerprint(), t.fingerprint());
    let mut table = Table::with_places(limits_of([1, 8, NODES as u32, 32]), NODES);
    table.record[0] = NODES as u64;
    table.codes.fill(T);
    (table.parents[0], table.codes[0]) = (4294967295, 4294967295);
    // The fingerprint of node 0 and of the others; and what is asked.
    for (first, print, question) in [
        (root_print, root_print, &root),
        (t_print, t_print, &t),
        (root_print, t_print, &t),
    ] {
        table.fingerprints.fill(print);
        table.fingerprints[0] = first;
        // From a node on, the first whose list is what is asked answers.
        let answers = |node: usize| match (node == 0, print == root_print) {
            (true, true) => Finding::Node(0, 0),
            (false, true) => Finding::None,
            (_, false) => Finding::Node(node.max(1), 1),
        };
        let lowest = usize::from(first != print);
        let asked = asked(question, 3);
        tally.new_questions();
        for size in sizes(NODES as u32) {
            let mut index = used(size, random);
            tally.fill(&table, &mut index);
            let start = (print % size as u64) as usize;
            let along = |step: usize| (start + step) % size;
            // The nodes of one fingerprint stand in a row, rising; but node 0 may be
            // among the places where they would be.
            let row = (0..size).map(|step| index[along(step)] as usize);
            let row: Vec<usize> = row
                .filter(|&node| (lowest..NODES).contains(&node))
                .collect();
            if row != (lowest..NODES).collect::<Vec<usize>>() {
                tally.differs("equal fingerprints do not rise".to_owned());
            }
            tally.indexes += 1;
            for lookup in [through(&index), SCAN] {
                let (_, found) = tally.ask_by(&table, lookup, 0, &asked, MOST);
                if found != answers(lowest) {
                    tally.differs(format!("equal fingerprints: {found:?}"));
                }
            }
            // Without the first nodes the next one is looked up to.
            for next in [1, 2, 3, 500, 999] {
                for value in [NODES as u32, NODES as u32 + 1, EMPTY - 1] {
                    let replace = |&held: &u32| if held < next { value } else { held };
                    let altered: Vec<u32> = index.iter().map(replace).collect();
                    tally.indexes += 1;
                    let (_, found) = tally.ask_by(&table, through(&altered), 0, &asked, MOST);
                    if found != answers(next as usize) {
                        tally.differs(format!("equal fingerprints from {next}: {found:?}"));
                    }
                }
            }
        }
    }
}

/// Lengths about Q times a power of two, for a build, a fill, an answer and a find,
/// through the index and by the scan.
fn lengths(random: &mut Random, tally: &mut Tally) {
    for qubits in 1..=5 {
        for entries in [1, 2, 3, 4, 5, 7, 8, 9, 16, 17] {
            let limits = limits_of([qubits, 2, entries, 383]);
            let mut table = lent(limits);
            tally.build(&mut table, Mode::ByPrint, By::Scan, &mut []);
            let parts = qubits as usize;
            let mut all = vec![0, 1, 2 * entries as usize, parts * 2 * entries as usize];
            for power in 0..8 {
                let size = 1 << power;
                all.extend([parts * size, parts * size + 1, parts * size - 1]);
                all.extend([(parts + 1) * size, (parts - 1) * size]);
            }
            all.sort_unstable();
            all.dedup();
            let questions = [1, qubits].map(|width| asked(&Matrix::identity(width), 1));
            tally.new_questions();
            for places in all {
                for by in [By::Index, By::Scan] {
                    for mode in Mode::BOTH {
                        let mut index = used(places, random);
                        tally.build(&mut lent(limits), mode, by, &mut index);
                    }
                    let mut index = used(places, random);
                    tally.fill(&table, &mut index);
                    tally.indexes += 1;
                    for (number, asked) in questions.iter().enumerate() {
                        let lookup = Lookup { by, index: &index };
                        tally.ask_by(&table, lookup, number, asked, MOST);
                    }
                }
            }
        }
    }
}

/// The most entries: parts of 2^21 places, and lengths about it.
fn long(tally: &mut Tally) {
    let limits = limits_of([1, 1, 1_000_000, 8]);
    let size = 1 << 21;
    tally.new_questions();
    for places in [size, size - 1, size + 1, size / 2, 2 * size, 2_000_000] {
        let mut table = Table::with_places(limits, 1_000_000);
        for mode in Mode::BOTH {
            let mut index = vec![0; places];
            tally.build(&mut table, mode, By::Index, &mut index);
        }
        table.build();
        let mut index = vec![1; places];
        tally.fill(&table, &mut index);
        tally.indexes += 1;
        for list in [&[][..], &[12288], &[T]] {
            let question = asked(&listed(1, list), 2);
            tally.ask_by(&table, through(&index), list.len(), &question, MOST);
        }
    }
}
