//! Tables of the original, its answers to matrices, and its nodes, as lines; and those
//! of the second reading, where the original overflows in a build or cannot hold a
//! matrix. Where it does not, both must say the same. The refusals 1 to 5 of a build
//! are decided here, 6, 9, 10, 11 of a matrix and 16, 12 of a node by `rules`; the
//! original has 1, 2 and 3 alone.

use std::io::{self, Write};

use super::codes::{code_of, code_of_gate};
use super::exact::{LIMIT, ORIGINAL_LIMIT};
use super::lent::{Finding, Mode, Reply, SCAN, Table, through};
use super::lists::{apply, numbers};
use super::measure::Measure;
use super::rules::{self, Asked};
use super::walks::{self, Manner};
use crate::circuit::GateSet;
use crate::super_opt::MurmConfig;
use crate::super_opt::matrix::{matrix_of, unitary_fingerprint};
use crate::super_opt::murm::{LibraryGate, Murm, library_circuit_matrix};
use crate::super_opt::synthesis_arena::WidthTable;

/// How many places each array has in the port's test program.
pub(super) const PLACES: u64 = 100_000;

/// The parent and the code of the root.
const MARK: u32 = rules::MARK;

/// Q, G, E and B.
#[derive(Clone, Copy)]
pub(super) struct Limits {
    pub(super) qubits: u32,
    pub(super) gates: u32,
    pub(super) entries: u32,
    pub(super) basis: u32,
}

impl Limits {
    /// `Q G E B`, with its newline.
    pub(super) fn of_numbers(line: &str) -> Option<Self> {
        numbers(line)?.try_into().ok().map(Self::of)
    }

    pub(super) fn of([qubits, gates, entries, basis]: [u32; 4]) -> Self {
        Self {
            qubits,
            gates,
            entries,
            basis,
        }
    }

    pub(super) fn line(&self) -> String {
        format!("table {}", self.numbers())
    }

    /// `Q G E B`.
    pub(super) fn numbers(&self) -> String {
        let Self {
            qubits,
            gates,
            entries,
            basis,
        } = self;
        format!("{qubits} {gates} {entries} {basis}")
    }

    /// The first of the refusals 1 to 5, where the arrays have so many places.
    pub(super) fn refusal(&self, places: u64) -> Option<u32> {
        let wanted = u64::from(self.qubits) * u64::from(self.entries);
        let rows = [
            (1, !(1..=5).contains(&self.qubits)),
            (2, self.entries == 0),
            (3, self.basis == 0 || self.basis & !3967 != 0),
            (4, self.gates > 64 || self.entries > 1_000_000),
            (5, wanted > places),
        ];
        rows.iter().find(|(_, holds)| *holds).map(|(row, _)| *row)
    }

    /// The original's table. The limits are not refused.
    pub(super) fn build(&self) -> Murm {
        let config = MurmConfig {
            max_qubits: self.qubits as usize,
            max_gates: self.gates as usize,
            max_entries_per_qubit: self.entries as usize,
            basis: GateSet::from_bits_const(self.basis),
        };
        Murm::build(config).expect("the limits are not refused")
    }
}

/// Tables of up to so many places and qubits are built by the second reading too
/// where the original meets no overflow. It keeps every matrix, and is slow.
const SMALL_PLACES: u64 = 400;
const SMALL_QUBITS: u32 = 3;

/// A table at hand: the original's, and the one that the port must come to.
pub(super) struct Built {
    pub(super) limits: Limits,
    pub(super) measure: Measure,
    pub(super) table: Table,
    original: Murm,
}

impl Built {
    /// The limits are not refused. Within the original's limit of coefficients the
    /// second reading must come to the original's table.
    pub(super) fn of(limits: Limits, mode: Mode) -> Self {
        let original = limits.build();
        let mut table = laid_out(&original, limits);
        let overflows = overflows(&original, &table);
        let places = u64::from(limits.qubits) * u64::from(limits.entries);
        let small = places <= SMALL_PLACES && limits.qubits <= SMALL_QUBITS;
        if overflows || small {
            let second = second(limits, mode, ORIGINAL_LIMIT);
            assert!(table.same_nodes(&second), "two readings");
        }
        let mut measure = Measure::Original;
        if overflows {
            measure = Measure::Second;
            table = second(limits, mode, LIMIT);
        }
        Self {
            limits,
            measure,
            table,
            original,
        }
    }

    /// The original's nodes of a width, where the table is the original's. Other
    /// widths than 1 to Q have none (SPECIFICATION 7.3).
    fn original_nodes(&self, width: u32) -> Option<&WidthTable> {
        let has = (1..=self.limits.qubits).contains(&width);
        (has && self.measure == Measure::Original).then(|| self.original.width(width as usize).0)
    }
}

/// The original's table in arrays of Q times E places.
fn laid_out(original: &Murm, limits: Limits) -> Table {
    let entries = limits.entries as usize;
    let mut table = Table::with_places(limits, limits.qubits as usize * entries);
    for row in 0..limits.qubits as usize {
        let (nodes, depth, saturated) = original.width(row + 1);
        let numbers = [nodes.len() as u64, depth as u64, u64::from(saturated)];
        table.record[3 * row..][..3].copy_from_slice(&numbers);
        for (node, (print, parent, code)) in nodes_of(nodes).into_iter().enumerate() {
            let place = row * entries + node;
            table.fingerprints[place] = print;
            table.parents[place] = parent;
            table.codes[place] = code;
        }
    }
    table
}

/// The table of the second reading within a limit of coefficients.
fn second(limits: Limits, mode: Mode, limit: i64) -> Table {
    let qubits = limits.qubits as usize;
    let lent = Table::with_places(limits, qubits * limits.entries as usize);
    let index = vec![0; qubits * (2 * limits.entries as usize).next_power_of_two()];
    let built = walks::build(&lent, Manner::within(mode, limit), through(&index));
    built.expect("the limits are not refused").0
}

/// Whether a candidate of the original's build overflows, which it does not tell. Only
/// an H can; and in each row of a list with so many H the squares of the coefficients
/// add up to 2 to that power at most, so that up to 13 of them fit: 2^13 < 127^2. A
/// candidate counts also where the build would have skipped it, or was full before it.
fn overflows(original: &Murm, table: &Table) -> bool {
    let limits = table.limits;
    let h = |code: u32| code / 4096 == 0;
    (1..=limits.qubits as usize).any(|width| {
        let start = (width - 1) * limits.entries as usize;
        let nodes = original.width(width).0;
        // Of each node how many gates it has, and how many H.
        let mut lengths = vec![(0, 0)];
        for node in 1..nodes.len() {
            let (gates, hs) = lengths[table.parents[start + node] as usize];
            let last = usize::from(h(table.codes[start + node]));
            lengths.push((gates + 1, hs + last));
        }
        (0..nodes.len()).any(|node| {
            let (gates, hs) = lengths[node];
            if hs < 13 || gates == limits.gates as usize {
                return false;
            }
            let matrix = library_circuit_matrix(width, &nodes.circuit(node));
            let matrix = matrix.expect("the width is small").expect("a node fits");
            (0..width).any(|qubit| !apply(&mut matrix.clone(), LibraryGate::H(qubit as u8)))
        })
    })
}

/// A line for each width, and one for each of its nodes: the first word, which
/// is made of the node and its fingerprint, then parent and code.
pub(super) fn write_table(
    table: &Table,
    first: fn(usize, u64) -> String,
    out: &mut dyn Write,
) -> io::Result<()> {
    for width in 1..=table.limits.qubits as usize {
        let row = &table.record[3 * (width - 1)..][..3];
        writeln!(out, "table {width} {} {} {}", row[0], row[1], row[2])?;
        let start = (width - 1) * table.limits.entries as usize;
        for node in 0..table.count(width) {
            let place = start + node;
            let first = first(node, table.fingerprints[place]);
            let (parent, code) = (table.parents[place], table.codes[place]);
            writeln!(out, "{first} {parent} {code}")?;
        }
    }
    Ok(())
}

/// Fingerprint, parent and code of each node. The fingerprints are private, and
/// are read from what the original writes to a file: eight bytes for the count,
/// then sixteen for each node, the fingerprint first.
pub(super) fn nodes_of(table: &WidthTable) -> Vec<(u64, u32, u32)> {
    let mut bytes = Vec::new();
    table.write_to(&mut bytes).expect("memory can be written");
    let written = bytes[8..].chunks_exact(16);
    assert_eq!(written.len(), table.nodes.len(), "a record for each node");
    written
        .zip(&table.nodes)
        .map(|(bytes, node)| {
            let fingerprint = u64::from_le_bytes(bytes[..8].try_into().expect("eight bytes"));
            let parent = node.parent.map_or(MARK, |parent| parent as u32);
            (fingerprint, parent, node.gate.map_or(MARK, code_of))
        })
        .collect()
}

/// A matrix that a table is asked.
#[derive(Clone)]
pub(super) struct Question {
    pub(super) width: u32,
    pub(super) exponent: u16,
    pub(super) coefficients: Vec<i16>,
}

impl Question {
    pub(super) fn line(&self) -> String {
        let mut line = format!("matrix {} {}", self.width, self.exponent);
        for coefficient in &self.coefficients {
            line.push(' ');
            line.push_str(&coefficient.to_string());
        }
        line
    }

    /// The answer, with the fingerprint of the matrix.
    pub(super) fn answer(&self, built: &Built) -> (Measure, String) {
        let (measure, verdict) = self.judged(built);
        let told = match verdict {
            Verdict::Refused(row) => format!("refused {row} 0"),
            Verdict::None(print) => format!("{print:016x} none"),
            Verdict::List { print, codes, .. } => format!("{print:016x} {}", counted(&codes)),
        };
        (measure, told)
    }

    /// The node that answers, and how many gates its list has (SPECIFICATION 7.10).
    pub(super) fn found(&self, built: &Built) -> (Measure, String) {
        let (measure, verdict) = self.judged(built);
        let told = match verdict {
            Verdict::Refused(row) => format!("refused {row} 0"),
            Verdict::None(_) => "none".to_owned(),
            Verdict::List { node, codes, .. } => format!("{node} {}", codes.len()),
        };
        (measure, told)
    }

    /// What a table says by the second reading. Where the table is the original's and
    /// the original can hold the matrix, it must say the same, and it is the measure.
    pub(super) fn judged(&self, built: &Built) -> (Measure, Verdict) {
        let asked = Asked::new(self.width, self.exponent, self.coefficients.clone());
        if let Some(row) = rules::query_refused(&asked) {
            return (Measure::Check, Verdict::Refused(row));
        }
        let (_, print) = asked.value.as_ref().expect("a matrix that is not refused");
        let print = *print;
        let second = match rules::find(&built.table, SCAN, &asked) {
            Finding::Node(node, _) => {
                let codes = rules::written(&built.table, self.width, node);
                let codes = codes.expect("a table as it was built");
                Verdict::List { print, node, codes }
            }
            Finding::None => Verdict::None(print),
            Finding::Refused(row) => panic!("a find is refused by {row}"),
        };
        let held = |&one: &i16| i64::from(one).abs() <= ORIGINAL_LIMIT;
        if built.measure != Measure::Original || !self.coefficients.iter().all(held) {
            return (Measure::Second, second);
        }
        assert_eq!(self.original(built), second, "two readings");
        (Measure::Original, second)
    }

    /// The original's answer to a matrix that is not refused, and that it can hold. It
    /// tells its list alone: the node is the lowest with the fingerprint of the
    /// matrix, and must have this list.
    fn original(&self, built: &Built) -> Verdict {
        let narrow = |&one: &i16| one as i8;
        let coefficients: Vec<i8> = self.coefficients.iter().map(narrow).collect();
        let matrix = matrix_of(self.width as usize, self.exponent, &coefficients);
        let print = unitary_fingerprint(&matrix).to_bits();
        let Some(gates) = built.original.synthesize(&matrix) else {
            return Verdict::None(print);
        };
        let codes: Vec<u32> = gates.iter().map(code_of_gate).collect();
        let nodes = built
            .original_nodes(self.width)
            .expect("a width with a list");
        let prints = rules::prints_of(&built.table, self.width);
        let node = prints.iter().position(|&other| other == print);
        let node = node.expect("a list has a node");
        assert_eq!(codes, node_codes(nodes, node), "the list of the node");
        Verdict::List { print, node, codes }
    }
}

/// What a table says of a matrix.
#[derive(Debug, PartialEq)]
pub(super) enum Verdict {
    Refused(u64),
    /// The fingerprint of the matrix.
    None(u64),
    /// The same, the node that answers and its list.
    List {
        print: u64,
        node: usize,
        codes: Vec<u32>,
    },
}

/// The codes of a node's list, oldest first, by the original.
fn node_codes(nodes: &WidthTable, node: usize) -> Vec<u32> {
    nodes.circuit(node).into_iter().map(code_of).collect()
}

/// `COUNT CODES..`.
pub(super) fn counted(codes: &[u32]) -> String {
    let mut line = codes.len().to_string();
    for code in codes {
        line.push(' ');
        line.push_str(&code.to_string());
    }
    line
}

/// The most places of a lent list in the port's test program.
const MOST_PLACES: u32 = 64;

/// A node whose list a table is asked for, and how many places are lent.
pub(super) struct Wanted {
    pub(super) width: u32,
    pub(super) node: u32,
    pub(super) places: u32,
}

impl Wanted {
    /// `WIDTH NODE PLACES`, with its newline.
    pub(super) fn of_numbers(line: &str) -> Option<Self> {
        let [width, node, places] = numbers(line)?.try_into().ok()?;
        (places <= MOST_PLACES).then_some(Self {
            width,
            node,
            places,
        })
    }

    pub(super) fn line(&self) -> String {
        format!("write {} {} {}", self.width, self.node, self.places)
    }

    /// The node's list, after the refusals 16 and 12 (SPECIFICATION 7.11): by the
    /// original, where the table is its own.
    pub(super) fn answer(&self, built: &Built) -> (Measure, String) {
        let node = self.node as usize;
        let codes = match rules::write(&built.table, self.width, node, self.places as usize) {
            Reply::List(codes) => codes,
            Reply::None => panic!("a write says none"),
            Reply::Refused(row) => return (Measure::Check, format!("refused {row} 0")),
        };
        if let Some(nodes) = built.original_nodes(self.width) {
            assert_eq!(codes, node_codes(nodes, node), "two readings");
        }
        (built.measure, counted(&codes))
    }
}
