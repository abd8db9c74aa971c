//! Part of the mode `bench`: tables and their answers. Both sides build the
//! widths 1 to Q with the same limits; the port in arrays that were there
//! before, the original in memory that it takes and gives back.

use std::hint::black_box;
use std::io::{self, Write};

use super::bench::race;
use super::indexes::sizes;
use super::lent::{By, Lookup, Mode, Reply, Table};
use super::lists::Parts;
use super::random::Random;
use super::tables::{Limits, nodes_of};
use crate::circuit::GateSet;
use crate::super_opt::matrix::UnitaryMatrix;
use crate::super_opt::murm::{Murm, library_circuit_matrix, library_gates};

/// Limits of tables that are full: E is reached at every width but 1, which has
/// 536 entries up to this gate limit. The original tries all generators on up to
/// 65,536 / generators nodes before it looks whether the table is full, so it
/// does more work here than the port.
pub(super) const GATES: u32 = 8;
const ENTRIES: u32 = 2048;

/// Limits of tables that are not saturated, where both do the same work: the
/// gate limit by Q.
pub(super) const WHOLE_GATES: [u32; 5] = [8, 4, 3, 2, 2];
pub(super) const WHOLE_ENTRIES: u32 = 12000;

/// The basis whose table is asked; the other is the original's default.
const BASIS: u32 = 3967;
pub(super) const BASES: [u32; 2] = [383, BASIS];

/// How many matrices are asked at a width, and of how many gates those are that
/// the table does not have.
const QUESTIONS: usize = 256;
const LENGTH: usize = 20;

/// One matrix on both sides.
struct Question {
    matrix: UnitaryMatrix,
    exponent: u16,
    coefficients: Vec<i16>,
}

/// One line: how many of something each does in a second.
pub(super) fn write_rates(
    out: &mut dyn Write,
    width: usize,
    work: &str,
    count: usize,
    times: (f64, f64),
) -> io::Result<()> {
    let (original, port) = (count as f64 / times.0, count as f64 / times.1);
    let ratio = port / original;
    writeln!(out, "{width} {work} {original:.0} {port:.0} {ratio:.2}")?;
    out.flush()
}

/// Writes two lines for each Q and basis, and two for the answers of each width.
pub(super) fn run(out: &mut dyn Write) -> io::Result<()> {
    let mut write = |width: usize, work: &str, count: usize, times: (f64, f64)| {
        write_rates(out, width, work, count, times)
    };
    for basis in BASES {
        for qubits in 1..=5 {
            let full = limits(qubits, GATES, ENTRIES, basis);
            let (count, times) = time_build(full, By::Scan);
            write(qubits as usize, &format!("full-{basis}"), count, times)?;
            let gates = WHOLE_GATES[qubits as usize - 1];
            let whole = limits(qubits, gates, WHOLE_ENTRIES, basis);
            let (count, times) = time_build(whole, By::Scan);
            write(qubits as usize, &format!("whole-{basis}"), count, times)?;
        }
    }
    time_asked(By::Scan, ["answers", "misses"], out)
}

/// Answers and misses at every width, under these names.
pub(super) fn time_asked(by: By, names: [&str; 2], out: &mut dyn Write) -> io::Result<()> {
    let limits = limits(5, GATES, ENTRIES, BASIS);
    let original = limits.build();
    let (table, index) = built(limits, Mode::ByPrint, by);
    let lookup = Lookup { by, index: &index };
    for width in 1..=5 {
        let nodes = nodes(&original, width);
        let times = time_answers(&table, lookup, &original, width, &nodes, true);
        write_rates(out, width, names[0], QUESTIONS, times)?;
        let others = others(&original, width);
        let times = time_answers(&table, lookup, &original, width, &others, false);
        write_rates(out, width, names[1], QUESTIONS, times)?;
    }
    Ok(())
}

pub(super) fn limits(qubits: u32, gates: u32, entries: u32, basis: u32) -> Limits {
    Limits {
        qubits,
        gates,
        entries,
        basis,
    }
}

/// The port's table, and the index that it was built through; the scan has none.
pub(super) fn built(limits: Limits, mode: Mode, by: By) -> (Table, Vec<u32>) {
    let qubits = limits.qubits as usize;
    let mut table = Table::with_places(limits, qubits * limits.entries as usize);
    let places = match by {
        By::Scan => 0,
        By::Index => qubits * sizes(limits.entries)[0],
    };
    let mut index = vec![0; places];
    let refusal = table.build_by(mode, by, &mut index);
    assert_eq!(refusal, 0, "the limits are not refused");
    (table, index)
}

/// How many entries the table has, and the least times of one build by the
/// original and by the port, which must come to the same nodes.
pub(super) fn time_build(limits: Limits, by: By) -> (usize, (f64, f64)) {
    let (mut table, mut index) = built(limits, Mode::ByPrint, by);
    let original = limits.build();
    let mut count = 0;
    for width in 1..=limits.qubits as usize {
        let (nodes, depth, saturated) = original.width(width);
        let row = [nodes.len() as u64, depth as u64, u64::from(saturated)];
        assert_eq!(table.record[3 * (width - 1)..3 * width], row, "record");
        for (node, told) in nodes_of(nodes).into_iter().enumerate() {
            let place = (width - 1) * limits.entries as usize + node;
            let held = (
                table.fingerprints[place],
                table.parents[place],
                table.codes[place],
            );
            assert_eq!(held, told, "node");
        }
        count += nodes.len();
    }
    drop(original);
    let times = race(
        || {
            black_box(black_box(limits).build());
        },
        || {
            black_box(table.build_by(Mode::ByPrint, by, &mut index));
        },
    );
    (count, times)
}

fn question(matrix: UnitaryMatrix) -> Question {
    let parts = Parts::of(&matrix);
    Question {
        matrix,
        exponent: parts.exponent,
        coefficients: parts.coefficients,
    }
}

/// Matrices of the table's nodes.
fn nodes(table: &Murm, width: usize) -> Vec<Question> {
    let mut random = Random::new(2000 + width as u64);
    let nodes = table.width(width).0;
    let one = |_| {
        let circuit = nodes.circuit(random.below(nodes.len()));
        let matrix = library_circuit_matrix(width, &circuit).expect("the width is small");
        question(matrix.expect("a node fits"))
    };
    (0..QUESTIONS).map(one).collect()
}

/// Products of random lists that the table does not answer.
fn others(table: &Murm, width: usize) -> Vec<Question> {
    let mut random = Random::new(3000 + width as u64);
    let generators = library_gates(width, GateSet::from_bits_const(BASIS));
    let mut questions = Vec::new();
    while questions.len() < QUESTIONS {
        let gates: Vec<_> = (0..LENGTH).map(|_| random.one_of(&generators)).collect();
        if let Ok(Some(matrix)) = library_circuit_matrix(width, &gates)
            && table.synthesize(&matrix).is_none()
        {
            questions.push(question(matrix));
        }
    }
    questions
}

/// The least times of one pass over the questions. Both must answer all of them
/// or none.
fn time_answers(
    table: &Table,
    lookup: Lookup,
    original: &Murm,
    width: usize,
    questions: &[Question],
    answered: bool,
) -> (f64, f64) {
    let mut out = [0; GATES as usize];
    for question in questions {
        let (exponent, coefficients) = (question.exponent, &question.coefficients);
        let reply = table.ask_by(lookup, width as u32, exponent, coefficients, &mut out);
        let told = original.synthesize(&question.matrix);
        assert_eq!(told.is_some(), answered, "the original's answer");
        assert_eq!(reply == Reply::None, !answered, "the port's answer");
        if let Reply::List(codes) = reply {
            assert_eq!(told.map(|list| list.len()), Some(codes.len()), "gates");
        }
    }
    race(
        || {
            for question in questions {
                black_box(original.synthesize(black_box(&question.matrix)));
            }
        },
        || {
            for question in questions {
                let coefficients = black_box(&question.coefficients);
                let (width, exponent) = (width as u32, question.exponent);
                // By the scan the crate in rust/ is asked, as any caller asks it.
                match lookup.by {
                    By::Scan => {
                        let _ =
                            black_box(table.synthesize(width, exponent, coefficients, &mut out));
                    }
                    By::Index => {
                        let told =
                            table.synthesize_by(lookup, width, exponent, coefficients, &mut out);
                        black_box(told);
                    }
                }
            }
        },
    )
}
