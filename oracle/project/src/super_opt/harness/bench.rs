//! Mode `bench`: port and original on the same work in one process, in turns.
//! `bench` times lists, fingerprints, tables and answers; `bench kinds` also
//! lists of one kind of gate; `bench tables` tables and answers only; `bench index`
//! large tables and answers through an index; `bench modes` builds of the port alone,
//! in each mode.

use std::hint::black_box;
use std::io::{self, Write};
use std::time::{Duration, Instant};

use super::bench_index;
use super::bench_modes;
use super::bench_tables;
use super::codes::{FURTHER, code_of, kinds, list_codes_of, list_gate, valid_gate};
use super::lists::Parts;
use super::port;
use super::random::Random;
use crate::circuit::{Gate, GateSet, Qubit};
use crate::super_opt::SUPPORTED_GATE_SET;
use crate::super_opt::matrix::{UnitaryMatrix, unitary_fingerprint};
use crate::super_opt::murm::{LibraryGate, library_circuit_matrix, library_gates};

/// How many lists are timed at a width, and of how many gates.
const LISTS: usize = 256;
const GATES: usize = 20;

/// The least time of so many rounds counts. A round takes about so long: short
/// enough that some are not interrupted on a machine that others use too. Work
/// that takes longer has fewer rounds, by the whole time that they may take.
const ROUNDS: usize = 200;
const FEWEST: usize = 7;
const ROUND: Duration = Duration::from_micros(500);
const WHOLE: Duration = Duration::from_secs(5);

/// One list on both sides, with the matrix that it gives.
struct Case<G> {
    gates: Vec<G>,
    codes: Vec<u32>,
    matrix: UnitaryMatrix,
    exponent: u16,
    coefficients: Vec<i16>,
}

pub(super) fn run(arguments: &[String], out: &mut dyn Write) -> io::Result<()> {
    let words: Vec<&str> = arguments.iter().map(String::as_str).collect();
    if words == ["modes"] {
        return bench_modes::run(out);
    }
    writeln!(out, "width work original port ratio")?;
    match words[..] {
        [] => time_all(false, out)?,
        ["kinds"] => time_all(true, out)?,
        ["tables"] => {}
        ["index"] => return bench_index::run(out),
        _ => {
            let usage = "usage: oracle bench [kinds|tables|index|modes]";
            return Err(io::Error::other(usage));
        }
    }
    bench_tables::run(out)
}

/// Lists and fingerprints at every width.
fn time_all(by_kind: bool, out: &mut dyn Write) -> io::Result<()> {
    for width in 1..=5 {
        let mut write = |work: &str, count: usize, times: (f64, f64)| {
            let rate = |time: f64| count as f64 / time;
            let (original, port) = (rate(times.0), rate(times.1));
            let ratio = port / original;
            writeln!(out, "{width} {work} {original:.0} {port:.0} {ratio:.2}")
        };
        let cases = cases(width, SUPPORTED_GATE_SET);
        let times = time_lists(width, &cases, library_matrix);
        write("gates", LISTS * GATES, times)?;
        write(
            "fingerprints",
            LISTS,
            time_fingerprints(width, &cases, port::fingerprint),
        )?;
        write(
            "queries",
            LISTS,
            time_fingerprints(width, &cases, port::query),
        )?;
        for kind in kinds().filter(|_| by_kind) {
            let set = GateSet::from_bits_const(1 << kind as u32);
            if !library_gates(width, set).is_empty() {
                let times = time_lists(width, &self::cases(width, set), library_matrix);
                write(kind.name(), LISTS * GATES, times)?;
            }
        }
        for kind in FURTHER.into_iter().filter(|_| by_kind) {
            let codes = list_codes_of(kind, width);
            if !codes.is_empty() {
                let cases = cases_of(width, &codes, list_gate, gate_matrix);
                let times = time_lists(width, &cases, gate_matrix);
                write(kind.name(), LISTS * GATES, times)?;
            }
        }
        out.flush()?;
    }
    Ok(())
}

/// Random lists of a basis that fit, on which both say the same.
fn cases(width: usize, basis: GateSet) -> Vec<Case<LibraryGate>> {
    let generators = library_gates(width, basis).into_iter().map(code_of);
    let generators: Vec<u32> = generators.collect();
    cases_of(width, &generators, valid_gate, library_matrix)
}

/// The same of these codes.
fn cases_of<G>(
    width: usize,
    generators: &[u32],
    gate: fn(u32, usize) -> Option<G>,
    matrix: fn(usize, &[G]) -> Option<UnitaryMatrix>,
) -> Vec<Case<G>> {
    let mut random = Random::new(1000 + width as u64);
    let mut cases = Vec::new();
    while cases.len() < LISTS {
        let codes: Vec<u32> = (0..GATES).map(|_| random.one_of(generators)).collect();
        let gate = |&code: &u32| gate(code, width).expect("a valid code");
        let gates: Vec<G> = codes.iter().map(gate).collect();
        if let Some(matrix) = matrix(width, &gates) {
            let parts = Parts::of(&matrix);
            let case = Case {
                gates,
                codes,
                matrix,
                exponent: parts.exponent,
                coefficients: parts.coefficients,
            };
            check(width, &case);
            cases.push(case);
        }
    }
    cases
}

/// The original's matrix of a list of library gates.
fn library_matrix(width: usize, gates: &[LibraryGate]) -> Option<UnitaryMatrix> {
    library_circuit_matrix(width, gates).expect("the width is small")
}

/// The same of any gates, with the original's steps in a loop like that of
/// `library_circuit_matrix`.
fn gate_matrix(width: usize, gates: &[Gate]) -> Option<UnitaryMatrix> {
    let support: Vec<Qubit> = (0..width as Qubit).collect();
    let mut matrix = UnitaryMatrix::identity(width).expect("the width is small");
    for gate in gates {
        matrix.apply_gate_left(gate, &support).ok()?;
    }
    Some(matrix)
}

/// The port must say the same as the original, or its time means nothing.
fn check<G>(width: usize, case: &Case<G>) {
    let mut out = vec![0; case.coefficients.len()];
    let exponent = port::list(width, &case.codes, &mut out);
    assert_eq!(exponent, Some(case.exponent), "exponent");
    assert_eq!(out, case.coefficients, "coefficients");
    let fingerprint = unitary_fingerprint(&case.matrix).to_bits();
    for ask in [port::fingerprint, port::query] {
        let told = ask(width, case.exponent, &case.coefficients);
        assert_eq!(told, fingerprint, "fingerprint");
    }
}

/// The least times of one pass over the work, by the original and by the port.
pub(super) fn race(mut original: impl FnMut(), mut port: impl FnMut()) -> (f64, f64) {
    let start = Instant::now();
    let clock = || start.elapsed().as_secs_f64();
    let times = turns(&mut [&mut original, &mut port], clock);
    (times[0], times[1])
}

/// The least times of one pass over each work, one after the other in each round, by a
/// clock that tells seconds.
pub(super) fn turns(works: &mut [&mut dyn FnMut()], clock: impl Fn() -> f64) -> Vec<f64> {
    let pass = |work: &mut dyn FnMut(), times: usize| {
        let start = clock();
        for _ in 0..times {
            work();
        }
        (clock() - start) / times as f64
    };
    let once: Vec<f64> = works.iter_mut().map(|work| pass(work, 1)).collect();
    let times = |once: &f64| (ROUND.as_secs_f64() / once.max(1e-7)) as usize + 1;
    let times: Vec<usize> = once.iter().map(times).collect();
    let rounds = (WHOLE.as_secs_f64() / once.iter().sum::<f64>()) as usize;
    let mut least = vec![f64::INFINITY; works.len()];
    for _ in 0..rounds.clamp(FEWEST, ROUNDS) {
        for (place, work) in works.iter_mut().enumerate() {
            least[place] = least[place].min(pass(work, times[place]));
        }
    }
    least
}

fn time_lists<G>(
    width: usize,
    cases: &[Case<G>],
    matrix: impl Fn(usize, &[G]) -> Option<UnitaryMatrix>,
) -> (f64, f64) {
    let mut out = vec![0; 4 << (2 * width)];
    race(
        || {
            for case in cases {
                let _ = black_box(matrix(width, black_box(&case.gates)));
            }
        },
        || {
            for case in cases {
                black_box(port::list(width, black_box(&case.codes), &mut out));
            }
        },
    )
}

fn time_fingerprints<G>(
    width: usize,
    cases: &[Case<G>],
    port: fn(usize, u16, &[i16]) -> u64,
) -> (f64, f64) {
    race(
        || {
            for case in cases {
                black_box(unitary_fingerprint(black_box(&case.matrix)));
            }
        },
        || {
            for case in cases {
                let coefficients = black_box(&case.coefficients);
                black_box(port(width, case.exponent, coefficients));
            }
        },
    )
}
