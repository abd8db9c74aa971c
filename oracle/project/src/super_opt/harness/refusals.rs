//! Mode `refusals`: counts how the lists that standard input names end. A list
//! that is refused by 8 is counted by the part of its gate that does not fit; and so
//! is a list at which the original overflows, as the original itself shows it.

use std::io::{self, Read, Write};

use super::codes::list_gate;
use super::exact::{LIMIT, Matrix, ORIGINAL_LIMIT, most};
use super::lists::{List, Parts, apply_gate, product};
use super::measure::Measure;
use crate::circuit::{Gate, GateKind as Kind};
use crate::super_opt::matrix::{UnitaryMatrix, matrix_of};

/// What of a gate does not fit.
#[derive(Clone, Copy, Debug, PartialEq)]
pub(super) enum Cause {
    H,
    SxFirst,
    SxSecond,
    ChActive,
    ChInactive,
    ChBoth,
}

const CAUSES: [(Cause, &str); 6] = [
    (Cause::H, "H"),
    (Cause::SxFirst, "Sx, its first H"),
    (Cause::SxSecond, "Sx, its second H"),
    (Cause::ChActive, "Ch, active rows alone"),
    (Cause::ChInactive, "Ch, inactive rows alone"),
    (Cause::ChBoth, "Ch, active and inactive rows"),
];

pub(super) fn run(_: &[String], out: &mut dyn Write) -> io::Result<()> {
    let mut input = Vec::new();
    io::stdin().lock().read_to_end(&mut input)?;
    let (mut matrices, mut beyond) = (0, 0);
    let mut refused = [0; 15];
    let (mut causes, mut overflows) = ([0; CAUSES.len()], [0; CAUSES.len()]);
    for line in input.split_inclusive(|&byte| byte == b'\n') {
        let Some(list) = List::parse(str::from_utf8(line).unwrap_or_default()) else {
            refused[14] += 1;
            continue;
        };
        let (measure, matrix) = list.judged();
        if measure == Measure::Second {
            overflows[place_of(&list, ORIGINAL_LIMIT)] += 1;
            beyond += usize::from(matrix.is_ok());
        }
        match matrix {
            Ok(_) => matrices += 1,
            Err(refusal) => {
                let row = row_of(&refusal);
                refused[row] += 1;
                if row == 8 {
                    causes[place_of(&list, LIMIT)] += 1;
                }
            }
        }
    }
    writeln!(
        out,
        "matrices: {matrices}, of them where the original overflows: {beyond}"
    )?;
    for row in [6, 7, 14, 8] {
        writeln!(out, "refused by {row}: {}", refused[row])?;
    }
    for ((_, name), count) in CAUSES.iter().zip(causes) {
        writeln!(out, "refused by 8 at {name}: {count}")?;
    }
    for ((_, name), count) in CAUSES.iter().zip(overflows) {
        writeln!(out, "overflows of the original at {name}: {count}")?;
    }
    Ok(())
}

/// The number N of `refused N P`.
fn row_of(refusal: &str) -> usize {
    let row = refusal.split(' ').nth(1).expect("a refusal");
    row.parse().expect("a number")
}

/// The place of the cause in the order of `CAUSES`.
fn place_of(list: &List, limit: i64) -> usize {
    let cause = cause(list, limit).expect("some gate");
    let place = CAUSES.iter().position(|(other, _)| *other == cause);
    place.expect("a cause")
}

/// What does not fit of the gate that a list of valid codes is refused at, where it is
/// refused by 8 within a limit. Within its own limit the original must show the same.
pub(super) fn cause(list: &List, limit: i64) -> Option<Cause> {
    let refused = Matrix::of_list(list.width, &list.codes, limit).err();
    let cause = refused.map(|(position, before)| cause_at(&before, list.codes[position], limit));
    if limit == ORIGINAL_LIMIT {
        assert_eq!(original_cause(list), cause, "two readings");
    }
    cause
}

/// The same for a gate that does not fit after this matrix.
fn cause_at(matrix: &Matrix, code: u32, limit: i64) -> Cause {
    match code / 4096 {
        kind if kind == Kind::H as u32 => Cause::H,
        kind if kind == Kind::Sx as u32 => {
            let first = code % 4096;
            match matrix.clone().step(first, limit) {
                false => Cause::SxFirst,
                true => Cause::SxSecond,
            }
        }
        kind if kind == Kind::Ch as u32 => {
            let (active, inactive) = parted(&matrix.raw(code), code);
            match (most(&active) > limit, most(&inactive) > limit) {
                (true, true) => Cause::ChBoth,
                (true, false) => Cause::ChActive,
                (false, true) => Cause::ChInactive,
                (false, false) => panic!("a Ch fits that does not"),
            }
        }
        kind => panic!("a gate of the kind {kind} fits"),
    }
}

/// The entries of the active and of the inactive rows of a Ch.
pub(super) fn parted(raw: &Matrix, code: u32) -> (Vec<[i64; 4]>, Vec<[i64; 4]>) {
    let control = 1 << (raw.width - 1 - code / 256 % 16);
    let active = |&place: &usize| (place >> raw.width) & control != 0;
    let (active, inactive): (Vec<usize>, Vec<usize>) = (0..raw.entries.len()).partition(active);
    let entries = |places: Vec<usize>| places.into_iter().map(|place| raw.entries[place]);
    (entries(active).collect(), entries(inactive).collect())
}

/// The cause as the original shows it.
fn original_cause(list: &List) -> Option<Cause> {
    let width = list.width as usize;
    let gate = |&code: &u32| list_gate(code, width);
    let gates = list.codes.iter().map(gate).collect::<Option<Vec<_>>>()?;
    let (position, before) = product(width, &gates).err()?;
    Some(original_cause_at(&before, &gates[position]))
}

/// An Sx is asked as its first H alone, a Ch with the other rows set to 0.
fn original_cause_at(matrix: &UnitaryMatrix, gate: &Gate) -> Cause {
    match *gate {
        Gate::h(_) => Cause::H,
        Gate::sx(qubit) => match apply_gate(&mut matrix.clone(), &Gate::h(qubit)) {
            false => Cause::SxFirst,
            true => Cause::SxSecond,
        },
        Gate::ch { control, .. } => {
            let active = !apply_gate(&mut part(matrix, control, true), gate);
            let inactive = !apply_gate(&mut part(matrix, control, false), gate);
            match (active, inactive) {
                (true, true) => Cause::ChBoth,
                (true, false) => Cause::ChActive,
                (false, true) => Cause::ChInactive,
                (false, false) => panic!("a Ch fits that does not"),
            }
        }
        _ => panic!("a gate of the kind {} fits", gate.kind().name()),
    }
}

/// The matrix with its rows kept whose bit of the qubit is 1, or those where it
/// is 0, and the others set to 0.
fn part(matrix: &UnitaryMatrix, qubit: u32, ones: bool) -> UnitaryMatrix {
    let width = matrix.num_qubits();
    let Parts {
        exponent,
        coefficients,
    } = Parts::of(matrix);
    let bit = 1 << (width - 1 - qubit as usize);
    let row = |place: usize| place / (4 << width);
    let kept = |(place, one): (usize, &i16)| match (row(place) & bit != 0) == ones {
        true => *one as i8,
        false => 0,
    };
    let coefficients: Vec<i8> = coefficients.iter().enumerate().map(kept).collect();
    matrix_of(width, exponent, &coefficients)
}
