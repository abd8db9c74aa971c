//! Mode `list`: the matrix and the fingerprint of each list that standard
//! input names, by the original, or by the second reading where that overflows.

use std::io::{self, Read, Write};
use std::panic::{AssertUnwindSafe, catch_unwind};

use super::codes::{list_gate, valid_gate};
use super::exact::{self, LIMIT, Matrix, ORIGINAL_LIMIT};
use super::inputs::MOST_GATES;
use super::measure::{Counts, Measure};
use crate::circuit::{Gate, Qubit};
use crate::super_opt::matrix::{UnitaryMatrix, unitary_fingerprint};
use crate::super_opt::murm::{LibraryGate, library_circuit_matrix};

/// The largest width that a list may have. The original has no such limit.
pub(super) const MOST_WIDTH: u32 = 5;

/// A line of standard input, `list WIDTH COUNT CODES..`.
#[derive(Clone)]
pub(super) struct List {
    pub(super) width: u32,
    pub(super) codes: Vec<u32>,
}

/// Answers each line by one line. What is no list, or has no newline after it,
/// is refused by 14 (SPECIFICATION 10.2).
pub(super) fn run(_: &[String], out: &mut dyn Write) -> io::Result<()> {
    let mut input = Vec::new();
    io::stdin().lock().read_to_end(&mut input)?;
    let mut counts = Counts::default();
    for line in input.split_inclusive(|&byte| byte == b'\n') {
        let line = str::from_utf8(line).unwrap_or_default();
        let (measure, answer) = line_answer(line);
        counts.add("lists", measure, &answer);
        writeln!(out, "{answer}")?;
    }
    counts.tell();
    Ok(())
}

/// The answer to one line, given with its newline.
pub(super) fn line_answer(line: &str) -> (Measure, String) {
    match List::parse(line) {
        Some(list) => guarded(|| answer(&list)),
        None => (Measure::Check, "refused 14 0".to_owned()),
    }
}

/// An answer, or the word for a panic: the original's, or that of two readings which
/// differ.
pub(super) fn guarded(answer: impl FnOnce() -> (Measure, String)) -> (Measure, String) {
    let panicked = |_| (Measure::Check, "panicked".to_owned());
    catch_unwind(AssertUnwindSafe(answer)).unwrap_or_else(panicked)
}

impl List {
    pub(super) fn parse(line: &str) -> Option<Self> {
        Self::of_numbers(line.strip_prefix("list ")?)
    }

    /// `WIDTH COUNT CODES..`, with its newline.
    pub(super) fn of_numbers(line: &str) -> Option<Self> {
        let numbers = numbers(line)?;
        let (&[width, count], codes) = numbers.split_first_chunk()?;
        (count as usize <= MOST_GATES && codes.len() == count as usize).then(|| Self {
            width,
            codes: codes.to_vec(),
        })
    }

    pub(super) fn line(&self) -> String {
        format!("list {}", self.numbers())
    }

    /// `WIDTH COUNT CODES..`.
    pub(super) fn numbers(&self) -> String {
        let mut line = format!("{} {}", self.width, self.codes.len());
        for code in &self.codes {
            line.push(' ');
            line.push_str(&code.to_string());
        }
        line
    }

    /// The matrix or the refusal, and what it is measured by. Within the original's
    /// limit the second reading must say the same as the original, refusals by 8
    /// and their positions among it.
    pub(super) fn judged(&self) -> (Measure, Result<Matrix, String>) {
        let original = self.original().map(|matrix| exact_of(&matrix));
        let exact = self.exact(ORIGINAL_LIMIT);
        assert_eq!(original, exact, "two readings");
        match original {
            Ok(matrix) => (Measure::Original, Ok(matrix)),
            Err(refusal) if refusal.starts_with("refused 8 ") => {
                (Measure::Second, self.exact(LIMIT))
            }
            Err(refusal) => (Measure::Check, Err(refusal)),
        }
    }

    /// The second reading's matrix within a limit, or the refusal.
    pub(super) fn exact(&self, limit: i64) -> Result<Matrix, String> {
        if self.width > MOST_WIDTH {
            return Err("refused 6 0".to_owned());
        }
        let invalid = |&code: &u32| exact::list_gate(code, self.width).is_none();
        if let Some(position) = self.codes.iter().position(invalid) {
            return Err(format!("refused 7 {position}"));
        }
        let matrix = Matrix::of_list(self.width, &self.codes, limit);
        matrix.map_err(|(position, _)| format!("refused 8 {position}"))
    }

    /// The original's matrix, or the refusal.
    pub(super) fn original(&self) -> Result<UnitaryMatrix, String> {
        if self.width > MOST_WIDTH {
            return Err("refused 6 0".to_owned());
        }
        let width = self.width as usize;
        let mut gates = Vec::new();
        for (position, &code) in self.codes.iter().enumerate() {
            match list_gate(code, width) {
                Some(gate) => gates.push(gate),
                None => return Err(format!("refused 7 {position}")),
            }
        }
        let product = product(width, &gates);
        let of_library = |&code: &u32| valid_gate(code, width);
        if let Some(gates) = self
            .codes
            .iter()
            .map(of_library)
            .collect::<Option<Vec<_>>>()
        {
            let matrix = library_circuit_matrix(width, &gates).expect("the width is small");
            assert_eq!(matrix.as_ref(), product.as_ref().ok(), "library gates");
        }
        product.map_err(|(position, _)| format!("refused 8 {position}"))
    }
}

/// The numbers of a line with its newline, one space between.
pub(super) fn numbers(line: &str) -> Option<Vec<u32>> {
    let numbers = line.strip_suffix('\n')?;
    numbers.split(' ').map(number).collect()
}

/// A number of at most ten digits.
pub(super) fn number(word: &str) -> Option<u32> {
    let digits = word.len() <= 10 && word.bytes().all(|byte| byte.is_ascii_digit());
    digits.then(|| word.parse().ok()).flatten()
}

fn answer(list: &List) -> (Measure, String) {
    let (measure, matrix) = list.judged();
    (
        measure,
        matrix.map_or_else(|refusal| refusal, |matrix| told(&matrix)),
    )
}

/// The exponent, the fingerprint and the coefficients, row by row.
fn told(matrix: &Matrix) -> String {
    let fingerprint = matrix.fingerprint();
    let mut line = format!("{} {fingerprint:016x}", matrix.exponent);
    for coefficient in matrix.entries.iter().flatten() {
        line.push(' ');
        line.push_str(&coefficient.to_string());
    }
    line
}

/// A matrix of the original as the second reading has it. The fingerprints must be the
/// same.
fn exact_of(matrix: &UnitaryMatrix) -> Matrix {
    let Parts {
        exponent,
        coefficients,
    } = Parts::of(matrix);
    let exact = Matrix::of_coefficients(matrix.num_qubits() as u32, exponent, &coefficients);
    let fingerprint = unitary_fingerprint(matrix).to_bits();
    assert_eq!(fingerprint, exact.fingerprint(), "fingerprint");
    exact
}

/// What the gates make of the identity; or the position of the first that does
/// not fit, and the matrix before it. `library_circuit_matrix` does the same for
/// library gates, but tells no position.
pub(super) fn product(
    width: usize,
    gates: &[Gate],
) -> Result<UnitaryMatrix, (usize, UnitaryMatrix)> {
    let support: Vec<Qubit> = (0..width as Qubit).collect();
    let mut matrix = UnitaryMatrix::identity(width).expect("the width is small");
    let mut before = matrix.clone();
    for (position, gate) in gates.iter().enumerate() {
        before.copy_from(&matrix);
        if matrix.apply_gate_left(gate, &support).is_err() {
            return Err((position, before));
        }
    }
    Ok(matrix)
}

/// Applies one library gate on the left; whether it fits.
pub(super) fn apply(matrix: &mut UnitaryMatrix, gate: LibraryGate) -> bool {
    apply_gate(matrix, &gate.to_gate())
}

/// Applies one gate on the left; whether it fits.
pub(super) fn apply_gate(matrix: &mut UnitaryMatrix, gate: &Gate) -> bool {
    let support: Vec<Qubit> = (0..matrix.num_qubits() as Qubit).collect();
    matrix.apply_gate_left(gate, &support).is_ok()
}

/// The private parts of a matrix, out of its derived `Debug`.
pub(super) struct Parts {
    pub(super) exponent: u16,
    pub(super) coefficients: Vec<i16>,
}

impl Parts {
    pub(super) fn of(matrix: &UnitaryMatrix) -> Self {
        let text = format!("{matrix:?}");
        let (_, rest) = text.split_once("denominator_exponent: ").expect("a field");
        let (exponent, rest) = rest.split_once(", data: ").expect("a field");
        let coefficients = rest
            .split("coefficients: [")
            .skip(1)
            .flat_map(|entry| entry.split(']').next().expect("an array").split(", "))
            .map(|word| word.parse().expect("a coefficient"))
            .collect();
        Self {
            exponent: exponent.parse().expect("an exponent"),
            coefficients,
        }
    }
}
