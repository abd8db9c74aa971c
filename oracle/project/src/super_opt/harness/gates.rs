//! Mode `gates`: validity of the gates that lists may have; qubits, inverses,
//! disjointness and order of the library gates; the generators of every basis.

use std::io::{self, Write};

use super::codes::{code_of, codes_of, list_codes, list_gate, list_kinds, valid_gates};
use super::write_header;
use crate::circuit::GateSet;
use crate::super_opt::SUPPORTED_GATE_SET;
use crate::super_opt::murm::{LibraryGate, library_gates};

pub(super) fn run(_: &[String], out: &mut dyn Write) -> io::Result<()> {
    write_header("gates", out)?;
    for width in 0..=5 {
        writeln!(out, "codes {width}{}", spaced(list_codes(width)))?;
    }
    for width in 0..=5 {
        for kind in list_kinds() {
            let valid = bits(codes_of(kind), |code| list_gate(code, width).is_some());
            writeln!(out, "valid {width} {} {valid}", kind as u32)?;
        }
    }
    let gates = valid_gates(5);
    for &gate in &gates {
        writeln!(out, "qubits {} {}", code_of(gate), qubit_mask(gate))?;
    }
    write_pairs("inverse", &gates, LibraryGate::is_inverse_of, out)?;
    write_pairs("disjoint", &gates, LibraryGate::is_disjoint, out)?;
    write_pairs("lower", &gates, |gate, other| gate < other, out)?;
    for width in 1..=5 {
        for basis in bases() {
            let generators = library_gates(width, basis).into_iter().map(code_of);
            let generators = spaced(generators.collect());
            writeln!(out, "generators {width} {}{generators}", basis.bits())?;
        }
    }
    Ok(())
}

/// The codes in their order, a space before each.
fn spaced(codes: Vec<u32>) -> String {
    codes.iter().map(|code| format!(" {code}")).collect()
}

/// One character for each gate or code: 1 where `holds`, else 0.
fn bits<T>(all: impl IntoIterator<Item = T>, holds: impl Fn(T) -> bool) -> String {
    all.into_iter()
        .map(|one| if holds(one) { '1' } else { '0' })
        .collect()
}

/// The sum of 2^q over the qubits q that the gate names.
fn qubit_mask(gate: LibraryGate) -> u32 {
    gate.qubits()
        .into_iter()
        .flatten()
        .fold(0, |mask, qubit| mask | 1 << qubit)
}

/// For each gate a line: the word, its code, and whether `holds` of it and
/// each of the gates.
fn write_pairs(
    word: &str,
    gates: &[LibraryGate],
    holds: fn(LibraryGate, LibraryGate) -> bool,
    out: &mut dyn Write,
) -> io::Result<()> {
    for &gate in gates {
        let row = bits(gates.iter().copied(), |other| holds(gate, other));
        writeln!(out, "{word} {} {row}", code_of(gate))?;
    }
    Ok(())
}

/// Every basis that a build accepts, by rising bits.
fn bases() -> impl Iterator<Item = GateSet> {
    (1..=SUPPORTED_GATE_SET.bits())
        .map(GateSet::from_bits_const)
        .filter(|basis| basis.is_subset(SUPPORTED_GATE_SET))
}
