//! Gates and their codes, compared with the recorded codes of crates/replay/stdout.

mod common;

use std::collections::BTreeSet;

use murm::{library_circuit_matrix, Gate, InvalidCode, Kind, MAX_WIDTH};

/// The codes that are valid at a width, rising.
fn recorded_codes(width: u32) -> Vec<u32> {
    let prefix = format!("codes {width}");
    let recording = common::read("replay/stdout");
    let line = recording
        .lines()
        .find_map(|line| line.strip_prefix(&prefix));
    common::numbers(line.expect("a line of codes for each width"))
}

#[test]
fn gates_are_the_codes_valid_at_width_5() {
    let valid = recorded_codes(5);
    assert_eq!(valid.len(), 235);
    for &code in &valid {
        let gate = Gate::try_from(code).unwrap();
        assert_eq!((gate.code(), u32::from(gate)), (code, code));
        let qubits: Vec<u32> = gate.qubits().collect();
        assert_eq!(Gate::new(gate.kind(), &qubits), Some(gate));
    }
    let mut gates: Vec<Gate> = valid.iter().map(|&code| code.try_into().unwrap()).collect();
    gates.sort();
    assert!(gates
        .iter()
        .map(|gate| gate.code())
        .eq(valid.iter().copied()));
}

#[test]
fn other_numbers_are_no_codes() {
    let valid: BTreeSet<u32> = recorded_codes(5).into_iter().collect();
    let highest = 27 * 4096;
    let high_bits = (17..32).flat_map(|bit| valid.iter().map(move |code| code | 1 << bit));
    let others = (0..=highest)
        .chain(high_bits)
        .chain([u32::MAX - 1, u32::MAX]);
    for code in others.filter(|code| !valid.contains(code)) {
        assert_eq!(Gate::try_from(code), Err(InvalidCode(code)));
    }
}

/// The archive takes a code at a width exactly where it is a gate whose qubits are below the width.
#[test]
fn widths() {
    for width in 0..=MAX_WIDTH {
        let recorded = recorded_codes(width);
        let mut out = vec![0; murm::coefficient_count(width).unwrap()];
        let mut found = Vec::new();
        for code in 0..27 * 4096 {
            let valid = library_circuit_matrix(width, &[code], &mut out).is_ok();
            let gate = Gate::try_from(code);
            assert_eq!(
                valid,
                gate.is_ok_and(|gate| gate.qubits().all(|qubit| qubit < width))
            );
            if valid {
                found.push(code);
            }
        }
        assert_eq!(found, recorded, "width {width}");
    }
}

#[test]
fn every_choice_of_qubits() {
    let mut made = BTreeSet::new();
    let qubits = 0..7;
    for kind in Kind::ALL {
        assert_eq!(Gate::new(kind, &[]), None);
        assert_eq!(Gate::new(kind, &[0, 1, 2, 3]), None);
        for a in qubits.clone() {
            made.extend(Gate::new(kind, &[a]));
            for b in qubits.clone() {
                made.extend(Gate::new(kind, &[a, b]));
                for c in qubits.clone() {
                    made.extend(Gate::new(kind, &[a, b, c]));
                }
            }
        }
        assert_eq!(
            Gate::new(kind, &[u32::MAX, 256, 257][..kind.operand_count()]),
            None
        );
    }
    assert!(made.into_iter().map(Gate::code).eq(recorded_codes(5)));
}

#[test]
fn named_gates() {
    let named = [
        (Gate::h(1), "H 1", 256),
        (Gate::x(1), "X 1", 4352),
        (Gate::z(2), "Z 2", 8704),
        (Gate::s(0), "S 0", 12288),
        (Gate::sdg(1), "Sdg 1", 16640),
        (Gate::t(2), "T 2", 20992),
        (Gate::tdg(0), "Tdg 0", 24576),
        (Gate::cx(1, 0), "Cx 1 0", 33024),
        (Gate::cz(0, 1), "Cz 0 1", 36880),
        (Gate::ccx(0, 2, 1), "Ccx 0 2 1", 40993),
        (Gate::ccz(0, 1, 2), "Ccz 0 1 2", 45074),
        (Gate::y(0), "Y 0", 61440),
        (Gate::sx(0), "Sx 0", 65536),
        (Gate::swap(1, 0), "Swap 1 0", 78080),
        (Gate::cy(0, 1), "Cy 0 1", 81936),
        (Gate::ch(0, 1), "Ch 0 1", 102416),
        (Gate::cswap(0, 2, 1), "Cswap 0 2 1", 106529),
    ];
    for ((gate, text, code), kind) in named.into_iter().zip(Kind::ALL) {
        assert_eq!(gate.kind(), kind);
        assert_eq!(gate.code(), code);
        assert_eq!(gate.to_string(), text);
    }
}

/// Qubits that rise in a code may be given in any order; others keep theirs.
#[test]
fn orders() {
    assert_eq!(Gate::cz(4, 3), Gate::cz(3, 4));
    assert_eq!(Gate::ccx(3, 1, 2), Gate::ccx(1, 3, 2));
    assert_ne!(Gate::ccx(1, 2, 3), Gate::ccx(1, 3, 2));
    for [a, b, c] in [
        [0, 1, 2],
        [0, 2, 1],
        [1, 0, 2],
        [1, 2, 0],
        [2, 0, 1],
        [2, 1, 0],
    ] {
        assert_eq!(Gate::ccz(a, b, c), Gate::ccz(0, 1, 2));
    }
    assert_ne!(Gate::cx(0, 1), Gate::cx(1, 0));
    assert_ne!(Gate::swap(0, 1), Gate::swap(1, 0));
    assert_ne!(Gate::cswap(2, 0, 1), Gate::cswap(2, 1, 0));
}

#[test]
#[should_panic(expected = "no two are the same")]
fn a_qubit_twice() {
    let _ = Gate::ccx(0, 1, 0);
}

#[test]
#[should_panic(expected = "from 0 to 4")]
fn a_qubit_above_4() {
    let _ = Gate::h(5);
}

#[test]
fn kinds() {
    for number in 0..300 {
        if let Some(kind) = Kind::from_number(number) {
            assert_eq!(kind.number(), number);
        }
    }
    assert_eq!(
        (0..300).filter_map(Kind::from_number).collect::<Vec<_>>(),
        Kind::ALL
    );
    // The supported bits of SPECIFICATION 2.2.
    assert_eq!(
        Kind::ALL
            .iter()
            .filter_map(|kind| kind.basis_bit())
            .sum::<u32>(),
        3967
    );
}

#[test]
fn gates_in_constants() {
    const BELL: [Gate; 2] = [Gate::h(0), Gate::cx(0, 1)];
    assert_eq!(BELL.map(Gate::code), [0, 32784]);
}
