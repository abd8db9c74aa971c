//! Gate codes: kind * 4096 + a * 256 + b * 16 + c. The kind is the number of
//! its `GateKind`; the operands come in the order of the library gate's
//! variant, and unused ones are 0.

use crate::circuit::{Gate as CircuitGate, GateKind as Kind};
use crate::super_opt::SUPPORTED_GATE_SET;
use crate::super_opt::murm::LibraryGate as Gate;

/// The six kinds that lists take and tables do not, by rising number. The
/// original has no library gate of them.
pub(super) const FURTHER: [Kind; 6] = [
    Kind::Y,
    Kind::Sx,
    Kind::Swap,
    Kind::Cy,
    Kind::Ch,
    Kind::Cswap,
];

/// The eleven kinds of library gates, by rising number.
pub(super) fn kinds() -> impl Iterator<Item = Kind> {
    SUPPORTED_GATE_SET.iter()
}

/// The kinds that lists take, by rising number.
pub(super) fn list_kinds() -> impl Iterator<Item = Kind> {
    kinds().chain(FURTHER)
}

/// How many operands a gate of this kind has.
fn arity(kind: Kind) -> u32 {
    match kind {
        Kind::Cx | Kind::Cz | Kind::Swap | Kind::Cy | Kind::Ch => 2,
        Kind::Ccx | Kind::Ccz | Kind::Cswap => 3,
        _ => 1,
    }
}

/// The library gate of this kind, with the operands as they are given. It may
/// be one that no width has: operands repeated, or out of order.
fn gate_of(kind: Kind, [a, b, c]: [u8; 3]) -> Gate {
    match kind {
        Kind::H => Gate::H(a),
        Kind::X => Gate::X(a),
        Kind::Z => Gate::Z(a),
        Kind::S => Gate::S(a),
        Kind::Sdg => Gate::Sdg(a),
        Kind::T => Gate::T(a),
        Kind::Tdg => Gate::Tdg(a),
        Kind::Cx => Gate::Cnot(a, b),
        Kind::Cz => Gate::Cz(a, b),
        Kind::Ccx => Gate::Ccx(a, b, c),
        Kind::Ccz => Gate::Ccz(a, b, c),
        _ => panic!("no library gate is of the kind {}", kind.name()),
    }
}

/// The three operands of a code.
fn operands(code: u32) -> [u8; 3] {
    [8, 4, 0].map(|place| (code >> place & 15) as u8)
}

/// The code of every gate of this kind with operands 0 to 15, rising: the first
/// operand is the outermost loop.
pub(super) fn codes_of(kind: Kind) -> impl Iterator<Item = u32> {
    let unused = 3 - arity(kind);
    (0..1u32 << (4 * arity(kind))).map(move |number| kind as u32 * 4096 + (number << (4 * unused)))
}

/// Every library gate of this kind with operands 0 to 15, by rising code.
fn gates_of(kind: Kind) -> impl Iterator<Item = Gate> {
    codes_of(kind).map(move |code| gate_of(kind, operands(code)))
}

/// The code of a gate whose operands are at most 15.
pub(super) fn code_of(gate: Gate) -> u32 {
    let [_, a, b, c] = gate.to_bytes().map(u32::from);
    gate.to_gate().kind() as u32 * 4096 + a * 256 + b * 16 + c
}

/// The code of a gate of a circuit, as an answer of the original has it.
pub(super) fn code_of_gate(gate: &CircuitGate) -> u32 {
    use CircuitGate as C;
    let [a, b, c] = match *gate {
        C::h(a) | C::x(a) | C::z(a) | C::s(a) | C::sdg(a) | C::t(a) | C::tdg(a) => [a, 0, 0],
        C::cnot { control, target } | C::cz { control, target } => [control, target, 0],
        C::ccx {
            control1,
            control2,
            target,
        }
        | C::ccz {
            control1,
            control2,
            target,
        } => [control1, control2, target],
        _ => panic!("no library gate is of the kind {}", gate.kind().name()),
    };
    gate.kind() as u32 * 4096 + a * 256 + b * 16 + c
}

/// The library gates valid at this width, by rising code.
pub(super) fn valid_gates(width: usize) -> Vec<Gate> {
    kinds()
        .flat_map(gates_of)
        .filter(|gate| gate.is_valid_for(width, SUPPORTED_GATE_SET))
        .collect()
}

/// The library gate of a code, where it is one of the eleven kinds, has 0 for
/// what its kind does not use, and is valid at the width.
pub(super) fn valid_gate(code: u32, width: usize) -> Option<Gate> {
    let kind = kinds().find(|&kind| kind as u32 == code / 4096)?;
    let gate = gate_of(kind, operands(code));
    (code_of(gate) == code && gate.is_valid_for(width, SUPPORTED_GATE_SET)).then_some(gate)
}

/// The gate of a code that a list may have at the width. Where it is none of
/// the library's, SPECIFICATION 2.4 decides.
pub(super) fn list_gate(code: u32, width: usize) -> Option<CircuitGate> {
    match FURTHER.into_iter().find(|&kind| kind as u32 == code / 4096) {
        Some(kind) => further_gate(kind, operands(code), width),
        None => valid_gate(code, width).map(Gate::to_gate),
    }
}

/// A gate of one of the six kinds: the operands that it has are below the width
/// and differ, the others are 0. No order is asked for.
fn further_gate(kind: Kind, operands: [u8; 3], width: usize) -> Option<CircuitGate> {
    let (used, unused) = operands.split_at(arity(kind) as usize);
    let below = used.iter().all(|&operand| usize::from(operand) < width);
    let differ = (1..used.len()).all(|place| !used[..place].contains(&used[place]));
    let plain = unused.iter().all(|&operand| operand == 0);
    let [a, b, c] = operands.map(u32::from);
    (below && differ && plain).then(|| match kind {
        Kind::Y => CircuitGate::y(a),
        Kind::Sx => CircuitGate::sx(a),
        Kind::Swap => CircuitGate::swap(a, b),
        Kind::Cy => CircuitGate::cy {
            control: a,
            target: b,
        },
        Kind::Ch => CircuitGate::ch {
            control: a,
            target: b,
        },
        Kind::Cswap => CircuitGate::cswap {
            control: a,
            first: b,
            second: c,
        },
        _ => panic!("a library gate is of the kind {}", kind.name()),
    })
}

/// The codes of this kind that a list may have at the width, rising.
pub(super) fn list_codes_of(kind: Kind, width: usize) -> Vec<u32> {
    codes_of(kind)
        .filter(|&code| list_gate(code, width).is_some())
        .collect()
}

/// All codes that a list may have at the width, rising.
pub(super) fn list_codes(width: usize) -> Vec<u32> {
    list_kinds()
        .flat_map(|kind| list_codes_of(kind, width))
        .collect()
}
