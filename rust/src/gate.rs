//! Kinds and gates, and their codes (SPECIFICATION, chapter 2).

use std::error::Error;
use std::fmt;

use crate::MAX_WIDTH;

/// A kind of gate, with its number (SPECIFICATION 2.1).
///
/// The eleven kinds up to `Ccz` are those of tables: an answer may have them. The six others are
/// taken in lists alone.
#[derive(Clone, Copy, Debug, PartialEq, Eq, PartialOrd, Ord, Hash)]
#[repr(u8)]
pub enum Kind {
    /// Hadamard gate.
    H = 0,
    /// Pauli X.
    X = 1,
    /// Pauli Z.
    Z = 2,
    /// Phase gate, the square root of Z.
    S = 3,
    /// Inverse of S.
    Sdg = 4,
    /// T gate, the square root of S.
    T = 5,
    /// Inverse of T.
    Tdg = 6,
    /// Controlled X: control, target.
    Cx = 8,
    /// Controlled Z: two qubits.
    Cz = 9,
    /// Toffoli gate: two controls, target.
    Ccx = 10,
    /// Doubly controlled Z: three qubits.
    Ccz = 11,
    /// Pauli Y.
    Y = 15,
    /// Square root of X.
    Sx = 16,
    /// Exchange of two qubits.
    Swap = 19,
    /// Controlled Y: control, target.
    Cy = 20,
    /// Controlled H: control, target.
    Ch = 25,
    /// Controlled exchange: control, two qubits.
    Cswap = 26,
}

impl Kind {
    /// All kinds, by rising number.
    pub const ALL: [Kind; 17] = [
        Kind::H,
        Kind::X,
        Kind::Z,
        Kind::S,
        Kind::Sdg,
        Kind::T,
        Kind::Tdg,
        Kind::Cx,
        Kind::Cz,
        Kind::Ccx,
        Kind::Ccz,
        Kind::Y,
        Kind::Sx,
        Kind::Swap,
        Kind::Cy,
        Kind::Ch,
        Kind::Cswap,
    ];

    /// The kind's number.
    pub const fn number(self) -> u32 {
        self as u32
    }

    /// The kind of a number, if there is one: there is none of number 7.
    pub const fn from_number(number: u32) -> Option<Kind> {
        let mut i = 0;
        while i < Kind::ALL.len() {
            if Kind::ALL[i].number() == number {
                return Some(Kind::ALL[i]);
            }
            i += 1;
        }
        None
    }

    /// How many operands a gate of this kind has, 1 to 3.
    pub const fn operand_count(self) -> usize {
        match self {
            Kind::H | Kind::X | Kind::Z | Kind::S | Kind::Sdg | Kind::T | Kind::Tdg => 1,
            Kind::Y | Kind::Sx => 1,
            Kind::Cx | Kind::Cz | Kind::Swap | Kind::Cy | Kind::Ch => 2,
            Kind::Ccx | Kind::Ccz | Kind::Cswap => 3,
        }
    }

    /// The bit of a kind of tables in a basis, as in [`Record::b`](crate::Record::b); none for a
    /// kind of lists alone.
    pub const fn basis_bit(self) -> Option<u32> {
        if self.number() <= Kind::Ccz.number() {
            Some(1 << self.number())
        } else {
            None
        }
    }

    /// How many of the first operands stand in rising order in a code.
    const fn rising(self) -> usize {
        match self {
            Kind::Cz | Kind::Ccx => 2,
            Kind::Ccz => 3,
            _ => 0,
        }
    }
}

/// A gate on qubits 0 to 4, which has a code that is valid at width 5 (SPECIFICATION 2.4).
///
/// At a smaller width it is valid where all its qubits are below the width. Gates are ordered as
/// their codes are.
///
/// Qubits that a kind takes in rising order, those of `Cz` and `Ccz` and the controls of `Ccx`,
/// may be given in any order: the gate is the same, and has one code. `Swap` and `Cswap` keep the
/// order of their two qubits, since both orders have a code.
///
/// ```
/// use murm::Gate;
///
/// assert_eq!(Gate::cx(0, 1).code(), 32784);
/// assert_eq!(Gate::cz(1, 0), Gate::cz(0, 1));
/// assert_ne!(Gate::swap(1, 0), Gate::swap(0, 1));
/// assert_eq!(Gate::try_from(40978), Ok(Gate::ccx(0, 1, 2)));
/// ```
#[derive(Clone, Copy, Debug, PartialEq, Eq, PartialOrd, Ord, Hash)]
pub struct Gate {
    kind: Kind,
    /// Those that the kind does not have are 0.
    operands: [u8; 3],
}

impl Gate {
    /// The gate of a kind on these qubits. None if there are too few or too many of them for the
    /// kind, if one is above 4, or if one stands twice.
    ///
    /// ```
    /// use murm::{Gate, Kind};
    ///
    /// assert_eq!(Gate::new(Kind::Cx, &[0, 1]), Some(Gate::cx(0, 1)));
    /// assert_eq!(Gate::new(Kind::Cx, &[0]), None);
    /// assert_eq!(Gate::new(Kind::Cx, &[0, 0]), None);
    /// assert_eq!(Gate::new(Kind::Cx, &[0, 5]), None);
    /// ```
    pub const fn new(kind: Kind, qubits: &[u32]) -> Option<Gate> {
        if qubits.len() != kind.operand_count() {
            return None;
        }
        let mut operands = [0; 3];
        let mut i = 0;
        while i < qubits.len() {
            if qubits[i] >= MAX_WIDTH {
                return None;
            }
            let qubit = qubits[i] as u8;
            let mut at = i;
            let mut j = 0;
            while j < i {
                if operands[j] == qubit {
                    return None;
                }
                j += 1;
            }
            // Those before place i rise already: the larger ones move up by one place.
            while i < kind.rising() && at > 0 && operands[at - 1] > qubit {
                operands[at] = operands[at - 1];
                at -= 1;
            }
            operands[at] = qubit;
            i += 1;
        }
        Some(Gate { kind, operands })
    }

    /// The gate's kind.
    pub const fn kind(self) -> Kind {
        self.kind
    }

    /// The gate's qubits, in the order of its code.
    pub fn qubits(&self) -> impl ExactSizeIterator<Item = u32> + '_ {
        self.operands[..self.kind.operand_count()]
            .iter()
            .map(|&qubit| u32::from(qubit))
    }

    /// The gate's code: kind × 4096 + a × 256 + b × 16 + c (SPECIFICATION 2.3).
    pub const fn code(self) -> u32 {
        let [a, b, c] = self.operands;
        self.kind.number() * 4096 + a as u32 * 256 + b as u32 * 16 + c as u32
    }
}

/// A gate of each kind. These functions panic if a qubit is above 4 or stands twice; where that is
/// not known, [`Gate::new`] tells. In a constant the panic is an error of the compiler.
impl Gate {
    /// H on a qubit.
    #[track_caller]
    pub const fn h(qubit: u32) -> Gate {
        named(Kind::H, &[qubit])
    }

    /// X on a qubit.
    #[track_caller]
    pub const fn x(qubit: u32) -> Gate {
        named(Kind::X, &[qubit])
    }

    /// Z on a qubit.
    #[track_caller]
    pub const fn z(qubit: u32) -> Gate {
        named(Kind::Z, &[qubit])
    }

    /// S on a qubit.
    #[track_caller]
    pub const fn s(qubit: u32) -> Gate {
        named(Kind::S, &[qubit])
    }

    /// The inverse of S on a qubit.
    #[track_caller]
    pub const fn sdg(qubit: u32) -> Gate {
        named(Kind::Sdg, &[qubit])
    }

    /// T on a qubit.
    #[track_caller]
    pub const fn t(qubit: u32) -> Gate {
        named(Kind::T, &[qubit])
    }

    /// The inverse of T on a qubit.
    #[track_caller]
    pub const fn tdg(qubit: u32) -> Gate {
        named(Kind::Tdg, &[qubit])
    }

    /// X on the target, controlled.
    #[track_caller]
    pub const fn cx(control: u32, target: u32) -> Gate {
        named(Kind::Cx, &[control, target])
    }

    /// Controlled Z on two qubits, in either order.
    #[track_caller]
    pub const fn cz(one: u32, other: u32) -> Gate {
        named(Kind::Cz, &[one, other])
    }

    /// X on the target, controlled by two qubits, in either order.
    #[track_caller]
    pub const fn ccx(control: u32, other: u32, target: u32) -> Gate {
        named(Kind::Ccx, &[control, other, target])
    }

    /// Doubly controlled Z on three qubits, in any order.
    #[track_caller]
    pub const fn ccz(one: u32, other: u32, third: u32) -> Gate {
        named(Kind::Ccz, &[one, other, third])
    }

    /// Y on a qubit.
    #[track_caller]
    pub const fn y(qubit: u32) -> Gate {
        named(Kind::Y, &[qubit])
    }

    /// The square root of X on a qubit.
    #[track_caller]
    pub const fn sx(qubit: u32) -> Gate {
        named(Kind::Sx, &[qubit])
    }

    /// Exchange of two qubits. Either order is the same operation by another code.
    #[track_caller]
    pub const fn swap(one: u32, other: u32) -> Gate {
        named(Kind::Swap, &[one, other])
    }

    /// Y on the target, controlled.
    #[track_caller]
    pub const fn cy(control: u32, target: u32) -> Gate {
        named(Kind::Cy, &[control, target])
    }

    /// H on the target, controlled.
    #[track_caller]
    pub const fn ch(control: u32, target: u32) -> Gate {
        named(Kind::Ch, &[control, target])
    }

    /// Exchange of two qubits, controlled. Either order of the two is the same operation by
    /// another code.
    #[track_caller]
    pub const fn cswap(control: u32, one: u32, other: u32) -> Gate {
        named(Kind::Cswap, &[control, one, other])
    }
}

#[track_caller]
const fn named(kind: Kind, qubits: &[u32]) -> Gate {
    match Gate::new(kind, qubits) {
        Some(gate) => gate,
        None => panic!("a gate's qubits are from 0 to 4, and no two are the same"),
    }
}

impl From<Gate> for u32 {
    fn from(gate: Gate) -> u32 {
        gate.code()
    }
}

/// The gate of a code, by the rules of SPECIFICATION 2.4 at width 5: operands that rise there must
/// rise in the code.
///
/// ```
/// use murm::{Gate, InvalidCode};
///
/// assert_eq!(Gate::try_from(36880), Ok(Gate::cz(0, 1)));
/// assert_eq!(Gate::try_from(37120), Err(InvalidCode(37120))); // qubits 1 and 0
/// ```
impl TryFrom<u32> for Gate {
    type Error = InvalidCode;

    fn try_from(code: u32) -> Result<Gate, InvalidCode> {
        let kind = Kind::from_number(code / 4096).ok_or(InvalidCode(code))?;
        let operands = [code / 256 % 16, code / 16 % 16, code % 16];
        // An unused operand that is not 0, or an order that `new` changes, gives another code.
        Gate::new(kind, &operands[..kind.operand_count()])
            .filter(|gate| gate.code() == code)
            .ok_or(InvalidCode(code))
    }
}

/// The kind, then the qubits, as in `Cx 0 1`.
impl fmt::Display for Gate {
    fn fmt(&self, f: &mut fmt::Formatter<'_>) -> fmt::Result {
        write!(f, "{:?}", self.kind)?;
        self.qubits().try_for_each(|qubit| write!(f, " {qubit}"))
    }
}

/// A number that is the code of no gate on qubits 0 to 4.
#[derive(Clone, Copy, Debug, PartialEq, Eq, Hash)]
pub struct InvalidCode(pub u32);

impl fmt::Display for InvalidCode {
    fn fmt(&self, f: &mut fmt::Formatter<'_>) -> fmt::Result {
        write!(f, "{} is the code of no gate on qubits 0 to 4", self.0)
    }
}

impl Error for InvalidCode {}
