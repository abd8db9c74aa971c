//! Gates, matrices and lists, written from docs/SPECIFICATION.md alone: the second
//! reading, beside the original. Nothing here is the original's or the port's. All
//! arithmetic is on 64-bit integers, and the limit of coefficients is given: the
//! original's is 127, that of the specification 32767. So what is read here can be
//! held against the original wherever that does not overflow, and against the port
//! beyond it.

/// The limit of coefficients (SPECIFICATION 1.3).
pub(super) const LIMIT: i64 = 32767;

/// The limit that the original has.
pub(super) const ORIGINAL_LIMIT: i64 = 127;

/// a + b omega + c omega^2 + d omega^3.
pub(super) type Entry = [i64; 4];

/// Entries row by row, over sqrt(2)^exponent.
#[derive(Clone, Debug, PartialEq)]
pub(super) struct Matrix {
    pub(super) width: u32,
    pub(super) exponent: u32,
    pub(super) entries: Vec<Entry>,
}

/// A kind's number, its operands, how many of the first rise, and what it does.
pub(super) struct Kind {
    pub(super) number: u32,
    operands: usize,
    rising: usize,
    does: Does,
}

/// What a kind does where all control bits are 1: on its last operand, or its last
/// two. The operands before these are controls.
#[derive(Clone, Copy, PartialEq)]
enum Does {
    /// Turns the row with 1.
    Turn(usize),
    /// Exchanges the rows.
    X,
    /// (0 -i; i 0).
    Y,
    /// Exchanges the rows that differ in both bits.
    Swap,
    /// Sum and difference of the rows. Where a control bit is 0, times sqrt(2).
    H,
    /// H, S, H, each a step of its own.
    Sx,
}

#[rustfmt::skip]
const KINDS: [Kind; 17] = [
    Kind { number: 0, operands: 1, rising: 1, does: Does::H },
    Kind { number: 1, operands: 1, rising: 1, does: Does::X },
    Kind { number: 2, operands: 1, rising: 1, does: Does::Turn(4) },
    Kind { number: 3, operands: 1, rising: 1, does: Does::Turn(2) },
    Kind { number: 4, operands: 1, rising: 1, does: Does::Turn(6) },
    Kind { number: 5, operands: 1, rising: 1, does: Does::Turn(1) },
    Kind { number: 6, operands: 1, rising: 1, does: Does::Turn(7) },
    Kind { number: 8, operands: 2, rising: 1, does: Does::X },
    Kind { number: 9, operands: 2, rising: 2, does: Does::Turn(4) },
    Kind { number: 10, operands: 3, rising: 2, does: Does::X },
    Kind { number: 11, operands: 3, rising: 3, does: Does::Turn(4) },
    Kind { number: 15, operands: 1, rising: 1, does: Does::Y },
    Kind { number: 16, operands: 1, rising: 1, does: Does::Sx },
    Kind { number: 19, operands: 2, rising: 1, does: Does::Swap },
    Kind { number: 20, operands: 2, rising: 1, does: Does::Y },
    Kind { number: 25, operands: 2, rising: 1, does: Does::H },
    Kind { number: 26, operands: 3, rising: 1, does: Does::Swap },
];

/// The last kind that tables have; the further six are of lists alone.
const LAST_OF_TABLES: u32 = 11;

const H: u32 = 0;
const S: u32 = 3 * 4096;

pub(super) fn turned([a, b, c, d]: Entry, power: usize) -> Entry {
    match power {
        0 => [a, b, c, d],
        _ => turned([-d, a, b, c], power - 1),
    }
}

/// Times sqrt(2), which is omega - omega^3.
pub(super) fn times_root([a, b, c, d]: Entry) -> Entry {
    [b - d, a + c, b + d, c - a]
}

/// An entry that is divisible, over sqrt(2).
pub(super) fn divided_by_root([a, b, c, d]: Entry) -> Entry {
    [(b - d) / 2, (a + c) / 2, (b + d) / 2, (c - a) / 2]
}

fn sum(x: Entry, y: Entry, sign: i64) -> Entry {
    [0, 1, 2, 3].map(|i| x[i] + sign * y[i])
}

fn times(x: Entry, y: Entry) -> Entry {
    (0..4).fold([0; 4], |total, power| {
        let part = turned(x, power).map(|coefficient| coefficient * y[power]);
        sum(total, part, 1)
    })
}

pub(super) fn divisible([a, b, c, d]: &Entry) -> bool {
    (a - c) % 2 == 0 && (b - d) % 2 == 0
}

/// The largest coefficient, without its sign.
pub(super) fn most<'a>(entries: impl IntoIterator<Item = &'a Entry>) -> i64 {
    let coefficients = entries.into_iter().flatten();
    coefficients
        .map(|coefficient| coefficient.abs())
        .max()
        .unwrap_or(0)
}

/// The kind and the row bits of a code that is valid at the width, of a list.
pub(super) fn list_gate(code: u32, width: u32) -> Option<(&'static Kind, Vec<usize>)> {
    let kind = KINDS.iter().find(|kind| kind.number == code / 4096)?;
    let places = [code / 256 % 16, code / 16 % 16, code % 16];
    let (used, unused) = places.split_at(kind.operands);
    let below = used.iter().all(|&operand| operand < width);
    let distinct = (0..used.len()).all(|i| !used[..i].contains(&used[i]));
    let rising = used[..kind.rising].is_sorted();
    let plain = unused.iter().all(|&operand| operand == 0);
    // Qubit 0 is the most significant row bit.
    let bit = |&operand: &u32| 1 << (width - 1 - operand);
    (below && distinct && rising && plain).then(|| (kind, used.iter().map(bit).collect()))
}

/// The same of a table: of the eleven kinds.
pub(super) fn gate(code: u32, width: u32) -> Option<(&'static Kind, Vec<usize>)> {
    list_gate(code, width).filter(|(kind, _)| kind.number <= LAST_OF_TABLES)
}

impl Kind {
    /// The bits of the controls, and those that the kind acts on.
    fn parted(&self, mut bits: Vec<usize>) -> (Vec<usize>, Vec<usize>) {
        let acts_on = if self.does == Does::Swap { 2 } else { 1 };
        let last = bits.split_off(bits.len() - acts_on);
        (bits, last)
    }
}

/// Whether all these bits of the row are 1.
fn has(row: usize, bits: &[usize]) -> bool {
    bits.iter().all(|bit| row & bit != 0)
}

impl Matrix {
    pub(super) fn identity(width: u32) -> Self {
        let size = 1 << width;
        let entry = |place: usize| [i64::from(place / size == place % size), 0, 0, 0];
        Self {
            width,
            exponent: 0,
            entries: (0..size * size).map(entry).collect(),
        }
    }

    /// The matrix of these coefficients, four for each entry.
    pub(super) fn of_coefficients(width: u32, exponent: u16, coefficients: &[i16]) -> Self {
        let entry = |entry: &[i16]| [0, 1, 2, 3].map(|i| i64::from(entry[i]));
        Self {
            width,
            exponent: u32::from(exponent),
            entries: coefficients.chunks_exact(4).map(entry).collect(),
        }
    }

    /// All coefficients. None is past the limit.
    pub(super) fn coefficients(&self) -> Vec<i16> {
        let narrow = |&coefficient: &i64| i16::try_from(coefficient).expect("within the limit");
        self.entries.iter().flatten().map(narrow).collect()
    }

    fn size(&self) -> usize {
        1 << self.width
    }

    /// What a gate makes of the rows, before its result is held against the limit and
    /// lowered. The gate is not an Sx.
    pub(super) fn raw(&self, code: u32) -> Self {
        let (kind, bits) = list_gate(code, self.width).expect("the code is valid");
        let (controls, last) = kind.parted(bits);
        let size = self.size();
        let both: usize = last.iter().sum();
        let one = |row: usize| has(row, &last);
        let mut raw = self.clone();
        for row in 0..size {
            let active = has(row, &controls);
            for column in 0..size {
                let at = |row: usize| self.entries[row * size + column];
                raw.entries[row * size + column] = match kind.does {
                    Does::H if !active => times_root(at(row)),
                    _ if !active => at(row),
                    Does::Turn(power) if one(row) => turned(at(row), power),
                    Does::Turn(_) => at(row),
                    Does::X => at(row ^ both),
                    Does::Y if one(row) => turned(at(row ^ both), 2),
                    Does::Y => turned(at(row ^ both), 6),
                    Does::Swap if one(row) || row & both == 0 => at(row),
                    Does::Swap => at(row ^ both),
                    Does::H if one(row) => sum(at(row ^ both), at(row), -1),
                    Does::H => sum(at(row), at(row ^ both), 1),
                    Does::Sx => panic!("an Sx is three steps"),
                };
            }
        }
        raw.exponent += u32::from(kind.does == Does::H);
        raw
    }

    /// One gate on the left, by rows; whether it fits. Otherwise the matrix is not to
    /// be used.
    pub(super) fn step(&mut self, code: u32, limit: i64) -> bool {
        let (kind, _) = list_gate(code, self.width).expect("the code is valid");
        if kind.does == Does::Sx {
            let parts = [H, S, H].map(|part| part + code % 4096);
            return parts.into_iter().all(|part| self.step(part, limit));
        }
        *self = self.raw(code);
        if kind.does != Does::H {
            return true;
        }
        if self.exponent > 65535 || most(&self.entries) > limit {
            return false;
        }
        while self.exponent > 0 && self.entries.iter().all(divisible) {
            for entry in &mut self.entries {
                *entry = divided_by_root(*entry);
            }
            self.exponent -= 1;
        }
        true
    }

    /// The matrix of a list; or the position of the first step that does not fit, and
    /// the matrix before it.
    pub(super) fn of_list(width: u32, codes: &[u32], limit: i64) -> Result<Self, (usize, Self)> {
        let mut matrix = Self::identity(width);
        for (position, &code) in codes.iter().enumerate() {
            let mut after = matrix.clone();
            if !after.step(code, limit) {
                return Err((position, matrix));
            }
            matrix = after;
        }
        Ok(matrix)
    }

    /// The entries after their own phase: the power that makes the first nonzero
    /// entry least.
    fn phased(&self) -> Vec<Entry> {
        let pivot = self.entries.iter().find(|&&entry| entry != [0; 4]);
        let least = |pivot: &Entry| (0..8).min_by_key(|&power| turned(*pivot, power));
        let phase = pivot.and_then(least).unwrap_or(0);
        let entries = self.entries.iter();
        entries.map(|&entry| turned(entry, phase)).collect()
    }

    pub(super) fn fingerprint(&self) -> u64 {
        let head = [i64::from(self.width), i64::from(self.exponent)];
        let (mut first, mut second) = (0xcbf29ce484222325u64, 0x9e3779b97f4a7c15u64);
        for word in head.into_iter().chain(self.phased().into_iter().flatten()) {
            let word = word as u64;
            first = (first ^ word).wrapping_mul(0x100000001b3);
            second ^= word.wrapping_add(0x517cc1b727220a95);
            second = second.rotate_left(27).wrapping_mul(0x94d049bb133111eb);
        }
        let mut fold = first ^ second.rotate_left(32);
        fold = (fold ^ fold >> 30).wrapping_mul(0xbf58476d1ce4e5b9);
        fold = (fold ^ fold >> 27).wrapping_mul(0x94d049bb133111eb);
        fold ^ fold >> 31
    }

    pub(super) fn equal_up_to_phase(&self, other: &Self) -> bool {
        self.width == other.width
            && self.exponent == other.exponent
            && self.phased() == other.phased()
    }

    /// The matrix of one gate of a table, by what it does to each basis state.
    pub(super) fn of_gate(width: u32, code: u32) -> Self {
        let (kind, bits) = gate(code, width).expect("the code is valid");
        let mut matrix = Self::identity(width);
        let size = matrix.size();
        matrix.entries.fill([0; 4]);
        matrix.exponent = u32::from(kind.does == Does::H);
        let (target, controls) = bits.split_last().expect("an operand");
        for state in 0..size {
            let mut put = |row: usize, entry: Entry| matrix.entries[row * size + state] = entry;
            let one = [1, 0, 0, 0];
            match kind.does {
                Does::Turn(power) => {
                    let power = if has(state, &bits) { power } else { 0 };
                    put(state, turned(one, power));
                }
                Does::H => {
                    put(state & !target, one);
                    let power = if has(state, &bits) { 4 } else { 0 };
                    put(state | target, turned(one, power));
                }
                _ if has(state, controls) => put(state ^ target, one),
                _ => put(state, one),
            }
        }
        matrix
    }

    pub(super) fn product(&self, other: &Self) -> Self {
        let size = self.size();
        let entry = |place: usize| {
            (0..size).fold([0; 4], |total, middle| {
                let left = self.entries[place / size * size + middle];
                let right = other.entries[middle * size + place % size];
                sum(total, times(left, right), 1)
            })
        };
        Self {
            width: self.width,
            exponent: self.exponent + other.exponent,
            entries: (0..size * size).map(entry).collect(),
        }
    }

    /// Whether a power of omega takes this value to the other's. The smaller
    /// exponent is raised, entries and denominator times sqrt(2).
    pub(super) fn is_power_of_omega_times(&self, other: &Self) -> bool {
        let raised = |matrix: &Self, exponent: u32| -> Vec<Entry> {
            let raise = |&entry: &Entry| {
                (matrix.exponent..exponent).fold(entry, |entry, _| times_root(entry))
            };
            matrix.entries.iter().map(raise).collect()
        };
        let exponent = self.exponent.max(other.exponent);
        let (left, right) = (raised(self, exponent), raised(other, exponent));
        let same = |power| (0..left.len()).all(|i| turned(left[i], power) == right[i]);
        left.len() == right.len() && (0..8).any(same)
    }
}

/// Whether the exact product of a list of a table is a power of omega times the
/// matrix. Every gate is a dense matrix; nothing is lowered or refused.
pub(super) fn gives(codes: &[u32], asked: &Matrix) -> bool {
    let width = asked.width;
    let identity = Matrix::identity(width);
    let product = codes.iter().fold(identity, |product, &code| {
        Matrix::of_gate(width, code).product(&product)
    });
    product.is_power_of_omega_times(asked)
}
