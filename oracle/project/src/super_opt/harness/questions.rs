//! The matrices that a table is asked after it is built, as lines for the mode
//! `lines`, with lists and broken lines between them; and the nodes whose lists
//! are wanted.

use super::codes::{code_of, valid_gates};
use super::exact::{LIMIT, Matrix, turned};
use super::further::growing_codes_of;
use super::inputs::list;
use super::lent::Table;
use super::lists::MOST_WIDTH;
use super::random::Random;
use super::rules::written;
use super::tables::{Limits, Question, Wanted};
use crate::circuit::GateSet;
use crate::super_opt::murm::{LibraryGate as Gate, library_gates};

/// The most gates of a random list: a product is taken up from the identity
/// again after so many.
const GATES: usize = 16;

/// Matrix lines that have another form.
const BROKEN: [&str; 11] = [
    "matrix ",
    "matrix 0",
    "matrix 0 65536 1 0 0 0",
    "matrix 0 4294967296 1 0 0 0",
    "matrix 4294967296 0 1 0 0 0",
    "matrix 0 0 1 0 0 32768",
    "matrix 0 0 -32769 0 0 0",
    "matrix 0 0 1 0 0 a",
    "matrix 0 0 1 0  0 0",
    "matrix 0 0 1 0 0 0 ",
    "matrix 0 -1 1 0 0 0",
];

/// Lines that ask for no node, and words that are none.
const BROKEN_NODES: [&str; 16] = [
    "write",
    "write ",
    "write 1",
    "write 1 0",
    "write 1 0 64 0",
    "write 1 0 65",
    "write 1 0 4294967295",
    "write 1 0 4294967296",
    "write 1 4294967296 64",
    "write 4294967296 0 64",
    "write 1 -1 64",
    "write 1  0 64",
    "write 1 0 64 ",
    "writes 1 0 64",
    "find",
    "finds 0 0 1 0 0 0",
];

/// A table at hand, and what its questions are chosen by.
pub(super) struct Asker {
    pub(super) limits: Limits,
    pub(super) table: Table,
    pub(super) random: Random,
}

type Sort = fn(&mut Asker) -> Vec<String>;

/// Every sort of question, each a few lines.
const SORTS: &[Sort] = &[
    Asker::own,
    Asker::last,
    Asker::products,
    Asker::foreign_products,
    Asker::changed,
    Asker::other_exponent,
    Asker::divisible,
    Asker::ones,
    Asker::zero,
    Asker::small,
    Asker::large,
    Asker::past_limit,
    Asker::wrong_length,
    Asker::too_wide,
    Asker::width_0,
    Asker::above,
    Asker::broken,
    Asker::between,
];

/// Every sort of question about coefficients past 127, each a few lines.
const FAR_SORTS: &[Sort] = &[
    Asker::past_byte,
    Asker::same_low_byte,
    Asker::widest,
    Asker::far_product,
    Asker::far_divisible,
    Asker::limit_and_past,
    Asker::counted_in_bytes,
];

impl Asker {
    /// Questions about coefficients past 127: each sort once, or some.
    pub(super) fn far(&mut self, all: bool) -> Vec<String> {
        if all {
            return FAR_SORTS.iter().flat_map(|sort| sort(self)).collect();
        }
        let sort = self.random.one_of(FAR_SORTS);
        sort(self)
    }

    /// Each sort once, and nodes of every width.
    pub(super) fn all(&mut self) -> Vec<String> {
        let mut lines: Vec<String> = SORTS.iter().flat_map(|sort| sort(self)).collect();
        for width in 1..=self.limits.qubits as usize {
            for _ in 0..if width <= 3 { 4 } else { 1 } {
                let count = self.table.count(width);
                let node = self.random.below(count);
                lines.push(self.node(width, node).line());
            }
        }
        lines
    }

    /// A node, and some sorts.
    pub(super) fn some(&mut self) -> Vec<String> {
        let mut lines = self.own();
        for _ in 0..3 {
            let sort = self.random.one_of(SORTS);
            lines.extend(sort(self));
        }
        lines
    }

    /// The lists of some nodes, one of each width, and a broken line.
    pub(super) fn nodes(&mut self) -> Vec<String> {
        let gates = self.limits.gates;
        let mut lines = Vec::new();
        for width in 1..=self.limits.qubits {
            let count = self.table.count(width as usize);
            let node = self.random.below(count) as u32;
            let places = self.random.one_of(&[gates, 64]);
            lines.push(wanted(width, node, places));
        }
        lines.push(self.random.one_of(&BROKEN_NODES).to_owned());
        lines
    }

    /// Nodes up to a width's last and past it, at widths that there are and
    /// others, with lent lists that are too short, long enough and too long.
    pub(super) fn node_ends(&self) -> Vec<String> {
        let gates = self.limits.gates;
        let mut lines = Vec::new();
        for width in [0, 1, 2, 3, 4, 5, 6, 4294967295] {
            let has = (1..=self.limits.qubits).contains(&width);
            let count = if has {
                self.table.count(width as usize) as u32
            } else {
                0
            };
            let last = count.saturating_sub(1);
            for node in [0, 1, count / 2, last, count, count + 1, 4294967295] {
                for places in [0, gates.saturating_sub(1), gates, 64, 65] {
                    lines.push(wanted(width, node, places));
                }
            }
        }
        lines
    }

    /// A width that the table has.
    fn width(&mut self) -> usize {
        1 + self.random.below(self.limits.qubits as usize)
    }

    /// The matrix of a node, times some power of omega.
    fn node(&mut self, width: usize, node: usize) -> Question {
        let codes = written(&self.table, width as u32, node);
        self.listed(width, &codes.expect("a table as it was built"))
    }

    /// The matrix of a list that fits, times some power of omega.
    fn listed(&mut self, width: usize, codes: &[u32]) -> Question {
        let matrix = Matrix::of_list(width as u32, codes, LIMIT);
        self.turned(matrix.expect("the list fits"))
    }

    /// The matrix of a node, whichever it is.
    fn any_node(&mut self) -> Question {
        let width = self.width();
        let count = self.table.count(width);
        let node = self.random.below(count);
        self.node(width, node)
    }

    fn turned(&mut self, mut matrix: Matrix) -> Question {
        let power = self.random.below(8);
        for entry in &mut matrix.entries {
            *entry = turned(*entry, power);
        }
        Question {
            width: matrix.width,
            exponent: matrix.exponent as u16,
            coefficients: matrix.coefficients(),
        }
    }

    fn own(&mut self) -> Vec<String> {
        vec![self.any_node().line()]
    }

    fn last(&mut self) -> Vec<String> {
        let width = self.width();
        let last = self.table.count(width) - 1;
        vec![self.node(width, last).line()]
    }

    /// Products of the basis, up to twice as long as the table's lists.
    fn products(&mut self) -> Vec<String> {
        let width = self.width();
        let basis = GateSet::from_bits_const(self.limits.basis);
        let most = GATES.min(2 * self.limits.gates as usize + 1);
        vec![self.product(width, &library_gates(width, basis), most)]
    }

    /// Products of any gates.
    fn foreign_products(&mut self) -> Vec<String> {
        let width = self.width();
        let gates = valid_gates(width);
        vec![
            self.product(width, &gates, 1),
            self.product(width, &gates, GATES),
        ]
    }

    fn product(&mut self, width: usize, gates: &[Gate], most: usize) -> String {
        let count = if gates.is_empty() {
            0
        } else {
            self.random.below(most + 1)
        };
        let chosen: Vec<u32> = (0..count)
            .map(|_| code_of(self.random.one_of(gates)))
            .collect();
        self.listed(width, &chosen).line()
    }

    /// A node's matrix with one coefficient changed by one.
    fn changed(&mut self) -> Vec<String> {
        let mut question = self.any_node();
        let place = self.random.below(question.coefficients.len());
        question.coefficients[place] += self.random.one_of(&[1, -1]);
        vec![question.line()]
    }

    /// A node's coefficients with another exponent.
    fn other_exponent(&mut self) -> Vec<String> {
        let mut question = self.any_node();
        let exponents = [question.exponent + 1, question.exponent + 2, 65535];
        question.exponent = self.random.one_of(&exponents);
        vec![question.line()]
    }

    /// A node's matrix with all entries and the denominator times sqrt(2).
    fn divisible(&mut self) -> Vec<String> {
        let mut question = self.any_node();
        for entry in question.coefficients.chunks_exact_mut(4) {
            let [a, b, c, d] = [entry[0], entry[1], entry[2], entry[3]];
            entry.copy_from_slice(&[b - d, a + c, b + d, c - a]);
        }
        question.exponent += 1;
        vec![question.line()]
    }

    /// All entries one, with the exponent 1: not unitary.
    fn ones(&mut self) -> Vec<String> {
        let width = self.width();
        let coefficients = [1, 0, 0, 0].repeat(1 << (2 * width));
        vec![line(width as u32, 1, coefficients)]
    }

    fn zero(&mut self) -> Vec<String> {
        let width = self.width();
        let zero = || vec![0; 4 << (2 * width)];
        vec![line(width as u32, 0, zero()), line(width as u32, 1, zero())]
    }

    fn small(&mut self) -> Vec<String> {
        let exponent = self.random.below(4) as u16;
        vec![self.noise(exponent, 2)]
    }

    fn large(&mut self) -> Vec<String> {
        let exponent = self.random.below(65536) as u16;
        vec![self.noise(exponent, 127)]
    }

    /// Coefficients from -most to most.
    fn noise(&mut self, exponent: u16, most: i32) -> String {
        let width = self.width();
        let below = 2 * most as usize + 1;
        let coefficients = (0..4 << (2 * width))
            .map(|_| (self.random.below(below) as i32 - most) as i16)
            .collect();
        line(width as u32, exponent, coefficients)
    }

    /// A coefficient of -32768.
    fn past_limit(&mut self) -> Vec<String> {
        let mut question = self.any_node();
        let place = self.random.below(question.coefficients.len());
        question.coefficients[place] = i16::MIN;
        vec![question.line()]
    }

    /// One coefficient of a node's matrix is past 127, or is -128.
    fn past_byte(&mut self) -> Vec<String> {
        let mut question = self.any_node();
        let place = self.random.below(question.coefficients.len());
        let past = [-128, 128, -129, 129, 255, -255, 256, 32766, 32767, -32767];
        question.coefficients[place] = self.random.one_of(&past);
        let first = question.line();
        question.coefficients[place] = -128;
        vec![first, question.line()]
    }

    /// A node's matrix with some coefficients changed by multiples of 256.
    fn same_low_byte(&mut self) -> Vec<String> {
        let mut question = self.any_node();
        for _ in 0..1 + self.random.below(3) {
            let place = self.random.below(question.coefficients.len());
            question.coefficients[place] += self.random.one_of(&[256, -256, 512, 4096, -8192]);
        }
        vec![question.line()]
    }

    fn widest(&mut self) -> Vec<String> {
        let exponent = self.random.below(65536) as u16;
        vec![self.noise(exponent, 32767)]
    }

    /// The product of a list that lets coefficients grow, up to its first gate that
    /// does not fit.
    fn far_product(&mut self) -> Vec<String> {
        let width = self.width();
        let count = 60 + self.random.below(60);
        let codes = growing_codes_of(width, count, &mut self.random);
        let matrix = Matrix::of_list(width as u32, &codes, LIMIT);
        let matrix = matrix.unwrap_or_else(|(_, before)| before);
        vec![self.turned(matrix).line()]
    }

    /// Large coefficients that are all even, over sqrt(2) and over 1.
    fn far_divisible(&mut self) -> Vec<String> {
        let width = self.width();
        let coefficients: Vec<i16> = (0..4 << (2 * width))
            .map(|_| 2 * (self.random.below(32767) as i16 - 16383))
            .collect();
        let exponent = 1 + self.random.below(65535) as u16;
        let over = |exponent| line(width as u32, exponent, coefficients.clone());
        vec![over(exponent), over(0)]
    }

    /// -32768 beside 32767 and -32767; and where all entries are divisible, so that it
    /// would be refused by 11 after that.
    fn limit_and_past(&mut self) -> Vec<String> {
        let width = self.width();
        let mut ends: Vec<i16> = (0..4 << (2 * width))
            .map(|_| self.random.one_of(&[32767, -32767]))
            .collect();
        let within = line(width as u32, 0, ends.clone());
        let divisible = line(width as u32, 3, ends.clone());
        let place = self.random.below(ends.len());
        ends[place] = i16::MIN;
        let past = line(width as u32, 0, ends);
        let even = vec![i16::MIN; 4 << (2 * width)];
        vec![within, divisible, past, line(width as u32, 1, even)]
    }

    /// Twice as many places, or half as many.
    fn counted_in_bytes(&mut self) -> Vec<String> {
        let mut question = self.any_node();
        let length = question.coefficients.len();
        let most = 4 << (2 * MOST_WIDTH);
        let length = self.random.one_of(&[2 * length, length / 2]).min(most + 1);
        question.coefficients.resize(length, 0);
        vec![question.line()]
    }

    /// Too few places, or too many, or none.
    fn wrong_length(&mut self) -> Vec<String> {
        let mut question = self.any_node();
        let length = question.coefficients.len();
        let lengths = [0, length - 1, length - 4, length + 1, length + 4];
        let most = 4 << (2 * MOST_WIDTH);
        let length = self.random.one_of(&lengths).min(most + 1);
        question.coefficients.resize(length, i16::MIN);
        vec![question.line()]
    }

    fn too_wide(&mut self) -> Vec<String> {
        let mut question = self.any_node();
        question.width = self.random.one_of(&[6, 7, 32, 64, 256, 65536, 4294967295]);
        vec![question.line()]
    }

    fn width_0(&mut self) -> Vec<String> {
        let entries = [[1, 0, 0, 0], [0, 0, -1, 0], [0, 0, 0, 0], [5, 4, 3, 2]];
        let entry = self.random.one_of(&entries);
        let exponent = self.random.below(3) as u16;
        vec![line(0, exponent, entry.to_vec())]
    }

    /// An identity wider than the table.
    fn above(&mut self) -> Vec<String> {
        let wider = MOST_WIDTH.min(self.limits.qubits + 1);
        vec![self.turned(Matrix::identity(wider)).line()]
    }

    fn broken(&mut self) -> Vec<String> {
        vec![self.random.one_of(&BROKEN).to_owned()]
    }

    /// A list, which leaves the table as it is, and a node after it.
    fn between(&mut self) -> Vec<String> {
        let width = 1 + self.random.below(2);
        let gates = valid_gates(width);
        let codes = (0..3).map(|_| code_of(self.random.one_of(&gates)));
        let between = list(width, codes.collect()).line();
        vec![between, self.any_node().line()]
    }
}

fn wanted(width: u32, node: u32, places: u32) -> String {
    Wanted {
        width,
        node,
        places,
    }
    .line()
}

/// The same matrices, asked for their nodes.
pub(super) fn finds(lines: &[String]) -> Vec<String> {
    let matrices = lines.iter().filter_map(|line| line.strip_prefix("matrix "));
    matrices.map(|rest| format!("find {rest}")).collect()
}

fn line(width: u32, exponent: u16, coefficients: Vec<i16>) -> String {
    Question {
        width,
        exponent,
        coefficients,
    }
    .line()
}
