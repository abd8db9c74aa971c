//! The queries of a run of the program `circuits`: lists as lines of numbers.

use super::codes::{code_of, valid_gates};
use super::far;
use super::further;
use super::inputs::{MOST_GATES, TRAP, foreign_codes, list};
use super::lent::Table;
use super::lists::{List, MOST_WIDTH};
use super::random::Random;
use super::rules::written;
use super::tables::Limits;
use crate::circuit::GateSet;
use crate::super_opt::murm::{LibraryGate as Gate, library_gates};

/// A table at hand, and what its queries are chosen by.
pub(super) struct Asker {
    pub(super) limits: Limits,
    pub(super) table: Table,
    pub(super) random: Random,
    /// What every second query may be.
    pub(super) also: Also,
}

/// What queries there are beside lists of the eleven kinds, mostly short ones.
#[derive(Clone, Copy, PartialEq)]
pub(super) enum Also {
    Nothing,
    /// Lists with the six kinds that no table has.
    Further,
    /// Lists whose coefficients pass 127.
    Far,
}

type Sort = fn(&mut Asker) -> List;

/// Each sort of query, and how many of forty are of it.
const SORTS: &[(Sort, usize)] = &[
    (Asker::node, 8),
    (Asker::lengthened, 6),
    (Asker::product, 8),
    (Asker::foreign, 5),
    (Asker::identity, 2),
    (Asker::eightfold, 2),
    (Asker::above, 2),
    (Asker::width_0, 2),
    (Asker::too_wide, 1),
    (Asker::not_valid, 2),
    (Asker::trap, 1),
];

/// The sorts of queries with the six kinds, each as likely.
const FURTHER_SORTS: &[Sort] = &[
    Asker::further_gate,
    Asker::further_lengthened,
    Asker::further_lengthened,
    Asker::further_product,
    Asker::further_product,
    Asker::further_growing,
    Asker::further_not_valid,
];

/// The sorts of queries whose coefficients pass 127, each as likely.
const FAR_SORTS: &[Sort] = &[
    Asker::returning,
    Asker::returning_node,
    Asker::returning_node,
    Asker::far_growing,
];

impl Asker {
    /// A query line, now and then a spoilt one.
    pub(super) fn query(&mut self) -> String {
        let also = match self.also {
            Also::Nothing => None,
            Also::Further => Some(FURTHER_SORTS),
            Also::Far => Some(FAR_SORTS),
        };
        if let Some(sorts) = also
            && self.random.below(2) == 0
        {
            let sort = self.random.one_of(sorts);
            return sort(self).numbers();
        }
        let mut choice = self.random.below(40);
        for (sort, share) in SORTS {
            if choice < *share {
                return sort(self).numbers();
            }
            choice -= share;
        }
        let line = self.node().numbers();
        let spoilt = [
            format!("{line} "),
            format!("{line} 0"),
            line.replacen(' ', "  ", 1),
            line.replacen('1', "l", 1),
            line[..line.len() - 1].to_owned(),
            String::new(),
        ];
        spoilt[self.random.below(spoilt.len())].clone()
    }

    /// A width that the table has.
    fn width(&mut self) -> usize {
        1 + self.random.below(self.limits.qubits as usize)
    }

    /// The list of a node, the last or any.
    fn node(&mut self) -> List {
        let width = self.width();
        let count = self.table.count(width);
        let node = match self.random.below(4) {
            0 => count - 1,
            _ => self.random.below(count),
        };
        let codes = written(&self.table, width as u32, node);
        list(width, codes.expect("a table as it was built"))
    }

    /// The list of a node with gates in it that cancel, of any kinds.
    fn lengthened(&mut self) -> List {
        let mut longer = self.node();
        let gates = valid_gates(longer.width as usize);
        for _ in 0..1 + self.random.below(3) {
            let gate = self.random.one_of(&gates);
            let inverse = gates.iter().find(|other| other.is_inverse_of(gate));
            let inverse = *inverse.expect("every gate has an inverse");
            let place = self.random.below(longer.codes.len() + 1);
            longer
                .codes
                .splice(place..place, [gate, inverse].map(code_of));
        }
        longer
    }

    /// Gates of the basis, up to twice as many as the table's lists have.
    fn product(&mut self) -> List {
        let width = self.width();
        let gates = library_gates(width, GateSet::from_bits_const(self.limits.basis));
        let most = 16.min(2 * self.limits.gates as usize + 1);
        self.of_gates(width, &gates, most)
    }

    /// Any gates.
    fn foreign(&mut self) -> List {
        let width = self.width();
        let most = self.random.one_of(&[1, 2, 4, 16]);
        self.of_gates(width, &valid_gates(width), most)
    }

    fn of_gates(&mut self, width: usize, gates: &[Gate], most: usize) -> List {
        let count = match gates {
            [] => 0,
            _ => self.random.below(most + 1),
        };
        let codes = (0..count).map(|_| code_of(self.random.one_of(gates)));
        list(width, codes.collect())
    }

    fn identity(&mut self) -> List {
        list(self.width(), Vec::new())
    }

    /// One gate eight times: the identity.
    fn eightfold(&mut self) -> List {
        let width = self.width();
        let code = code_of(self.random.one_of(&valid_gates(width)));
        list(width, vec![code; 8])
    }

    /// A list that is wider than the table, where there is room.
    fn above(&mut self) -> List {
        let wider = MOST_WIDTH.min(self.limits.qubits + 1) as usize;
        self.of_gates(wider, &valid_gates(wider), 3)
    }

    /// Width 0, where no code is valid.
    fn width_0(&mut self) -> List {
        list(0, vec![0; self.random.below(3) / 2])
    }

    fn too_wide(&mut self) -> List {
        let mut wide = self.node();
        wide.width = self.random.one_of(&[6, 7, 32, 256, 65536, 4294967295]);
        wide
    }

    /// One code of a product is none of a library gate.
    fn not_valid(&mut self) -> List {
        let mut broken = self.foreign();
        let bad = foreign_codes(broken.width as usize);
        let place = self.random.below(broken.codes.len() + 1);
        broken.codes.insert(place, self.random.one_of(&bad));
        broken
    }

    /// A list at which the original overflows, with gates before it that do not change
    /// that, and sometimes a code after it that is not valid.
    fn trap(&mut self) -> List {
        let traps = trapped();
        let trap = &traps[self.random.below(traps.len())];
        let before = vec![0; 2 * self.random.below(3)];
        list(self.width(), [&before, &trap[..]].concat())
    }

    /// One gate of the six kinds.
    fn further_gate(&mut self) -> List {
        let width = self.width();
        list(width, vec![further::further_code(width, &mut self.random)])
    }

    /// The list of a node with one gate of the six kinds in it four times, which
    /// is the identity.
    fn further_lengthened(&mut self) -> List {
        let mut longer = self.node();
        let code = further::further_code(longer.width as usize, &mut self.random);
        let place = self.random.below(longer.codes.len() + 1);
        longer.codes.splice(place..place, [code; 4]);
        longer
    }

    /// Gates of all kinds.
    fn further_product(&mut self) -> List {
        let width = self.width();
        let most = self.random.one_of(&[2, 4, 16]);
        list(width, further::any_codes(width, most, &mut self.random))
    }

    /// A list at which the original mostly overflows.
    fn further_growing(&mut self) -> List {
        let width = self.width();
        list(width, further::growing_codes(width, &mut self.random))
    }

    /// A list, its inverse, and up to three gates.
    fn returning(&mut self) -> List {
        let width = self.width();
        list(width, far::returning_codes(width, &mut self.random))
    }

    /// A list, its inverse, and the list of a node.
    fn returning_node(&mut self) -> List {
        let mut longer = self.node();
        let width = longer.width as usize;
        let mut codes = far::there_and_back(width, &mut self.random);
        codes.truncate(MOST_GATES - longer.codes.len());
        codes.append(&mut longer.codes);
        list(width, codes)
    }

    /// A list that mostly passes 127, and may pass 32767.
    fn far_growing(&mut self) -> List {
        let width = self.width();
        let count = 40 + self.random.below(MOST_GATES - 39);
        list(
            width,
            further::growing_codes_of(width, count, &mut self.random),
        )
    }

    /// One code of the six kinds is not valid.
    fn further_not_valid(&mut self) -> List {
        let mut broken = self.further_product();
        let bad = further::invalid_codes(broken.width as usize);
        let place = self.random.below(broken.codes.len() + 1);
        broken.codes.insert(place, self.random.one_of(&bad));
        broken
    }
}

/// The trap, at which the original overflows, and what begins with it: refused by 7
/// where a code after it is not valid.
pub(super) fn trapped() -> Vec<Vec<u32>> {
    vec![
        TRAP[..51].to_vec(),
        TRAP.to_vec(),
        [&TRAP[..], &[0]].concat(),
        [&TRAP[..], &[4096, 20480]].concat(),
        [&TRAP[..], &[28672]].concat(),
        [&TRAP[..], &[0, 0, 4294967295]].concat(),
    ]
}
