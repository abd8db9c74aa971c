//! Lists that come to the original's limit of 127, and lists that just pass it, up to
//! which the original is the measure. They are found by random walks: before each H
//! the sums and differences that it will form are worked out from the matrix as it
//! stands, and the original must refuse what passes 127.

use super::codes::{code_of, list_gate, valid_gates};
use super::exact::{Entry, Matrix, ORIGINAL_LIMIT, divisible, most};
use super::inputs::{MOST_GATES, list, valid_codes};
use super::lists::{List, product};
use super::random::Random;
use crate::super_opt::murm::LibraryGate as Gate;

/// How many lists of each sort are looked for at a width, in how many walks.
const WANTED: usize = 8;
const WALKS: usize = 4000;

/// What a gate comes to, held against a limit. The last three do not fit.
#[derive(Clone, Copy, Debug, PartialEq)]
pub(super) enum Edge {
    /// The limit and nothing larger, and not its negative.
    Reaches,
    /// Its negative and nothing smaller, and not the limit.
    ReachesBelow,
    /// One past the limit and nothing larger, and no less than its negative.
    Passes,
    /// One past its negative and nothing smaller, and no more than the limit.
    PassesBelow,
    /// Too large before lowering, and not after.
    FitsLowered,
}

pub(super) const EDGES: [Edge; 5] = [
    Edge::Reaches,
    Edge::ReachesBelow,
    Edge::Passes,
    Edge::PassesBelow,
    Edge::FitsLowered,
];

/// The lists found at every width, and what can follow or precede their end.
pub(super) fn lists() -> Vec<List> {
    let mut lists = Vec::new();
    for width in 1..=5 {
        let mut random = Random::new(100 + width as u64);
        let found = search(width, &mut random);
        for edge in EDGES {
            for (_, codes) in found.iter().filter(|(other, _)| *other == edge) {
                let around = match edge {
                    Edge::Reaches | Edge::ReachesBelow => reached(width, codes, &mut random),
                    _ => passed(codes),
                };
                lists.extend(around.into_iter().map(|codes| list(width, codes)));
            }
        }
    }
    lists
}

/// The list, and each gate after it: all of them at the widths 1 and 2, else
/// every H and some others.
fn reached(width: usize, codes: &[u32], random: &mut Random) -> Vec<Vec<u32>> {
    let mut lists = vec![codes.to_vec()];
    for code in valid_codes(width) {
        if width <= 2 || code < 4096 || random.below(12) == 0 {
            lists.push([codes, &[code]].concat());
        }
    }
    lists
}

/// The list that is refused at its end, the same without its end, and with a
/// valid and an invalid code after it.
fn passed(codes: &[u32]) -> Vec<Vec<u32>> {
    vec![
        codes[..codes.len() - 1].to_vec(),
        codes.to_vec(),
        [codes, &[4096]].concat(),
        [codes, &[4294967295]].concat(),
    ]
}

/// Walks until enough lists of each sort are found, or no walk is left. A walk
/// goes by T or Tdg and H on one qubit, which lets coefficients grow, with other
/// gates between.
fn search(width: usize, random: &mut Random) -> Vec<(Edge, Vec<u32>)> {
    let others: Vec<Gate> = valid_gates(width)
        .into_iter()
        .filter(|gate| !matches!(gate, Gate::H(_)))
        .collect();
    let mut found = Found::default();
    for _ in 0..WALKS {
        if EDGES.into_iter().all(|edge| found.enough(edge)) {
            break;
        }
        let mut matrix = Matrix::identity(width as u32);
        let mut codes = Vec::new();
        // Places are left for what may follow.
        while codes.len() + 5 < MOST_GATES {
            let qubit = random.below(width) as u8;
            let turn = random.one_of(&[Gate::T(qubit), Gate::Tdg(qubit)]);
            let mut gates = vec![turn, Gate::H(qubit)];
            if random.below(4) == 0 {
                gates.insert(0, random.one_of(&others));
            }
            let fits = gates.iter().all(|&gate| {
                codes.push(code_of(gate));
                matrix.step(code_of(gate), ORIGINAL_LIMIT)
            });
            if !fits {
                break;
            }
            found.look(&matrix, width, &codes);
        }
    }
    found.lists
}

#[derive(Default)]
struct Found {
    lists: Vec<(Edge, Vec<u32>)>,
}

impl Found {
    fn enough(&self, edge: Edge) -> bool {
        let same = |(other, _): &&(Edge, Vec<u32>)| *other == edge;
        self.lists.iter().filter(same).count() >= WANTED
    }

    /// Looks at H on each qubit, after the list whose matrix this is.
    fn look(&mut self, matrix: &Matrix, width: usize, codes: &[u32]) {
        // No sum comes near the limit.
        if 2 * most(&matrix.entries) < ORIGINAL_LIMIT {
            return;
        }
        for qubit in 0..width as u8 {
            let h = code_of(Gate::H(qubit));
            let Some(edge) = edge_of(&matrix.raw(h).entries, ORIGINAL_LIMIT) else {
                continue;
            };
            if self.enough(edge) {
                continue;
            }
            let codes = [codes, &[h]].concat();
            let refused = !matches!(edge, Edge::Reaches | Edge::ReachesBelow);
            assert_ne!(refused, fits(width, &codes), "it refuses what passes 127");
            self.lists.push((edge, codes));
        }
    }
}

/// Whether a list fits, by the original.
fn fits(width: usize, codes: &[u32]) -> bool {
    let gate = |&code: &u32| list_gate(code, width).expect("a valid code");
    let gates: Vec<_> = codes.iter().map(gate).collect();
    product(width, &gates).is_ok()
}

/// What an H comes to that forms these entries, where it is one of the edges.
pub(super) fn edge_of(raw: &[Entry], limit: i64) -> Option<Edge> {
    let most = *raw.iter().flatten().max()?;
    let least = *raw.iter().flatten().min()?;
    if most == limit && least > -limit {
        return Some(Edge::Reaches);
    }
    if most < limit && least == -limit {
        return Some(Edge::ReachesBelow);
    }
    if most == limit + 1 && least >= -limit {
        return Some(Edge::Passes);
    }
    if most <= limit && least == -limit - 1 {
        return Some(Edge::PassesBelow);
    }
    let large = most.max(-least) > limit;
    (large && raw.iter().all(divisible)).then_some(Edge::FitsLowered)
}
