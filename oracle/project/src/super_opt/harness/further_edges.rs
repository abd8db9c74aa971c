//! Lists that come to the original's limit of 127, and lists that just pass it, at an
//! Sx or a Ch. They are found as in `edges`: before each such gate the coefficients
//! that it will form are worked out from the matrix as it stands.

use super::codes::{list_codes, list_codes_of};
use super::edges::{EDGES, Edge, edge_of};
use super::exact::{Entry, Matrix, ORIGINAL_LIMIT, divided_by_root, divisible, most};
use super::inputs::list;
use super::lists::List;
use super::random::Random;
use super::refusals::{Cause, cause, parted};
use crate::circuit::GateKind as Kind;

/// How many lists of each sort are looked for at a width, and the most gates of
/// one.
const WANTED: usize = 8;
const GATES: usize = 100;

/// How many walks are made at a width; fewer where one takes longer.
const WALKS: [usize; 5] = [4000, 4000, 4000, 2000, 500];

/// Where the largest coefficient is: in the first or the second H of an Sx, in
/// the active or the inactive rows of a Ch.
pub(super) const PARTS: [Cause; 4] = [
    Cause::SxFirst,
    Cause::SxSecond,
    Cause::ChActive,
    Cause::ChInactive,
];

/// A list whose last gate is an edge.
#[derive(Clone)]
pub(super) struct Found {
    pub(super) part: Cause,
    pub(super) edge: Edge,
    pub(super) width: usize,
    pub(super) codes: Vec<u32>,
}

impl Found {
    /// The list without its last gate, the list, and what may follow it; where
    /// the gate is an Sx, also the H, S and H that it is made of.
    pub(super) fn around(&self) -> Vec<List> {
        let (&last, before) = self.codes.split_last().expect("a gate");
        let mut lists = vec![
            before.to_vec(),
            self.codes.clone(),
            [&self.codes[..], &[4096]].concat(),
            [&self.codes[..], &[last]].concat(),
            [&self.codes[..], &[4294967295]].concat(),
        ];
        if matches!(self.part, Cause::SxFirst | Cause::SxSecond) {
            let qubit = last % 4096;
            let made_of = [qubit, Kind::S as u32 * 4096 + qubit, qubit];
            lists.push([before, &made_of[..1]].concat());
            lists.push([before, &made_of[..]].concat());
        }
        let listed = |codes| list(self.width, codes);
        lists.into_iter().map(listed).collect()
    }

    /// The list without its last gate, and the list.
    pub(super) fn ends(&self) -> Vec<List> {
        self.around().into_iter().take(2).collect()
    }
}

pub(super) fn lists() -> Vec<List> {
    let found = (1..=5).flat_map(search);
    found.flat_map(|found| found.around()).collect()
}

/// Walks until enough lists of each sort are found, or no walk is left. A walk
/// goes by T or Tdg on a qubit and H, Sx or Ch there, with other gates between.
pub(super) fn search(width: usize) -> Vec<Found> {
    let mut random = Random::new(400 + width as u64);
    let any = list_codes(width);
    let asked = [Kind::Sx, Kind::Ch].map(|kind| list_codes_of(kind, width));
    let asked: Vec<u32> = asked.concat();
    let mixers: Vec<u32> = [&list_codes_of(Kind::H, width)[..], &asked].concat();
    let parts = PARTS
        .into_iter()
        .filter(|part| width > 1 || matches!(part, Cause::SxFirst | Cause::SxSecond));
    let wanted: Vec<(Cause, Edge)> = parts
        .flat_map(|part| EDGES.map(|edge| (part, edge)))
        .collect();
    let mut found: Vec<Found> = Vec::new();
    let enough = |found: &[Found], sort: &(Cause, Edge)| {
        let same = |one: &&Found| (one.part, one.edge) == *sort;
        found.iter().filter(same).count() >= WANTED
    };
    for _ in 0..WALKS[width - 1] {
        if wanted.iter().all(|sort| enough(&found, sort)) {
            break;
        }
        let mut matrix = Matrix::identity(width as u32);
        let mut codes = Vec::new();
        while codes.len() < GATES {
            let mixer = random.one_of(&mixers);
            let turn = random.one_of(&[Kind::T, Kind::Tdg]) as u32 * 4096;
            let mut gates = vec![turn + 256 * target(mixer), mixer];
            if random.below(6) == 0 {
                gates.insert(0, random.one_of(&any));
            }
            let fits = gates.iter().all(|&code| {
                codes.push(code);
                matrix.step(code, ORIGINAL_LIMIT)
            });
            if !fits {
                break;
            }
            for (code, part, edge) in look(&matrix, &asked, ORIGINAL_LIMIT) {
                if wanted.contains(&(part, edge)) && !enough(&found, &(part, edge)) {
                    let codes = [&codes[..], &[code]].concat();
                    let one = Found {
                        part,
                        edge,
                        width,
                        codes,
                    };
                    check(&one, ORIGINAL_LIMIT);
                    found.push(one);
                }
            }
        }
    }
    found
}

/// What passes a limit must be refused within it, for the part that passes it; by the
/// original too, where the limit is its own.
pub(super) fn check(found: &Found, limit: i64) {
    let told = cause(&list(found.width, found.codes.clone()), limit);
    let fits = matches!(found.edge, Edge::Reaches | Edge::ReachesBelow);
    match found.part {
        // What comes to the limit in the first H may pass it in the second.
        Cause::SxFirst if fits => assert!(told != Some(Cause::SxFirst)),
        _ if fits => assert!(told.is_none()),
        part => assert!(told == Some(part)),
    }
}

/// The qubit that an H, an Sx or a Ch acts on.
pub(super) fn target(code: u32) -> u32 {
    match code / 4096 == Kind::Ch as u32 {
        true => code / 16 % 16,
        false => code / 256 % 16,
    }
}

/// The edges of a limit that these gates come to after the matrix.
pub(super) fn look(matrix: &Matrix, asked: &[u32], limit: i64) -> Vec<(u32, Cause, Edge)> {
    // Each of the two H of an Sx at most doubles the largest coefficient.
    if 4 * most(&matrix.entries) < limit {
        return Vec::new();
    }
    let mut edges = Vec::new();
    for &code in asked {
        let found = match code / 4096 {
            kind if kind == Kind::H as u32 => look_at_h(matrix, code, limit),
            kind if kind == Kind::Sx as u32 => look_at_sx(matrix, code, limit),
            kind if kind == Kind::Ch as u32 => look_at_ch(matrix, code, limit),
            _ => panic!("only H, Sx and Ch are asked"),
        };
        edges.extend(found.map(|(part, edge)| (code, part, edge)));
    }
    edges
}

fn look_at_h(matrix: &Matrix, code: u32, limit: i64) -> Option<(Cause, Edge)> {
    sole_edge(&matrix.raw(code).entries, &[], limit).map(|edge| (Cause::H, edge))
}

fn look_at_sx(matrix: &Matrix, code: u32, limit: i64) -> Option<(Cause, Edge)> {
    let (h, s) = (code % 4096, Kind::S as u32 * 4096 + code % 4096);
    if let Some((_, edge)) = look_at_h(matrix, h, limit) {
        return Some((Cause::SxFirst, edge));
    }
    let mut after = matrix.clone();
    if !after.step(h, limit) || !after.step(s, limit) {
        return None;
    }
    look_at_h(&after, h, limit).map(|(_, edge)| (Cause::SxSecond, edge))
}

fn look_at_ch(matrix: &Matrix, code: u32, limit: i64) -> Option<(Cause, Edge)> {
    let (active, inactive) = parted(&matrix.raw(code), code);
    let in_active = sole_edge(&active, &inactive, limit).map(|edge| (Cause::ChActive, edge));
    let in_inactive = || sole_edge(&inactive, &active, limit).map(|edge| (Cause::ChInactive, edge));
    in_active.or_else(in_inactive)
}

/// The edge that the first entries come to, where the others, which the same gate
/// forms, do not come so far.
fn sole_edge(raw: &[Entry], others: &[Entry], limit: i64) -> Option<Edge> {
    match edge_of(raw, limit) {
        Some(edge @ (Edge::Reaches | Edge::ReachesBelow)) => (most(others) < limit).then_some(edge),
        Some(edge @ (Edge::Passes | Edge::PassesBelow)) => (most(others) <= limit).then_some(edge),
        _ if most(raw) > limit && most(others) <= limit => {
            let mut lowered = [raw, others].concat();
            while most(&lowered) > limit && lowered.iter().all(divisible) {
                lowered = lowered.into_iter().map(divided_by_root).collect();
            }
            (most(&lowered) <= limit).then_some(Edge::FitsLowered)
        }
        _ => None,
    }
}
