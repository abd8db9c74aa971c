//! Part of the mode `damage`: what `walks` builds with weakened fingerprints, which
//! clash. The port is not asked: its fingerprints cannot be weakened. In the mode that
//! keeps clashes a table must have each product of up to G gates once, up to phase, with
//! the fewest gates that it has; the products are counted here by their values alone, by
//! dense matrices, and no candidate is left out.

use std::io::{self, Write};

use super::damage::limits_of;
use super::exact::{LIMIT, Matrix};
use super::indexes::{same, sizes};
use super::lent::{Finding, Lookup, Mode, SCAN, Table, through};
use super::rules::{EMPTY, Verdict, search, verdicts, written};
use super::tables::Limits;
use super::tally::Tally;
use super::walks::{Manner, build, generators};

/// Q, G, E and B of the tables: with places for all products, for these exactly, and
/// for fewer.
const TABLES: [[u32; 4]; 17] = [
    [1, 8, 10, 24],
    [1, 8, 4, 24],
    [1, 8, 3, 24],
    [1, 8, 24, 9],
    [1, 8, 25, 9],
    [1, 8, 23, 9],
    [1, 8, 8, 32],
    [1, 5, 150, 383],
    [1, 7, 150, 97],
    [1, 7, 50, 97],
    [2, 3, 250, 265],
    [2, 3, 100, 265],
    [2, 2, 170, 3967],
    [2, 4, 60, 546],
    [3, 1, 40, 3967],
    [3, 3, 200, 2561],
    [3, 4, 60, 1024],
];

/// What fingerprints are taken modulo.
const WEAK: [u64; 4] = [1, 3, 16, 64];

/// What was built.
#[derive(Default)]
struct Sums {
    tables: usize,
    nodes: usize,
    clashing: usize,
    by_print: usize,
    products: usize,
    found: usize,
    later: usize,
}

/// Builds them, and writes a line of what came.
pub(super) fn run(tally: &mut Tally, out: &mut dyn Write) -> io::Result<()> {
    let mut sums = Sums::default();
    for limits in TABLES.map(limits_of) {
        let plain = built(limits, Manner::plain(Mode::ByPrint), None).0;
        let products: Vec<Vec<Vec<Matrix>>> = (1..=limits.qubits)
            .map(|width| products(width, limits))
            .collect();
        for layer in products.iter().flatten() {
            sums.products += layer.len();
        }
        for weak in WEAK {
            let manner = |mode| Manner {
                mode,
                weak: Some(weak),
                limit: LIMIT,
            };
            let by_print = built(limits, manner(Mode::ByPrint), None).0;
            for width in 1..=limits.qubits as usize {
                sums.by_print += by_print.count(width);
                if by_print.count(width) as u64 > weak {
                    tally.differs(format!("{} modulo {weak}: too many", limits.line()));
                }
            }
            let (by_scan, _) = built(limits, manner(Mode::Keeping), None);
            let size = limits.qubits as usize * sizes(limits.entries)[0];
            let (table, index) = built(limits, manner(Mode::Keeping), Some(size));
            if !same(&table, &by_scan) {
                tally.differs(format!("{} modulo {weak}: by index", limits.line()));
            }
            // The nodes are those with fingerprints that do not clash.
            if table.parents != plain.parents
                || table.codes != plain.codes
                || table.record != plain.record
            {
                tally.differs(format!("{} modulo {weak}: nodes", limits.line()));
            }
            sums.tables += 1;
            for width in 1..=limits.qubits {
                let layers = &products[width as usize - 1];
                if let Err(what) = each_once(&table, width, layers) {
                    tally.differs(format!("{} modulo {weak}: {what}", limits.line()));
                }
                let lookups = [SCAN, through(&index)];
                for lookup in lookups {
                    ask(&table, lookup, width, weak, &mut sums, tally);
                }
                sums.nodes += table.count(width as usize);
            }
        }
    }
    let Sums {
        tables,
        nodes,
        clashing,
        by_print,
        products,
        found,
        later,
    } = sums;
    writeln!(
        out,
        "weakened fingerprints, without the port: {tables} tables of {nodes} nodes, {clashing} of them with the fingerprint of a lower one; by fingerprint {by_print} nodes; {products} products counted; {found} finds of a node by its own product, {later} of them after others"
    )
}

/// A table of `walks` in arrays that hold nothing, by the scan or through an index of
/// so many places.
fn built(limits: Limits, manner: Manner, places: Option<usize>) -> (Table, Vec<u32>) {
    let size = limits.qubits as usize * limits.entries as usize;
    let lent = Table::with_places(limits, size);
    let index = vec![0; places.unwrap_or(0)];
    let lookup = match places {
        Some(_) => through(&index),
        None => SCAN,
    };
    build(&lent, manner, lookup).expect("the limits are not refused")
}

/// The products of lists of up to G gates, up to phase, by the fewest gates of each:
/// every one of a layer with every generator after it, where none of the layers has it
/// yet. No list of up to 29 gates is too large.
fn products(width: u32, limits: Limits) -> Vec<Vec<Matrix>> {
    let gates: Vec<Matrix> = generators(limits.basis, width)
        .into_iter()
        .map(|code| Matrix::of_gate(width, code))
        .collect();
    let mut layers = vec![vec![Matrix::identity(width)]];
    for _ in 0..limits.gates {
        let mut layer: Vec<Matrix> = Vec::new();
        for matrix in &layers[layers.len() - 1] {
            for gate in &gates {
                let product = gate.product(matrix);
                let known = |other: &Matrix| other.is_power_of_omega_times(&product);
                if !layers.iter().flatten().chain(&layer).any(known) {
                    layer.push(product);
                }
            }
        }
        if layer.is_empty() {
            break;
        }
        layers.push(layer);
    }
    layers
}

/// Whether the nodes of a width have each product once, with the fewest gates that it
/// has; where the width is saturated, the first E that there are of the lowest layers.
fn each_once(table: &Table, width: u32, layers: &[Vec<Matrix>]) -> Result<(), String> {
    let row = &table.record[3 * (width as usize - 1)..][..3];
    let (count, depth, saturated) = (row[0] as usize, row[1] as usize, row[2] != 0);
    let total: usize = layers.iter().map(Vec::len).sum();
    if saturated != (total > table.limits.entries as usize)
        || count != total.min(table.limits.entries as usize)
    {
        return Err(format!("width {width}: {count} of {total} products"));
    }
    // A depth that added nothing is completed too; without generators there is none.
    let walked = match generators(table.limits.basis, width).is_empty() {
        true => 0,
        false => layers.len().min(table.limits.gates as usize),
    };
    if !saturated && depth != walked {
        return Err(format!("width {width}: completed depth {depth}"));
    }
    let mut met: Vec<Vec<bool>> = layers
        .iter()
        .map(|layer| vec![false; layer.len()])
        .collect();
    for node in 0..count {
        let list = written(table, width, node).ok_or("a bad chain")?;
        let product =
            Matrix::of_list(width, &list, LIMIT).map_err(|_| "a node that does not fit")?;
        let layer = layers.get(list.len()).ok_or("a node that is too deep")?;
        let same = |place: &usize| layer[*place].is_power_of_omega_times(&product);
        let place = (0..layer.len()).find(same).ok_or("a shorter one exists")?;
        if met[list.len()][place] {
            return Err(format!("width {width} node {node}: met before"));
        }
        met[list.len()][place] = true;
    }
    // All layers below the deepest node's are whole.
    let last = written(table, width, count - 1).ok_or("a bad chain")?.len();
    match met[..last].iter().flatten().all(|met| *met) {
        true => Ok(()),
        false => Err(format!("width {width}: one is missing")),
    }
}

/// Each node's product finds the node, by `rules`, with the weakened fingerprint.
fn ask(table: &Table, lookup: Lookup, width: u32, weak: u64, sums: &mut Sums, tally: &mut Tally) {
    let start = (width as usize - 1) * table.limits.entries as usize;
    let prints = &table.fingerprints[start..][..table.count(width as usize)];
    for node in 0..prints.len() {
        let list = written(table, width, node).expect("a table as it was built");
        let product = Matrix::of_list(width, &list, LIMIT).expect("a node fits");
        let print = product.fingerprint() % weak;
        let found = match search(table, lookup, &product, print) {
            Some((node, Verdict::Answers(list))) => Finding::Node(node, list.len()),
            Some(_) => Finding::Refused(13),
            None => Finding::None,
        };
        if print != prints[node] || found != Finding::Node(node, list.len()) {
            tally.differs(format!("node {node} modulo {weak}: {found:?}"));
        }
        sums.found += 1;
        let first = verdicts(table, lookup, &product, print).next();
        sums.later += usize::from(first.is_some_and(|(first, _)| first != node));
        if lookup.index.is_empty() {
            sums.clashing += usize::from(prints[..node].contains(&print));
        }
    }
    // What no node has is not found, whatever has its fingerprint.
    let mut other = Matrix::identity(width);
    other.exponent = EMPTY % 65536;
    if let Some(found) = search(table, lookup, &other, prints[0]) {
        tally.differs(format!("modulo {weak}, no node's: {found:?}"));
    }
}
