//! What a table answers, written from the documents alone, docs/SPECIFICATION.md
//! and the request that has clashing fingerprints both kept: nothing here is the
//! original's or the port's. Matrices are those of `exact`, within 32767.

use std::iter;

use super::exact::{LIMIT, Matrix, divisible, gate};
use super::lent::{By, Finding, Lookup, Reply, Table};
use super::tables::Limits;

pub(super) const MARK: u32 = 4294967295;

/// A place of an index that holds no node.
pub(super) const EMPTY: u32 = 4294967295;

/// A matrix as it is asked, with its value and its fingerprint where its width
/// and length allow one.
pub(super) struct Asked {
    pub(super) width: u32,
    pub(super) exponent: u16,
    pub(super) coefficients: Vec<i16>,
    pub(super) value: Option<(Matrix, u64)>,
}

impl Asked {
    pub(super) fn new(width: u32, exponent: u16, coefficients: Vec<i16>) -> Self {
        let exact = width <= 5 && coefficients.len() == 4 << (2 * width);
        let value = exact.then(|| {
            let matrix = Matrix::of_coefficients(width, exponent, &coefficients);
            let fingerprint = matrix.fingerprint();
            (matrix, fingerprint)
        });
        Self {
            width,
            exponent,
            coefficients,
            value,
        }
    }
}

/// "13 for a record whose limits break 1 to 4 or whose count at any width up to
/// Q is 0 or above E".
pub(super) fn bad_record(table: &Table) -> bool {
    let limits = table.limits;
    let bad_count = |width: u32| {
        let count = table.record[3 * (width as usize - 1)];
        count == 0 || count > u64::from(limits.entries)
    };
    limits.qubits < 1
        || limits.qubits > 5
        || limits.entries == 0
        || limits.basis == 0
        || limits.basis & !3967 != 0
        || limits.gates > 64
        || limits.entries > 1_000_000
        || (1..=limits.qubits).any(bad_count)
}

/// Why a chain is bad.
#[derive(Clone, Copy, Debug, PartialEq)]
pub(super) enum Bad {
    /// A parent that is not below its node.
    Parent,
    /// A code that is not valid.
    Code,
    /// A code that is not of the basis.
    Basis,
    /// More than G gates.
    Length,
    /// Node 0 without its marks.
    Marks,
}

/// The list of a node, read by walking parents; or what is first met that makes the
/// chain bad.
fn chain(table: &Table, width: u32, node: usize) -> Result<Vec<u32>, Bad> {
    let start = (width as usize - 1) * table.limits.entries as usize;
    let mut list = Vec::new();
    let mut node = node;
    while node != 0 {
        let (parent, code) = (table.parents[start + node], table.codes[start + node]);
        let (kind, _) = gate(code, width).ok_or(Bad::Code)?;
        if table.limits.basis >> kind.number & 1 == 0 {
            return Err(Bad::Basis);
        }
        if list.len() == table.limits.gates as usize {
            return Err(Bad::Length);
        }
        if parent as usize >= node {
            return Err(Bad::Parent);
        }
        list.push(code);
        node = parent as usize;
    }
    list.reverse();
    let marks = table.parents[start] == MARK && table.codes[start] == MARK;
    marks.then_some(list).ok_or(Bad::Marks)
}

/// What is tried first, whatever is asked of a lent table: 13 of the record, then 5.
fn table_refused(table: &Table) -> Option<u64> {
    if bad_record(table) {
        return Some(13);
    }
    let places = table.limits.qubits as usize * table.limits.entries as usize;
    let lengths = [
        table.fingerprints.len(),
        table.parents.len(),
        table.codes.len(),
    ];
    let short = lengths.into_iter().any(|length| length < places);
    short.then_some(5)
}

/// What is tried of a matrix: 6, 9, 10, 11.
pub(super) fn query_refused(asked: &Asked) -> Option<u64> {
    if asked.width > 5 {
        return Some(6);
    }
    let Some((matrix, _)) = &asked.value else {
        return Some(9);
    };
    if matrix.entries.iter().flatten().any(|&one| one < -LIMIT) {
        return Some(10);
    }
    let lowest = asked.exponent == 0 || !matrix.entries.iter().all(divisible);
    (!lowest).then_some(11)
}

/// How many places each part of an index has. Nothing where the index is not Q
/// equal parts, each a power of two in size and at least twice E. Q is not 0.
pub(super) fn part_size(limits: &Limits, places: usize) -> Option<usize> {
    let size = places / limits.qubits as usize;
    let whole = size * limits.qubits as usize == places;
    let enough = size as u64 >= 2 * u64::from(limits.entries);
    (whole && enough && size.is_power_of_two()).then_some(size)
}

/// What is tried of a lent table and then, where nodes are looked up through an
/// index, of that: 17.
fn lent_refused(table: &Table, lookup: Lookup) -> Option<u64> {
    table_refused(table).or_else(|| match lookup.by {
        By::Scan => None,
        By::Index => {
            let parts = part_size(&table.limits, lookup.index.len());
            parts.is_none().then_some(17)
        }
    })
}

/// The places of a part in the order in which they are looked at: onward from
/// the fingerprint's low bits, round the part, each once.
pub(super) fn probe(size: usize, fingerprint: u64) -> impl Iterator<Item = usize> {
    let low = (fingerprint % size as u64) as usize;
    (low..size).chain(0..low)
}

/// A node goes to the first empty place. There is one: at least half of a part
/// is empty.
pub(super) fn put_in(part: &mut [u32], fingerprint: u64, node: usize) {
    let empty = probe(part.len(), fingerprint).find(|&place| part[place] == EMPTY);
    part[empty.expect("an empty place")] = node as u32;
}

/// The node that a part of an index, which may hold anything, leads to from a start
/// on: the first on the probe's way that is not below the start, is one of the
/// width's and has the fingerprint. An empty place ends it. Any other number at or
/// above the count is passed over, and so are a number below the start and a node
/// with another fingerprint. It ends too when every place was looked at.
pub(super) fn led_to(
    part: &[u32],
    prints: &[u64],
    fingerprint: u64,
    start: usize,
) -> Option<usize> {
    probe(part.len(), fingerprint)
        .map(|place| part[place])
        .take_while(|&held| held != EMPTY)
        .map(|held| held as usize)
        .find(|&node| node >= start && node < prints.len() && prints[node] == fingerprint)
}

/// What a fill leaves of an index of so many places, whatever it held: empty, and
/// then the nodes of each width put in its part, rising. Refused by 13 of the
/// record, 5 and 17.
pub(super) fn fill(table: &Table, places: usize) -> Result<Vec<u32>, u64> {
    if let Some(number) = table_refused(table) {
        return Err(number);
    }
    let size = part_size(&table.limits, places).ok_or(17u64)?;
    let mut index = vec![EMPTY; places];
    for (width, part) in (1..).zip(index.chunks_exact_mut(size)) {
        for (node, &print) in prints_of(table, width).iter().enumerate() {
            put_in(part, print, node);
        }
    }
    Ok(index)
}

/// How many entries a width has. One of 0 or above Q has none, whatever the
/// record says of it.
fn entry_count(table: &Table, width: u32) -> usize {
    match width {
        0 => 0,
        _ if width > table.limits.qubits => 0,
        _ => table.record[3 * (width as usize - 1)] as usize,
    }
}

/// The fingerprints of a width's nodes. The table is not refused.
pub(super) fn prints_of(table: &Table, width: u32) -> &[u64] {
    let count = entry_count(table, width);
    if count == 0 {
        return &[];
    }
    let start = (width as usize - 1) * table.limits.entries as usize;
    &table.fingerprints[start..][..count]
}

/// The node of a width that a fingerprint is looked up to from a start on: by the
/// scan the lowest not below the start that has it. Neither table nor index is
/// refused.
fn looked_up(
    table: &Table,
    lookup: Lookup,
    width: u32,
    fingerprint: u64,
    start: usize,
) -> Option<usize> {
    let prints = prints_of(table, width);
    match lookup.by {
        By::Scan => (start..prints.len()).find(|&node| prints[node] == fingerprint),
        // A width without nodes has no part.
        By::Index if prints.is_empty() => None,
        By::Index => {
            let part = part_of(table, lookup.index, width);
            led_to(part, prints, fingerprint, start)
        }
    }
}

/// The nodes with a fingerprint in the order in which they are looked at: the one
/// that it is looked up to from 0 on, and after each the one from the next number
/// on. So they rise, and are at most as many as the width has entries.
pub(super) fn looked_at<'a>(
    table: &'a Table,
    lookup: Lookup<'a>,
    width: u32,
    fingerprint: u64,
) -> impl Iterator<Item = usize> + 'a {
    let from = move |start: usize| looked_up(table, lookup, width, fingerprint, start);
    iter::successors(from(0), move |&node| from(node + 1)).take(entry_count(table, width))
}

/// What becomes of a node that has the fingerprint of a query.
#[derive(Clone, Debug, PartialEq)]
pub(super) enum Verdict {
    /// Its product is equal up to phase to the query: its list is the answer, and
    /// nothing after it is walked.
    Answers(Vec<u32>),
    /// Its chain is good, but its product does not fit: it is passed.
    DoesNotFit,
    /// Its chain is good, but its product is another: it is passed.
    Differs,
    /// Its chain is bad, and the answer is refused by 13, also where a later node
    /// would answer.
    Spoilt(Bad),
}

impl Verdict {
    pub(super) fn passes(&self) -> bool {
        matches!(self, Verdict::DoesNotFit | Verdict::Differs)
    }
}

/// The verdict on one node.
fn verdict(table: &Table, matrix: &Matrix, node: usize) -> Verdict {
    let list = match chain(table, matrix.width, node) {
        Ok(list) => list,
        Err(bad) => return Verdict::Spoilt(bad),
    };
    match Matrix::of_list(matrix.width, &list, LIMIT) {
        Ok(product) if product.equal_up_to_phase(matrix) => Verdict::Answers(list),
        Ok(_) => Verdict::Differs,
        Err(_) => Verdict::DoesNotFit,
    }
}

/// The verdicts on all nodes with the fingerprint of a query, in the order in which
/// they are looked at, as if none of them ended it. Neither table nor query is
/// refused. The fingerprint is given apart, since it may be a weakened one.
pub(super) fn verdicts<'a>(
    table: &'a Table,
    lookup: Lookup<'a>,
    matrix: &'a Matrix,
    fingerprint: u64,
) -> impl Iterator<Item = (usize, Verdict)> + 'a {
    looked_at(table, lookup, matrix.width, fingerprint)
        .map(move |node| (node, verdict(table, matrix, node)))
}

/// The first node that is not passed, with its verdict: on any table, by either
/// look-up, the answer is the lowest node with the fingerprint whose product is
/// equal up to phase to the query, unless a bad chain is met before it.
pub(super) fn search(
    table: &Table,
    lookup: Lookup,
    matrix: &Matrix,
    fingerprint: u64,
) -> Option<(usize, Verdict)> {
    verdicts(table, lookup, matrix, fingerprint).find(|(_, verdict)| !verdict.passes())
}

/// The part of an index for a width that the table has. The index is not refused.
pub(super) fn part_of<'a>(table: &Table, index: &'a [u32], width: u32) -> &'a [u32] {
    let size = part_size(&table.limits, index.len()).expect("an index of Q parts");
    &index[(width as usize - 1) * size..][..size]
}

/// The answer with a lent list of so many places.
pub(super) fn decide(table: &Table, lookup: Lookup, asked: &Asked, room: usize) -> Reply {
    if let Some(number) = asked_refused(table, lookup, asked) {
        return Reply::Refused(number);
    }
    if room < table.limits.gates as usize {
        return Reply::Refused(12);
    }
    match end(table, lookup, asked) {
        Some((_, Verdict::Answers(list))) => Reply::List(list),
        Some(_) => Reply::Refused(13),
        None => Reply::None,
    }
}

/// What a find says: the answer's checks but for 12, and the node whose list the
/// answer would be.
pub(super) fn find(table: &Table, lookup: Lookup, asked: &Asked) -> Finding {
    if let Some(number) = asked_refused(table, lookup, asked) {
        return Finding::Refused(number);
    }
    match end(table, lookup, asked) {
        Some((node, Verdict::Answers(list))) => Finding::Node(node, list.len()),
        Some(_) => Finding::Refused(13),
        None => Finding::None,
    }
}

/// What is tried before a node is looked up: of the table, of the index, of the
/// matrix.
pub(super) fn asked_refused(table: &Table, lookup: Lookup, asked: &Asked) -> Option<u64> {
    lent_refused(table, lookup).or_else(|| query_refused(asked))
}

/// The node that ends the search for a query that is not refused.
fn end(table: &Table, lookup: Lookup, asked: &Asked) -> Option<(usize, Verdict)> {
    let (matrix, fingerprint) = asked.value.as_ref().expect("a query that is not refused");
    search(table, lookup, matrix, *fingerprint)
}

/// What a write says with a lent list of so many places: 13 of the record and 5,
/// then 16, 12, and 13 of the chain. No product is looked at.
pub(super) fn write(table: &Table, width: u32, node: usize, room: usize) -> Reply {
    if let Some(number) = table_refused(table) {
        return Reply::Refused(number);
    }
    if node >= entry_count(table, width) {
        return Reply::Refused(16);
    }
    if room < table.limits.gates as usize {
        return Reply::Refused(12);
    }
    match chain(table, width, node) {
        Ok(list) => Reply::List(list),
        Err(_) => Reply::Refused(13),
    }
}

/// The list that a write would write if 12 were not tried; nothing where it is
/// refused by another number.
pub(super) fn written(table: &Table, width: u32, node: usize) -> Option<Vec<u32>> {
    match write(table, width, node, usize::MAX) {
        Reply::List(list) => Some(list),
        _ => None,
    }
}
