//! Every list and matrix of crates/inspect/stdin, asked through this crate. The answers in
//! crates/inspect/stdout are the original's; oracle/README.md describes both files.

mod common;

use std::iter::Peekable;
use std::str::Lines;

use common::{numbers, read};
use murm::{
    coefficient_count, gates_of, library_circuit_matrix, matrix_of, synthesize, Arrays, Gate,
    Query, Record, Refusal, MARK, MAX_GATES,
};

/// What lent places hold before a call.
const NUMBER: i16 = 9393;
const WORD: u32 = 305419896;

#[derive(Debug, Default, PartialEq)]
struct Counts {
    /// Lists that became a matrix.
    matrices: usize,
    lists_refused: usize,
    /// Matrices that a table answered by a list.
    answers: usize,
    nones: usize,
    queries_refused: usize,
    tables: usize,
    /// Tables that `build` refused. The functions of this crate build none.
    tables_refused: usize,
    /// Lines about nodes, which no function of this crate tells.
    nodes: usize,
    /// Lines that the program refused by 14, for their form or for want of a table.
    broken: usize,
}

#[test]
fn every_recorded_question() {
    let questions = read("inspect/stdin");
    let recorded = read("inspect/stdout");
    let mut answers = recorded.lines().peekable();
    let mut counts = Counts::default();
    let mut table = None;
    for question in questions.lines() {
        if question.starts_with("table ") {
            table = read_table(question, &mut answers, &mut counts);
            continue;
        }
        let answer = answers.next().expect("an answer to each question");
        if answer == "refused 14 0" {
            counts.broken += 1;
        } else if let Some(list) = question.strip_prefix("list ") {
            compare_list(list, answer, &mut counts);
        } else if let Some(matrix) = question.strip_prefix("matrix ") {
            let table = table.as_ref().expect("no table is refused by 14");
            compare_query(table, matrix, answer, &mut counts);
        } else if question.starts_with("find ") || question.starts_with("write ") {
            counts.nodes += 1;
        } else {
            panic!("{question}: {answer}");
        }
    }
    assert_eq!(answers.next(), None);
    let lists = counts.matrices + counts.lists_refused;
    let queries = counts.answers + counts.nones + counts.queries_refused;
    println!("compared with the recording: {lists} lists, {queries} queries: {counts:?}");
    // None of them may be few, or the test tests little.
    assert!(counts.matrices >= 500, "{counts:?}");
    assert!(counts.lists_refused >= 300, "{counts:?}");
    assert!(counts.answers >= 700, "{counts:?}");
    assert!(counts.nones >= 600, "{counts:?}");
    assert!(counts.queries_refused >= 350, "{counts:?}");
    assert!(counts.tables >= 130, "{counts:?}");
}

/// The refusal's number and position, if the answer is one.
fn refused(answer: &str) -> Option<(u32, usize)> {
    let (number, position) = answer.strip_prefix("refused ")?.split_once(' ')?;
    Some((number.parse().unwrap(), position.parse().unwrap()))
}

fn told(refusal: Refusal) -> (u32, usize) {
    (refusal.number(), refusal.position())
}

/// A list and the exponent, fingerprint and coefficients of its matrix.
fn compare_list(list: &str, answer: &str, counts: &mut Counts) {
    let words: Vec<u32> = numbers(list);
    let (width, codes) = (words[0], &words[2..]);
    assert_eq!(codes.len(), words[1] as usize);
    let mut out = vec![NUMBER; coefficient_count(width).unwrap_or(0)];
    let result = library_circuit_matrix(width, codes, &mut out);
    if let Some(expected) = refused(answer) {
        assert_eq!(result.map_err(told), Err(expected), "list {list}");
        assert!(out.iter().all(|&place| place == NUMBER), "list {list}");
        counts.lists_refused += 1;
    } else {
        let (exponent, rest) = answer.split_once(' ').expect("an exponent");
        let (_fingerprint, coefficients) = rest.split_once(' ').expect("a fingerprint");
        assert_eq!(result, Ok(exponent.parse().unwrap()), "list {list}");
        assert_eq!(out, numbers::<i16>(coefficients), "list {list}");
        counts.matrices += 1;
    }
    // The same by gates, where each code is that of a gate.
    let gates: Result<Vec<Gate>, _> = codes.iter().copied().map(Gate::try_from).collect();
    match gates {
        Ok(gates) => {
            let matrix = matrix_of(width, &gates);
            assert_eq!(
                matrix.as_ref().map(|matrix| matrix.exponent()),
                result.as_ref().copied()
            );
            if let Ok(matrix) = matrix {
                assert_eq!(matrix.coefficients(), out, "list {list}");
            }
        }
        Err(code) => assert!(
            matches!(result.map_err(|r| r.number()), Err(6 | 7)),
            "{code}"
        ),
    }
}

/// A table as the original built it. Its arrays have exactly Q × E places.
struct Table {
    record: Record,
    fingerprints: Vec<u64>,
    parents: Vec<u32>,
    codes: Vec<u32>,
}

impl Table {
    fn arrays(&self) -> Arrays<'_> {
        Arrays {
            fingerprints: &self.fingerprints,
            parents: &self.parents,
            codes: &self.codes,
        }
    }
}

/// The answer to a `table` line: a refusal, or the nodes of each width.
fn read_table(
    question: &str,
    answers: &mut Peekable<Lines<'_>>,
    counts: &mut Counts,
) -> Option<Table> {
    match answers.peek().and_then(|answer| refused(answer)) {
        Some((14, _)) => counts.broken += 1,
        Some(_) => counts.tables_refused += 1,
        None => {
            counts.tables += 1;
            return Some(read_widths(&question["table ".len()..], answers));
        }
    }
    answers.next();
    None
}

fn read_widths(limits: &str, answers: &mut Peekable<Lines<'_>>) -> Table {
    let limits: Vec<u32> = numbers(limits);
    let [q, g, e, b] = limits[..] else {
        panic!("{limits:?}")
    };
    let places = q as usize * e as usize;
    // Places of no node hold a fingerprint that no query has, and parents and codes that are bad.
    let mut table = Table {
        record: Record {
            q,
            g,
            e,
            b,
            counts: [0; 5],
        },
        fingerprints: vec![u64::MAX; places],
        parents: vec![WORD; places],
        codes: vec![WORD; places],
    };
    for width in 1..=q {
        let line = answers.next().expect("a line for each width");
        let row: Vec<usize> = numbers(line.strip_prefix("table ").expect("a width's line"));
        assert_eq!(row[0], width as usize);
        table.record.counts[row[0] - 1] = row[1];
        let start = (row[0] - 1) * e as usize;
        for place in start..start + row[1] {
            let node = answers.next().expect("a line for each node");
            let (fingerprint, rest) = node.split_once(' ').expect("a fingerprint");
            table.fingerprints[place] = u64::from_str_radix(fingerprint, 16).unwrap();
            let rest: Vec<u32> = numbers(rest);
            [table.parents[place], table.codes[place]] = rest[..].try_into().unwrap();
        }
        assert_eq!((table.parents[start], table.codes[start]), (MARK, MARK));
    }
    table
}

/// A matrix asked of the last table, with a lent list of 64 places.
fn compare_query(table: &Table, matrix: &str, answer: &str, counts: &mut Counts) {
    let words: Vec<i64> = numbers(matrix);
    let coefficients: Vec<i16> = words[2..].iter().map(|&c| c.try_into().unwrap()).collect();
    let query = Query {
        width: words[0].try_into().unwrap(),
        exponent: words[1].try_into().unwrap(),
        coefficients: &coefficients,
    };
    let mut out = [WORD; MAX_GATES];
    let result = synthesize(&table.record, table.arrays(), query, &mut out);
    let mut expected = [WORD; MAX_GATES];
    if let Some(refusal) = refused(answer) {
        assert_eq!(result.map_err(told), Err(refusal), "matrix {matrix}");
        counts.queries_refused += 1;
    } else {
        let (_fingerprint, list) = answer.split_once(' ').expect("a fingerprint");
        if list == "none" {
            assert_eq!(result, Ok(None), "matrix {matrix}");
            counts.nones += 1;
        } else {
            let list: Vec<u32> = numbers(list);
            let count = list[0] as usize;
            assert_eq!(result, Ok(Some(count)), "matrix {matrix}");
            expected[..count].copy_from_slice(&list[1..]);
            compare_gates(table, query.width, &expected[..count]);
            counts.answers += 1;
        }
    }
    assert_eq!(out, expected, "matrix {matrix}");
}

/// An answered list is a table's list for its own matrix, so that it is answered again.
fn compare_gates(table: &Table, width: u32, list: &[u32]) {
    let gates: Vec<Gate> = list.iter().map(|&code| code.try_into().unwrap()).collect();
    let matrix = matrix_of(width, &gates).expect("an answered list fits");
    assert_eq!(
        gates_of(&table.record, table.arrays(), &matrix),
        Ok(Some(gates))
    );
}
