//! Mode `lines`: lists, tables, matrices and nodes that standard input names, as
//! the port's test program reads them. A line that has another form, or no
//! newline after it, is refused by 14; so is what asks a table where none is at
//! hand. A table that keeps clashes is the original's too: it met none. Where the
//! original overflows the second reading answers.

use std::io::{self, Read, Write};
use std::panic::catch_unwind;

use super::lent::Mode;
use super::lists::{self, guarded, number};
use super::measure::{Counts, Measure};
use super::tables::{Built, Limits, PLACES, Question, Wanted, write_table};

const BROKEN: &str = "refused 14 0";

/// A line has one coefficient more at most than the largest matrix.
const MOST_COEFFICIENTS: usize = 4097;

pub(super) fn run(_: &[String], out: &mut dyn Write) -> io::Result<()> {
    let mut input = Vec::new();
    io::stdin().lock().read_to_end(&mut input)?;
    // The last table built. Every line that begins with `table` or `clashes` forgets it.
    let mut table = None;
    let mut counts = Counts::default();
    for line in input.split_inclusive(|&byte| byte == b'\n') {
        let line = str::from_utf8(line).unwrap_or_default();
        let (word, rest) = line.split_once(' ').unwrap_or_default();
        if matches!(word, "table" | "clashes") {
            table = None;
            let mode = match word {
                "table" => Mode::ByPrint,
                _ => Mode::Keeping,
            };
            let mut measure = Measure::Check;
            match Limits::of_numbers(rest) {
                Some(limits) => match limits.refusal(PLACES) {
                    Some(row) => writeln!(out, "refused {row} 0")?,
                    None => {
                        table = build(limits, mode, out)?;
                        measure = table.as_ref().map_or(measure, |built| built.measure);
                    }
                },
                None => writeln!(out, "{BROKEN}")?,
            }
            counts.add("tables", measure, "");
        } else {
            let (sort, (measure, answer)) = answered(line, table.as_ref());
            counts.add(sort, measure, &answer);
            writeln!(out, "{answer}")?;
        }
    }
    counts.tell();
    Ok(())
}

/// Builds a table and writes it.
fn build(limits: Limits, mode: Mode, out: &mut dyn Write) -> io::Result<Option<Built>> {
    match catch_unwind(|| Built::of(limits, mode)) {
        Ok(built) => {
            let first = |_, fingerprint| format!("{fingerprint:016x}");
            write_table(&built.table, first, out)?;
            Ok(Some(built))
        }
        Err(_) => {
            writeln!(out, "panicked")?;
            Ok(None)
        }
    }
}

/// What a line that builds no table is answered, given with its newline, and of which
/// sort it is.
fn answered(line: &str, table: Option<&Built>) -> (&'static str, (Measure, String)) {
    let (word, rest) = line.split_once(' ').unwrap_or_default();
    match word {
        "matrix" => ("matrices", asked(question(rest), table, Question::answer)),
        "find" => ("finds", asked(question(rest), table, Question::found)),
        "write" => (
            "writes",
            asked(Wanted::of_numbers(rest), table, Wanted::answer),
        ),
        _ => ("lists", lists::line_answer(line)),
    }
}

/// What the table at hand answers to a line that asks it.
fn asked<T>(
    what: Option<T>,
    table: Option<&Built>,
    answer: fn(&T, &Built) -> (Measure, String),
) -> (Measure, String) {
    let (Some(what), Some(table)) = (what, table) else {
        return (Measure::Check, BROKEN.to_owned());
    };
    guarded(|| answer(&what, table))
}

/// `WIDTH K COEFFICIENTS..`, with its newline.
pub(super) fn question(line: &str) -> Option<Question> {
    let mut words = line.strip_suffix('\n')?.split(' ');
    let width = number(words.next()?)?;
    let exponent = u16::try_from(number(words.next()?)?).ok()?;
    let coefficients = words.map(signed).collect::<Option<Vec<i16>>>()?;
    (coefficients.len() <= MOST_COEFFICIENTS).then_some(Question {
        width,
        exponent,
        coefficients,
    })
}

/// A number of at most ten digits, with a minus before it or not.
fn signed(word: &str) -> Option<i16> {
    let size = i64::from(number(word.strip_prefix('-').unwrap_or(word))?);
    i16::try_from(if word.starts_with('-') { -size } else { size }).ok()
}
