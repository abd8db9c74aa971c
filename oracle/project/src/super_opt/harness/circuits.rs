//! Mode `circuits`: the program of that name, with the original's tables, matrices
//! and answers, and those of the second reading where the original overflows. Standard input holds runs: each is a line `run LENGTH`, so many
//! bytes, which are the program's input, and a newline. Each is answered by a
//! line `run LENGTH` and so many bytes, which are the program's output.

use std::io::{self, Read, Write};
use std::panic::{AssertUnwindSafe, catch_unwind};

use super::lent::Mode;
use super::lists::List;
use super::measure::{Counts, Measure};
use super::tables::{Built, Limits, Question, Verdict, write_table};

/// The longest input that the program reads.
pub(super) const MOST_INPUT: usize = 16384;

/// How many places each array has in the program.
pub(super) const PLACES: u64 = 2048;

const BROKEN: &str = "refused 14 0";
const TOO_LONG: &str = "refused 15 0";

pub(super) fn run(_: &[String], out: &mut dyn Write) -> io::Result<()> {
    let mut input = Vec::new();
    io::stdin().lock().read_to_end(&mut input)?;
    let mut rest = &input[..];
    let mut counts = Counts::default();
    while !rest.is_empty() {
        let Some((input, after)) = first_run(rest) else {
            return Err(io::Error::other("a run has another form"));
        };
        let mut output = Vec::new();
        let program = AssertUnwindSafe(|| program(input, &mut output, &mut counts));
        if catch_unwind(program).is_err() {
            output = b"panicked\n".to_vec();
        }
        writeln!(out, "run {}", output.len())?;
        out.write_all(&output)?;
        rest = after;
    }
    counts.tell();
    Ok(())
}

/// One run as it stands in standard input.
pub(super) fn write_run(input: &[u8], out: &mut dyn Write) -> io::Result<()> {
    writeln!(out, "run {}", input.len())?;
    out.write_all(input)?;
    writeln!(out)
}

/// The first run, and what follows it.
pub(super) fn first_run(runs: &[u8]) -> Option<(&[u8], &[u8])> {
    let end = runs.iter().position(|&byte| byte == b'\n')?;
    let (line, rest) = (&runs[..end], &runs[end + 1..]);
    let length = str::from_utf8(line).ok()?.strip_prefix("run ")?;
    let (input, rest) = rest.split_at_checked(length.parse().ok()?)?;
    Some((input, rest.strip_prefix(b"\n")?))
}

/// What the program prints for an input.
fn program(input: &[u8], out: &mut Vec<u8>, counts: &mut Counts) {
    let mut refused = |refusal: &str| {
        counts.add("tables", Measure::Check, refusal);
        put(out, refusal);
    };
    if input.len() > MOST_INPUT {
        return refused(TOO_LONG);
    }
    let mut lines = input
        .split_inclusive(|&byte| byte == b'\n')
        .map(|line| str::from_utf8(line).unwrap_or_default());
    let Some(limits) = lines.next().and_then(Limits::of_numbers) else {
        return refused(BROKEN);
    };
    if let Some(row) = limits.refusal(PLACES) {
        return refused(&format!("refused {row} 0"));
    }
    let built = Built::of(limits, Mode::ByPrint);
    counts.add("tables", built.measure, "");
    let first = |node: usize, _| node.to_string();
    write_table(&built.table, first, out).expect("memory can be written");
    for line in lines {
        let (measure, answer) = query(line, &built);
        counts.add("queries", measure, &answer);
        put(out, &answer);
    }
}

fn put(out: &mut Vec<u8>, line: &str) {
    out.extend_from_slice(line.as_bytes());
    out.push(b'\n');
}

/// The answer to a query line, given with its newline.
fn query(line: &str, built: &Built) -> (Measure, String) {
    let Some(list) = List::of_numbers(line) else {
        return (Measure::Check, BROKEN.to_owned());
    };
    let (formed, matrix) = list.judged();
    let matrix = match matrix {
        Ok(matrix) => matrix,
        Err(refusal) => return (formed, refusal),
    };
    let question = Question {
        width: matrix.width,
        exponent: matrix.exponent as u16,
        coefficients: matrix.coefficients(),
    };
    let (asked, verdict) = question.judged(built);
    let line = match verdict {
        Verdict::Refused(row) => panic!("a product is refused by {row}"),
        Verdict::None(_) => "none".to_owned(),
        Verdict::List { codes, .. } => {
            let mut line = format!("{} {}", codes.len(), t_charge(&codes));
            for code in codes {
                line.push(' ');
                line.push_str(&code.to_string());
            }
            line
        }
    };
    (formed.with(asked), line)
}

/// The sum of the gates' charges: 1 for T and Tdg, 7 for Ccx and Ccz (SPECIFICATION 2.9).
fn t_charge(codes: &[u32]) -> usize {
    let charge = |code: &u32| match code / 4096 {
        5 | 6 => 1,
        10 | 11 => 7,
        _ => 0,
    };
    codes.iter().map(charge).sum()
}
