//! Mode `index`: the tables that standard input names, as for the mode `lines`, built
//! by the port in each mode through an index, and asked through it. Arrays, record
//! and answers must be the original's, or the second reading's where that overflows;
//! the index must be what `rules` makes of the table, place by place, and what a fill
//! leaves. The scan must say the same and leave the index. Lines that name no table and
//! ask for no matrix are passed over. With the word `runs` the tables are those of runs,
//! as for the mode `circuits`: the first line of each.

use std::io::{self, BufRead, Read, Write};
use std::panic::catch_unwind;

use super::circuits::first_run;
use super::indexes::{same, sizes, used};
use super::lent::{By, Finding, Lookup, Mode, Reply, Table};
use super::lines::question;
use super::lists::guarded;
use super::measure::Measure;
use super::port;
use super::random::Random;
use super::rules::fill;
use super::tables::{Built, Limits, PLACES, Question, counted};

/// What the lent arrays held.
const PRINT: u64 = 0xa5a5_a5a5_a5a5_a5a5;
const NUMBER: u32 = 0x5a5a_5a5a;

/// The places of a lent list.
const ROOM: usize = 64;

/// A table that both built, with an index for each size of its parts.
struct Both {
    original: Built,
    port: Table,
    indexes: Vec<Vec<u32>>,
}

#[derive(Default)]
struct Counts {
    tables: usize,
    refused: usize,
    nodes: usize,
    indexes: usize,
    places: usize,
    kept: Kept,
    answers: usize,
    lists: usize,
    finds: usize,
    found: usize,
    by_scan: usize,
    /// Tables and questions whose measure is the second reading.
    second_tables: usize,
    second: usize,
    differences: usize,
}

/// What was built again in the mode that keeps clashes, and compared: tables by the
/// scan and through an index, and nodes, places of arrays and places of indexes of
/// both together.
#[derive(Default)]
struct Kept {
    refused: usize,
    by_scan: usize,
    by_index: usize,
    nodes: usize,
    array_places: usize,
    index_places: usize,
}

impl Counts {
    /// The first few differences are shown.
    fn differ(&mut self, what: String) {
        self.differences += 1;
        if self.differences <= 5 {
            eprintln!("{what}");
        }
    }

    fn check(&mut self, same: bool, what: impl FnOnce() -> String) {
        if !same {
            self.differ(what());
        }
    }
}

pub(super) fn run(arguments: &[String], out: &mut dyn Write) -> io::Result<()> {
    let words: Vec<&str> = arguments.iter().map(String::as_str).collect();
    match words[..] {
        [] => lines(out),
        ["runs"] => runs(out),
        _ => Err(io::Error::other("usage: oracle index [runs]")),
    }
}

/// The tables that the program `circuits` builds. Inputs that name none are passed
/// over.
fn runs(out: &mut dyn Write) -> io::Result<()> {
    let mut counts = Counts::default();
    let mut random = Random::new(71);
    let mut input = Vec::new();
    io::stdin().lock().read_to_end(&mut input)?;
    let mut rest = &input[..];
    while !rest.is_empty() {
        let Some((input, after)) = first_run(rest) else {
            return Err(io::Error::other("a run has another form"));
        };
        let line = input.split_inclusive(|&byte| byte == b'\n').next();
        let line = str::from_utf8(line.unwrap_or_default()).unwrap_or_default();
        if let Some(limits) = Limits::of_numbers(line) {
            table(limits, &mut random, &mut counts);
        }
        rest = after;
    }
    counts.report_tables(out)?;
    counts.end(out)
}

fn lines(out: &mut dyn Write) -> io::Result<()> {
    let mut counts = Counts::default();
    let mut random = Random::new(61);
    let mut both = None;
    let mut line = Vec::new();
    let mut input = io::stdin().lock();
    while input.read_until(b'\n', &mut line)? > 0 {
        let text = str::from_utf8(&line).unwrap_or_default();
        let (word, rest) = text.split_once(' ').unwrap_or_default();
        match (word, &both) {
            ("table" | "clashes", _) => {
                let limits = Limits::of_numbers(rest);
                both = limits.and_then(|limits| table(limits, &mut random, &mut counts));
            }
            ("matrix", Some(both)) => {
                if let Some(question) = question(rest) {
                    ask(both, &question, Question::answer, answer, &mut counts);
                }
            }
            ("find", Some(both)) => {
                if let Some(question) = question(rest) {
                    ask(both, &question, Question::found, find, &mut counts);
                }
            }
            _ => (),
        }
        line.clear();
    }
    counts.report(out)
}

impl Counts {
    fn report_tables(&self, out: &mut dyn Write) -> io::Result<()> {
        let Self {
            tables,
            refused,
            nodes,
            indexes,
            places,
            second_tables,
            ..
        } = self;
        writeln!(
            out,
            "{tables} tables of {nodes} nodes, {second_tables} of them by the second reading, {refused} refused; {indexes} indexes of {places} places, each built and filled"
        )?;
        let Kept {
            refused,
            by_scan,
            by_index,
            nodes,
            array_places,
            index_places,
        } = self.kept;
        writeln!(
            out,
            "again in the mode that keeps clashes: {by_scan} tables by the scan and {by_index} through an index, with {nodes} nodes, {array_places} places of arrays and {index_places} places of indexes; {refused} refused"
        )
    }

    fn report(&self, out: &mut dyn Write) -> io::Result<()> {
        self.report_tables(out)?;
        let Self {
            answers,
            lists,
            finds,
            found,
            by_scan,
            second,
            ..
        } = self;
        writeln!(
            out,
            "{answers} answers through an index, {lists} of them lists; {finds} finds, {found} of them nodes; {by_scan} of both by the scan; {second} questions by the second reading"
        )?;
        self.end(out)
    }

    fn end(&self, out: &mut dyn Write) -> io::Result<()> {
        writeln!(out, "{} differences", self.differences)?;
        out.flush()?;
        match self.differences {
            0 => Ok(()),
            _ => Err(io::Error::other("the port says something else")),
        }
    }
}

/// Arrays that held something.
fn lent(limits: Limits, places: usize) -> Table {
    let mut table = Table::with_places(limits, places);
    table.fingerprints.fill(PRINT);
    table.parents.fill(NUMBER);
    table.codes.fill(NUMBER);
    table.record.fill(PRINT);
    table
}

/// Builds a table by the original, by the port's scan and through an index of each
/// size, and compares them.
fn table(limits: Limits, random: &mut Random, counts: &mut Counts) -> Option<Both> {
    let name = limits.line();
    if let Some(row) = limits.refusal(PLACES) {
        counts.refused += 1;
        let lent = lent(limits, PLACES as usize);
        // Q and E may be anything here, and the index is not looked at before them.
        let before = used(random.one_of(&[0, 1, 16, 17, 5 << 10]), random);
        for mode in Mode::BOTH {
            for by in [By::Scan, By::Index] {
                let (mut table, mut index) = (lent.clone(), before.clone());
                let number = table.build_by(mode, by, &mut index);
                let kept = same(&table, &lent) && index == before;
                counts.check(number == u64::from(row) && kept, || {
                    format!("{name} {mode:?} by {by:?}: {number}, expected {row}, kept {kept}")
                });
                counts.kept.refused += usize::from(mode == Mode::Keeping);
            }
        }
        return None;
    }
    counts.tables += 1;
    let Ok(original) = catch_unwind(|| Built::of(limits, Mode::ByPrint)) else {
        counts.differ(format!("{name}: a panic"));
        return None;
    };
    counts.second_tables += usize::from(original.measure == Measure::Second);
    let expected = told(&original.table, counts);
    let places = expected.fingerprints.len();
    let nodes: usize = (1..=limits.qubits as usize)
        .map(|width| expected.count(width))
        .sum();
    let mut indexes = Vec::new();
    for (round, size) in sizes(limits.entries).into_iter().enumerate() {
        let length = limits.qubits as usize * size;
        let before = used(length, random);
        let mut index = before.clone();
        for mode in Mode::BOTH {
            // By the scan the index plays no part: once is enough.
            if mode == Mode::Keeping {
                if round > 0 {
                    continue;
                }
                counts.kept.by_scan += 1;
                counts.kept.nodes += nodes;
                counts.kept.array_places += 3 * places;
            }
            let mut scanned = lent(limits, places);
            let number = scanned.build_by(mode, By::Scan, &mut index);
            counts.check(
                number == 0 && same(&scanned, &expected) && index == before,
                || format!("{name} {mode:?} by the scan: {number}"),
            );
        }
        let mut table = lent(limits, places);
        let number = table.build_by(Mode::ByPrint, By::Index, &mut index);
        counts.check(number == 0 && same(&table, &expected), || {
            format!("{name} with parts of {size}: {number}")
        });
        counts.check(fill(&table, length).as_ref() == Ok(&index), || {
            format!("{name}: the index with parts of {size}")
        });
        let mut filled = used(length, random);
        let number = table.fill(&mut filled);
        counts.check(number == 0 && filled == index, || {
            format!("{name}: a fill with parts of {size}: {number}")
        });
        let mut kept_index = before;
        let mut kept = lent(limits, places);
        let number = kept.build_by(Mode::Keeping, By::Index, &mut kept_index);
        counts.check(
            number == 0 && same(&kept, &expected) && kept_index == index,
            || format!("{name} keeping, with parts of {size}: {number}"),
        );
        counts.kept.by_index += 1;
        counts.kept.nodes += nodes;
        counts.kept.array_places += 3 * places;
        counts.kept.index_places += length;
        counts.indexes += 1;
        counts.places += length;
        indexes.push(index);
    }
    Some(Both {
        original,
        port: expected,
        indexes,
    })
}

/// A table in lent arrays, with some places behind it. Unfilled places hold what they
/// held.
fn told(built: &Table, counts: &mut Counts) -> Table {
    let limits = built.limits;
    let entries = limits.entries as usize;
    let mut table = lent(limits, limits.qubits as usize * entries + 3);
    table.record = built.record;
    for row in 0..limits.qubits as usize {
        let count = built.count(row + 1);
        let places = row * entries..row * entries + count;
        table.fingerprints[places.clone()].copy_from_slice(&built.fingerprints[places.clone()]);
        table.parents[places.clone()].copy_from_slice(&built.parents[places.clone()]);
        table.codes[places.clone()].copy_from_slice(&built.codes[places]);
        counts.nodes += count;
    }
    table
}

/// Asks what is the measure once, and the port through each index and by the scan.
fn ask(
    both: &Both,
    question: &Question,
    original: fn(&Question, &Built) -> (Measure, String),
    port: fn(&Both, Lookup, &Question, &mut Counts) -> String,
    counts: &mut Counts,
) {
    let (measure, original) = guarded(|| original(question, &both.original));
    counts.second += usize::from(measure == Measure::Second);
    for index in &both.indexes {
        let by_index = Lookup {
            by: By::Index,
            index,
        };
        let told = port(both, by_index, question, counts);
        counts.check(told == original, || {
            let table = both.port.limits.line();
            format!("{table} through an index: {told}, expected {original}")
        });
    }
    let index = &both.indexes[0];
    let by_scan = Lookup {
        by: By::Scan,
        index,
    };
    counts.by_scan += 1;
    let told = port(both, by_scan, question, counts);
    counts.check(told == original, || {
        format!("by the scan: {told}, expected {original}")
    });
}

fn answer(both: &Both, lookup: Lookup, question: &Question, counts: &mut Counts) -> String {
    let Question {
        width,
        exponent,
        coefficients,
    } = question;
    let mut out = [NUMBER; ROOM];
    let reply = both
        .port
        .ask_by(lookup, *width, *exponent, coefficients, &mut out);
    let filled = match &reply {
        Reply::List(codes) => codes.len(),
        _ => 0,
    };
    counts.check(out[filled..].iter().all(|&code| code == NUMBER), || {
        "the lent list".to_owned()
    });
    if lookup.by == By::Index {
        counts.answers += 1;
        counts.lists += usize::from(matches!(reply, Reply::List(_)));
    }
    let print = port::query(*width as usize, *exponent, coefficients);
    match reply {
        Reply::List(codes) => format!("{print:016x} {}", counted(&codes)),
        Reply::None => format!("{print:016x} none"),
        Reply::Refused(number) => format!("refused {number} 0"),
    }
}

fn find(both: &Both, lookup: Lookup, question: &Question, counts: &mut Counts) -> String {
    let found = both.port.find(
        lookup,
        question.width,
        question.exponent,
        &question.coefficients,
    );
    if lookup.by == By::Index {
        counts.finds += 1;
        counts.found += usize::from(matches!(found, Finding::Node(..)));
    }
    match found {
        Finding::Node(node, gates) => format!("{node} {gates}"),
        Finding::None => "none".to_owned(),
        Finding::Refused(number) => format!("refused {number} 0"),
    }
}
