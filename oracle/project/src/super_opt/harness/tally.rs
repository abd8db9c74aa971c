//! What an altered table or index is asked, what it must say by `rules`, and how
//! often each kind of outcome came.

use std::collections::{HashMap, HashSet};
use std::io::{self, Write};

use super::exact::gives;
use super::lent::{By, Finding, Lookup, Mode, Reply, SCAN, Table};
use super::rules::{
    Asked, Bad, EMPTY, Verdict, asked_refused, bad_record, decide, fill, find, part_of, prints_of,
    probe, verdicts, write, written,
};
use super::walks::{self, Manner};

/// Every kind of outcome of an answer, of a find and of a write; of an answer and a
/// find through an index; and of a fill and a build. No other may come, and each
/// must.
const ANSWERS: [&str; 10] = [LIST, NONE, "5", "6", "9", "10", "11", "12", RECORD, CHAIN];
const FINDS: [&str; 9] = [NODE, NONE, "5", "6", "9", "10", "11", RECORD, CHAIN];
const WRITES: [&str; 6] = [LIST, "5", "16", "12", RECORD, CHAIN];
#[rustfmt::skip]
const INDEX_ANSWERS: [&str; 11] =
    [LIST, NONE, "5", "17", "6", "9", "10", "11", "12", RECORD, CHAIN];
const INDEX_FINDS: [&str; 10] = [NODE, NONE, "5", "17", "6", "9", "10", "11", RECORD, CHAIN];
const FILLS: [&str; 4] = [FILLED, "5", "17", RECORD];
const BUILDS: [&str; 6] = [BUILT, "1", "2", "3", "4", "5"];
const INDEX_BUILDS: [&str; 7] = [BUILT, "1", "2", "3", "4", "5", "17"];

const LIST: &str = "lists";
const NODE: &str = "nodes";
const NONE: &str = "none";
const FILLED: &str = "indexes";
const BUILT: &str = "tables";
const RECORD: &str = "13 of the record";
const CHAIN: &str = "13 of a chain";

/// What must come among them: two causes together, lists that only one of find
/// and write is about, what an index may lead to, and what several nodes with one
/// fingerprint come to.
const AMONG: [&str; 31] = [
    SHORT_FIRST,
    PASSED_OVER,
    NO_NODE_SHORT,
    SHORT_BAD_CHAIN,
    SHORT_FOR_GATES,
    JUST_ENOUGH,
    UNBUILT_COUNT,
    MISSED,
    MISSED_BAD,
    ONLY_BAD,
    OTHER_NODE,
    ABOVE_COUNT,
    ROUND,
    LAST,
    FULL,
    LATER,
    LATER_INDEX,
    EVERY,
    EVERY_NONE,
    LATE_BAD,
    PARENT_FIRST,
    CODE_FIRST,
    BASIS_FIRST,
    LENGTH_FIRST,
    MARKS,
    PARENT_AFTER,
    CODE_AFTER,
    BASIS_AFTER,
    LENGTH_AFTER,
    UNFIT,
    LOWER,
];

const SHORT_FIRST: &str = "answers by 12 whose find is refused by 13 of a chain";
const PASSED_OVER: &str = "finds of none where a node has the fingerprint, and its list is written";
const NO_NODE_SHORT: &str = "writes refused by 16 with less than G places";
const SHORT_BAD_CHAIN: &str = "writes refused by 12 whose chain is bad";
const SHORT_FOR_GATES: &str = "writes refused by 12 with places for the list itself";
const JUST_ENOUGH: &str = "lists written with G places, and shorter than G";
const UNBUILT_COUNT: &str =
    "writes refused by 16 at a width above Q whose count in the record is larger";

const MISSED: &str = "finds of none through an index where the scan finds a node";
const MISSED_BAD: &str = "finds of a node through an index where the scan is refused by 13";
const ONLY_BAD: &str =
    "finds refused by 13 of a chain through an index where the scan finds a node";
const OTHER_NODE: &str = "finds through an index of another node than by the scan";
const ABOVE_COUNT: &str =
    "nodes that a probe leads to past a number at or above the count that is not empty";
const ROUND: &str = "nodes that a probe leads to round the end of the part";
const LAST: &str = "nodes that a probe leads to at its last step";
const FULL: &str = "probes of a part without an empty place that lead to no node";

const LATER: &str = "finds by the scan of the second or a later node with the fingerprint";
const LATER_INDEX: &str = "finds through an index of the second or a later node that it leads to";
const EVERY: &str = "finds of the last of two or more entries, all of which were looked at";
const EVERY_NONE: &str = "finds of none after all of two or more entries were looked at";
const LATE_BAD: &str = "finds refused by 13 at the second or a later node with the fingerprint";
const PARENT_FIRST: &str =
    "finds refused by 13, before a node that would answer, for a parent that is not below its node";
const CODE_FIRST: &str =
    "finds refused by 13, before a node that would answer, for a code that is not valid";
const BASIS_FIRST: &str =
    "finds refused by 13, before a node that would answer, for a code that is not of the basis";
const LENGTH_FIRST: &str =
    "finds refused by 13, before a node that would answer, for more than G gates";
const MARKS: &str = "finds refused by 13 for node 0, which all chains come to";
const PARENT_AFTER: &str =
    "nodes found before one with the fingerprint that has a parent that is not below its node";
const CODE_AFTER: &str =
    "nodes found before one with the fingerprint that has a code that is not valid";
const BASIS_AFTER: &str =
    "nodes found before one with the fingerprint that has a code that is not of the basis";
const LENGTH_AFTER: &str = "nodes found before one with the fingerprint that has more than G gates";
const UNFIT: &str = "nodes found after one with the fingerprint whose product does not fit";
const LOWER: &str =
    "finds through an index that would end otherwise if nodes were looked at as they stand there";

/// How often each of some kinds came.
struct Counts {
    names: &'static [&'static str],
    counts: Vec<usize>,
}

impl Counts {
    fn new(names: &'static [&'static str]) -> Self {
        Self {
            names,
            counts: vec![0; names.len()],
        }
    }

    /// One more of a kind; whether there is such a kind.
    fn add(&mut self, name: &str) -> bool {
        let place = self.names.iter().position(|&known| known == name);
        if let Some(place) = place {
            self.counts[place] += 1;
        }
        place.is_some()
    }

    fn of(&self, name: &str) -> usize {
        let place = self.names.iter().position(|&known| known == name);
        self.counts[place.expect("a kind")]
    }

    fn total(&self) -> usize {
        self.counts.iter().sum()
    }

    fn missing(&self) -> impl Iterator<Item = &'static str> {
        let pairs = self.names.iter().zip(&self.counts);
        pairs
            .filter(|&(_, &count)| count == 0)
            .map(|(name, _)| *name)
    }

    /// How many of each kind; a kind that begins with a digit is a refusal's.
    fn line(&self) -> String {
        let pairs = self.names.iter().zip(&self.counts);
        let part = |(name, count): (&&str, &usize)| match name.as_bytes()[0] {
            b'0'..=b'9' => format!("{count} refused by {name}"),
            _ => format!("{count} {name}"),
        };
        pairs.map(part).collect::<Vec<_>>().join(", ")
    }
}

/// The kind of a refusal.
fn refused(table: &Table, number: u64) -> &'static str {
    match number {
        5 => "5",
        6 => "6",
        9 => "9",
        10 => "10",
        11 => "11",
        12 => "12",
        13 if bad_record(table) => RECORD,
        13 => CHAIN,
        16 => "16",
        17 => "17",
        _ => "another number",
    }
}

/// The kind of an answer or a write.
fn kind(table: &Table, reply: &Reply) -> &'static str {
    match reply {
        Reply::List(_) => LIST,
        Reply::None => NONE,
        Reply::Refused(number) => refused(table, *number),
    }
}

/// The kind of a build that is refused, or not.
fn build_kind(number: u64) -> &'static str {
    match number {
        0 => BUILT,
        1 => "1",
        2 => "2",
        3 => "3",
        4 => "4",
        5 => "5",
        17 => "17",
        _ => "another number",
    }
}

/// Altered tables, altered indexes, questions, and what came among them.
struct Sums {
    tables: usize,
    indexes: usize,
    questions: usize,
    among: Vec<usize>,
}

pub(super) struct Tally {
    pub(super) tables: usize,
    pub(super) indexes: usize,
    answers: Counts,
    finds: Counts,
    writes: Counts,
    index_answers: Counts,
    index_finds: Counts,
    fills: Counts,
    builds: Counts,
    index_builds: Counts,
    keeping_builds: Counts,
    keeping_index_builds: Counts,
    among: Counts,
    differences: usize,
    /// What the part with clashes came to.
    part: Option<Sums>,
    /// Questions by number, and lists that give them. It is emptied with each
    /// new choice of questions.
    exact: HashSet<(usize, Vec<u32>)>,
}

impl Tally {
    pub(super) fn new() -> Self {
        Self {
            tables: 0,
            indexes: 0,
            answers: Counts::new(&ANSWERS),
            finds: Counts::new(&FINDS),
            writes: Counts::new(&WRITES),
            index_answers: Counts::new(&INDEX_ANSWERS),
            index_finds: Counts::new(&INDEX_FINDS),
            fills: Counts::new(&FILLS),
            builds: Counts::new(&BUILDS),
            index_builds: Counts::new(&INDEX_BUILDS),
            keeping_builds: Counts::new(&BUILDS),
            keeping_index_builds: Counts::new(&INDEX_BUILDS),
            among: Counts::new(&AMONG),
            differences: 0,
            part: None,
            exact: HashSet::new(),
        }
    }

    fn sums(&self) -> Sums {
        Sums {
            tables: self.tables,
            indexes: self.indexes,
            questions: self.answers.total() + self.index_answers.total(),
            among: self.among.counts.clone(),
        }
    }

    /// The part with clashes begins.
    pub(super) fn begin_part(&mut self) {
        self.part = Some(self.sums());
    }

    /// It ends.
    pub(super) fn end_part(&mut self) {
        let now = self.sums();
        let before = self.part.take().expect("a part that began");
        let among = now.among.iter().zip(&before.among);
        self.part = Some(Sums {
            tables: now.tables - before.tables,
            indexes: now.indexes - before.indexes,
            questions: now.questions - before.questions,
            among: among.map(|(now, before)| now - before).collect(),
        });
    }

    /// Other questions follow, numbered anew.
    pub(super) fn new_questions(&mut self) {
        self.exact.clear();
    }

    /// A difference; the first few are shown.
    pub(super) fn differs(&mut self, what: String) {
        self.differences += 1;
        if self.differences <= 5 {
            eprintln!("{what}");
        }
    }

    fn kind_is(&mut self, known: bool, table: &Table, what: &str) {
        if !known {
            self.differs(format!("{} a {what} ended otherwise", table.limits.line()));
        }
    }

    /// Asks a table the question of this number by the scan.
    pub(super) fn ask(
        &mut self,
        table: &Table,
        number: usize,
        asked: &Asked,
        room: usize,
    ) -> (Reply, Finding) {
        self.ask_by(table, SCAN, number, asked, room)
    }

    /// Asks a table the question of this number, with a lent list of so many
    /// places; then what is found, and the list of the node found. Where the
    /// answer is not refused by 12 it is the find, followed by the write.
    pub(super) fn ask_by(
        &mut self,
        table: &Table,
        lookup: Lookup,
        number: usize,
        asked: &Asked,
        room: usize,
    ) -> (Reply, Finding) {
        let (mut list, before) = lent(room);
        let (width, exponent, matrix) = (asked.width, asked.exponent, &asked.coefficients);
        // Without an index the C function of murm_c is asked.
        let reply = match lookup.by {
            By::Scan if lookup.index.is_empty() => table.ask(width, exponent, matrix, &mut list),
            _ => table.ask_by(lookup, width, exponent, matrix, &mut list),
        };
        let expected = decide(table, lookup, asked, room);
        let right = reply == expected && self.is_exact(number, asked, &reply);
        if !right || !is_kept(&reply, &list, &before) {
            self.differs(format!(
                "{} record {:?}, width {} question {number}, {room} places: {reply:?}, expected {expected:?}",
                table.limits.line(),
                table.record,
                asked.width,
            ));
        }
        let known = match lookup.by {
            By::Scan => self.answers.add(kind(table, &reply)),
            By::Index => self.index_answers.add(kind(table, &reply)),
        };
        self.kind_is(known, table, "question");
        let found = self.find(table, lookup, asked);
        if reply == Reply::Refused(12) {
            if found == Finding::Refused(13) {
                self.among.add(SHORT_FIRST);
            }
            return (reply, found);
        }
        let followed = match found {
            Finding::Node(node, _) => self.write(table, asked.width, node, room),
            Finding::None => Reply::None,
            Finding::Refused(number) => Reply::Refused(number),
        };
        let gates = match (&found, &reply) {
            (Finding::Node(_, gates), Reply::List(list)) => *gates == list.len(),
            _ => true,
        };
        if followed != reply || !gates {
            self.differs(format!(
                "{} record {:?}, width {} question {number}: {reply:?}, but {found:?} and then {followed:?}",
                table.limits.line(),
                table.record,
                asked.width,
            ));
        }
        (reply, found)
    }

    /// Asks a table for the node of a matrix.
    fn find(&mut self, table: &Table, lookup: Lookup, asked: &Asked) -> Finding {
        let found = table.find(lookup, asked.width, asked.exponent, &asked.coefficients);
        let expected = find(table, lookup, asked);
        if found != expected {
            self.differs(format!(
                "{} record {:?}, width {}, a find: {found:?}, expected {expected:?}",
                table.limits.line(),
                table.record,
                asked.width,
            ));
        }
        let kind = match &found {
            Finding::Node(..) => NODE,
            Finding::None => NONE,
            Finding::Refused(number) => refused(table, *number),
        };
        let known = match lookup.by {
            By::Scan => self.finds.add(kind),
            By::Index => self.index_finds.add(kind),
        };
        self.kind_is(known, table, "find");
        if lookup.by == By::Index {
            self.follow(table, lookup.index, asked, &expected);
        }
        if asked_refused(table, lookup, asked).is_none() {
            self.several(table, lookup, asked);
        }
        found
    }

    /// Which of the special cases a find is whose nodes are passed, or that others
    /// would follow. A node that is passed is written: a write does not recheck.
    fn several(&mut self, table: &Table, lookup: Lookup, asked: &Asked) {
        let (matrix, print) = asked.value.as_ref().expect("a query that is not refused");
        let all: Vec<(usize, Verdict)> = verdicts(table, lookup, matrix, *print).collect();
        let ends = all.iter().position(|(_, verdict)| !verdict.passes());
        let (passed, rest) = all.split_at(ends.unwrap_or(all.len()));
        let mut written: Vec<usize> = passed.iter().map(|(node, _)| *node).collect();
        if written.len() > 2 {
            written = vec![written[0], written[written.len() - 1]];
        }
        for node in written {
            let reply = self.write(table, asked.width, node, table.limits.gates as usize);
            if !matches!(reply, Reply::List(_)) {
                self.differs(format!("node {node} that was passed: {reply:?}"));
            }
        }
        let later = !passed.is_empty();
        let entries = prints_of(table, asked.width).len();
        let every = entries > 1 && all.len() == entries && rest.len() < 2;
        let Some(((_, end), after)) = rest.split_first() else {
            self.note(later, PASSED_OVER);
            self.note(every, EVERY_NONE);
            return;
        };
        match end {
            Verdict::Spoilt(bad) => {
                self.note(later, LATE_BAD);
                self.note(*bad == Bad::Marks, MARKS);
                let answered =
                    |(_, verdict): &(usize, Verdict)| matches!(verdict, Verdict::Answers(_));
                if after.iter().any(answered) {
                    self.among.add(first_of(*bad));
                }
            }
            _ => {
                let by_scan = lookup.by == By::Scan;
                self.note(later, if by_scan { LATER } else { LATER_INDEX });
                self.note(every, EVERY);
                let unfit = |(_, verdict): &(usize, Verdict)| *verdict == Verdict::DoesNotFit;
                self.note(passed.iter().any(unfit), UNFIT);
                for bad in [Bad::Parent, Bad::Code, Bad::Basis, Bad::Length] {
                    let spoilt = |(_, verdict): &(usize, Verdict)| *verdict == Verdict::Spoilt(bad);
                    self.note(after.iter().any(spoilt), after_of(bad));
                }
            }
        }
    }

    fn note(&mut self, holds: bool, name: &str) {
        if holds {
            self.among.add(name);
        }
    }

    /// Which of the special cases a find through an index is.
    fn follow(&mut self, table: &Table, index: &[u32], asked: &Asked, expected: &Finding) {
        if matches!(expected, Finding::Refused(number) if *number != 13) || bad_record(table) {
            return;
        }
        match (expected, find(table, SCAN, asked)) {
            (Finding::None, Finding::Node(..)) => _ = self.among.add(MISSED),
            (Finding::Node(..), Finding::Refused(13)) => _ = self.among.add(MISSED_BAD),
            (Finding::Refused(13), Finding::Node(..)) => _ = self.among.add(ONLY_BAD),
            // Every node with the fingerprint was passed.
            (Finding::Node(..), Finding::None) => {
                self.differs("a find of a node where the scan finds none".to_owned());
            }
            (Finding::Node(node, _), Finding::Node(lowest, _)) if *node != lowest => {
                self.among.add(OTHER_NODE);
            }
            _ => (),
        }
        let (Some((_, print)), 1..=5) = (&asked.value, asked.width) else {
            return;
        };
        let prints = prints_of(table, asked.width);
        if prints.is_empty() {
            return;
        }
        let part = part_of(table, index, asked.width);
        self.as_they_stand(table, part, asked, expected);
        let (mut above, mut start) = (false, None);
        for (step, place) in probe(part.len(), *print).enumerate() {
            let held = part[place];
            if held == EMPTY {
                return;
            }
            let round = place < *start.get_or_insert(place);
            if prints.get(held as usize) == Some(print) {
                let cases = [
                    (ABOVE_COUNT, above),
                    (ROUND, round),
                    (LAST, step + 1 == part.len()),
                ];
                for (name, _) in cases.into_iter().filter(|(_, holds)| *holds) {
                    self.among.add(name);
                }
                return;
            }
            above |= held as usize >= prints.len();
        }
        self.among.add(FULL);
    }

    /// Whether a find through an index would end otherwise if each node that the
    /// probe comes to were looked at, in the order in which they stand there.
    fn as_they_stand(&mut self, table: &Table, part: &[u32], asked: &Asked, expected: &Finding) {
        let (matrix, print) = asked.value.as_ref().expect("a query that is not refused");
        let prints = prints_of(table, asked.width);
        let mut order: Vec<usize> = probe(part.len(), *print)
            .map(|place| part[place])
            .take_while(|&held| held != EMPTY)
            .map(|held| held as usize)
            .filter(|&node| prints.get(node) == Some(print))
            .collect();
        if order.is_sorted() {
            return;
        }
        let mut seen = HashSet::new();
        order.retain(|&node| seen.insert(node));
        let all: HashMap<usize, Verdict> = verdicts(table, SCAN, matrix, *print).collect();
        let end = order.iter().find(|&node| !all[node].passes());
        let other = match end.map(|node| (*node, &all[node])) {
            Some((node, Verdict::Answers(list))) => Finding::Node(node, list.len()),
            Some(_) => Finding::Refused(13),
            None => Finding::None,
        };
        self.note(other != *expected, LOWER);
    }

    /// Fills an index from a table; whether it is filled.
    pub(super) fn fill(&mut self, table: &Table, index: &mut [u32]) -> bool {
        let before = index.to_vec();
        let number = table.fill(index);
        let (expected, left) = match fill(table, index.len()) {
            Ok(filled) => (0, filled),
            Err(number) => (number, before),
        };
        if number != expected || index[..] != left[..] {
            self.differs(format!(
                "{} record {:?}, an index of {} places: fill {number}, expected {expected}, {} places differ",
                table.limits.line(),
                table.record,
                index.len(),
                differing(index, &left),
            ));
        }
        let known = self.fills.add(match number {
            0 => FILLED,
            _ => refused(table, number),
        });
        self.kind_is(known, table, "fill");
        number == 0
    }

    /// Builds a table in what is lent; the number told.
    pub(super) fn build(
        &mut self,
        table: &mut Table,
        mode: Mode,
        by: By,
        index: &mut [u32],
    ) -> u64 {
        let expected = walks::build(table, Manner::plain(mode), Lookup { by, index });
        let lent = (table.clone(), index.to_vec());
        let number = table.build_by(mode, by, index);
        let (wanted, (left, kept)) = match expected {
            Ok(built) => (0, built),
            Err(number) => (number, lent),
        };
        let same = table.record == left.record
            && table.fingerprints == left.fingerprints
            && table.parents == left.parents
            && table.codes == left.codes;
        if number != wanted || !same || index[..] != kept[..] {
            self.differs(format!(
                "{} build {mode:?} by {by:?} with an index of {} places: {number}, expected {wanted}, arrays and record the same: {same}, {} places of the index differ",
                left.limits.line(),
                index.len(),
                differing(index, &kept),
            ));
        }
        let counts = match (mode, by) {
            (Mode::ByPrint, By::Scan) => &mut self.builds,
            (Mode::ByPrint, By::Index) => &mut self.index_builds,
            (Mode::Keeping, By::Scan) => &mut self.keeping_builds,
            (Mode::Keeping, By::Index) => &mut self.keeping_index_builds,
        };
        let known = counts.add(build_kind(number));
        self.kind_is(known, table, "build");
        number
    }

    /// Asks a table for the list of a node, with a lent list of so many places.
    pub(super) fn write(&mut self, table: &Table, width: u32, node: usize, room: usize) -> Reply {
        let (mut list, before) = lent(room);
        let reply = table.write(width, node, &mut list);
        let expected = write(table, width, node, room);
        if reply != expected || !is_kept(&reply, &list, &before) {
            self.differs(format!(
                "{} record {:?}, width {width} node {node}, {room} places: {reply:?}, expected {expected:?}",
                table.limits.line(),
                table.record,
            ));
        }
        let known = self.writes.add(kind(table, &reply));
        self.kind_is(known, table, "write");
        self.look(table, width, node, room, &expected);
        reply
    }

    /// Which of the special cases a write is.
    fn look(&mut self, table: &Table, width: u32, node: usize, room: usize, expected: &Reply) {
        let gates = table.limits.gates as usize;
        match expected {
            Reply::Refused(12) => match written(table, width, node) {
                Some(list) if list.len() <= room => _ = self.among.add(SHORT_FOR_GATES),
                Some(_) => (),
                None => _ = self.among.add(SHORT_BAD_CHAIN),
            },
            Reply::Refused(16) => {
                if room < gates {
                    self.among.add(NO_NODE_SHORT);
                }
                let unbuilt = width > table.limits.qubits && width <= 5;
                if unbuilt && node < table.count(width as usize) {
                    self.among.add(UNBUILT_COUNT);
                }
            }
            Reply::List(list) if room == gates && list.len() < gates => {
                self.among.add(JUST_ENOUGH);
            }
            _ => (),
        }
    }

    /// Whether a list gives what was asked; anything else is no list.
    fn is_exact(&mut self, number: usize, asked: &Asked, reply: &Reply) -> bool {
        let (Reply::List(codes), Some((matrix, _))) = (reply, &asked.value) else {
            return !matches!(reply, Reply::List(_));
        };
        let key = (number, codes.clone());
        if self.exact.contains(&key) {
            return true;
        }
        let exact = gives(codes, matrix);
        if exact {
            self.exact.insert(key);
        }
        exact
    }

    /// What the part with clashes came to.
    fn write_part(&self, out: &mut dyn Write) -> io::Result<()> {
        let Some(part) = &self.part else {
            return Ok(());
        };
        let Sums {
            tables,
            indexes,
            questions,
            among,
        } = part;
        writeln!(
            out,
            "with clashes: {tables} altered tables, {indexes} indexes, {questions} questions"
        )?;
        for (name, count) in self.among.names.iter().zip(among) {
            if *count > 0 {
                writeln!(out, "  {count} {name}")?;
            }
        }
        out.flush()
    }

    /// That part alone; an error where there are differences.
    pub(super) fn report_part(&self, out: &mut dyn Write) -> io::Result<()> {
        self.write_part(out)?;
        writeln!(out, "{} differences", self.differences)?;
        out.flush()?;
        self.end()
    }

    fn end(&self) -> io::Result<()> {
        match self.differences {
            0 => Ok(()),
            _ => Err(io::Error::other("the port says something else")),
        }
    }

    /// All counts; an error where there are differences, or where a kind of
    /// outcome never came.
    pub(super) fn report(&self, out: &mut dyn Write) -> io::Result<()> {
        let both = |name| self.answers.of(name) + self.index_answers.of(name);
        let questions = self.answers.total() + self.index_answers.total();
        let (lists, nothing) = (both(LIST), both(NONE));
        writeln!(
            out,
            "{} altered tables, {} altered indexes, {questions} questions: {lists} lists, {nothing} none, {} refused; {} differences",
            self.tables,
            self.indexes,
            questions - lists - nothing,
            self.differences
        )?;
        let all = [
            ("answers", &self.answers),
            ("finds", &self.finds),
            ("writes", &self.writes),
            ("answers through an index", &self.index_answers),
            ("finds through an index", &self.index_finds),
            ("fills", &self.fills),
            ("builds", &self.builds),
            ("builds through an index", &self.index_builds),
            ("builds that keep clashes", &self.keeping_builds),
            (
                "builds that keep clashes, through an index",
                &self.keeping_index_builds,
            ),
        ];
        for (name, counts) in all {
            writeln!(out, "{} {name}: {}", counts.total(), counts.line())?;
        }
        for (name, count) in self.among.names.iter().zip(&self.among.counts) {
            writeln!(out, "{count} {name}")?;
        }
        self.write_part(out)?;
        out.flush()?;
        let among = ("among them", &self.among);
        let missing: Vec<String> = all
            .iter()
            .chain([&among])
            .flat_map(|(name, counts)| counts.missing().map(move |kind| format!("{name}: {kind}")))
            .collect();
        if !missing.is_empty() {
            return Err(io::Error::other(format!(
                "never met: {}",
                missing.join("; ")
            )));
        }
        self.end()
    }
}

/// A bad chain before a node that would answer, by what makes it bad.
fn first_of(bad: Bad) -> &'static str {
    match bad {
        Bad::Parent => PARENT_FIRST,
        Bad::Code => CODE_FIRST,
        Bad::Basis => BASIS_FIRST,
        Bad::Length => LENGTH_FIRST,
        // No node of the width would answer then.
        Bad::Marks => "another number",
    }
}

/// The same after the node that answers.
fn after_of(bad: Bad) -> &'static str {
    match bad {
        Bad::Parent => PARENT_AFTER,
        Bad::Code => CODE_AFTER,
        Bad::Basis => BASIS_AFTER,
        Bad::Length => LENGTH_AFTER,
        Bad::Marks => "another number",
    }
}

/// How many places are not the same.
fn differing(one: &[u32], other: &[u32]) -> usize {
    let pairs = one.iter().zip(other);
    pairs.filter(|(one, other)| one != other).count()
}

/// A lent list, and what it holds.
fn lent(room: usize) -> (Vec<u32>, Vec<u32>) {
    let list: Vec<u32> = (0..room as u32).map(|place| 0xa5a5_0000 + place).collect();
    (list.clone(), list)
}

/// Whether all places but those of a list that came are as they were.
fn is_kept(reply: &Reply, list: &[u32], before: &[u32]) -> bool {
    let filled = match reply {
        Reply::List(codes) => codes.len(),
        _ => 0,
    };
    list[filled..] == before[filled..]
}
