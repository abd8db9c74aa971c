//! `inputs circuits`: the runs of the program `circuits` that port and original
//! are compared on, for the mode `circuits`. `inputs circuits sample` is what
//! the recording holds; `inputs circuits part N` are random runs, others for
//! each N. The same runs come out each time.

use std::io::{self, Write};

use super::circuits::{MOST_INPUT, PLACES, write_run};
use super::codes::{FURTHER, kinds, list_codes_of};
use super::edges;
use super::far;
use super::further;
use super::inputs::{MOST_GATES, TRAP, evenly, foreign_codes, list, valid_codes};
use super::lent::Mode;
use super::lists::{List, MOST_WIDTH};
use super::random::Random;
use super::run_queries::{Also, Asker, trapped};
use super::table_inputs::{bases, basis};
use super::tables::{Built, Limits};

/// The input of one run.
type Run = Vec<u8>;

/// SPECIFICATION 10.7.
const WORKED: &str = "1 8 10 24\n1 1 8192\n1 1 20480\n";

/// A first line with a small table, and a query that it answers.
const FIRST: &str = "1 8 10 24\n";
const QUERY: &str = "1 1 8192\n";

/// First lines of another form, parted by `|`.
const FIRST_SPOILT: &str = concat!(
    "1 8 10 24 0|1 8 10 24 | 1 8 10 24|1  8 10 24|1 8 10  24|1\t8 10 24|1 8 10 24\t|1 8 10 24\r|",
    "\r|1 8 10 24\0|\0|1 8\0 10 24|1 8 10 24\x0b|1 8 10 24\x0c|1 8 10 24a|a|table 1 8 10 24|",
    "-1 8 10 24|1 8 10 -24|+1 8 10 24|1 8 10 24.|1,8,10,24|1 8 10 0x18|1 8 1/ 24|1 8 1: 24|",
    "1 8 1\u{660} 24|1 8 10 \u{ff12}4|1 8 10\u{a0}24|4294967296 8 10 24|4294967297 8 10 24|",
    "1 4294967296 10 24|1 8 4294967296 24|1 8 10 4294967320|9999999999 8 10 24|",
    "1 8 10 9999999999|00000000001 8 10 24|1 8 00000000010 24|1 8 10 00000000024|",
    "1 8 10 18446744073709551640|6 65 0 0 |0 0 0",
);

/// Query lines of another form, parted by `|`.
const QUERY_SPOILT: &str = concat!(
    "| |1|1 |1 1|1 1 |1 2 0|1 1 0 0|1 0 0|1 0 | 1 0|1  0|1 1  0|1 1 0 |1 1\t0|1 1 0\t|1 1 0\r|\r|",
    "1 1 0\0|\0|1 1 0a|none|list 1 1 0|-1 0|1 -1|1 1 -0|+1 0|1 1 0.|1,1,0|1 1 /|1 1 :|",
    "1 1 \u{661}|1\u{a0}1 0|4294967296 0|4294967297 0|1 4294967296|1 4294967295|",
    "1 1 4294967296|1 1 9999999999|9999999999 0|00000000001 0|1 00000000001 0|",
    "1 1 00000000000|1 1 18446744073709551616|6 1|6 257|1 257|0 1|7 0 0",
);

/// Inputs without queries, or whose first line has no newline, parted by `|`.
const SHORT: &str = "|\n|\n\n| | \n|1|1 8 10 24|1 8 10|1 8 10\n|1 8\n|1\n";

/// What may follow a first line: some of it without a newline, some of it with
/// ten digits, which are taken. Parted by `|`.
const ENDS: &str = concat!(
    "|1|1 0|1 0 |1 1 8192|\n|\n\n|6 0|0 0| |1 0\n1 0|",
    "0000000001 0000000001 0000008192\n|0000000000 0000000000\n",
);

/// How many random runs a part has, and how many of the recording are random.
const PART: usize = 400;
const SAMPLE: usize = 60;

/// From this part on the queries have the six kinds too that no table has; so
/// have as many random runs of the recording.
const FURTHER_FROM: u64 = 15;
const FURTHER_SAMPLE: usize = 12;

/// The same of queries whose coefficients pass 127, and no more of the six kinds.
const FAR_FROM: u64 = 19;
const FAR_SAMPLE: usize = 12;

pub(super) fn write_sample(out: &mut dyn Write) -> io::Result<()> {
    let groups = [
        vec![WORKED.into()],
        first_lines(),
        refused_limits(),
        accepted_limits(),
        query_lines(),
        counts(),
        not_valid(),
        not_fitting(),
        lengths(),
        bases_alone(),
        pairs(),
        wide(),
        large(),
        random_runs(0, SAMPLE, 60, Also::Nothing),
        further_bases(),
        further_queries(),
        random_runs(1, FURTHER_SAMPLE, 60, Also::Further),
        far_queries(),
        random_runs(1000, FAR_SAMPLE, 60, Also::Far),
    ];
    for run in groups.concat() {
        write_run(&run, out)?;
    }
    Ok(())
}

pub(super) fn write_part(part: u64, out: &mut dyn Write) -> io::Result<()> {
    let also = match part {
        FAR_FROM.. => Also::Far,
        FURTHER_FROM.. => Also::Further,
        _ => Also::Nothing,
    };
    for run in random_runs(1 + part, PART, PLACES as usize, also) {
        write_run(&run, out)?;
    }
    Ok(())
}

/// A first line, and query lines.
fn run_of(limits: Limits, queries: &[String]) -> Run {
    let mut run = limits.numbers();
    for query in queries {
        run.push('\n');
        run.push_str(query);
    }
    run.push('\n');
    run.into()
}

/// A line of four numbers spoilt in many ways. Nothing after it is looked at.
fn first_lines() -> Vec<Run> {
    let mut runs: Vec<Run> = SHORT.split('|').map(Run::from).collect();
    for line in FIRST_SPOILT.split('|') {
        runs.push(format!("{line}\n{QUERY}").into());
    }
    for byte in [128, 0xb1, 0xa0, 0x8a, 0xff] {
        runs.push([b"1 8 10 2", &[byte][..], b"\n", QUERY.as_bytes()].concat());
        runs.push([b"1 8 10", &[byte][..], b"24\n", QUERY.as_bytes()].concat());
    }
    runs
}

/// Limits at and past their ends, so that each of 1 to 5 is met, alone and
/// where later ones hold too.
fn refused_limits() -> Vec<Run> {
    let mut all = Vec::new();
    for qubits in [0, 1, 5, 6, 4294967295] {
        for gates in [0, 64, 65, 4294967295] {
            for entries in [0, 1, 409, 410, 2049, 1000000, 1000001, 4294967295] {
                for basis in [24, 0, 128, 3968, 4096, 4294967295] {
                    all.push([qubits, gates, entries, basis]);
                }
            }
        }
    }
    let mut limits: Vec<[u32; 4]> = vec![
        [0, 8, 10, 24],
        [6, 8, 10, 24],
        [4294967295, 8, 10, 24],
        [1, 8, 0, 24],
        [1, 8, 10, 0],
        [1, 8, 10, 128],
        [1, 8, 10, 152],
        [1, 8, 10, 3968],
        [1, 8, 10, 4096],
        [1, 8, 10, 4095],
        [1, 8, 10, 4294967295],
        [1, 65, 10, 24],
        [1, 4294967295, 10, 24],
        [1, 8, 1000001, 24],
        [1, 8, 1000000, 24],
        [1, 8, 2049, 24],
        [2, 8, 1025, 24],
        [3, 8, 683, 24],
        [4, 8, 513, 24],
        [5, 8, 410, 24],
        [5, 8, 4294967295, 24],
        [5, 8, 858993460, 24],
        [4, 8, 1073741824, 24],
        [2, 8, 2147483648, 24],
        [5, 65, 4294967295, 24],
        [5, 65, 2049, 0],
        [5, 65, 0, 0],
        [0, 65, 0, 0],
        [6, 65, 2049, 128],
    ];
    let row = |limits: &[u32; 4]| Limits::of(*limits).refusal(PLACES);
    for wanted in 1..=5 {
        let same = all.iter().filter(|limits| row(limits) == Some(wanted));
        limits.extend(evenly(same.copied().collect(), 9));
    }
    limits
        .into_iter()
        .map(|limits| run_of(Limits::of(limits), &["1 1 8192".into()]))
        .collect()
}

/// Limits at their ends that are accepted, mostly of few products.
fn accepted_limits() -> Vec<Run> {
    let limits = [
        [1, 8, 2048, 24],
        [2, 8, 1024, 2],
        [3, 8, 682, 2],
        [4, 8, 512, 4],
        [5, 8, 409, 4],
        [1, 0, 10, 24],
        [1, 64, 10, 24],
        [1, 8, 1, 24],
        [1, 8, 1, 2],
        [1, 8, 2, 2],
        [1, 0, 1, 2],
        [1, 8, 4, 24],
        [1, 8, 3, 24],
        [1, 8, 23, 9],
        [1, 8, 24, 9],
        [5, 0, 1, 3967],
        [5, 64, 1, 3967],
        [5, 64, 409, 256],
        [1, 64, 8, 32],
        [1, 64, 8, 96],
        [1, 8, 10, 256],
        [2, 8, 10, 3072],
        [5, 0, 409, 3967],
    ];
    limits.map(|limits| asked(limits, 3, 6)).into()
}

/// Query lines spoilt in many ways, each between two good ones, and in one run;
/// a last line without a newline, and nothing after the first line.
fn query_lines() -> Vec<Run> {
    let lines: Vec<&str> = QUERY_SPOILT.split('|').collect();
    let mut runs: Vec<Run> = lines
        .iter()
        .map(|line| format!("{FIRST}{QUERY}{line}\n1 2 16384 16384\n").into())
        .collect();
    runs.push(format!("{FIRST}{}\n{QUERY}", lines.join("\n")).into());
    for byte in [128, 0xb1, 0xa0, 0x8a, 0xff] {
        runs.push(
            [
                FIRST.as_bytes(),
                b"1 1 ",
                &[byte][..],
                b"\n",
                QUERY.as_bytes(),
            ]
            .concat(),
        );
    }
    for text in ENDS.split('|') {
        runs.push(format!("{FIRST}{text}").into());
    }
    runs.push(format!("0000000001 0000000008 0000000010 0000000024\n{QUERY}").into());
    runs.push(format!("1 08 010 0024\n{QUERY}").into());
    runs
}

/// Counts at and past 256, and counts that do not match.
fn counts() -> Vec<Run> {
    let line = |count: usize, codes: usize, code: &str| {
        format!("1 {count}{}\n", format!(" {code}").repeat(codes))
    };
    let mut text = FIRST.to_owned();
    for (count, codes) in [
        (256, 256),
        (255, 255),
        (257, 257),
        (256, 255),
        (256, 257),
        (257, 256),
        (255, 256),
        (0, 256),
        (0, 257),
        (300, 300),
    ] {
        text.push_str(&line(count, codes, "0"));
    }
    text.push_str(&line(256, 256, "12288"));
    text.push_str(&line(255, 255, "12288"));
    text.push_str(&line(256, 256, "0000016384"));
    text.push_str(&line(255, 255, "0000016384"));
    text.push_str(&line(256, 256, "4294967295"));
    text.push_str(&format!("1 256{} 4294967295\n", " 0".repeat(255)));
    text.push_str(&format!("6 256{} 4294967295\n", " 0".repeat(255)));
    text.push_str(&format!("0 256{}\n", " 0".repeat(256)));
    vec![text.into()]
}

/// Codes that are not valid at a width, at any place of a list; widths past 5;
/// width 0.
fn not_valid() -> Vec<Run> {
    let mut random = Random::new(301);
    let mut runs = Vec::new();
    for width in 0..=MOST_WIDTH as usize {
        let bad = foreign_codes(width);
        let mut lines: Vec<String> = evenly(bad.clone(), 40)
            .into_iter()
            .map(|code| list(width, vec![code]).numbers())
            .collect();
        for most in [1, 2, 3, 8, 30, MOST_GATES] {
            let mut codes = vec![random.one_of(&bad)];
            if width > 0 {
                let valid = valid_codes(width);
                codes = (0..most).map(|_| random.one_of(&valid)).collect();
                for _ in 0..2 {
                    codes[random.below(most)] = random.one_of(&bad);
                }
            }
            lines.push(list(width, codes).numbers());
        }
        runs.push(run_of(
            Limits::of([1 + width as u32 % 3, 2, 9, 383]),
            &lines,
        ));
    }
    let mut lines = Vec::new();
    for width in [
        6, 7, 8, 31, 32, 33, 64, 255, 256, 65536, 2147483648, 4294967295,
    ] {
        for codes in [vec![], vec![0], vec![4294967295], TRAP.to_vec()] {
            lines.push(List { width, codes }.numbers());
        }
    }
    lines.extend(
        [
            "0 0",
            "0 1 0",
            "0 1 4294967295",
            "0 2 0 0",
            "5 0",
            "5 1 1024",
        ]
        .map(String::from),
    );
    runs.push(run_of(Limits::of([2, 3, 9, 9]), &lines));
    runs
}

/// Lists that come to the original's limit of 127 and that pass it, asked of some
/// tables.
fn not_fitting() -> Vec<Run> {
    let mut runs = Vec::new();
    let mut lines = Vec::new();
    for width in 1..=MOST_WIDTH as usize {
        for codes in trapped() {
            lines.push(list(width, codes).numbers());
        }
    }
    runs.push(run_of(Limits::of([1, 3, 30, 33]), &lines));
    let mut lists = edges::lists();
    lists.retain(|list| list.codes.len() <= 90);
    let lists = evenly(lists, 100);
    for (number, lists) in lists.chunks(10).enumerate() {
        let lines: Vec<String> = lists.iter().map(List::numbers).collect();
        let qubits = 1 + number as u32 % 5;
        runs.push(run_of(Limits::of([qubits, 2, 4, 289]), &lines));
    }
    runs
}

/// Inputs of 16,384 bytes and around.
fn lengths() -> Vec<Run> {
    let small = "1 0 1 2\n";
    // Made longer by zeros before the first number of a line.
    let filled = |first: &str, line: &str, length: usize| {
        let mut lines = vec![first.to_owned()];
        let count = (length - first.len()) / line.len();
        lines.extend((0..count).map(|_| line.to_owned()));
        let mut missing = length - first.len() - count * line.len();
        for line in lines.iter_mut().rev() {
            let zeros = missing.min(9);
            line.insert_str(0, &"0".repeat(zeros));
            missing -= zeros;
        }
        Run::from(lines.concat())
    };
    let newlines = |first: &str, length: usize| {
        Run::from(format!("{first}{}", "\n".repeat(length - first.len())))
    };
    let most = MOST_INPUT;
    let mut runs = vec![
        filled(FIRST, QUERY, most - 1),
        filled(FIRST, QUERY, most),
        filled(FIRST, QUERY, most + 1),
        newlines(small, most),
        newlines(small, most + 1),
        newlines("", most),
        newlines("", most + 1),
        filled("6 8 10 24\n", QUERY, most),
        filled("6 8 10 24\n", QUERY, most + 1),
        filled(FIRST, QUERY, 40000),
        vec![b' '; most + 1],
        vec![0; most + 1],
        vec![b'1'; most],
    ];
    // The last byte that is read, and the one after it.
    let mut cut = filled(FIRST, QUERY, most);
    cut[most - 1] = b'0';
    runs.push(cut.clone());
    cut.push(b'\n');
    runs.push(cut);
    // The longest answers for the shortest queries that were found: of three
    // Tdg by T alone, 21 gates.
    let query = "3 3 24576 24832 25088\n";
    runs.push(filled("3 64 512 32\n", query, most));
    // The longest lines of codes.
    let longest = format!("1 256{}\n", " 0000000000".repeat(256));
    runs.push(filled("1 8 24 9\n", &longest, most));
    runs
}

/// A table with some queries of each sort.
fn asked(limits: [u32; 4], seed: u64, queries: usize) -> Run {
    asked_as(limits, seed, queries, Also::Nothing)
}

/// The same with others among the queries.
fn asked_as(limits: [u32; 4], seed: u64, queries: usize, also: Also) -> Run {
    let limits = Limits::of(limits);
    let mut asker = Asker {
        limits,
        table: Built::of(limits, Mode::ByPrint).table,
        random: Random::new(seed),
        also,
    };
    let lines: Vec<String> = (0..queries).map(|_| asker.query()).collect();
    run_of(limits, &lines)
}

/// Each kind alone, at each width.
fn bases_alone() -> Vec<Run> {
    let mut runs = Vec::new();
    for kind in kinds() {
        for qubits in 1..=MOST_WIDTH {
            let number = kind as u64 * 8 + u64::from(qubits);
            let entries = [40, 25, 15, 8, 6][qubits as usize - 1];
            let limits = [qubits, 64, entries, 1 << kind as u32];
            runs.push(asked(limits, 1000 + number, 6));
        }
    }
    runs
}

/// Two kinds.
fn pairs() -> Vec<Run> {
    let pairs = bases().filter(|basis| basis.count_ones() == 2).enumerate();
    pairs
        .map(|(number, basis)| {
            let qubits = 1 + number as u32 % 4;
            let entries = [60, 30, 20, 12][qubits as usize - 1];
            asked(
                [qubits, 1 + number as u32 % 7, entries, basis],
                2000 + number as u64,
                6,
            )
        })
        .collect()
}

/// The default base and all kinds, at each width.
fn wide() -> Vec<Run> {
    let mut runs = Vec::new();
    for basis in [383, 3967] {
        for qubits in 1..=MOST_WIDTH {
            for gates in [1, 3] {
                let number = u64::from(basis + 10 * qubits + gates);
                let entries = [80, 40, 30, 24, 18][qubits as usize - 1];
                runs.push(asked([qubits, gates, entries, basis], 3000 + number, 8));
            }
        }
    }
    runs
}

/// Tables that fill all places, or nearly all, and come to long lists.
fn large() -> Vec<Run> {
    vec![
        asked([1, 64, 2048, 33], 4001, 30),
        asked([2, 3, 1024, 383], 4002, 30),
        asked([4, 64, 512, 32], 4003, 30),
        asked([5, 64, 409, 3967], 4004, 30),
    ]
}

/// A basis with one of the six further kinds, alone and beside others.
fn further_bases() -> Vec<Run> {
    FURTHER
        .iter()
        .flat_map(|&kind| [1 << kind as u32, 24 | 1 << kind as u32])
        .map(|basis| run_of(Limits::of([1, 8, 10, basis]), &["1 1 8192".into()]))
        .collect()
}

/// Tables that have each of the six further kinds but Ch as a product, asked
/// every gate of these kinds; codes of them that are not valid; and lists that
/// come to the original's limit of 127 at an Sx or a Ch, or pass it.
fn further_queries() -> Vec<Run> {
    let mut runs = Vec::new();
    for limits in [
        [1, 8, 10, 6],
        [1, 8, 24, 9],
        [2, 8, 6, 256],
        [2, 3, 120, 280],
        [3, 3, 600, 1280],
    ] {
        let limits = Limits::of(limits);
        let mut lines = Vec::new();
        for width in 1..=limits.qubits as usize + 1 {
            for code in FURTHER.map(|kind| list_codes_of(kind, width)).concat() {
                lines.push(list(width, vec![code]).numbers());
                lines.push(list(width, vec![code; 2]).numbers());
            }
        }
        runs.push(run_of(limits, &lines));
    }
    let mut lines = Vec::new();
    for width in 0..=MOST_WIDTH as usize {
        for code in evenly(further::invalid_codes(width), 12) {
            lines.push(list(width, vec![code]).numbers());
        }
    }
    runs.push(run_of(Limits::of([2, 2, 9, 24]), &lines));
    let lines: Vec<String> = further::some_edges().iter().map(List::numbers).collect();
    for lines in lines.chunks(20) {
        runs.push(run_of(Limits::of([2, 2, 9, 33]), lines));
    }
    runs
}

/// Lists that come to the limit of 32767 and that pass it, and lists that come back to a
/// node, asked of some tables.
fn far_queries() -> Vec<Run> {
    let mut lines: Vec<String> = far::some_edges().iter().map(List::numbers).collect();
    lines.extend(far::some_returning().iter().map(List::numbers));
    lines
        .chunks(8)
        .enumerate()
        .map(|(number, lines)| {
            let qubits = 1 + number as u32 % 3;
            run_of(Limits::of([qubits, 2, 9, 297]), lines)
        })
        .collect()
}

/// Random limits, mostly accepted, and random queries.
fn random_runs(seed: u64, count: usize, places: usize, also: Also) -> Vec<Run> {
    let mut random = Random::new(5000 + seed);
    (0..count as u64)
        .map(|number| {
            let qubits = 1 + random.below(MOST_WIDTH as usize);
            // Few tables are large.
            let shrunk = places / random.one_of(&[1, 4, 16, 16]) / qubits;
            let entries = 1 + random.below(shrunk.max(3));
            let gates = random.one_of(&[0, 1, 2, 3, 4, 5, 6, 8, 12, 20, 40, 64]);
            let limits = [qubits as u32, gates, entries as u32, basis(&mut random)];
            // Lists with large coefficients are long.
            let queries = random.below(if also == Also::Far { 12 } else { 24 });
            let run = asked_as(limits, 100000 * (1 + seed) + number, queries, also);
            match random.below(8) {
                0 => spoilt(run, &mut random),
                _ => run,
            }
        })
        .collect()
}

/// One byte is changed, left out or put in.
fn spoilt(mut run: Run, random: &mut Random) -> Run {
    let place = random.below(run.len());
    let byte = random.one_of(b"0123456789 \n\n\r\t-a\0\x80\xff");
    match random.below(3) {
        0 => run[place] = byte,
        1 => run.insert(place, byte),
        _ => {
            run.remove(place);
        }
    }
    run
}
