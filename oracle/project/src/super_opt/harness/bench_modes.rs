//! Part of the mode `bench`: builds of the port through an index in each mode, by
//! fingerprint and keeping clashes, in turns. Parts have the least size that is
//! allowed. Some builds take a second, which others interrupt: the time is that in which
//! the processor worked for this thread.

use std::hint::black_box;
use std::io::{self, Write};

use super::bench::turns;
use super::bench_tables::{BASES, GATES, WHOLE_ENTRIES, WHOLE_GATES, built, limits};
use super::indexes::same;
use super::lent::{By, Mode, Table};
use super::tables::Limits;

/// The seconds and nanoseconds of a clock, on Linux.
#[repr(C)]
struct Time {
    seconds: i64,
    nanoseconds: i64,
}

/// The clock of a thread's processor time.
const THREAD: i32 = 3;

unsafe extern "C" {
    fn clock_gettime(clock: i32, time: *mut Time) -> i32;
}

/// How long the processor worked for this thread, in seconds.
fn worked() -> f64 {
    let mut time = Time {
        seconds: 0,
        nanoseconds: 0,
    };
    let told = unsafe { clock_gettime(THREAD, &mut time) };
    assert_eq!(told, 0, "the clock of a thread");
    time.seconds as f64 + time.nanoseconds as f64 * 1e-9
}

/// E of tables that are full.
const ENTRIES: [u32; 2] = [12_000, 100_000];

/// Writes a line for each table: nanoseconds for each entry, by fingerprint and keeping,
/// and the ratio of the two; then the same of the last width alone, whose time is that of
/// Q without that of Q - 1.
pub(super) fn run(out: &mut dyn Write) -> io::Result<()> {
    writeln!(
        out,
        "nanoseconds of the processor for each entry, through an index"
    )?;
    writeln!(
        out,
        "Q limits entries by-print keeping ratio, of width Q: entries by-print keeping ratio"
    )?;
    for basis in BASES {
        for qubits in 1..=5 {
            let gates = WHOLE_GATES[qubits as usize - 1];
            time(out, "whole", limits(qubits, gates, WHOLE_ENTRIES, basis))?;
        }
    }
    for entries in ENTRIES {
        for basis in BASES {
            for qubits in 1..=5 {
                time(out, "full", limits(qubits, GATES, entries, basis))?;
            }
        }
    }
    Ok(())
}

/// A table, with its index, that is built again and again.
struct Work {
    table: Table,
    index: Vec<u32>,
    mode: Mode,
}

impl Work {
    fn new(limits: Limits, mode: Mode) -> Self {
        let (table, index) = built(limits, mode, By::Index);
        Self { table, index, mode }
    }

    fn build(&mut self) {
        black_box(self.table.build_by(self.mode, By::Index, &mut self.index));
    }

    fn entries(&self) -> usize {
        (1..=5).map(|width| self.table.count(width)).sum()
    }
}

fn time(out: &mut dyn Write, name: &str, limits: Limits) -> io::Result<()> {
    let work = |limits| Mode::BOTH.map(|mode| Work::new(limits, mode));
    let mut all = Vec::from(work(limits));
    // Both modes come to the same table.
    assert!(same(&all[0].table, &all[1].table), "table");
    assert_eq!(all[0].index, all[1].index, "index");
    if limits.qubits > 1 {
        let qubits = limits.qubits - 1;
        all.extend(work(Limits { qubits, ..limits }));
    }
    let entries: Vec<usize> = all.iter().map(Work::entries).collect();
    let mut works: Vec<_> = all.iter_mut().map(|work| || work.build()).collect();
    let mut works: Vec<&mut dyn FnMut()> = works
        .iter_mut()
        .map(|work| work as &mut dyn FnMut())
        .collect();
    let times = turns(&mut works, worked);
    let of_width = match entries.len() {
        4 => (
            entries[0] - entries[2],
            times[0] - times[2],
            times[1] - times[3],
        ),
        _ => (entries[0], times[0], times[1]),
    };
    let each = |(entries, by_print, keeping): (usize, f64, f64)| {
        let each = |time: f64| time * 1e9 / entries as f64;
        format!(
            "{entries} {:.0} {:.0} {:.2}",
            each(by_print),
            each(keeping),
            keeping / by_print
        )
    };
    writeln!(
        out,
        "{} {name}-{} {} {}",
        limits.qubits,
        limits.numbers().replace(' ', "-"),
        each((entries[0], times[0], times[1])),
        each(of_width)
    )?;
    out.flush()
}
