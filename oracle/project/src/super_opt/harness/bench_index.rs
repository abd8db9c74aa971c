//! Part of the mode `bench`: large tables, which the port builds through an index,
//! and answers through one. Parts have the least size that is allowed.

use std::io::{self, Write};
use std::time::Instant;

use super::bench_tables::{built, limits, time_asked, time_build, write_rates};
use super::lent::{By, Mode, Table};
use super::tables::Limits;
use crate::circuit::GateSet;
use crate::super_opt::murm::{LibraryGate, library_gates};

/// Q, G, E and B of large tables.
const LARGE: [[u32; 4]; 4] = [
    [2, 10, 200_000, 383],
    [3, 8, 200_000, 383],
    [4, 6, 200_000, 383],
    [5, 5, 100_000, 3967],
];

/// E of tables of one sort, and up to which the scan is timed too.
const ENTRIES: [u32; 6] = [25_000, 50_000, 100_000, 200_000, 400_000, 1_000_000];
const MOST_SCANNED: u32 = 100_000;

/// Long work is timed less often.
const LONG: f64 = 5.0;

/// Writes a line for each large table, two for the answers of each width, and then
/// the time for each entry as tables grow: of all widths, and of width 3 alone. The
/// widths are built one after the other, so that the time of width 3 is that of Q 3
/// without that of Q 2.
pub(super) fn run(out: &mut dyn Write) -> io::Result<()> {
    for [qubits, gates, entries, basis] in LARGE {
        let (count, times) = time_build(limits(qubits, gates, entries, basis), By::Index);
        let work = format!("built-{basis}-{entries}");
        write_rates(out, qubits as usize, &work, count, times)?;
    }
    time_asked(By::Index, ["answers", "misses"], out)?;
    writeln!(out, "limits 3 8 E 383: nanoseconds for each entry")?;
    writeln!(
        out,
        "E entries original index ratio fill scan, of width 3: entries original index tried"
    )?;
    for entries in ENTRIES {
        let smaller = limits(2, 8, entries, 383);
        let limits = limits(3, 8, entries, 383);
        let (count, times) = time_build(limits, By::Index);
        let (count_2, times_2) = time_build(smaller, By::Index);
        let each = |time: f64| time * 1e9 / count as f64;
        let count_3 = count - count_2;
        let each_3 = |time: f64| time * 1e9 / count_3 as f64;
        let scan = match entries <= MOST_SCANNED {
            true => format!("{:.0}", each(least(|| time_once(limits)))),
            false => "-".to_owned(),
        };
        let (table, mut index) = built(limits, Mode::ByPrint, By::Index);
        let fill = least(|| time_fill(&table, &mut index));
        writeln!(
            out,
            "{entries} {count} {:.0} {:.0} {:.2} {:.1} {scan} {count_3} {:.0} {:.0} {:.2}",
            each(times.0),
            each(times.1),
            times.0 / times.1,
            each(fill),
            each_3(times.0 - times_2.0),
            each_3(times.1 - times_2.1),
            tried(limits, 3) as f64 / count_3 as f64,
        )?;
        out.flush()?;
    }
    Ok(())
}

/// The least of three times, or one time where it is long.
fn least(mut time: impl FnMut() -> f64) -> f64 {
    let once = time();
    match once < LONG {
        true => once.min(time()).min(time()),
        false => once,
    }
}

/// How many candidates a width tries until it has its last entry: each node before
/// that entry's parent tries every generator that the original does not skip.
fn tried(limits: Limits, width: usize) -> usize {
    let table = limits.build();
    let nodes = &table.width(width).0.nodes;
    let generators = library_gates(width, GateSet::from_bits_const(limits.basis));
    let skips = |last: LibraryGate, gate: LibraryGate| {
        last.is_inverse_of(gate) || last.is_disjoint(gate) && gate < last
    };
    let kept = |node: usize| -> Vec<LibraryGate> {
        let last = nodes[node].gate;
        let keeps = |gate: &LibraryGate| !last.is_some_and(|last| skips(last, *gate));
        generators.iter().copied().filter(keeps).collect()
    };
    let entry = nodes.last().expect("the root");
    let (Some(parent), Some(gate)) = (entry.parent, entry.gate) else {
        return 0;
    };
    let before: usize = (0..parent).map(|node| kept(node).len()).sum();
    let at = kept(parent).iter().position(|kept| *kept == gate);
    before + at.expect("the parent tried it") + 1
}

/// One build by the scan.
fn time_once(limits: Limits) -> f64 {
    let places = limits.qubits as usize * limits.entries as usize;
    let mut table = Table::with_places(limits, places);
    let start = Instant::now();
    assert_eq!(table.build(), 0, "the limits are not refused");
    start.elapsed().as_secs_f64()
}

fn time_fill(table: &Table, index: &mut [u32]) -> f64 {
    let start = Instant::now();
    assert_eq!(table.fill(index), 0, "the table is not refused");
    start.elapsed().as_secs_f64()
}
