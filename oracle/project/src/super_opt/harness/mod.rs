//! What is asked of the original. The first argument is a mode; a mode has a
//! file of its own here and a line in `MODES`.

#[cfg(feature = "port")]
mod altered;
#[cfg(feature = "port")]
mod bench;
#[cfg(feature = "port")]
mod bench_index;
#[cfg(feature = "port")]
mod bench_modes;
#[cfg(feature = "port")]
mod bench_tables;
mod circuits;
#[cfg(feature = "port")]
mod clashes;
mod codes;
#[cfg(feature = "port")]
mod damage;
mod edges;
// Much of what is written from the documents alone is for the port's archives.
#[cfg_attr(not(feature = "port"), allow(dead_code))]
mod exact;
mod far;
mod far_edges;
mod further;
mod further_edges;
mod gates;
#[cfg(feature = "port")]
mod indexed;
#[cfg(feature = "port")]
mod indexes;
mod inputs;
#[cfg_attr(not(feature = "port"), allow(dead_code))]
mod lent;
mod lines;
mod lists;
mod measure;
#[cfg(feature = "port")]
mod orders;
#[cfg(feature = "port")]
mod port;
mod questions;
mod random;
mod refusals;
#[cfg_attr(not(feature = "port"), allow(dead_code))]
mod rules;
mod run_inputs;
mod run_queries;
mod table_inputs;
mod tables;
#[cfg(feature = "port")]
mod tally;
#[cfg_attr(not(feature = "port"), allow(dead_code))]
mod walks;
#[cfg(feature = "port")]
mod weakened;

use std::io::{self, BufWriter, Write};
use std::process::ExitCode;

/// A mode takes the arguments after its name and writes to standard output.
type Mode = fn(&[String], &mut dyn Write) -> io::Result<()>;

const MODES: &[(&str, Mode)] = &[
    #[cfg(feature = "port")]
    ("bench", bench::run),
    #[cfg(feature = "port")]
    ("damage", damage::run),
    #[cfg(feature = "port")]
    ("index", indexed::run),
    ("circuits", circuits::run),
    ("edges", far_edges::run),
    ("gates", gates::run),
    ("inputs", inputs::run),
    ("lines", lines::run),
    ("list", lists::run),
    ("refusals", refusals::run),
];

/// Runs the mode that the arguments name. Ends with 2 when there is none such,
/// and with 1 when the output cannot be written.
pub(crate) fn run(arguments: Vec<String>) -> ExitCode {
    let mode = arguments
        .first()
        .and_then(|word| MODES.iter().find(|(name, _)| name == word));
    let Some((_, mode)) = mode else {
        let names: Vec<&str> = MODES.iter().map(|(name, _)| *name).collect();
        eprintln!("usage: oracle MODE ...; modes: {}", names.join(" "));
        return ExitCode::from(2);
    };
    let mut out = BufWriter::new(io::stdout().lock());
    match mode(&arguments[1..], &mut out).and_then(|()| out.flush()) {
        Ok(()) => ExitCode::SUCCESS,
        Err(error) => {
            eprintln!("oracle: {error}");
            ExitCode::FAILURE
        }
    }
}

/// The first line of a recording.
fn write_header(mode: &str, out: &mut dyn Write) -> io::Result<()> {
    writeln!(
        out,
        "recorded from qqq-wisc/tzap at 63829b8f5b by oracle/record {mode}"
    )
}
