//! What several tests use.

use std::fmt::Debug;
use std::fs;
use std::str::FromStr;

/// A file of the repository's crates, whole.
pub fn read(name: &str) -> String {
    let path = format!("{}/../crates/{name}", env!("CARGO_MANIFEST_DIR"));
    fs::read_to_string(&path).unwrap_or_else(|error| panic!("{path}: {error}"))
}

/// The numbers of a line whose form is known to be right.
pub fn numbers<T: FromStr<Err: Debug>>(line: &str) -> Vec<T> {
    let number = |word: &str| word.parse().expect("a number that fits its type");
    line.split_ascii_whitespace().map(number).collect()
}
