//! Safe functions over a proved table of short Clifford+T circuits.
//!
//! A list of gates on up to five qubits becomes its exact matrix, and a matrix is answered by a
//! short list from a table. Both are done by an archive, `libmurm_c.a`, whose functions are proved
//! to do what docs/SPECIFICATION.md of the repository says, for every input. They ask nothing of
//! their caller: what is outside the rules is refused by a number, and the memory lent is then as
//! it was.
//!
//! | Function | Memory | Does |
//! |---|---|---|
//! | [`library_circuit_matrix`] | lent | the matrix of a list of codes |
//! | [`matrix_of`] | its own | the matrix of a list of [`Gate`]s |
//! | [`synthesize`] | lent | the codes of a list that a table has for a matrix |
//! | [`gates_of`] | its own | the [`Gate`]s of such a list |
//!
//! The archive is built by `tools/archive murm_c` at the repository's root, and is written to
//! target/staticlib. To build this crate, the variable `MURM_LIB` names that folder, by its full
//! path.
//!
//! Numbers of refusals and of sections in these pages are those of the specification. Qubits, rows,
//! places and positions are counted from 0.

#![deny(missing_docs, unsafe_code, unsafe_op_in_unsafe_fn)]
#![deny(clippy::undocumented_unsafe_blocks)]

#[cfg(not(target_pointer_width = "64"))]
compile_error!("libmurm_c.a is for machines whose usize has 64 bits");

#[allow(unsafe_code)]
mod ffi;
mod gate;
mod matrix;
mod refusal;
mod table;

pub use gate::{Gate, InvalidCode, Kind};
pub use matrix::{coefficient_count, library_circuit_matrix, matrix_of, Matrix};
pub use refusal::Refusal;
pub use table::{gates_of, synthesize, Arrays, Query, Record, MARK};

/// The largest width, in qubits.
pub const MAX_WIDTH: u32 = 5;

/// The most gates of a list that a table answers.
pub const MAX_GATES: usize = 64;
