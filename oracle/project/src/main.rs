//! The original, built as an oracle: its own files, stubs for what they name
//! and the oracle never reaches, and a harness inside `super_opt`.

mod angle;
// The original's file, much of it unused here. Code after an angle is
// unreachable, since the stub has no angles.
#[allow(dead_code, unreachable_code, unused_variables)]
mod circuit;
mod qasm;
mod super_opt;

fn main() -> std::process::ExitCode {
    super_opt::harness::run(std::env::args().skip(1).collect())
}
