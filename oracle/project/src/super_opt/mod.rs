//! Stands for the original's file of the same name: the modules that the
//! oracle needs, and the gate sets with the original's values.

pub(crate) mod harness;

// The original's files, much of them unused here.
#[allow(dead_code)]
mod config;
#[allow(dead_code)]
mod error;
#[allow(dead_code)]
mod matrix;
#[allow(dead_code)]
mod murm;
#[allow(dead_code)]
mod synthesis_arena;

use crate::circuit::GateSet;

use config::MurmConfig;
use error::SuperOptError;

/// H, X, Z, S, Sdg, T, Tdg and Cx.
const BASE_GATE_SET: GateSet = GateSet::from_bits_const(383);

/// Cz, Ccx and Ccz.
const OPTIONAL_GATE_SET: GateSet = GateSet::from_bits_const(3584);

/// The eleven kinds of both.
const SUPPORTED_GATE_SET: GateSet = BASE_GATE_SET.union(OPTIONAL_GATE_SET);
