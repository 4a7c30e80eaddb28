//! The original's lut.rs and check.rs, whole and unchanged, from the folder that `EQMAP_SRC` names when this is built.
//!
//! The modules beside them hold the traits and types that lut.rs names, and no more:
//! - `driver`: the traits that it implements, which is how its private routines are reached;
//! - `cost`, `analysis`: names alone. The cost functions and the analysis panic where they are called:
//!   `get_circuit_depth`, `get_circuit_stats`, `get_program_in_egraph` and what extracts from an e-graph can't be used.

pub mod analysis;
pub mod cost;
pub mod driver;

include!(concat!(env!("OUT_DIR"), "/modules.rs"));
