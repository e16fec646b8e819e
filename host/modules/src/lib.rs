//! Module files for tests and measurements: an encoder, samples, tables to be written, a generator and cases for the
//! gate programs.

pub mod assembler;
pub mod encode;
pub mod gate;
pub mod generate;
pub mod random;
mod ranges;
pub mod rule_n;
pub mod samples;
pub mod tables;
