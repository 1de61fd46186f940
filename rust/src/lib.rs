//! The Itanium visibility judge and search: the proved library for Rust (`proved`), executions in the papers' notation
//! (`executions`), and beside the proved calls independent ones in plain Rust, written from the papers, that they are tested
//! against (`reference`).

pub mod answers;
pub mod beside;
pub mod examples;
pub mod executions;
pub mod generate;
pub mod proved;
pub mod random;
pub mod reference;
