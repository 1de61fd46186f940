//! The reference implementation: record, writer, solvers' copy, renumbering, rules, judge, brute-force search, incremental search,
//! counting, chain table and verdict.

pub mod chains;
pub mod counting;
pub mod fast;
pub mod notation;
pub mod record;
pub mod renumbering;
pub mod rules;
pub mod search;
pub mod solvers;
pub mod verdict;
pub mod writer;
