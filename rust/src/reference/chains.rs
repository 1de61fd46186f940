//! The chain table: which operations one or more links join, by a depth-first walk from each.

use super::record::{ask, read, Execution};
use super::rules::links;

/// Writes the N rows of N marks; mark (a, b) stands at a * N + b. The record's questions come
/// first, then 22; a refusal changes no byte.
pub fn chain_table(bytes: &[u8], table: &mut [u8]) -> Result<(), u8> {
    let execution = read(bytes)?;
    let count = execution.operation_count();
    ask(22, table.len() >= count * count)?;
    let successors = successors(&execution);
    for a in 0..count {
        let row = &mut table[a * count..(a + 1) * count];
        row.fill(0);
        mark_reached(&successors, a, row);
    }
    Ok(())
}

/// By operation: where its links lead.
fn successors(execution: &Execution) -> Vec<Vec<usize>> {
    let mut successors = vec![Vec::new(); execution.operation_count()];
    for (a, b) in links(execution) {
        successors[a].push(b);
    }
    successors
}

/// Marks every operation that one or more links lead to from `a`.
fn mark_reached(successors: &[Vec<usize>], a: usize, row: &mut [u8]) {
    let mut open = vec![a];
    while let Some(from) = open.pop() {
        for &to in &successors[from] {
            if row[to] == 0 {
                row[to] = 1;
                open.push(to);
            }
        }
    }
}
