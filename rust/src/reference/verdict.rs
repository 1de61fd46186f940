//! The verdict program's lines, by the incremental search.

use super::fast::search;
use super::record::MAX_OPERATIONS;
use super::search::SearchAnswer;

/// The most bytes that are taken as the record, the steps of a call, and the most calls.
pub const INPUT_LIMIT: usize = 1_024;
const ALLOWANCE: u32 = 1_000_000;
const CALLS: u32 = 100;

/// What document 01 has the program print for this input.
pub fn verdict(input: &[u8]) -> String {
    let bytes = &input[..input.len().min(INPUT_LIMIT)];
    let mut buffer = [0; MAX_OPERATIONS];
    let (mut length, mut steps) = (0, 0);
    for _ in 0..CALLS {
        let reply = search(bytes, &mut buffer, length, ALLOWANCE);
        length = reply.length;
        steps += u64::from(reply.steps);
        match reply.answer {
            SearchAnswer::Unfinished => {}
            SearchAnswer::Refused(question) => return format!("refused {question}\n"),
            SearchAnswer::Forbidden => return format!("forbidden\nsteps {steps}\n"),
            SearchAnswer::Allowed => {
                let order: String = buffer[..length].iter().map(|o| format!(" {o}")).collect();
                return format!("allowed{order}\nsteps {steps}\n");
            }
        }
    }
    format!("unfinished\nsteps {steps}\n")
}
