//! The search by brute force: all consistent prefixes in lexicographic order, each candidate tested by the rules.

use super::record::{ask, read, Execution};
use super::rules::{entries_differ, lowest_broken};
use std::ops::ControlFlow;

/// What a search call says.
#[derive(Clone, Copy, PartialEq, Eq, Debug)]
pub enum SearchAnswer {
    /// The number of the first question answered 'no'.
    Refused(u8),
    Allowed,
    Forbidden,
    Unfinished,
}

/// What a search call returns; the position's entries stand at the front of the buffer.
#[derive(Clone, Copy, PartialEq, Eq, Debug)]
pub struct SearchReply {
    pub answer: SearchAnswer,
    pub steps: u32,
    pub length: usize,
}

/// One search call, from the position of `saved` entries at the front of the buffer.
pub fn search(bytes: &[u8], buffer: &mut [u8], saved: usize, allowance: u32) -> SearchReply {
    let execution = match accept_position(bytes, buffer, saved) {
        Ok(execution) => execution,
        Err(question) => return refusal(question, saved),
    };
    let position = &buffer[..saved];
    if let Some(question) = refuse_inconsistent(&execution, position) {
        return refusal(question, saved);
    }
    let mut listing = Listing {
        execution: &execution,
        allowance,
        steps: 0,
        reached: position.to_vec(),
    };
    let answer = listing.run(position);
    let steps = listing.steps;
    if answer == SearchAnswer::Forbidden {
        return SearchReply {
            answer,
            steps,
            length: saved,
        };
    }
    let length = listing.reached.len();
    buffer[..length].copy_from_slice(&listing.reached);
    SearchReply {
        answer,
        steps,
        length,
    }
}

/// The reply to a call that a question refuses.
pub fn refusal(question: u8, saved: usize) -> SearchReply {
    SearchReply {
        answer: SearchAnswer::Refused(question),
        steps: 0,
        length: saved,
    }
}

/// The record's questions, then 18 to 20.
pub(crate) fn accept_position(bytes: &[u8], buffer: &[u8], saved: usize) -> Result<Execution, u8> {
    let execution = read(bytes)?;
    let count = execution.operation_count();
    ask(18, buffer.len() >= count)?;
    ask(19, saved <= count)?;
    ask(20, entries_differ(&buffer[..saved], count))?;
    Ok(execution)
}

/// Question 21: is the saved position consistent?
fn refuse_inconsistent(execution: &Execution, position: &[u8]) -> Option<u8> {
    lowest_broken(execution, position).map(|_| 21)
}

/// The consistent prefixes after the position, listed up to the allowance.
struct Listing<'a> {
    execution: &'a Execution,
    allowance: u32,
    steps: u32,
    /// The last prefix listed, at first the position.
    reached: Vec<u8>,
}

impl Listing<'_> {
    fn run(&mut self, position: &[u8]) -> SearchAnswer {
        if self.is_full(position) {
            return SearchAnswer::Allowed;
        }
        match self.extend(&mut Vec::new(), position) {
            ControlFlow::Break(answer) => answer,
            ControlFlow::Continue(()) => SearchAnswer::Forbidden,
        }
    }

    fn is_full(&self, prefix: &[u8]) -> bool {
        prefix.len() == self.execution.operation_count()
    }

    /// Lists the consistent prefixes that extend `prefix` and come after the position.
    /// `ahead` is what the position adds to `prefix`, empty where it is behind already.
    fn extend(&mut self, prefix: &mut Vec<u8>, ahead: &[u8]) -> ControlFlow<SearchAnswer> {
        let mut from = 0;
        if let Some((&next, rest)) = ahead.split_first() {
            prefix.push(next);
            self.extend(prefix, rest)?;
            prefix.pop();
            from = next + 1;
        }
        for candidate in from..self.execution.operation_count() as u8 {
            if prefix.contains(&candidate) {
                continue;
            }
            prefix.push(candidate);
            if lowest_broken(self.execution, prefix).is_none() {
                self.list(prefix)?;
                self.extend(prefix, &[])?;
            }
            prefix.pop();
        }
        ControlFlow::Continue(())
    }

    /// Lists one consistent prefix: the next step, if the allowance has one left.
    fn list(&mut self, prefix: &[u8]) -> ControlFlow<SearchAnswer> {
        if self.steps == self.allowance {
            return ControlFlow::Break(SearchAnswer::Unfinished);
        }
        self.steps += 1;
        self.reached = prefix.to_vec();
        if self.is_full(prefix) {
            return ControlFlow::Break(SearchAnswer::Allowed);
        }
        ControlFlow::Continue(())
    }
}
