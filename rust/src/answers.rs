//! What all calls answer of one record, the proved ones beside the independent ones, so that two records can be compared; counts of
//! answers.

use crate::beside::{chain_table, check, judge, search};
use crate::generate::{linked_order, order};
use crate::random::Random;
use crate::reference::counting::count;
use crate::reference::record::Execution;
use crate::reference::rules::JudgeAnswer;
use crate::reference::search::{SearchAnswer, SearchReply};

/// What table, search and judge say of a record that passes.
#[derive(PartialEq, Eq, Debug)]
pub struct Answers {
    pub table: Vec<u8>,
    /// Of a search in parts: each reply, and the buffer that it left.
    pub search: Vec<(SearchReply, Vec<u8>)>,
    /// Of positions, consistent or not: the reply to a call that goes on from there, and the buffer that it left.
    pub resumed: Vec<(SearchReply, Vec<u8>)>,
    pub judged: Vec<JudgeAnswer>,
}

impl Answers {
    /// What the last part of the search said.
    pub fn answer(&self) -> SearchAnswer {
        let last = self.search.last();
        last.expect("a first part is searched").0.answer
    }

    /// The steps of all parts.
    pub fn steps(&self) -> u32 {
        self.search.iter().map(|(reply, _)| reply.steps).sum()
    }

    /// The order that the search found.
    pub fn found(&self) -> Option<&[u8]> {
        let (reply, buffer) = self.search.last()?;
        (reply.answer == SearchAnswer::Allowed).then_some(buffer)
    }
}

/// How often each question refused a call; place 0 counts the calls that were not refused.
#[derive(Default, Debug)]
pub struct Refusals(pub [usize; 28]);

impl Refusals {
    /// One call's answer more.
    pub fn count<T>(&mut self, answer: &Result<T, u8>) {
        let refused = answer.as_ref().err().copied().unwrap_or(0);
        self.0[usize::from(refused)] += 1;
    }

    /// The questions that refused a call.
    pub fn reached(&self) -> Vec<u8> {
        let refused = |&question: &u8| self.0[usize::from(question)] > 0;
        (1..28).filter(refused).collect()
    }
}

/// How often the searches of records ended with each answer.
#[derive(Default, Debug)]
pub struct Searched {
    pub allowed: usize,
    pub forbidden: usize,
    pub unfinished: usize,
}

impl Searched {
    /// One record's answer more.
    pub fn count(&mut self, answers: &Answers) {
        match answers.answer() {
            SearchAnswer::Allowed => self.allowed += 1,
            SearchAnswer::Forbidden => self.forbidden += 1,
            SearchAnswer::Unfinished => self.unfinished += 1,
            SearchAnswer::Refused(question) => panic!("question {question}"),
        }
    }
}

/// Most states of one length that are counted.
const MOST_STATES: usize = 1000;

/// Holds a search that has ended to the count over sets; whether it was counted.
pub fn count_agrees(e: &Execution, answers: &Answers) -> bool {
    if answers.answer() == SearchAnswer::Unfinished {
        return false;
    }
    let Some(counts) = count(e, MOST_STATES) else {
        return false;
    };
    let allowed = answers.answer() == SearchAnswer::Allowed;
    assert_eq!(counts.full > 0, allowed, "{e:?}");
    let steps = answers.steps().into();
    assert!(allowed || counts.prefixes == steps, "{e:?}");
    true
}

/// Whether the load is local, in this order of all operations, for some byte that it reads: an own store's LV stands before its
/// R, and R before that store's RV_own.
pub fn is_local(e: &Execution, order: &[u8], load: usize) -> bool {
    let place = |operation: usize| {
        let mut entries = order.iter();
        entries.position(|&entry| usize::from(entry) == operation)
    };
    let r = place(e.read(load));
    let own = e.stores().filter(|&w| e.same_program(w, load));
    own.filter(|&w| e.overlap(w, load))
        .any(|w| place(e.local(w)) < r && r < place(e.remote_own(w)))
}

/// Steps of one record that are searched.
const STEPS_EACH: u32 = 600;

/// Makes all calls, with allowances, positions and orders that the seed gives.
pub fn answers(e: &Execution, seed: u64) -> Answers {
    let mut random = Random::new(seed);
    let (bytes, count) = (e.to_bytes(), e.operation_count());
    let mut table = vec![9; count * count];
    assert_eq!(check(&bytes), Ok(()));
    assert_eq!(chain_table(&bytes, &mut table), Ok(()));
    let mut answers = Answers {
        table,
        search: Vec::new(),
        resumed: Vec::new(),
        judged: Vec::new(),
    };
    let mut buffer = vec![255; count];
    let (mut length, mut steps) = (0, 0);
    while steps <= STEPS_EACH {
        let allowance = random.pick(&[0, 1, 3, 20, 300]);
        let reply = search(&bytes, &mut buffer, length, allowance);
        answers.search.push((reply, buffer.clone()));
        (length, steps) = (reply.length, steps + reply.steps);
        if reply.answer != SearchAnswer::Unfinished {
            break;
        }
    }
    let mut orders: Vec<Vec<u8>> = (0..3).map(|_| order(&mut random, count)).collect();
    for _ in 0..2 {
        let linked = linked_order(&mut random, e);
        let saved = random.between(0, count);
        let mut buffer = linked.clone();
        let reply = search(&bytes, &mut buffer, saved, random.pick(&[0, 2, 30]));
        answers.resumed.push((reply, buffer));
        orders.push(linked);
    }
    if let Some(found) = answers.found() {
        orders.push(found.to_vec());
        for at in 1..count {
            // Two neighbours of the legal order exchanged.
            let mut other = found.to_vec();
            other.swap(at - 1, at);
            orders.push(other);
        }
    }
    answers.judged = orders.iter().map(|order| judge(&bytes, order)).collect();
    answers
}
