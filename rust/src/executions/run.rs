//! Runs a claim: through the proved library and beside it through the brute force, under every mix of its attributes.

use super::{Claim, Says, Written, Wrong};
use crate::beside::{proved_compare, proved_judge, proved_search};
use crate::proved;
use crate::random::Random;
use crate::reference::counting::{self, Counted};
use crate::reference::record::{self, Execution};
use crate::reference::rules::{self, JudgeAnswer};
use crate::reference::search::{self, SearchAnswer, SearchReply};
use crate::reference::{chains, fast, renumbering, solvers};
use std::cmp::Ordering as Order;
use std::sync::atomic::{AtomicUsize, Ordering};
use std::sync::Mutex;

/// What was run.
#[derive(Clone, Copy, Default, PartialEq, Eq, Debug)]
pub struct Ran {
    /// Executions, one for each mix of the attributes.
    pub executions: usize,
    /// Steps that the proved search and the brute force both made.
    pub steps: u64,
    /// Of the executions that were searched, those with too many states for a count over sets.
    pub uncounted: usize,
}

/// One execution, not searched.
const ONE: Ran = Ran {
    executions: 1,
    steps: 0,
    uncounted: 0,
};

impl Ran {
    fn and(self, other: Ran) -> Ran {
        Ran {
            executions: self.executions + other.executions,
            steps: self.steps + other.steps,
            uncounted: self.uncounted + other.uncounted,
        }
    }
}

/// Runs all claims of a file, every mix of their attributes, on every processor of the machine; of what differs, the first is told.
pub fn run_all(file: &str, executions: &[Written]) -> Result<Ran, Wrong> {
    let mut all: Vec<(&Written, &Claim, Execution)> = Vec::new();
    for written in executions {
        for claim in &written.claims {
            let mixes = written.mixes(claim).into_iter();
            all.extend(mixes.map(|execution| (written, claim, execution)));
        }
    }
    let next = AtomicUsize::new(0);
    let results = Mutex::new(Vec::new());
    let work = || loop {
        let at = next.fetch_add(1, Ordering::Relaxed);
        let Some((written, claim, execution)) = all.get(at) else {
            break;
        };
        let mut random = Random::new(at as u64);
        let result = run(execution, &claim.says, &mut random);
        let result = result.map_err(|what| wrong(file, written, claim, execution, &what));
        let mut results = results.lock().expect("no thread ends in a panic");
        results.push((at, result));
    };
    std::thread::scope(|scope| {
        for _ in 0..std::thread::available_parallelism().map_or(1, usize::from) {
            scope.spawn(work);
        }
    });
    let mut results = results.into_inner().expect("no thread ends in a panic");
    results.sort_by_key(|(at, _)| *at);
    let mut sum = Ran::default();
    for (_, result) in results {
        sum = sum.and(result?);
    }
    Ok(sum)
}

/// What differs, with the claim's line and the attributes that it was run for.
fn wrong(file: &str, written: &Written, claim: &Claim, execution: &Execution, what: &str) -> Wrong {
    let lines = execution.lines.iter();
    let attributes: Vec<_> = lines.map(|line| line.attribute.name()).collect();
    let attributes = attributes.join(", ");
    Wrong {
        file: file.to_string(),
        line: claim.line,
        what: format!("{} on {attributes}: {what}", written.name),
    }
}

/// Runs what is claimed of one execution.
fn run(execution: &Execution, says: &Says, random: &mut Random) -> Result<Ran, String> {
    // Laid out by the reference, since what is refused has no record; of what passes the proved library writes the same.
    let bytes = execution.to_bytes();
    let by_reference = record::read(&bytes).map(|_| ());
    same("check", proved::check(&bytes), by_reference)?;
    let expected = by_reference.map(|()| bytes.clone());
    same("the record", super::record(execution), expected)?;
    if let Says::Refused(question) = says {
        return refused(&bytes, *question).map(|()| ONE);
    }
    // The reader passed it on WB; where a semaphore lies elsewhere it is refused, and where an access lies on two lines that differ.
    claimed("check", by_reference, Ok(()))?;
    chain_tables(execution, &bytes)?;
    let copy = copies(&bytes)?;
    comparisons(execution, &bytes, &copy)?;
    match says {
        Says::Refused(_) => Ok(ONE),
        Says::Operations(count) => operations(&bytes, *count).map(|()| ONE),
        Says::Legal(order) => judged(&bytes, order, JudgeAnswer::Legal).map(|()| ONE),
        Says::Breaks(rule, order) => {
            judged(&bytes, order, JudgeAnswer::Breaks(*rule)).map(|()| ONE)
        }
        Says::Allowed { order, steps } => {
            let found = searched(execution, &bytes, random)?;
            claimed("answer", found.reply.answer, SearchAnswer::Allowed)?;
            claimed_if("steps", &found.reply.steps, steps)?;
            claimed_if("order", &found.position().to_vec(), order)?;
            judged(&bytes, found.position(), JudgeAnswer::Legal)?;
            Ok(found.ran())
        }
        Says::Forbidden { steps } => {
            let found = searched(execution, &bytes, random)?;
            claimed("answer", found.reply.answer, SearchAnswer::Forbidden)?;
            claimed_if("steps", &found.reply.steps, steps)?;
            Ok(found.ran())
        }
        Says::ForbiddenBySets { prefixes } => {
            let counted = counting::count(execution, MOST_STATES);
            let prefixes = u128::from(*prefixes);
            let expected = Counted { prefixes, full: 0 };
            claimed("prefixes by sets", counted, Some(expected))?;
            let parts = in_parts(execution, &bytes, search::search, FIRST_PREFIXES, random)?;
            claimed("answer", parts.reply.answer, SearchAnswer::Unfinished)?;
            Ok(parts.ran())
        }
        Says::Unfinished {
            position,
            allowance,
        } => {
            let found = both(execution, &bytes, *allowance)?;
            claimed("answer", found.reply.answer, SearchAnswer::Unfinished)?;
            claimed("steps", found.reply.steps, *allowance)?;
            claimed("position", found.position(), position)?;
            Ok(found.ran())
        }
    }
}

/// Most steps that the brute force walks in one go.
const MOST_STEPS: u32 = 2_000_000;

/// Prefixes that are compared where there are too many for a walk.
const FIRST_PREFIXES: u64 = 1_000_000;

/// Most states of one length that are counted.
const MOST_STATES: usize = 20_000;

/// A byte that no operation number is, to see what a call writes.
const UNTOUCHED: u8 = 0xee;

/// A search call.
type Search = fn(&[u8], &mut [u8], usize, u32) -> SearchReply;

/// What a search came to.
struct Found {
    reply: SearchReply,
    buffer: Vec<u8>,
    /// Over all calls.
    steps: u64,
    uncounted: usize,
}

impl Found {
    fn ran(&self) -> Ran {
        Ran {
            steps: self.steps,
            uncounted: self.uncounted,
            ..ONE
        }
    }

    fn position(&self) -> &[u8] {
        &self.buffer[..self.reply.length]
    }
}

/// Searches in one go beside the brute force, in parts beside the incremental search, and by counting over sets.
fn searched(execution: &Execution, bytes: &[u8], random: &mut Random) -> Result<Found, String> {
    let mut whole = both(execution, bytes, MOST_STEPS)?;
    if whole.reply.answer == SearchAnswer::Unfinished {
        return Err(format!(
            "more than {MOST_STEPS} steps are too many for the brute force: if it is forbidden, write `forbidden by sets` and the number of its prefixes"
        ));
    }
    let parts = in_parts(execution, bytes, fast::search, u64::MAX, random)?;
    same(
        "the search in parts",
        parts.reply.answer,
        whole.reply.answer,
    )?;
    same("steps in parts", parts.steps, whole.steps)?;
    if whole.reply.answer == SearchAnswer::Allowed {
        same("order in parts", &parts.buffer, &whole.buffer)?;
    }
    match counting::count(execution, MOST_STATES) {
        Some(counted) => by_sets(counted, &whole)?,
        None => whole.uncounted = 1,
    }
    renumbered(execution, &whole)?;
    Ok(whole)
}

/// With other processor numbers the mark is the same. An order may be found later, and is not waited for.
fn renumbered(execution: &Execution, whole: &Found) -> Result<(), String> {
    let bytes = opposite(execution).to_bytes();
    let reply = proved_search(&bytes, &mut fresh(execution), 0, MOST_STEPS);
    match reply.answer {
        SearchAnswer::Unfinished => Ok(()),
        answer => same("the mark with other numbers", answer, whole.reply.answer),
    }
}

/// Some consistent prefix is full where the search finds an order; where it finds none, it walked over all of them.
fn by_sets(counted: Counted, whole: &Found) -> Result<(), String> {
    match whole.reply.answer {
        SearchAnswer::Allowed => same("allowed by sets", counted.full > 0, true),
        _ => {
            let prefixes = u128::from(whole.steps);
            let expected = Counted { prefixes, full: 0 };
            same("prefixes by sets", counted, expected)
        }
    }
}

/// A fresh buffer, longer than it need be.
fn fresh(execution: &Execution) -> Vec<u8> {
    vec![UNTOUCHED; execution.operation_count() + 3]
}

/// One call from the empty position by the proved search and by the brute force.
fn both(execution: &Execution, bytes: &[u8], allowance: u32) -> Result<Found, String> {
    let (mut buffer, mut other) = (fresh(execution), fresh(execution));
    let reply = proved_search(bytes, &mut buffer, 0, allowance);
    let expected = search::search(bytes, &mut other, 0, allowance);
    same("the search", reply, expected)?;
    same("the search's buffer", &buffer, &other)?;
    Ok(Found {
        reply,
        buffer,
        steps: reply.steps.into(),
        uncounted: 0,
    })
}

/// Calls of random allowances, each made by the proved search and by another, up to so many steps.
fn in_parts(
    execution: &Execution,
    bytes: &[u8],
    other_search: Search,
    most: u64,
    random: &mut Random,
) -> Result<Found, String> {
    let (mut buffer, mut other) = (fresh(execution), fresh(execution));
    let (mut length, mut steps) = (0, 0);
    loop {
        let cut: u64 = random.pick(&[0, 1, 2, 7, 40, 200, 1000, 20_000]);
        let allowance = cut.min(most - steps) as u32;
        let reply = proved_search(bytes, &mut buffer, length, allowance);
        let expected = other_search(bytes, &mut other, length, allowance);
        same("a search in parts", reply, expected)?;
        same("a search's buffer", &buffer, &other)?;
        length = reply.length;
        steps += u64::from(reply.steps);
        if reply.answer != SearchAnswer::Unfinished || steps == most {
            return Ok(Found {
                reply,
                buffer,
                steps,
                uncounted: 0,
            });
        }
    }
}

fn judged(bytes: &[u8], order: &[u8], expected: JudgeAnswer) -> Result<(), String> {
    let answer = proved_judge(bytes, order);
    same("the judge", answer, rules::judge(bytes, order))?;
    claimed("judgement", answer, expected)
}

/// Every call refuses the record with this question.
fn refused(bytes: &[u8], question: u8) -> Result<(), String> {
    claimed("check", proved::check(bytes), Err(question))?;
    judged(bytes, &[], JudgeAnswer::Refused(question))?;
    let expected = SearchReply {
        answer: SearchAnswer::Refused(question),
        steps: 0,
        length: 0,
    };
    claimed("search", proved_search(bytes, &mut [], 0, 1), expected)?;
    let table = proved::chain_table(bytes, &mut []);
    claimed("chain table", table, Err(question))?;
    let copy = proved::solvers_copy(bytes, &mut []);
    claimed("solvers' copy", copy, Err(question))?;
    let comparison = proved_compare(bytes, bytes);
    claimed("comparison", comparison, Err(question))?;
    claimed("first record", proved::first(bytes, bytes), &[])
}

/// The proved library takes a chain table of N x N bytes, and none that is a byte shorter (for N = 0 there is none).
fn operations(bytes: &[u8], count: usize) -> Result<(), String> {
    let by_reference = record::read(bytes).map(|execution| execution.operation_count());
    claimed("number of operations", by_reference, Ok(count))?;
    let mut table = vec![UNTOUCHED; count * count];
    if let Some(short) = table.get_mut(1..) {
        let answer = proved::chain_table(bytes, short);
        claimed("shorter table", answer, Err(22))?;
    }
    claimed("table", proved::chain_table(bytes, &mut table), Ok(()))
}

fn chain_tables(execution: &Execution, bytes: &[u8]) -> Result<(), String> {
    let count = execution.operation_count();
    let fresh = vec![UNTOUCHED; count * count + 3];
    let (mut table, mut other) = (fresh.clone(), fresh);
    let answer = proved::chain_table(bytes, &mut table);
    let expected = chains::chain_table(bytes, &mut other);
    same("the chain table", answer, expected)?;
    let differs = |&at: &usize| table[at] != other[at];
    match (0..table.len()).find(differs) {
        None => Ok(()),
        Some(at) => same(&byte_of_table(at, count), table[at], other[at]),
    }
}

/// The solvers' copy, made with room for more.
fn copies(bytes: &[u8]) -> Result<Vec<u8>, String> {
    let fresh = vec![UNTOUCHED; bytes.len() + 3];
    let (mut buffer, mut other) = (fresh.clone(), fresh);
    let answer = proved::solvers_copy(bytes, &mut buffer);
    let expected = solvers::solvers_copy(bytes, &mut other);
    same("the solvers' copy", answer, expected)?;
    same("the bytes of the solvers' copy", &buffer, &other)?;
    buffer.truncate(bytes.len());
    Ok(buffer)
}

/// The execution with its processors in the opposite order.
fn opposite(execution: &Execution) -> Execution {
    let order: Vec<usize> = (0..execution.processors).rev().collect();
    renumbering::renumbered(execution, &order)
}

/// The record is equal to itself with other processor numbers, and stands to its solvers' copy as the reference says; the first of
/// each two is handed back.
fn comparisons(execution: &Execution, bytes: &[u8], copy: &[u8]) -> Result<(), String> {
    let other = opposite(execution).to_bytes();
    let equal = proved_compare(bytes, &other);
    same("the comparison with other numbers", equal, Ok(Order::Equal))?;
    for (left, right) in [(bytes, copy), (copy, bytes), (bytes, &other)] {
        let expected = renumbering::compare(left, right);
        same("the comparison", proved_compare(left, right), expected)?;
        let expected = renumbering::first(left, right);
        same("the first record", proved::first(left, right), expected)?;
    }
    Ok(())
}

/// A byte of a lent table: one of the N x N marks, or past them.
fn byte_of_table(at: usize, count: usize) -> String {
    if at >= count * count {
        return format!("byte {at} past the chain table's marks");
    }
    format!("the chain table's mark ({}, {})", at / count, at % count)
}

/// The proved library, or one way of searching, against another.
fn same<T: PartialEq + std::fmt::Debug>(what: &str, proved: T, other: T) -> Result<(), String> {
    if proved == other {
        return Ok(());
    }
    Err(format!("{what} differs: {proved:?}, beside it {other:?}"))
}

/// What both found against the file.
fn claimed<T: PartialEq + std::fmt::Debug>(what: &str, found: T, claim: T) -> Result<(), String> {
    if found == claim {
        return Ok(());
    }
    Err(format!("{what}: {found:?}, not {claim:?} as claimed"))
}

/// What both found against the file, where it says something.
fn claimed_if<T: PartialEq + std::fmt::Debug>(
    what: &str,
    found: &T,
    claim: &Option<T>,
) -> Result<(), String> {
    match claim {
        None => Ok(()),
        Some(claim) => claimed(what, found, claim),
    }
}
