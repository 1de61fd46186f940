//! Times of the proved calls beside the independent ones, on the same records in the same run.

use std::time::Instant;

use oglindesh::beside::{proved_compare, proved_write};
use oglindesh::examples::{eight_processors, longest, named};
use oglindesh::proved::{self, Judgement, Verdict};
use oglindesh::reference::notation::{ld, programs, st, X, Y, Z};
use oglindesh::reference::record::Execution;
use oglindesh::reference::renumbering::{self, renumbered};
use oglindesh::reference::rules::{self, JudgeAnswer};
use oglindesh::reference::search::SearchAnswer;
use oglindesh::reference::{chains, fast, solvers, writer};

/// The mean time of a call in microseconds.
fn microseconds(rounds: u32, mut call: impl FnMut()) -> f64 {
    let start = Instant::now();
    for _ in 0..rounds {
        call();
    }
    start.elapsed().as_secs_f64() * 1e6 / f64::from(rounds)
}

/// A legal order of the execution.
fn legal_order(execution: &Execution) -> Vec<u8> {
    let mut buffer = [0; 128];
    let reply = fast::search(&execution.to_bytes(), &mut buffer, 0, 1_000_000);
    assert_eq!(reply.answer, SearchAnswer::Allowed);
    buffer[..reply.length].to_vec()
}

fn judge_line(execution: &Execution) {
    let bytes = execution.to_bytes();
    let order = legal_order(execution);
    let times = beside(
        CALLS_A_ROUND,
        || assert_eq!(proved::judge(&bytes, &order), Ok(Judgement::Legal)),
        || assert_eq!(rules::judge(&bytes, &order), JudgeAnswer::Legal),
    );
    call_times(&format!("judge, {} operations", order.len()), &times);
}

fn chain_table_line(execution: &Execution) {
    let bytes = execution.to_bytes();
    let count = execution.operation_count();
    let (mut table, mut other) = (vec![0; count * count], vec![0; count * count]);
    let times = beside(
        CALLS_A_ROUND,
        || proved::chain_table(&bytes, &mut table).expect("the table is not refused"),
        || chains::chain_table(&bytes, &mut other).expect("the table is not refused"),
    );
    call_times(&format!("chain table, {count} operations"), &times);
}

fn write_line(execution: &Execution) {
    let (sections, length) = (execution.sections(), execution.to_bytes().len());
    let (mut buffer, mut other) = (vec![0; length], vec![0; length]);
    let times = beside(
        CALLS_A_ROUND,
        || assert_eq!(proved_write(&sections, &mut buffer), Ok(length)),
        || assert_eq!(writer::write(&sections, &mut other), Ok(length)),
    );
    call_times(&format!("write, {length} bytes"), &times);
}

fn solvers_copy_line(execution: &Execution) {
    let bytes = execution.to_bytes();
    let length = bytes.len();
    let (mut buffer, mut other) = (vec![0; length], vec![0; length]);
    let times = beside(
        CALLS_A_ROUND,
        || assert_eq!(proved::solvers_copy(&bytes, &mut buffer), Ok(length)),
        || assert_eq!(solvers::solvers_copy(&bytes, &mut other), Ok(length)),
    );
    call_times(&format!("solvers' copy, {length} bytes"), &times);
}

/// A record beside itself with its processors in the opposite order; and beside that with another value seen.
fn compare_lines(name: &str, execution: &Execution, calls: u32) {
    let opposite: Vec<usize> = (0..execution.processors).rev().collect();
    let equal = renumbered(execution, &opposite);
    let mut unequal = equal.clone();
    let mut loads = unequal.instructions.iter_mut();
    let load = loads.find(|i| i.kind.is_load()).expect("there is a load");
    load.seen[0] ^= 1;
    let bytes = execution.to_bytes();
    for (what, other) in [("equal", equal), ("not equal", unequal)] {
        let other = other.to_bytes();
        let expected = renumbering::compare(&bytes, &other);
        let times = beside(
            calls,
            || assert_eq!(proved_compare(&bytes, &other), expected),
            || assert_eq!(renumbering::compare(&bytes, &other), expected),
        );
        let processors = execution.processors;
        call_times(
            &format!("compare, {name}, {processors} processors, {what}"),
            &times,
        );
    }
}

/// Eight processors with the same five loads, so that no renumbering can be left out before all processors are placed.
fn equal_programs() -> Execution {
    let program = [ld(X, 0), ld(Y, 0), ld(Z, 0), ld(X, 1), ld(Y, 1)];
    programs(&[&program[..]; 8]).build()
}

/// Prints the microseconds that a whole call takes both ways.
fn call_times(what: &str, times: &Beside) {
    println!(
        "{what}: proved {:.1} us, plain Rust {:.1} us, ratio {:.2}",
        times.proved, times.reference, times.ratio
    );
}

/// The times of two calls in microseconds and their ratio: medians over rounds in which the two take turns, so that what else the machine does meets both.
struct Beside {
    proved: f64,
    reference: f64,
    ratio: f64,
}

fn beside(calls: u32, mut proved: impl FnMut(), mut reference: impl FnMut()) -> Beside {
    let rounds: Vec<(f64, f64)> = (0..ROUNDS)
        .map(|_| {
            (
                microseconds(calls, &mut proved),
                microseconds(calls, &mut reference),
            )
        })
        .collect();
    Beside {
        proved: median(rounds.iter().map(|round| round.0).collect()),
        reference: median(rounds.iter().map(|round| round.1).collect()),
        ratio: median(rounds.iter().map(|round| round.0 / round.1).collect()),
    }
}

fn median(mut values: Vec<f64>) -> f64 {
    values.sort_by(f64::total_cmp);
    values[values.len() / 2]
}

/// Both searches from the empty position, taking turns, and the steps that one makes.
fn search_beside(calls: u32, execution: &Execution, allowance: u32) -> (Beside, u32) {
    let bytes = execution.to_bytes();
    let (mut buffer, mut other) = ([0; 128], [0; 128]);
    let steps = fast::search(&bytes, &mut buffer, 0, allowance).steps;
    let times = beside(
        calls,
        || {
            let reply = proved::search(&bytes, &mut buffer, 0, allowance);
            assert_eq!(reply.steps, steps);
        },
        || {
            let reply = fast::search(&bytes, &mut other, 0, allowance);
            assert_eq!(reply.steps, steps);
        },
    );
    (times, steps)
}

/// The nanoseconds that a step takes both ways, over steps from the empty position.
fn search_line(name: &str, execution: &Execution, allowance: u32) {
    let (times, steps) = search_beside(1, execution, allowance);
    let per_step = |time: f64| time * 1e3 / f64::from(steps);
    println!(
        "search, {name}, {} operations, {steps} steps: proved {:.1} ns a step, plain Rust {:.1} ns, ratio {:.2}",
        execution.operation_count(),
        per_step(times.proved),
        per_step(times.reference),
        times.ratio
    );
}

/// The microseconds that a whole call takes both ways: reading, questions, tables, and the steps it makes.
fn call_line(name: &str, execution: &Execution, allowance: u32) {
    let (times, steps) = search_beside(CALLS_A_ROUND, execution, allowance);
    let count = execution.operation_count();
    let what = format!("search call, {name}, {count} operations, {steps} steps");
    call_times(&what, &times);
}

/// Rounds of which the median is taken.
const ROUNDS: usize = 41;

/// Whole calls that a round times.
const CALLS_A_ROUND: u32 = 100;

/// Four processors that store to one byte and load it, so that each load overlaps every store; the last load forbids it all.
fn overlapping_loads() -> Execution {
    let p = |first: u8| {
        [
            st(X, first),
            ld(X, first),
            ld(X, first),
            st(X, first + 1),
            ld(X, first + 1),
            ld(X, first + 1),
        ]
    };
    let (p0, p1, p2) = (p(1), p(3), p(5));
    let p3 = [ld(X, 0), ld(X, 0), ld(X, 9)];
    programs(&[&p0, &p1, &p2, &p3]).build()
}

/// Eight processors with thirteen stores and nine loads, 126 operations; the last load forbids it all.
fn many_operations() -> Execution {
    let p0 = [st(X, 1), st(Y, 1), ld(X, 1)];
    let p1 = [st(X, 2), st(Y, 2), ld(Y, 2)];
    let p2 = [st(X, 3), st(Z, 1), ld(X, 3)];
    let p3 = [st(Y, 3), st(Z, 2), ld(Z, 2)];
    let p4 = [st(Z, 3), st(X, 4), ld(X, 4)];
    let p5 = [st(Y, 4), st(Z, 4), ld(Y, 4)];
    let p6 = [st(X, 5), ld(X, 5)];
    let p7 = [ld(X, 0), ld(X, 9)];
    programs(&[&p0, &p1, &p2, &p3, &p4, &p5, &p6, &p7]).build()
}

/// Consistent prefixes of the note's table 15 (executions/note.txt), all of which a search walks over.
const TABLE_15_PREFIXES: u32 = 1_915_732_450;

/// Walks table 15 to its end both ways, which takes minutes.
fn whole_walk() {
    let bytes = named("note", "table 15").to_bytes();
    let mut buffer = [0; 128];
    let reference = microseconds(1, || {
        let reply = fast::search(&bytes, &mut buffer, 0, u32::MAX);
        assert_eq!(reply.answer, SearchAnswer::Forbidden);
        assert_eq!(reply.steps, TABLE_15_PREFIXES);
    });
    let proved = microseconds(1, || {
        let reply = proved::search(&bytes, &mut buffer, 0, u32::MAX);
        assert_eq!(reply.answer, Ok(Verdict::Forbidden));
        assert_eq!(reply.steps, TABLE_15_PREFIXES);
    });
    println!(
        "search, table 15 to its end, {TABLE_15_PREFIXES} steps: proved {:.0} s, plain Rust {:.0} s, ratio {:.2}",
        proved / 1e6,
        reference / 1e6,
        proved / reference
    );
}

fn main() {
    match std::env::args().nth(1).as_deref() {
        None => {}
        Some("whole") => return whole_walk(),
        Some(other) => panic!("`{other}` is not known: write nothing, or `whole`"),
    }
    let execution = eight_processors();
    judge_line(&execution);
    chain_table_line(&execution);
    write_line(&execution);
    write_line(&longest());
    solvers_copy_line(&longest());
    compare_lines("K6", &named("scope", "K6"), CALLS_A_ROUND);
    compare_lines("table 15", &named("note", "table 15"), CALLS_A_ROUND);
    compare_lines("the longest record", &longest(), 10);
    compare_lines("equal programs", &equal_programs(), 1);
    search_line("table 15", &named("note", "table 15"), 100_000);
    search_line("many operations", &many_operations(), 100_000);
    search_line("overlapping loads", &overlapping_loads(), 100_000);
    call_line("table 15", &named("note", "table 15"), 0);
    call_line("many operations", &many_operations(), 0);
    call_line("eight processors", &execution, 126);
}
