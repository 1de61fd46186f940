//! The proved chain table beside the independent one: the same answer and the same bytes, on records whole and damaged, in
//! tables of any length.

use oglindesh::answers::Refusals;
use oglindesh::beside::chain_table;
use oglindesh::examples::{eight_processors, k1, named};
use oglindesh::executions::{source, SOURCES};
use oglindesh::generate::{damaged, execution, failing, Shape};
use oglindesh::random::Random;
use oglindesh::reference::notation::{ld, mf, programs, st, X};
use oglindesh::reference::record::{read, Execution, QUESTIONS};
use oglindesh::reference::rules::links;

/// Asks both for a table over random bytes of this length, and counts their answer. Past the marks, and all over at a refusal, the
/// table is held to what it was.
fn ask(tally: &mut Refusals, random: &mut Random, bytes: &[u8], length: usize) -> Vec<u8> {
    let before = random.bytes(length);
    let mut table = before.clone();
    let answer = chain_table(bytes, &mut table);
    tally.count(&answer);
    let written = answer.map_or(0, |()| size(bytes));
    assert!(table[..written].iter().all(|&mark| mark <= 1));
    assert_eq!(table[written..], before[written..], "record {bytes:?}");
    table
}

/// How many bytes the table of a record takes; none if it has no table.
fn size(bytes: &[u8]) -> usize {
    read(bytes).map_or(0, |e| e.operation_count() * e.operation_count())
}

#[test]
fn tables_agree_on_generated_records() {
    let mut random = Random::new(21);
    let mut tally = Refusals::default();
    let (rounds, mut chains, mut empty) = (3000, 0, 0);
    for round in 0..rounds {
        let execution = execution(&mut random, &Shape::ALL[round % 3]);
        let bytes = execution.to_bytes();
        let size = size(&bytes);
        let longer = size + random.between(1, 300);
        let table = ask(&mut tally, &mut random, &bytes, size);
        chains += usize::from(has_more_than_links(&execution, &table));
        ask(&mut tally, &mut random, &bytes, longer);
        if size == 0 {
            empty += 1;
            continue;
        }
        for length in [size - 1, 0] {
            ask(&mut tally, &mut random, &bytes, length);
        }
    }
    // The exact and the longer tables are written, those that are shorter are not; with no operation there is none.
    assert_eq!(
        (tally.0[0], tally.0[22]),
        (2 * rounds, 2 * (rounds - empty))
    );
    assert!(empty > rounds / 30, "{empty} tables have no mark");
    assert!(
        chains > rounds / 3,
        "{chains} tables are not just the links"
    );
}

/// Whether some mark is of two operations that no link joins.
fn has_more_than_links(execution: &Execution, table: &[u8]) -> bool {
    let count = execution.operation_count();
    let links = links(execution);
    (0..table.len()).any(|at| table[at] == 1 && !links.contains(&(at / count, at % count)))
}

#[test]
fn tables_agree_on_damaged_records() {
    let mut random = Random::new(22);
    let mut tally = Refusals::default();
    for round in 0..6000 {
        let execution = execution(&mut random, &Shape::ALL[round % 3]);
        let bytes = damaged(&mut random, &execution);
        let size = size(&bytes);
        for length in [size, size.saturating_sub(1), size + random.below(20)] {
            ask(&mut tally, &mut random, &bytes, length);
        }
    }
    assert!(tally.0[0] > 0, "no table was written");
    assert!(tally.0[22] > 0, "no table was too short");
    let reached = tally.0[1..=15].iter().filter(|&&count| count > 0).count();
    assert!(reached > 10, "{reached} questions of the record reached");
}

/// Whatever the table's length, the record's questions come first.
#[test]
fn tables_agree_on_records_that_fail_a_question() {
    let mut random = Random::new(23);
    for question in QUESTIONS {
        let mut tally = Refusals::default();
        for _ in 0..100 {
            let bytes = failing(&mut random, question);
            for length in [0, random.below(300), 128 * 128] {
                ask(&mut tally, &mut random, &bytes, length);
            }
        }
        assert_eq!(tally.0[usize::from(question)], 300, "question {question}");
    }
}

#[test]
fn every_length_about_a_small_table() {
    let mut random = Random::new(24);
    let mut tally = Refusals::default();
    for length in 0..20 {
        ask(&mut tally, &mut random, &k1().to_bytes(), length);
    }
    assert_eq!((tally.0[22], tally.0[0]), (9, 11));
}

#[test]
fn the_papers_own_examples() {
    let mut random = Random::new(25);
    let mut tally = Refusals::default();
    let sources = SOURCES.map(|file| source(file).expect("it is read"));
    let executions = sources.iter().flatten().map(|written| &written.execution);
    let accepted: Vec<_> = executions
        .filter(|execution| read(&execution.to_bytes()).is_ok())
        .collect();
    for execution in &accepted {
        let bytes = execution.to_bytes();
        let size = size(&bytes);
        let table = ask(&mut tally, &mut random, &bytes, size + 5);
        let count = execution.operation_count();
        for (a, b) in links(execution) {
            assert_eq!(table[a * count + b], 1, "record {bytes:?}, {a} to {b}");
        }
        if let Some(shorter) = size.checked_sub(1) {
            ask(&mut tally, &mut random, &bytes, shorter);
        }
    }
    let with_marks = accepted.iter().filter(|e| e.operation_count() > 0);
    assert_eq!(tally.0[0], accepted.len());
    assert_eq!(tally.0[22], with_marks.count());
}

/// ld, st, mf: no link but a chain leads from the load to the store's RV.
#[test]
fn a_chain_of_two_links() {
    let execution = programs(&[&[ld(X, 0), st(X, 1), mf()]]).build();
    assert!(!links(&execution).contains(&(0, 2)));
    let mut table = [7; 18];
    assert_eq!(chain_table(&execution.to_bytes(), &mut table), Ok(()));
    let marks = [0, 1, 1, 1, 0, 0, 1, 1, 0, 0, 0, 1, 0, 0, 0, 0];
    assert_eq!(table[..16], marks);
    assert_eq!(table[16..], [7; 2]);
}

/// 14 stores of one processor to one place, with 9 operations each: an LV leads to all that follows, RV_own to the store's other
/// RV.
#[test]
fn as_many_as_126_operations() {
    let mark = |a: usize, b: usize| match a % 9 {
        0 => a < b,
        1 => a < b && a / 9 == b / 9,
        _ => false,
    };
    let expected: Vec<u8> = (0..126 * 126)
        .map(|at| u8::from(mark(at / 126, at % 126)))
        .collect();
    let mut random = Random::new(26);
    let mut tally = Refusals::default();
    let bytes = eight_processors().to_bytes();
    let size = size(&bytes);
    assert_eq!(size, expected.len());
    for length in [size, size + 1, 128 * 128] {
        let table = ask(&mut tally, &mut random, &bytes, length);
        assert_eq!(table[..size], expected);
    }
    for length in [size - 1, 126, 0] {
        ask(&mut tally, &mut random, &bytes, length);
    }
    assert_eq!((tally.0[0], tally.0[22]), (3, 3));
    let one_more = named("scope", "eight processors and a store more");
    ask(&mut tally, &mut random, &one_more.to_bytes(), 128 * 128);
    assert_eq!(tally.0[11], 1);
}
