//! The verdict program as it is built, on records through a pipe.

use oglindesh::beside::{verdict, verdict_program};
use oglindesh::examples::{k1, named};
use oglindesh::executions::{source, SOURCES};
use oglindesh::generate;
use oglindesh::random::Random;
use oglindesh::reference::record::{read, QUESTIONS};
use oglindesh::reference::verdict::{verdict as expected, INPUT_LIMIT};

/// The record, and zeros up to a length.
fn padded(record: &[u8], length: usize) -> Vec<u8> {
    let mut input = record.to_vec();
    input.resize(length, 0);
    input
}

#[test]
fn k1_is_allowed() {
    assert_eq!(verdict(&k1().to_bytes()), "allowed 0 1 2\nsteps 3\n");
}

#[test]
fn all_sources() {
    let sources = SOURCES.map(|file| source(file).expect("it is read"));
    // Table 15 has a test of its own.
    for written in sources.iter().flatten().filter(|e| e.name != "table 15") {
        verdict(&written.execution.to_bytes());
    }
}

#[test]
fn k10_is_forbidden() {
    assert_eq!(
        verdict(&named("scope", "K10").to_bytes()),
        "forbidden\nsteps 390\n"
    );
}

/// One hundred calls do not end the search of the note's table 15.
#[test]
fn table_15_is_unfinished() {
    let record = named("note", "table 15").to_bytes();
    let printed = verdict_program(&[&record]);
    assert_eq!(printed, "unfinished\nsteps 100000000\n");
}

#[test]
fn every_question_of_a_record() {
    let mut random = Random::new(15);
    for question in QUESTIONS {
        let record = generate::failing(&mut random, question);
        assert_eq!(verdict(&record), format!("refused {question}\n"));
    }
}

#[test]
fn empty_input() {
    assert_eq!(verdict(&[]), "refused 1\n");
}

/// No accepted record is as long as 1,024 bytes: what stands past a record's end refuses it, however much that is.
#[test]
fn long_inputs() {
    let record = k1().to_bytes();
    let mut random = Random::new(1_024);
    for length in [
        record.len() + 1,
        INPUT_LIMIT - 1,
        INPUT_LIMIT,
        INPUT_LIMIT + 1,
        5_000,
    ] {
        let zeros = padded(&record, length);
        assert!(read(&zeros).is_err());
        let any = random.bytes(length);
        for input in [zeros, any] {
            verdict(&input);
        }
    }
}

/// A read may return fewer bytes than were asked for.
#[test]
fn input_in_pieces() {
    let record = k1().to_bytes();
    let single: Vec<&[u8]> = record.chunks(1).collect();
    assert_eq!(verdict_program(&single), "allowed 0 1 2\nsteps 3\n");
    let long = padded(&record, INPUT_LIMIT + 1);
    let pieces: Vec<&[u8]> = long.chunks(500).collect();
    assert_eq!(verdict_program(&pieces), expected(&long));
}
