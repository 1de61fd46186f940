//! The header for C, read as text: its numbers are those of the wrapper for Rust, its version is the package's.

use oglindesh::proved::numbers;
use oglindesh::reference::record::{
    DATA_ITEM, INSTRUCTION_ITEM, LINE_ITEM, MAX_INSTRUCTIONS, MAX_LINES, MAX_OPERATIONS, MAX_PAIRS,
    MAX_PROCESSORS, PAIR_ITEM, QUESTIONS,
};

const HEADER: &str = include_str!("../../include/oglindesh.h");

/// What stands before every name of the header.
const PREFIX: &str = "OGLINDESH_";

/// The longest record: the number of processors, the lines with their count, a count for each processor, instructions of nineteen
/// bytes, and the pairs with their count. That none is longer is in tests/sixteen.rs.
const MAX_RECORD: usize = 1
    + (1 + MAX_LINES * LINE_ITEM)
    + (MAX_PROCESSORS + MAX_INSTRUCTIONS * (INSTRUCTION_ITEM + DATA_ITEM))
    + (1 + MAX_PAIRS * PAIR_ITEM);

/// Names and their numbers in the wrapper; the refusals and the version are apart.
const NUMBERS: [(&str, usize); 15] = [
    ("PASSES", numbers::PASSES as usize),
    ("LEGAL", numbers::LEGAL as usize),
    ("UNFINISHED", numbers::UNFINISHED as usize),
    ("ALLOWED", numbers::ALLOWED as usize),
    ("FORBIDDEN", numbers::FORBIDDEN as usize),
    ("DONE", numbers::DONE as usize),
    ("EQUAL", numbers::EQUAL as usize),
    ("LEFT_FIRST", numbers::LEFT_FIRST as usize),
    ("RIGHT_FIRST", numbers::RIGHT_FIRST as usize),
    ("EMPTY_PART", numbers::EMPTY_PART as usize),
    ("LEFT_RECORD", numbers::LEFT_RECORD as usize),
    ("RIGHT_RECORD", numbers::RIGHT_RECORD as usize),
    ("REFUSED", numbers::REFUSED as usize),
    ("MAX_RECORD", numbers::MAX_RECORD),
    ("MAX_OPERATIONS", MAX_OPERATIONS),
];

/// The names that the header defines and what each stands for, without comments.
fn definitions() -> Vec<(&'static str, &'static str)> {
    let lines = HEADER.lines();
    let named = lines.filter_map(|line| line.strip_prefix("#define ")?.strip_prefix(PREFIX));
    let parted = named.filter_map(|definition| definition.split_once(' '));
    parted
        .map(|(name, value)| (name, value.split("/*").next().unwrap_or(value).trim()))
        .collect()
}

/// What the header defines a name to be.
fn defined(name: &str) -> &'static str {
    let all = definitions();
    let mut found = all.iter().filter(|definition| definition.0 == name);
    let (_, value) = found.next().unwrap_or_else(|| panic!("no {PREFIX}{name}"));
    assert!(found.next().is_none(), "{PREFIX}{name} is defined twice");
    value
}

fn number(value: &str) -> usize {
    let digits = value.strip_suffix('u').unwrap_or(value);
    digits.parse().unwrap_or_else(|_| panic!("{value}"))
}

#[test]
fn numbers_are_those_of_the_wrapper() {
    for (name, expected) in NUMBERS {
        assert_eq!(number(defined(name)), expected, "{PREFIX}{name}");
    }
}

#[test]
fn the_longest_record_is_the_sum_of_its_parts() {
    assert_eq!(numbers::MAX_RECORD, MAX_RECORD);
}

#[test]
fn refusals_are_the_questions_in_turn() {
    let sum = format!("({PREFIX}REFUSED + ");
    let all = definitions().into_iter();
    let refusals = all.filter(|definition| definition.0.starts_with("REFUSED_"));
    let questions = refusals.map(|(name, value)| {
        let question = value.strip_prefix(&sum).and_then(|q| q.strip_suffix(')'));
        number(question.unwrap_or_else(|| panic!("{PREFIX}{name} is {value}")))
    });
    let of_the_record = QUESTIONS.into_iter().map(usize::from);
    assert!(questions.eq(of_the_record.chain(16..=25)));
}

#[test]
fn the_version_is_the_packages() {
    let part = |name: &str| number(defined(name));
    let version = format!("{}.{}", part("VERSION_MAJOR"), part("VERSION_MINOR"));
    assert_eq!(defined("VERSION"), format!("\"{version}\""));
    let (package, _patch) = env!("CARGO_PKG_VERSION")
        .rsplit_once('.')
        .expect("a package's version has three parts");
    assert_eq!(version, package);
}

/// So that a name that is new in the header is held to a number too.
#[test]
fn every_name_is_looked_at() {
    for (name, _) in definitions() {
        let known = NUMBERS.iter().any(|row| row.0 == name);
        let apart = name.starts_with("REFUSED_") || name.starts_with("VERSION");
        assert!(known || apart, "{PREFIX}{name} has no row in NUMBERS");
    }
}
