//! Executions printed for solvers: by hand, of every file in `executions/` and generated, and read again. Nothing that was seen or
//! claimed is in what is printed, and its records are the solvers' copies.

use oglindesh::beside::solvers_copy;
use oglindesh::executions::{
    read, record, run_all, solvers_text, source, Claim, Names, Says, Written, SOURCES,
};
use oglindesh::generate::{execution, Shape};
use oglindesh::random::Random;
use oglindesh::reference::record::{Execution, LINE_SIZE};
use std::path::Path;

fn read_text(text: &str) -> Vec<Written> {
    read("f", text).unwrap_or_else(|wrong| panic!("{wrong}\n{text}"))
}

fn printed(text: &str) -> String {
    solvers_text(&read_text(text))
}

/// The solvers' copy of the record that is printed; a question where there is none.
fn copy_of(written: &Written) -> Result<Vec<u8>, u8> {
    let record = record(&written.printed_execution())?;
    let mut copy = vec![170; record.len()];
    solvers_copy(&record, &mut copy).map(|_| copy)
}

/// Holds what is printed of executions to what is read of it again: names, records and claims. Gives the text.
fn assert_read_again(executions: &[Written]) -> String {
    let text = solvers_text(executions);
    let again = read_text(&text);
    let kept = executions.iter().filter(|written| copy_of(written).is_ok());
    let kept: Vec<&Written> = kept.collect();
    assert_eq!(again.len(), kept.len(), "{text}");
    for (again, written) in again.iter().zip(kept) {
        let execution = again.first_mix(&again.claims[0]);
        assert_eq!(record(&execution), copy_of(written), "{text}");
        assert_eq!(again.name, written.name);
        assert_eq!(sorted(&again.names), sorted(&written.names), "{text}");
        let count = written.execution.operation_count();
        assert!(matches!(&again.claims[..], [claim] if claim.says == Says::Operations(count)));
    }
    let ran = run_all("f", &again).unwrap_or_else(|wrong| panic!("{wrong}\n{text}"));
    assert_eq!(ran.executions, again.len());
    assert_eq!(solvers_text(&again), without_comments(&text));
    text
}

/// The names with the places in the order of theirs.
fn sorted(names: &Names) -> Names {
    let mut sorted = names.clone();
    sorted.places.sort();
    sorted
}

/// What is left where the executions that are refused are taken out, with the empty line behind each.
fn without_comments(text: &str) -> String {
    let blocks = text.trim_end().split("\n\n");
    let kept = blocks.filter(|block| !block.is_empty() && !block.starts_with('#'));
    let kept: Vec<String> = kept.map(|block| format!("{block}\n")).collect();
    kept.join("\n")
}

/// The words that a printed line may begin with, but for those that go on and comments.
const KEYS: [&str; 6] = [
    "execution",
    "places",
    "initially",
    "programs",
    "pairs",
    "operations",
];

/// Every execution of every file: the record of what is printed is the copy. Of the files some executions are refused.
#[test]
fn every_file() {
    let mut refused = 0;
    for name in SOURCES {
        let executions = source(name).unwrap_or_else(|wrong| panic!("{wrong}"));
        assert!(!executions.is_empty());
        let text = assert_read_again(&executions);
        refused += text.lines().filter(|line| line.starts_with('#')).count();
        for line in text.lines().filter(|line| !line.starts_with('#')) {
            let further = line.starts_with("              ");
            let key = line.split_whitespace().next().unwrap_or("execution");
            assert!(further || KEYS.contains(&key), "{line}");
        }
        let names = |line: &&str| line.starts_with("execution");
        let lines: Vec<&str> = text.lines().filter(|line| !names(line)).collect();
        for part in lines.join("\n").split(" sees ").skip(1) {
            let seen = part.split([',', ';', ' ', '\n']).next();
            assert_eq!(seen, Some("0"), "executions/{name}.txt");
        }
    }
    assert!(refused > 0);
}

/// The text with another value wherever one was seen.
fn seen_changed(text: &str) -> String {
    let changed = |line: &str| {
        let mut parts = line.split(" sees ");
        let first = parts.next().unwrap_or("").to_string();
        parts.fold(first, |before, part| {
            let value = part.find([',', ';', ' ']).unwrap_or(part.len());
            let other = if &part[..value] == "1" { 2 } else { 1 };
            format!("{before} sees {other}{}", &part[value..])
        })
    };
    let is_free = |line: &str| {
        let free = ["execution", "source", "#"];
        free.iter().any(|key| line.trim_start().starts_with(key))
    };
    let lines = text.lines().map(|line| match is_free(line) {
        true => line.to_string(),
        false => changed(line),
    });
    lines.collect::<Vec<String>>().join("\n")
}

/// Files that differ only in what was seen are printed alike.
#[test]
fn what_was_seen_is_not_printed() {
    let folder = Path::new(env!("CARGO_MANIFEST_DIR")).join("../executions");
    let mut changed = 0;
    for name in SOURCES {
        let path = folder.join(format!("{name}.txt"));
        let text = std::fs::read_to_string(path).expect("the file is read");
        let (one, other) = (read_text(&text), read_text(&seen_changed(&text)));
        assert_eq!(solvers_text(&other), solvers_text(&one), "{name}");
        let pairs = one.iter().zip(&other);
        changed += pairs.filter(|(a, b)| a.execution != b.execution).count();
    }
    assert!(changed > 100, "{changed}");
}

/// Nor what is claimed, where it is so of the same attributes.
#[test]
fn what_is_claimed_is_not_printed() {
    let with = |claims: &str| printed(&format!("execution e\n  programs ld x sees 0\n  {claims}"));
    let one = with("allowed on UC");
    assert_eq!(
        one,
        "execution e\n  programs    ld x sees 0\n  operations  1 on UC\n"
    );
    for claims in [
        "forbidden on UC steps 7",
        "refused 8\n order 0\n legal on UC or WB\n allowed on WC",
        "source it is allowed\n breaks 3 on UC order none",
    ] {
        assert_eq!(with(claims), one, "{claims}");
    }
}

/// All that the notation has, by hand. Numbers are written as the notation's examples have them.
#[test]
fn by_hand() {
    let text = "execution all of it  # a comment
  source    free text
  places    v at 4, u at 16, t at 40, x at 0
  initially v=0x05, v+1=6, 17=9, y+1=0, 63=0
  programs  A: ld2.acq v sees 0x0605, mf,
            B: st4.rel x=70000; none;
            ld u+1 sees 9, sem8.rel z sees z writes 0x0a00000000000001,  C: sem.acq 8 sees 1 writes u;
            st8 t+8=256, st16 32=0x0102030405060708090a0b0c0d0e0f10,
            ld16.acq 32 sees 0x80000000000000000000000000000000;
            none; none
  pairs     A B, 3 4, 4 C, 7 8
  refused 26 on UC
  operations 41 on x WC, y WB, u WB or UC, 24 WB or UC3, 32 UC or WB, t UC, 48 UC2, 56 UC2
  allowed   on WB
  order     R(A)
  legal     on WB
";
    let expected = "execution all of it
  places      v at 4, u at 16, t at 40
  initially   v=5, v+1=6, u+1=9, 56=0
  programs    A: ld2.acq v sees 0, mf, B: st4.rel x=0x00011170;
              none;
              ld u+1 sees 0, sem8.rel z sees 0 writes 0x0a00000000000001,
              C: sem.acq 8 sees 0 writes 16;
              st8 t+8=0x0000000000000100, st16 32=0x0102030405060708090a0b0c0d0e0f10,
              ld16.acq 32 sees 0;
              none; none
  pairs       A B, 3 4, 4 C, 7 8
  operations  41 on x WC, y WB, u WB, w WB, 32 UC, t UC, 48 UC2, 56 UC2
";
    assert_printed(text, expected);
}

/// What is printed, and that it can be read again.
fn assert_printed(text: &str, expected: &str) {
    assert_eq!(printed(text), expected);
    assert_read_again(&read_text(text));
}

/// Names that could be taken for something else: attributes at the front of `on`, signs at the end of a line.
#[test]
fn odd_names() {
    assert_printed(
        "execution e ;
           places any at 0, UC at 8
           initially any+1=2
           programs ld any+1 sees 2, ld UC sees 0
           allowed on 0 UC, 8 WC",
        "execution e ;
  places      any at 0, UC at 8
  initially   x+1=2
  programs    ld any+1 sees 0, ld UC sees 0
  operations  2 on x UC, y WC
",
    );
    assert_printed(
        "execution e
           programs ->: ld x sees 1, ,: ld y sees 0
           pairs 0 1
           allowed",
        "execution e
  programs    ->: ld x sees 0, ,: ld y sees 0
  pairs       0 1
  operations  2
",
    );
}

/// Lines go on after a sign where they become too long; what cannot be parted stands alone.
#[test]
fn long_lines() {
    let long = "P".repeat(120);
    assert_printed(
        &format!("execution e\n programs mf, {long}: ld x sees 1, mf, mf\n allowed"),
        &format!(
            "execution e
  programs    mf,
              {long}: ld x sees 0,
              mf, mf
  operations  4
"
        ),
    );
    let loads = vec!["ld x sees 7"; 16].join(", ");
    let pairs: Vec<String> = (1..16).map(|later| format!("0 {later}")).collect();
    let pairs = pairs.join(", ");
    assert_printed(
        &format!("execution e\n programs none; {loads}; none; none\n pairs {pairs}\n allowed"),
        "execution e
  programs    none;
              ld x sees 0, ld x sees 0, ld x sees 0, ld x sees 0, ld x sees 0, ld x sees 0,
              ld x sees 0, ld x sees 0, ld x sees 0, ld x sees 0, ld x sees 0, ld x sees 0,
              ld x sees 0, ld x sees 0, ld x sees 0, ld x sees 0;
              none; none
  pairs       0 1, 0 2, 0 3, 0 4, 0 5, 0 6, 0 7, 0 8, 0 9, 0 10, 0 11, 0 12, 0 13, 0 14, 0 15
  operations  16
",
    );
}

#[test]
fn nothing_to_be_printed() {
    let empty = "execution e\n  programs    none; none\n  operations  0\n";
    assert_printed("execution e\n programs none; none\n allowed", empty);
    assert_printed("# nothing\n", "");
}

/// A claim 'refused' that is not so is no reason to leave an execution out, and one whose record is refused is told.
#[test]
fn executions_without_a_record() {
    let semaphore = "execution e\n  programs sem.acq x sees 1 writes 2\n  ";
    let copy = "execution e\n  programs    sem.acq x sees 0 writes 2\n  operations  3\n";
    let told = "# e: question 26 refuses it (is the semaphore's line WB?), so it has no copy\n";
    for (claims, expected) in [
        ("refused 26 on UC", told),
        ("refused 26 on UC\n  refused 26", told),
        ("allowed on UC or WB", told),
        ("refused 26 on UC\n  allowed on WB or UC", copy),
        ("refused 8", copy),
    ] {
        assert_eq!(printed(&format!("{semaphore}{claims}")), expected);
    }
}

/// A generated execution with names: places anywhere, labels, and addresses from places or as numbers.
fn generated(random: &mut Random, number: usize) -> Written {
    let shape = random.pick(&Shape::ALL);
    let e = execution(random, &shape);
    let mut names = Names::default();
    for name in ["a", "b", "x", "any", "WC"] {
        if random.once_in(3) {
            let at = random.below(e.lines.len() * LINE_SIZE) as u8;
            names.places.retain(|(other, _)| other != name);
            names.places.push((name.to_string(), at));
        }
    }
    for (at, instruction) in e.instructions.iter().enumerate() {
        let label = random.once_in(2).then(|| format!("I{at}"));
        names.labels.push(label);
        let (name, place) = &names.places[random.below(names.places.len())];
        let usable = instruction.size > 0 && *place <= instruction.address;
        names.bases.push(usable.then(|| name.clone()));
    }
    let on = e.lines.iter().map(|line| vec![line.attribute]).collect();
    Written {
        name: format!("number {number}"),
        line: 1,
        claims: vec![Claim {
            line: 1,
            on,
            says: Says::Forbidden { steps: None },
        }],
        names,
        execution: e,
    }
}

/// Every record can be printed: all kinds and sizes, lines that no access touches, programs with no instruction.
#[test]
fn generated_executions() {
    let mut random = Random::new(1);
    let (mut untouched, mut mixed) = (0, 0);
    for number in 0..1_500 {
        let written = generated(&mut random, number);
        assert_read_again(std::slice::from_ref(&written));
        let Execution { lines, .. } = &written.execution;
        let accesses = written.execution.instructions.iter();
        let last = accesses.map(|i| i.lines().end).max().unwrap_or(0);
        let zeros = lines
            .last()
            .is_some_and(|line| line.initial == [0; LINE_SIZE]);
        untouched += usize::from(lines.len() > 1 && last < lines.len() && zeros);
        mixed += usize::from(
            lines
                .iter()
                .any(|line| line.attribute != lines[0].attribute),
        );
    }
    assert!(untouched > 50 && mixed > 300, "{untouched} {mixed}");
}
