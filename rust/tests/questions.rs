//! The questions 1 to 22 but 10, which is not asked, by hand: boundary values, and which of two comes first. Those of a semaphore
//! are in tests/semaphores.rs, those of sixteen bytes in tests/sixteen.rs, those of the writer in tests/writer.rs, those of the
//! solvers' copy in tests/solvers.rs.

use oglindesh::beside;
use oglindesh::generate::ATTRIBUTES;
use oglindesh::reference::chains::chain_table;
use oglindesh::reference::notation::{ld, mf, programs, st, X, Y};
use oglindesh::reference::record::{read, Attribute};
use oglindesh::reference::rules::{judge, JudgeAnswer};
use oglindesh::reference::search::{search, SearchAnswer};

/// st x=1, ld y sees 0, mf; st y=1, st x=1; the pair 0 1. Written out byte by byte.
#[rustfmt::skip]
const RECORD: [u8; 80] = [
    2,
    2,
    0, 0, 0, 0, 0, 0, 0, 0, 0,
    0, 0, 0, 0, 0, 0, 0, 0, 0,
    3,
    2, 0, 1, 1, 0, 0, 0, 0, 0, 0, 0,
    0, 8, 1, 0, 0, 0, 0, 0, 0, 0, 0,
    4, 0, 0, 0, 0, 0, 0, 0, 0, 0, 0,
    2,
    2, 8, 1, 1, 0, 0, 0, 0, 0, 0, 0,
    2, 0, 1, 1, 0, 0, 0, 0, 0, 0, 0,
    1,
    0, 1,
];

/// Both readers' answer to the record with these bytes (place, value) changed: 0 when it passes.
fn answer(changes: &[(usize, u8)]) -> u8 {
    let mut bytes = RECORD;
    for &(at, value) in changes {
        bytes[at] = value;
    }
    beside::check(&bytes).err().unwrap_or(0)
}

#[test]
fn writer_writes_the_layout() {
    let programs = programs(&[&[st(X, 1), ld(Y, 0), mf()], &[st(Y, 1), st(X, 1)]]);
    let execution = programs.pair(0, 1).build();
    assert_eq!(execution.to_bytes(), RECORD);
    assert_eq!(read(&RECORD), Ok(execution));
}

#[test]
fn every_cut_fails_question_1() {
    for length in 0..RECORD.len() {
        assert_eq!(read(&RECORD[..length]), Err(1), "{length} bytes");
    }
}

#[test]
fn counts_and_lines() {
    assert_eq!(answer(&[(0, 0)]), 2);
    assert_eq!(answer(&[(0, 9)]), 2);
    // Eight processors: the pairs are taken for the third one's program.
    assert_eq!(answer(&[(0, 8)]), 1);
    assert_eq!(answer(&[(1, 0)]), 3);
    assert_eq!(answer(&[(1, 9)]), 3);
    assert_eq!(answer(&[(20, 41)]), 5);
    assert_eq!(answer(&[(54, 38)]), 5);
    assert_eq!(answer(&[(54, 37)]), 1);
}

/// Question 4 of every byte, in the first line and in the last one.
#[test]
fn attribute_bytes() {
    for byte in 0..=u8::MAX {
        let expected = if ATTRIBUTES.contains(&byte) { 0 } else { 4 };
        assert_eq!(answer(&[(2, byte)]), expected, "byte {byte}");
        assert_eq!(answer(&[(11, byte)]), expected, "byte {byte}");
    }
}

/// What the bytes stand for, and that they are written as they were read.
#[test]
fn attributes() {
    let all = Attribute::all().into_iter();
    let rows: Vec<_> = all.map(|a| (a.byte(), a.name(), a.domain())).collect();
    let expected = [
        (0, "WB", None),
        (1, "UC", Some(0)),
        (2, "WC", None),
        (17, "UC1", Some(1)),
        (33, "UC2", Some(2)),
        (49, "UC3", Some(3)),
    ];
    let expected = expected.map(|(byte, name, domain)| (byte, name.to_string(), domain));
    assert_eq!(rows, expected);
    for byte in ATTRIBUTES {
        let mut bytes = RECORD;
        bytes[11] = byte;
        assert_eq!(read(&bytes).map(|e| e.to_bytes()), Ok(bytes.to_vec()));
    }
}

#[test]
fn instructions() {
    for kind in 7..=u8::MAX {
        assert_eq!(answer(&[(21, kind)]), 6);
    }
    for size in [0, 3, 5, 6, 7, 9, 15, 17, 32, 255] {
        assert_eq!(answer(&[(23, size)]), 7);
    }
    assert_eq!(answer(&[(45, 1)]), 7);
    assert_eq!(answer(&[(22, 15)]), 0);
    assert_eq!(answer(&[(22, 16)]), 8);
    assert_eq!(answer(&[(22, 255)]), 8);
    assert_eq!(answer(&[(22, 1), (23, 2)]), 8);
    assert_eq!(answer(&[(22, 14), (23, 2)]), 0);
    assert_eq!(answer(&[(22, 8), (23, 8), (31, 9)]), 0);
    assert_eq!(answer(&[(22, 12), (23, 8)]), 8);
    assert_eq!(answer(&[(44, 8)]), 8);
    assert_eq!(answer(&[(25, 1)]), 9);
    assert_eq!(answer(&[(31, 1)]), 9);
    assert_eq!(answer(&[(23, 4), (27, 1)]), 0);
    assert_eq!(answer(&[(23, 4), (28, 1)]), 9);
    assert_eq!(answer(&[(46, 1)]), 9);
}

#[test]
fn pairs() {
    assert_eq!(answer(&[(77, 41)]), 12);
    assert_eq!(answer(&[(77, 40)]), 1);
    assert_eq!(answer(&[(77, 0)]), 15);
    let bad = [
        (0, 0),
        (1, 1),
        (1, 0),
        (0, 2),
        (1, 2),
        (3, 4),
        (1, 3),
        (1, 4),
        (1, 5),
        (0, 255),
        (255, 255),
    ];
    for (first, second) in bad {
        assert_eq!(answer(&[(78, first), (79, second)]), 13);
    }
}

#[test]
fn order_of_pairs() {
    let with = |pairs: &[(u8, u8)]| {
        let draft = programs(&[&[st(X, 1), ld(Y, 0), ld(X, 1)]]);
        let paired = pairs.iter().fold(draft, |d, &(a, b)| d.pair(a, b));
        read(&paired.build().to_bytes()).err().unwrap_or(0)
    };
    assert_eq!(with(&[(0, 1), (0, 2), (1, 2)]), 0);
    assert_eq!(with(&[(0, 2), (1, 2)]), 0);
    assert_eq!(with(&[(0, 1), (0, 1)]), 14);
    assert_eq!(with(&[(0, 2), (0, 1)]), 14);
    assert_eq!(with(&[(1, 2), (0, 2)]), 14);
    // Question 13 of a pair comes before its question 14.
    assert_eq!(with(&[(0, 1), (0, 0)]), 13);
}

#[test]
fn first_no_decides() {
    assert_eq!(answer(&[(21, 7), (23, 3)]), 6);
    assert_eq!(answer(&[(22, 99), (23, 3)]), 7);
    assert_eq!(answer(&[(22, 99), (25, 1)]), 8);
    assert_eq!(answer(&[(25, 1), (32, 7)]), 9);
    assert_eq!(answer(&[(2, 3), (20, 41)]), 4);
    // A count is asked about before the bytes behind it, and these before their content.
    assert_eq!(read(&[9]), Err(2));
    assert_eq!(read(&[1, 9]), Err(3));
    assert_eq!(read(&[1, 1, 3]), Err(1));
    assert_eq!(read(&[&RECORD[..20], &[41]].concat()), Err(5));
    assert_eq!(read(&[&RECORD[..20], &[40, 7]].concat()), Err(1));
}

#[test]
fn after_the_last_program() {
    // No instruction is asked for (document 02, P2); a record that ends after its empty program lacks the pair count.
    let empty = [1, 1, 0, 0, 0, 0, 0, 0, 0, 0, 0, 0, 0];
    assert_eq!(read(&empty).map(|e| e.operation_count()), Ok(0));
    assert_eq!(read(&empty[..12]), Err(1));
    assert_eq!(read(&empty[..11]), Err(1));
    let with = |stores: usize, loads: usize| {
        let first = [vec![st(X, 1); stores], vec![ld(X, 1); loads]].concat();
        let draft = programs(&[&first, &[], &[], &[], &[], &[], &[], &[]]);
        draft.build().to_bytes()
    };
    assert_eq!(read(&with(14, 2)).map(|e| e.operation_count()), Ok(128));
    // Question 11 comes before question 1 of the pair count.
    let over = with(14, 3);
    assert_eq!(read(&over), Err(11));
    assert_eq!(read(&over[..over.len() - 1]), Err(11));
    assert_eq!(read(&with(0, 40)).map(|e| e.operation_count()), Ok(40));
}

/// K1; without its first byte it reads as one processor and no line, which fails question 3.
fn k1() -> Vec<u8> {
    programs(&[&[st(X, 1), ld(X, 1)]]).build().to_bytes()
}

#[test]
fn offered_orders() {
    let k1 = k1();
    assert_eq!(judge(&k1, &[0, 1]), JudgeAnswer::Refused(16));
    assert_eq!(judge(&k1, &[0, 0]), JudgeAnswer::Refused(16));
    assert_eq!(judge(&k1, &[0, 1, 2, 3]), JudgeAnswer::Refused(16));
    assert_eq!(judge(&k1, &[0, 1, 1]), JudgeAnswer::Refused(17));
    assert_eq!(judge(&k1, &[1, 0, 3]), JudgeAnswer::Refused(17));
    assert_eq!(judge(&k1[1..], &[0]), JudgeAnswer::Refused(3));
}

#[test]
fn saved_positions() {
    let refused = |bytes: &[u8], buffer: &[u8], saved: usize| {
        let replies = [search, beside::search].map(|search| {
            let mut lent = buffer.to_vec();
            let reply = search(bytes, &mut lent, saved, 100);
            let refused = matches!(reply.answer, SearchAnswer::Refused(_));
            assert!(!refused || (lent == buffer && reply.length == saved && reply.steps == 0));
            reply
        });
        assert_eq!(replies[0], replies[1]);
        match replies[0].answer {
            SearchAnswer::Refused(question) => question,
            _ => 0,
        }
    };
    let k1 = k1();
    assert_eq!(refused(&k1[1..], &[], 7), 3);
    assert_eq!(refused(&k1, &[0, 1], 9), 18);
    assert_eq!(refused(&k1, &[0, 1], 2), 18);
    assert_eq!(refused(&k1, &[0, 1, 1], 4), 19);
    assert_eq!(refused(&k1, &[0, 1, 1, 0], 4), 19);
    assert_eq!(refused(&k1, &[1, 1, 2], 2), 20);
    assert_eq!(refused(&k1, &[3, 0, 0], 1), 20);
    assert_eq!(refused(&k1, &[1, 0, 2], 1), 21);
    assert_eq!(refused(&k1, &[0, 9, 9], 1), 0);
    assert_eq!(refused(&k1, &[0, 2, 1], 3), 0);
}

#[test]
fn tables() {
    let k1 = k1();
    let mut table = [7; 10];
    assert_eq!(chain_table(&k1[1..], &mut []), Err(3));
    assert_eq!(chain_table(&k1, &mut table[..8]), Err(22));
    assert_eq!(table, [7; 10]);
    assert_eq!(chain_table(&k1, &mut table), Ok(()));
    assert_eq!(table, [0, 1, 1, 0, 0, 0, 0, 0, 0, 7]);
}
