//! Records with no instruction (document 02, P2): every call, and the verdict program, at N = 0.

use oglindesh::beside::{
    chain_table, check, judge, proved_operation_count, search, verdict, verdict_program,
};
use oglindesh::generate::{failing, ATTRIBUTES};
use oglindesh::random::Random;
use oglindesh::reference::counting::{count, Counted};
use oglindesh::reference::record::{read, MAX_LINES, MAX_PROCESSORS, QUESTIONS};
use oglindesh::reference::rules::JudgeAnswer;
use oglindesh::reference::search as brute;
use oglindesh::reference::search::{refusal, SearchAnswer, SearchReply};

/// Lengths of lent buffers and tables.
const ROOMS: [usize; 3] = [0, 1, 200];

const ALLOWANCES: [u32; 5] = [0, 1, 2, 1_000_000, u32::MAX];

/// Saved lengths above N.
const TOO_LONG: [usize; 4] = [1, 2, 200, usize::MAX];

/// Every number of processors and of lines, each line with each attribute and any initial bytes; written byte by byte.
fn records(random: &mut Random) -> Vec<Vec<u8>> {
    let mut records = Vec::new();
    for processors in 1..=MAX_PROCESSORS {
        for lines in 1..=MAX_LINES {
            for first in 0..ATTRIBUTES.len() {
                let mut bytes = vec![processors as u8, lines as u8];
                for line in 0..lines {
                    bytes.push(ATTRIBUTES[(first + line) % ATTRIBUTES.len()]);
                    bytes.extend(random.bytes(8));
                }
                // An empty program for each processor, and no pair.
                bytes.extend(vec![0; processors]);
                bytes.push(0);
                records.push(bytes);
            }
        }
    }
    records
}

/// A search call in a buffer of any bytes, which it leaves as they came, also by the brute force.
fn search_unchanged(
    random: &mut Random,
    bytes: &[u8],
    room: usize,
    saved: usize,
    allowance: u32,
) -> SearchReply {
    let came = random.bytes(room);
    let mut buffer = came.clone();
    let reply = search(bytes, &mut buffer, saved, allowance);
    assert_eq!(buffer, came, "record {bytes:?}");
    let by_brute_force = brute::search(bytes, &mut buffer, saved, allowance);
    assert_eq!((by_brute_force, buffer), (reply, came), "record {bytes:?}");
    reply
}

const ALLOWED: SearchReply = SearchReply {
    answer: SearchAnswer::Allowed,
    steps: 0,
    length: 0,
};

#[test]
fn the_record_is_accepted() {
    let mut random = Random::new(41);
    for bytes in records(&mut random) {
        assert_eq!(check(&bytes), Ok(()), "record {bytes:?}");
        assert_eq!(proved_operation_count(&bytes), 0, "record {bytes:?}");
        let execution = read(&bytes).expect("the readers agree");
        assert_eq!(execution.operation_count(), 0);
        assert_eq!(execution.to_bytes(), bytes);
    }
}

#[test]
fn the_empty_order_is_legal() {
    let mut random = Random::new(42);
    for bytes in records(&mut random) {
        assert_eq!(judge(&bytes, &[]), JudgeAnswer::Legal);
        assert_eq!(judge(&bytes, &[0]), JudgeAnswer::Refused(16));
        for length in [1, 2, 8, 128, 200, 256] {
            let order = random.bytes(length);
            assert_eq!(judge(&bytes, &order), JudgeAnswer::Refused(16));
        }
    }
}

#[test]
fn every_search_is_allowed() {
    let mut random = Random::new(43);
    for bytes in records(&mut random) {
        for room in ROOMS {
            for allowance in ALLOWANCES {
                let reply = search_unchanged(&mut random, &bytes, room, 0, allowance);
                assert_eq!(reply, ALLOWED, "record {bytes:?}");
            }
        }
    }
}

/// N is at most the length of any buffer, so question 18 passes and 19 refuses.
#[test]
fn no_saved_length_but_0() {
    let mut random = Random::new(44);
    for bytes in records(&mut random) {
        for room in ROOMS {
            for saved in TOO_LONG {
                for allowance in ALLOWANCES {
                    let reply = search_unchanged(&mut random, &bytes, room, saved, allowance);
                    assert_eq!(reply, refusal(19, saved), "record {bytes:?}");
                }
            }
        }
    }
}

/// There is no prefix to step to, so no list of allowances ends unfinished: each call of a list says what the first one said,
/// with refused calls in between.
#[test]
fn lists_of_calls() {
    let mut random = Random::new(45);
    let mut interrupted = 0;
    for bytes in records(&mut random) {
        for room in ROOMS {
            let came = random.bytes(room);
            let mut buffer = came.clone();
            let mut length = 0;
            for _ in 0..6 {
                let allowance = random.pick(&ALLOWANCES);
                let reply = search(&bytes, &mut buffer, length, allowance);
                assert_eq!(reply, ALLOWED, "record {bytes:?}");
                length = reply.length;
                if random.once_in(2) {
                    interrupted += 1;
                    let question = random.pick(&QUESTIONS);
                    let other = failing(&mut random, question);
                    let reply = search(&other, &mut buffer, length, allowance);
                    assert_eq!(reply, refusal(question, length));
                    let reply = search(&bytes, &mut buffer, length + 1, allowance);
                    assert_eq!(reply, refusal(19, length + 1));
                }
            }
            assert_eq!(buffer, came, "record {bytes:?}");
        }
    }
    assert!(interrupted > 0);
}

#[test]
fn no_prefix_is_counted() {
    let mut random = Random::new(46);
    for bytes in records(&mut random) {
        let execution = read(&bytes).expect("it is accepted");
        let counted = Counted {
            prefixes: 0,
            full: 1,
        };
        assert_eq!(count(&execution, usize::MAX), Some(counted));
    }
}

#[test]
fn the_chain_table_has_no_mark() {
    let mut random = Random::new(47);
    for bytes in records(&mut random) {
        for room in ROOMS {
            let came = random.bytes(room);
            let mut table = came.clone();
            assert_eq!(chain_table(&bytes, &mut table), Ok(()));
            assert_eq!(table, came, "record {bytes:?}");
        }
    }
}

#[test]
fn the_verdict_has_no_operation() {
    let mut random = Random::new(48);
    for bytes in records(&mut random) {
        assert_eq!(verdict(&bytes), "allowed\nsteps 0\n", "record {bytes:?}");
    }
    let bytes = [1, 1, 0, 0, 0, 0, 0, 0, 0, 0, 0, 0, 0];
    let single: Vec<&[u8]> = bytes.chunks(1).collect();
    assert_eq!(verdict_program(&single), "allowed\nsteps 0\n");
}

/// Every call refuses the record with this question, and leaves what it is lent.
fn all_refuse(random: &mut Random, bytes: &[u8], question: u8) {
    assert_eq!(check(bytes), Err(question), "record {bytes:?}");
    for order in [&[][..], &[0], &[0, 1]] {
        assert_eq!(judge(bytes, order), JudgeAnswer::Refused(question));
    }
    for room in ROOMS {
        for saved in [0, 1, usize::MAX] {
            let allowance = random.pick(&ALLOWANCES);
            let reply = search_unchanged(random, bytes, room, saved, allowance);
            assert_eq!(reply, refusal(question, saved), "record {bytes:?}");
        }
        let came = random.bytes(room);
        let mut table = came.clone();
        assert_eq!(chain_table(bytes, &mut table), Err(question));
        assert_eq!(table, came, "record {bytes:?}");
    }
}

/// What stands behind the programs of a record in the place of its count of pairs, and the question that refuses it.
fn endings(random: &mut Random) -> Vec<(Vec<u8>, u8)> {
    let pairs = |count: u8, bytes: Vec<u8>| [vec![count], bytes].concat();
    vec![
        (pairs(0, random.bytes(1)), 15),
        (pairs(0, vec![0]), 15),
        (pairs(0, random.bytes(12)), 15),
        (pairs(1, vec![]), 1),
        (pairs(1, vec![0]), 1),
        (pairs(1, vec![0, 0]), 13),
        (pairs(1, vec![0, 1]), 13),
        (pairs(1, random.bytes(2)), 13),
        (pairs(2, random.bytes(2)), 13),
        (pairs(40, random.bytes(80)), 13),
        (pairs(40, vec![]), 1),
        (pairs(41, random.bytes(82)), 12),
        (pairs(41, vec![]), 12),
        (pairs(255, vec![]), 12),
    ]
}

#[test]
fn every_cut_fails_question_1() {
    let mut random = Random::new(49);
    for bytes in records(&mut random) {
        for length in 0..bytes.len() {
            all_refuse(&mut random, &bytes[..length], 1);
        }
    }
}

#[test]
fn every_other_ending_is_refused() {
    let mut random = Random::new(50);
    for bytes in records(&mut random) {
        let programs = &bytes[..bytes.len() - 1];
        for (ending, question) in endings(&mut random) {
            let record = [programs, &ending].concat();
            all_refuse(&mut random, &record, question);
        }
    }
}

/// The smallest record and the largest, since each is a run of the program.
#[test]
fn verdicts_of_cuts_and_endings() {
    let mut random = Random::new(51);
    let records = records(&mut random);
    for bytes in [&records[0], &records[records.len() - 1]] {
        for length in 0..bytes.len() {
            assert_eq!(verdict(&bytes[..length]), "refused 1\n");
        }
        for (ending, question) in endings(&mut random) {
            let record = [&bytes[..bytes.len() - 1], &ending].concat();
            assert_eq!(verdict(&record), format!("refused {question}\n"));
        }
    }
}
