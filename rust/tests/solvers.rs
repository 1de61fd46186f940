//! The proved solvers' copy beside the independent one (document 02, P12): what is zero in it and what stays, records that differ
//! only in what was seen, every refusal and their order, and the bytes of the buffer.

use oglindesh::answers::Refusals;
use oglindesh::beside::{check, solvers_copy};
use oglindesh::examples::{longest, named};
use oglindesh::generate::{damaged, execution, failing, Shape};
use oglindesh::proved::numbers::MAX_RECORD;
use oglindesh::random::Random;
use oglindesh::reference::notation::{access, mf, programs, semaphore};
use oglindesh::reference::record::{
    Execution, Instruction, Kind, MAX_INSTRUCTIONS, MAX_PROCESSORS, QUESTIONS,
};
use std::collections::BTreeSet;

/// Where a record that passes has what its loads and semaphores saw, by a walk over its bytes apart from the reader.
fn seen(record: &[u8]) -> Vec<usize> {
    let mut at = 2 + 9 * usize::from(record[1]);
    let mut seen = Vec::new();
    for _ in 0..record[0] {
        let count = record[at];
        at += 1;
        for _ in 0..count {
            let (kind, size) = (record[at], record[at + 2]);
            let bytes = match kind {
                0 | 1 if size == 16 => 16,
                0 | 1 | 5 | 6 => 8,
                _ => 0,
            };
            seen.extend(at + 3..at + 3 + bytes);
            at += if kind > 4 || size == 16 { 19 } else { 11 };
        }
    }
    seen
}

/// The copy of a record that passes, by that walk.
fn expected(record: &[u8]) -> Vec<u8> {
    let mut copy = record.to_vec();
    seen(record).into_iter().for_each(|at| copy[at] = 0);
    copy
}

/// Asks both for the copy, in a buffer of so many bytes: at a refusal they stay, else those past the copy do. What is written,
/// or the refusal.
fn asked(random: &mut Random, record: &[u8], room: usize) -> Result<Vec<u8>, u8> {
    let came = random.bytes(room);
    let mut buffer = came.clone();
    match solvers_copy(record, &mut buffer) {
        Ok(length) => {
            assert_eq!(length, record.len());
            assert_eq!(buffer[length..], came[length..], "record {record:?}");
            buffer.truncate(length);
            Ok(buffer)
        }
        Err(question) => {
            assert_eq!(buffer, came, "question {question}, record {record:?}");
            Err(question)
        }
    }
}

/// The copy of a record that passes, with more room than it needs. It passes too, and is its own copy.
fn copied(random: &mut Random, record: &[u8]) -> Vec<u8> {
    let room = record.len() + random.pick(&[0, 1, 7, 300]);
    let copy = asked(random, record, room).expect("the record passes, and there is room");
    assert_eq!(check(&copy), Ok(()), "record {record:?}");
    let again = asked(random, &copy, copy.len());
    assert_eq!(again.as_ref(), Ok(&copy), "record {record:?}");
    copy
}

/// Every byte of every value, seen or written, is any but 0.
fn give_any_values(random: &mut Random, e: &mut Execution) {
    let mut byte = || 1 + random.below(255) as u8;
    for instruction in &mut e.instructions {
        let size = usize::from(instruction.size);
        if instruction.kind.is_load() {
            instruction.seen[..size].fill_with(&mut byte);
        }
        if instruction.kind.is_store() {
            instruction.written[..size].fill_with(&mut byte);
        }
    }
}

/// A generated execution of any shape, mostly with any values.
fn generated(random: &mut Random) -> Execution {
    let shape = random.pick(&Shape::ALL);
    let mut e = execution(random, &shape);
    if !random.once_in(4) {
        give_any_values(random, &mut e);
    }
    e
}

// What is zero, and what stays.

/// Every kind; loads, stores and semaphores of several sizes, sixteen among them; a program with no instruction; pairs. Written
/// out byte by byte.
#[rustfmt::skip]
const RECORD: [u8; 199] = [
    4,
    3,
    0, 1, 2, 3, 4, 5, 6, 7, 8,
    0, 9, 0, 0, 0, 0, 0, 0, 7,
    33, 8, 8, 8, 8, 8, 8, 8, 8,
    5,
    0, 16, 1, 11, 0, 0, 0, 0, 0, 0, 0,
    2, 16, 8, 21, 22, 23, 24, 25, 26, 27, 28,
    1, 20, 4, 31, 32, 33, 34, 0, 0, 0, 0,
    4, 0, 0, 0, 0, 0, 0, 0, 0, 0, 0,
    5, 8, 2, 41, 42, 0, 0, 0, 0, 0, 0, 43, 44, 0, 0, 0, 0, 0, 0,
    0,
    4,
    3, 0, 16, 51, 52, 53, 54, 55, 56, 57, 58, 59, 60, 61, 62, 63, 64, 65, 66,
    0, 0, 16, 71, 72, 73, 74, 75, 76, 77, 78, 79, 80, 81, 82, 83, 84, 85, 86,
    6, 0, 8, 91, 92, 93, 94, 95, 96, 97, 98, 101, 102, 103, 104, 105, 106, 107, 108,
    3, 18, 2, 111, 112, 0, 0, 0, 0, 0, 0,
    2,
    1, 0, 16, 121, 122, 123, 124, 125, 126, 127, 128, 129, 130, 131, 132, 133, 134, 135, 136,
    0, 8, 8, 141, 142, 143, 144, 145, 146, 147, 148,
    2,
    0, 2, 5, 6,
];

#[rustfmt::skip]
const COPY: [u8; 199] = [
    4,
    3,
    0, 1, 2, 3, 4, 5, 6, 7, 8,
    0, 9, 0, 0, 0, 0, 0, 0, 7,
    33, 8, 8, 8, 8, 8, 8, 8, 8,
    5,
    0, 16, 1, 0, 0, 0, 0, 0, 0, 0, 0,
    2, 16, 8, 21, 22, 23, 24, 25, 26, 27, 28,
    1, 20, 4, 0, 0, 0, 0, 0, 0, 0, 0,
    4, 0, 0, 0, 0, 0, 0, 0, 0, 0, 0,
    5, 8, 2, 0, 0, 0, 0, 0, 0, 0, 0, 43, 44, 0, 0, 0, 0, 0, 0,
    0,
    4,
    3, 0, 16, 51, 52, 53, 54, 55, 56, 57, 58, 59, 60, 61, 62, 63, 64, 65, 66,
    0, 0, 16, 0, 0, 0, 0, 0, 0, 0, 0, 0, 0, 0, 0, 0, 0, 0, 0,
    6, 0, 8, 0, 0, 0, 0, 0, 0, 0, 0, 101, 102, 103, 104, 105, 106, 107, 108,
    3, 18, 2, 111, 112, 0, 0, 0, 0, 0, 0,
    2,
    1, 0, 16, 0, 0, 0, 0, 0, 0, 0, 0, 0, 0, 0, 0, 0, 0, 0, 0,
    0, 8, 8, 0, 0, 0, 0, 0, 0, 0, 0,
    2,
    0, 2, 5, 6,
];

#[test]
fn by_hand() {
    let mut buffer = [170; RECORD.len() + 4];
    assert_eq!(solvers_copy(&RECORD, &mut buffer), Ok(RECORD.len()));
    assert_eq!(buffer[..RECORD.len()], COPY);
    assert_eq!(buffer[RECORD.len()..], [170; 4]);
    assert_eq!(check(&COPY), Ok(()));
    assert_eq!(expected(&RECORD), COPY);
}

/// K1's copy is K2, which is forbidden.
#[test]
fn a_copy_need_not_be_allowed() {
    let [k1, k2] = ["K1", "K2"].map(|name| named("scope", name).to_bytes());
    assert_eq!(copied(&mut Random::new(1), &k1), k2);
}

/// An instruction of this kind and size at address 0, which saw 5 in every byte and wrote 6.
fn of(kind: Kind, size: u8) -> Instruction {
    let (seen, written) = (vec![5; size.into()], vec![6; size.into()]);
    match kind {
        kind if kind.is_semaphore() => semaphore(kind, 0, &seen, &written),
        kind if kind.is_load() => access(kind, 0, &seen),
        _ => access(kind, 0, &written),
    }
}

/// The same without what it saw.
fn cleared(instruction: Instruction) -> Instruction {
    Instruction {
        seen: [0; 16],
        ..instruction
    }
}

/// Holds the copy of these programs, with or without a pair of the first two instructions, to the same without what was seen.
fn assert_copied(random: &mut Random, all: &[&[Instruction]], pair: bool) {
    let blank = |program: &&[Instruction]| program.iter().copied().map(cleared).collect();
    let blank: Vec<Vec<Instruction>> = all.iter().map(blank).collect();
    let blank: Vec<&[Instruction]> = blank.iter().map(Vec::as_slice).collect();
    let [record, copy] = [all, &blank[..]].map(|all| {
        let draft = programs(all);
        let draft = if pair { draft.pair(0, 1) } else { draft };
        draft.build().to_bytes()
    });
    assert_eq!(copied(random, &record), copy, "{all:?}");
}

/// Every kind of every size, alone, before and behind an mf, in the first, a middle and the last program; at the end of the last
/// one with a pair behind it.
#[test]
fn every_kind_size_and_place() {
    let mut random = Random::new(2);
    for kind in Kind::ALL {
        for &size in kind.sizes() {
            let one = of(kind, size);
            let alone: [&[Instruction]; 4] = [&[one], &[mf(), one], &[one, mf()], &[one; 3]];
            for program in alone {
                for processor in 0..3 {
                    let mut all: [&[Instruction]; 3] = [&[]; 3];
                    all[processor] = program;
                    assert_copied(&mut random, &all, false);
                }
            }
            let load = of(Kind::Load, 16);
            assert_copied(&mut random, &[&[load, one]], kind != Kind::Fence);
        }
    }
}

/// What generated records were met, all of which were copied.
#[derive(Default, Debug)]
struct Met {
    /// Kinds and sizes, of loads and semaphores where every byte that they saw is not 0.
    kinds: BTreeSet<(u8, u8)>,
    no_instruction: usize,
    /// With instructions, and a processor that has none.
    empty_program: usize,
    pairs: usize,
    /// Of the last program the last instruction is a load, or a semaphore.
    load_last: usize,
    semaphore_last: usize,
    /// As many as a record can have.
    processors: usize,
    instructions: usize,
}

impl Met {
    fn count(&mut self, e: &Execution) {
        let bytes = |i: &Instruction| i.seen[..i.size.into()].to_vec();
        let any = |i: &&Instruction| !i.kind.is_load() || !bytes(i).contains(&0);
        let met = e.instructions.iter().filter(any);
        self.kinds.extend(met.map(|i| (i.kind as u8, i.size)));
        let by: BTreeSet<usize> = e.instructions.iter().map(|i| i.processor).collect();
        self.no_instruction += usize::from(by.is_empty());
        self.empty_program += usize::from(!by.is_empty() && by.len() < e.processors);
        self.pairs += usize::from(!e.pairs.is_empty());
        let last = e.instructions.last();
        let last = last.filter(|i| i.processor == e.processors - 1 && !bytes(i).contains(&0));
        let last = last.map(|i| i.kind).filter(|kind| kind.is_load());
        self.load_last += usize::from(last.is_some_and(|kind| !kind.is_semaphore()));
        self.semaphore_last += usize::from(last.is_some_and(Kind::is_semaphore));
        self.processors += usize::from(e.processors == MAX_PROCESSORS);
        self.instructions += usize::from(e.instructions.len() == MAX_INSTRUCTIONS);
    }
}

/// On generated records both give what the walk over the bytes gives, and nothing of what was seen.
#[test]
fn generated_records() {
    let mut random = Random::new(3);
    let mut met = Met::default();
    for _ in 0..9_000 {
        let e = generated(&mut random);
        let record = e.to_bytes();
        let copy = copied(&mut random, &record);
        assert_eq!(copy, expected(&record));
        let blank = e.instructions.iter().copied().map(cleared).collect();
        let blank = Execution::new(e.processors, e.lines.clone(), blank, e.pairs.clone());
        assert_eq!(copy, blank.to_bytes());
        met.count(&e);
    }
    let sizes = |kind: Kind| kind.sizes().iter().map(move |&size| (kind as u8, size));
    assert!(met
        .kinds
        .into_iter()
        .eq(Kind::ALL.into_iter().flat_map(sizes)));
    for (what, count) in [
        ("no instruction", met.no_instruction),
        ("a program with none", met.empty_program),
        ("pairs", met.pairs),
        ("a load at the end", met.load_last),
        ("a semaphore at the end", met.semaphore_last),
        ("eight processors", met.processors),
        ("forty instructions", met.instructions),
    ] {
        assert!(count > 25, "{what}: {count}");
    }
}

/// Two records that differ only in what was seen have the same copy; with another byte changed they have not.
#[test]
fn what_was_seen_is_not_in_the_copy() {
    let mut random = Random::new(4);
    let (mut differ, mut others) = (0, 0);
    for _ in 0..4_000 {
        let e = generated(&mut random);
        let record = e.to_bytes();
        let copy = copied(&mut random, &record);
        let mut other = e.clone();
        give_any_values(&mut random, &mut other);
        for (to, from) in other.instructions.iter_mut().zip(&e.instructions) {
            to.written = from.written;
        }
        let other = other.to_bytes();
        let places = seen(&record);
        let elsewhere = |at: &usize| !places.contains(at);
        assert!((0..record.len())
            .filter(elsewhere)
            .all(|at| other[at] == record[at]));
        differ += usize::from(other != record);
        assert_eq!(copied(&mut random, &other), copy);
        // A change of a kind may make other bytes those that were seen.
        let mut changed = other;
        let at = random.below(changed.len());
        changed[at] ^= 1 << random.below(8);
        if elsewhere(&at) && check(&changed).is_ok() && seen(&changed) == places {
            others += 1;
            let mut wanted = copy.clone();
            wanted[at] = changed[at];
            assert_eq!(copied(&mut random, &changed), wanted);
        }
    }
    assert!(differ > 2_500 && others > 500, "{differ} {others}");
}

// The refusals, and the buffer.

/// Each of the record's own comes before 25, in every buffer.
#[test]
fn every_refusal() {
    let mut random = Random::new(5);
    for question in QUESTIONS {
        for _ in 0..150 {
            let record = failing(&mut random, question);
            for room in [0, record.len().saturating_sub(1), record.len(), MAX_RECORD] {
                let answer = asked(&mut random, &record, room);
                assert_eq!(answer, Err(question), "room {room}, record {record:?}");
            }
        }
    }
}

/// In every buffer shorter than the record 25, and none of its bytes changes; in one just as long, and in longer ones, the copy.
#[test]
fn every_buffer() {
    let mut random = Random::new(6);
    for round in 0..80 {
        let shape = [Shape::TINY, Shape::SMALL][round % 2];
        let mut e = execution(&mut random, &shape);
        give_any_values(&mut random, &mut e);
        let record = e.to_bytes();
        for room in 0..record.len() + 30 {
            let wanted = match room < record.len() {
                true => Err(25),
                false => Ok(expected(&record)),
            };
            assert_eq!(asked(&mut random, &record, room), wanted, "room {room}");
        }
    }
}

/// The longest record has room in the bytes that the header names, and in no fewer.
#[test]
fn the_longest_record() {
    let mut random = Random::new(7);
    let record = longest().to_bytes();
    let copy = asked(&mut random, &record, MAX_RECORD);
    assert_eq!(copy, Ok(expected(&record)));
    assert_ne!(copy, Ok(record.clone()));
    assert_eq!(asked(&mut random, &record, MAX_RECORD - 1), Err(25));
}

/// Every beginning of a record, whether there is room or not; and what stands behind one.
#[test]
fn cut_and_lengthened_records() {
    let mut random = Random::new(8);
    for _ in 0..40 {
        let mut record = execution(&mut random, &Shape::SMALL).to_bytes();
        for length in 0..record.len() {
            for room in [0, record.len()] {
                let answer = asked(&mut random, &record[..length], room);
                assert_eq!(answer, Err(1), "{length} bytes of {record:?}");
            }
        }
        for _ in 0..3 {
            record.push(random.byte());
            for room in [0, MAX_RECORD] {
                assert_eq!(asked(&mut random, &record, room), Err(15));
            }
        }
    }
}

/// Damaged records in buffers of any length: both answer alike, the record's own refusal before 25.
#[test]
fn damaged_records() {
    let mut random = Random::new(9);
    let mut tally = Refusals::default();
    for round in 0..40_000 {
        let e = execution(&mut random, &Shape::ALL[round % 3]);
        let record = damaged(&mut random, &e);
        let room = random.pick(&[0, 60, 100, MAX_RECORD, MAX_RECORD, MAX_RECORD]);
        let answer = asked(&mut random, &record, room);
        tally.count(&answer);
        let wanted = match check(&record) {
            Ok(()) if room >= record.len() => Ok(expected(&record)),
            Ok(()) => Err(25),
            Err(question) => Err(question),
        };
        assert_eq!(answer, wanted, "room {room}, record {record:?}");
    }
    let all: BTreeSet<u8> = QUESTIONS.into_iter().chain([25]).collect();
    assert!(tally.0[0] > 5_000, "{:?}", tally.0);
    assert!(tally.reached().into_iter().eq(all), "{:?}", tally.0);
}
