//! Accesses of sixteen bytes (document 02, P7): their entry, questions, overlaps and rules by hand, and generated records.

use oglindesh::answers::{answers, count_agrees, is_local, Answers, Searched};
use oglindesh::beside::{chain_table, check, judge, search, search_from_start, verdict};
use oglindesh::examples::longest;
use oglindesh::generate::{
    accesses, consistent_prefix, execution, with_sixteen, without_semaphores, Shape, ATTRIBUTES,
};
use oglindesh::random::Random;
use oglindesh::reference::notation::{
    access, ld, programs, rel, semaphore, st, uc, Draft, X, Y, Z,
};
use oglindesh::reference::record::{
    read, Attribute, Execution, Instruction, Kind, Line, DATA_ITEM, INSTRUCTION_ITEM, LINE_ITEM,
    LINE_SIZE, MAX_INSTRUCTIONS, MAX_LINES, MAX_OPERATIONS, MAX_PAIRS, MAX_PROCESSORS, MAX_SIZE,
    PAIR_ITEM,
};
use oglindesh::reference::rules::{links, lowest_broken, JudgeAnswer};
use oglindesh::reference::search::SearchAnswer;
use std::collections::BTreeSet;

/// The kinds that may have sixteen bytes.
const KINDS: [Kind; 4] = [
    Kind::Load,
    Kind::LoadAcquire,
    Kind::Store,
    Kind::StoreRelease,
];

/// Sixteen bytes: one byte eight times, then another.
fn halves(lower: u8, upper: u8) -> [u8; MAX_SIZE] {
    std::array::from_fn(|at| if at < LINE_SIZE { lower } else { upper })
}

/// ld of sixteen bytes, and those that it saw.
fn ld16(address: u8, seen: [u8; MAX_SIZE]) -> Instruction {
    access(Kind::Load, address, &seen)
}

/// st of sixteen bytes.
fn st16(address: u8, written: [u8; MAX_SIZE]) -> Instruction {
    access(Kind::Store, address, &written)
}

/// st of eight bytes, all the same.
fn st8(address: u8, byte: u8) -> Instruction {
    access(Kind::Store, address, &[byte; LINE_SIZE])
}

/// What the judge says of an order. A search that has it as its position allows it where it is legal, and else refuses it.
fn judged(draft: &Draft, order: &[u8]) -> JudgeAnswer {
    let bytes = draft.clone().build().to_bytes();
    let answer = judge(&bytes, order);
    let expected = match answer {
        JudgeAnswer::Legal => SearchAnswer::Allowed,
        _ => SearchAnswer::Refused(21),
    };
    let reply = search(&bytes, &mut order.to_vec(), order.len(), 0);
    assert_eq!(reply.answer, expected, "record {bytes:?}, {order:?}");
    answer
}

/// What is said of an order where all lines are WB, UC and WC.
fn judged_on_each(draft: &Draft, order: &[u8]) -> [JudgeAnswer; 3] {
    let attributes = [Attribute::WriteBack, uc(0), Attribute::WriteCoalescing];
    attributes.map(|attribute| judged(&draft.clone().all_lines(attribute), order))
}

/// What the search from the start says, and after how many steps; by the brute force too.
fn searched(draft: &Draft) -> (SearchAnswer, u32) {
    let (reply, _) = search_from_start(&draft.clone().build(), 100_000);
    (reply.answer, reply.steps)
}

const LEGAL: JudgeAnswer = JudgeAnswer::Legal;

fn breaks(rule: u8) -> JudgeAnswer {
    JudgeAnswer::Breaks(rule)
}

// The entry and its questions.

/// One processor, two UC lines of domain 1 and one of WC, ld of sixteen bytes that saw the initial bytes of the first two. Written
/// out.
#[rustfmt::skip]
const RECORD: [u8; 50] = [
    1,
    3,
    17, 1, 2, 3, 4, 5, 6, 7, 8,
    17, 9, 10, 11, 12, 13, 14, 15, 16,
    2, 17, 18, 19, 20, 21, 22, 23, 24,
    1,
    0, 0, 16, 1, 2, 3, 4, 5, 6, 7, 8, 9, 10, 11, 12, 13, 14, 15, 16,
    0,
];

/// Where the attributes of its lines stand, and where its entry begins and ends.
const ATTRIBUTE: usize = 2;
const UPPER_ATTRIBUTE: usize = ATTRIBUTE + LINE_ITEM;
const ENTRY: usize = 30;
const END: usize = ENTRY + 19;

#[test]
fn an_entry_has_nineteen_bytes() {
    let bytes: [u8; MAX_SIZE] = std::array::from_fn(|at| at as u8 + 1);
    let draft = programs(&[&[ld16(X, bytes)]]).all_lines(uc(1));
    let initial = (0..16).fold(draft, |draft, at| draft.initial(at, at + 1));
    let mut e = initial.build();
    e.lines.push(Line {
        attribute: Attribute::WriteCoalescing,
        initial: std::array::from_fn(|at| at as u8 + 17),
    });
    assert_eq!(e.to_bytes(), RECORD);
    assert_eq!(read(&RECORD).as_ref(), Ok(&e));
    assert_eq!(verdict(&RECORD), "allowed 0\nsteps 1\n");
    // The lower half stands first, in the value and in the lines.
    let mut exchanged = RECORD;
    exchanged[ENTRY + 3..END].rotate_left(8);
    assert_eq!(verdict(&exchanged), "forbidden\nsteps 0\n");
    // Each byte is held to its own.
    for at in 0..MAX_SIZE {
        let mut changed = RECORD;
        changed[ENTRY + 3 + at] ^= 128;
        assert_eq!(judge(&changed, &[0]), breaks(11), "byte {at}");
        assert_eq!(
            search(&changed, &mut [7], 0, 9).answer,
            SearchAnswer::Forbidden
        );
        let initial = if at < 8 { ATTRIBUTE } else { UPPER_ATTRIBUTE } + 1 + at % 8;
        changed[initial] ^= 128;
        assert_eq!(judge(&changed, &[0]), LEGAL, "byte {at}");
        assert_eq!(
            search(&changed, &mut [7], 0, 9).answer,
            SearchAnswer::Allowed
        );
    }
}

/// Faults of the entry, by the question that each fails, in the order in which they are asked. At the other address the access
/// would still lie within the lines, on two that differ; no fault changes the length of the entry.
const FAULTS: [(u8, usize, u8); 5] = [
    (6, ENTRY, 7),
    (7, ENTRY, 5),
    (8, ENTRY + 1, 8),
    (27, ATTRIBUTE, 1),
    (27, UPPER_ATTRIBUTE, 0),
];

/// Every set of faults, cut at every length: 1 of eleven bytes, 6, 7, 1 of the other eight, 8, 27. A semaphore of sixteen bytes
/// fails 7, before 26.
#[test]
fn order_of_the_questions() {
    let mut reached = BTreeSet::new();
    for set in 0..1 << FAULTS.len() {
        let chosen = (0..FAULTS.len()).filter(|fault| set >> fault & 1 == 1);
        let mut chosen: Vec<_> = chosen.map(|fault| FAULTS[fault]).collect();
        let mut bytes = RECORD;
        for &(_, at, value) in chosen.iter().rev() {
            bytes[at] = value;
        }
        chosen.retain(|&(question, _, _)| question != 7 || bytes[ENTRY] == 5);
        let first = |from: &[u8]| {
            let mut questions = chosen.iter().map(|&(question, _, _)| question);
            questions.find(|question| from.contains(question))
        };
        for length in 0..=RECORD.len() {
            let cut = |end: usize| (length < end).then_some(1);
            let expected = cut(ENTRY + INSTRUCTION_ITEM)
                .or(first(&[6, 7]))
                .or(cut(END))
                .or(first(&[8, 27]))
                .or(cut(RECORD.len()));
            assert_eq!(check(&bytes[..length]).err(), expected, "{chosen:?}");
            reached.extend(expected);
        }
    }
    assert!(reached.into_iter().eq([1, 6, 7, 8, 27]));
}

/// One instruction of this kind, address and size on so many WB lines, with data bytes that pass question 9.
fn entry_record(lines: usize, kind: Kind, address: u8, size: u8, more: usize) -> Vec<u8> {
    let mut bytes = vec![1, lines as u8];
    bytes.extend(vec![0; lines * LINE_ITEM]);
    bytes.extend([1, kind as u8, address, size]);
    bytes.extend(vec![0; DATA_ITEM + more]);
    bytes.push(0);
    bytes
}

/// Question 7 of every kind and size, with an entry of eleven bytes and of nineteen; 16 for kinds 0 to 3 alone.
#[test]
fn sizes() {
    for kind in Kind::ALL {
        for size in 0..=u8::MAX {
            let good = match kind {
                Kind::Fence => size == 0,
                _ if KINDS.contains(&kind) => [1, 2, 4, 8, 16].contains(&size),
                _ => [1, 2, 4, 8].contains(&size),
            };
            let long = size == 16 || kind.is_semaphore();
            for more in [0, 8] {
                let bytes = entry_record(3, kind, 0, size, more);
                let expected = match (good, long, more) {
                    (false, _, _) => Some(7),
                    (true, true, 0) => Some(1),
                    // What follows is taken for the number of pairs, and the rest is left over.
                    (true, false, 8) => Some(15),
                    _ => None,
                };
                let answer = check(&bytes).err();
                assert_eq!(answer, expected, "{kind:?}, size {size}, {more} more");
            }
        }
    }
}

/// Size 16 of a semaphore and of an mf fails 7 wherever the record ends behind the first eleven bytes, and whatever comes after 7.
#[test]
fn no_semaphore_nor_mf_of_sixteen_bytes() {
    for kind in [Kind::Fence, Kind::SemaphoreAcquire, Kind::SemaphoreRelease] {
        for address in [0, 1, 8, 16, 255] {
            let mut bytes = entry_record(3, kind, address, 16, 24);
            bytes[2] = 1;
            bytes[2 + LINE_ITEM] = 2;
            for length in ENTRY..=bytes.len() {
                let expected = if length < ENTRY + 11 { 1 } else { 7 };
                assert_eq!(check(&bytes[..length]), Err(expected), "{kind:?}");
            }
        }
    }
}

/// Question 8 of every address, on every number of lines.
#[test]
fn addresses() {
    let mut passed = 0;
    for lines in 1..=MAX_LINES {
        for address in 0..=u8::MAX {
            for kind in KINDS {
                let bytes = entry_record(lines, kind, address, 16, 8);
                let good = address % 16 == 0 && usize::from(address) + 16 <= 8 * lines;
                let answer = check(&bytes).err();
                assert_eq!(answer, (!good).then_some(8), "{address}, {lines} lines");
                passed += usize::from(good);
            }
        }
    }
    // Half as many blocks as lines, rounded down.
    assert_eq!(passed, 4 * (0 + 1 + 1 + 2 + 2 + 3 + 3 + 4));
}

/// Question 27 of every two attribute bytes, on every two lines, whatever the others are; and not of the two of one line each.
#[test]
fn attributes() {
    for [lower, upper] in ATTRIBUTES.map(|a| ATTRIBUTES.map(|b| [a, b])).concat() {
        for kind in KINDS {
            for block in 0..MAX_LINES / 2 {
                let address = 16 * block as u8;
                let mut bytes = entry_record(MAX_LINES, kind, address, 16, 8);
                for line in 0..MAX_LINES {
                    let here = line / 2 == block;
                    let byte = match line % 2 {
                        0 if here => lower,
                        1 if here => upper,
                        other => ATTRIBUTES[(line + other) % 6],
                    };
                    bytes[2 + line * LINE_ITEM] = byte;
                }
                let expected = (lower != upper).then_some(27);
                assert_eq!(check(&bytes).err(), expected, "{lower}, {upper}, {kind:?}");
                // Its two lines by an access each.
                let entry = 2 + MAX_LINES * LINE_ITEM;
                bytes.truncate(entry);
                bytes.push(2);
                for address in [address, address + 8] {
                    bytes.extend([kind as u8, address, 8, 0, 0, 0, 0, 0, 0, 0, 0]);
                }
                bytes.push(0);
                assert_eq!(check(&bytes), Ok(()), "{lower}, {upper}, {kind:?}");
            }
        }
    }
}

/// All bytes of a value of sixteen are its own: question 9 asks nothing. Of eight bytes and fewer it asks the rest, as before.
#[test]
fn no_spare_bytes() {
    for kind in KINDS {
        for at in 0..MAX_SIZE {
            let mut bytes = entry_record(3, kind, 0, 16, 8);
            bytes[ENTRY + 3 + at] = 255;
            assert_eq!(check(&bytes), Ok(()), "{kind:?}, byte {at}");
        }
        for size in [1, 2, 4, 8] {
            for at in 0..DATA_ITEM {
                let mut bytes = entry_record(3, kind, 0, size, 0);
                bytes[ENTRY + 3 + at] = 255;
                let spare = at >= usize::from(size);
                assert_eq!(check(&bytes).err(), spare.then_some(9), "{kind:?}, {size}");
            }
        }
    }
}

/// A record with entries of both lengths, cut at every length, and each read back.
#[test]
fn every_cut_of_long_and_short_entries() {
    let first = [st16(X, halves(1, 2)), ld(Y, 2), ld16(X, halves(1, 2))];
    let second = [
        semaphore(Kind::SemaphoreAcquire, Z, &[0; 8], &[1; 8]),
        access(Kind::LoadAcquire, Z, &halves(1, 0)),
        access(Kind::StoreRelease, X, &halves(3, 4)),
        rel(Y + 3, 1),
    ];
    let e = programs(&[&first, &second]).pair(0, 2).build();
    let bytes = e.to_bytes();
    assert_eq!(
        bytes.len(),
        1 + 37 + (1 + 19 + 11 + 19) + (1 + 3 * 19 + 11) + 3
    );
    assert_eq!(read(&bytes), Ok(e));
    assert_eq!(check(&bytes), Ok(()));
    for length in 0..bytes.len() {
        assert_eq!(check(&bytes[..length]), Err(1), "{length} bytes");
    }
    let longer = [&bytes[..], &[0]].concat();
    assert_eq!(check(&longer), Err(15));
}

/// Its length; and whatever the processors, and however many instructions have entries of nineteen bytes, none is longer. Such an
/// entry with the fewest operations is a load's, with one: so forty of them have room with eight processors, which have a count
/// each. Semaphores and stores alone reach fewer.
#[test]
fn the_longest_record() {
    let e = longest();
    let bytes = e.to_bytes();
    assert_eq!(check(&bytes), Ok(()));
    assert_eq!(bytes.len(), 923);
    let mut order = vec![0; e.operation_count()];
    let reply = search(&bytes, &mut order, 0, 1_000);
    assert_eq!(reply.answer, SearchAnswer::Allowed);
    assert_eq!(judge(&bytes, &order), LEGAL);
    let mut lengths = Vec::new();
    for processors in 1..=MAX_PROCESSORS {
        for loads in 0..=MAX_INSTRUCTIONS {
            // Of the others some are stores of sixteen bytes or semaphores, the rest have eleven bytes and one operation.
            for stores in 0..=MAX_INSTRUCTIONS - loads {
                let short = MAX_INSTRUCTIONS - loads - stores;
                if loads + stores * (1 + processors) + short > MAX_OPERATIONS {
                    continue;
                }
                let lines = 1 + MAX_LINES * LINE_ITEM;
                let long = (loads + stores) * (INSTRUCTION_ITEM + DATA_ITEM);
                let pairs = 1 + MAX_PAIRS * PAIR_ITEM;
                let length = 1 + lines + processors + long + short * INSTRUCTION_ITEM + pairs;
                lengths.push((length, loads + stores, processors, loads));
            }
        }
    }
    let most = lengths.iter().max().copied().expect("there are some");
    assert_eq!(
        most,
        (923, MAX_INSTRUCTIONS, MAX_PROCESSORS, MAX_INSTRUCTIONS)
    );
    let without_loads = lengths.iter().filter(|(_, _, _, loads)| *loads == 0);
    assert_eq!(without_loads.map(|row| row.0).max(), Some(917));
}

// Overlaps.

/// Of every two accesses of four lines the shared bytes, and whether there are any, by the links of rule 7 in both chain tables.
#[test]
fn shared_bytes_of_every_two_accesses() {
    let all = accesses(4);
    assert_eq!(all.len(), 32 + 16 + 8 + 4 + 2);
    let mut overlapping = 0;
    for &(to, length) in &all {
        for &(from, size) in &all {
            let [first, second] = [(to, length), (from, size)]
                .map(|(at, size)| access(Kind::Store, at as u8, &vec![1; size]));
            let e = programs(&[&[first, second]]).build();
            let expected: BTreeSet<usize> = (to..to + length)
                .filter(|b| (from..from + size).contains(b))
                .collect();
            assert!(e.shared(0, 1).eq(expected.iter().copied()));
            assert!(e.shared(1, 0).eq(expected.iter().copied()));
            assert_eq!(e.overlap(0, 1), !expected.is_empty());
            // LV 0, RV 1; LV 2, RV 3.
            let mut table = [9; 16];
            assert_eq!(chain_table(&e.to_bytes(), &mut table), Ok(()));
            assert_eq!(table[2] == 1, !expected.is_empty(), "{e:?}");
            overlapping += usize::from(!expected.is_empty());
        }
    }
    // Of one size each overlaps itself alone; of two sizes each of the shorter the one that it lies in.
    let counts = [32, 16, 8, 4, 2];
    let expected: usize = (0..5).map(|at| counts[at] * (1 + 2 * (4 - at))).sum();
    assert_eq!(overlapping, expected);
}

/// Links between the two instructions of one program, on WB: rules 5 to 7 where they share a byte of the upper half, and not
/// where they lie beside it.
#[test]
fn data_of_the_upper_half() {
    let linked = |first: Instruction, second: Instruction| {
        let e = programs(&[&[first, second]]).build();
        let (from, to) = (e.read_or_local(0), e.read_or_local(1));
        links(&e).contains(&(from, to))
    };
    let (load, store) = (ld16(X, [0; 16]), st16(X, [0; 16]));
    for within in [X, X + 7, Y, Y + 7] {
        assert!(linked(st(within, 0), load), "rule 5, {within}");
        assert!(linked(store, ld(within, 0)), "rule 5, {within}");
        assert!(linked(load, st(within, 0)), "rule 6, {within}");
        assert!(linked(ld(within, 0), store), "rule 6, {within}");
        assert!(linked(store, st(within, 0)), "rule 7, {within}");
        assert!(linked(st(within, 0), store), "rule 7, {within}");
    }
    for beside in [Z, Z + 7] {
        assert!(!linked(st(beside, 0), load), "rule 5, {beside}");
        assert!(!linked(store, ld(beside, 0)), "rule 5, {beside}");
        assert!(!linked(load, st(beside, 0)), "rule 6, {beside}");
        assert!(!linked(ld(beside, 0), store), "rule 6, {beside}");
        assert!(!linked(store, st(beside, 0)), "rule 7, {beside}");
        assert!(!linked(st(beside, 0), store), "rule 7, {beside}");
    }
    // The one at z has its lower half behind the upper one of the one at x.
    assert!(!linked(store, st16(Z, [0; 16])));
    assert!(!linked(st16(Z, [0; 16]), load));
}

// The rules.

/// Rule 11: the halves by two stores of two other processors, each seen or not; every set of them.
#[test]
fn halves_of_two_stores() {
    for (lower, upper) in [(0, 0), (1, 0), (0, 2), (1, 2), (2, 0), (0, 1), (2, 1)] {
        let draft = programs(&[&[st8(X, 1)], &[st8(Y, 2)], &[ld16(X, halves(lower, upper))]]);
        let allowed = [0, 1].contains(&lower) && [0, 2].contains(&upper);
        for attribute in Attribute::all() {
            let (answer, _) = searched(&draft.clone().all_lines(attribute));
            assert_eq!(answer == SearchAnswer::Allowed, allowed, "{lower}, {upper}");
        }
        // LV 0, RV 1 to 3; LV 4, RV 5 to 7; R 8.
        let rows: [([u8; 9], bool, bool); 4] = [
            ([8, 0, 1, 2, 3, 4, 6, 5, 7], false, false),
            ([0, 1, 2, 3, 8, 4, 6, 5, 7], true, false),
            ([4, 6, 5, 7, 8, 0, 1, 2, 3], false, true),
            ([0, 4, 1, 6, 2, 5, 3, 7, 8], true, true),
        ];
        for (order, first, second) in rows {
            let sees = halves(u8::from(first), 2 * u8::from(second));
            let expected = match sees == halves(lower, upper) {
                true => LEGAL,
                false => breaks(11),
            };
            assert_eq!(judged_on_each(&draft, &order), [expected; 3], "{order:?}");
        }
    }
}

/// One RV makes both halves of a store visible.
#[test]
fn a_store_is_not_torn() {
    for (lower, upper) in [(0, 0), (1, 0), (0, 1), (1, 1)] {
        let draft = programs(&[&[st16(X, halves(1, 1))], &[ld16(X, halves(lower, upper))]]);
        for attribute in Attribute::all() {
            let (answer, _) = searched(&draft.clone().all_lines(attribute));
            assert_eq!(answer == SearchAnswer::Allowed, lower == upper);
        }
    }
}

/// Rule 11: of every byte of a load, that it alone is local, for an own store of it whose RV is missing; the others are those of
/// a store of another processor. Local or not for all bytes alike, other bytes are seen.
#[test]
fn one_byte_is_local() {
    for byte in 0..16 {
        let with = |seen: [u8; MAX_SIZE]| {
            let own = [st(byte, 5), ld16(X, seen)];
            programs(&[&own, &[st16(X, halves(1, 1))]])
        };
        let mut mixed = halves(1, 1);
        mixed[usize::from(byte)] = 5;
        let mut local = halves(0, 0);
        local[usize::from(byte)] = 5;
        // LV 0, RV 1 and 2; R 3; LV 4, RV 5 and 6.
        let pending = [0, 4, 6, 5, 3, 1, 2];
        let each = judged_on_each(&with(mixed), &pending);
        assert_eq!(each, [LEGAL, breaks(14), LEGAL], "byte {byte}");
        for other in [local, halves(1, 1), halves(0, 0)] {
            let each = judged_on_each(&with(other), &pending);
            assert_eq!(each, [breaks(11); 3], "byte {byte}");
        }
        // With both RV before R, the later of them.
        let own_last = [4, 6, 5, 0, 1, 2, 3];
        assert_eq!(judged_on_each(&with(mixed), &own_last), [LEGAL; 3]);
        let other_last = [0, 1, 2, 4, 6, 5, 3];
        assert_eq!(judged_on_each(&with(halves(1, 1)), &other_last), [LEGAL; 3]);
        // Neither RV before R.
        let neither = judged_on_each(&with(local), &[0, 3, 1, 2, 4, 6, 5]);
        assert_eq!(neither, [LEGAL, breaks(14), LEGAL]);
    }
}

/// Rules 9 and 10, with a store in the upper half: on WB and UC.
#[test]
fn coherence() {
    let own = programs(&[&[st16(X, halves(1, 1)), st(Y + 7, 2)]]);
    // LV 0, RV 1; LV 2, RV 3.
    let each = judged_on_each(&own, &[0, 2, 3, 1]);
    assert_eq!(each, [breaks(9), breaks(9), LEGAL]);
    assert_eq!(judged_on_each(&own, &[2, 0, 1, 3])[0], breaks(7));
    let two = programs(&[&[st16(X, halves(1, 1))], &[st(Y + 7, 2)]]);
    // LV 0, RV 1 and 2; LV 3, RV 4 and 5.
    let each = judged_on_each(&two, &[0, 1, 3, 5, 4, 2]);
    assert_eq!(each, [breaks(10), breaks(10), LEGAL]);
    assert_eq!(judged_on_each(&two, &[0, 1, 2, 3, 5, 4]), [LEGAL; 3]);
    // Two of sixteen bytes each, on one block and on two.
    let same = programs(&[&[st16(X, halves(1, 1))], &[st16(X, halves(2, 2))]]);
    let each = judged_on_each(&same, &[0, 1, 3, 5, 4, 2]);
    assert_eq!(each, [breaks(10), breaks(10), LEGAL]);
    let other = programs(&[&[st16(X, halves(1, 1))], &[st16(Z, halves(2, 2))]]);
    assert_eq!(judged_on_each(&other, &[0, 1, 3, 5, 4, 2]), [LEGAL; 3]);
}

/// Rule 12: a release of sixteen bytes on WB.
#[test]
fn release_atomicity() {
    let release = access(Kind::StoreRelease, X, &halves(1, 1));
    let draft = programs(&[&[release], &[ld(Z, 0)]]);
    // LV 0, RV 1 and 2; R 3.
    let each = judged_on_each(&draft, &[0, 1, 3, 2]);
    assert_eq!(each, [breaks(12), LEGAL, LEGAL]);
    let mixed = draft.line(0, uc(1)).line(1, uc(1));
    assert_eq!(judged(&mixed, &[0, 1, 3, 2]), LEGAL);
}

/// Rule 13: the domain of an access is that of its lines, whichever of them another access touches or neither.
#[test]
fn uncacheable_order() {
    for domain in 0..4 {
        for other in 0..4 {
            for later in [ld(Z, 0), ld16(Z, [0; 16]), st16(Z, [0; 16])] {
                let draft = programs(&[&[ld16(X, [0; 16]), later]]);
                let draft = [(0, domain), (1, domain), (2, other), (3, other)]
                    .into_iter()
                    .filter(|&(line, _)| line < 2 || later.lines().contains(&line))
                    .fold(draft, |draft, (line, domain)| draft.line(line, uc(domain)));
                // R 0; R 1, or LV 1 and RV 2.
                let turned: &[u8] = if later.kind.is_store() {
                    &[1, 0, 2]
                } else {
                    &[1, 0]
                };
                let expected = if domain == other { breaks(13) } else { LEGAL };
                assert_eq!(judged(&draft, turned), expected, "{domain}, {other}");
            }
        }
    }
    // On its own lines a load of the upper half is behind one of sixteen bytes.
    let upper = programs(&[&[ld16(X, [0; 16]), ld(Y + 7, 0)]]);
    assert_eq!(judged_on_each(&upper, &[1, 0]), [LEGAL, breaks(13), LEGAL]);
}

/// Rule 14: of every byte of a store of sixteen, a load of it; and the load of sixteen over a store of each byte.
#[test]
fn no_bypass() {
    for byte in 0..16 {
        let mut seen = [0; MAX_SIZE];
        seen[usize::from(byte)] = 1;
        let short_load = programs(&[&[st16(X, halves(1, 1)), ld(byte, 1)]]);
        let short_store = programs(&[&[st(byte, 1), ld16(X, seen)]]);
        for draft in [short_load, short_store] {
            // LV 0, RV 1; R 2.
            let each = judged_on_each(&draft, &[0, 2, 1]);
            assert_eq!(each, [LEGAL, breaks(14), LEGAL], "byte {byte}");
            assert_eq!(judged_on_each(&draft, &[0, 1, 2]), [LEGAL; 3]);
        }
    }
    let beside = programs(&[&[st16(X, halves(1, 1)), ld(Z, 0)]]);
    assert_eq!(judged_on_each(&beside, &[0, 2, 1]), [LEGAL; 3]);
}

/// Rule 16: a semaphore of every place and size, and a store of sixteen bytes of another processor and of its own (lemma 1).
#[test]
fn nothing_between_read_and_write() {
    for kind in [Kind::SemaphoreAcquire, Kind::SemaphoreRelease] {
        for (address, size) in accesses(4).into_iter().filter(|access| access.1 <= 8) {
            let overlaps = address < 16;
            let seen = |byte: u8| semaphore(kind, address as u8, &vec![byte; size], &vec![2; size]);
            // R 0, LV 1, RV 2 and 3; LV 4, RV 5 and 6.
            let other = programs(&[&[seen(0)], &[st16(X, halves(1, 1))]]);
            let between = if overlaps { breaks(16) } else { LEGAL };
            assert_eq!(judged(&other, &[0, 4, 6, 5, 1, 2, 3]), between, "{address}");
            assert_eq!(judged(&other, &[0, 1, 2, 3, 4, 6, 5]), LEGAL, "{address}");
            // LV 0, RV 1; R 2, LV 3, RV 4. A releasing one has rule 3 besides.
            let own = programs(&[&[st16(X, halves(1, 1)), seen(overlaps.into())]]);
            let local = match overlaps {
                true => breaks(16),
                false => LEGAL,
            };
            assert_eq!(judged(&own, &[0, 2, 1, 3, 4]), local, "{address}");
            assert_eq!(judged(&own, &[0, 1, 2, 3, 4]), LEGAL, "{address}");
        }
    }
}

// Generated records.

/// Whether some load of sixteen bytes saw a byte of each half from a store, and of two different ones.
fn sees_two_stores(e: &Execution) -> bool {
    let source = |load: usize, half: usize| -> Vec<usize> {
        let i = &e.instructions[load];
        let bytes = i.addresses().filter(|b| b % MAX_SIZE / LINE_SIZE == half);
        let seen: Vec<usize> = bytes.filter(|&b| i.byte_seen(b) != e.initial(b)).collect();
        let wrote = |w: usize, b: usize| {
            let store = &e.instructions[w];
            store.covers(b) && store.byte_written(b) == i.byte_seen(b)
        };
        let stores = e.stores().filter(|&w| w != load);
        let all = |&w: &usize| !seen.is_empty() && seen.iter().all(|&b| wrote(w, b));
        stores.filter(all).collect()
    };
    let mut long = e.loads().filter(|&load| e.instructions[load].size == 16);
    long.any(|load| {
        let [lower, upper] = [0, 1].map(|half| source(load, half));
        let both = lower.iter().any(|w| upper.contains(w));
        !lower.is_empty() && !upper.is_empty() && !both
    })
}

/// How many accesses of sixteen bytes.
fn long_accesses(e: &Execution) -> usize {
    e.instructions.iter().filter(|i| i.size == 16).count()
}

/// Of every shape: records with them and without, on lines of every attribute, loads that overlap two stores in their halves, and
/// semaphores beside them.
#[test]
fn generated_records_have_them() {
    let mut random = Random::new(71);
    for shape in Shape::ALL {
        let (mut with, mut without, mut with_semaphore, mut of_two) = (0, 0, 0, 0);
        let mut attributes = BTreeSet::new();
        let mut kinds = BTreeSet::new();
        for _ in 0..2000 {
            let e = execution(&mut random, &shape);
            let long = e
                .instructions
                .iter()
                .enumerate()
                .filter(|(_, i)| i.size == 16);
            kinds.extend(long.clone().map(|(_, i)| i.kind as u8));
            attributes.extend(long.map(|(number, _)| e.attribute(number).byte()));
            let some = long_accesses(&e) > 0;
            with += usize::from(some);
            without += usize::from(!some && !e.instructions.is_empty());
            let overlaps = |s: usize| {
                let mut stores = e.stores();
                stores.any(|w| e.instructions[w].size == 16 && e.overlap(w, s))
            };
            with_semaphore += usize::from(e.semaphores().any(overlaps));
            of_two += usize::from(sees_two_stores(&e));
        }
        let counts = [with, without, with_semaphore, of_two];
        assert!(kinds.into_iter().eq(0..4), "{shape:?}");
        assert!(attributes.into_iter().eq(ATTRIBUTES), "{shape:?}");
        assert!(with > 200 && without > 800, "{shape:?}: {counts:?}");
        let room = shape.operations >= 16;
        assert!(
            !room || with_semaphore > 40 && of_two > 20,
            "{shape:?}: {counts:?}"
        );
    }
}

/// What was counted over generated records.
#[derive(Default, Debug)]
struct Tally {
    searched: Searched,
    counted: usize,
    /// Of the allowed ones, those with a load whose halves are of two stores.
    of_two: usize,
    /// Orders by the lowest rule that they break, the legal ones at 0.
    judged: [usize; 17],
    /// Semaphores that a store of sixteen bytes overlaps, in legal orders.
    beside_sixteen: usize,
}

impl Tally {
    fn count(&mut self, e: &Execution, answers: &Answers) {
        self.searched.count(answers);
        let allowed = answers.answer() == SearchAnswer::Allowed;
        self.of_two += usize::from(allowed && sees_two_stores(e));
        for &judged in &answers.judged {
            match judged {
                LEGAL => self.judged[0] += 1,
                JudgeAnswer::Breaks(rule) => self.judged[usize::from(rule)] += 1,
                JudgeAnswer::Refused(question) => panic!("question {question}"),
            }
        }
    }

    /// The note's lemma 1 in a legal order: no semaphore is local for a byte that it reads.
    fn lemma_1(&mut self, e: &Execution, order: &[u8]) {
        for s in e.semaphores() {
            assert!(!is_local(e, order, s), "{e:?}: {order:?}");
            let mut stores = e.stores().filter(|&w| e.overlap(w, s));
            let long = stores.any(|w| e.instructions[w].size == 16);
            self.beside_sixteen += usize::from(long);
        }
    }
}

/// All calls on records of all sizes, the proved ones beside the reference, the search beside the brute force and the count over
/// sets; and lemma 1 on every legal order that is found.
#[test]
fn all_calls_and_lemma_1() {
    let mut random = Random::new(72);
    let mut tally = Tally::default();
    for round in 0..3000 {
        let e = with_sixteen(&mut random, &Shape::ALL[round % 3]);
        if long_accesses(&e) == 0 {
            continue;
        }
        let answers = answers(&e, random.next_u64());
        tally.count(&e, &answers);
        if let Some(found) = answers.found() {
            assert_eq!(judge(&e.to_bytes(), found), LEGAL);
            tally.lemma_1(&e, found);
        }
        if e.operation_count() > Shape::SMALL.operations {
            continue;
        }
        search_from_start(&e, 40);
        tally.counted += usize::from(count_agrees(&e, &answers));
    }
    println!("{tally:?}");
    assert!(
        tally.searched.allowed > 300 && tally.searched.forbidden > 300,
        "{tally:?}"
    );
    assert!(
        tally.searched.unfinished > 100 && tally.counted > 500,
        "{tally:?}"
    );
    assert!(tally.of_two > 20 && tally.beside_sixteen > 40, "{tally:?}");
    let rules = tally.judged.iter().filter(|&&count| count > 10).count();
    assert!(rules > 12, "{tally:?}");
}

/// The verdict program on generated records.
#[test]
fn verdicts() {
    let mut random = Random::new(73);
    let mut words = BTreeSet::new();
    for _ in 0..60 {
        let e = with_sixteen(&mut random, &Shape::TINY);
        let printed = verdict(&e.to_bytes());
        words.extend(printed.split_whitespace().next().map(str::to_string));
    }
    assert!(words.into_iter().eq(["allowed", "forbidden"]));
}

/// The execution with a line more where their number is odd, so that all blocks of sixteen bytes are whole.
fn with_whole_blocks(e: &Execution) -> Execution {
    let mut whole = e.clone();
    if whole.lines.len() % 2 == 1 {
        let initial = [0; LINE_SIZE];
        let attribute = Attribute::WriteBack;
        whole.lines.push(Line { attribute, initial });
    }
    whole
}

/// The same execution with the two lines of each block of sixteen bytes exchanged, and the halves of what lies on both.
fn exchanged(e: &Execution) -> Execution {
    let mut other = e.clone();
    for block in other.lines.chunks_mut(2) {
        block.reverse();
    }
    for access in other.instructions.iter_mut() {
        if access.size == 16 {
            access.seen.rotate_left(LINE_SIZE);
            access.written.rotate_left(LINE_SIZE);
        } else if access.kind != Kind::Fence {
            access.address ^= LINE_SIZE as u8;
        }
    }
    other
}

/// Nothing tells the lower half from the upper one: with all of them exchanged every answer is the same.
#[test]
fn halves_exchanged() {
    let mut random = Random::new(74);
    let mut tally = Tally::default();
    for round in 0..1500 {
        let e = with_whole_blocks(&with_sixteen(&mut random, &Shape::ALL[round % 3]));
        let seed = random.next_u64();
        let expected = answers(&e, seed);
        assert_eq!(answers(&exchanged(&e), seed), expected, "{e:?}");
        tally.count(&e, &expected);
    }
    assert!(
        tally.searched.allowed > 200 && tally.searched.forbidden > 200,
        "{tally:?}"
    );
}

/// Each byte twice.
fn doubled<const LENGTH: usize>(bytes: &[u8]) -> [u8; LENGTH] {
    std::array::from_fn(|at| bytes[at / 2])
}

/// The same execution with every access twice as long, at twice its address: of each byte there are two, side by side.
fn twice_as_long(e: &Execution) -> Execution {
    let halves = |line: &Line| {
        let bytes: [u8; MAX_SIZE] = doubled(&line.initial);
        bytes.as_chunks().0.to_vec()
    };
    let mut lines = Vec::new();
    for line in &e.lines {
        let attribute = line.attribute;
        lines.extend(
            halves(line)
                .into_iter()
                .map(|initial| Line { attribute, initial }),
        );
    }
    let mut instructions = e.instructions.clone();
    for access in instructions.iter_mut() {
        access.address *= 2;
        access.size *= 2;
        access.seen = doubled(&access.seen);
        access.written = doubled(&access.written);
    }
    Execution::new(e.processors, lines, instructions, e.pairs.clone())
}

/// What is said of accesses of 1, 2, 4 and 8 bytes is said of 2, 4, 8 and 16: the rules ask which bytes are shared, not how many.
#[test]
fn every_access_twice_as_long() {
    let mut random = Random::new(75);
    let mut tally = Tally::default();
    let shape = Shape {
        lines: 4,
        ..Shape::LARGE
    };
    let mut long = 0;
    for round in 0..1500 {
        let shape = [Shape::TINY, Shape::SMALL, shape][round % 3];
        let e = without_semaphores(&mut random, &shape);
        let twice = twice_as_long(&e);
        long += long_accesses(&twice);
        let seed = random.next_u64();
        let expected = answers(&e, seed);
        assert_eq!(answers(&twice, seed), expected, "{e:?}");
        tally.count(&e, &expected);
    }
    assert!(
        tally.searched.allowed > 200 && tally.searched.forbidden > 200,
        "{tally:?}"
    );
    assert!(long > 1000, "{long} accesses of sixteen bytes");
}

/// An access of sixteen bytes is one of eight where nobody else touches its other half: a load that saw the initial bytes there,
/// and a store.
#[test]
fn a_half_that_no_other_access_touches() {
    let mut random = Random::new(76);
    let mut tally = Tally::default();
    let (mut lower, mut upper) = (0, 0);
    for round in 0..6000 {
        let e = with_sixteen(&mut random, &Shape::ALL[round % 3]);
        let mut short = e.clone();
        for (number, long) in e.instructions.iter().enumerate() {
            let start = usize::from(long.address);
            let touched = |half: usize| {
                let bytes = start + 8 * half..start + 8 * half + 8;
                let mut others = (0..e.instructions.len()).filter(|&i| i != number);
                let seen = |b: usize| long.byte_seen(b) != e.initial(b);
                others.any(|i| bytes.clone().any(|b| short.instructions[i].covers(b)))
                    || long.kind.is_load() && bytes.clone().any(seen)
            };
            if long.size != 16 || touched(0) && touched(1) {
                continue;
            }
            let kept = if touched(1) { 1 } else { 0 };
            let value = |bytes: [u8; MAX_SIZE]| -> Vec<u8> { bytes[8 * kept..8 * kept + 8].into() };
            let bytes = match long.kind.is_load() {
                true => value(long.seen),
                false => value(long.written),
            };
            short.instructions[number] = Instruction {
                processor: long.processor,
                ..access(long.kind, long.address + 8 * kept as u8, &bytes)
            };
            lower += usize::from(kept == 0);
            upper += usize::from(kept == 1);
        }
        if short == e {
            continue;
        }
        let seed = random.next_u64();
        let expected = answers(&e, seed);
        assert_eq!(answers(&short, seed), expected, "{e:?}, then {short:?}");
        tally.count(&e, &expected);
    }
    println!("{tally:?}, {lower} lower, {upper} upper halves");
    assert!(
        tally.searched.allowed > 100 && tally.searched.forbidden > 30,
        "{tally:?}"
    );
    assert!(lower > 100 && upper > 20, "{lower}, {upper}");
}

/// Initial bytes that no load reads (P4), on both lines of an access of sixteen bytes and under its store.
#[test]
fn initial_bytes_that_no_load_reads() {
    let mut random = Random::new(77);
    let mut tally = Tally::default();
    let mut both = 0;
    for round in 0..1500 {
        let e = with_sixteen(&mut random, &Shape::ALL[round % 3]);
        let mut other = e.clone();
        let read = |b: usize| e.loads().any(|load| e.instructions[load].covers(b));
        let mut changed = BTreeSet::new();
        for b in (0..e.lines.len() * LINE_SIZE).filter(|&b| !read(b)) {
            other.lines[b / LINE_SIZE].initial[b % LINE_SIZE] ^= random.between(1, 255) as u8;
            changed.insert(b / LINE_SIZE);
        }
        let long = e.instructions.iter().filter(|i| i.size == 16);
        let on_both = |i: &Instruction| i.lines().all(|line| changed.contains(&line));
        both += long.filter(|i| on_both(i)).count();
        let seed = random.next_u64();
        let expected = answers(&e, seed);
        assert_eq!(answers(&other, seed), expected, "{e:?}");
        tally.count(&e, &expected);
    }
    assert!(
        tally.searched.allowed > 200 && tally.searched.forbidden > 200,
        "{tally:?}"
    );
    assert!(both > 50, "{both} accesses with both lines changed");
}

/// One initial byte that a load of sixteen bytes reads: the prefixes that do not have its R break the same rule, or none.
#[test]
fn initial_bytes_that_are_read_later() {
    let mut random = Random::new(78);
    let (mut same, mut differ) = (0, 0);
    for _ in 0..400 {
        let e = with_sixteen(&mut random, &Shape::SMALL);
        let Some(load) = e.loads().find(|&load| e.instructions[load].size == 16) else {
            continue;
        };
        let b = e.instructions[load].addresses().start + random.below(16);
        let mut other = e.clone();
        other.lines[b / LINE_SIZE].initial[b % LINE_SIZE] ^= 128;
        let prefix = consistent_prefix(&mut random, &e);
        let reads = |&entry: &u8| {
            let operation = e.operations[usize::from(entry)];
            let i = &e.instructions[operation.instruction];
            e.read_or_local(operation.instruction) == usize::from(entry)
                && i.kind.is_load()
                && i.covers(b)
        };
        let broken = lowest_broken(&other, &prefix);
        if prefix.iter().any(reads) {
            assert!(broken.is_none() || broken == Some(11), "{e:?}");
            differ += usize::from(broken.is_some());
        } else {
            assert_eq!(broken, None, "{e:?}: {prefix:?}");
            same += 1;
        }
    }
    assert!(same > 30 && differ > 10, "{same}, {differ}");
}
