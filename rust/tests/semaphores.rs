//! Semaphores (document 02, P3): their entry, questions, operations and rules by hand, the note's lemma 1, and generated records.

use oglindesh::answers::{answers, count_agrees, is_local, Searched};
use oglindesh::beside::{
    chain_table, check, judge, proved_operation_count, search, search_from_start, verdict,
};
use oglindesh::generate::{every_order, execution, with_semaphores, Shape, ATTRIBUTES};
use oglindesh::random::Random;
use oglindesh::reference::notation::{
    acq, ld, mf, programs, rel, sem_acq, sem_rel, semaphore, st, Draft, X, Y,
};
use oglindesh::reference::record::{
    read, Execution, Instruction, Kind, Role, INSTRUCTION_ITEM, MAX_INSTRUCTIONS, MAX_LINES,
    MAX_OPERATIONS, MAX_PROCESSORS,
};
use oglindesh::reference::rules::{links, lowest_broken, JudgeAnswer};
use oglindesh::reference::search::SearchAnswer;
use std::collections::BTreeSet;

/// Both kinds of semaphores.
const KINDS: [Kind; 2] = [Kind::SemaphoreAcquire, Kind::SemaphoreRelease];

fn judged(draft: &Draft, order: &[u8]) -> JudgeAnswer {
    judge(&draft.clone().build().to_bytes(), order)
}

fn broken_by(draft: &Draft, prefix: &[u8]) -> Option<u8> {
    lowest_broken(&draft.clone().build(), prefix)
}

/// What the search from the start says, and after how many steps; by the brute force too.
fn searched(draft: &Draft) -> (SearchAnswer, u32) {
    let (reply, _) = search_from_start(&draft.clone().build(), 100_000);
    (reply.answer, reply.steps)
}

// The entry and its questions.

/// One processor, one WB line with 3 in its first byte, sem.acq of two bytes that saw 3 0 and wrote 1 2. Written out.
#[rustfmt::skip]
const RECORD: [u8; 32] = [
    1,
    1,
    0, 3, 0, 0, 0, 0, 0, 0, 0,
    1,
    5, 0, 2, 3, 0, 0, 0, 0, 0, 0, 0, 1, 2, 0, 0, 0, 0, 0, 0,
    0,
];

/// Where the attribute of its line stands, and where its entry begins and ends.
const ATTRIBUTE: usize = 2;
const ENTRY: usize = 12;
const END: usize = ENTRY + 19;

#[test]
fn an_entry_has_nineteen_bytes() {
    let saw_and_wrote = semaphore(Kind::SemaphoreAcquire, X, &[3, 0], &[1, 2]);
    let e = programs(&[&[saw_and_wrote]]).initial(X, 3).build();
    assert_eq!(e.to_bytes(), RECORD);
    assert_eq!(read(&RECORD).as_ref(), Ok(&e));
    assert_eq!(verdict(&RECORD), "allowed 0 1 2\nsteps 3\n");
    // The value seen stands first: with the two exchanged nothing is seen that was there.
    let mut exchanged = RECORD;
    exchanged[ENTRY + 3..END].rotate_left(8);
    assert_eq!(verdict(&exchanged), "forbidden\nsteps 0\n");
}

#[test]
fn operations() {
    for kind in KINDS {
        for processors in 1..=MAX_PROCESSORS {
            let mut expected = vec![Role::Read, Role::Local];
            expected.extend((0..processors).map(Role::Remote));
            assert_eq!(kind.roles(processors), expected);
        }
    }
}

/// Faults of an entry, by the question that each fails, in the order in which they are asked. The address stays within the line.
const FAULTS: [(u8, &[(usize, u8)]); 6] = [
    (6, &[(ENTRY, 7)]),
    (7, &[(ENTRY + 2, 16)]),
    (8, &[(ENTRY + 1, 1)]),
    (26, &[(ATTRIBUTE, 1)]),
    (9, &[(ENTRY + 3 + 2, 1)]),
    (9, &[(ENTRY + 11 + 7, 1)]),
];

/// Every set of faults, cut at every length: 1 of eleven bytes, 6, 7, 1 of the other eight, 8, 26, 9.
#[test]
fn order_of_the_questions() {
    let mut reached = BTreeSet::new();
    for set in 0..1 << FAULTS.len() {
        let chosen = (0..FAULTS.len()).filter(|fault| set >> fault & 1 == 1);
        let chosen: Vec<_> = chosen.map(|fault| FAULTS[fault]).collect();
        let mut bytes = RECORD;
        for &(at, value) in chosen.iter().flat_map(|(_, changes)| changes.iter()) {
            bytes[at] = value;
        }
        let first = |from: &[u8]| {
            let mut questions = chosen.iter().map(|&(question, _)| question);
            questions.find(|question| from.contains(question))
        };
        for length in 0..=RECORD.len() {
            let cut = |end: usize| (length < end).then_some(1);
            let expected = cut(ENTRY + INSTRUCTION_ITEM)
                .or(first(&[6, 7]))
                .or(cut(END))
                .or(first(&[8, 26, 9]))
                .or(cut(RECORD.len()));
            assert_eq!(check(&bytes[..length]).err(), expected, "{chosen:?}");
            reached.extend(expected);
        }
    }
    assert!(reached.into_iter().eq([1, 6, 7, 8, 9, 26]));
}

/// Questions 7 and 9 of a semaphore, for every size: a spare byte in either value.
#[test]
fn sizes_and_spare_bytes() {
    for size in 0..=u8::MAX {
        let mut bytes = RECORD;
        bytes[ENTRY + 2] = size;
        bytes[ENTRY + 3..END].fill(0);
        let good = [1, 2, 4, 8].contains(&size);
        assert_eq!(check(&bytes).err(), (!good).then_some(7), "size {size}");
        if !good {
            continue;
        }
        for at in 0..16 {
            let mut changed = bytes;
            changed[ENTRY + 3 + at] = 1;
            let spare = at % 8 >= usize::from(size);
            let refused = check(&changed).err();
            assert_eq!(refused, spare.then_some(9), "size {size}, byte {at}");
        }
    }
}

/// A semaphore on lines of every attribute, whichever line it is, and all other kinds there.
#[test]
fn attributes() {
    for attribute in ATTRIBUTES {
        for kind in Kind::ALL {
            for line in 0..MAX_LINES {
                let mut bytes = vec![1, MAX_LINES as u8];
                for other in 0..MAX_LINES {
                    // All others are what this line is not.
                    let here = other == line;
                    let write_back = (attribute == 0) == here;
                    bytes.push(if write_back { 0 } else { attribute.max(1) });
                    bytes.extend([0; 8]);
                }
                let fence = kind == Kind::Fence;
                let address = if fence { 0 } else { 8 * line as u8 };
                bytes.extend([1, kind as u8, address, u8::from(!fence)]);
                bytes.extend(vec![0; if kind.is_semaphore() { 16 } else { 8 }]);
                bytes.push(0);
                let refused = kind.is_semaphore() && attribute != 0;
                let expected = refused.then_some(26);
                assert_eq!(check(&bytes).err(), expected, "{attribute}, {kind:?}");
            }
        }
    }
}

/// An access of this kind at an address.
fn instruction(kind: Kind, address: u8) -> Instruction {
    match kind {
        Kind::Load => ld(address, 0),
        Kind::LoadAcquire => acq(address, 0),
        Kind::Store => st(address, 0),
        Kind::StoreRelease => rel(address, 0),
        Kind::Fence => mf(),
        Kind::SemaphoreAcquire | Kind::SemaphoreRelease => semaphore(kind, address, &[0], &[0]),
    }
}

/// Question 13 of every pair of kinds: two stores fail it, where neither is a semaphore; so does an mf.
#[test]
fn pairs() {
    let mut passed = 0;
    for first in Kind::ALL {
        for second in Kind::ALL {
            let draft = programs(&[&[instruction(first, X), instruction(second, Y)]]);
            let stores = [Kind::Store, Kind::StoreRelease];
            let both_stores = stores.contains(&first) && stores.contains(&second);
            let refused = both_stores || [first, second].contains(&Kind::Fence);
            let bytes = draft.pair(0, 1).build().to_bytes();
            let answer = check(&bytes).err();
            assert_eq!(answer, refused.then_some(13), "{first:?}, {second:?}");
            passed += usize::from(!refused);
        }
    }
    assert_eq!(passed, 36 - 4);
}

/// 2 + P operations each: as many as question 11 passes, and one more.
#[test]
fn how_many_fit() {
    for kind in KINDS {
        for processors in 1..=MAX_PROCESSORS {
            let most = MAX_OPERATIONS / (2 + processors);
            let record = |semaphores: usize| {
                let mut all = vec![Vec::new(); processors];
                all[processors - 1] = vec![instruction(kind, X); semaphores];
                let all: Vec<&[Instruction]> = all.iter().map(Vec::as_slice).collect();
                programs(&all).build().to_bytes()
            };
            let fitting = most.min(MAX_INSTRUCTIONS);
            assert_eq!(check(&record(fitting)), Ok(()));
            let operations = proved_operation_count(&record(fitting));
            assert_eq!(operations, fitting * (2 + processors));
            let refused = if most < MAX_INSTRUCTIONS { 11 } else { 5 };
            assert_eq!(check(&record(fitting + 1)), Err(refused));
        }
    }
}

// The rules.

/// Both see the lock free.
#[test]
fn a_lock_taken_twice() {
    for kind in KINDS {
        let take = semaphore(kind, X, &[0], &[1]);
        let twice = programs(&[&[take], &[take]]);
        let (answer, steps) = searched(&twice);
        assert_eq!(answer, SearchAnswer::Forbidden);
        // Worked by hand, of two kind 5.
        assert!(kind != Kind::SemaphoreAcquire || steps == 50, "{steps}");
        let one = programs(&[&[take], &[semaphore(kind, X, &[1], &[1])]]);
        assert_eq!(searched(&one), (SearchAnswer::Allowed, 8));
    }
}

/// Every order of two semaphores by two processors, of every mix of kinds, by both judges; and which rules are broken first.
#[test]
fn every_order_of_two_semaphores() {
    let orders = every_order(8);
    assert_eq!(orders.len(), 40_320);
    let mixes = KINDS.map(|first| KINDS.map(|second| [first, second]));
    // What the second one sees, and the rules; 0 for a legal order. Where both see 0 there is none.
    let rows: [(u8, &[u8]); 2] = [(0, &[1, 10, 11, 16]), (1, &[0, 1, 10, 11, 15])];
    for [first, second] in mixes.into_iter().flatten() {
        for (seen, rules) in rows {
            let programs = programs(&[
                &[semaphore(first, X, &[0], &[1])],
                &[semaphore(second, X, &[seen], &[2])],
            ]);
            let mut broken = BTreeSet::new();
            for order in &orders {
                broken.insert(match judged(&programs, order) {
                    JudgeAnswer::Legal => 0,
                    JudgeAnswer::Breaks(rule) => rule,
                    JudgeAnswer::Refused(question) => panic!("question {question}"),
                });
            }
            // Where the second one sees the first, what stands between the first one's RV breaks a lower rule.
            let parted = second.releases() || first.releases() && seen == 0;
            let mut expected: BTreeSet<u8> = rules.iter().copied().collect();
            expected.extend(parted.then_some(12));
            assert_eq!(broken, expected, "{first:?}, {second:?} sees {seen}");
        }
    }
}

/// Rule 15 alone: what R sees behind its own LV is what was recorded. Else it is rule 11 that breaks first.
#[test]
fn read_before_write() {
    for kind in KINDS {
        let own = programs(&[&[semaphore(kind, X, &[1], &[1])]]);
        assert_eq!(judged(&own, &[1, 0, 2]), JudgeAnswer::Breaks(15));
        assert_eq!(broken_by(&own, &[1]), Some(15));
        assert_eq!(searched(&own), (SearchAnswer::Forbidden, 0));
        let initial = own.initial(X, 1);
        assert_eq!(judged(&initial, &[1, 0, 2]), JudgeAnswer::Breaks(15));
        assert_eq!(judged(&initial, &[1, 2, 0]), JudgeAnswer::Breaks(15));
        assert_eq!(judged(&initial, &[0, 1, 2]), JudgeAnswer::Legal);
        let other = programs(&[&[semaphore(kind, X, &[0], &[1])]]);
        assert_eq!(judged(&other, &[1, 0, 2]), JudgeAnswer::Breaks(11));
        assert_eq!(judged(&other, &[0, 1, 2]), JudgeAnswer::Legal);
    }
}

/// Rule 16 alone: RV of another store stands between R and RV, at the semaphore's own processor.
#[test]
fn nothing_between_read_and_write() {
    for kind in KINDS {
        // R 0, LV 1, RV 2 and 3 of the semaphore; LV 4, RV 5 and 6 of the store.
        let sees = |seen: u8| programs(&[&[semaphore(kind, X, &[seen], &[2])], &[st(X, 1)]]);
        let old = sees(0);
        assert_eq!(
            judged(&old, &[0, 4, 6, 5, 1, 2, 3]),
            JudgeAnswer::Breaks(16)
        );
        assert_eq!(
            judged(&old, &[0, 1, 4, 6, 5, 2, 3]),
            JudgeAnswer::Breaks(16)
        );
        assert_eq!(broken_by(&old, &[0, 4, 6]), None);
        assert_eq!(broken_by(&old, &[0, 4, 6, 5]), Some(16));
        // Before R, which then sees it, and behind RV.
        assert_eq!(judged(&sees(1), &[4, 6, 5, 0, 1, 2, 3]), JudgeAnswer::Legal);
        assert_eq!(judged(&old, &[0, 1, 2, 3, 4, 6, 5]), JudgeAnswer::Legal);
        assert_eq!(judged(&old, &[4, 0, 1, 2, 3, 6, 5]), JudgeAnswer::Legal);
        // A store beside it may stand there.
        let beside = programs(&[&[semaphore(kind, X, &[0], &[2])], &[st(X + 1, 1)]]);
        assert_eq!(judged(&beside, &[0, 4, 6, 5, 1, 2, 3]), JudgeAnswer::Legal);
        // One that shares a byte may not.
        let wide = semaphore(kind, X, &[0, 0], &[2, 2]);
        let shared = programs(&[&[wide], &[st(X + 1, 1)]]);
        let order = [0, 4, 6, 5, 1, 2, 3];
        assert_eq!(judged(&shared, &order), JudgeAnswer::Breaks(16));
    }
}

/// Rule 16 is about RV_p of p's semaphore: the store may come to stand elsewhere meanwhile.
#[test]
fn elsewhere_between_read_and_write() {
    for kind in KINDS {
        // R 0, LV 1, RV 2 to 4; LV 5, RV 6 to 8. Processor 2 is told of the store last.
        let draft = programs(&[&[semaphore(kind, X, &[1], &[2])], &[st(X, 1)], &[]]);
        let order = [5, 7, 6, 0, 8, 1, 2, 3, 4];
        assert_eq!(judged(&draft, &order), JudgeAnswer::Legal);
    }
}

/// Rule 16 of own stores: the semaphore would be local (lemma 1). And of another semaphore.
#[test]
fn own_stores_and_other_semaphores_between() {
    for kind in KINDS {
        // LV 0, RV 1 of the store; R 2, LV 3, RV 4 of the semaphore. A releasing one has rule 3 besides.
        let own = programs(&[&[st(X, 1), semaphore(kind, X, &[1], &[2])]]);
        assert_eq!(judged(&own, &[0, 1, 2, 3, 4]), JudgeAnswer::Legal);
        assert_eq!(judged(&own, &[0, 2, 1, 3, 4]), JudgeAnswer::Breaks(16));
        assert_eq!(judged(&own, &[0, 2, 3, 1, 4]), JudgeAnswer::Breaks(16));
        let both = programs(&[
            &[semaphore(kind, X, &[0], &[1])],
            &[semaphore(kind, X, &[0], &[1])],
        ]);
        let order = [0, 4, 1, 2, 3, 5, 7, 6];
        assert_eq!(judged(&both, &order), JudgeAnswer::Breaks(16));
    }
}

/// The links between the two instructions of the first program, as (operation of the earlier, operation of the later), each
/// counted from its own instruction's first. The chain tables have a mark for each.
fn links_of(draft: Draft) -> BTreeSet<(usize, usize)> {
    let e = draft.build();
    let (first, count) = (e.operations_of(1).start, e.operation_count());
    let mut table = vec![9; count * count];
    assert_eq!(chain_table(&e.to_bytes(), &mut table), Ok(()));
    let mut between = links(&e);
    between.retain(|&(a, b)| a < first && b >= first);
    let marked = |&(a, b): &(usize, usize)| table[a * count + b] == 1;
    assert!(between.iter().all(marked), "{e:?}");
    between.into_iter().map(|(a, b)| (a, b - first)).collect()
}

/// Those of two instructions in this order, with two processors.
fn links_between(earlier: Instruction, later: Instruction) -> BTreeSet<(usize, usize)> {
    links_of(programs(&[&[earlier, later], &[]]))
}

/// Every operation of the later one, behind this one of the earlier.
fn from(operation: usize, count: usize) -> BTreeSet<(usize, usize)> {
    (0..count).map(|later| (operation, later)).collect()
}

/// Rules 2 to 4 by hand. With two processors a load has 1 operation, a store 3 (LV, RV, RV), a semaphore 4 (R, LV, RV, RV).
#[test]
fn program_order() {
    let (load, store) = (ld(Y, 0), st(Y, 1));
    let (acquiring, releasing) = (sem_acq(X, 0, 1), sem_rel(X, 0, 1));
    let (later_acquiring, later_releasing) = (sem_acq(Y, 0, 1), sem_rel(Y, 0, 1));
    // Rule 2: by R alone, before every operation.
    assert_eq!(links_between(acquiring, load), from(0, 1));
    assert_eq!(links_between(acquiring, acq(Y, 0)), from(0, 1));
    assert_eq!(links_between(acquiring, store), from(0, 3));
    assert_eq!(links_between(acquiring, later_acquiring), from(0, 4));
    assert_eq!(links_between(acq(X, 0), later_acquiring), from(0, 4));
    // Kind 6 holds nothing back, and kind 5 waits for no store nor load.
    let none = BTreeSet::new();
    for later in [load, acq(Y, 0), store, later_acquiring] {
        assert_eq!(links_between(releasing, later), none);
    }
    for earlier in [ld(X, 0), st(X, 1), rel(X, 1), releasing] {
        assert_eq!(links_between(earlier, later_acquiring), none);
    }
    // Rule 3: R before every operation, LV before LV, RV before RV.
    assert_eq!(links_between(ld(X, 0), later_releasing), from(0, 4));
    assert_eq!(links_between(acq(X, 0), later_releasing), from(0, 4));
    let stores = BTreeSet::from([(0, 1), (1, 2), (2, 3)]);
    assert_eq!(links_between(st(X, 1), later_releasing), stores);
    assert_eq!(links_between(rel(X, 1), later_releasing), stores);
    let mut both = from(0, 4);
    both.extend([(1, 1), (2, 2), (3, 3)]);
    assert_eq!(links_between(releasing, later_releasing), both);
    assert_eq!(links_between(acquiring, later_releasing), both);
    let mut to_store = from(0, 3);
    to_store.extend([(1, 0), (2, 1), (3, 2)]);
    assert_eq!(links_between(releasing, rel(Y, 1)), to_store);
    assert_eq!(links_between(acquiring, rel(Y, 1)), to_store);
    // Rule 4: every operation.
    for kind in KINDS {
        let (earlier, later) = (instruction(kind, X), instruction(kind, Y));
        let to_fence: BTreeSet<_> = (0..4).map(|operation| (operation, 0)).collect();
        assert_eq!(links_between(earlier, mf()), to_fence);
        assert_eq!(links_between(mf(), later), from(0, 4));
    }
}

/// The order of rule 3 that was worked by hand.
#[test]
fn two_releasing_semaphores() {
    let two = programs(&[&[sem_rel(X, 0, 1), sem_rel(Y, 0, 1)]]);
    assert_eq!(judged(&two, &[3, 0, 1, 2, 4, 5]), JudgeAnswer::Breaks(3));
    assert_eq!(judged(&two, &[0, 3, 1, 4, 2, 5]), JudgeAnswer::Legal);
}

/// Rules 5 to 7 between a semaphore and another access of its place, and not within it. Kinds that rules 2 and 3 leave free.
#[test]
fn data_of_one_place() {
    let (acquiring, releasing) = (sem_acq(X, 0, 1), sem_rel(X, 0, 1));
    // Rule 5; with a store before it, rules 5 and 7.
    assert_eq!(links_between(releasing, ld(X, 1)), BTreeSet::from([(1, 0)]));
    assert_eq!(
        links_between(st(X, 0), acquiring),
        BTreeSet::from([(0, 0), (0, 1)])
    );
    // Rule 6.
    assert_eq!(links_between(ld(X, 0), acquiring), BTreeSet::from([(0, 1)]));
    // Rules 6 and 7.
    assert_eq!(
        links_between(releasing, st(X, 0)),
        BTreeSet::from([(0, 0), (1, 0)])
    );
    // Rules 5, 6 and 7.
    let all = BTreeSet::from([(1, 0), (0, 1), (1, 1)]);
    assert_eq!(links_between(releasing, sem_acq(X, 1, 2)), all);
    // Within one: rules 1 and 15.
    let e = programs(&[&[acquiring], &[]]).build();
    let within: BTreeSet<_> = links(&e).into_iter().collect();
    assert_eq!(within, BTreeSet::from([(0, 1), (1, 2), (2, 3)]));
    let mut table = [9; 16];
    assert_eq!(chain_table(&e.to_bytes(), &mut table), Ok(()));
    assert_eq!(table, [0, 1, 1, 1, 0, 0, 1, 1, 0, 0, 0, 1, 0, 0, 0, 0]);
}

/// Rule 8: R of a semaphore, as the later and as the earlier one, and LV of neither.
#[test]
fn data_flow() {
    let flow = |earlier, later| links_of(programs(&[&[earlier, later]]).pair(0, 1));
    let one = BTreeSet::from([(0, 0)]);
    assert_eq!(flow(st(X, 1), sem_acq(Y, 0, 1)), one);
    assert_eq!(flow(ld(X, 0), sem_acq(Y, 0, 1)), one);
    assert_eq!(flow(sem_rel(X, 0, 1), sem_acq(Y, 0, 1)), one);
    assert_eq!(flow(sem_rel(X, 0, 1), ld(Y, 0)), one);
    assert_eq!(flow(sem_rel(X, 0, 1), st(Y, 1)), one);
    let to = programs(&[&[st(X, 1), sem_acq(Y, 0, 1)]]).pair(0, 1);
    assert_eq!(judged(&to, &[2, 0, 1, 3, 4]), JudgeAnswer::Breaks(8));
    assert_eq!(judged(&to, &[0, 2, 3, 4, 1]), JudgeAnswer::Legal);
    let by = programs(&[&[sem_rel(X, 0, 1), st(Y, 1)]]).pair(0, 1);
    assert_eq!(judged(&by, &[3, 0, 1, 2, 4]), JudgeAnswer::Breaks(8));
    assert_eq!(judged(&by, &[0, 3, 4, 1, 2]), JudgeAnswer::Legal);
}

/// Rules 9 and 10 of semaphores as stores, before rule 16 has a say.
#[test]
fn coherence() {
    // LV 0, RV 1 and 2 of the store; R 3, LV 4, RV 5 and 6 of the semaphore.
    let own = programs(&[&[st(X, 1), sem_acq(X, 1, 2)], &[]]);
    assert_eq!(judged(&own, &[0, 3, 4, 5, 1, 2, 6]), JudgeAnswer::Breaks(9));
    assert_eq!(
        judged(&own, &[0, 1, 3, 4, 5, 6, 2]),
        JudgeAnswer::Breaks(10)
    );
    assert_eq!(judged(&own, &[0, 1, 3, 4, 5, 2, 6]), JudgeAnswer::Legal);
    // R 0, LV 1, RV 2 and 3; LV 4, RV 5 and 6.
    let two = programs(&[&[sem_acq(X, 0, 1)], &[st(X, 2)]]);
    assert_eq!(
        judged(&two, &[0, 1, 2, 4, 6, 3, 5]),
        JudgeAnswer::Breaks(10)
    );
    assert_eq!(judged(&two, &[0, 1, 2, 4, 3, 6, 5]), JudgeAnswer::Legal);
}

/// Rule 11: what a semaphore wrote is seen by others after its RV, by its own processor from LV on; what it saw is nobody's.
#[test]
fn read_value() {
    let own = |seen| programs(&[&[sem_acq(X, 0, 1), ld(X, seen)]]);
    assert_eq!(judged(&own(1), &[0, 1, 3, 2]), JudgeAnswer::Legal);
    assert_eq!(judged(&own(1), &[0, 1, 2, 3]), JudgeAnswer::Legal);
    assert_eq!(judged(&own(0), &[0, 1, 3, 2]), JudgeAnswer::Breaks(11));
    // R 0, LV 1, RV 2 and 3; R 4.
    let other = |seen| programs(&[&[sem_rel(X, 7, 1)], &[ld(X, seen)]]).initial(X, 7);
    assert_eq!(judged(&other(7), &[0, 1, 4, 2, 3]), JudgeAnswer::Legal);
    assert_eq!(judged(&other(1), &[0, 1, 2, 3, 4]), JudgeAnswer::Legal);
    assert_eq!(judged(&other(7), &[0, 1, 2, 3, 4]), JudgeAnswer::Breaks(11));
    // Byte by byte: one is another processor's, one its own, the rest initial.
    let wide = semaphore(Kind::SemaphoreAcquire, X, &[1, 2, 9, 9], &[0; 4]);
    let bytes = programs(&[&[st(X + 1, 2), wide], &[st(X, 1)]])
        .initial(X + 2, 9)
        .initial(X + 3, 9);
    // LV 0, RV 1 and 2; R 3, LV 4, RV 5 and 6; LV 7, RV 8 and 9.
    let order = [0, 1, 2, 7, 9, 8, 3, 4, 5, 6];
    assert_eq!(judged(&bytes, &order), JudgeAnswer::Legal);
    let before = [0, 1, 2, 3, 4, 5, 6, 7, 9, 8];
    assert_eq!(judged(&bytes, &before), JudgeAnswer::Breaks(11));
}

/// Rule 12: of kind 6, its RV and no other operation of it; never of kind 5.
#[test]
fn release_atomicity() {
    // R 0, LV 1, RV 2 and 3; R 4.
    let releasing = programs(&[&[sem_rel(X, 0, 1)], &[ld(Y, 0)]]);
    assert_eq!(judged(&releasing, &[0, 4, 1, 2, 3]), JudgeAnswer::Legal);
    assert_eq!(judged(&releasing, &[0, 1, 4, 2, 3]), JudgeAnswer::Legal);
    assert_eq!(
        judged(&releasing, &[0, 1, 2, 4, 3]),
        JudgeAnswer::Breaks(12)
    );
    assert_eq!(broken_by(&releasing, &[0, 1, 2]), None);
    assert_eq!(broken_by(&releasing, &[0, 1, 2, 4]), Some(12));
    let acquiring = programs(&[&[sem_acq(X, 0, 1)], &[ld(Y, 0)]]);
    assert_eq!(judged(&acquiring, &[0, 1, 2, 4, 3]), JudgeAnswer::Legal);
}

// Generated records.

/// Of every shape: both kinds, several of one processor; of those that have the room, also a place that two processors lock.
#[test]
fn generated_records_have_them() {
    let mut random = Random::new(31);
    for shape in Shape::ALL {
        let (mut with, mut without, mut locked) = (0, 0, 0);
        let mut kinds = BTreeSet::new();
        for _ in 0..1000 {
            let e = execution(&mut random, &shape);
            let all: Vec<usize> = e.semaphores().collect();
            kinds.extend(e.instructions.iter().map(|i| i.kind as u8));
            with += usize::from(!all.is_empty());
            without += usize::from(all.is_empty() && !e.instructions.is_empty());
            let two = |&a: &usize| {
                let mut others = all.iter();
                others.any(|&b| !e.same_program(a, b) && e.overlap(a, b))
            };
            locked += usize::from(all.iter().any(two));
        }
        assert!(kinds.into_iter().eq(0..7), "{shape:?}");
        assert!(with > 120 && without > 400, "{shape:?}: {with}, {without}");
        let room = shape.operations >= 8;
        assert!(!room || locked > 20, "{shape:?}: {locked}");
    }
}

/// What was counted over generated records.
#[derive(Default, Debug)]
struct Tally {
    searched: Searched,
    counted: usize,
    /// Legal orders, and those of them with a semaphore and an overlapping own store.
    legal: usize,
    beside_own: usize,
    /// Orders that break rule 15 first; rule 16; rule 16 where a semaphore is local.
    read_late: usize,
    parted: usize,
    local: usize,
}

impl Tally {
    /// The note's lemma 1 for an order that is legal, and what was tried of it for one that is not.
    fn lemma_1(&mut self, e: &Execution, order: &[u8], judged: JudgeAnswer) {
        let local = e.semaphores().any(|s| is_local(e, order, s));
        match judged {
            JudgeAnswer::Legal => {
                assert!(!local, "{e:?}: {order:?}");
                self.legal += 1;
                let beside = |s: usize| {
                    let mut own = e.stores().filter(|&w| w != s && e.same_program(w, s));
                    own.any(|w| e.overlap(w, s))
                };
                self.beside_own += usize::from(e.semaphores().any(beside));
            }
            JudgeAnswer::Breaks(15) => self.read_late += 1,
            JudgeAnswer::Breaks(16) => {
                self.parted += 1;
                self.local += usize::from(local);
            }
            JudgeAnswer::Breaks(_) => {}
            JudgeAnswer::Refused(question) => panic!("question {question}"),
        }
    }
}

/// The orders near a legal one: each operation moved to each other place.
fn near(order: &[u8]) -> Vec<Vec<u8>> {
    let mut near = Vec::new();
    for from in 0..order.len() {
        for to in 0..order.len() {
            let mut other = order.to_vec();
            let moved = other.remove(from);
            other.insert(to, moved);
            near.push(other);
        }
    }
    near
}

/// All calls on records with semaphores, the proved ones beside the reference, the search beside the brute force and the count
/// over sets; and the note's lemma 1 on every legal order found, and for small records on those near it.
#[test]
fn all_calls_and_lemma_1() {
    let mut random = Random::new(32);
    let mut tally = Tally::default();
    for round in 0..2400 {
        let e = with_semaphores(&mut random, &Shape::ALL[round % 3]);
        if e.semaphores().next().is_none() {
            continue;
        }
        let bytes = e.to_bytes();
        let answers = answers(&e, random.next_u64());
        tally.searched.count(&answers);
        let small = e.operation_count() <= Shape::SMALL.operations;
        if let Some(found) = answers.found() {
            tally.lemma_1(&e, found, judge(&bytes, found));
            for order in near(found).iter().filter(|_| small) {
                tally.lemma_1(&e, order, judge(&bytes, order));
            }
        }
        if !small {
            continue;
        }
        search_from_start(&e, 40);
        tally.counted += usize::from(count_agrees(&e, &answers));
    }
    println!("{tally:?}");
    assert!(
        tally.searched.allowed > 300 && tally.searched.forbidden > 300,
        "{tally:?}"
    );
    assert!(
        tally.searched.unfinished > 100 && tally.counted > 400,
        "{tally:?}"
    );
    assert!(tally.legal > 1000 && tally.beside_own > 100, "{tally:?}");
    let broken = [tally.read_late, tally.parted, tally.local];
    assert!(broken.iter().all(|&count| count > 20), "{tally:?}");
}

/// One semaphore of each processor on one place, all writing different values: allowed exactly where they form one chain from the
/// initial value, in which each saw what the one before it wrote.
#[test]
fn semaphores_of_one_place_form_a_chain() {
    let mut random = Random::new(33);
    let (mut allowed, mut forbidden) = (0, 0);
    for _ in 0..400 {
        let processors = random.between(2, 3);
        let mut written: Vec<u8> = (1..=processors as u8).collect();
        random.shuffle(&mut written);
        let all: Vec<[Instruction; 1]> = written
            .iter()
            .map(|&written| {
                let seen = random.between(0, processors) as u8;
                [semaphore(random.pick(&KINDS), X, &[seen], &[written])]
            })
            .collect();
        let all: Vec<&[Instruction]> = all.iter().map(|program| &program[..]).collect();
        let e = programs(&all).build();
        let mut left = e.instructions.clone();
        let mut value = 0;
        while let Some(at) = left.iter().position(|i| i.seen[0] == value) {
            value = left.remove(at).written[0];
        }
        let reply = search(&e.to_bytes(), &mut [0; 128], 0, u32::MAX);
        let chain = left.is_empty();
        let expected = match chain {
            true => SearchAnswer::Allowed,
            false => SearchAnswer::Forbidden,
        };
        assert_eq!(reply.answer, expected, "{e:?}");
        allowed += usize::from(chain);
        forbidden += usize::from(!chain);
    }
    assert!(allowed > 20 && forbidden > 100, "{allowed}, {forbidden}");
}
