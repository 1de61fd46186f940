//! The proved comparison of records beside the independent one (document 02, P9): equality under every renumbering of the
//! processors, the order by the smallest renumbered forms, lines that no access touches, the record that is handed back, every
//! refusal and their order, and the mark that equal records share.

use oglindesh::answers::Refusals;
use oglindesh::beside::{self, check, compare, first};
use oglindesh::examples::{longest, named};
use oglindesh::generate::{
    accesses, damaged, equal_programs, every_order, execution, failing, possible_pairs, Shape,
};
use oglindesh::proved::{self, numbers::MAX_RECORD};
use oglindesh::random::Random;
use oglindesh::reference::notation::{
    access, acq, ld, mf, programs, rel, sem_acq, sem_rel, st, uc, Draft, X, Y, Z,
};
use oglindesh::reference::record::{
    read, Attribute, Execution, Instruction, Kind, Line, LINE_SIZE, MAX_INSTRUCTIONS, MAX_LINES,
    MAX_PROCESSORS, QUESTIONS,
};
use oglindesh::reference::renumbering::{self, equal, renumbered, smallest_form};
use std::cmp::Ordering;
use std::collections::{BTreeMap, BTreeSet};

/// Asks both of two records, both ways round, and what they hand back. Answers are held to those of the other way round, refusals
/// to those of the records, and the part that is handed back to the answer.
fn asked(left: &[u8], right: &[u8]) -> Result<Ordering, u8> {
    let [answer, mirrored] = [(left, right), (right, left)].map(|(left, right)| {
        let answer = compare(left, right);
        let passes = check(left).and(check(right));
        assert_eq!(answer.map(|_| ()), passes, "{left:?}, {right:?}");
        let expected = match answer {
            Ok(Ordering::Less | Ordering::Equal) => left,
            Ok(Ordering::Greater) => right,
            Err(_) => &left[..0],
        };
        let part = first(left, right).as_ptr_range();
        assert_eq!(part, expected.as_ptr_range(), "{left:?}, {right:?}");
        answer
    });
    let expected = answer.map(Ordering::reverse).ok();
    assert_eq!(mirrored.ok(), expected, "{left:?}, {right:?}");
    answer
}

/// The same of two executions that pass.
fn compared(left: &Execution, right: &Execution) -> Ordering {
    let answer = asked(&left.to_bytes(), &right.to_bytes());
    answer.expect("both records pass")
}

/// Some order of so many processors.
fn any_order(random: &mut Random, processors: usize) -> Vec<usize> {
    let mut order: Vec<usize> = (0..processors).collect();
    random.shuffle(&mut order);
    order
}

/// The execution with its processors in some order.
fn shuffled(random: &mut Random, e: &Execution) -> Execution {
    let order = any_order(random, e.processors);
    renumbered(e, &order)
}

/// Whether an access touches a byte of the line; an mf touches none.
fn touched(e: &Execution, line: usize) -> bool {
    let mut bytes = line * LINE_SIZE..(line + 1) * LINE_SIZE;
    bytes.any(|at| e.instructions.iter().any(|access| access.covers(at)))
}

/// The lines that an access touches, or those that none does.
fn touched_lines(e: &Execution, wanted: bool) -> Vec<usize> {
    let lines = 0..e.lines.len();
    lines.filter(|&line| touched(e, line) == wanted).collect()
}

// Apart from the reference: the writer makes every form, out of sections whose instructions have other processor numbers.

/// The record in which processor p has the number `numbers[p]`, untouched lines taken as zero.
fn written(e: &Execution, numbers: &[u8]) -> Vec<u8> {
    let mut sections = e.clone();
    for instruction in &mut sections.instructions {
        instruction.processor = numbers[instruction.processor].into();
    }
    let place = |number: u8| {
        let at = usize::from(number);
        let all = sections.instructions.iter().enumerate();
        let key = (sections.instructions[at].processor, at);
        all.filter(|(other, i)| (i.processor, *other) < key).count() as u8
    };
    let mut pairs: Vec<_> = e.pairs.iter().map(|&(a, b)| (place(a), place(b))).collect();
    pairs.sort();
    sections.pairs = pairs;
    let mut sections = sections.sections();
    for (number, line) in sections.lines.chunks_mut(1 + LINE_SIZE).enumerate() {
        if !touched(e, number) {
            line.fill(0);
        }
    }
    let mut buffer = vec![0; MAX_RECORD];
    let length = beside::proved_write(&sections, &mut buffer).expect("it passes");
    buffer.truncate(length);
    buffer
}

/// The smallest of all forms, by the writer.
fn smallest_written(e: &Execution) -> Vec<u8> {
    let orders = every_order(e.processors);
    let forms = orders.iter().map(|numbers| written(e, numbers));
    forms.min().expect("there is an order")
}

/// Whether the writer makes one of the other, by some renumbering.
fn written_equal(left: &Execution, right: &Execution) -> bool {
    let same: Vec<u8> = (0..right.processors as u8).collect();
    let right = written(right, &same);
    let orders = every_order(left.processors);
    orders.iter().any(|numbers| written(left, numbers) == right)
}

/// The reference's forms are those of the writer, of every order; its smallest form and its equality are too.
#[test]
fn the_reference_by_the_writer() {
    let mut random = Random::new(1);
    let mut equals = 0;
    for round in 0..1_500 {
        let e = generated(&mut random, round);
        if e.processors > 4 {
            continue;
        }
        for numbers in every_order(e.processors) {
            let place = |new: usize| numbers.iter().position(|&n| usize::from(n) == new);
            let order: Option<Vec<usize>> = (0..e.processors).map(place).collect();
            let form = renumbered(&e, &order.expect("each number is there"));
            let form = renumbering::untouched_as_zero(&form);
            assert_eq!(form.to_bytes(), written(&e, &numbers), "{e:?}");
        }
        assert_eq!(smallest_form(&e), smallest_written(&e), "{e:?}");
        let other = shuffled(&mut random, &e);
        assert!(written_equal(&e, &other) && equal(&e, &other), "{e:?}");
        equals += usize::from(e.processors > 1 && other != e);
    }
    assert!(equals > 300, "{equals}");
    // All 40,320.
    for _ in 0..2 {
        let e = loop {
            let e = equal_programs(&mut random);
            if e.processors == MAX_PROCESSORS && !e.pairs.is_empty() {
                break e;
            }
        };
        assert_eq!(smallest_form(&e), smallest_written(&e), "{e:?}");
    }
}

/// Some renumbering turns one into the other exactly where the smallest forms are the same.
#[test]
fn equality_and_smallest_forms_agree() {
    let mut random = Random::new(2);
    let mut counts = [0; 2];
    for round in 0..4_000 {
        let e = generated(&mut random, round);
        let (_, change, _) = random.pick(&CHANGES);
        let Some(other) = changed(&mut random, &e, change) else {
            continue;
        };
        let same = smallest_form(&e) == smallest_form(&other);
        assert_eq!(equal(&e, &other), same, "{e:?}, {other:?}");
        counts[usize::from(same)] += 1;
    }
    assert!(counts.iter().all(|&count| count > 400), "{counts:?}");
}

// By hand.

/// The two are K6 with a pair, of two authors.
#[rustfmt::skip]
const ONE: [u8; 69] = [
    2,
    2,
    0, 0, 0, 0, 0, 0, 0, 0, 0,
    0, 0, 0, 0, 0, 0, 0, 0, 0,
    2,
    2, 0, 1, 1, 0, 0, 0, 0, 0, 0, 0,
    3, 8, 1, 1, 0, 0, 0, 0, 0, 0, 0,
    2,
    1, 8, 1, 1, 0, 0, 0, 0, 0, 0, 0,
    0, 0, 1, 0, 0, 0, 0, 0, 0, 0, 0,
    1,
    2, 3,
];

#[rustfmt::skip]
const OTHER: [u8; 69] = [
    2,
    2,
    0, 0, 0, 0, 0, 0, 0, 0, 0,
    0, 0, 0, 0, 0, 0, 0, 0, 0,
    2,
    1, 8, 1, 1, 0, 0, 0, 0, 0, 0, 0,
    0, 0, 1, 0, 0, 0, 0, 0, 0, 0, 0,
    2,
    2, 0, 1, 1, 0, 0, 0, 0, 0, 0, 0,
    3, 8, 1, 1, 0, 0, 0, 0, 0, 0, 0,
    1,
    0, 1,
];

#[test]
fn by_hand() {
    assert_eq!(asked(&ONE, &OTHER), Ok(Ordering::Equal));
    assert_eq!(asked(&ONE, &ONE), Ok(Ordering::Equal));
    assert_eq!(first(&OTHER, &ONE), OTHER);
    assert_eq!(read(&ONE).map(|e| smallest_form(&e)), Ok(OTHER.to_vec()));
    // The last byte of the line of y, which both touch.
    let mut more = ONE;
    more[19] = 1;
    assert_eq!(asked(&more, &OTHER), Ok(Ordering::Greater));
    assert_eq!(first(&more, &OTHER), OTHER);
}

/// A load of sixteen bytes, all 0.
fn load16() -> Instruction {
    access(Kind::Load, 0, &[0; 16])
}

/// So many lines more, which no access touches.
fn with_lines(draft: Draft, more: usize) -> Execution {
    let mut e = draft.build();
    let line = e.lines[0];
    e.lines.extend(vec![line; more]);
    e
}

/// Two processors with the same three loads, and these pairs, of both by numbers from 0.
fn three_loads(one: &[(u8, u8)], other: &[(u8, u8)]) -> Execution {
    let program = [ld(X, 0); 3];
    let mut draft = programs(&[&program, &program]);
    for &(earlier, later) in one {
        draft = draft.pair(earlier, later);
    }
    for &(earlier, later) in other {
        draft = draft.pair(3 + earlier, 3 + later);
    }
    draft.build()
}

/// Executions in their order, each of which stands before all that follow.
fn ascending() -> Vec<Execution> {
    let one = |instruction: Instruction| programs(&[&[instruction]]);
    let pairs = |pairs: &[(u8, u8)]| {
        let draft = programs(&[&[ld(X, 0); 3]]);
        let with = |draft: Draft, pair: &(u8, u8)| draft.pair(pair.0, pair.1);
        pairs.iter().fold(draft, with).build()
    };
    vec![
        // One processor, one line of zeros: by the number of instructions, then kind, address, size, data.
        programs(&[&[]]).build(),
        one(ld(X, 0)).build(),
        one(ld(X, 1)).build(),
        one(ld(X, 127)).build(),
        one(ld(X, 128)).build(),
        one(access(Kind::Load, X, &[0, 0])).build(),
        one(access(Kind::Load, X, &[0, 1])).build(),
        // The byte at the lowest address comes first.
        one(access(Kind::Load, X, &[1, 0])).build(),
        one(ld(X + 1, 0)).build(),
        one(acq(X, 0)).build(),
        one(st(X, 0)).build(),
        one(rel(X, 0)).build(),
        one(mf()).build(),
        one(sem_acq(X, 0, 0)).build(),
        one(sem_acq(X, 0, 9)).build(),
        one(sem_acq(X, 1, 0)).build(),
        one(sem_rel(X, 0, 0)).build(),
        programs(&[&[ld(X, 0), ld(X, 0)]]).build(),
        programs(&[&[ld(X, 0), mf()]]).build(),
        programs(&[&[mf(), ld(X, 0)]]).build(),
        // By the number of pairs, then the pairs.
        pairs(&[]),
        pairs(&[(0, 1)]),
        pairs(&[(0, 2)]),
        pairs(&[(1, 2)]),
        pairs(&[(0, 1), (0, 2)]),
        pairs(&[(0, 1), (1, 2)]),
        pairs(&[(0, 2), (1, 2)]),
        // A touched line counts before the programs: initial bytes, the first one first, but the attribute before these.
        one(ld(X, 0)).initial(X + 7, 1).build(),
        one(ld(X, 0)).initial(X + 7, 200).build(),
        one(ld(X, 0)).initial(X, 1).build(),
        one(ld(X, 0)).line(0, uc(0)).build(),
        one(ld(X, 0)).line(0, Attribute::WriteCoalescing).build(),
        one(ld(X, 0)).line(0, uc(1)).build(),
        one(ld(X, 0)).line(0, uc(2)).build(),
        one(ld(X, 0)).line(0, uc(3)).build(),
        // Two lines, then three.
        with_lines(programs(&[&[]]), 1),
        with_lines(one(ld(X, 0)), 1),
        one(load16()).build(),
        one(ld(Y, 0)).build(),
        one(ld(Y, 0)).initial(Y, 1).build(),
        one(load16()).initial(Y + 7, 1).initial(Y, 1).build(),
        one(load16()).initial(X + 7, 1).build(),
        one(load16()).all_lines(uc(0)).build(),
        with_lines(programs(&[&[]]), 2),
        one(ld(Z, 0)).build(),
        // Two processors. A program with nothing comes first, and the smaller of the others.
        programs(&[&[], &[]]).build(),
        programs(&[&[ld(X, 0)], &[]]).build(),
        programs(&[&[st(X, 9), st(X, 9)], &[]]).build(),
        programs(&[&[ld(X, 1)], &[ld(X, 0)]]).build(),
        programs(&[&[ld(X, 1)], &[ld(X, 1)]]).build(),
        programs(&[&[st(X, 1), ld(X, 0)], &[ld(X, 1)]]).build(),
        programs(&[&[ld(X, 1)], &[st(X, 1), ld(X, 1)]]).build(),
        programs(&[&[st(X, 0)], &[ld(X, 2)]]).build(),
        programs(&[&[ld(X, 1), ld(X, 0)], &[st(X, 0)]]).build(),
        programs(&[&[ld(X, 0), ld(X, 0)], &[st(X, 1)]]).build(),
        // Of the same programs the one with the smaller pairs; one without pairs stands behind one with some.
        three_loads(&[], &[]),
        three_loads(&[], &[(0, 1)]),
        three_loads(&[], &[(0, 2)]),
        three_loads(&[(1, 2)], &[]),
        three_loads(&[(0, 1), (0, 2)], &[]),
        three_loads(&[], &[(0, 1), (1, 2)]),
        three_loads(&[(0, 1)], &[(0, 1)]),
        three_loads(&[(0, 2)], &[(0, 1)]),
        three_loads(&[(1, 2)], &[(0, 1)]),
        three_loads(&[(0, 2), (1, 2)], &[]),
        three_loads(&[(0, 2)], &[(0, 2)]),
        three_loads(&[(1, 2)], &[(0, 2)]),
        three_loads(&[(1, 2)], &[(1, 2)]),
        three_loads(&[(0, 1), (0, 2), (1, 2)], &[]),
        three_loads(&[(0, 1)], &[(0, 1), (0, 2)]),
        three_loads(&[(0, 2)], &[(0, 1), (0, 2)]),
        three_loads(&[(0, 2)], &[(0, 1), (1, 2)]),
        three_loads(&[(0, 2), (1, 2)], &[(0, 1)]),
        // A longer program may be the smaller one.
        programs(&[&[load16()], &[st(X, 2)]]).build(),
        programs(&[&[st(X, 1)], &[access(Kind::Load, 0, &[1; 16])]]).build(),
        // Three processors, then six.
        programs(&[&[], &[], &[]]).build(),
        programs(&[&[], &[ld(X, 0)], &[]]).build(),
        programs(&[&[][..]; 6]).build(),
    ]
}

#[test]
fn ascending_by_hand() {
    let mut random = Random::new(3);
    let all = ascending();
    for (at, left) in all.iter().enumerate() {
        for (other, right) in all.iter().enumerate() {
            let (left, right) = (shuffled(&mut random, left), shuffled(&mut random, right));
            assert_eq!(
                compared(&left, &right),
                at.cmp(&other),
                "{left:?}, {right:?}"
            );
        }
    }
}

/// What counts of a line: whether an access touches it, be it with one byte, or with the upper half of sixteen; an mf touches none.
#[test]
fn untouched_lines_by_hand() {
    // Of line 1; once of line 0 too.
    let changes: [fn(Draft) -> Draft; 4] = [
        |draft| draft.initial(Y, 7),
        |draft| draft.initial(Y + 7, 255),
        |draft| draft.line(0, uc(2)).line(1, uc(2)),
        |draft| draft.line(1, Attribute::WriteCoalescing),
    ];
    let far = ld(Z, 0);
    let (same, less) = (Ok(Ordering::Equal), Ok(Ordering::Less));
    // Question 27: both lines of sixteen bytes have one attribute.
    let of_sixteen = [less, less, less, Err(27)];
    type Answers = [Result<Ordering, u8>; 4];
    let cases: [(&[&[Instruction]], Answers); 9] = [
        (&[&[far]], [same; 4]),
        (&[&[mf(), far], &[]], [same; 4]),
        (&[&[far], &[mf(), mf()]], [same; 4]),
        (&[&[ld(X, 0), far]], [same, same, less, same]),
        (&[&[far], &[ld(Y, 0)]], [less; 4]),
        (&[&[st(Y + 3, 1), far]], [less; 4]),
        (&[&[far], &[access(Kind::Store, Y, &[0; 8])]], [less; 4]),
        (&[&[load16(), far]], of_sixteen),
        (
            &[&[], &[access(Kind::StoreRelease, X, &[1; 16])], &[far]],
            of_sixteen,
        ),
    ];
    for (all, expected) in cases {
        let draft = programs(all);
        let e = draft.clone().build().to_bytes();
        for (change, expected) in changes.iter().zip(expected) {
            let other = change(draft.clone()).build().to_bytes();
            assert_eq!(asked(&e, &other), expected, "{e:?}, {other:?}");
        }
    }
    // A semaphore lies on WB, and touches its line.
    for semaphore in [sem_acq(Y, 0, 1), sem_rel(Y + 1, 0, 1)] {
        let draft = programs(&[&[far], &[semaphore]]);
        let other = draft.clone().initial(Y + 7, 1).build();
        assert_eq!(compared(&draft.build(), &other), Ordering::Less);
    }
}

/// An execution of so many processors and lines, these with any bytes; its only instructions are an mf of each of these.
fn fences(random: &mut Random, size: (usize, usize), of: &[usize]) -> Execution {
    let lines = (0..size.1).map(|_| any_line(random)).collect();
    let fence = |&processor: &usize| Instruction { processor, ..mf() };
    Execution::new(size.0, lines, of.iter().map(fence).collect(), Vec::new())
}

/// Where no access is, no line counts, and all that is left are the numbers of processors and of lines, and the programs of mf.
#[test]
fn no_access_at_all() {
    let mut random = Random::new(4);
    let sizes = (1..=MAX_PROCESSORS).flat_map(|p| (1..=MAX_LINES).map(move |lines| (p, lines)));
    let sizes: Vec<(usize, usize)> = sizes.collect();
    for &size in &sizes {
        for _ in 0..4 {
            let other = match random.once_in(2) {
                true => random.pick(&sizes),
                false => (size.0, random.between(1, MAX_LINES)),
            };
            let [left, right] = [size, other].map(|size| fences(&mut random, size, &[]));
            assert_eq!(compared(&left, &right), size.cmp(&other));
        }
        let last = size.0 - 1;
        let of: [&[usize]; 4] = [&[0], &[last], &[last, last], &[]];
        let [one, moved, two, none] = of.map(|of| fences(&mut random, size, of));
        assert_eq!(compared(&one, &moved), Ordering::Equal);
        assert_eq!(compared(&one, &two), Ordering::Less);
        assert_eq!(compared(&one, &none), Ordering::Greater);
    }
}

/// The longest record: its processors turned round, and the last pair another.
#[test]
fn the_longest_record() {
    let e = longest();
    let turned = renumbered(&e, &[7, 6, 5, 4, 3, 2, 1, 0]);
    assert_ne!(e, turned);
    assert_eq!(compared(&e, &turned), Ordering::Equal);
    let mut other = turned.clone();
    *other.pairs.last_mut().expect("there are forty") = (38, 39);
    assert_eq!(compared(&e, &other), Ordering::Less);
}

// Generated pairs of records.

/// A generated execution: of any shape, or with equal programs.
fn generated(random: &mut Random, round: usize) -> Execution {
    match round % 5 {
        shape @ 0..3 => execution(random, &Shape::ALL[shape]),
        _ => equal_programs(random),
    }
}

/// What a change makes of the answer.
#[derive(Clone, Copy, PartialEq, Eq, Debug)]
enum Expected {
    Equal,
    Unequal,
    /// It depends on the others.
    Either,
}

/// Makes another execution of one; none where it cannot be made. No question is asked of it.
type Change = fn(&mut Random, &mut Execution) -> Option<()>;

/// All changes, and what each makes of the answer.
const CHANGES: [(&str, Change, Expected); 19] = [
    ("nothing", |_, _| Some(()), Expected::Equal),
    ("a byte seen or written", change_byte, Expected::Unequal),
    ("a kind", change_kind, Expected::Unequal),
    ("an address", change_address, Expected::Unequal),
    ("two instructions exchanged", exchange, Expected::Unequal),
    ("an mf more", add_fence, Expected::Unequal),
    ("an instruction moved", move_instruction, Expected::Either),
    ("a pair less", remove_pair, Expected::Unequal),
    ("a pair more", add_pair, Expected::Unequal),
    ("a pair for another", change_pair, Expected::Either),
    ("pairs exchanged", exchange_pairs, Expected::Equal),
    (
        "an initial byte",
        |r, e| change_initial(r, e, true),
        Expected::Unequal,
    ),
    (
        "an untouched byte",
        |r, e| change_initial(r, e, false),
        Expected::Equal,
    ),
    (
        "an attribute",
        |r, e| change_attribute(r, e, true),
        Expected::Unequal,
    ),
    (
        "an untouched attribute",
        |r, e| change_attribute(r, e, false),
        Expected::Equal,
    ),
    (
        "all of the untouched lines",
        change_untouched,
        Expected::Equal,
    ),
    ("a line more", add_line, Expected::Unequal),
    ("a processor more", add_processor, Expected::Unequal),
    ("other programs", change_programs, Expected::Unequal),
];

/// One of the items, if there is any.
fn pick<T: Copy>(random: &mut Random, items: &[T]) -> Option<T> {
    match items {
        [] => None,
        items => Some(random.pick(items)),
    }
}

/// An access, if there is any.
fn any_access(random: &mut Random, e: &Execution) -> Option<usize> {
    let numbers = 0..e.instructions.len();
    let accesses: Vec<usize> = numbers.filter(|&i| e.instructions[i].size > 0).collect();
    pick(random, &accesses)
}

fn change_byte(random: &mut Random, e: &mut Execution) -> Option<()> {
    let number = any_access(random, e)?;
    let access = &mut e.instructions[number];
    let at = random.below(access.size.into());
    let seen = match access.kind {
        kind if kind.is_semaphore() => random.once_in(2),
        kind => kind.is_load(),
    };
    let value = if seen {
        &mut access.seen
    } else {
        &mut access.written
    };
    value[at] ^= 1 << random.below(8);
    Some(())
}

fn change_kind(random: &mut Random, e: &mut Execution) -> Option<()> {
    let number = any_access(random, e)?;
    let kind = &mut e.instructions[number].kind;
    *kind = match kind {
        Kind::Load => Kind::LoadAcquire,
        Kind::LoadAcquire => Kind::Load,
        Kind::Store => Kind::StoreRelease,
        Kind::StoreRelease => Kind::Store,
        Kind::SemaphoreAcquire => Kind::SemaphoreRelease,
        Kind::SemaphoreRelease => Kind::SemaphoreAcquire,
        Kind::Fence => return None,
    };
    Some(())
}

fn change_address(random: &mut Random, e: &mut Execution) -> Option<()> {
    let number = any_access(random, e)?;
    let lines = e.lines.len();
    let access = &mut e.instructions[number];
    let mut others = accesses(lines);
    others.retain(|&(at, size)| size == access.size.into() && at != access.address.into());
    access.address = pick(random, &others)?.0 as u8;
    Some(())
}

/// Two neighbours of one program that differ.
fn exchange(random: &mut Random, e: &mut Execution) -> Option<()> {
    let differ =
        |&at: &usize| e.same_program(at - 1, at) && e.instructions[at - 1] != e.instructions[at];
    let places: Vec<usize> = (1..e.instructions.len()).filter(differ).collect();
    let at = pick(random, &places)?;
    e.instructions.swap(at - 1, at);
    Some(())
}

/// At the end of a program, so that those behind it have other numbers.
fn add_fence(random: &mut Random, e: &mut Execution) -> Option<()> {
    let processor = random.below(e.processors);
    let at = e.instructions.partition_point(|i| i.processor <= processor);
    e.instructions.insert(at, Instruction { processor, ..mf() });
    let moved = |number: &mut u8| *number += u8::from(usize::from(*number) >= at);
    for (earlier, later) in &mut e.pairs {
        moved(earlier);
        moved(later);
    }
    Some(())
}

/// The last instruction of a program to the end of another; it is in no pair.
fn move_instruction(random: &mut Random, e: &mut Execution) -> Option<()> {
    let numbers = 0..e.instructions.len();
    let last = |&at: &usize| at + 1 == e.instructions.len() || !e.same_program(at, at + 1);
    let free = |&at: &usize| e.pairs.iter().all(|pair| usize::from(pair.1) != at);
    let places: Vec<usize> = numbers.filter(last).filter(free).collect();
    let from = pick(random, &places)?;
    let processor = random.below(e.processors);
    let mut order: Vec<usize> = (0..e.instructions.len()).collect();
    e.instructions[from].processor = processor;
    order.sort_by_key(|&at| (e.instructions[at].processor, at == from, at));
    let new = |number: u8| {
        let place = order.iter().position(|&at| at == usize::from(number));
        place.expect("each is there") as u8
    };
    e.pairs = e.pairs.iter().map(|&(a, b)| (new(a), new(b))).collect();
    e.pairs.sort();
    e.instructions = order.iter().map(|&at| e.instructions[at]).collect();
    Some(())
}

fn remove_pair(random: &mut Random, e: &mut Execution) -> Option<()> {
    let all: Vec<usize> = (0..e.pairs.len()).collect();
    e.pairs.remove(pick(random, &all)?);
    Some(())
}

fn add_pair(random: &mut Random, e: &mut Execution) -> Option<()> {
    let mut others = possible_pairs(e);
    others.retain(|pair| !e.pairs.contains(pair));
    e.pairs.push(pick(random, &others)?);
    e.pairs.sort();
    Some(())
}

fn change_pair(random: &mut Random, e: &mut Execution) -> Option<()> {
    let before = e.pairs.clone();
    remove_pair(random, e)?;
    let mut others = possible_pairs(e);
    others.retain(|pair| !before.contains(pair));
    e.pairs.push(pick(random, &others)?);
    e.pairs.sort();
    Some(())
}

/// The instructions of a processor, without its number.
fn program_of(e: &Execution, processor: usize) -> Vec<Instruction> {
    let own = e.instructions.iter().filter(|i| i.processor == processor);
    own.map(|&i| Instruction { processor: 0, ..i }).collect()
}

/// Of two processors with the same program, whose pairs differ.
fn exchange_pairs(random: &mut Random, e: &mut Execution) -> Option<()> {
    let start = |processor| e.instructions.partition_point(|i| i.processor < processor) as u8;
    let own = |processor: usize| -> Vec<(u8, u8)> {
        let of = |number: u8| e.instructions[usize::from(number)].processor;
        let all = e.pairs.iter().filter(|pair| of(pair.0) == processor);
        let first = start(processor);
        all.map(|pair| (pair.0 - first, pair.1 - first)).collect()
    };
    let numbers = 0..e.processors;
    let two = numbers.flat_map(|p| (0..p).map(move |q| (q, p)));
    let two = two.filter(|&(q, p)| program_of(e, q) == program_of(e, p) && own(q) != own(p));
    let two: Vec<(usize, usize)> = two.collect();
    let (q, p) = pick(random, &two)?;
    let mut pairs = Vec::new();
    for processor in 0..e.processors {
        let from = match processor {
            processor if processor == q => p,
            processor if processor == p => q,
            other => other,
        };
        let first = start(processor);
        pairs.extend(
            own(from)
                .iter()
                .map(|pair| (first + pair.0, first + pair.1)),
        );
    }
    e.pairs = pairs;
    Some(())
}

/// Of a line that an access touches, or that none does.
fn change_initial(random: &mut Random, e: &mut Execution, of_touched: bool) -> Option<()> {
    let line = pick(random, &touched_lines(e, of_touched))?;
    e.lines[line].initial[random.below(LINE_SIZE)] ^= 1 << random.below(8);
    Some(())
}

/// Of a line that an access touches, with the other line of an access of sixteen bytes; or of one that none does.
fn change_attribute(random: &mut Random, e: &mut Execution, of_touched: bool) -> Option<()> {
    let line = pick(random, &touched_lines(e, of_touched))?;
    let over_two = e
        .instructions
        .iter()
        .find(|i| i.lines().len() > 1 && i.lines().contains(&line));
    let lines = over_two.map_or(line..line + 1, |access| access.lines());
    let mut attributes = Attribute::all();
    attributes.retain(|&attribute| attribute != e.lines[line].attribute);
    let attribute = random.pick(&attributes);
    e.lines[lines]
        .iter_mut()
        .for_each(|line| line.attribute = attribute);
    Some(())
}

fn any_line(random: &mut Random) -> Line {
    Line {
        attribute: random.pick(&Attribute::all()),
        initial: std::array::from_fn(|_| random.byte()),
    }
}

fn change_untouched(random: &mut Random, e: &mut Execution) -> Option<()> {
    let untouched = touched_lines(e, false);
    untouched
        .iter()
        .for_each(|&line| e.lines[line] = any_line(random));
    (!untouched.is_empty()).then_some(())
}

fn add_line(random: &mut Random, e: &mut Execution) -> Option<()> {
    e.lines.push(any_line(random));
    Some(())
}

/// At some place, with no instruction.
fn add_processor(random: &mut Random, e: &mut Execution) -> Option<()> {
    let at = random.between(0, e.processors);
    e.processors += 1;
    for instruction in &mut e.instructions {
        instruction.processor += usize::from(instruction.processor >= at);
    }
    Some(())
}

/// Those of another execution that is not equal, on the same lines.
fn change_programs(random: &mut Random, e: &mut Execution) -> Option<()> {
    let round = random.below(5);
    let mut other = generated(random, round);
    if other.processors > e.processors {
        return None;
    }
    other.processors = e.processors;
    other.lines = e.lines.clone();
    let accesses = other.instructions.iter().map(Instruction::lines);
    let within = accesses.map(|lines| lines.end).max() <= Some(e.lines.len());
    if !within || equal(e, &other) {
        return None;
    }
    *e = other;
    Some(())
}

/// What a change makes of an execution, with the processors in some order; none where that does not pass.
fn changed(random: &mut Random, e: &Execution, change: Change) -> Option<Execution> {
    let mut other = e.clone();
    change(random, &mut other)?;
    let Execution {
        processors,
        lines,
        instructions,
        pairs,
        ..
    } = other;
    let other = Execution::new(processors, lines, instructions, pairs);
    read(&other.to_bytes()).ok()?;
    Some(match random.once_in(4) {
        true => other,
        false => shuffled(random, &other),
    })
}

/// What pairs of records were met.
#[derive(Default, Debug)]
struct Met {
    /// By change: the left one stood first, they were equal, the right one did.
    answers: BTreeMap<&'static str, [usize; 3]>,
    /// Of records that are equal and not the same bytes.
    renumbered: usize,
    /// By the number of processors.
    processors: BTreeMap<usize, usize>,
    kinds: BTreeSet<(u8, u8)>,
    /// With equal programs that have instructions and different pairs.
    same_programs: usize,
    /// With instructions, and a processor that has none.
    empty_program: usize,
    no_instruction: usize,
    instructions: usize,
    pairs: usize,
    /// Whose first line no access touches, though an mf has address 0.
    fence_alone: usize,
    /// With a line that only the upper half of sixteen bytes touches.
    upper_half: usize,
    /// Held to the writer's forms.
    by_writer: [usize; 3],
}

impl Met {
    fn count(&mut self, e: &Execution) {
        *self.processors.entry(e.processors).or_default() += 1;
        self.kinds
            .extend(e.instructions.iter().map(|i| (i.kind as u8, i.size)));
        let mut other = e.clone();
        self.same_programs +=
            usize::from(exchange_pairs(&mut Random::new(0), &mut other).is_some());
        let by: BTreeSet<usize> = e.instructions.iter().map(|i| i.processor).collect();
        self.empty_program += usize::from(!by.is_empty() && by.len() < e.processors);
        self.no_instruction += usize::from(by.is_empty());
        self.instructions += usize::from(e.instructions.len() == MAX_INSTRUCTIONS);
        self.pairs += usize::from(e.pairs.len() > 1);
        let fence = e.instructions.iter().any(|i| i.kind == Kind::Fence);
        self.fence_alone += usize::from(fence && !touched(e, 0));
        let upper = |line: &usize| {
            let mut on = e.instructions.iter().filter(|i| i.lines().contains(line));
            line % 2 == 1 && touched(e, *line) && on.all(|i| i.size == 16)
        };
        self.upper_half += usize::from((0..e.lines.len()).any(|line| upper(&line)));
    }
}

/// Place 0, 1 or 2 for left first, equal, right first.
fn place(answer: Ordering) -> usize {
    (answer as i8 + 1) as usize
}

/// Most processors of records that are held to the writer's forms.
const MOST_WRITTEN: usize = 4;

#[test]
fn generated_pairs() {
    let mut random = Random::new(5);
    let mut met = Met::default();
    for round in 0..11_000 {
        let e = generated(&mut random, round);
        let (what, change, expected) = random.pick(&CHANGES);
        let Some(other) = changed(&mut random, &e, change) else {
            continue;
        };
        met.count(&e);
        let e = shuffled(&mut random, &e);
        let (left, right) = match random.once_in(2) {
            true => (&e, &other),
            false => (&other, &e),
        };
        let answer = compared(left, right);
        match expected {
            Expected::Equal => assert_eq!(answer, Ordering::Equal, "{what}: {left:?}, {right:?}"),
            Expected::Unequal => assert_ne!(answer, Ordering::Equal, "{what}: {left:?}, {right:?}"),
            Expected::Either => {}
        }
        if left.processors.max(right.processors) <= MOST_WRITTEN {
            let by_writer = smallest_written(left).cmp(&smallest_written(right));
            assert_eq!(answer, by_writer, "{what}: {left:?}, {right:?}");
            met.by_writer[place(answer)] += 1;
        }
        met.answers.entry(what).or_default()[place(answer)] += 1;
        met.renumbered += usize::from(answer == Ordering::Equal && left != right);
    }
    for (what, _, expected) in CHANGES {
        let answers = met.answers.get(what).copied().unwrap_or_default();
        let wanted = match expected {
            Expected::Equal => [false, true, false],
            Expected::Unequal => [true, false, true],
            Expected::Either => [true; 3],
        };
        for (count, wanted) in answers.into_iter().zip(wanted) {
            assert!(!wanted || count > 20, "{what}: {answers:?}");
        }
    }
    let sizes = |kind: Kind| kind.sizes().iter().map(move |&size| (kind as u8, size));
    let kinds: BTreeSet<(u8, u8)> = Kind::ALL.into_iter().flat_map(sizes).collect();
    assert_eq!(met.kinds, kinds);
    assert!(met.processors.len() == MAX_PROCESSORS, "{met:?}");
    assert!(met.processors.values().all(|&count| count > 300), "{met:?}");
    assert!(met.by_writer.iter().all(|&count| count > 300), "{met:?}");
    for (what, count) in [
        ("renumbered", met.renumbered),
        ("equal programs with other pairs", met.same_programs),
        ("a program with none", met.empty_program),
        ("no instruction", met.no_instruction),
        ("forty instructions", met.instructions),
        ("pairs", met.pairs),
        ("an mf and no access of the first line", met.fence_alone),
        ("the upper half alone", met.upper_half),
    ] {
        assert!(count > 15, "{what}: {count}, {met:?}");
    }
}

/// Eight processors with the same program, whose pairs alone tell them apart: every renumbering has to be tried.
#[test]
fn eight_equal_programs() {
    let mut random = Random::new(6);
    let mut counts = [0; 3];
    let mut any = |pairs: &[(u8, u8)]| {
        let program = [ld(X, 0), ld(Y, 0), acq(X, 1)];
        let mut e = programs(&[&program[..]; 8]).build();
        let mut all: Vec<(u8, u8)> = pairs.to_vec();
        while all.len() < 9 {
            let start = 3 * random.below(8) as u8;
            let pair = random.pick(&[(0, 1), (0, 2), (1, 2)]);
            let pair = (start + pair.0, start + pair.1);
            if !all.contains(&pair) {
                all.push(pair);
            }
        }
        all.sort();
        e.pairs = all;
        shuffled(&mut random, &e)
    };
    for _ in 0..6 {
        let e = any(&[]);
        // All but the last pair the same, so that both are near each other.
        let other = any(&e.pairs[..8]);
        counts[place(compared(&e, &other))] += 1;
        assert_eq!(compared(&e, &any(&e.pairs)), Ordering::Equal);
        counts[1] += 1;
    }
    assert!(counts.iter().all(|&count| count > 0), "{counts:?}");
}

// Refusals.

/// The left record's question, else the right one's; where both are refused, whatever the numbers.
#[test]
fn every_refusal() {
    let mut random = Random::new(7);
    for question in QUESTIONS {
        for round in 0..12 {
            let refused = failing(&mut random, question);
            let passes = generated(&mut random, round).to_bytes();
            assert_eq!(asked(&refused, &passes), Err(question));
            assert_eq!(asked(&passes, &refused), Err(question));
            for other in QUESTIONS {
                let other = failing(&mut random, other);
                assert_eq!(asked(&refused, &other), Err(question));
            }
            assert_eq!(asked(&refused, &refused), Err(question));
        }
    }
}

/// Every beginning of a record, and what stands behind one, on either side: nothing is handed back.
#[test]
fn cut_and_lengthened_records() {
    let mut random = Random::new(8);
    for round in 0..20 {
        let e = execution(&mut random, &Shape::SMALL);
        let other = generated(&mut random, round).to_bytes();
        let mut record = e.to_bytes();
        for length in 0..record.len() {
            assert_eq!(asked(&record[..length], &other), Err(1));
            assert_eq!(asked(&record, &record[..length]), Err(1));
        }
        let whole = record.clone();
        for _ in 0..3 {
            record.push(random.byte());
            assert_eq!(asked(&record, &whole), Err(15));
            assert_eq!(asked(&whole, &record), Err(15));
        }
    }
}

/// Damaged records on both sides, of one execution and its renumbering: both answer alike.
#[test]
fn damaged_records() {
    let mut random = Random::new(9);
    let (mut tally, mut answers) = (Refusals::default(), [0; 3]);
    // By whether the left record was refused, and the right one; of both only where the numbers differ.
    let mut sides = [[0; 2]; 2];
    for round in 0..30_000 {
        let e = execution(&mut random, &Shape::ALL[round % 3]);
        let other = shuffled(&mut random, &e);
        let mut bytes = |e: &Execution| match random.once_in(3) {
            true => e.to_bytes(),
            false => damaged(&mut random, e),
        };
        let (left, right) = (bytes(&e), bytes(&other));
        let answer = asked(&left, &right);
        tally.count(&answer);
        if let Ok(answer) = answer {
            answers[place(answer)] += 1;
        }
        let [one, two] = [&left, &right].map(|record| check(record));
        if one.is_ok() || two.is_ok() || one != two {
            sides[usize::from(one.is_err())][usize::from(two.is_err())] += 1;
        }
    }
    let all: BTreeSet<u8> = QUESTIONS.into_iter().collect();
    assert!(tally.reached().into_iter().eq(all), "{:?}", tally.0);
    assert!(
        sides.as_flattened().iter().all(|&count| count > 2_000),
        "{sides:?}"
    );
    assert!(answers.iter().all(|&count| count > 500), "{answers:?}");
}

// Marks.

/// Most steps of one search; few small records have more.
const MOST_STEPS: u32 = 3_000_000;

/// The mark that the proved search comes to, with the order that it found, and its steps; none where it takes too long.
fn mark(e: &Execution) -> Option<(proved::Verdict, Vec<u8>, u32)> {
    let mut buffer = [255; 128];
    let reply = proved::search(&e.to_bytes(), &mut buffer, 0, MOST_STEPS);
    let verdict = reply.answer.expect("the record passes");
    let found = buffer[..reply.length].to_vec();
    (verdict != proved::Verdict::Unfinished).then_some((verdict, found, reply.steps))
}

/// Equal records are both allowed or both forbidden. The orders that are found and the steps may differ, and do.
#[test]
fn equal_records_have_the_same_mark() {
    let mut random = Random::new(10);
    let (mut allowed, mut forbidden, mut unended) = (0, 0, 0);
    let (mut orders, mut steps) = (0, 0);
    let same = CHANGES.iter().filter(|row| row.2 != Expected::Unequal);
    let same: Vec<Change> = same.map(|row| row.1).collect();
    for round in 0..12_000 {
        let e = execution(&mut random, &Shape::ALL[round % 2]);
        let change = random.pick(&same);
        let Some(other) = changed(&mut random, &e, change) else {
            continue;
        };
        if e == other || compared(&e, &other) != Ordering::Equal {
            continue;
        }
        let (Some(one), Some(two)) = (mark(&e), mark(&other)) else {
            unended += 1;
            continue;
        };
        assert_eq!(one.0, two.0, "{e:?}, {other:?}");
        match one.0 {
            proved::Verdict::Allowed => allowed += 1,
            _ => forbidden += 1,
        }
        orders += usize::from(one.1 != two.1);
        steps += usize::from(one.2 != two.2);
    }
    let counts = [allowed, forbidden, orders, steps];
    assert!(counts.iter().all(|&count| count > 150), "{counts:?}");
    assert!(unended < 20, "{unended}");
}

/// K6 and its renumbering are forbidden, K8 and its allowed, by another order.
#[test]
fn marks_by_hand() {
    for (name, verdict) in [
        ("K6", proved::Verdict::Forbidden),
        ("K8", proved::Verdict::Allowed),
    ] {
        let e = named("scope", name);
        let other = renumbered(&e, &[1, 0]);
        assert_eq!(compared(&e, &other), Ordering::Equal);
        let [one, two] = [&e, &other].map(|e| mark(e).expect("it ends"));
        assert_eq!((one.0, two.0), (verdict, verdict));
        assert_eq!(one.1 == two.1, verdict == proved::Verdict::Forbidden);
    }
}
