//! The rules 1 to 16 by hand: for each an order and a prefix that break it first. Semaphores are in tests/semaphores.rs.

use oglindesh::beside::judge;
use oglindesh::reference::notation::{self, acq, ld, mf, programs, rel, st, uc, Draft, X, Y};
use oglindesh::reference::record::{Attribute, Instruction, Kind, Role, DOMAINS};
use oglindesh::reference::rules::{lowest_broken, JudgeAnswer};

fn judged(draft: &Draft, order: &[u8]) -> JudgeAnswer {
    judge(&draft.clone().build().to_bytes(), order)
}

fn broken_by(draft: &Draft, prefix: &[u8]) -> Option<u8> {
    lowest_broken(&draft.clone().build(), prefix)
}

/// Breaks this rule where it applies, and else none.
fn breaks_if(applies: bool, rule: u8) -> JudgeAnswer {
    match applies {
        true => JudgeAnswer::Breaks(rule),
        false => JudgeAnswer::Legal,
    }
}

#[test]
fn write_order() {
    let two = programs(&[&[st(X, 1)], &[]]);
    assert_eq!(judged(&two, &[0, 1, 2]), JudgeAnswer::Legal);
    assert_eq!(judged(&two, &[1, 0, 2]), JudgeAnswer::Breaks(1));
    assert_eq!(judged(&two, &[0, 2, 1]), JudgeAnswer::Breaks(1));
    assert_eq!(broken_by(&two, &[0, 2]), Some(1));
    // 'Own' is the storing processor, not the first.
    let second = programs(&[&[], &[st(X, 1)]]);
    assert_eq!(judged(&second, &[0, 2, 1]), JudgeAnswer::Legal);
    assert_eq!(judged(&second, &[0, 1, 2]), JudgeAnswer::Breaks(1));
}

#[test]
fn program_order() {
    assert_eq!(
        judged(&programs(&[&[acq(X, 0), ld(Y, 0)]]), &[1, 0]),
        JudgeAnswer::Breaks(2)
    );
    let load_release = programs(&[&[ld(X, 0), rel(Y, 1)]]);
    assert_eq!(judged(&load_release, &[1, 0, 2]), JudgeAnswer::Breaks(3));
    let store_release = programs(&[&[st(X, 1), rel(Y, 1)]]);
    assert_eq!(judged(&store_release, &[0, 2, 1, 3]), JudgeAnswer::Legal);
    assert_eq!(
        judged(&store_release, &[2, 0, 1, 3]),
        JudgeAnswer::Breaks(3)
    );
    assert_eq!(
        judged(&store_release, &[0, 2, 3, 1]),
        JudgeAnswer::Breaks(3)
    );
    let release_later = programs(&[&[rel(X, 1), st(Y, 1), ld(Y, 1)]]);
    assert_eq!(judged(&release_later, &[2, 3, 4, 0, 1]), JudgeAnswer::Legal);
    for pair in [[mf(), mf()], [mf(), ld(X, 0)], [ld(X, 0), mf()]] {
        assert_eq!(judged(&programs(&[&pair]), &[1, 0]), JudgeAnswer::Breaks(4));
    }
    // The fence waits for every RV.
    let fenced = programs(&[&[st(X, 1), mf()], &[]]);
    assert_eq!(judged(&fenced, &[0, 1, 3, 2]), JudgeAnswer::Breaks(4));
}

#[test]
fn dependences() {
    let raw = programs(&[&[st(X, 1), ld(X, 0)]]);
    assert_eq!(judged(&raw, &[2, 0, 1]), JudgeAnswer::Breaks(5));
    let war = programs(&[&[ld(X, 1), st(X, 1)]]);
    assert_eq!(judged(&war, &[1, 2, 0]), JudgeAnswer::Breaks(6));
    assert_eq!(judged(&war, &[1, 0, 2]), JudgeAnswer::Breaks(6));
    let waw = programs(&[&[st(X, 1), st(X, 2)]]);
    assert_eq!(judged(&waw, &[2, 0, 1, 3]), JudgeAnswer::Breaks(7));
    let apart = programs(&[&[st(X, 1), st(X + 1, 2)]]);
    assert_eq!(judged(&apart, &[2, 3, 0, 1]), JudgeAnswer::Legal);
    let wide = programs(&[&[notation::access(Kind::Store, X, &[1, 2]), st(X + 1, 2)]]);
    assert_eq!(judged(&wide, &[2, 3, 0, 1]), JudgeAnswer::Breaks(7));
    let flow = programs(&[&[ld(X, 0), ld(Y, 0)]]);
    assert_eq!(judged(&flow, &[1, 0]), JudgeAnswer::Legal);
    assert_eq!(judged(&flow.pair(0, 1), &[1, 0]), JudgeAnswer::Breaks(8));
    let from_store = programs(&[&[st(X, 1), ld(Y, 0)]]).pair(0, 1);
    assert_eq!(judged(&from_store, &[2, 0, 1]), JudgeAnswer::Breaks(8));
    assert_eq!(judged(&from_store, &[0, 2, 1]), JudgeAnswer::Legal);
}

#[test]
fn coherence() {
    let own = programs(&[&[st(X, 1), st(X, 2)], &[]]);
    let two = programs(&[&[st(X, 1)], &[st(X, 2)]]);
    for attribute in Attribute::all() {
        let coherent = attribute != Attribute::WriteCoalescing;
        let own = own.clone().all_lines(attribute);
        assert_eq!(judged(&own, &[0, 3, 1, 4, 2, 5]), JudgeAnswer::Legal);
        for order in [[0, 3, 4, 1, 5, 2], [0, 3, 4, 1, 2, 5]] {
            assert_eq!(judged(&own, &order), breaks_if(coherent, 9));
        }
        let order = [0, 3, 1, 4, 5, 2];
        assert_eq!(judged(&own, &order), breaks_if(coherent, 10));
        let two = two.clone().all_lines(attribute);
        assert_eq!(judged(&two, &[0, 3, 1, 2, 5, 4]), JudgeAnswer::Legal);
        let order = [0, 3, 1, 5, 4, 2];
        assert_eq!(judged(&two, &order), breaks_if(coherent, 10));
    }
}

/// Rule 10 is settled by the first RV of either store, before all of them stand.
#[test]
fn coherence_of_a_prefix() {
    let two = programs(&[&[st(X, 1)], &[st(X, 2)]]);
    assert_eq!(broken_by(&two, &[0, 1, 3]), None);
    assert_eq!(broken_by(&two, &[0, 1, 3, 5]), Some(10));
    assert_eq!(broken_by(&two, &[0, 1, 2, 3, 5]), None);
    assert_eq!(broken_by(&two, &[0, 1, 3, 2, 5]), None);
}

#[test]
fn read_value() {
    let own = programs(&[&[st(X, 1), st(X, 2), ld(X, 1)]]);
    assert_eq!(judged(&own, &[0, 1, 2, 3, 4]), JudgeAnswer::Breaks(11));
    // Local through the second store though the first is visible; its byte is the latest LV.
    let seen = programs(&[&[st(X, 1), st(X, 2), ld(X, 2)]]);
    assert_eq!(judged(&seen, &[0, 1, 2, 4, 3]), JudgeAnswer::Legal);
    assert_eq!(judged(&seen, &[0, 2, 4, 1, 3]), JudgeAnswer::Legal);
    // A local read does not see a later RV of another processor.
    let other = programs(&[&[st(X, 1), ld(X, 1)], &[st(X, 2)]]);
    assert_eq!(judged(&other, &[0, 4, 6, 5, 3, 1, 2]), JudgeAnswer::Legal);
    assert_eq!(judged(&other, &[0, 4, 6, 5, 1, 2, 3]), JudgeAnswer::Legal);
    assert_eq!(
        judged(&other, &[0, 1, 2, 4, 6, 5, 3]),
        JudgeAnswer::Breaks(11)
    );
    let initial = programs(&[&[ld(X, 5)]]);
    assert_eq!(broken_by(&initial, &[]), None);
    assert_eq!(broken_by(&initial, &[0]), Some(11));
    assert_eq!(broken_by(&initial.initial(X, 5), &[0]), None);
}

/// Each byte of a wide load has a source of its own.
#[test]
fn read_value_by_bytes() {
    let wide = notation::access(Kind::Load, X, &[1, 2, 9, 9]);
    let draft = programs(&[&[st(X, 1), wide], &[st(X + 1, 2)]])
        .initial(X + 2, 9)
        .initial(X + 3, 9);
    // Byte 0 is local, byte 1 visible from the other processor, the rest initial.
    assert_eq!(judged(&draft, &[0, 4, 6, 5, 3, 1, 2]), JudgeAnswer::Legal);
    assert_eq!(
        judged(&draft, &[0, 3, 4, 6, 5, 1, 2]),
        JudgeAnswer::Breaks(11)
    );
}

#[test]
fn release_atomicity() {
    let draft = programs(&[&[rel(X, 1)], &[ld(Y, 0)]]);
    for attribute in Attribute::all() {
        let draft = draft.clone().all_lines(attribute);
        let block = attribute == Attribute::WriteBack;
        assert_eq!(judged(&draft, &[0, 3, 1, 2]), JudgeAnswer::Legal);
        assert_eq!(judged(&draft, &[0, 1, 3, 2]), breaks_if(block, 12));
    }
    assert_eq!(broken_by(&draft, &[0, 1]), None);
    assert_eq!(broken_by(&draft, &[0, 1, 3]), Some(12));
    let plain = programs(&[&[st(X, 1)], &[ld(Y, 0)]]);
    assert_eq!(judged(&plain, &[0, 1, 3, 2]), JudgeAnswer::Legal);
}

/// Two accesses to one line are in one domain, wherever they lie; on two lines, see `uncacheable_order_in_domains`.
#[test]
fn uncacheable_order() {
    let line = programs(&[&[ld(X, 0), ld(X + 7, 0)]]);
    // An mf is no access, though its address is 0.
    let fence = programs(&[&[ld(Y, 0), mf(), ld(Y, 0)]]);
    for attribute in (0..DOMAINS).map(uc) {
        let line = line.clone().all_lines(attribute);
        assert_eq!(judged(&line, &[0, 1]), JudgeAnswer::Legal);
        assert_eq!(judged(&line, &[1, 0]), JudgeAnswer::Breaks(13));
        let fence = fence.clone().all_lines(attribute);
        assert_eq!(judged(&fence, &[1, 0, 2]), JudgeAnswer::Breaks(4));
    }
}

#[test]
fn no_bypass() {
    let bypass = programs(&[&[st(X, 1), ld(X, 1)]]);
    let disjoint = programs(&[&[st(X, 1), ld(X + 1, 0)]]);
    for attribute in Attribute::all() {
        let bypass = bypass.clone().all_lines(attribute);
        let uncacheable = attribute.is_uncacheable();
        assert_eq!(judged(&bypass, &[0, 1, 2]), JudgeAnswer::Legal);
        assert_eq!(judged(&bypass, &[0, 2, 1]), breaks_if(uncacheable, 14));
        assert_eq!(broken_by(&bypass, &[0, 2]), uncacheable.then_some(14));
        let disjoint = disjoint.clone().all_lines(attribute);
        assert_eq!(judged(&disjoint, &[0, 2, 1]), JudgeAnswer::Legal);
    }
}

/// Document 01's table of the program-order rules, earlier kind by row; behind its five kinds document 02's semaphores.
const PROGRAM_ORDER: [[&str; 7]; 7] = [
    ["", "", "", "L", "F", "", "L"],
    ["A", "A", "A", "AL", "AF", "A", "AL"],
    ["", "", "", "L", "F", "", "L"],
    ["", "", "", "L", "F", "", "L"],
    ["F", "F", "F", "F", "F", "F", "F"],
    ["A", "A", "A", "AL", "AF", "A", "AL"],
    ["", "", "", "L", "F", "", "L"],
];

/// The rule of the first letter, if there is one.
fn program_order_rule(earlier: Kind, later: Kind) -> Option<u8> {
    let letters = PROGRAM_ORDER[earlier as usize][later as usize];
    letters.chars().next().map(|letter| match letter {
        'A' => 2,
        'L' => 3,
        _ => 4,
    })
}

fn instruction(kind: Kind, address: u8) -> Instruction {
    match kind {
        Kind::Fence => mf(),
        Kind::SemaphoreAcquire | Kind::SemaphoreRelease => {
            notation::semaphore(kind, address, &[0], &[0])
        }
        _ => notation::access(kind, address, &[0]),
    }
}

/// All pairs of an earlier and a later kind.
fn pairs_of_kinds() -> impl Iterator<Item = (Kind, Kind)> {
    let kinds = Kind::ALL.into_iter();
    kinds.flat_map(|earlier| Kind::ALL.map(|later| (earlier, later)))
}

/// All pairs of attributes: UC in every two domains among them.
fn pairs_of_attributes() -> Vec<[Attribute; 2]> {
    let all = Attribute::all();
    let firsts = all.iter();
    let pairs = firsts.flat_map(|&first| all.iter().map(move |&second| [first, second]));
    pairs.collect()
}

/// An order of two instructions in one program: the later one's R, LV or F, of a semaphore R and LV; then all others as they are
/// numbered. And how many of it come first.
fn later_first(draft: &Draft) -> (Vec<u8>, usize) {
    let e = draft.clone().build();
    let of_later = e.operations_of(1);
    let first = of_later.filter(|&at| !matches!(e.operations[at].role, Role::Remote(_)));
    let mut order: Vec<u8> = first.map(|at| at as u8).collect();
    let count = order.len();
    let others = (0..e.operation_count() as u8).filter(|other| !order[..count].contains(other));
    order.extend(others.collect::<Vec<u8>>());
    (order, count)
}

/// Two instructions of each pair of kinds, the later one's operations put first: the lowest rule
/// broken is that of the first letter, if there is one.
#[test]
fn program_order_table() {
    for (earlier, later) in pairs_of_kinds() {
        let draft = programs(&[&[instruction(earlier, X), instruction(later, Y)]]);
        let expected = program_order_rule(earlier, later);
        let (order, first) = later_first(&draft);
        assert_eq!(broken_by(&draft, &order[..first]), expected);
        let judgement = expected.map_or(JudgeAnswer::Legal, JudgeAnswer::Breaks);
        assert_eq!(judged(&draft, &order), judgement);
    }
}

/// Two accesses in the same way on every two attributes: where there is no letter, rule 13 is broken if both are UC in one domain.
/// Semaphores lie on WB.
#[test]
fn uncacheable_order_in_domains() {
    let anywhere = |kind: Kind| kind != Kind::Fence && !kind.is_semaphore();
    let accesses = |&(a, b): &(Kind, Kind)| anywhere(a) && anywhere(b);
    for (earlier, later) in pairs_of_kinds().filter(accesses) {
        for [first, second] in pairs_of_attributes() {
            let draft = programs(&[&[instruction(earlier, X), instruction(later, Y)]]);
            let draft = draft.line(0, first).line(1, second);
            let one_domain = first.is_uncacheable() && first == second;
            let rule = program_order_rule(earlier, later).or(one_domain.then_some(13));
            let expected = rule.map_or(JudgeAnswer::Legal, JudgeAnswer::Breaks);
            let (order, first) = later_first(&draft);
            assert_eq!(judged(&draft, &order), expected, "{draft:?}");
            assert_eq!(broken_by(&draft, &order[..first]), rule);
        }
    }
}
