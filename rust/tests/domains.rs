//! Peripheral domains of UC lines (document 02, P6): what they decide, what they do not, and that generated records have both.

use oglindesh::answers::answers;
use oglindesh::beside::{judge, search};
use oglindesh::generate::{consistent_prefix, execution, Shape, ATTRIBUTES};
use oglindesh::random::Random;
use oglindesh::reference::notation::uc;
use oglindesh::reference::record::{Execution, Instruction, Kind, DOMAINS};
use oglindesh::reference::rules::{lowest_broken, JudgeAnswer};
use oglindesh::reference::search::SearchAnswer;
use std::collections::BTreeSet;

/// Two UC accesses of one program, by their numbers, and whether they are in one domain.
#[derive(Clone, Copy, PartialEq, Eq, Debug)]
struct TwoAccesses {
    earlier: usize,
    later: usize,
    one_domain: bool,
}

/// All of them.
fn two_uncacheable(e: &Execution) -> Vec<TwoAccesses> {
    let domain = |i: usize| match e.instructions[i].kind {
        Kind::Fence => None,
        _ => e.attribute(i).domain(),
    };
    let laters = 0..e.instructions.len();
    let all = laters.flat_map(|later| (0..later).map(move |earlier| (earlier, later)));
    all.filter(|&(earlier, later)| e.same_program(earlier, later))
        .filter_map(|(earlier, later)| {
            let one_domain = domain(earlier)? == domain(later)?;
            Some(TwoAccesses {
                earlier,
                later,
                one_domain,
            })
        })
        .collect()
}

/// The execution with its UC lines moved to other domains, one after another; those that one access lies on go together.
fn moved(e: &Execution, mut to: impl FnMut() -> u8) -> Execution {
    let mut other = e.clone();
    for line in 0..e.lines.len() {
        if !e.lines[line].attribute.is_uncacheable() {
            continue;
        }
        let mut accesses = e.instructions.iter().map(Instruction::lines);
        let over = accesses.find(|lines| lines.contains(&line) && lines.start < line);
        other.lines[line].attribute = match over {
            Some(lines) => other.lines[lines.start].attribute,
            None => uc(to()),
        };
    }
    other
}

/// Of every shape: lines of every attribute, and two UC accesses of one program on two lines, in one domain and in two.
#[test]
fn generated_records_have_both() {
    let mut random = Random::new(61);
    for shape in Shape::ALL {
        let (mut one, mut two) = (0, 0);
        let mut bytes = BTreeSet::new();
        for _ in 0..2500 {
            let e = execution(&mut random, &shape);
            bytes.extend(e.lines.iter().map(|line| line.attribute.byte()));
            let mut all = two_uncacheable(&e);
            let lines = |access: usize| e.instructions[access].lines();
            all.retain(|t| lines(t.earlier) != lines(t.later));
            one += usize::from(all.iter().any(|t| t.one_domain));
            two += usize::from(all.iter().any(|t| !t.one_domain));
        }
        assert!(one > 40 && two > 40, "{shape:?}: {one} and {two} records");
        assert!(bytes.into_iter().eq(ATTRIBUTES), "{shape:?}");
    }
}

/// All UC lines of an old record are in domain 0, and every two UC accesses of one program are ordered. What is said of it is said
/// of one domain, whichever that is.
#[test]
fn old_records_mean_what_they_meant() {
    let mut random = Random::new(62);
    let mut ordered = 0;
    for round in 0..600 {
        let old = moved(&execution(&mut random, &Shape::ALL[round % 3]), || 0);
        let seed = random.next_u64();
        let expected = answers(&old, seed);
        for two in two_uncacheable(&old) {
            let [a, b] = [two.earlier, two.later].map(|access| old.read_or_local(access));
            assert_eq!(expected.table[a * old.operation_count() + b], 1, "{old:?}");
            ordered += 1;
        }
        for domain in 1..DOMAINS {
            let other = moved(&old, || domain);
            assert_eq!(answers(&other, seed), expected, "{other:?}");
        }
    }
    assert!(ordered > 200, "{ordered} times two accesses are ordered");
}

/// Nothing but whether two accesses of one program share a domain: rules 9, 10, 12 and 14 ignore it, and rule 13 its number.
#[test]
fn only_shared_domains_matter() {
    let mut random = Random::new(63);
    let (mut alone, mut parted) = (0, 0);
    for round in 0..3000 {
        let e = execution(&mut random, &Shape::ALL[round % 3]);
        let other = moved(&e, || random.below(DOMAINS.into()) as u8);
        let all = two_uncacheable(&e);
        if other == e || two_uncacheable(&other) != all {
            continue;
        }
        alone += usize::from(all.iter().all(|t| t.one_domain));
        parted += usize::from(all.iter().any(|t| !t.one_domain));
        let seed = random.next_u64();
        assert_eq!(answers(&other, seed), answers(&e, seed), "{other:?}");
    }
    assert!(alone > 200 && parted > 40, "{alone} and {parted} records");
}

/// With all UC lines in one domain there are more links and fewer consistent prefixes, by rule 13 alone.
#[test]
fn one_domain_forbids_more() {
    let mut random = Random::new(64);
    let (mut tables, mut searches, mut prefixes) = (0, 0, 0);
    for round in 0..4500 {
        let e = execution(&mut random, &Shape::ALL[round % 3]);
        let one = moved(&e, || 3);
        let seed = random.next_u64();
        let [parted, joined] = [&e, &one].map(|e| answers(e, seed));
        let mut marks = parted.table.iter().zip(&joined.table);
        assert!(marks.all(|(parted, joined)| parted <= joined), "{e:?}");
        tables += usize::from(parted.table != joined.table);
        searches += usize::from(parted.search != joined.search);
        if let Some(order) = joined.found() {
            assert_eq!(judge(&e.to_bytes(), order), JudgeAnswer::Legal, "{e:?}");
        }
        // A position of the one record is taken for the other, or fails question 21 there.
        let position = consistent_prefix(&mut random, &e);
        let mut buffer = [255; 128];
        buffer[..position.len()].copy_from_slice(&position);
        let reply = search(&one.to_bytes(), &mut buffer, position.len(), 0);
        let broken = lowest_broken(&one, &position);
        let refused = reply.answer == SearchAnswer::Refused(21);
        assert_eq!(broken, refused.then_some(13), "{e:?} at {position:?}");
        prefixes += usize::from(refused);
    }
    let counted = [tables, searches, prefixes];
    assert!(
        counted.iter().all(|&count| count > 100),
        "{counted:?} tables, searches and prefixes differ"
    );
}
