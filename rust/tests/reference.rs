//! The reference against itself: brute force against plain enumeration, incremental search against brute force.

use oglindesh::generate::{
    consistent_prefix, damage_entries, damaged, execution, failing, order, Shape,
};
use oglindesh::random::Random;
use oglindesh::reference::chains::chain_table;
use oglindesh::reference::counting::count;
use oglindesh::reference::fast;
use oglindesh::reference::record::{read, Execution, QUESTIONS};
use oglindesh::reference::rules::{judge, links, lowest_broken, JudgeAnswer};
use oglindesh::reference::search::{search, SearchAnswer, SearchReply};
use std::collections::BTreeSet;

/// Makes the same call both ways, and gives the reply and the buffer that both left.
fn search_both(bytes: &[u8], buffer: &mut [u8], saved: usize, allowance: u32) -> SearchReply {
    let mut other = buffer.to_vec();
    let reply = search(bytes, buffer, saved, allowance);
    let fast_reply = fast::search(bytes, &mut other, saved, allowance);
    assert_eq!(
        fast_reply, reply,
        "{bytes:?} from {saved}, {allowance} steps"
    );
    assert_eq!(other, buffer, "{bytes:?} from {saved}, {allowance} steps");
    reply
}

/// Of every shape some executions have no instruction.
#[test]
fn written_records_are_read_back() {
    let mut random = Random::new(2);
    for shape in Shape::ALL {
        let mut empty = 0;
        for _ in 0..300 {
            let e = execution(&mut random, &shape);
            empty += usize::from(e.instructions.is_empty());
            assert_eq!(read(&e.to_bytes()), Ok(e));
        }
        assert!((10..100).contains(&empty), "{shape:?}: {empty}");
    }
}

/// All lists of different operations, in lexicographic order.
fn all_lists(count: u8, list: &mut Vec<u8>, all: &mut Vec<Vec<u8>>) {
    all.push(list.clone());
    for next in 0..count {
        if !list.contains(&next) {
            list.push(next);
            all_lists(count, list, all);
            list.pop();
        }
    }
}

/// The consistent prefixes up to the first full one, by testing every list on its own.
fn listed(e: &Execution) -> Vec<Vec<u8>> {
    let count = e.operation_count();
    let mut all = Vec::new();
    all_lists(count as u8, &mut Vec::new(), &mut all);
    assert!(all.is_sorted());
    all.retain(|list| lowest_broken(e, list).is_none());
    let full = all.iter().position(|list| list.len() == count);
    all.truncate(full.map_or(all.len(), |at| at + 1));
    all
}

/// From every consistent prefix, with every allowance up to one too many, the search goes where
/// document 01 says.
#[test]
fn search_follows_the_list() {
    let mut random = Random::new(3);
    for _ in 0..120 {
        let e = execution(&mut random, &Shape::TINY);
        let bytes = e.to_bytes();
        let list = listed(&e);
        let from = random.below(list.len());
        let ahead = list.len() - 1 - from;
        for allowance in 0..ahead + 2 {
            check_call(&e, &bytes, &list, from, allowance);
        }
    }
}

fn check_call(e: &Execution, bytes: &[u8], list: &[Vec<u8>], from: usize, allowance: usize) {
    let count = e.operation_count();
    let position = &list[from];
    let mut buffer = vec![200; count + 2];
    buffer[..position.len()].copy_from_slice(position);
    let mut expected = buffer.clone();
    let reply = search_both(bytes, &mut buffer, position.len(), allowance as u32);
    let m = list.len() - 1 - from;
    let last_is_full = list[list.len() - 1].len() == count;
    let (answer, reached) = match allowance < m {
        true => (SearchAnswer::Unfinished, from + allowance),
        false if last_is_full => (SearchAnswer::Allowed, list.len() - 1),
        false => (SearchAnswer::Forbidden, from),
    };
    expected[..list[reached].len()].copy_from_slice(&list[reached]);
    assert_eq!(reply.answer, answer);
    assert_eq!(reply.steps as usize, allowance.min(m));
    assert_eq!(reply.length, list[reached].len());
    assert_eq!(buffer, expected);
}

/// Steps of one record that are left to the brute force.
const STEPS_EACH: u32 = 2000;

/// Random small records, searched in several calls with random allowances, each both ways.
#[test]
fn fast_is_brute_force_from_the_start() {
    let mut random = Random::new(4);
    let mut answers = [0; 3];
    for _ in 0..2000 {
        let e = execution(&mut random, &Shape::SMALL);
        let bytes = e.to_bytes();
        let mut buffer = [255; 128];
        let (mut length, mut steps) = (0, 0);
        let answer = loop {
            let allowance = random.pick(&[0, 1, 2, 7, 40, 200, 1000]);
            let reply = search_both(&bytes, &mut buffer, length, allowance);
            length = reply.length;
            steps += reply.steps;
            if reply.answer != SearchAnswer::Unfinished || steps > STEPS_EACH {
                break reply.answer;
            }
        };
        let mut whole = [255; 128];
        let reply = fast::search(&bytes, &mut whole, 0, steps);
        assert_eq!((reply.answer, reply.steps), (answer, steps));
        match answer {
            SearchAnswer::Allowed => {
                answers[0] += 1;
                assert_eq!(judge(&bytes, &buffer[..length]), JudgeAnswer::Legal);
            }
            SearchAnswer::Forbidden => answers[1] += 1,
            _ => answers[2] += 1,
        }
    }
    println!("allowed, forbidden, unfinished: {answers:?}");
    assert!(answers[0] >= 400 && answers[1] >= 400, "{answers:?}");
}

/// Random consistent positions, wherever they lie, and random other entries.
#[test]
fn fast_is_brute_force_from_anywhere() {
    let mut random = Random::new(5);
    for _ in 0..1500 {
        let e = execution(&mut random, &Shape::SMALL);
        let mut position = consistent_prefix(&mut random, &e);
        if random.once_in(2) {
            damage_entries(&mut random, &mut position);
        }
        let mut buffer = [77; 130];
        buffer[..position.len()].copy_from_slice(&position);
        let allowance = random.pick(&[0, 1, 5, 60]);
        search_both(&e.to_bytes(), &mut buffer, position.len(), allowance);
    }
}

/// Large records: the reader, the incremental search and the brute force for a few steps.
#[test]
fn fast_is_brute_force_on_large_records() {
    let mut random = Random::new(6);
    for _ in 0..60 {
        let e = execution(&mut random, &Shape::LARGE);
        let mut buffer = [0; 128];
        let first = search_both(&e.to_bytes(), &mut buffer, 0, 8);
        search_both(&e.to_bytes(), &mut buffer, first.length, 3);
    }
}

/// Both searches agree with the judge on which rule the prefix breaks first: none.
#[test]
fn judge_is_consistency_of_full_prefixes() {
    let mut random = Random::new(7);
    let mut broken = BTreeSet::new();
    for _ in 0..8000 {
        let e = execution(&mut random, &Shape::SMALL);
        let bytes = e.to_bytes();
        let count = e.operation_count();
        let mut offered = [0; 128];
        let reply = fast::search(&bytes, &mut offered, 0, 2000);
        let mut offered = match reply.answer {
            SearchAnswer::Allowed => offered[..count].to_vec(),
            _ => order(&mut random, count),
        };
        let moves = if count > 0 { random.below(3) } else { 0 };
        for _ in 0..moves {
            let moved = offered.remove(random.below(count));
            offered.insert(random.below(count), moved);
        }
        let mut buffer = offered.clone();
        let full = search_both(&bytes, &mut buffer, count, 9);
        assert_eq!(buffer, offered);
        match judge(&bytes, &offered) {
            JudgeAnswer::Legal => assert_eq!(full.answer, SearchAnswer::Allowed),
            JudgeAnswer::Breaks(rule) => {
                assert_eq!(full.answer, SearchAnswer::Refused(21));
                broken.insert(rule);
            }
            JudgeAnswer::Refused(question) => panic!("question {question}"),
        }
    }
    assert!(broken.iter().copied().eq(1..=16), "{broken:?}");
}

#[test]
fn targeted_damage_fails_its_question() {
    let mut random = Random::new(8);
    for question in QUESTIONS {
        for _ in 0..200 {
            let bytes = failing(&mut random, question);
            assert_eq!(read(&bytes), Err(question), "{bytes:?}");
        }
    }
}

/// The question that refuses one random call of a random kind, if any does; a refusal changes nothing.
fn refused_call(random: &mut Random) -> Option<u8> {
    let e = execution(random, &Shape::SMALL);
    let count = e.operation_count();
    let bytes = if random.once_in(4) {
        damaged(random, &e)
    } else {
        e.to_bytes()
    };
    let mut entries = if random.once_in(3) {
        order(random, count)
    } else {
        consistent_prefix(random, &e)
    };
    if random.once_in(2) {
        damage_entries(random, &mut entries);
    }
    match random.below(3) {
        0 => match judge(&bytes, &entries) {
            JudgeAnswer::Refused(question) => Some(question),
            _ => None,
        },
        1 => refused_search(random, &bytes, entries, count),
        _ => {
            let length = (count * count + 3).saturating_sub(random.below(6));
            let mut table = vec![random.byte(); length];
            let before = table.clone();
            let refused = chain_table(&bytes, &mut table).err();
            assert!(refused.is_none() || table == before);
            refused
        }
    }
}

fn refused_search(
    random: &mut Random,
    bytes: &[u8],
    mut buffer: Vec<u8>,
    count: usize,
) -> Option<u8> {
    let saved = if random.once_in(6) {
        count + random.below(3)
    } else {
        buffer.len()
    };
    let length = (count + 3).saturating_sub(random.below(6));
    buffer.resize(length, random.byte());
    let before = buffer.clone();
    let reply = search_both(bytes, &mut buffer, saved, 5);
    let SearchAnswer::Refused(question) = reply.answer else {
        return None;
    };
    assert_eq!((reply.steps, reply.length), (0, saved));
    assert_eq!(buffer, before);
    Some(question)
}

#[test]
fn every_question_is_reached() {
    let mut random = Random::new(9);
    let mut reached = BTreeSet::new();
    for _ in 0..6000 {
        reached.extend(refused_call(&mut random));
    }
    println!("reached without aiming: {reached:?}");
    let by_calls: BTreeSet<u8> = (16..=22).collect();
    assert!(reached.is_superset(&by_calls), "{reached:?}");
    for question in QUESTIONS {
        reached.extend(read(&failing(&mut random, question)).err());
    }
    let all: BTreeSet<u8> = QUESTIONS.into_iter().chain(by_calls).collect();
    assert_eq!(reached, all);
}

/// Every list of a tiny record, tested on its own, and the walk over small records that are forbidden.
#[test]
fn counting_over_sets_is_the_walk() {
    let mut random = Random::new(12);
    for _ in 0..120 {
        let e = execution(&mut random, &Shape::TINY);
        let mut all = Vec::new();
        all_lists(e.operation_count() as u8, &mut Vec::new(), &mut all);
        all.retain(|list| lowest_broken(&e, list).is_none());
        let full = all.iter().filter(|list| list.len() == e.operation_count());
        let counted = count(&e, usize::MAX).expect("no bound");
        assert_eq!(counted.prefixes, all.len() as u128 - 1, "{e:?}");
        assert_eq!(counted.full, full.count() as u128, "{e:?}");
    }
    let mut forbidden = 0;
    for _ in 0..1500 {
        let e = execution(&mut random, &Shape::SMALL);
        let reply = fast::search(&e.to_bytes(), &mut [0; 128], 0, 5000);
        if reply.answer == SearchAnswer::Unfinished {
            continue;
        }
        let Some(counted) = count(&e, 3000) else {
            continue;
        };
        let allowed = reply.answer == SearchAnswer::Allowed;
        assert_eq!(counted.full > 0, allowed, "{e:?}");
        if !allowed {
            forbidden += 1;
            assert_eq!(counted.prefixes, u128::from(reply.steps), "{e:?}");
        }
    }
    assert!(forbidden > 300, "{forbidden} forbidden ones counted");
}

/// The closure by repeated squaring of the marks, to hold the depth-first walk to.
fn closed(e: &Execution) -> Vec<u8> {
    let count = e.operation_count();
    let mut marks = vec![0; count * count];
    for (a, b) in links(e) {
        marks[a * count + b] = 1;
    }
    for through in 0..count {
        for a in 0..count {
            for b in 0..count {
                marks[a * count + b] |= marks[a * count + through] & marks[through * count + b];
            }
        }
    }
    marks
}

#[test]
fn chain_table_is_the_closure() {
    let mut random = Random::new(10);
    for _ in 0..150 {
        let e = execution(&mut random, &Shape::LARGE);
        let size = e.operation_count() * e.operation_count();
        let mut table = vec![9; size + 4];
        assert_eq!(chain_table(&e.to_bytes(), &mut table), Ok(()));
        assert_eq!(table[..size], closed(&e));
        assert_eq!(table[size..], [9; 4]);
    }
}

/// A marked pair stands in its order in every legal order, and the diagonal has no mark.
#[test]
fn chains_bind_the_orders() {
    let mut random = Random::new(11);
    for _ in 0..400 {
        let e = execution(&mut random, &Shape::SMALL);
        let (bytes, count) = (e.to_bytes(), e.operation_count());
        let mut table = vec![0; count * count];
        assert_eq!(chain_table(&bytes, &mut table), Ok(()));
        assert!((0..count).all(|a| table[a * count + a] == 0));
        let mut order = [0; 128];
        let reply = fast::search(&bytes, &mut order, 0, 2000);
        if reply.answer != SearchAnswer::Allowed {
            continue;
        }
        for (at, &earlier) in order[..count].iter().enumerate() {
            for &later in &order[at + 1..count] {
                assert_eq!(table[usize::from(later) * count + usize::from(earlier)], 0);
            }
        }
    }
}
