//! The proved judge beside the independent one, on legal orders, orders near legal ones, random and refused ones.

use oglindesh::beside::judge;
use oglindesh::generate::{damage_entries, damaged, every_order, execution, order, Shape};
use oglindesh::random::Random;
use oglindesh::reference::fast;
use oglindesh::reference::record::Execution;
use oglindesh::reference::rules::JudgeAnswer;
use oglindesh::reference::search::SearchAnswer;

/// How often each answer was given.
struct Tally {
    legal: usize,
    broken: [usize; 17],
    refused: [usize; 28],
}

impl Tally {
    fn new() -> Tally {
        Tally {
            legal: 0,
            broken: [0; 17],
            refused: [0; 28],
        }
    }

    /// Asks both judges, and counts their answer.
    fn ask(&mut self, bytes: &[u8], order: &[u8]) {
        match judge(bytes, order) {
            JudgeAnswer::Legal => self.legal += 1,
            JudgeAnswer::Breaks(rule) => self.broken[usize::from(rule)] += 1,
            JudgeAnswer::Refused(question) => self.refused[usize::from(question)] += 1,
        }
    }
}

/// A legal order if a short search finds one, else any order.
fn near_legal(random: &mut Random, execution: &Execution, bytes: &[u8]) -> Vec<u8> {
    let count = execution.operation_count();
    let mut found = [0; 128];
    match fast::search(bytes, &mut found, 0, 3000).answer {
        SearchAnswer::Allowed => found[..count].to_vec(),
        _ => order(random, count),
    }
}

#[test]
fn judges_agree_near_legal_orders() {
    let mut random = Random::new(11);
    let mut tally = Tally::new();
    for round in 0..6000 {
        let shape = [Shape::TINY, Shape::SMALL, Shape::SMALL, Shape::LARGE][round % 4];
        let execution = execution(&mut random, &shape);
        let bytes = execution.to_bytes();
        let legal = near_legal(&mut random, &execution, &bytes);
        tally.ask(&bytes, &legal);
        let others = if legal.is_empty() { 0 } else { 4 };
        for _ in 0..others {
            // One entry moved, or two exchanged.
            let mut other = legal.clone();
            let (at, to) = (random.below(other.len()), random.below(other.len()));
            if random.once_in(2) {
                other.swap(at, to);
            } else {
                let moved = other.remove(at);
                other.insert(to, moved);
            }
            tally.ask(&bytes, &other);
        }
        let mut refused = legal;
        damage_entries(&mut random, &mut refused);
        tally.ask(&bytes, &refused);
        tally.ask(&damaged(&mut random, &execution), &refused);
    }
    assert!(tally.legal > 0);
    for rule in 1..=16 {
        assert!(tally.broken[rule] > 0, "no order broke rule {rule} first");
    }
    for question in 16..=17 {
        assert!(
            tally.refused[question] > 0,
            "no order reached question {question}"
        );
    }
    assert!(tally.refused[1..16].iter().any(|&count| count > 0));
}

#[test]
fn judges_agree_on_every_order_of_tiny_records() {
    let mut random = Random::new(12);
    let mut tally = Tally::new();
    for _ in 0..150 {
        let execution = execution(&mut random, &Shape::TINY);
        let bytes = execution.to_bytes();
        for order in every_order(execution.operation_count()) {
            tally.ask(&bytes, &order);
        }
    }
    assert!(tally.legal > 0 && tally.broken.iter().filter(|&&count| count > 0).count() > 8);
}

#[test]
fn judges_agree_on_orders_of_any_length() {
    let mut random = Random::new(13);
    let mut tally = Tally::new();
    let rounds = 100;
    for _ in 0..rounds {
        let bytes = execution(&mut random, &Shape::SMALL).to_bytes();
        for length in [0, 1, 2, 127, 128, 129, 255, 256, 257, 1000] {
            let order = random.bytes(length);
            tally.ask(&bytes, &order);
        }
    }
    // At most one of the lengths is that of a record's orders.
    assert!(tally.refused[16] >= 9 * rounds);
    assert!(tally.legal > 0, "no record has the empty order");
}
