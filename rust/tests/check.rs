//! The proved reader beside the independent one: they answer alike on every record, whole, damaged, cut, lengthened and random.

use oglindesh::answers::Refusals;
use oglindesh::beside::check;
use oglindesh::generate::{damaged, execution, failing, Shape};
use oglindesh::random::Random;
use oglindesh::reference::record::QUESTIONS;

/// Asks both readers, and counts their answer. No record is refused with a number that is not asked.
fn ask(tally: &mut Refusals, bytes: &[u8]) {
    let answer = check(bytes);
    let asked = answer.map_or_else(|question| QUESTIONS.contains(&question), |()| true);
    assert!(asked, "{answer:?} of the record {bytes:?}");
    tally.count(&answer);
}

#[test]
fn readers_agree_on_generated_records() {
    let mut random = Random::new(1);
    let mut tally = Refusals::default();
    for round in 0..20_000 {
        let shape = Shape::ALL[round % 3];
        let execution = execution(&mut random, &shape);
        ask(&mut tally, &execution.to_bytes());
        ask(&mut tally, &damaged(&mut random, &execution));
        let question = QUESTIONS[round % QUESTIONS.len()];
        ask(&mut tally, &failing(&mut random, question));
    }
    assert!(tally.0[0] > 0, "no record was accepted");
    assert_eq!(tally.reached(), QUESTIONS);
}

#[test]
fn readers_agree_on_every_cut_and_one_byte_more() {
    let mut random = Random::new(2);
    let mut tally = Refusals::default();
    for _ in 0..50 {
        let mut bytes = execution(&mut random, &Shape::SMALL).to_bytes();
        for length in 0..=bytes.len() {
            ask(&mut tally, &bytes[..length]);
        }
        bytes.push(random.byte());
        ask(&mut tally, &bytes);
    }
    assert!(tally.0[0] > 0);
    assert_eq!(tally.reached(), [1, 15]);
}

/// Bytes at the bounds of the questions, and beside the attribute bytes.
const VALUES: [u8; 22] = [
    0, 1, 2, 3, 4, 5, 7, 8, 9, 16, 17, 18, 33, 34, 40, 41, 49, 50, 65, 127, 128, 255,
];

#[test]
fn readers_agree_on_every_byte_changed() {
    let mut random = Random::new(3);
    let mut tally = Refusals::default();
    for _ in 0..20 {
        let bytes = execution(&mut random, &Shape::SMALL).to_bytes();
        for at in 0..bytes.len() {
            for value in VALUES {
                let mut changed = bytes.clone();
                changed[at] = value;
                ask(&mut tally, &changed);
            }
        }
    }
    let reached = tally.reached();
    assert!(reached.len() > 9, "{reached:?}");
}

#[test]
fn readers_agree_on_random_bytes() {
    let mut random = Random::new(4);
    let mut tally = Refusals::default();
    for _ in 0..20_000 {
        let length = random.below(80);
        let small = random.once_in(2);
        let bytes: Vec<u8> = (0..length)
            .map(|_| {
                if small {
                    random.byte() % 6
                } else {
                    random.byte()
                }
            })
            .collect();
        ask(&mut tally, &bytes);
    }
    let reached = tally.reached();
    assert!(reached.contains(&1) && reached.contains(&2), "{reached:?}");
}

#[test]
fn no_bytes() {
    assert_eq!(check(&[]), Err(1));
}
