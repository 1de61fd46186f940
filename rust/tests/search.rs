//! The proved search beside the incremental one, and held to the brute force: from the start in calls of any allowance, from
//! positions good and bad, in buffers of any length, and with refused calls in between.

use oglindesh::beside::{judge, search};
use oglindesh::generate::{consistent_prefix, damage_entries, damaged, execution, failing, Shape};
use oglindesh::random::Random;
use oglindesh::reference::record::QUESTIONS;
use oglindesh::reference::rules::JudgeAnswer;
use oglindesh::reference::search as brute;
use oglindesh::reference::search::SearchAnswer;

/// How often each answer was given.
#[derive(Default, Debug)]
struct Tally {
    allowed: usize,
    forbidden: usize,
    unfinished: usize,
    refused: [usize; 28],
}

impl Tally {
    fn count(&mut self, answer: SearchAnswer) {
        match answer {
            SearchAnswer::Allowed => self.allowed += 1,
            SearchAnswer::Forbidden => self.forbidden += 1,
            SearchAnswer::Unfinished => self.unfinished += 1,
            SearchAnswer::Refused(question) => self.refused[usize::from(question)] += 1,
        }
    }
}

/// Steps of one record that are searched in parts.
const STEPS_EACH: u32 = 3000;

/// A call that is refused, between two that are not: it leaves the buffer as it came, so the search goes on as if it had not
/// been made.
fn interrupt(random: &mut Random, tally: &mut Tally, bytes: &[u8], buffer: &mut [u8], at: usize) {
    let before = buffer.to_vec();
    let question = random.pick(&QUESTIONS);
    let other = failing(random, question);
    let reply = match random.below(3) {
        0 => search(&other, buffer, at, 50),
        1 => search(bytes, buffer, buffer.len() + 1, 50),
        _ => search(bytes, &mut buffer[..0], 0, 50),
    };
    assert!(matches!(reply.answer, SearchAnswer::Refused(_)));
    assert_eq!(reply.steps, 0);
    assert_eq!(buffer, before);
    tally.count(reply.answer);
}

/// Any cut into allowances, with refused calls in between, comes to the order and the steps of one call.
#[test]
fn parts_come_to_the_whole() {
    let mut random = Random::new(31);
    let mut tally = Tally::default();
    for round in 0..3000 {
        let execution = execution(&mut random, &Shape::ALL[round % 3]);
        let bytes = execution.to_bytes();
        let count = execution.operation_count();
        let length = count + random.below(4);
        let begun = random.bytes(length);
        let mut buffer = begun.clone();
        let (mut at, mut steps) = (0, 0);
        let answer = loop {
            let allowance = random.pick(&[0, 1, 2, 7, 40, 200, 1000]);
            let reply = search(&bytes, &mut buffer, at, allowance);
            at = reply.length;
            steps += reply.steps;
            tally.count(reply.answer);
            if reply.answer != SearchAnswer::Unfinished || steps > STEPS_EACH {
                break reply.answer;
            }
            if random.once_in(4) {
                interrupt(&mut random, &mut tally, &bytes, &mut buffer, at);
            }
        };
        let mut whole = begun.clone();
        let reply = search(&bytes, &mut whole, 0, steps);
        assert_eq!((reply.answer, reply.steps), (answer, steps), "{bytes:?}");
        if answer == SearchAnswer::Allowed {
            assert_eq!(whole[..count], buffer[..count]);
            assert_eq!(whole[count..], begun[count..]);
            assert_eq!(judge(&bytes, &whole[..count]), JudgeAnswer::Legal);
        }
        if answer == SearchAnswer::Forbidden {
            assert_eq!(whole, begun);
        }
    }
    assert!(tally.allowed > 500 && tally.forbidden > 500, "{tally:?}");
    assert!(tally.unfinished > 3000, "{tally:?}");
    let refused = |question: u8| tally.refused[usize::from(question)] > 0;
    assert!(QUESTIONS.into_iter().all(refused), "{tally:?}");
    assert!(refused(18) && refused(19), "{tally:?}");
}

/// Positions that are consistent wherever they lie, positions changed a little, and any bytes, in buffers of any length.
#[test]
fn saved_positions_are_asked_about() {
    let mut random = Random::new(32);
    let mut tally = Tally::default();
    for round in 0..12000 {
        let execution = execution(&mut random, &Shape::ALL[round % 3]);
        let bytes = match random.once_in(12) {
            true => damaged(&mut random, &execution),
            false => execution.to_bytes(),
        };
        let mut position = consistent_prefix(&mut random, &execution);
        for _ in 0..random.below(3) {
            damage_entries(&mut random, &mut position);
        }
        let count = execution.operation_count();
        let length = match random.below(4) {
            0 => random.below(140),
            1 => count,
            _ => count + random.below(9),
        };
        let mut buffer = random.bytes(length);
        let kept = position.len().min(length);
        buffer[..kept].copy_from_slice(&position[..kept]);
        let saved = match random.once_in(20) {
            true => random.pick(&[usize::MAX, 1 << 32, 256, 129, 128]),
            false => position.len(),
        };
        let allowance = random.pick(&[0, 1, 5, 60, 400]);
        tally.count(search(&bytes, &mut buffer, saved, allowance).answer);
    }
    assert!(
        tally.refused[18..=21].iter().all(|&times| times > 200),
        "{tally:?}"
    );
    assert!(tally.allowed > 200 && tally.forbidden > 200, "{tally:?}");
    assert!(tally.unfinished > 200, "{tally:?}");
}

/// The same calls by brute force: what is held to the incremental search above is held to the paper's words here.
#[test]
fn the_brute_force_agrees() {
    let mut random = Random::new(33);
    for _ in 0..1500 {
        let execution = execution(&mut random, &Shape::SMALL);
        let bytes = execution.to_bytes();
        let position = consistent_prefix(&mut random, &execution);
        let mut buffer = random.bytes(130);
        buffer[..position.len()].copy_from_slice(&position);
        let mut other = buffer.clone();
        let allowance = random.pick(&[0, 1, 5, 60]);
        let reply = search(&bytes, &mut buffer, position.len(), allowance);
        let expected = brute::search(&bytes, &mut other, position.len(), allowance);
        assert_eq!(reply, expected, "{bytes:?} from {position:?}");
        assert_eq!(buffer, other, "{bytes:?} from {position:?}");
    }
}
