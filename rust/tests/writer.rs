//! The proved writer beside the independent one (document 02, P1): sections of accepted records and back, damaged and very long
//! sections, every refusal and their order, and the bytes of the buffer.

use oglindesh::answers::Refusals;
use oglindesh::beside::{check, write};
use oglindesh::generate::{self, execution, Shape, ATTRIBUTES};
use oglindesh::proved::numbers::MAX_RECORD;
use oglindesh::random::Random;
use oglindesh::reference::record::{read, QUESTIONS};
use oglindesh::reference::writer::Sections;

/// The numbers that a writer refuses with. Of a record's questions these are all but 1 and 15: what a record is written out of
/// has as many entries as the counts say, each as long as its kind and size say, and nothing behind them.
const REFUSALS: [u8; 17] = [2, 3, 4, 5, 6, 7, 8, 9, 11, 12, 13, 14, 23, 24, 25, 26, 27];

/// An entry of an mf by this processor.
fn mf(processor: u8) -> Vec<u8> {
    vec![processor, 4, 0, 0, 0, 0, 0, 0, 0, 0, 0, 0]
}

/// A one-byte load by this processor of address 0, which saw 0.
fn ld(processor: u8) -> Vec<u8> {
    vec![processor, 0, 0, 1, 0, 0, 0, 0, 0, 0, 0, 0]
}

/// A one-byte store of 1 by this processor to address 0.
fn st(processor: u8) -> Vec<u8> {
    vec![processor, 2, 0, 1, 1, 0, 0, 0, 0, 0, 0, 0]
}

/// Sections by their entries.
#[derive(Clone, PartialEq, Eq, Debug)]
struct Entries {
    processors: u8,
    lines: Vec<Vec<u8>>,
    instructions: Vec<Vec<u8>>,
    pairs: Vec<Vec<u8>>,
}

impl Entries {
    /// These instructions on one WB line of zeros, with no pair.
    fn of(processors: u8, instructions: &[Vec<u8>]) -> Entries {
        Entries {
            processors,
            lines: vec![vec![0; 9]],
            instructions: instructions.to_vec(),
            pairs: Vec::new(),
        }
    }

    fn sections(&self) -> Sections {
        Sections {
            processors: self.processors,
            lines: self.lines.concat(),
            instructions: self.instructions.concat(),
            pairs: self.pairs.concat(),
        }
    }

    /// The instructions in a random order that keeps those of one processor in theirs.
    fn interleaved(&self, random: &mut Random) -> Entries {
        let mut order: Vec<u8> = self.instructions.iter().map(|e| e[0]).collect();
        random.shuffle(&mut order);
        let mut left = self.instructions.clone();
        let mut next = |processor: u8| {
            let at = left.iter().position(|e| e[0] == processor);
            left.remove(at.expect("the order has each as often"))
        };
        Entries {
            instructions: order.into_iter().map(&mut next).collect(),
            ..self.clone()
        }
    }

    /// The instructions of processor 0, then those of processor 1, and so on.
    fn grouped(&self) -> Entries {
        let all = |processor: u8| {
            let entries = self.instructions.iter();
            entries.filter(move |e| e[0] == processor).cloned()
        };
        Entries {
            instructions: (0..self.processors).flat_map(all).collect(),
            ..self.clone()
        }
    }
}

/// Takes the counts out of a record whose kinds and sizes pass, and sets its processor before each instruction.
fn cut(record: &[u8]) -> Entries {
    let mut rest = record.iter().copied();
    let mut take = |length: usize| -> Vec<u8> { rest.by_ref().take(length).collect() };
    let processors = take(1)[0];
    let lines = take(1)[0];
    let lines = (0..lines).map(|_| take(9)).collect();
    let mut instructions = Vec::new();
    for processor in 0..processors {
        for _ in 0..take(1)[0] {
            let mut entry = [vec![processor], take(11)].concat();
            if entry[1] > 4 || entry[3] == 16 {
                entry.extend(take(8));
            }
            instructions.push(entry);
        }
    }
    let pairs = take(1)[0];
    let pairs = (0..pairs).map(|_| take(2)).collect();
    assert_eq!(rest.next(), None, "record {record:?}");
    Entries {
        processors,
        lines,
        instructions,
        pairs,
    }
}

/// Asks both writers, in a buffer of so many bytes: at a refusal they stay, else those past the record do, and the record passes.
/// What is written, or the refusal.
fn asked(random: &mut Random, sections: &Sections, room: usize) -> Result<Vec<u8>, u8> {
    let came = random.bytes(room);
    let mut buffer = came.clone();
    match write(sections, &mut buffer) {
        Ok(length) => {
            assert!(buffer[length..] == came[length..], "{sections:?}");
            buffer.truncate(length);
            assert_eq!(check(&buffer), Ok(()), "{sections:?}");
            Ok(buffer)
        }
        Err(question) => {
            assert!(buffer == came, "question {question}, room {room}");
            Err(question)
        }
    }
}

/// The refusal of entries that have all the room they need; 0 where they are written.
fn refusal(entries: &Entries) -> u8 {
    let answer = asked(&mut Random::new(0), &entries.sections(), MAX_RECORD);
    answer.err().unwrap_or(0)
}

/// Three processors, two lines; loads, stores, an mf, a semaphore and sixteen bytes, in no order; written out byte by byte.
#[test]
fn by_hand() {
    let lines = [[0, 1, 2, 3, 4, 5, 6, 7, 8], [0, 9, 0, 0, 0, 0, 0, 0, 7]];
    #[rustfmt::skip]
    let instructions = [
        2, 4, 0, 0, 0, 0, 0, 0, 0, 0, 0, 0,
        0, 5, 8, 2, 9, 0, 0, 0, 0, 0, 0, 0, 3, 4, 0, 0, 0, 0, 0, 0,
        2, 3, 0, 16, 1, 2, 3, 4, 5, 6, 7, 8, 9, 10, 11, 12, 13, 14, 15, 16,
        0, 2, 6, 1, 5, 0, 0, 0, 0, 0, 0, 0,
        2, 1, 4, 4, 5, 6, 7, 8, 0, 0, 0, 0,
        0, 0, 0, 16, 1, 2, 3, 4, 5, 6, 7, 8, 3, 4, 0, 0, 0, 0, 0, 7,
    ];
    let sections = Sections {
        processors: 3,
        lines: lines.concat(),
        instructions: instructions.to_vec(),
        pairs: vec![0, 1, 0, 2, 4, 5],
    };
    #[rustfmt::skip]
    let record: [u8; 120] = [
        3,
        2,
        0, 1, 2, 3, 4, 5, 6, 7, 8,
        0, 9, 0, 0, 0, 0, 0, 0, 7,
        3,
        5, 8, 2, 9, 0, 0, 0, 0, 0, 0, 0, 3, 4, 0, 0, 0, 0, 0, 0,
        2, 6, 1, 5, 0, 0, 0, 0, 0, 0, 0,
        0, 0, 16, 1, 2, 3, 4, 5, 6, 7, 8, 3, 4, 0, 0, 0, 0, 0, 7,
        0,
        3,
        4, 0, 0, 0, 0, 0, 0, 0, 0, 0, 0,
        3, 0, 16, 1, 2, 3, 4, 5, 6, 7, 8, 9, 10, 11, 12, 13, 14, 15, 16,
        1, 4, 4, 5, 6, 7, 8, 0, 0, 0, 0,
        3,
        0, 1, 0, 2, 4, 5,
    ];
    let mut buffer = [170; 124];
    assert_eq!(write(&sections, &mut buffer), Ok(120));
    assert_eq!(buffer[..120], record);
    assert_eq!(buffer[120..], [170; 4]);
}

/// Writing the sections of an accepted record gives that record, in whatever order processors take turns; cutting what was
/// written gives the sections, grouped.
#[test]
fn round_trips() {
    let mut random = Random::new(101);
    let (mut mixed, mut long) = (0, 0);
    for round in 0..6_000 {
        let e = execution(&mut random, &Shape::ALL[round % 3]);
        let record = e.to_bytes();
        let entries = cut(&record);
        assert_eq!(e.sections(), entries.sections());
        assert_eq!(entries.grouped(), entries);
        let turns = entries.interleaved(&mut random);
        assert_eq!(turns.grouped(), entries);
        mixed += usize::from(turns != entries);
        long += usize::from(entries.instructions.iter().any(|entry| entry.len() > 12));
        for sections in [entries.sections(), turns.sections()] {
            let room = record.len() + random.pick(&[0, 1, 7, 300]);
            let written = asked(&mut random, &sections, room);
            assert_eq!(written.as_ref(), Ok(&record));
            assert_eq!(cut(&record).sections(), turns.grouped().sections());
            assert_eq!(read(&record).as_ref(), Ok(&e));
        }
    }
    assert!(mixed > 3_000 && long > 1_000, "{mixed} {long}");
}

/// The longest record needs all of the bytes that the header names, and no more.
#[test]
fn the_longest_record() {
    let mut random = Random::new(102);
    let record = oglindesh::examples::longest().to_bytes();
    let turns = cut(&record).interleaved(&mut random).sections();
    assert_eq!(asked(&mut random, &turns, MAX_RECORD), Ok(record));
    assert_eq!(asked(&mut random, &turns, MAX_RECORD - 1), Err(25));
}

/// In every buffer shorter than the record.
#[test]
fn every_shorter_buffer() {
    let mut random = Random::new(103);
    for _ in 0..60 {
        let record = execution(&mut random, &Shape::SMALL).to_bytes();
        let sections = cut(&record).interleaved(&mut random).sections();
        for room in 0..record.len() {
            assert_eq!(asked(&mut random, &sections, room), Err(25));
        }
        let length = record.len();
        assert_eq!(asked(&mut random, &sections, length), Ok(record));
    }
}

/// A random byte of those wanted.
fn byte_with(random: &mut Random, wanted: impl Fn(u8) -> bool) -> u8 {
    let bytes: Vec<u8> = (0..=u8::MAX).filter(|&byte| wanted(byte)).collect();
    random.pick(&bytes)
}

/// Sections that are refused with this number in any buffer; with 25, in a buffer that is shorter than the record.
fn failing(random: &mut Random, question: u8) -> Sections {
    let mut entries = cut(&execution(random, &Shape::SMALL).to_bytes());
    match question {
        2 => fail_processors(random, &mut entries),
        3 => entries.lines = entries_of(random, 9, &[0, 9, 10, 255, 256, 257, 264, 300]),
        5 => fail_instruction_count(random, &mut entries),
        6 | 7 | 24 => fail_instruction(random, &mut entries, question),
        11 => fail_operation_count(random, &mut entries),
        12 => entries.pairs = entries_of(random, 2, &[41, 42, 255, 256, 257, 296, 300]),
        23 | 25 => {}
        // Where every kind and every size pass, the counts can be taken out of the record.
        _ => entries = cut(&generate::failing(random, question)),
    }
    let sections = entries.interleaved(random).sections();
    match question {
        23 => fail_whole(random, sections),
        _ => sections,
    }
}

/// One of these numbers of entries, each of so many random bytes.
fn entries_of(random: &mut Random, length: usize, counts: &[usize]) -> Vec<Vec<u8>> {
    let count = random.pick(counts);
    (0..count).map(|_| random.bytes(length)).collect()
}

/// Question 2: no processor, where there is no instruction, or too many.
fn fail_processors(random: &mut Random, entries: &mut Entries) {
    let empty = entries.instructions.is_empty();
    entries.processors = match empty && random.once_in(2) {
        true => 0,
        false => byte_with(random, |processors| processors > 8),
    };
}

/// Question 5: instructions are added in any place, up to a number just over the limit or just over what a byte counts.
fn fail_instruction_count(random: &mut Random, entries: &mut Entries) {
    let wanted = random.pick(&[41, 42, 255, 256, 257, 296, 300]);
    let only = random.once_in(2);
    let one = random.below(entries.processors.into()) as u8;
    while entries.instructions.len() < wanted {
        let any = random.below(entries.processors.into()) as u8;
        let at = random.between(0, entries.instructions.len());
        let processor = if only { one } else { any };
        entries.instructions.insert(at, mf(processor));
    }
}

/// Questions 6, 7 and 24: the kind, the size or the processor of an instruction. It is as long as its kind and size then say.
fn fail_instruction(random: &mut Random, entries: &mut Entries, question: u8) {
    if entries.instructions.is_empty() {
        entries.instructions.push(mf(0));
    }
    let at = random.below(entries.instructions.len());
    let entry = &mut entries.instructions[at];
    match question {
        6 => entry[1] = byte_with(random, |kind| kind > 6),
        7 => {
            let kind = entry[1];
            entry[3] = byte_with(random, |size| match kind {
                4 => size != 0,
                _ => ![1, 2, 4, 8].contains(&size) && (size != 16 || kind > 3),
            });
        }
        _ => entry[0] = byte_with(random, |processor| processor >= entries.processors),
    }
    let length = length_of(entry[1], entry[3]);
    entry.resize_with(length, || random.byte());
}

/// How long an entry of this kind and size is, by document 02's P1, P3, P7 and P8.
fn length_of(kind: u8, size: u8) -> usize {
    let semaphore = kind == 5 || kind == 6;
    let sixteen = kind < 4 && size == 16;
    if semaphore || sixteen {
        20
    } else {
        12
    }
}

/// Question 11: 15 stores with eight processors have 135 operations. The pairs may be any.
fn fail_operation_count(random: &mut Random, entries: &mut Entries) {
    entries.processors = 8;
    let store = |_| st(random.below(8) as u8);
    entries.instructions = (0..15).map(store).collect();
    entries.pairs = entries_of(random, 2, &[0, 1, 40, 300]);
}

/// Question 23: bytes are added to a section or taken from it, so that it ends within an entry.
fn fail_whole(random: &mut Random, mut sections: Sections) -> Sections {
    match random.below(3) {
        0 => {
            let length = sections.lines.len() - random.between(1, 8);
            sections.lines.truncate(length);
        }
        1 => sections.pairs.push(random.byte()),
        _ => {
            let more = random.between(1, 11);
            let part = random.bytes(more);
            sections.instructions.extend(part);
        }
    }
    sections
}

#[test]
fn every_refusal() {
    let mut random = Random::new(104);
    let mut tally = Refusals::default();
    for round in 0..400 * REFUSALS.len() {
        let question = REFUSALS[round % REFUSALS.len()];
        let sections = failing(&mut random, question);
        let room = match question {
            25 => random.below(16),
            _ => random.pick(&[0, 20, MAX_RECORD, 2_000]),
        };
        let answer = asked(&mut random, &sections, room);
        assert_eq!(answer, Err(question), "room {room}, {sections:?}");
        tally.count(&answer);
    }
    assert_eq!(tally.reached(), REFUSALS);
    let never: Vec<u8> = QUESTIONS
        .into_iter()
        .filter(|q| !REFUSALS.contains(q))
        .collect();
    assert_eq!(never, [1, 15]);
}

/// One of the three sections.
fn section<'a>(random: &mut Random, sections: &'a mut Sections) -> &'a mut Vec<u8> {
    let all = [
        &mut sections.lines,
        &mut sections.instructions,
        &mut sections.pairs,
    ];
    let at = random.pick(&[0, 1, 1, 1, 2]);
    all.into_iter().nth(at).expect("there are three")
}

/// Untargeted damage; some of it is written all the same.
fn damage(random: &mut Random, sections: &mut Sections) {
    if random.once_in(8) {
        sections.processors = random.pick(&[0, 1, 2, 7, 8, 9, 255]);
        return;
    }
    let values = random.pick(&[4, 8, 20, 256]);
    let length = random.pick(&[1, 2, 8, 9, 12, 20, 24]);
    let whole = random.bytes(length);
    let bytes = section(random, sections);
    let at = random.below(bytes.len() + 1);
    match random.below(5) {
        0 => bytes.truncate(at),
        1 => {
            let end = (at + length).min(bytes.len());
            bytes.drain(at..end);
        }
        2 => {
            let small = whole.iter().map(|byte| (usize::from(*byte) % values) as u8);
            bytes.splice(at..at, small);
        }
        _ if at == bytes.len() => bytes.extend(whole),
        3 => bytes[at] ^= 1 << random.below(8),
        _ => bytes[at] = random.below(values) as u8,
    }
}

/// Sections damaged once or more, in buffers of any length: both writers answer alike.
#[test]
fn damaged_sections() {
    let mut random = Random::new(105);
    let mut tally = Refusals::default();
    for round in 0..60_000 {
        let e = execution(&mut random, &Shape::ALL[round % 3]);
        let turns = cut(&e.to_bytes()).interleaved(&mut random);
        let mut sections = turns.sections();
        for _ in 0..random.pick(&[1, 1, 2, 3]) {
            damage(&mut random, &mut sections);
        }
        let room = random.pick(&[100, MAX_RECORD, MAX_RECORD, MAX_RECORD]);
        tally.count(&asked(&mut random, &sections, room));
    }
    assert!(tally.0[0] > 1_000, "{:?}", tally.0);
    assert_eq!(tally.reached(), REFUSALS, "{:?}", tally.0);
}

/// Every byte of small sections changed to values at the bounds of the questions.
#[test]
fn every_byte_changed() {
    const VALUES: [u8; 18] = [
        0, 1, 2, 3, 4, 5, 6, 7, 8, 9, 15, 16, 17, 33, 40, 49, 128, 255,
    ];
    let mut random = Random::new(106);
    let mut tally = Refusals::default();
    for _ in 0..12 {
        let record = execution(&mut random, &Shape::SMALL).to_bytes();
        let sections = cut(&record).interleaved(&mut random).sections();
        for value in VALUES {
            for at in 0..sections.lines.len() {
                let mut changed = sections.clone();
                changed.lines[at] = value;
                tally.count(&asked(&mut random, &changed, MAX_RECORD));
            }
            for at in 0..sections.instructions.len() {
                let mut changed = sections.clone();
                changed.instructions[at] = value;
                tally.count(&asked(&mut random, &changed, MAX_RECORD));
            }
            for at in 0..sections.pairs.len() {
                let mut changed = sections.clone();
                changed.pairs[at] = value;
                tally.count(&asked(&mut random, &changed, MAX_RECORD));
            }
        }
    }
    let reached = tally.reached();
    assert!(
        [4, 6, 7, 8, 9, 13, 23, 24]
            .iter()
            .all(|q| reached.contains(q)),
        "{reached:?}"
    );
}

/// Every kind and every size: the section ends after twelve bytes, or after twenty, else within an entry. There is no line, which
/// question 3 refuses after 23 and 24 pass.
#[test]
fn entry_lengths() {
    for kind in 0..=u8::MAX {
        for size in 0..=u8::MAX {
            let mut sections = Sections {
                processors: 1,
                lines: Vec::new(),
                instructions: vec![0; 21],
                pairs: Vec::new(),
            };
            sections.instructions[1] = kind;
            sections.instructions[3] = size;
            for length in [21, 20, 19, 13, 12, 11, 1, 0] {
                sections.instructions.truncate(length);
                let whole = length == 0 || length == length_of(kind, size);
                let expected = if whole { 3 } else { 23 };
                let answer = write(&sections, &mut []);
                assert_eq!(answer, Err(expected), "{kind} {size} {length}");
            }
        }
    }
}

/// An entry is as long as its own kind and size say, whatever stands before and behind it: with a length of another kind, the
/// bytes behind would begin with the processor 9.
#[test]
fn entries_one_after_another() {
    let mut random = Random::new(107);
    let kinds = [0, 1, 2, 3, 4, 5, 6, 7, 8, 9, 255];
    for _ in 0..5_000 {
        let count = random.between(1, 12);
        let entry = |_| {
            let (kind, size) = (random.pick(&kinds), random.pick(&[0, 1, 8, 15, 16, 17]));
            let mut entry = vec![9; length_of(kind, size)];
            (entry[0], entry[1], entry[3]) = (random.below(3) as u8, kind, size);
            entry
        };
        let instructions: Vec<_> = (0..count).map(entry).collect();
        let mut entries = Entries::of(3, &instructions);
        entries.lines.clear();
        assert_eq!(refusal(&entries), 3, "{entries:?}");
        entries.instructions[count - 1][0] = 3;
        assert_eq!(refusal(&entries), 24, "{entries:?}");
        entries.instructions[count - 1].pop();
        assert_eq!(refusal(&entries), 23, "{entries:?}");
    }
}

/// Every number of processors, with no instruction and with one of every processor.
#[test]
fn processors() {
    let mut random = Random::new(108);
    for processors in 0..=u8::MAX {
        let passes = (1..=8).contains(&processors);
        let empty = refusal(&Entries::of(processors, &[]));
        assert_eq!(empty, if passes { 0 } else { 2 }, "{processors}");
        for processor in 0..=u8::MAX {
            let entries = Entries::of(processors, &[mf(processor)]);
            let answer = asked(&mut random, &entries.sections(), 40);
            let expected = match (processor < processors, passes) {
                (false, _) => Err(24),
                (true, false) => Err(2),
                (true, true) => {
                    let mut record = vec![processors, 1, 0, 0, 0, 0, 0, 0, 0, 0, 0];
                    for place in 0..processors {
                        record.push(u8::from(place == processor));
                        if place == processor {
                            record.extend(&mf(0)[1..]);
                        }
                    }
                    record.push(0);
                    Ok(record)
                }
            };
            assert_eq!(answer, expected, "{processors} {processor}");
        }
    }
}

/// The numbers of pairs are those after the grouping, and pairs are not sorted.
#[test]
fn pairs() {
    // In their section: ld of 1, ld of 0, mf of 1, st of 0, ld of 1. In the record: ld, st; ld, mf, ld.
    let entries = |pairs: &[[u8; 2]]| Entries {
        pairs: pairs.iter().map(|pair| pair.to_vec()).collect(),
        ..Entries::of(2, &[ld(1), ld(0), mf(1), st(0), ld(1)])
    };
    assert_eq!(refusal(&entries(&[[0, 1]])), 0);
    assert_eq!(refusal(&entries(&[[2, 4]])), 0);
    assert_eq!(refusal(&entries(&[[0, 1], [2, 4]])), 0);
    assert_eq!(refusal(&entries(&[[2, 4], [0, 1]])), 14);
    assert_eq!(refusal(&entries(&[[0, 1], [0, 1]])), 14);
    for numbers in [[1, 3], [0, 4], [0, 2], [2, 3], [3, 4], [1, 0], [1, 5]] {
        assert_eq!(refusal(&entries(&[numbers])), 13, "{numbers:?}");
    }
}

/// Takes one fault out of entries.
type Mend = fn(&mut Entries);

/// Every fault at once: each refusal, and what takes its fault away. 23 comes before 24, this before the record's questions in
/// the order of the walk, and 25 last.
#[test]
fn order_of_refusals() {
    let mut unknown = mf(0);
    unknown[1] = 7;
    let mut entries = Entries {
        processors: 9,
        lines: vec![vec![3; 9]; 9],
        instructions: vec![mf(9), unknown, ld(0)],
        pairs: vec![vec![1, 0], vec![0, 1], vec![0, 1]],
    };
    entries.instructions.extend(vec![st(1); 39]);
    entries.pairs.extend(vec![vec![0, 1]; 38]);
    // A part of an entry ends each section.
    entries.lines.push(vec![0; 8]);
    entries.instructions.push(vec![0; 11]);
    entries.pairs.push(vec![0]);
    let steps: [(u8, Mend); 13] = [
        (23, |e| e.lines.truncate(9)),
        (23, |e| e.pairs.truncate(41)),
        (23, |e| e.instructions.truncate(42)),
        (24, |e| e.instructions[0][0] = 7),
        (2, |e| e.processors = 8),
        (3, |e| e.lines.truncate(8)),
        (4, |e| e.lines.fill(vec![0; 9])),
        (6, |e| e.instructions[1] = st(0)),
        (5, |e| e.instructions.truncate(3 + 14)),
        (11, |e| e.instructions.truncate(3)),
        (12, |e| e.pairs.truncate(3)),
        (13, |e| e.pairs[0] = vec![0, 1]),
        (14, |e| e.pairs.truncate(1)),
    ];
    let mut random = Random::new(109);
    for (place, (expected, mend)) in steps.into_iter().enumerate() {
        let answer = asked(&mut random, &entries.sections(), 0);
        assert_eq!(answer, Err(expected), "step {place}");
        mend(&mut entries);
    }
    // 8 lines, 3 instructions of 11 bytes, 1 pair, and P with the counts of lines, 8 programs and pairs.
    let length = 8 * 9 + 3 * 11 + 2 + 11;
    let sections = entries.sections();
    assert_eq!(asked(&mut random, &sections, 0), Err(25));
    assert_eq!(asked(&mut random, &sections, length - 1), Err(25));
    let written = asked(&mut random, &sections, length);
    assert_eq!(written.map(|record| record.len()), Ok(length));
}

/// Counts that a byte cannot say are too many: 257 lines are not one, 256 pairs are not none.
#[test]
fn very_long_sections() {
    let good = Entries::of(8, &[ld(0), st(0)]);
    assert_eq!(refusal(&good), 0);
    for over in [0, 1, 2, 3, 8, 40] {
        for many in [256, 512, 65_536, 131_072] {
            let count = many + over;
            let mut lines = good.clone();
            lines.lines = vec![vec![0; 9]; count];
            assert_eq!(refusal(&lines), 3, "{count} lines");
            let mut pairs = good.clone();
            pairs.pairs = vec![vec![0, 1]; count];
            assert_eq!(refusal(&pairs), 12, "{count} pairs");
            for processor in [0, 1, 7] {
                let mut one = good.clone();
                one.instructions.extend(vec![mf(processor); count]);
                assert_eq!(refusal(&one), 5, "{count} instructions of {processor}");
            }
        }
    }
    // As many over all as 0, 1, 2 or 40 in a byte, the same number on each processor.
    for each in [32, 64, 128, 256, 8_192] {
        for over in [0, 1, 2, 40] {
            let all: Vec<_> = (0..8).flat_map(|p| vec![mf(p); each]).collect();
            let some = vec![mf(7); over];
            assert_eq!(refusal(&Entries::of(8, &[all, some].concat())), 5);
        }
    }
    // The limit itself, on one processor and on all.
    for each in [40, 41] {
        let expected = if each == 40 { 0 } else { 5 };
        assert_eq!(refusal(&Entries::of(8, &vec![mf(3); each])), expected);
        let all: Vec<_> = (0..each).map(|at| mf((at % 8) as u8)).collect();
        assert_eq!(refusal(&Entries::of(8, &all)), expected);
    }
}

/// A count over 255 is refused where the walk comes to it: what stands before it is asked first, what stands behind it is
/// not.
#[test]
fn very_long_sections_in_the_walk() {
    let many = 256 + 3;
    let mut lines = Entries::of(9, &[]);
    lines.lines = vec![[9; 9].to_vec(); many];
    lines.pairs = vec![vec![0, 0]; many];
    assert_eq!(refusal(&lines), 2);
    lines.processors = 2;
    assert_eq!(refusal(&lines), 3);
    lines.instructions = vec![mf(2); many];
    assert_eq!(refusal(&lines), 24);
    lines.instructions[many - 1].pop();
    assert_eq!(refusal(&lines), 23);

    let mut wrong = mf(0);
    wrong[2] = 1;
    let mut long = Entries::of(2, &vec![mf(1); many]);
    long.instructions.push(wrong.clone());
    long.pairs = vec![vec![0, 0]; many];
    assert_eq!(refusal(&long), 8);
    long.instructions.pop();
    assert_eq!(refusal(&long), 5);
    // The count of a program is asked before its entries, also where these are wrong.
    let mut program = Entries::of(1, &vec![wrong; many]);
    program.pairs = long.pairs.clone();
    assert_eq!(refusal(&program), 5);

    let mut pairs = Entries::of(8, &vec![st(0); 15]);
    pairs.pairs = long.pairs.clone();
    assert_eq!(refusal(&pairs), 11);
    pairs.instructions.pop();
    assert_eq!(refusal(&pairs), 12);
}

/// Attributes of every byte, through the lines of the sections.
#[test]
fn attribute_bytes() {
    for byte in 0..=u8::MAX {
        let mut entries = Entries::of(1, &[]);
        entries.lines.push(vec![byte; 9]);
        let expected = if ATTRIBUTES.contains(&byte) { 0 } else { 4 };
        assert_eq!(refusal(&entries), expected, "byte {byte}");
    }
}
