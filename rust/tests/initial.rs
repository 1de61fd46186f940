//! Initial bytes (document 02, P4): a load's byte is held to the initial byte of its own address, and to no other.

use oglindesh::answers::{answers, count_agrees, Answers, Searched};
use oglindesh::beside::{judge, search, search_from_start, verdict};
use oglindesh::generate::{accesses, execution, give_shown, linked_order, Shape};
use oglindesh::random::Random;
use oglindesh::reference::notation::access;
use oglindesh::reference::record::{
    Attribute, Execution, Instruction, Kind, Line, Role, LINE_SIZE, MAX_LINES, MAX_PROCESSORS,
};
use oglindesh::reference::rules::{lowest_broken, JudgeAnswer};
use oglindesh::reference::search::{SearchAnswer, SearchReply};

/// Addresses of eight lines.
const ADDRESSES: usize = MAX_LINES * LINE_SIZE;

/// The same execution with its lines elsewhere, in any order, and other lines between them; up to eight in all. Where an access
/// lies on two lines, they go by twos, from an even one on.
fn spread(random: &mut Random, e: &Execution) -> Execution {
    let together = e.instructions.iter().map(|i| i.lines().len()).max();
    let together = together.unwrap_or(1).max(1);
    let groups = e.lines.len().div_ceil(together);
    let total = random.between(groups, MAX_LINES / together);
    let mut places: Vec<usize> = (0..total).collect();
    random.shuffle(&mut places);
    let place = |line: usize| places[line / together] * together + line % together;
    let attributes = Attribute::all();
    let spare = |_| Line {
        attribute: random.pick(&attributes),
        initial: std::array::from_fn(|_| random.byte()),
    };
    let mut lines: Vec<Line> = (0..total * together).map(spare).collect();
    for (number, line) in e.lines.iter().enumerate() {
        lines[place(number)] = *line;
    }
    let mut instructions = e.instructions.clone();
    for access in instructions.iter_mut().filter(|i| i.kind != Kind::Fence) {
        let within = usize::from(access.address) % LINE_SIZE;
        access.address = (place(access.lines().start) * LINE_SIZE + within) as u8;
    }
    Execution::new(e.processors, lines, instructions, e.pairs.clone())
}

/// The execution with every byte of an address replaced: the initial byte, those that stores write, those that loads saw. Data
/// bytes past the size are of no address.
fn relabelled(e: &Execution, label: impl Fn(usize, u8) -> u8) -> Execution {
    let mut other = with_initial(e, |address| label(address, e.initial(address)));
    for access in &mut other.instructions {
        for (at, address) in access.addresses().enumerate() {
            if access.kind.is_load() {
                access.seen[at] = label(address, access.seen[at]);
            }
            if access.kind.is_store() {
                access.written[at] = label(address, access.written[at]);
            }
        }
    }
    other
}

/// The execution with these initial bytes.
fn with_initial(e: &Execution, mut initial: impl FnMut(usize) -> u8) -> Execution {
    let mut other = e.clone();
    for (number, line) in other.lines.iter_mut().enumerate() {
        line.initial = std::array::from_fn(|at| initial(number * LINE_SIZE + at));
    }
    other
}

/// A byte for each address, all of them different.
fn different_bytes(random: &mut Random) -> Vec<u8> {
    let mut bytes: Vec<u8> = (0..=u8::MAX).collect();
    random.shuffle(&mut bytes);
    bytes.truncate(ADDRESSES);
    bytes
}

/// A byte that is not 0.
fn mask(random: &mut Random) -> u8 {
    random.between(1, 255) as u8
}

/// The access with this size, at the multiple of it that it lies on.
fn with_size(access: Instruction, size: u8) -> Instruction {
    let mut other = access;
    other.address = access.address / size * size;
    other.size = size;
    other
}

/// Makes some loads longer, but no semaphore. At its new bytes a load saw the initial byte or that of a store.
fn lengthen(random: &mut Random, e: &mut Execution) {
    let mut loads: Vec<usize> = e.loads().collect();
    loads.retain(|&load| !e.instructions[load].kind.is_semaphore() && random.once_in(3));
    for load in loads {
        let short = e.instructions[load];
        let mut long = with_size(short, random.pick(&[2, 4, 8, 16]).max(short.size));
        let alike = |lines: &[Line]| lines.iter().all(|l| l.attribute == lines[0].attribute);
        if !e.lines.get(long.lines()).is_some_and(alike) {
            // It would lie past the lines, or on two that differ.
            long = with_size(short, 8);
        }
        for (at, address) in long.addresses().enumerate() {
            let stores = e.stores().map(|store| e.instructions[store]);
            let stores: Vec<Instruction> = stores.filter(|w| w.covers(address)).collect();
            long.seen[at] = match short.covers(address) {
                true => short.byte_seen(address),
                false if stores.is_empty() || random.once_in(2) => e.initial(address),
                false => random.pick(&stores).byte_written(address),
            };
        }
        e.instructions[load] = long;
    }
}

/// The execution with the stores of each program before its other instructions, and no pairs.
fn stores_first(e: &Execution) -> Execution {
    let mut instructions = e.instructions.clone();
    instructions.sort_by_key(|i| (i.processor, !i.kind.is_store()));
    Execution::new(e.processors, e.lines.clone(), instructions, Vec::new())
}

/// A generated execution, changed so that more loads see stored bytes beside initial ones, on up to eight lines whose initial
/// bytes are all different. Once in three times a load saw the initial byte of some address, mostly another.
fn generated(random: &mut Random, shape: &Shape) -> Execution {
    let mut plain = execution(random, shape);
    if random.once_in(2) {
        plain = stores_first(&plain);
    }
    lengthen(random, &mut plain);
    if plain.operation_count() <= Shape::SMALL.operations && random.once_in(2) {
        give_shown(random, &mut plain);
    }
    let plain = spread(random, &plain);
    let bytes = different_bytes(random);
    let mut e = relabelled(&plain, |address, byte| {
        byte ^ plain.initial(address) ^ bytes[address]
    });
    let loads: Vec<usize> = e.loads().collect();
    if !loads.is_empty() && random.once_in(3) {
        let load = random.pick(&loads);
        let at = random.below(e.instructions[load].size.into());
        let address = usize::from(e.instructions[load].address) + at;
        let other = match random.once_in(2) {
            true => address ^ (1 << random.below(3)),
            false => random.below(e.lines.len() * LINE_SIZE),
        };
        e.instructions[load].seen[at] = e.initial(other);
    }
    e
}

/// Whether some load reads this address.
fn is_read(e: &Execution, address: usize) -> bool {
    e.loads().any(|load| e.instructions[load].covers(address))
}

/// Whether some store writes this address.
fn is_written(e: &Execution, address: usize) -> bool {
    let mut stores = e.stores();
    stores.any(|store| e.instructions[store].covers(address))
}

/// How often each answer was given.
#[derive(Default, Debug)]
struct Tally {
    searched: Searched,
    /// Positions that a search took, and that question 21 refused.
    taken: usize,
    inconsistent: usize,
    /// Orders that are legal, that break rule 11 first, and that break another.
    legal: usize,
    read_value: usize,
    other_rules: usize,
}

impl Tally {
    fn count(&mut self, answers: &Answers) {
        self.searched.count(answers);
        for (reply, _) in &answers.resumed {
            match reply.answer {
                SearchAnswer::Refused(_) => self.inconsistent += 1,
                _ => self.taken += 1,
            }
        }
        for judged in &answers.judged {
            match judged {
                JudgeAnswer::Legal => self.legal += 1,
                JudgeAnswer::Breaks(11) => self.read_value += 1,
                JudgeAnswer::Breaks(_) => self.other_rules += 1,
                JudgeAnswer::Refused(question) => panic!("question {question}"),
            }
        }
    }

    /// Each answer but 'unfinished' was given more often than this.
    fn all_above(&self, least: usize) -> bool {
        let all = [
            self.searched.allowed,
            self.searched.forbidden,
            self.taken,
            self.inconsistent,
            self.legal,
            self.read_value,
            self.other_rules,
        ];
        all.iter().all(|&count| count > least)
    }
}

/// Stored and initial bytes mixed, and initial bytes of other addresses: every call beside the reference, the search also
/// beside the brute force and the count over sets.
#[test]
fn stored_and_initial_bytes() {
    let mut random = Random::new(401);
    let mut tally = Tally::default();
    let (mut mixed, mut counted) = (0, 0);
    for round in 0..3600 {
        let e = generated(&mut random, &Shape::ALL[round % 3]);
        let answers = answers(&e, random.next_u64());
        tally.count(&answers);
        if answers.answer() == SearchAnswer::Allowed {
            let initial = |i: &Instruction| {
                let same = |&b: &usize| i.byte_seen(b) == e.initial(b);
                i.addresses().filter(same).count()
            };
            let both = |i: &Instruction| (1..usize::from(i.size)).contains(&initial(i));
            mixed += e.loads().filter(|&r| both(&e.instructions[r])).count();
        }
        if e.operation_count() > Shape::SMALL.operations {
            continue;
        }
        search_from_start(&e, 40);
        counted += usize::from(count_agrees(&e, &answers));
    }
    println!("{tally:?}, {mixed} loads of both, {counted} counted");
    assert!(tally.all_above(300), "{tally:?}");
    assert!(mixed > 100, "{mixed} loads saw stored and initial bytes");
    assert!(counted > 1000, "{counted} counted");
}

/// A line's place among the lines says nothing but where its bytes stand in the record.
#[test]
fn lines_may_stand_anywhere() {
    let mut random = Random::new(402);
    let mut tally = Tally::default();
    for round in 0..1200 {
        let e = generated(&mut random, &Shape::ALL[round % 3]);
        let other = spread(&mut random, &e);
        let seed = random.next_u64();
        let expected = answers(&e, seed);
        assert_eq!(answers(&other, seed), expected, "{e:?}, then {other:?}");
        tally.count(&expected);
    }
    println!("{tally:?}");
    assert!(tally.all_above(150), "{tally:?}");
}

/// Initial bytes that no load reads: beside those that one does, under a store, and on lines without access.
#[test]
fn initial_bytes_that_no_load_reads() {
    let mut random = Random::new(403);
    let mut tally = Tally::default();
    let (mut beside, mut under, mut untouched) = (0, 0, 0);
    for round in 0..1200 {
        let e = generated(&mut random, &Shape::ALL[round % 3]);
        let one_in = random.pick(&[1, 2, 20]);
        let mut changed = Vec::new();
        let other = with_initial(&e, |address| {
            let kept = is_read(&e, address) || !random.once_in(one_in);
            if !kept {
                changed.push(address);
            }
            e.initial(address) ^ if kept { 0 } else { mask(&mut random) }
        });
        for &address in &changed {
            let mut line = (0..LINE_SIZE).map(|at| address / LINE_SIZE * LINE_SIZE + at);
            let accessed = |b| is_read(&e, b) || is_written(&e, b);
            beside += usize::from(line.clone().any(|b| is_read(&e, b)));
            under += usize::from(is_written(&e, address));
            untouched += usize::from(!line.any(accessed));
        }
        let seed = random.next_u64();
        let expected = answers(&e, seed);
        assert_eq!(answers(&other, seed), expected, "{e:?}, then {other:?}");
        tally.count(&expected);
    }
    println!("{tally:?}, {beside} beside, {under} under a store, {untouched} untouched");
    assert!(tally.all_above(150), "{tally:?}");
    let changed = [beside, under, untouched];
    assert!(changed.iter().all(|&count| count > 500), "{changed:?}");
}

/// All lists of different operations.
fn all_lists(count: usize, list: &mut Vec<u8>, all: &mut Vec<Vec<u8>>) {
    all.push(list.clone());
    for next in 0..count as u8 {
        if !list.contains(&next) {
            list.push(next);
            all_lists(count, list, all);
            list.pop();
        }
    }
}

/// Whether question 21 passes this position.
fn is_consistent(e: &Execution, position: &[u8]) -> bool {
    let mut buffer = vec![255; e.operation_count()];
    buffer[..position.len()].copy_from_slice(position);
    let reply = search(&e.to_bytes(), &mut buffer, position.len(), 0);
    match reply.answer {
        SearchAnswer::Refused(question) => {
            assert_eq!(question, 21, "{e:?} at {position:?}");
            false
        }
        _ => true,
    }
}

/// For every prefix of tiny records: nothing matters but the initial bytes that its own loads read.
#[test]
fn every_prefix_of_tiny_records() {
    let mut random = Random::new(404);
    let (mut records, mut consistent, mut read_value, mut read_later) = (0, 0, 0, 0);
    while records < 120 {
        let e = generated(&mut random, &Shape::TINY);
        let count = e.operation_count();
        if e.loads().next().is_none() || !(3..=5).contains(&count) {
            continue;
        }
        records += 1;
        let mut lists = Vec::new();
        all_lists(count, &mut Vec::new(), &mut lists);
        for list in &lists {
            let operations = list.iter().map(|&entry| e.operations[usize::from(entry)]);
            let standing: Vec<Instruction> = operations
                .filter(|operation| operation.role == Role::Read)
                .map(|operation| e.instructions[operation.instruction])
                .collect();
            let other = with_initial(&e, |address| {
                let needed = standing.iter().any(|load| load.covers(address));
                read_later += usize::from(!needed && is_read(&e, address));
                e.initial(address) ^ if needed { 0 } else { mask(&mut random) }
            });
            let expected = is_consistent(&e, list);
            assert_eq!(is_consistent(&other, list), expected, "{other:?}, {list:?}");
            consistent += usize::from(expected);
            read_value += usize::from(lowest_broken(&e, list) == Some(11));
        }
    }
    println!(
        "{consistent} consistent, {read_value} break rule 11, {read_later} bytes are read later"
    );
    let all = [consistent, read_value, read_later];
    assert!(all.iter().all(|&count| count > 300), "{all:?}");
}

/// Rule 11 asks whether bytes of one address are the same, and no more. So nothing changes where all bytes of an address are
/// exchanged for others, by a mask or by a permutation; at every address, or at one.
#[test]
fn bytes_of_one_address_exchanged_together() {
    let mut random = Random::new(405);
    let mut tally = Tally::default();
    let mut accessed = 0;
    for round in 0..1200 {
        let e = generated(&mut random, &Shape::ALL[round % 3]);
        let addresses = e.lines.len() * LINE_SIZE;
        let only = random.once_in(4).then(|| random.below(addresses));
        let chosen = |address| only.is_none_or(|only| only == address);
        let seed = random.next_u64();
        let other = if random.once_in(2) {
            // No two addresses have the same mask.
            let masks = different_bytes(&mut random);
            relabelled(&e, |address, byte| {
                byte ^ if chosen(address) { masks[address] } else { 0 }
            })
        } else {
            let mut permutation = || -> Vec<u8> {
                let mut bytes: Vec<u8> = (0..=u8::MAX).collect();
                random.shuffle(&mut bytes);
                bytes
            };
            let by_address: Vec<Vec<u8>> = (0..addresses).map(|_| permutation()).collect();
            relabelled(&e, |address, byte| match chosen(address) {
                true => by_address[address][usize::from(byte)],
                false => byte,
            })
        };
        accessed += usize::from(other.instructions != e.instructions);
        let expected = answers(&e, seed);
        assert_eq!(answers(&other, seed), expected, "{e:?}, then {other:?}");
        tally.count(&expected);
    }
    println!("{tally:?}, {accessed} with other bytes of an access");
    assert!(tally.all_above(150), "{tally:?}");
    assert!(accessed > 600, "{accessed} with other bytes of an access");
}

/// Where a record has the initial byte of an address: behind two counts each line has nine bytes, the attribute first.
fn place_of(address: usize) -> usize {
    2 + 9 * (address / 8) + 1 + address % 8
}

/// The record with another initial byte at this address.
fn changed_at(record: &[u8], address: usize, mask: u8) -> Vec<u8> {
    let mut other = record.to_vec();
    other[place_of(address)] ^= mask;
    other
}

/// So many lines of any attributes, always two of the same, with the first of these initial bytes.
fn lines_of(random: &mut Random, count: usize, bytes: &[u8]) -> Vec<Line> {
    let attributes = Attribute::all();
    let by_two: [Attribute; MAX_LINES / 2] = std::array::from_fn(|_| random.pick(&attributes));
    let line = |number: usize| Line {
        attribute: by_two[number / 2],
        initial: std::array::from_fn(|at| bytes[number * LINE_SIZE + at]),
    };
    (0..count).map(line).collect()
}

/// What is said of a record: by the search from the start with the buffer that it left, by the search from each order as a full
/// position, and by the judge of each.
#[derive(PartialEq, Eq, Debug)]
struct Said {
    reply: SearchReply,
    buffer: [u8; 128],
    resumed: Vec<SearchAnswer>,
    judged: Vec<JudgeAnswer>,
}

fn said(record: &[u8], orders: &[Vec<u8>]) -> Said {
    let mut buffer = [255; 128];
    let resumed = |order: &Vec<u8>| search(record, &mut order.clone(), order.len(), 0).answer;
    Said {
        reply: search(record, &mut buffer, 0, 1_000_000),
        buffer,
        resumed: orders.iter().map(resumed).collect(),
        judged: orders.iter().map(|order| judge(record, order)).collect(),
    }
}

/// How many initial bytes were changed that matter, and that do not.
#[derive(Default, PartialEq, Eq, Debug)]
struct Changed {
    needed: usize,
    others: usize,
}

impl Changed {
    /// Changes each initial byte of an execution that is allowed. Where the byte is needed, it becomes forbidden, and these
    /// orders, which break no lower rule, break rule 11. Where it is not, the same is said as before.
    fn try_each(
        &mut self,
        random: &mut Random,
        e: &Execution,
        orders: &[Vec<u8>],
        needed: impl Fn(usize) -> bool,
    ) {
        let record = e.to_bytes();
        let before = said(&record, orders);
        assert_eq!(before.reply.answer, SearchAnswer::Allowed, "{e:?}");
        assert_eq!(before.reply.length, e.operation_count(), "{e:?}");
        for address in 0..e.lines.len() * LINE_SIZE {
            let other = changed_at(&record, address, mask(random));
            let after = said(&other, orders);
            if needed(address) {
                self.needed += 1;
                let refused = vec![SearchAnswer::Refused(21); orders.len()];
                let broken = vec![JudgeAnswer::Breaks(11); orders.len()];
                let SearchReply { answer, length, .. } = after.reply;
                assert_eq!((answer, length), (SearchAnswer::Forbidden, 0), "{other:?}");
                assert_eq!(after.buffer, [255; 128], "{other:?}");
                assert_eq!(after.resumed, refused, "{other:?}");
                assert_eq!(after.judged, broken, "{other:?}");
            } else {
                self.others += 1;
                assert_eq!(after, before, "{other:?}");
            }
        }
    }
}

/// A load of this processor, which saw these bytes.
fn load(random: &mut Random, processor: usize, address: usize, seen: &[u8]) -> Instruction {
    let kind = random.pick(&[Kind::Load, Kind::LoadAcquire]);
    Instruction {
        processor,
        ..access(kind, address as u8, seen)
    }
}

/// A store of this processor.
fn store(random: &mut Random, processor: usize, address: usize, written: &[u8]) -> Instruction {
    let kind = random.pick(&[Kind::Store, Kind::StoreRelease]);
    Instruction {
        processor,
        ..access(kind, address as u8, written)
    }
}

/// What a store writes over these initial bytes: each 0, the same again, or any.
fn bytes_over(random: &mut Random, initial: &[u8]) -> Vec<u8> {
    let over = |&byte: &u8| match random.below(3) {
        0 => 0,
        1 => byte,
        _ => random.byte(),
    };
    initial.iter().map(over).collect()
}

/// Every load alone, on every number of lines: the bytes that it reads are needed, all others are not.
#[test]
fn a_lone_load_and_every_initial_byte() {
    let mut random = Random::new(406);
    let mut changed = Changed::default();
    for count in 1..=MAX_LINES {
        for (address, size) in accesses(count) {
            let bytes = different_bytes(&mut random);
            let processors = random.between(1, MAX_PROCESSORS);
            let own = random.below(processors);
            let load = load(&mut random, own, address, &bytes[address..address + size]);
            let lines = lines_of(&mut random, count, &bytes);
            let e = Execution::new(processors, lines, vec![load], Vec::new());
            assert_eq!(judge(&e.to_bytes(), &[0]), JudgeAnswer::Legal, "{e:?}");
            changed.try_each(&mut random, &e, &[vec![0]], |b| load.covers(b));
        }
    }
    // On n lines there are 15 n loads of one line, and four of them read each of the 8 n bytes; n / 2 loads read sixteen bytes.
    let needed: usize = (1..=MAX_LINES).map(|n| 4 * 8 * n + 16 * (n / 2)).sum();
    let all: usize = (1..=MAX_LINES).map(|n| 8 * n * (15 * n + n / 2)).sum();
    let others = all - needed;
    assert_eq!(changed, Changed { needed, others });
}

/// Every load on eight lines, with two stores that it does not read, of its own processor or another: in its own line where
/// there is room, or at its place in another line.
#[test]
fn a_load_among_stores_and_every_initial_byte() {
    let mut random = Random::new(407);
    let mut changed = Changed::default();
    let mut legal = 0;
    for (address, size) in accesses(MAX_LINES) {
        let bytes = different_bytes(&mut random);
        let own = random.below(2);
        let load = load(&mut random, own, address, &bytes[address..address + size]);
        // Addresses that differ in one bit; a load of a whole line leaves none in it, one of two lines none in either.
        let mut bits = vec![size, 8, 16, 32];
        bits.retain(|&bit| bit >= size);
        bits.dedup();
        let mut others: Vec<usize> = bits.iter().map(|bit| address ^ bit).collect();
        random.shuffle(&mut others);
        let mut instructions = vec![load];
        for &other in &others[..2] {
            let written = bytes_over(&mut random, &bytes[other..other + size]);
            let processor = random.below(2);
            let store = store(&mut random, processor, other, &written);
            let at = random.below(instructions.len() + 1);
            instructions.insert(at, store);
        }
        instructions.sort_by_key(|instruction| instruction.processor);
        let lines = lines_of(&mut random, MAX_LINES, &bytes);
        let e = Execution::new(2, lines, instructions, Vec::new());
        let orders: Vec<Vec<u8>> = (0..4).map(|_| linked_order(&mut random, &e)).collect();
        changed.try_each(&mut random, &e, &orders, |b| load.covers(b));
        let judged = said(&e.to_bytes(), &orders).judged;
        legal += judged
            .iter()
            .filter(|&&of| of == JudgeAnswer::Legal)
            .count();
    }
    let needed = 5 * ADDRESSES;
    let others = 124 * ADDRESSES - needed;
    assert_eq!(changed, Changed { needed, others });
    println!("{legal} of 496 orders were legal");
    assert!(legal > 200, "{legal} orders were legal");
}

/// Every store, and after it in its program every load that overlaps it, local or not: the load's bytes beside the store are
/// needed, those under it are not.
#[test]
fn a_load_over_an_own_store_and_every_initial_byte() {
    let mut random = Random::new(408);
    let mut changed = Changed::default();
    let (mut local, mut under) = (0, 0);
    let all = accesses(MAX_LINES);
    for &(to, length) in &all {
        for &(from, size) in &all {
            if to + length <= from || from + size <= to {
                continue;
            }
            let bytes = different_bytes(&mut random);
            let written = bytes_over(&mut random, &bytes[to..to + length]);
            let store = store(&mut random, 0, to, &written);
            let seen: Vec<u8> = (from..from + size)
                .map(|b| match store.covers(b) {
                    true => store.byte_written(b),
                    false => bytes[b],
                })
                .collect();
            let load = load(&mut random, 0, from, &seen);
            let lines = lines_of(&mut random, MAX_LINES, &bytes);
            let e = Execution::new(1, lines, vec![store, load], Vec::new());
            // The load is local in the second of them.
            let orders = [vec![0, 1, 2], vec![0, 2, 1]];
            local += usize::from(judge(&e.to_bytes(), &orders[1]) == JudgeAnswer::Legal);
            under += load.addresses().filter(|&b| store.covers(b)).count();
            changed.try_each(&mut random, &e, &orders, |b| {
                load.covers(b) && !store.covers(b)
            });
        }
    }
    println!("{changed:?}, {under} under a store, {local} loads may be local");
    // Each byte is one of five stores and of five loads.
    assert_eq!(under, 25 * ADDRESSES);
    assert!(changed.needed > 500 && local > 100, "{changed:?}, {local}");
}

/// The program, for every address: the byte that a load reads, and the next.
#[test]
fn the_verdict_of_a_load() {
    let mut random = Random::new(409);
    let bytes = different_bytes(&mut random);
    for address in 0..ADDRESSES {
        let load = load(&mut random, 0, address, &bytes[address..address + 1]);
        let lines = lines_of(&mut random, MAX_LINES, &bytes);
        let record = Execution::new(1, lines, vec![load], Vec::new()).to_bytes();
        assert_eq!(verdict(&record), "allowed 0\nsteps 1\n");
        let other = changed_at(&record, address, mask(&mut random));
        assert_eq!(verdict(&other), "forbidden\nsteps 0\n");
        let other = changed_at(&record, (address + 1) % ADDRESSES, mask(&mut random));
        assert_eq!(verdict(&other), "allowed 0\nsteps 1\n");
    }
}
