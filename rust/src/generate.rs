//! Random records, orders and positions: well-formed ones, and damaged ones for every question; all orders of few operations.

use crate::random::Random;
use crate::reference::notation::{access, semaphore, uc};
use crate::reference::record::{
    is_dependence, Attribute, Execution, Instruction, Kind, Line, Role, DOMAINS, INSTRUCTION_ITEM,
    LINE_ITEM, LINE_SIZE, MAX_INSTRUCTIONS, MAX_LINES, MAX_OPERATIONS, MAX_PAIRS, MAX_PROCESSORS,
    QUESTIONS,
};
use crate::reference::rules::{byte_read, links, lowest_broken, Settled};

/// How large an execution may become; one store fits in any case.
#[derive(Clone, Copy, Debug)]
pub struct Shape {
    pub processors: usize,
    pub lines: usize,
    pub instructions: usize,
    pub operations: usize,
}

impl Shape {
    /// All lists of different operations can be tried one by one.
    pub const TINY: Shape = Shape {
        processors: 3,
        lines: 2,
        instructions: 4,
        operations: 6,
    };
    /// The brute-force search gets far in little time.
    pub const SMALL: Shape = Shape {
        processors: 4,
        lines: 3,
        instructions: 8,
        operations: 16,
    };
    /// Everything that a record may hold.
    pub const LARGE: Shape = Shape {
        processors: MAX_PROCESSORS,
        lines: MAX_LINES,
        instructions: MAX_INSTRUCTIONS,
        operations: MAX_OPERATIONS,
    };
    pub const ALL: [Shape; 3] = [Shape::TINY, Shape::SMALL, Shape::LARGE];
}

/// Most operations for which a random order is tried out to give the loads their values.
const MAX_TRIED: usize = 24;

/// The attribute bytes that question 4 passes, as document 02's P6 lists them.
pub const ATTRIBUTES: [u8; 6] = [0, 1, 2, 17, 33, 49];

/// One execution in so many has no instruction.
const EMPTY_ONE_IN: usize = 10;

/// One execution in so many may have semaphores.
const SEMAPHORES_ONE_IN: usize = 3;

/// One execution in so many may have accesses of sixteen bytes.
const SIXTEEN_ONE_IN: usize = 3;

/// A well-formed execution within the shape. Both allowed and forbidden ones are frequent; some have semaphores, some accesses
/// of sixteen bytes, some no instruction.
pub fn execution(random: &mut Random, shape: &Shape) -> Execution {
    if random.once_in(SIXTEEN_ONE_IN) {
        return with_sixteen(random, shape);
    }
    match random.once_in(SEMAPHORES_ONE_IN) {
        true => with_semaphores(random, shape),
        false => without_semaphores(random, shape),
    }
}

/// An execution of kinds 0 to 4, on lines of every attribute; no access has sixteen bytes.
pub fn without_semaphores(random: &mut Random, shape: &Shape) -> Execution {
    of_plain_kinds(random, shape, &SIZES_OF_A_LINE)
}

/// An execution of all kinds, whose accesses lie on one line each.
pub fn with_semaphores(random: &mut Random, shape: &Shape) -> Execution {
    of_all_kinds(random, shape, &SIZES_OF_A_LINE)
}

/// An execution of all sizes and of kinds 0 to 4, or of all kinds; or one whose halves are written apart.
pub fn with_sixteen(random: &mut Random, shape: &Shape) -> Execution {
    match random.below(3) {
        0 => of_all_kinds(random, shape, &ALL_SIZES),
        1 => of_plain_kinds(random, shape, &ALL_SIZES),
        _ => written_apart(random, shape),
    }
}

/// Processors store to one half of sixteen bytes, to both or to a byte; the last one then loads both halves, behind its own stores
/// if it has some. Within the shape, on lines of one attribute.
fn written_apart(random: &mut Random, shape: &Shape) -> Execution {
    let attribute = random.pick(&Attribute::all());
    let lines = lines(random, &[attribute], 1, 2, &ALL_SIZES);
    let processors = random.between(2, shape.processors.min(3));
    let choice = |kinds, sizes| Choice {
        kinds,
        sizes,
        values: (1, 9),
    };
    let writes = choice(&[Kind::Store, Kind::StoreRelease], &[1, 1, 8, 8, 8, 16]);
    let reads = choice(&[Kind::Load, Kind::LoadAcquire], &[16]);
    let mut chosen = Vec::new();
    let mut room = shape.operations.min(MAX_TRIED) - 1;
    while room > processors && chosen.len() < 4 {
        let processor = random.below(processors);
        let store = instruction(random, &writes, &lines);
        chosen.push(Instruction { processor, ..store });
        room -= 1 + processors;
    }
    chosen.sort_by_key(|store| store.processor);
    for _ in 0..random.between(1, 1 + room.min(1)) {
        let load = instruction(random, &reads, &lines);
        let processor = processors - 1;
        chosen.push(Instruction { processor, ..load });
    }
    let mut execution = Execution::new(processors, lines, chosen, Vec::new());
    give_values(random, &mut execution);
    execution
}

/// Most instructions of a program that several processors have.
const MOST_SHARED: usize = 4;

/// An execution of two processors or more, many of which have the same program, with pairs of their own; often those of one are a
/// beginning of another's.
pub fn equal_programs(random: &mut Random) -> Execution {
    let processors = random.between(2, MAX_PROCESSORS);
    let base = execution(random, &Shape::SMALL);
    let programs = base
        .instructions
        .chunk_by(|a, b| a.processor == b.processor);
    let mut programs: Vec<&[Instruction]> = programs.collect();
    programs.sort_by_key(|program| std::cmp::Reverse(program.len()));
    programs.truncate(random.between(1, 2));
    let shared = programs.iter().map(|program| {
        let length = program.len().min(random.between(1, MOST_SHARED));
        let program = program[..length].iter().map(|&instruction| Instruction {
            processor: 0,
            ..instruction
        });
        let alone = Execution::new(1, base.lines.clone(), program.collect(), Vec::new());
        let mut pairs = possible_pairs(&alone);
        pairs.retain(|_| !random.once_in(3));
        (alone.instructions, pairs)
    });
    let shared: Vec<_> = shared.collect();
    let (mut instructions, mut pairs) = (Vec::new(), Vec::new());
    let mut room = MAX_OPERATIONS;
    for processor in 0..processors {
        let Some((program, all)) = shared.get(random.below(1 + 4 * shared.len()) / 4) else {
            continue;
        };
        let roles = |instruction: &Instruction| instruction.kind.roles(processors).len();
        let operations: usize = program.iter().map(roles).sum();
        if operations > room || instructions.len() + program.len() > MAX_INSTRUCTIONS {
            continue;
        }
        room -= operations;
        let mut own = all.clone();
        match random.below(4) {
            0 => own.truncate(random.below(own.len() + 1)),
            1 => own.retain(|_| !random.once_in(3)),
            _ => {}
        }
        own.truncate(MAX_PAIRS - pairs.len());
        let start = instructions.len() as u8;
        pairs.extend(own.iter().map(|(a, b)| (start + a, start + b)));
        instructions.extend(program.iter().map(|&instruction| Instruction {
            processor,
            ..instruction
        }));
    }
    Execution::new(processors, base.lines.clone(), instructions, pairs)
}

/// How often each size is picked where no access lies on two lines, and where some may.
const SIZES_OF_A_LINE: [usize; 5] = [1, 1, 2, 4, 8];
const ALL_SIZES: [usize; 9] = [1, 2, 4, 8, 8, 8, 16, 16, 16];

/// What the instructions of an execution are picked from: kinds, sizes, the lowest and the highest byte that a store writes.
struct Choice<'a> {
    kinds: &'a [Kind],
    sizes: &'a [usize],
    values: (usize, usize),
}

fn of_plain_kinds(random: &mut Random, shape: &Shape, sizes: &[usize]) -> Execution {
    let (attributes, fewest) = attributes(random);
    let lines = lines(random, &attributes, fewest, shape.lines, sizes);
    let choice = Choice {
        kinds: &PLAIN_KINDS,
        sizes,
        values: (1, 9),
    };
    generated(random, shape, lines, &choice)
}

/// Most of the lines are WB, always the first, and the second where an access may lie on both: there semaphores may lie. Often
/// there are only two values, as with locks.
fn of_all_kinds(random: &mut Random, shape: &Shape, sizes: &[usize]) -> Execution {
    let mut attributes = vec![Attribute::WriteBack; random.pick(&[6, 30])];
    attributes.extend(Attribute::all());
    let mut lines = lines(random, &attributes, 1, shape.lines, sizes);
    for line in &mut lines[..lines_of_one(sizes)] {
        line.attribute = Attribute::WriteBack;
    }
    let choice = Choice {
        kinds: &ALL_KINDS,
        sizes,
        values: random.pick(&[(0, 1), (1, 9)]),
    };
    generated(random, shape, lines, &choice)
}

/// An execution on these lines.
fn generated(random: &mut Random, shape: &Shape, lines: Vec<Line>, choice: &Choice) -> Execution {
    let processors = random.between(1, shape.processors);
    let pick = |random: &mut Random| instruction(random, choice, &lines);
    let instructions = instructions(random, shape, processors, pick);
    let mut execution = Execution::new(processors, lines, instructions, Vec::new());
    execution.pairs = pairs(random, &execution);
    give_values(random, &mut execution);
    execution
}

/// How many lines an access of the longest of these sizes lies on.
fn lines_of_one(sizes: &[usize]) -> usize {
    let lines = sizes.iter().map(|size| size.div_ceil(LINE_SIZE));
    lines.max().unwrap_or(1)
}

/// The smaller of two numbers of lines, so that more accesses share one. Where some access may lie on two lines there are two
/// or more, often no more than two, and mostly both have one attribute.
fn lines(
    random: &mut Random,
    attributes: &[Attribute],
    fewest: usize,
    most: usize,
    sizes: &[usize],
) -> Vec<Line> {
    let longest = lines_of_one(sizes);
    let fewest = fewest.max(longest);
    let most = match longest > 1 && random.once_in(2) {
        true => fewest,
        false => most,
    };
    let count = random
        .between(fewest, most)
        .min(random.between(fewest, most));
    let values = random.between(1, 3);
    let line = |_| Line {
        attribute: random.pick(attributes),
        initial: std::array::from_fn(|_| random.below(values) as u8),
    };
    let mut lines: Vec<Line> = (0..count).map(line).collect();
    for together in lines.chunks_mut(longest) {
        if !random.once_in(6) {
            let attribute = together[0].attribute;
            together
                .iter_mut()
                .for_each(|line| line.attribute = attribute);
        }
    }
    lines
}

/// What the attributes of an execution's lines are picked from, all of them, or one, or UC in two domains; and the fewest lines.
fn attributes(random: &mut Random) -> (Vec<Attribute>, usize) {
    let mut domains: Vec<u8> = (0..DOMAINS).collect();
    random.shuffle(&mut domains);
    match random.below(8) {
        0..3 => (Attribute::all(), 1),
        3 => (vec![Attribute::WriteBack], 1),
        4 => (vec![Attribute::WriteCoalescing], 1),
        5 => (vec![uc(domains[0])], 1),
        _ => (vec![uc(domains[0]), uc(domains[1])], 2),
    }
}

/// How often each kind is picked where there are no semaphores.
const PLAIN_KINDS: [Kind; 11] = [
    Kind::Load,
    Kind::Load,
    Kind::Load,
    Kind::LoadAcquire,
    Kind::LoadAcquire,
    Kind::Store,
    Kind::Store,
    Kind::Store,
    Kind::StoreRelease,
    Kind::StoreRelease,
    Kind::Fence,
];

/// How often each kind is picked where there are.
const ALL_KINDS: [Kind; 14] = [
    Kind::Load,
    Kind::Load,
    Kind::LoadAcquire,
    Kind::Store,
    Kind::Store,
    Kind::StoreRelease,
    Kind::StoreRelease,
    Kind::Fence,
    Kind::SemaphoreAcquire,
    Kind::SemaphoreAcquire,
    Kind::SemaphoreAcquire,
    Kind::SemaphoreRelease,
    Kind::SemaphoreRelease,
    Kind::SemaphoreRelease,
];

/// No instruction, or instructions as long as their operations fit, in the order of their processors.
fn instructions(
    random: &mut Random,
    shape: &Shape,
    processors: usize,
    pick: impl Fn(&mut Random) -> Instruction,
) -> Vec<Instruction> {
    if random.once_in(EMPTY_ONE_IN) {
        return Vec::new();
    }
    let most = shape.instructions;
    let wanted = random.between(1, most).max(random.between(1, most));
    let mut room = shape.operations;
    let mut chosen = Vec::new();
    for _ in 0..wanted {
        let processor = random.below(processors);
        let instruction = pick(random);
        let operations = instruction.kind.roles(processors).len();
        if operations <= room {
            room -= operations;
            chosen.push(Instruction {
                processor,
                ..instruction
            });
        }
    }
    chosen.sort_by_key(|instruction| instruction.processor);
    chosen
}

/// One instruction; most accesses begin at the start of a line, so that many overlap.
fn instruction(random: &mut Random, choice: &Choice, lines: &[Line]) -> Instruction {
    let kind = random.pick(choice.kinds);
    if kind == Kind::Fence {
        return access(kind, 0, &[]);
    }
    let size = random.pick(choice.sizes);
    let (size, places) = match places(kind, size, lines) {
        places if places.is_empty() => (LINE_SIZE, self::places(kind, LINE_SIZE, lines)),
        places => (size, places),
    };
    let slots = LINE_SIZE / size.min(LINE_SIZE);
    let slot = if random.once_in(3) {
        random.below(slots)
    } else {
        0
    };
    let address = (random.pick(&places) + slot * size) as u8;
    let (lowest, highest) = choice.values;
    let byte = |_| random.between(lowest, highest) as u8;
    let data: Vec<u8> = (0..size).map(byte).collect();
    match kind.is_semaphore() {
        true => semaphore(kind, address, &data, &data),
        false => access(kind, address, &data),
    }
}

/// Where accesses of this kind and size may begin, at the start of a line: semaphores on WB, and no longer than a line; others
/// on lines of one attribute.
fn places(kind: Kind, size: usize, lines: &[Line]) -> Vec<usize> {
    let length = size.max(LINE_SIZE);
    let starts = (0..lines.len() * LINE_SIZE).step_by(length);
    let fits = |start: &usize| {
        let first = start / LINE_SIZE;
        let Some(under) = lines.get(first..first + length / LINE_SIZE) else {
            return false;
        };
        let attribute = under[0].attribute;
        let alike = under.iter().all(|line| line.attribute == attribute);
        let semaphore = attribute == Attribute::WriteBack && under.len() == 1;
        alike && (semaphore || !kind.is_semaphore())
    };
    starts.filter(fits).collect()
}

/// Every access that question 8 passes on so many lines: address and size.
pub fn accesses(lines: usize) -> Vec<(usize, usize)> {
    let end = lines * LINE_SIZE;
    let of_size = |size| (0..end).step_by(size).map(move |at| (at, size));
    let all = [1, 2, 4, 8, 16].into_iter().flat_map(of_size);
    all.filter(|(at, size)| at + size <= end).collect()
}

/// All pairs that question 13 passes, in question 14's order.
pub fn possible_pairs(execution: &Execution) -> Vec<(u8, u8)> {
    let count = execution.instructions.len() as u8;
    (0..count)
        .flat_map(|first| (first + 1..count).map(move |second| (first, second)))
        .filter(|&pair| is_dependence(execution, pair))
        .collect()
}

fn pairs(random: &mut Random, execution: &Execution) -> Vec<(u8, u8)> {
    let rarity = random.pick(&[2, 6, 1000]);
    let mut pairs = possible_pairs(execution);
    pairs.retain(|_| random.once_in(rarity));
    pairs.truncate(MAX_PAIRS);
    pairs
}

/// Gives the loads their data: guessed, or as a random order shows them, or with one of those changed.
fn give_values(random: &mut Random, execution: &mut Execution) {
    let loads: Vec<usize> = execution.loads().collect();
    for &load in &loads {
        guess_value(random, execution, load);
    }
    if execution.operation_count() > MAX_TRIED || random.once_in(3) {
        return;
    }
    give_shown(random, execution);
    if !loads.is_empty() && !random.once_in(4) {
        let load = random.pick(&loads);
        guess_value(random, execution, load);
    }
}

/// Gives the loads the data that a random order shows them; with many operations it takes long to try.
pub fn give_shown(random: &mut Random, execution: &mut Execution) {
    grow(random, execution, MAX_OPERATIONS, true);
}

/// On each of its lines the load saw one overlapping store, or none, over the initial bytes; rarely something else.
fn guess_value(random: &mut Random, execution: &mut Execution, load: usize) {
    let mut sources: Vec<Option<usize>> = vec![None];
    let others = execution.stores().filter(|&w| w != load);
    let overlapping = others.filter(|&w| execution.overlap(w, load));
    sources.extend(overlapping.map(Some));
    let mut seen = execution.instructions[load];
    let mut pick = || random.pick(&sources).map(|w| execution.instructions[w]);
    let by_line: Vec<_> = seen.lines().map(|_| pick()).collect();
    for (at, address) in seen.addresses().enumerate() {
        let byte = match by_line[address / LINE_SIZE - seen.lines().start] {
            Some(store) if store.covers(address) => store.byte_written(address),
            _ if random.once_in(20) => random.byte(),
            _ => execution.initial(address),
        };
        seen.seen[at] = byte;
    }
    execution.instructions[load] = seen;
}

/// Grows a random consistent prefix up to this length, or until nothing fits. With `give`, each
/// load gets the data that rule 11 gives it where it comes to stand.
fn grow(random: &mut Random, execution: &mut Execution, length: usize, give: bool) -> Vec<u8> {
    let mut left: Vec<u8> = (0..execution.operation_count() as u8).collect();
    let mut prefix = Vec::new();
    while prefix.len() < length {
        random.shuffle(&mut left);
        let fit = left.iter().position(|&candidate| {
            prefix.push(candidate);
            if give {
                give_seen(execution, &prefix);
            }
            let fits = lowest_broken(execution, &prefix).is_none();
            prefix.pop();
            fits
        });
        match fit {
            Some(at) => prefix.push(left.swap_remove(at)),
            None => break,
        }
    }
    prefix
}

/// If the prefix ends in an R, gives its load the data that rule 11 says.
fn give_seen(execution: &mut Execution, prefix: &[u8]) {
    let Some(&last) = prefix.last() else { return };
    let operation = execution.operations[usize::from(last)];
    if operation.role != Role::Read {
        return;
    }
    let settled = Settled::by(prefix);
    let mut seen = execution.instructions[operation.instruction];
    for (at, address) in seen.addresses().enumerate() {
        seen.seen[at] = byte_read(execution, &settled, operation.instruction, address);
    }
    execution.instructions[operation.instruction] = seen;
}

/// A random consistent prefix, full or not.
pub fn consistent_prefix(random: &mut Random, execution: &Execution) -> Vec<u8> {
    let length = random.between(0, execution.operation_count());
    grow(random, &mut execution.clone(), length, false)
}

/// All operations in a random order.
pub fn order(random: &mut Random, count: usize) -> Vec<u8> {
    let mut order: Vec<u8> = (0..count as u8).collect();
    random.shuffle(&mut order);
    order
}

/// All orders of so many operations.
pub fn every_order(count: usize) -> Vec<Vec<u8>> {
    let mut orders = vec![Vec::new()];
    for next in 0..count as u8 {
        let with_next = |order: &Vec<u8>| {
            let order = order.clone();
            (0..=order.len()).map(move |at| {
                let mut longer = order.clone();
                longer.insert(at, next);
                longer
            })
        };
        orders = orders.iter().flat_map(with_next).collect();
    }
    orders
}

/// All operations in a random order that keeps every link: rules 1 to 8, 13 and 15 hold.
pub fn linked_order(random: &mut Random, execution: &Execution) -> Vec<u8> {
    let count = execution.operation_count();
    let mut successors = vec![Vec::new(); count];
    let mut awaited = vec![0; count];
    for (a, b) in links(execution) {
        successors[a].push(b);
        awaited[b] += 1;
    }
    let mut open: Vec<usize> = (0..count).filter(|&b| awaited[b] == 0).collect();
    let mut order = Vec::new();
    while !open.is_empty() {
        let next = open.swap_remove(random.below(open.len()));
        order.push(next as u8);
        for &b in &successors[next] {
            awaited[b] -= 1;
            if awaited[b] == 0 {
                open.push(b);
            }
        }
    }
    order
}

/// Changes the entries of an order or position a little: some entry, two places, or the length.
pub fn damage_entries(random: &mut Random, entries: &mut Vec<u8>) {
    if entries.is_empty() || random.once_in(5) {
        entries.push(random.byte());
        return;
    }
    let (at, other) = (random.below(entries.len()), random.below(entries.len()));
    match random.below(4) {
        0 => entries.truncate(at),
        1 => entries[at] = random.byte(),
        2 => entries[at] = entries[other],
        _ => entries.swap(at, other),
    }
}

/// A record with untargeted damage; some of these still pass.
pub fn damaged(random: &mut Random, execution: &Execution) -> Vec<u8> {
    let mut bytes = execution.to_bytes();
    let at = random.below(bytes.len());
    match random.below(6) {
        0 => bytes[at] ^= 1 << random.below(8),
        1 => bytes[at] = random.byte(),
        2 => bytes[at] = random.below(4) as u8,
        3 => bytes.truncate(at),
        4 => bytes.extend((0..random.between(1, 12)).map(|_| random.byte())),
        _ => bytes = (0..at).map(|_| random.below(12) as u8).collect(),
    }
    bytes
}

/// A record whose first 'no' is this question of [`QUESTIONS`].
pub fn failing(random: &mut Random, question: u8) -> Vec<u8> {
    assert!(
        QUESTIONS.contains(&question),
        "no record fails question {question}"
    );
    loop {
        let execution = match question {
            27 => with_sixteen(random, &Shape::SMALL),
            _ => execution(random, &Shape::SMALL),
        };
        let failing = match question {
            1..=5 => Some(fail_count(random, &execution, question)),
            6..=9 => fail_instruction(random, &execution, question),
            11 => Some(fail_operation_count(random, execution)),
            12..=14 => fail_pairs(random, execution, question),
            15 => Some(lengthened(random, &execution)),
            26 => fail_attribute(random, execution),
            _ => fail_lines(random, execution),
        };
        if let Some(bytes) = failing {
            return bytes;
        }
    }
}

/// Where a record's items begin.
struct Layout {
    lines: Vec<usize>,
    /// By processor: its count, and the instructions of the programs before it.
    counts: Vec<(usize, usize)>,
    instructions: Vec<usize>,
    pair_count: usize,
}

fn layout(execution: &Execution) -> Layout {
    let first_line = 2;
    let line = |number: usize| first_line + number * LINE_ITEM;
    let mut at = line(execution.lines.len());
    let mut counts = Vec::new();
    let mut instructions = Vec::new();
    for processor in 0..execution.processors {
        counts.push((at, instructions.len()));
        at += 1;
        let program = execution.instructions.iter();
        for instruction in program.filter(|i| i.processor == processor) {
            instructions.push(at);
            at += INSTRUCTION_ITEM + instruction.kind.more_length(instruction.size);
        }
    }
    Layout {
        lines: (0..execution.lines.len()).map(line).collect(),
        counts,
        instructions,
        pair_count: at,
    }
}

/// A random byte of those wanted.
fn byte_with(random: &mut Random, wanted: impl Fn(u8) -> bool) -> u8 {
    let bytes: Vec<u8> = (0..=u8::MAX).filter(|&byte| wanted(byte)).collect();
    random.pick(&bytes)
}

/// Questions 1 to 5.
fn fail_count(random: &mut Random, execution: &Execution, question: u8) -> Vec<u8> {
    let layout = layout(execution);
    let mut bytes = execution.to_bytes();
    match question {
        1 => {
            let cut = random.below(bytes.len());
            bytes.truncate(cut_within_more(random, execution, &layout).unwrap_or(cut));
        }
        2 => bytes[0] = byte_with(random, |p| !(1..=8).contains(&p)),
        3 => bytes[1] = byte_with(random, |count| !(1..=8).contains(&count)),
        4 => bytes[random.pick(&layout.lines)] = byte_with(random, |b| !ATTRIBUTES.contains(&b)),
        _ => {
            let (at, before) = random.pick(&layout.counts);
            bytes[at] = byte_with(random, |count| before + usize::from(count) > 40);
        }
    }
    bytes
}

/// Once in two times, if there is an entry of more than eleven bytes: a length that cuts the others of one.
fn cut_within_more(random: &mut Random, execution: &Execution, layout: &Layout) -> Option<usize> {
    let entries = execution.instructions.iter().zip(&layout.instructions);
    let more = |(i, &at): (&Instruction, &usize)| (at, i.kind.more_length(i.size));
    let long: Vec<_> = entries.map(more).filter(|&(_, more)| more > 0).collect();
    if long.is_empty() || random.once_in(2) {
        return None;
    }
    let (at, more) = random.pick(&long);
    Some(at + INSTRUCTION_ITEM + random.below(more))
}

/// Questions 6 to 9; none if there is no instruction, or the one chosen has no byte that question 9 is about.
fn fail_instruction(random: &mut Random, execution: &Execution, question: u8) -> Option<Vec<u8>> {
    if execution.instructions.is_empty() {
        return None;
    }
    let number = random.below(execution.instructions.len());
    let Instruction { kind, size, .. } = execution.instructions[number];
    let fence = kind == Kind::Fence;
    let end = execution.lines.len() * LINE_SIZE;
    let good_size = |wanted: u8| match kind {
        Kind::Fence => wanted == 0,
        _ => [1, 2, 4, 8].contains(&wanted) || wanted == 16 && !kind.is_semaphore(),
    };
    let good_address = |address: u8| {
        if fence {
            address == 0
        } else {
            let within = usize::from(address) + usize::from(size) <= end;
            address.is_multiple_of(size) && within
        }
    };
    // Mostly a size that other kinds have, and an address in the lines or just past them, a multiple of half the size.
    let near = !random.once_in(3);
    let near_size = |wanted: u8| [0, 1, 2, 4, 8, 16].contains(&wanted);
    let half = size.div_ceil(2).max(1);
    let near_address = |b: u8| usize::from(b) < end + 16 && b.is_multiple_of(half);
    let mut bytes = execution.to_bytes();
    let at = layout(execution).instructions[number];
    match question {
        6 => bytes[at] = byte_with(random, |kind| kind > 6),
        7 => bytes[at + 2] = byte_with(random, |b| !good_size(b) && (!near || near_size(b))),
        8 => bytes[at + 1] = byte_with(random, |b| !good_address(b) && (!near || near_address(b))),
        _ if size >= 8 => return None,
        _ => {
            // Of a semaphore, what it saw or what it wrote.
            let values = if kind.is_semaphore() { 2 } else { 1 };
            let value = at + 3 + 8 * random.below(values);
            let spare = random.between(usize::from(size), 7);
            bytes[value + spare] = byte_with(random, |byte| byte > 0);
        }
    }
    Some(bytes)
}

/// Question 26: an access becomes a semaphore and its line is not WB; none if there is no access of a semaphore's size.
/// Question 9 comes after it, so the bytes past the size may be any.
fn fail_attribute(random: &mut Random, mut execution: Execution) -> Option<Vec<u8>> {
    let mut accesses: Vec<usize> = (0..execution.instructions.len()).collect();
    accesses.retain(|&i| (1..=8).contains(&execution.instructions[i].size));
    if accesses.is_empty() {
        return None;
    }
    let access = &mut execution.instructions[random.pick(&accesses)];
    access.kind = random.pick(&[Kind::SemaphoreAcquire, Kind::SemaphoreRelease]);
    if random.once_in(2) {
        access.seen = std::array::from_fn(|_| random.byte());
        access.written = std::array::from_fn(|_| random.byte());
    }
    let mut attributes = Attribute::all();
    attributes.retain(|&attribute| attribute != Attribute::WriteBack);
    // The line beside it too, so that an access over both passes question 27.
    let block = access.lines().start / 2;
    let lines = execution.lines.chunks_mut(2).nth(block)?;
    let attribute = random.pick(&attributes);
    lines.iter_mut().for_each(|line| line.attribute = attribute);
    Some(execution.to_bytes())
}

/// Question 27: one line of an access over two gets another attribute; none if there is no such access, or a semaphore lies
/// there, which question 26 would refuse.
fn fail_lines(random: &mut Random, mut execution: Execution) -> Option<Vec<u8>> {
    let accesses = execution.instructions.iter().map(Instruction::lines);
    let over_two: Vec<_> = accesses.filter(|lines| lines.len() > 1).flatten().collect();
    if over_two.is_empty() {
        return None;
    }
    let line = random.pick(&over_two);
    let mut semaphores = execution.semaphores();
    if semaphores.any(|s| execution.instructions[s].lines().contains(&line)) {
        return None;
    }
    drop(semaphores);
    let mut attributes = Attribute::all();
    attributes.retain(|&attribute| attribute != execution.lines[line].attribute);
    execution.lines[line].attribute = random.pick(&attributes);
    Some(execution.to_bytes())
}

/// Question 11: over 128 operations, on the lines of the execution. What follows is any bytes.
fn fail_operation_count(random: &mut Random, execution: Execution) -> Vec<u8> {
    let write_back = execution.lines[0].attribute == Attribute::WriteBack;
    let semaphores = write_back && random.once_in(2);
    let (kind, fewest) = match semaphores {
        // With fewer processors 40 of them stay below the limit.
        true => (Kind::SemaphoreAcquire, 2),
        false => (Kind::Store, 3),
    };
    let processors = random.between(fewest, MAX_PROCESSORS);
    let stores = MAX_OPERATIONS / kind.roles(processors).len() + 1;
    let store = |_| {
        let processor = random.below(processors);
        let store = match semaphores {
            true => semaphore(kind, 0, &[0], &[1]),
            false => access(kind, 0, &[1]),
        };
        Instruction { processor, ..store }
    };
    let mut stores: Vec<_> = (0..stores).map(store).collect();
    stores.sort_by_key(|store| store.processor);
    let failing = Execution::new(processors, execution.lines, stores, Vec::new());
    let mut bytes = failing.to_bytes();
    bytes.truncate(layout(&failing).pair_count);
    bytes.extend((0..random.below(4)).map(|_| random.byte()));
    bytes
}

/// Questions 12 to 14; none if question 14 has no pair to ask of.
fn fail_pairs(random: &mut Random, mut execution: Execution, question: u8) -> Option<Vec<u8>> {
    let mut bytes = execution.to_bytes();
    let pair_count = layout(&execution).pair_count;
    match question {
        12 => bytes[pair_count] = byte_with(random, |count| usize::from(count) > MAX_PAIRS),
        13 => {
            let most = execution.instructions.len() + 1;
            let pair = loop {
                let pair = (random.below(most) as u8, random.below(most) as u8);
                if !is_dependence(&execution, pair) {
                    break pair;
                }
            };
            bytes[pair_count] += 1;
            bytes.extend([pair.0, pair.1]);
        }
        _ => {
            let possible = possible_pairs(&execution);
            let at = random.below(possible.len().max(1));
            let upper = *possible.get(at)?;
            execution.pairs = vec![upper, possible[random.between(0, at)]];
            bytes = execution.to_bytes();
        }
    }
    Some(bytes)
}

/// Question 15.
fn lengthened(random: &mut Random, execution: &Execution) -> Vec<u8> {
    let mut bytes = execution.to_bytes();
    bytes.extend((0..random.between(1, 4)).map(|_| random.byte()));
    bytes
}
