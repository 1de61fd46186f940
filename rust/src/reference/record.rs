//! The record: its types, the reader with its questions, and the operation numbers.

use std::ops::Range;

/// The questions that are asked of a record. Question 10 asked for an instruction: since document 02's P2 a record needs none,
/// and the number is unused. Questions 26, of a semaphore (P3), and 27, of an access over two lines (P7), come after 8.
pub const QUESTIONS: [u8; 16] = [1, 2, 3, 4, 5, 6, 7, 8, 9, 11, 12, 13, 14, 15, 26, 27];

/// Most processors of a record (question 2).
pub const MAX_PROCESSORS: usize = 8;
/// Most lines of a record (question 3).
pub const MAX_LINES: usize = 8;
/// Most instructions over all programs (question 5).
pub const MAX_INSTRUCTIONS: usize = 40;
/// Most operations (question 11).
pub const MAX_OPERATIONS: usize = 128;
/// Most dependence pairs (question 12).
pub const MAX_PAIRS: usize = 40;
/// Peripheral domains of UC memory, numbered from 0 (document 02, P6).
pub const DOMAINS: u8 = 4;
/// How far apart the attribute bytes of two neighbouring domains are.
const PER_DOMAIN: u8 = 16;
/// Bytes of memory that one line holds.
pub const LINE_SIZE: usize = 8;
/// Record bytes of a line: attribute and initial bytes.
pub const LINE_ITEM: usize = 9;
/// Most bytes of an access (question 7).
pub const MAX_SIZE: usize = 16;
/// Record bytes of an instruction: kind, address, size, and the first eight of its data.
pub const INSTRUCTION_ITEM: usize = 11;
/// Data bytes among these, and those that stand behind them where there are more.
pub const DATA_ITEM: usize = 8;
/// Record bytes of a dependence pair.
pub const PAIR_ITEM: usize = 2;

/// What an instruction does; the number is the record's kind byte.
#[derive(Clone, Copy, PartialEq, Eq, Debug)]
pub enum Kind {
    Load = 0,
    LoadAcquire = 1,
    Store = 2,
    StoreRelease = 3,
    Fence = 4,
    SemaphoreAcquire = 5,
    SemaphoreRelease = 6,
}

impl Kind {
    /// All seven kinds, by their number.
    pub const ALL: [Kind; 7] = [
        Kind::Load,
        Kind::LoadAcquire,
        Kind::Store,
        Kind::StoreRelease,
        Kind::Fence,
        Kind::SemaphoreAcquire,
        Kind::SemaphoreRelease,
    ];

    /// The kind of a record's kind byte (question 6).
    pub fn of(byte: u8) -> Option<Kind> {
        Kind::ALL.get(usize::from(byte)).copied()
    }

    /// A semaphore of either kind: a load and a store in rules 1 to 12.
    pub fn is_semaphore(self) -> bool {
        matches!(self, Kind::SemaphoreAcquire | Kind::SemaphoreRelease)
    }

    /// ld, ld.acq or a semaphore.
    pub fn is_load(self) -> bool {
        self.is_semaphore() || matches!(self, Kind::Load | Kind::LoadAcquire)
    }

    /// st, st.rel or a semaphore.
    pub fn is_store(self) -> bool {
        self.is_semaphore() || matches!(self, Kind::Store | Kind::StoreRelease)
    }

    /// ld.acq or sem.acq, which rule 2 is about.
    pub fn acquires(self) -> bool {
        matches!(self, Kind::LoadAcquire | Kind::SemaphoreAcquire)
    }

    /// st.rel or sem.rel, which rules 3 and 12 are about.
    pub fn releases(self) -> bool {
        matches!(self, Kind::StoreRelease | Kind::SemaphoreRelease)
    }

    /// The sizes that question 7 passes. Since document 02's P7 a load or a store may have sixteen bytes, a semaphore not.
    pub fn sizes(self) -> &'static [u8] {
        match self {
            Kind::Fence => &[0],
            Kind::SemaphoreAcquire | Kind::SemaphoreRelease => &[1, 2, 4, 8],
            Kind::Load | Kind::LoadAcquire | Kind::Store | Kind::StoreRelease => &[1, 2, 4, 8, 16],
        }
    }

    /// Record bytes of one value of this size: eight, or as many as it has where that is more.
    fn value_length(size: u8) -> usize {
        usize::from(size).max(DATA_ITEM)
    }

    /// Record bytes that an instruction of this kind and size has behind its first eleven: what a semaphore wrote, and the upper
    /// half of a value of sixteen bytes.
    pub fn more_length(self, size: u8) -> usize {
        let values = 1 + usize::from(self.is_semaphore());
        values * Kind::value_length(size) - DATA_ITEM
    }

    /// The operations that an instruction of this kind gives, in their order.
    pub fn roles(self, processors: usize) -> Vec<Role> {
        let mut roles = Vec::new();
        if self == Kind::Fence {
            roles.push(Role::Fence);
        }
        if self.is_load() {
            roles.push(Role::Read);
        }
        if self.is_store() {
            roles.push(Role::Local);
            roles.extend((0..processors).map(Role::Remote));
        }
        roles
    }
}

/// A line's memory attribute; a UC line's with its peripheral domain, below [`DOMAINS`].
#[derive(Clone, Copy, PartialEq, Eq, Debug)]
pub enum Attribute {
    WriteBack,
    Uncacheable { domain: u8 },
    WriteCoalescing,
}

impl Attribute {
    /// All attributes, UC in every domain, by their byte.
    pub fn all() -> Vec<Attribute> {
        (0..=u8::MAX).filter_map(Attribute::of).collect()
    }

    /// The papers' name; behind UC stands the domain, where it is not 0.
    pub fn name(self) -> String {
        match self {
            Attribute::WriteBack => "WB".to_string(),
            Attribute::Uncacheable { domain: 0 } => "UC".to_string(),
            Attribute::Uncacheable { domain } => format!("UC{domain}"),
            Attribute::WriteCoalescing => "WC".to_string(),
        }
    }

    /// The attribute of a record's attribute byte (question 4).
    pub fn of(byte: u8) -> Option<Attribute> {
        let domain = byte / PER_DOMAIN;
        match byte {
            0 => Some(Attribute::WriteBack),
            2 => Some(Attribute::WriteCoalescing),
            _ if byte % PER_DOMAIN == 1 && domain < DOMAINS => {
                Some(Attribute::Uncacheable { domain })
            }
            _ => None,
        }
    }

    /// The record's attribute byte.
    pub fn byte(self) -> u8 {
        match self {
            Attribute::WriteBack => 0,
            Attribute::Uncacheable { domain } => 1 + PER_DOMAIN * domain,
            Attribute::WriteCoalescing => 2,
        }
    }

    /// The peripheral domain that a UC line belongs to; other lines belong to none.
    pub fn domain(self) -> Option<u8> {
        match self {
            Attribute::Uncacheable { domain } => Some(domain),
            Attribute::WriteBack | Attribute::WriteCoalescing => None,
        }
    }

    /// UC, in whatever domain.
    pub fn is_uncacheable(self) -> bool {
        self.domain().is_some()
    }
}

/// Line k holds addresses 8k to 8k+7.
#[derive(Clone, Copy, PartialEq, Eq, Debug)]
pub struct Line {
    pub attribute: Attribute,
    pub initial: [u8; LINE_SIZE],
}

/// One instruction and the processor whose program it stands in.
#[derive(Clone, Copy, PartialEq, Eq, Debug)]
pub struct Instruction {
    pub processor: usize,
    pub kind: Kind,
    pub address: u8,
    pub size: u8,
    /// What a load saw, lowest address first; else zeros.
    pub seen: [u8; MAX_SIZE],
    /// What a store wrote, lowest address first; else zeros.
    pub written: [u8; MAX_SIZE],
}

impl Instruction {
    /// Whether the access touches this byte; an mf touches none.
    pub fn covers(&self, address: usize) -> bool {
        let first = usize::from(self.address);
        (first..first + usize::from(self.size)).contains(&address)
    }

    /// The byte that a load saw at an address that it covers.
    pub fn byte_seen(&self, address: usize) -> u8 {
        self.seen[address - usize::from(self.address)]
    }

    /// The byte that a store wrote at an address that it covers.
    pub fn byte_written(&self, address: usize) -> u8 {
        self.written[address - usize::from(self.address)]
    }

    /// The addresses that the access covers.
    pub fn addresses(&self) -> Range<usize> {
        let first = usize::from(self.address);
        first..first + usize::from(self.size)
    }

    /// The lines that the access lies on, one or two; an mf lies on none.
    pub fn lines(&self) -> Range<usize> {
        let addresses = self.addresses();
        addresses.start / LINE_SIZE..addresses.end.div_ceil(LINE_SIZE)
    }
}

/// What an operation is to its instruction.
#[derive(Clone, Copy, PartialEq, Eq, Debug)]
pub enum Role {
    /// R of a load or a semaphore.
    Read,
    /// LV of a store or a semaphore.
    Local,
    /// RV_q of a store or a semaphore.
    Remote(usize),
    /// F of an mf.
    Fence,
}

/// One operation: its instruction's number, and its role there.
#[derive(Clone, Copy, PartialEq, Eq, Debug)]
pub struct Operation {
    pub instruction: usize,
    pub role: Role,
}

/// A record's content, with its operations numbered.
#[derive(Clone, PartialEq, Eq, Debug)]
pub struct Execution {
    pub processors: usize,
    pub lines: Vec<Line>,
    /// By instruction number: the programs one after another.
    pub instructions: Vec<Instruction>,
    /// Dependences: earlier and later instruction number.
    pub pairs: Vec<(u8, u8)>,
    /// By operation number.
    pub operations: Vec<Operation>,
    /// By instruction number: its first operation's number.
    first: Vec<usize>,
}

impl Execution {
    /// Numbers the operations. Instructions stand in the order of their processors.
    pub fn new(
        processors: usize,
        lines: Vec<Line>,
        instructions: Vec<Instruction>,
        pairs: Vec<(u8, u8)>,
    ) -> Execution {
        assert!(instructions.is_sorted_by_key(|i| i.processor));
        let mut operations = Vec::new();
        let mut first = Vec::new();
        for (number, instruction) in instructions.iter().enumerate() {
            first.push(operations.len());
            for role in instruction.kind.roles(processors) {
                operations.push(Operation {
                    instruction: number,
                    role,
                });
            }
        }
        Execution {
            processors,
            lines,
            instructions,
            pairs,
            operations,
            first,
        }
    }

    /// N, the number of operations.
    pub fn operation_count(&self) -> usize {
        self.operations.len()
    }

    /// The numbers of an instruction's operations.
    pub fn operations_of(&self, instruction: usize) -> Range<usize> {
        let end = self.first.get(instruction + 1).copied();
        self.first[instruction]..end.unwrap_or(self.operations.len())
    }

    /// 'R or LV' of an access: R of a load or a semaphore, LV of another store. Each is its first operation.
    pub fn read_or_local(&self, access: usize) -> usize {
        self.first[access]
    }

    /// R of a load.
    pub fn read(&self, load: usize) -> usize {
        self.first[load]
    }

    /// LV of a store. A semaphore's stands behind its R.
    pub fn local(&self, store: usize) -> usize {
        self.first[store] + usize::from(self.instructions[store].kind.is_load())
    }

    /// RV_q of a store.
    pub fn remote(&self, store: usize, q: usize) -> usize {
        self.local(store) + 1 + q
    }

    /// RV_own of a store.
    pub fn remote_own(&self, store: usize) -> usize {
        self.remote(store, self.instructions[store].processor)
    }

    /// The numbers of all loads, semaphores among them.
    pub fn loads(&self) -> impl Iterator<Item = usize> + '_ {
        (0..self.instructions.len()).filter(|&i| self.instructions[i].kind.is_load())
    }

    /// The numbers of all stores, semaphores among them.
    pub fn stores(&self) -> impl Iterator<Item = usize> + '_ {
        (0..self.instructions.len()).filter(|&i| self.instructions[i].kind.is_store())
    }

    /// The numbers of all semaphores.
    pub fn semaphores(&self) -> impl Iterator<Item = usize> + '_ {
        (0..self.instructions.len()).filter(|&i| self.instructions[i].kind.is_semaphore())
    }

    /// Whether the two instructions stand in one program.
    pub fn same_program(&self, a: usize, b: usize) -> bool {
        self.instructions[a].processor == self.instructions[b].processor
    }

    /// The addresses of the bytes that the two accesses share; an mf shares none.
    pub fn shared(&self, a: usize, b: usize) -> Range<usize> {
        let [one, other] = [a, b].map(|access| self.instructions[access].addresses());
        one.start.max(other.start)..one.end.min(other.end)
    }

    /// Whether the two accesses share a byte.
    pub fn overlap(&self, a: usize, b: usize) -> bool {
        !self.shared(a, b).is_empty()
    }

    /// The attribute of the lines that an access lies on; by question 27 two of them have the same.
    pub fn attribute(&self, access: usize) -> Attribute {
        self.lines[self.instructions[access].lines().start].attribute
    }

    /// The initial byte at an address.
    pub fn initial(&self, address: usize) -> u8 {
        self.lines[address / LINE_SIZE].initial[address % LINE_SIZE]
    }
}

/// Reads a record, or gives the number of the first question answered 'no'.
pub fn read(bytes: &[u8]) -> Result<Execution, u8> {
    let mut walk = Walk { rest: bytes };
    let processors = read_processors(&mut walk)?;
    let lines = read_lines(&mut walk)?;
    let mut instructions = Vec::new();
    for processor in 0..processors {
        read_program(&mut walk, processor, &lines, &mut instructions)?;
    }
    let mut execution = Execution::new(processors, lines, instructions, Vec::new());
    ask(11, execution.operation_count() <= MAX_OPERATIONS)?;
    read_pairs(&mut walk, &mut execution)?;
    ask(15, walk.rest.is_empty())?;
    Ok(execution)
}

/// A question: its number comes back as the refusal when the answer is 'no'.
pub(crate) fn ask(question: u8, yes: bool) -> Result<(), u8> {
    if yes {
        Ok(())
    } else {
        Err(question)
    }
}

/// The walk over the record: the bytes not yet looked at.
struct Walk<'a> {
    rest: &'a [u8],
}

impl<'a> Walk<'a> {
    /// The next item of this length, after question 1.
    fn item(&mut self, length: usize) -> Result<&'a [u8], u8> {
        ask(1, length <= self.rest.len())?;
        let (item, rest) = self.rest.split_at(length);
        self.rest = rest;
        Ok(item)
    }

    /// The next count, an item of one byte.
    fn count(&mut self) -> Result<usize, u8> {
        Ok(usize::from(self.item(1)?[0]))
    }
}

fn read_processors(walk: &mut Walk) -> Result<usize, u8> {
    let processors = walk.count()?;
    ask(2, (1..=MAX_PROCESSORS).contains(&processors))?;
    Ok(processors)
}

fn read_lines(walk: &mut Walk) -> Result<Vec<Line>, u8> {
    let count = walk.count()?;
    ask(3, (1..=MAX_LINES).contains(&count))?;
    let mut lines = Vec::new();
    for _ in 0..count {
        let item = walk.item(LINE_ITEM)?;
        let attribute = Attribute::of(item[0]).ok_or(4)?;
        let initial = item[1..].try_into().expect("eight initial bytes");
        lines.push(Line { attribute, initial });
    }
    Ok(lines)
}

/// Reads one processor's program, from its own count on, behind the instructions before it.
fn read_program(
    walk: &mut Walk,
    processor: usize,
    lines: &[Line],
    instructions: &mut Vec<Instruction>,
) -> Result<(), u8> {
    let count = walk.count()?;
    ask(5, instructions.len() + count <= MAX_INSTRUCTIONS)?;
    for _ in 0..count {
        instructions.push(read_instruction(walk, processor, lines)?);
    }
    Ok(())
}

/// One instruction: question 1 of its first eleven bytes, 6 and 7; question 1 of the bytes that it has behind them; 8, 26, 27
/// and 9.
fn read_instruction(walk: &mut Walk, processor: usize, lines: &[Line]) -> Result<Instruction, u8> {
    let item = walk.item(INSTRUCTION_ITEM)?;
    let kind = Kind::of(item[0]).ok_or(6)?;
    let (address, size) = (item[1], item[2]);
    ask(7, kind.sizes().contains(&size))?;
    let more = walk.item(kind.more_length(size))?;
    let data = [&item[3..], more].concat();
    let (seen, written) = match kind {
        kind if kind.is_semaphore() => data.split_at(DATA_ITEM),
        kind if kind.is_load() => (&data[..], &[][..]),
        _ => (&[][..], &data[..]),
    };
    let instruction = Instruction {
        processor,
        kind,
        address,
        size,
        seen: value_of(seen),
        written: value_of(written),
    };
    ask(8, lies_within(&instruction, lines.len()))?;
    let under = &lines[instruction.lines()];
    if kind.is_semaphore() {
        let write_back = |line: &Line| line.attribute == Attribute::WriteBack;
        ask(26, under.iter().all(write_back))?;
    }
    ask(27, one_attribute(under))?;
    let spare = [seen, written].map(|value| value.get(usize::from(size)..).unwrap_or(&[]));
    ask(9, spare.concat().iter().all(|&byte| byte == 0))?;
    Ok(instruction)
}

/// The bytes of a value, and zeros behind them.
pub(crate) fn value_of(bytes: &[u8]) -> [u8; MAX_SIZE] {
    std::array::from_fn(|at| bytes.get(at).copied().unwrap_or(0))
}

/// Question 8: the address is a multiple of the size, and all bytes are within so many lines; that of an mf is 0.
fn lies_within(instruction: &Instruction, lines: usize) -> bool {
    let Instruction { address, size, .. } = *instruction;
    // A multiple of 0 is 0 alone.
    address.is_multiple_of(size) && instruction.addresses().end <= lines * LINE_SIZE
}

/// Question 27: the lines that an access lies on have one attribute byte, so those of UC one domain.
fn one_attribute(lines: &[Line]) -> bool {
    let mut neighbours = lines.windows(2);
    neighbours.all(|two| two[0].attribute.byte() == two[1].attribute.byte())
}

fn read_pairs(walk: &mut Walk, execution: &mut Execution) -> Result<(), u8> {
    let count = walk.count()?;
    ask(12, count <= MAX_PAIRS)?;
    for _ in 0..count {
        let item = walk.item(PAIR_ITEM)?;
        let pair = (item[0], item[1]);
        ask(13, is_dependence(execution, pair))?;
        let above = execution.pairs.last().is_none_or(|&last| last < pair);
        ask(14, above)?;
        execution.pairs.push(pair);
    }
    Ok(())
}

/// Question 13: first below second, both in one program, neither an mf, not both stores; a semaphore is none here.
pub(crate) fn is_dependence(execution: &Execution, pair: (u8, u8)) -> bool {
    let (first, second) = (usize::from(pair.0), usize::from(pair.1));
    if first >= second || second >= execution.instructions.len() {
        return false;
    }
    let kinds = [first, second].map(|number| execution.instructions[number].kind);
    execution.same_program(first, second)
        && !kinds.contains(&Kind::Fence)
        && !kinds
            .iter()
            .all(|kind| kind.is_store() && !kind.is_semaphore())
}
