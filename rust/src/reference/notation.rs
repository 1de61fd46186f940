//! A small notation for executions: `programs(&[&[st(X, 1), rel(Y, 1)], &[acq(Y, 1), ld(X, 0)]]).build()`.

use super::record::{value_of, Attribute, Execution, Instruction, Kind, Line, LINE_SIZE};

/// Document 01's x.
pub const X: u8 = 0;
/// Document 01's y.
pub const Y: u8 = 8;
/// A third place, on a line of its own.
pub const Z: u8 = 16;
/// A fourth place, on a line of its own.
pub const W: u8 = 24;

/// UC in this domain.
pub fn uc(domain: u8) -> Attribute {
    Attribute::Uncacheable { domain }
}

/// ld of one byte, and the byte it saw.
pub fn ld(address: u8, seen: u8) -> Instruction {
    access(Kind::Load, address, &[seen])
}

/// ld.acq of one byte, and the byte it saw.
pub fn acq(address: u8, seen: u8) -> Instruction {
    access(Kind::LoadAcquire, address, &[seen])
}

/// st of one byte.
pub fn st(address: u8, written: u8) -> Instruction {
    access(Kind::Store, address, &[written])
}

/// st.rel of one byte.
pub fn rel(address: u8, written: u8) -> Instruction {
    access(Kind::StoreRelease, address, &[written])
}

/// mf.
pub fn mf() -> Instruction {
    access(Kind::Fence, 0, &[])
}

/// sem.acq of one byte: the byte it saw, and the one it wrote.
pub fn sem_acq(address: u8, seen: u8, written: u8) -> Instruction {
    semaphore(Kind::SemaphoreAcquire, address, &[seen], &[written])
}

/// sem.rel of one byte: the byte it saw, and the one it wrote.
pub fn sem_rel(address: u8, seen: u8, written: u8) -> Instruction {
    semaphore(Kind::SemaphoreRelease, address, &[seen], &[written])
}

/// A load, a store or an mf; its size is the number of data bytes, lowest address first.
pub fn access(kind: Kind, address: u8, bytes: &[u8]) -> Instruction {
    match kind.is_load() {
        true => instruction(kind, address, bytes, &[]),
        false => instruction(kind, address, &[], bytes),
    }
}

/// A semaphore; its size is the number of bytes that it saw, and of those that it wrote.
pub fn semaphore(kind: Kind, address: u8, seen: &[u8], written: &[u8]) -> Instruction {
    assert_eq!(seen.len(), written.len());
    instruction(kind, address, seen, written)
}

fn instruction(kind: Kind, address: u8, seen: &[u8], written: &[u8]) -> Instruction {
    Instruction {
        processor: 0,
        kind,
        address,
        size: seen.len().max(written.len()) as u8,
        seen: value_of(seen),
        written: value_of(written),
    }
}

/// An execution being put together.
#[derive(Clone, Debug)]
pub struct Draft {
    processors: usize,
    lines: Vec<Line>,
    instructions: Vec<Instruction>,
    pairs: Vec<(u8, u8)>,
}

/// One program for each processor, on as many WB lines of zeros as the accesses need.
pub fn programs(programs: &[&[Instruction]]) -> Draft {
    let mut instructions = Vec::new();
    for (processor, program) in programs.iter().enumerate() {
        let placed = |&instruction: &Instruction| Instruction {
            processor,
            ..instruction
        };
        instructions.extend(program.iter().map(placed));
    }
    let needed = instructions.iter().map(|i| i.lines().end).max();
    let line = Line {
        attribute: Attribute::WriteBack,
        initial: [0; LINE_SIZE],
    };
    Draft {
        processors: programs.len(),
        lines: vec![line; needed.unwrap_or(0).max(1)],
        instructions,
        pairs: Vec::new(),
    }
}

impl Draft {
    /// Gives every line this attribute.
    pub fn all_lines(mut self, attribute: Attribute) -> Draft {
        for line in &mut self.lines {
            line.attribute = attribute;
        }
        self
    }

    /// Gives one line this attribute.
    pub fn line(mut self, number: usize, attribute: Attribute) -> Draft {
        self.lines[number].attribute = attribute;
        self
    }

    /// Sets one initial byte.
    pub fn initial(mut self, address: u8, byte: u8) -> Draft {
        let address = usize::from(address);
        self.lines[address / LINE_SIZE].initial[address % LINE_SIZE] = byte;
        self
    }

    /// Adds a dependence pair.
    pub fn pair(mut self, earlier: u8, later: u8) -> Draft {
        self.pairs.push((earlier, later));
        self
    }

    /// The execution, as it stands: no question is asked of it.
    pub fn build(self) -> Execution {
        Execution::new(self.processors, self.lines, self.instructions, self.pairs)
    }
}
