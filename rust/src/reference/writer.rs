//! The writer: a record out of its number of processors and its lines, instructions and pairs, each prepared by itself.

use super::record::{ask, read, Execution, Instruction, Line, DATA_ITEM, LINE_ITEM, PAIR_ITEM};

/// Bytes of an instruction of the sections: its processor, kind, address, size and eight data bytes; and of one that has eight
/// data bytes more.
const ENTRY: usize = 12;
const LONG_ENTRY: usize = 20;
/// Where an entry has its processor, its kind and its size.
const PROCESSOR_AT: usize = 0;
const KIND_AT: usize = 1;
const SIZE_AT: usize = 3;

/// What a record is written out of, document 02's separate sheets: the number of processors, and three sections without counts.
/// An instruction begins with the number of its processor; they may stand in any order. Pairs have the numbers that instructions
/// get where they are grouped by processor.
#[derive(Clone, PartialEq, Eq, Debug)]
pub struct Sections {
    pub processors: u8,
    pub lines: Vec<u8>,
    pub instructions: Vec<u8>,
    pub pairs: Vec<u8>,
}

/// Writes the record to the front of the buffer and gives its length. Question 23 is asked first, then 24, those of the record to
/// be written, and 25; a refusal changes no byte, and bytes past the record stay.
pub fn write(sections: &Sections, buffer: &mut [u8]) -> Result<usize, u8> {
    let entries = sections.entries()?;
    let mut processors = entries.iter().map(|entry| entry[PROCESSOR_AT]);
    ask(24, processors.all(|number| number < sections.processors))?;
    let record = sections.laid_out(&entries);
    read(&record)?;
    let room = buffer.get_mut(..record.len()).ok_or(25)?;
    room.copy_from_slice(&record);
    Ok(record.len())
}

/// Bytes of an instruction of this kind and size. Semaphores are long at any size (document 02, P3), and kinds 0 to 3 of size 16
/// (P7). All others are not, mf and the kinds that are not known (7 and 8 too, P8).
fn entry_length(kind: u8, size: u8) -> usize {
    match (kind, size) {
        (5 | 6, _) | (0..=3, 16) => LONG_ENTRY,
        _ => ENTRY,
    }
}

impl Sections {
    /// The instructions, in the order of their section. Question 23: no section has a part of an entry.
    fn entries(&self) -> Result<Vec<&[u8]>, u8> {
        ask(23, self.lines.len().is_multiple_of(LINE_ITEM))?;
        ask(23, self.pairs.len().is_multiple_of(PAIR_ITEM))?;
        let mut entries = Vec::new();
        let mut rest = &self.instructions[..];
        while !rest.is_empty() {
            ask(23, rest.len() >= ENTRY)?;
            let length = entry_length(rest[KIND_AT], rest[SIZE_AT]);
            let (entry, after) = rest.split_at_checked(length).ok_or(23)?;
            entries.push(entry);
            rest = after;
        }
        Ok(entries)
    }

    /// The record: each section behind its count, the instructions grouped by processor. No question is asked of it.
    fn laid_out(&self, entries: &[&[u8]]) -> Vec<u8> {
        let mut record = vec![self.processors, count(self.lines.len() / LINE_ITEM)];
        record.extend(&self.lines);
        for processor in 0..self.processors {
            let all = entries.iter();
            let program: Vec<_> = all.filter(|e| e[PROCESSOR_AT] == processor).collect();
            record.push(count(program.len()));
            program.iter().for_each(|e| record.extend(&e[KIND_AT..]));
        }
        record.push(count(self.pairs.len() / PAIR_ITEM));
        record.extend(&self.pairs);
        record
    }
}

/// The byte of a count. One that has none fails question 3, 5 or 12, where the walk comes to it, as 255 does.
pub(super) fn count(number: usize) -> u8 {
    u8::try_from(number).unwrap_or(u8::MAX)
}

impl Execution {
    /// The sections that the record is written out of, instructions in their order.
    pub fn sections(&self) -> Sections {
        let line = |line: &Line| {
            let attribute = [line.attribute.byte()];
            [&attribute[..], &line.initial].concat()
        };
        let pair = |&(first, second): &(u8, u8)| [first, second];
        Sections {
            processors: self.processors as u8,
            lines: self.lines.iter().flat_map(line).collect(),
            instructions: self.instructions.iter().flat_map(entry).collect(),
            pairs: self.pairs.iter().flat_map(pair).collect(),
        }
    }

    /// The record, also of an execution that fails a question.
    pub fn to_bytes(&self) -> Vec<u8> {
        let sections = self.sections();
        let entries = sections.entries().expect("the sections have whole entries");
        sections.laid_out(&entries)
    }
}

/// The entry of an instruction. Its data is what a load saw, what a store wrote, of a semaphore the one behind the other.
fn entry(instruction: &Instruction) -> Vec<u8> {
    let Instruction { kind, size, .. } = *instruction;
    let (seen, written) = (&instruction.seen, &instruction.written);
    let data = match kind {
        kind if kind.is_semaphore() => [&seen[..DATA_ITEM], &written[..DATA_ITEM]].concat(),
        kind if kind.is_load() => seen.to_vec(),
        _ => written.to_vec(),
    };
    let processor = instruction.processor as u8;
    let mut entry = vec![processor, kind as u8, instruction.address, size];
    entry.extend(data);
    entry.truncate(entry_length(kind as u8, size));
    entry
}

/// The bytes of an instruction in the record: the entry without its processor.
pub(super) fn entry_of_record(instruction: &Instruction) -> Vec<u8> {
    entry(instruction).split_off(KIND_AT)
}
