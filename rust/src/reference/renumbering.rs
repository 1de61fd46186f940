//! Records whose processors are renumbered: which are equal, and which of two stands first (document 02, P9).

use super::record::{read, Attribute, Execution, Instruction, Line, LINE_SIZE, MAX_INSTRUCTIONS};
use super::writer::{count, entry_of_record};
use std::cmp::Ordering;
use std::ops::Range;

/// How the left record stands to the right one: equal, or before or behind it by the smallest renumbered forms, byte by byte. The
/// left record's questions are asked first, then the right one's.
pub fn compare(left: &[u8], right: &[u8]) -> Result<Ordering, u8> {
    let (left, right) = (read(left)?, read(right)?);
    if equal(&left, &right) {
        return Ok(Ordering::Equal);
    }
    Ok(smallest_form(&left).cmp(&smallest_form(&right)))
}

/// The record that stands first, the left one where they are equal. Where either is refused, the empty part of the left one.
pub fn first<'a>(left: &'a [u8], right: &'a [u8]) -> &'a [u8] {
    match compare(left, right) {
        Ok(Ordering::Less | Ordering::Equal) => left,
        Ok(Ordering::Greater) => right,
        Err(_) => &left[..0],
    }
}

/// Whether some renumbering of processors turns one into the other, where lines that no access touches do not count.
pub fn equal(left: &Execution, right: &Execution) -> bool {
    let (left, right) = (untouched_as_zero(left), untouched_as_zero(right));
    let (length, right) = (left.to_bytes().len(), right.to_bytes());
    let mut found = false;
    if length == right.len() {
        each_form(&left, |form| {
            found |= form == right;
            !found && right.starts_with(form)
        });
    }
    found
}

/// The smallest of all renumbered forms, byte by byte, where lines that no access touches are taken as zero.
pub fn smallest_form(execution: &Execution) -> Vec<u8> {
    let execution = untouched_as_zero(execution);
    let mut smallest = execution.to_bytes();
    each_form(&execution, |form| {
        let above = form > &smallest[..form.len()];
        if !above && form.len() == smallest.len() {
            smallest.copy_from_slice(form);
        }
        !above
    });
    smallest
}

/// The execution with its processors in this order: the first of them becomes number 0. Programs and pairs are carried along:
/// instructions are numbered anew, and pairs sorted as question 14 wants.
pub fn renumbered(execution: &Execution, order: &[usize]) -> Execution {
    let mut instructions = Vec::new();
    for (processor, &old) in order.iter().enumerate() {
        let program = &execution.instructions[program(execution, old)];
        instructions.extend(program.iter().map(|&instruction| Instruction {
            processor,
            ..instruction
        }));
    }
    let (processors, lines) = (execution.processors, execution.lines.clone());
    let pairs = renumbered_pairs(execution, order);
    Execution::new(processors, lines, instructions, pairs)
}

/// The numbers of a processor's instructions.
fn program(execution: &Execution, processor: usize) -> Range<usize> {
    let all = &execution.instructions;
    let start = all.partition_point(|instruction| instruction.processor < processor);
    let end = all.partition_point(|instruction| instruction.processor <= processor);
    start..end
}

/// The pairs by the numbers that their instructions have with the processors in this order, sorted.
fn renumbered_pairs(execution: &Execution, order: &[usize]) -> Vec<(u8, u8)> {
    if execution.pairs.is_empty() {
        return Vec::new();
    }
    let in_order = order.iter().flat_map(|&old| program(execution, old));
    let mut numbers = [0; MAX_INSTRUCTIONS];
    for (old, number) in in_order.zip(0..) {
        numbers[old] = number;
    }
    let new = |number: u8| numbers[usize::from(number)];
    let pairs = execution.pairs.iter();
    let mut pairs: Vec<_> = pairs.map(|&(a, b)| (new(a), new(b))).collect();
    pairs.sort();
    pairs
}

/// The execution with attribute and initial bytes of each line that no access touches taken as zero. An mf touches none, an access
/// of sixteen bytes two.
pub fn untouched_as_zero(execution: &Execution) -> Execution {
    let mut execution = execution.clone();
    let zero = Line {
        attribute: Attribute::WriteBack,
        initial: [0; LINE_SIZE],
    };
    let mut touched = vec![false; execution.lines.len()];
    let accesses = execution.instructions.iter();
    accesses.for_each(|access| touched[access.lines()].fill(true));
    let untouched = execution.lines.iter_mut().zip(touched);
    for (line, _) in untouched.filter(|(_, touched)| !touched) {
        *line = zero;
    }
    execution
}

/// Makes the record of every order of the processors, one processor more at a time. `wanted` is asked of what stands so far, the
/// whole record at last; where it says no, none that begins so is made.
fn each_form(execution: &Execution, mut wanted: impl FnMut(&[u8]) -> bool) {
    let programs = (0..execution.processors).map(|processor| {
        let program = &execution.instructions[program(execution, processor)];
        let entries = program.iter().flat_map(entry_of_record);
        [count(program.len())].into_iter().chain(entries).collect()
    });
    let programs: Vec<Vec<u8>> = programs.collect();
    let mut form = vec![count(execution.processors), count(execution.lines.len())];
    form.extend(execution.sections().lines);
    Forms {
        execution,
        programs: &programs,
        wanted: &mut wanted,
    }
    .extend(&mut Vec::new(), &mut form);
}

/// What the records of all orders are made of.
struct Forms<'a, W> {
    execution: &'a Execution,
    /// By processor: its program's bytes, from the count on.
    programs: &'a [Vec<u8>],
    wanted: &'a mut W,
}

impl<W: FnMut(&[u8]) -> bool> Forms<'_, W> {
    /// All that begin with the processors of `order`; `form` is what stands so far.
    fn extend(&mut self, order: &mut Vec<usize>, form: &mut Vec<u8>) {
        if !(self.wanted)(form) {
            return;
        }
        let length = form.len();
        if order.len() == self.programs.len() {
            let pairs = renumbered_pairs(self.execution, order);
            form.push(count(pairs.len()));
            form.extend(pairs.iter().flat_map(|&(a, b)| [a, b]));
            (self.wanted)(form);
            form.truncate(length);
        }
        for processor in 0..self.programs.len() {
            if !order.contains(&processor) {
                order.push(processor);
                form.extend(&self.programs[processor]);
                self.extend(order, form);
                form.truncate(length);
                order.pop();
            }
        }
    }
}
