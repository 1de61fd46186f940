//! Prints executions in the notation, for solvers: with nothing seen, and without their claims, sources and orders.
//!
//! What is printed comes from the bytes of the proved solvers' copy, so nothing that was seen can get into it. Beside them only
//! names are used: those of the executions, the places and the instructions.

use super::claims::begins_alternatives;
use super::draft::{ACCESSES, FENCE};
use super::words::OPEN_ENDS;
use super::{asks, record, Names, Written};
use crate::proved;
use crate::reference::record::{
    read, Attribute, Execution, Instruction, Kind, LINE_SIZE, MAX_SIZE,
};

/// Most characters of a printed line, where it can be parted after a sign.
const WIDTH: usize = 100;

/// Where what follows the first word of a line begins.
const COLUMN: usize = 14;

/// The executions without what was seen, an empty line between them; they can be read again. Each has the attributes of
/// [`Written::printed_execution`]. Where a question refuses it, a comment says so in its place.
pub fn solvers_text(executions: &[Written]) -> String {
    let all = executions.iter().map(|written| match copy_of(written) {
        Ok(copy) => printed(&written.name, &written.names, &copy),
        Err(question) => format!(
            "# {}: question {question} refuses it ({}), so it has no copy\n",
            written.name,
            asks(question)
        ),
    });
    all.collect::<Vec<String>>().join("\n")
}

/// What the bytes of the solvers' copy hold.
fn copy_of(written: &Written) -> Result<Execution, u8> {
    let record = record(&written.printed_execution())?;
    let mut copy = vec![0; record.len()];
    proved::solvers_copy(&record, &mut copy)?;
    read(&copy)
}

/// An execution. Its attributes stand at the number of operations, since the notation has them at a claim; that number follows
/// from the programs.
fn printed(name: &str, names: &Names, copy: &Execution) -> String {
    let lines = [
        entry("places", filled(&places(names))),
        entry("initially", filled(&initial_bytes(names, copy))),
        entry("programs", programs(names, copy)),
        entry("pairs", filled(&pairs(names, copy))),
        entry("operations", filled(&operations(names, copy))),
    ];
    format!("execution {name}\n{}", lines.concat())
}

/// The lines of an entry in one column, the first behind its word; none where there is nothing to be said.
fn entry(key: &str, lines: Vec<String>) -> String {
    let keys = std::iter::once(key).chain(std::iter::repeat(""));
    let rows = keys.zip(lines);
    let width = COLUMN - 2;
    rows.map(|(key, line)| format!("  {key:width$}{line}\n"))
        .collect()
}

/// Items apart by commas, on as few lines as have room for them and a sign more.
fn filled(items: &[String]) -> Vec<String> {
    let mut lines: Vec<String> = Vec::new();
    for item in items {
        match lines.last_mut() {
            Some(last) if COLUMN + width(last) + 2 + width(item) < WIDTH => {
                *last = format!("{last}, {item}");
            }
            Some(last) => {
                last.push(',');
                lines.push(item.clone());
            }
            None => lines.push(item.clone()),
        }
    }
    lines
}

/// How many characters a text has.
fn width(text: &str) -> usize {
    text.chars().count()
}

/// The places that are not where they are without the line.
fn places(names: &Names) -> Vec<String> {
    let own = names.places.iter().filter(|place| !is_default(place));
    own.map(|(name, at)| format!("{name} at {at}")).collect()
}

fn is_default(place: &(String, u8)) -> bool {
    Names::default().places.contains(place)
}

/// The bytes that are not zero; where no access and none of these lies on the last line, one that is, so that the line stays.
fn initial_bytes(names: &Names, copy: &Execution) -> Vec<String> {
    let addresses = 0..copy.lines.len() * LINE_SIZE;
    let mut at: Vec<usize> = addresses.filter(|&at| copy.initial(at) != 0).collect();
    let last = copy.lines.len() - 1;
    let accesses = copy.instructions.iter().flat_map(Instruction::lines);
    let mut touched = accesses.chain(at.iter().map(|at| at / LINE_SIZE));
    if last > 0 && !touched.any(|line| line == last) {
        at.push(last * LINE_SIZE);
    }
    let byte = |at: usize| format!("{}={}", near(names, at), copy.initial(at));
    at.into_iter().map(byte).collect()
}

/// An address from the nearest place before it on its line of memory, or at it; as a number where there is none. A place that is
/// not a default one goes before one that is.
fn near(names: &Names, at: usize) -> String {
    let before = |&&(_, place): &&(String, u8)| {
        let place = usize::from(place);
        place <= at && place / LINE_SIZE == at / LINE_SIZE
    };
    // What may begin the attributes would be taken for one there.
    let places = names.places.iter().filter(before);
    let places = places.filter(|(name, _)| !begins_alternatives(name));
    let nearest = places.min_by_key(|place| (at - usize::from(place.1), is_default(place)));
    nearest.map_or(at.to_string(), |place| from(place, at))
}

/// An address by a place, with what is added to it.
fn from((name, place): &(String, u8), at: usize) -> String {
    match at - usize::from(*place) {
        0 => name.clone(),
        further => format!("{name}+{further}"),
    }
}

/// All programs on one line, or each on lines of its own; those with no instruction that follow one another share theirs.
fn programs(names: &Names, copy: &Execution) -> Vec<String> {
    let mut lines: Vec<String> = Vec::new();
    for processor in 0..copy.processors {
        let numbers = 0..copy.instructions.len();
        let own = numbers.filter(|&number| copy.instructions[number].processor == processor);
        let program: Vec<String> = own.map(|number| instruction(names, copy, number)).collect();
        if let Some(last) = lines.last_mut() {
            last.push(';');
        }
        match lines.last_mut() {
            Some(last) if program.is_empty() && last.ends_with("none;") => *last += " none",
            _ if program.is_empty() => lines.push("none".to_string()),
            _ => lines.extend(filled(&program)),
        }
    }
    let one = lines.join(" ");
    match COLUMN + width(&one) <= WIDTH {
        true => vec![one],
        false => lines,
    }
}

/// An instruction behind its own name, if it has one.
fn instruction(names: &Names, copy: &Execution, number: usize) -> String {
    let instruction = &copy.instructions[number];
    let text = match instruction.kind {
        Kind::Fence => FENCE.to_string(),
        _ => {
            let at = address(names, number, instruction.address.into());
            format!("{} {at}{}", access(instruction), values(instruction))
        }
    };
    match label(names, number) {
        Some(label) => format!("{label}: {text}"),
        None => text,
    }
}

fn label(names: &Names, number: usize) -> Option<&String> {
    names.labels.get(number)?.as_ref()
}

/// The address of an instruction from the place that it was written from, or as a number.
fn address(names: &Names, number: usize, at: usize) -> String {
    let base = names.bases.get(number).and_then(Option::as_ref);
    let mut places = names.places.iter();
    let place = places.find(|(name, place)| Some(name) == base && usize::from(*place) <= at);
    place.map_or(at.to_string(), |place| from(place, at))
}

/// `ld`, `st16.rel` and so on; size 1 is left out.
fn access(instruction: &Instruction) -> String {
    let mut rows = ACCESSES.iter();
    let row = rows.find(|row| row.0 == instruction.kind);
    let (_, name, order) = row.expect("all kinds but mf have a row");
    match instruction.size {
        1 => format!("{name}{order}"),
        size => format!("{name}{size}{order}"),
    }
}

/// What stands behind the address.
fn values(instruction: &Instruction) -> String {
    let size = instruction.size;
    let seen = format!(" sees {}", value(&instruction.seen, size));
    match instruction.kind {
        kind if kind.is_semaphore() => {
            format!("{seen} writes {}", value(&instruction.written, size))
        }
        kind if kind.is_load() => seen,
        _ => format!("={}", value(&instruction.written, size)),
    }
}

/// A value that one byte holds is decimal, others have all the hexadecimal digits of their size.
fn value(bytes: &[u8; MAX_SIZE], size: u8) -> String {
    let number = u128::from_le_bytes(*bytes);
    let digits = 2 * usize::from(size);
    match u8::try_from(number) {
        Ok(byte) => byte.to_string(),
        Err(_) => format!("0x{number:0digits$x}"),
    }
}

/// Pairs by the names of their instructions, or their numbers. A line that ended with a sign that goes on would not end there.
fn pairs(names: &Names, copy: &Execution) -> Vec<String> {
    let name = |number: u8| {
        let label = label(names, number.into());
        let label = label.filter(|label| !OPEN_ENDS.contains(&label.as_str()));
        label.map_or(number.to_string(), String::clone)
    };
    let pairs = copy.pairs.iter();
    pairs
        .map(|&(earlier, later)| format!("{} {}", name(earlier), name(later)))
        .collect()
}

/// The number of operations, and the attributes behind it.
fn operations(names: &Names, copy: &Execution) -> Vec<String> {
    let count = copy.operation_count().to_string();
    let mut items = attributes(names, copy);
    match items.first_mut() {
        None => vec![count],
        Some(first) => {
            *first = format!("{count} on {first}");
            items
        }
    }
}

/// Nothing where all lines are WB, one attribute where they are alike, else one for each line.
fn attributes(names: &Names, copy: &Execution) -> Vec<String> {
    let all: Vec<Attribute> = copy.lines.iter().map(|line| line.attribute).collect();
    let alike = all.iter().all(|&attribute| attribute == all[0]);
    match all[0] {
        Attribute::WriteBack if alike => Vec::new(),
        attribute if alike => vec![attribute.name()],
        _ => {
            let lines = all.iter().enumerate();
            lines
                .map(|(line, attribute)| {
                    format!("{} {}", near(names, line * LINE_SIZE), attribute.name())
                })
                .collect()
        }
    }
}
