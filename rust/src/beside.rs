//! Each proved call, and the verdict program, beside the independent one: both are asked, and must answer alike.

use crate::proved;
use crate::proved::{Comparison, Judgement, Verdict};
use crate::reference::record::{self, Execution, MAX_OPERATIONS};
use crate::reference::rules::{self, JudgeAnswer};
use crate::reference::search::{self as brute, SearchAnswer, SearchReply};
use crate::reference::writer::{self, Sections};
use crate::reference::{self, chains, fast, renumbering, solvers};
use std::cmp::Ordering;
use std::io::Write;
use std::path::Path;
use std::process::{Command, Stdio};
use std::thread::sleep;
use std::time::Duration;

/// What the proved writer says of sections.
pub fn proved_write(sections: &Sections, buffer: &mut [u8]) -> Result<usize, u8> {
    let Sections {
        processors,
        lines,
        instructions,
        pairs,
    } = sections;
    proved::write(*processors, lines, instructions, pairs, buffer)
}

/// What both writers say of sections; they write to two copies of the same bytes, and leave the same.
pub fn write(sections: &Sections, buffer: &mut [u8]) -> Result<usize, u8> {
    let mut other = buffer.to_vec();
    let expected = writer::write(sections, &mut other);
    let answer = proved_write(sections, buffer);
    assert_eq!(answer, expected, "{}", shown(sections, buffer.len()));
    assert!(buffer == other, "{}", shown(sections, buffer.len()));
    answer
}

/// The sections and the room of a call, for a message; of very long ones the beginning.
fn shown(sections: &Sections, room: usize) -> String {
    const MOST: usize = 20_000;
    let text = format!("room {room}, {sections:?}");
    text.chars().take(MOST).collect()
}

/// What both say of a solvers' copy; they write it to two copies of the same bytes, and leave the same.
pub fn solvers_copy(record: &[u8], buffer: &mut [u8]) -> Result<usize, u8> {
    let mut other = buffer.to_vec();
    let expected = solvers::solvers_copy(record, &mut other);
    let answer = proved::solvers_copy(record, buffer);
    let room = buffer.len();
    assert_eq!(answer, expected, "record {record:?}, room {room}");
    assert_eq!(buffer, other, "record {record:?}, room {room}");
    answer
}

/// What the proved comparison says, in the reference's words: how the left record stands to the right one.
pub fn proved_compare(left: &[u8], right: &[u8]) -> Result<Ordering, u8> {
    proved::compare(left, right).map(|comparison| match comparison {
        Comparison::Equal => Ordering::Equal,
        Comparison::LeftFirst => Ordering::Less,
        Comparison::RightFirst => Ordering::Greater,
    })
}

/// What both say of two records.
pub fn compare(left: &[u8], right: &[u8]) -> Result<Ordering, u8> {
    let expected = renumbering::compare(left, right);
    let answer = proved_compare(left, right);
    assert_eq!(answer, expected, "left {left:?}, right {right:?}");
    answer
}

/// The part of two records that both hand back.
pub fn first<'a>(left: &'a [u8], right: &'a [u8]) -> &'a [u8] {
    let expected = renumbering::first(left, right);
    let part = proved::first(left, right);
    assert_eq!(
        part.as_ptr_range(),
        expected.as_ptr_range(),
        "left {left:?}, right {right:?}"
    );
    part
}

/// What both readers say of a record.
pub fn check(bytes: &[u8]) -> Result<(), u8> {
    let expected = record::read(bytes).map(|_| ());
    let answer = proved::check(bytes);
    assert_eq!(answer, expected, "record {bytes:?}");
    answer
}

/// N by the proved library, of a record that passes: the shortest buffer that its search takes (question 18).
pub fn proved_operation_count(bytes: &[u8]) -> usize {
    let lengths: Vec<usize> = (0..=MAX_OPERATIONS).collect();
    lengths.partition_point(|&length| {
        let reply = proved::search(bytes, &mut vec![0; length], 0, 0);
        reply.answer == Err(18)
    })
}

/// What the proved judge says, in the reference's words.
pub fn proved_judge(bytes: &[u8], order: &[u8]) -> JudgeAnswer {
    match proved::judge(bytes, order) {
        Ok(Judgement::Legal) => JudgeAnswer::Legal,
        Ok(Judgement::Breaks(rule)) => JudgeAnswer::Breaks(rule),
        Err(question) => JudgeAnswer::Refused(question),
    }
}

/// What both judges say of an order.
pub fn judge(bytes: &[u8], order: &[u8]) -> JudgeAnswer {
    let expected = rules::judge(bytes, order);
    let answer = proved_judge(bytes, order);
    assert_eq!(answer, expected, "record {bytes:?}, order {order:?}");
    answer
}

/// What both say of a chain table; they write it to two copies of the same bytes, and leave the same.
pub fn chain_table(bytes: &[u8], table: &mut [u8]) -> Result<(), u8> {
    let mut other = table.to_vec();
    let expected = chains::chain_table(bytes, &mut other);
    let answer = proved::chain_table(bytes, table);
    assert_eq!(answer, expected, "record {bytes:?}, {} bytes", table.len());
    assert_eq!(table, other, "record {bytes:?}");
    answer
}

/// What the proved search says, in the reference's words.
pub fn proved_search(bytes: &[u8], buffer: &mut [u8], saved: usize, allowance: u32) -> SearchReply {
    let reply = proved::search(bytes, buffer, saved, allowance);
    SearchReply {
        answer: match reply.answer {
            Ok(Verdict::Unfinished) => SearchAnswer::Unfinished,
            Ok(Verdict::Allowed) => SearchAnswer::Allowed,
            Ok(Verdict::Forbidden) => SearchAnswer::Forbidden,
            Err(question) => SearchAnswer::Refused(question),
        },
        steps: reply.steps,
        length: reply.length,
    }
}

/// What both searches say; they work on two copies of the same buffer, and leave the same. The independent one is the
/// incremental one, which the reference's own tests hold to the brute force.
pub fn search(bytes: &[u8], buffer: &mut [u8], saved: usize, allowance: u32) -> SearchReply {
    let mut other = buffer.to_vec();
    let expected = fast::search(bytes, &mut other, saved, allowance);
    let reply = proved_search(bytes, buffer, saved, allowance);
    assert_eq!(
        reply, expected,
        "record {bytes:?} from {saved}, {allowance} steps"
    );
    assert_eq!(
        buffer, other,
        "record {bytes:?} from {saved}, {allowance} steps"
    );
    reply
}

/// What both searches say from the start, and the brute force with them, and the buffer that all of them left.
pub fn search_from_start(e: &Execution, allowance: u32) -> (SearchReply, [u8; MAX_OPERATIONS]) {
    let bytes = e.to_bytes();
    let (mut buffer, mut other) = ([255; MAX_OPERATIONS], [255; MAX_OPERATIONS]);
    let reply = search(&bytes, &mut buffer, 0, allowance);
    let expected = brute::search(&bytes, &mut other, 0, allowance);
    assert_eq!((reply, buffer), (expected, other), "{e:?}");
    (reply, buffer)
}

/// What the verdict program, as it is built, writes for these pieces of its input, with a pause before each but the first.
pub fn verdict_program(pieces: &[&[u8]]) -> String {
    let program = Path::new(env!("CARGO_MANIFEST_DIR")).join("../target/bin/oglindesh");
    assert!(
        program.exists(),
        "{} is missing: run `tools/program` in the repository",
        program.display()
    );
    let mut child = Command::new(&program)
        .stdin(Stdio::piped())
        .stdout(Stdio::piped())
        .spawn()
        .expect("the verdict program starts");
    let mut input = child.stdin.take().expect("its input is a pipe");
    for (index, piece) in pieces.iter().enumerate() {
        if index > 0 {
            sleep(Duration::from_millis(20));
        }
        // The program may have read all it takes, and be gone.
        let _ = input.write_all(piece);
    }
    drop(input);
    let output = child.wait_with_output().expect("the verdict program ends");
    assert!(output.status.success());
    String::from_utf8(output.stdout).expect("the lines are ASCII")
}

/// What the verdict program writes for an input, which is what document 01 has it print.
pub fn verdict(input: &[u8]) -> String {
    let printed = verdict_program(&[input]);
    let expected = reference::verdict::verdict(input);
    assert_eq!(printed, expected, "input {input:?}");
    printed
}
