//! Which executions are there twice: those of several files that are equal but for the numbers of their processors.

use super::{asks, record, Written};
use crate::proved::{compare, Comparison};

/// Executions whose records are equal, each behind its file and line.
struct Group {
    /// That of the first.
    record: Vec<u8>,
    names: Vec<String>,
}

/// A line for each group of executions that the proved comparison finds equal, in the order of reading; where there is none, a
/// line that says so. Behind it a line for each that a question refuses, since it has no record. The attributes are those of
/// [`Written::printed_execution`].
pub fn same_text(files: &[(&str, Vec<Written>)]) -> String {
    let mut groups: Vec<Group> = Vec::new();
    let mut refused = Vec::new();
    for (file, executions) in files {
        for written in executions {
            let name = format!("{file}:{}: `{}`", written.line, written.name);
            match record(&written.printed_execution()) {
                Ok(record) => add(&mut groups, record, name),
                Err(question) => refused.push(format!(
                    "{name} is left out: question {question} refuses it ({}), so it has no record",
                    asks(question)
                )),
            }
        }
    }
    let count: usize = groups.iter().map(|group| group.names.len()).sum();
    let several = groups.iter().filter(|group| group.names.len() > 1);
    let mut lines: Vec<String> = several.map(|group| group.names.join(" = ")).collect();
    if lines.is_empty() {
        lines.push(format!("{count} executions, no two of which are the same"));
    }
    lines.extend(refused);
    lines.iter().map(|line| format!("{line}\n")).collect()
}

/// Puts an execution into the group of those that it is equal to.
fn add(groups: &mut Vec<Group>, record: Vec<u8>, name: String) {
    let equal = |group: &&mut Group| compare(&group.record, &record) == Ok(Comparison::Equal);
    match groups.iter_mut().find(equal) {
        Some(group) => group.names.push(name),
        None => groups.push(Group {
            record,
            names: vec![name],
        }),
    }
}
