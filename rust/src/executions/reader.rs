//! Reads a file of executions. What cannot be read is told with its line, and with what to write instead.

use super::draft::Draft;
use super::words::{entries, Entry, Fault, Words};
use super::{Claim, Says, Written, Wrong};

/// The executions of a file, in their order.
pub fn read(file: &str, text: &str) -> Result<Vec<Written>, Wrong> {
    read_entries(&entries(text)).map_err(|(line, what)| Wrong {
        file: file.to_string(),
        line,
        what,
    })
}

fn read_entries(entries: &[Entry]) -> Result<Vec<Written>, Fault> {
    let mut all: Vec<Written> = Vec::new();
    let starts = |entry: &Entry| entry.key == "execution";
    if let Some(first) = entries.first().filter(|entry| !starts(entry)) {
        let what = format!(
            "`{}` stands before any execution: write `execution` and a name first",
            first.key
        );
        return Err((first.line, what));
    }
    let mut rest = entries;
    while let Some((head, after)) = rest.split_first() {
        let end = after.iter().position(starts).unwrap_or(after.len());
        let (body, next) = after.split_at(end);
        let written = read_execution(head, body)?;
        if all.iter().any(|other| other.name == written.name) {
            return Err((
                head.line,
                format!(
                    "there is an execution `{}` above: write another name",
                    written.name
                ),
            ));
        }
        all.push(written);
        rest = next;
    }
    Ok(all)
}

/// The words that begin a line, for the message about one that is none of them.
const KEYS: &str = "execution, source, places, initially, programs, pairs, order, allowed, forbidden, unfinished, legal, breaks, operations or refused";

/// Those of them that say what the execution is.
const EXECUTION_KEYS: [&str; 4] = ["places", "initially", "programs", "pairs"];

/// One execution, from its name to the next one's.
fn read_execution(head: &Entry, body: &[Entry]) -> Result<Written, Fault> {
    if head.text.is_empty() {
        return Err((
            head.line,
            "the execution has no name: write it after `execution`".into(),
        ));
    }
    let mut draft = Draft::new();
    let mut claims = Vec::new();
    for entry in body {
        let mut words = Words::of(entry);
        let key = entry.key.as_str();
        if !claims.is_empty() && EXECUTION_KEYS.contains(&key) {
            let what = format!("write `{key}` before what is claimed");
            return Err((entry.line, what));
        }
        match key {
            "source" => continue,
            "places" => draft.read_places(&mut words)?,
            "initially" => draft.read_initially(&mut words)?,
            "programs" => draft.read_programs(&mut words)?,
            "pairs" => draft.read_pairs(&mut words)?,
            "order" => draft.order = Some(draft.read_order(&mut words)?),
            "allowed" | "forbidden" | "unfinished" | "legal" | "breaks" | "operations"
            | "refused" => {
                claims.push(draft.read_claim(key, &mut words)?);
            }
            other => {
                let what = format!("`{other}` does not begin a line: write {KEYS}");
                return Err((entry.line, what));
            }
        }
        words.end()?;
    }
    if !draft.has_programs {
        let what = "the execution has no programs: write a line `programs`".into();
        return Err((head.line, what));
    }
    if claims.is_empty() {
        let what = "nothing is claimed of the execution: write a line `allowed` or `forbidden`, for example";
        return Err((head.line, what.into()));
    }
    let written = Written {
        name: head.text.clone(),
        line: head.line,
        execution: draft.execution(),
        names: draft.names,
        claims,
    };
    accept(&written)?;
    Ok(written)
}

/// What each question of a record asks, for the message about an execution that fails it.
pub fn asks(question: u8) -> &'static str {
    match question {
        1 => "does the item end within the record?",
        2 => "are there 1 to 8 processors?",
        3 => "are there 1 to 8 lines, addresses 0 to 63?",
        4 => "is the attribute WB, UC, WC, UC1, UC2 or UC3?",
        5 => "are there at most 40 instructions?",
        6 => "is the kind ld, ld.acq, st, st.rel, mf, sem.acq or sem.rel?",
        7 => "is the size 1, 2, 4, 8 or, of ld and st, 16?",
        8 => "is the address a multiple of the size, within the lines?",
        9 => "are data bytes past the size zero?",
        11 => "are there at most 128 operations?",
        12 => "are there at most 40 pairs?",
        13 => "does each pair name an earlier and a later instruction of one program, no mf, not two stores (a semaphore is none here)?",
        14 => "do the pairs ascend?",
        15 => "does the record end?",
        26 => "is the semaphore's line WB?",
        27 => "have the two lines of an access the same attribute?",
        _ => panic!("no record fails question {question}"),
    }
}

/// A claim other than 'refused' is about an execution that passes the questions of a record.
fn accept(written: &Written) -> Result<(), Fault> {
    let claimed = |claim: &&Claim| !matches!(claim.says, Says::Refused(_));
    let Some(claim) = written.claims.iter().find(claimed) else {
        return Ok(());
    };
    match written.record() {
        Ok(_) => Ok(()),
        Err(question) => {
            let what = format!(
                "the execution fails question {question} ({}): write it so that it passes, or write `refused {question}`",
                asks(question)
            );
            Err((claim.line, what))
        }
    }
}
