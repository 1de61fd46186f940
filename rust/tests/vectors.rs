//! Requests with their replies, from readings of the papers apart from ours: each line of the files in tests/vectors/ through the
//! exported calls and through the reference.
//!
//! A line is a request, a tab, the reply. Bytes are lower-case hexadecimal, `-` for none; numbers are decimal. A file is named
//! after the change requests that it waits for, and kept whole. A new kind of request is a row of `REQUESTS`, and for its call a
//! field of `Calls`.

use oglindesh::beside::{
    proved_compare, proved_judge, proved_operation_count, proved_search, proved_write,
    verdict_program,
};
use oglindesh::proved;
use oglindesh::reference::record::read;
use oglindesh::reference::rules::{self, JudgeAnswer};
use oglindesh::reference::search::{SearchAnswer, SearchReply};
use oglindesh::reference::writer::{self, Sections};
use oglindesh::reference::{self, chains, fast, renumbering, solvers};
use std::cmp::Ordering;
use std::path::Path;

/// What replies are made of.
struct Calls {
    name: &'static str,
    /// N of a record that passes.
    check: fn(&[u8]) -> Result<usize, u8>,
    judge: fn(&[u8], &[u8]) -> JudgeAnswer,
    search: fn(&[u8], &mut [u8], usize, u32) -> SearchReply,
    chain_table: fn(&[u8], &mut [u8]) -> Result<(), u8>,
    verdict: fn(&[u8]) -> String,
    write: fn(&Sections, &mut [u8]) -> Result<usize, u8>,
    solvers_copy: fn(&[u8], &mut [u8]) -> Result<usize, u8>,
    compare: fn(&[u8], &[u8]) -> Result<Ordering, u8>,
    first: for<'a> fn(&'a [u8], &'a [u8]) -> &'a [u8],
}

const EXPORTED: Calls = Calls {
    name: "exported",
    check: |record| proved::check(record).map(|()| proved_operation_count(record)),
    judge: proved_judge,
    search: proved_search,
    chain_table: proved::chain_table,
    verdict: |input| verdict_program(&[input]),
    write: proved_write,
    solvers_copy: proved::solvers_copy,
    compare: proved_compare,
    first: proved::first,
};

const REFERENCE: Calls = Calls {
    name: "reference",
    check: |record| read(record).map(|execution| execution.operation_count()),
    judge: rules::judge,
    search: fast::search,
    chain_table: chains::chain_table,
    verdict: reference::verdict::verdict,
    write: writer::write,
    solvers_copy: solvers::solvers_copy,
    compare: renumbering::compare,
    first: renumbering::first,
};

/// The reply to a request by these calls, from what follows its name; none where that is not understood.
type Reply = fn(&Calls, &mut Words) -> Option<String>;

/// All requests.
const REQUESTS: [(&str, Reply); 9] = [
    ("check", check),
    ("judge", judge),
    ("search", search),
    ("chains", chain_table),
    ("verdict", verdict),
    ("write", write),
    ("copy", solvers_copy),
    ("compare", compare),
    ("first", first),
];

/// Those that no file has a line of yet. What `first` hands back is looked at in each line of `compare` too.
const IN_NO_FILE: [&str; 1] = ["first"];

fn check(calls: &Calls, words: &mut Words) -> Option<String> {
    let record = words.bytes()?;
    words.end()?;
    Some(match (calls.check)(&record) {
        Ok(count) => format!("ok {count}"),
        Err(question) => format!("refused {question}"),
    })
}

fn judge(calls: &Calls, words: &mut Words) -> Option<String> {
    let (record, order) = (words.bytes()?, words.bytes()?);
    words.end()?;
    Some(match (calls.judge)(&record, &order) {
        JudgeAnswer::Legal => "legal".to_string(),
        JudgeAnswer::Breaks(rule) => format!("rule {rule}"),
        JudgeAnswer::Refused(question) => format!("refused {question}"),
    })
}

fn search(calls: &Calls, words: &mut Words) -> Option<String> {
    let (record, mut buffer) = (words.bytes()?, words.bytes()?);
    let (saved, allowance) = (words.number()?, words.number()?);
    words.end()?;
    let reply = (calls.search)(&record, &mut buffer, saved, allowance);
    let answer = match reply.answer {
        SearchAnswer::Allowed => "allowed".to_string(),
        SearchAnswer::Forbidden => "forbidden".to_string(),
        SearchAnswer::Unfinished => "unfinished".to_string(),
        SearchAnswer::Refused(question) => format!("refused {question}"),
    };
    let (steps, length) = (reply.steps, reply.length);
    Some(format!("{answer} {steps} {length} {}", text_of(&buffer)))
}

fn chain_table(calls: &Calls, words: &mut Words) -> Option<String> {
    let (record, mut table) = (words.bytes()?, words.bytes()?);
    words.end()?;
    let answer = match (calls.chain_table)(&record, &mut table) {
        Ok(()) => "done".to_string(),
        Err(question) => format!("refused {question}"),
    };
    Some(format!("{answer} {}", text_of(&table)))
}

/// The program's output, `|` for a line feed.
fn verdict(calls: &Calls, words: &mut Words) -> Option<String> {
    let input = words.bytes()?;
    words.end()?;
    Some((calls.verdict)(&input).replace('\n', "|"))
}

fn write(calls: &Calls, words: &mut Words) -> Option<String> {
    let sections = Sections {
        processors: words.number()?,
        lines: words.bytes()?,
        instructions: words.bytes()?,
        pairs: words.bytes()?,
    };
    let mut buffer = words.bytes()?;
    words.end()?;
    let answer = (calls.write)(&sections, &mut buffer);
    Some(written(answer, &buffer))
}

fn solvers_copy(calls: &Calls, words: &mut Words) -> Option<String> {
    let (record, mut buffer) = (words.bytes()?, words.bytes()?);
    words.end()?;
    let answer = (calls.solvers_copy)(&record, &mut buffer);
    Some(written(answer, &buffer))
}

/// Which stands first; where the part that is handed back is not the one that follows from it, that too.
fn compare(calls: &Calls, words: &mut Words) -> Option<String> {
    let (left, right) = (words.bytes()?, words.bytes()?);
    words.end()?;
    let (answer, wanted) = match (calls.compare)(&left, &right) {
        Ok(Ordering::Equal) => ("equal".to_string(), "left"),
        Ok(Ordering::Less) => ("left".to_string(), "left"),
        Ok(Ordering::Greater) => ("right".to_string(), "right"),
        Err(question) => (format!("refused {question}"), "empty"),
    };
    Some(match handed_back(calls, &left, &right) {
        part if part == wanted => answer,
        other => format!("{answer}, but first {other}"),
    })
}

fn first(calls: &Calls, words: &mut Words) -> Option<String> {
    let (left, right) = (words.bytes()?, words.bytes()?);
    words.end()?;
    Some(handed_back(calls, &left, &right).to_string())
}

/// Which part of the two is handed back.
fn handed_back(calls: &Calls, left: &[u8], right: &[u8]) -> &'static str {
    let part = (calls.first)(left, right).as_ptr_range();
    match part {
        part if part == left.as_ptr_range() && !left.is_empty() => "left",
        part if part == right.as_ptr_range() && !right.is_empty() => "right",
        part if part == left[..0].as_ptr_range() => "empty",
        _ => "none of these parts",
    }
}

/// The reply of a call that writes a record, and the buffer that it left.
fn written(answer: Result<usize, u8>, buffer: &[u8]) -> String {
    let answer = match answer {
        Ok(length) => format!("done {length}"),
        Err(question) => format!("refused {question} 0"),
    };
    format!("{answer} {}", text_of(buffer))
}

/// The words of a request that are not yet read, one blank apart.
struct Words<'a>(std::str::Split<'a, char>);

impl<'a> Words<'a> {
    fn of(request: &'a str) -> Words<'a> {
        Words(request.split(' '))
    }

    fn bytes(&mut self) -> Option<Vec<u8>> {
        bytes_of(self.0.next()?)
    }

    fn number<T: TryFrom<u64>>(&mut self) -> Option<T> {
        let word = self.0.next()?;
        let decimal = word.bytes().all(|digit| digit.is_ascii_digit());
        let number: u64 = word.parse().ok().filter(|_| decimal)?;
        T::try_from(number).ok()
    }

    fn end(&mut self) -> Option<()> {
        self.0.next().is_none().then_some(())
    }
}

fn bytes_of(word: &str) -> Option<Vec<u8>> {
    if word == "-" {
        return Some(Vec::new());
    }
    let digits: Option<Vec<u8>> = word.bytes().map(digit_of).collect();
    let digits = digits.filter(|digits| !digits.is_empty() && digits.len().is_multiple_of(2))?;
    Some(digits.chunks(2).map(|two| 16 * two[0] + two[1]).collect())
}

fn digit_of(character: u8) -> Option<u8> {
    match character {
        b'0'..=b'9' => Some(character - b'0'),
        b'a'..=b'f' => Some(character - b'a' + 10),
        _ => None,
    }
}

fn text_of(bytes: &[u8]) -> String {
    if bytes.is_empty() {
        return "-".to_string();
    }
    bytes.iter().map(|byte| format!("{byte:02x}")).collect()
}

/// Runs a line both ways; gives the place of its request in `REQUESTS`, or what is wrong with it.
fn run(line: &str) -> Result<usize, String> {
    let (request, expected) = line.split_once('\t').ok_or("there is no tab")?;
    let mut words = Words::of(request);
    let name = words.0.next();
    let place = REQUESTS.iter().position(|row| Some(row.0) == name);
    let place = place.ok_or_else(|| format!("no request is named {name:?}"))?;
    for calls in [EXPORTED, REFERENCE] {
        let mut words = Words(words.0.clone());
        let reply = REQUESTS[place].1(&calls, &mut words);
        let reply = reply.ok_or("what follows the name is not understood")?;
        if reply != expected {
            let name = calls.name;
            return Err(format!("{request}: {name} {reply:?}, not {expected:?}"));
        }
    }
    Ok(place)
}

#[test]
fn every_line_of_every_file() {
    let folder = Path::new(env!("CARGO_MANIFEST_DIR")).join("tests/vectors");
    let entries = std::fs::read_dir(&folder).expect("the folder is read");
    let mut paths: Vec<_> = entries
        .map(|entry| entry.expect("it is read").path())
        .collect();
    paths.sort();
    let mut all = [0; REQUESTS.len()];
    let mut wrong = Vec::new();
    for path in paths {
        let name = path.file_name().expect("it is a file").to_string_lossy();
        let text = std::fs::read_to_string(&path).expect("it is text");
        let mut runs = [0; REQUESTS.len()];
        for (line, number) in text.lines().zip(1..) {
            match run(line) {
                Ok(place) => runs[place] += 1,
                Err(what) => wrong.push(format!("{name}:{number}: {what}")),
            }
        }
        for (place, (request, _)) in REQUESTS.iter().enumerate() {
            println!("{name}: {} lines of {request}", runs[place]);
            all[place] += runs[place];
        }
    }
    assert!(wrong.is_empty(), "{}", wrong.join("\n"));
    for (place, (request, _)) in REQUESTS.iter().enumerate() {
        let expected = !IN_NO_FILE.contains(request);
        assert_eq!(all[place] > 0, expected, "{} of {request}", all[place]);
    }
}

/// One processor, one WB line of zeros, one mf.
const FENCE: &str = "010100000000000000000001040000000000000000000000";
/// The same without it.
const EMPTY: &str = "01010000000000000000000000";

#[test]
fn a_line_is_understood() {
    for line in [
        "check -\trefused 1",
        "check FENCE\tok 1",
        "judge FENCE 00\tlegal",
        "judge FENCE -\trefused 16",
        "search FENCE ffff 0 1\tallowed 1 1 00ff",
        "search FENCE - 0 4294967295\trefused 18 0 0 -",
        "chains FENCE 0a0b\tdone 000b",
        "verdict FENCE\tallowed 0|steps 1|",
        "write 1 000000000000000000 - - 07070707070707070707070707070707\tdone 13 01010000000000000000000000070707",
        "write 255 - - - -\trefused 2 0 -",
        "write 0 - 000400000000000000000000 - 07\trefused 24 0 07",
        "copy FENCE FENCE07\tdone 24 FENCE07",
        "copy FENCE 07\trefused 25 0 07",
        "copy - -\trefused 1 0 -",
        "compare FENCE FENCE\tequal",
        "compare FENCE EMPTY\tright",
        "compare EMPTY FENCE\tleft",
        "compare FENCE EMPTY00\trefused 15",
        "compare - EMPTY00\trefused 1",
        "first FENCE FENCE\tleft",
        "first FENCE EMPTY\tright",
        "first EMPTY FENCE\tleft",
        "first FENCE -\tempty",
        "first - FENCE\tempty",
    ] {
        let run = run(&line.replace("FENCE", FENCE).replace("EMPTY", EMPTY));
        assert!(run.is_ok(), "{line}: {run:?}");
    }
}

/// So that no line is passed over, and none passes with a wrong reply.
#[test]
fn a_wrong_line_is_told() {
    for (line, what) in [
        ("", "no tab"),
        ("check - refused 1", "no tab"),
        ("chek -\trefused 1", "no request is named"),
        ("\trefused 1", "no request is named"),
        ("check\trefused 1", "not understood"),
        ("check \trefused 1", "not understood"),
        ("check 0\trefused 1", "not understood"),
        ("check 0A\trefused 2", "not understood"),
        ("check - \trefused 1", "not understood"),
        ("check - -\trefused 1", "not understood"),
        ("judge -\trefused 1", "not understood"),
        ("search - - 0\trefused 1 0 0 -", "not understood"),
        ("search - - 0 +1\trefused 1 0 0 -", "not understood"),
        ("search - - 0 4294967296\trefused 1 0 0 -", "not understood"),
        ("write - - - - -\trefused 2 0 -", "not understood"),
        ("write 256 - - - -\trefused 2 0 -", "not understood"),
        ("write 0 - - -\trefused 2 0 -", "not understood"),
        ("write 0 - - - - -\trefused 2 0 -", "not understood"),
        ("copy -\trefused 1 0 -", "not understood"),
        ("copy - - -\trefused 1 0 -", "not understood"),
        ("compare -\trefused 1", "not understood"),
        ("compare - - -\trefused 1", "not understood"),
        ("first -\tempty", "not understood"),
        ("first - - -\tempty", "not understood"),
        ("check -\trefused 2", "exported \"refused 1\", not"),
        ("check -\trefused 1 ", "exported \"refused 1\", not"),
        ("check -\tok 0", "exported \"refused 1\", not"),
        (
            "search - 00 0 1\trefused 1 0 0 -",
            "exported \"refused 1 0 0 00\", not",
        ),
        ("verdict -\trefused 1", "exported \"refused 1|\", not"),
        (
            "write 0 - - - 07\trefused 2 0 00",
            "exported \"refused 2 0 07\", not",
        ),
        (
            "copy - 07\trefused 1 0 00",
            "exported \"refused 1 0 07\", not",
        ),
        ("compare - -\tequal", "exported \"refused 1\", not"),
        ("first - -\tleft", "exported \"empty\", not"),
    ] {
        let said = run(line).expect_err(line);
        assert!(said.contains(what), "{line:?} gives {said}");
    }
}
