//! The files of executions: each claim through the proved library and beside it the brute force. And what the reader and the
//! runner say of wrong lines.

use oglindesh::beside;
use oglindesh::examples::eight_processors;
use oglindesh::executions::{read, run_all, source, Ran, Written};
use oglindesh::generate::ATTRIBUTES;
use oglindesh::reference::search::SearchAnswer;

fn read_source(name: &str) -> Vec<Written> {
    source(name).unwrap_or_else(|wrong| panic!("{wrong}"))
}

/// Runs a file of `executions/`, which must hold at least these.
fn run_source(name: &str, expected: &[String]) -> Ran {
    let executions = read_source(name);
    for wanted in expected {
        let found = executions.iter().any(|written| written.name == *wanted);
        assert!(found, "executions/{name}.txt has no execution {wanted}");
    }
    let file = format!("executions/{name}.txt");
    let ran = run_all(&file, &executions).unwrap_or_else(|wrong| panic!("{wrong}"));
    assert_eq!(ran.uncounted, 0, "{file} is counted over sets too");
    ran
}

#[test]
fn document_01() {
    let rows: Vec<String> = (1..=12).map(|row| format!("K{row}")).collect();
    run_source("scope", &rows);
}

#[test]
fn document_02() {
    let names = [
        "nothing on one processor",
        "nothing on eight processors",
        "a lock that two processors take",
        "a lock handed over without its data",
        "a lock released by a semaphore, without its data",
        "a store visible before the semaphore ahead of it",
        "two semaphores seen in different orders",
        "a load between the operations of a semaphore",
        "initial bytes of their own addresses",
        "two device boards",
        "old records",
        "halves of two stores",
        "a store of sixteen bytes is not torn",
        "one byte of a load is local",
        "a semaphore under a store of sixteen bytes",
    ];
    run_source("requests", &names.map(str::to_string));
}

#[test]
fn document_000() {
    run_source("computations", &["computation 1".to_string()]);
}

/// Table 15 with the number of its prefixes; the first million of them are compared. And the four rules on peripheral domains,
/// those on semaphores, and lemma 1.
#[test]
fn the_note() {
    let mut names: Vec<String> = (4..=20).map(|table| format!("table {table}")).collect();
    let accesses = [
        "two reads",
        "a read, then a write",
        "a write, then a read",
        "two writes",
    ];
    names.extend(accesses.map(|two| format!("{two} in one domain")));
    let semaphores = [
        "fetch-and-add that loses one",
        "read before write",
        "acquire semantics",
        "release semantics",
        "fences and semaphores",
        "no semaphore is local",
    ];
    names.extend(semaphores.map(str::to_string));
    let ran = run_source("note", &names);
    assert!(ran.steps > 1_000_000, "{ran:?}");
}

#[test]
fn our_own() {
    run_source("rules", &[]);
}

/// 126 operations are too many for a count over sets; their stores stand as they are numbered.
#[test]
fn as_many_as_126_operations() {
    let mut buffer = [0xee; 128];
    let reply = beside::search(&eight_processors().to_bytes(), &mut buffer, 0, 126);
    assert_eq!(
        (reply.answer, reply.steps),
        (SearchAnswer::Allowed, 126),
        "{reply:?}"
    );
    assert!(buffer[..126].iter().copied().eq(0..126));
    assert_eq!(buffer[126..], [0xee; 2]);
}

/// What is said of a file: where it is wrong.
fn said(text: &str) -> String {
    let executions = match read("f", text) {
        Ok(executions) => executions,
        Err(wrong) => return wrong.to_string(),
    };
    match run_all("f", &executions) {
        Ok(_) => "nothing".to_string(),
        Err(wrong) => wrong.to_string(),
    }
}

/// The line `programs` of an execution, and a line after it.
fn said_after(programs: &str, line: &str) -> String {
    said(&format!(
        "execution e\n  programs {programs}\n  {line}\n  allowed\n"
    ))
}

/// Lines, and how the message about them begins.
const WRONG_LINES: [(&str, &str); 62] = [
    ("allowed", "f:1: `allowed` stands before any execution"),
    ("execution", "f:1: the execution has no name"),
    ("execution e", "f:1: the execution has no programs"),
    (
        "execution e\n\n# a comment\nprograms ld x sees 0",
        "f:1: nothing is claimed",
    ),
    (
        "execution e\nprograms ld x sees 0\nallowed\nexecution e\nprograms mf\nallowed",
        "f:4: there is an execution `e` above",
    ),
    (
        "execution e\nprogram ld x sees 0",
        "f:2: `program` does not begin a line: write execution, ",
    ),
    ("execution e\nprograms", "f:2: the line ends too early: write ld, "),
    (
        "execution e\nprograms ld x sees 0;",
        "f:2: the line ends too early: write ld, ",
    ),
    (
        "execution e\nprograms ld x sees 0,\n\n  lod x sees 0",
        "f:4: `lod` is not an instruction: write ld, ",
    ),
    (
        "execution e\nprograms ld3 x sees 0",
        "f:2: `ld3` is not an instruction",
    ),
    (
        "execution e\nprograms ld.rel x sees 0",
        "f:2: `ld.rel` is not an instruction",
    ),
    (
        "execution e\nprograms sem x sees 0 writes 1",
        "f:2: `sem` is not an instruction: write ld, ld.acq, st, st.rel, sem.acq, sem.rel or mf, ",
    ),
    (
        "execution e\nprograms sem16.acq x sees 0 writes 1",
        "f:2: `sem16.acq` is not an instruction: write ld, ld.acq, st, st.rel, sem.acq, sem.rel or mf, with the size after ld, st or sem where it is not 1 (2, 4 or 8, of ld and st also 16)",
    ),
    (
        "execution e\nprograms ld16.rel x sees 0",
        "f:2: `ld16.rel` is not an instruction",
    ),
    (
        "execution e\nprograms ld016 x sees 0",
        "f:2: `ld016` is not an instruction",
    ),
    (
        "execution e\nprograms st32 x=0",
        "f:2: `st32` is not an instruction",
    ),
    (
        "execution e\nprograms mf16",
        "f:2: `mf16` is not an instruction",
    ),
    (
        "execution e\nprograms ld8 x sees 0x10000000000000000",
        "f:2: 0x10000000000000000 does not fit into size 8: write a smaller value, or the size after ld, st or sem",
    ),
    (
        "execution e\nprograms st16 x=0x100000000000000000000000000000000",
        "f:2: 0x100000000000000000000000000000000 does not fit into size 16: write a smaller value, no access is longer",
    ),
    (
        "execution e\nprograms st x=340282366920938463463374607431768211456",
        "f:2: 340282366920938463463374607431768211456 does not fit into size 1",
    ),
    (
        "execution e\nprograms ld16 x sees 0x",
        "f:2: `0x` is not a place",
    ),
    (
        "execution e\nprograms ld16 y sees 0\nallowed",
        "f:3: the execution fails question 8 (is the address a multiple of the size, within the lines?)",
    ),
    (
        "execution e\nprograms ld16 x+1 sees 0\nallowed",
        "f:3: the execution fails question 8",
    ),
    (
        "execution e\nprograms ld 340282366920938463463374607431768211455+1 sees 0",
        "f:2: address 340282366920938463463374607431768211455 is too large: write one up to 63",
    ),
    (
        "execution e\nprograms sem.acq x=1",
        "f:2: `=` stands where `sees` is expected",
    ),
    (
        "execution e\nprograms sem.acq x sees 0",
        "f:2: the line ends too early: write `writes`",
    ),
    (
        "execution e\nprograms sem.rel x sees 0=1",
        "f:2: `=` stands where `writes` is expected",
    ),
    (
        "execution e\nprograms sem2.rel x sees 0 writes 0x10000",
        "f:2: 0x10000 does not fit into size 2",
    ),
    (
        "execution e\nprograms sem2.acq x+1 sees 0 writes 1\nallowed",
        "f:3: the execution fails question 8",
    ),
    (
        "execution e\nprograms ld v sees 0",
        "f:2: `v` is not a place: write x, y, z, w, or a line `places`",
    ),
    (
        "execution e\nprograms ld x=0",
        "f:2: `=` stands where `sees` is expected",
    ),
    (
        "execution e\nprograms st x sees 0",
        "f:2: `sees` stands where `=` is expected",
    ),
    (
        "execution e\nprograms st x=256",
        "f:2: 256 does not fit into size 1",
    ),
    (
        "execution e\nprograms st2 x=0x10000",
        "f:2: 0x10000 does not fit into size 2",
    ),
    (
        "execution e\nprograms ld x sees 0 ld y sees 0",
        "f:2: `ld` is left over at the end",
    ),
    (
        "execution e\nprograms a: mf, a: mf",
        "f:2: there is an instruction `a` above",
    ),
    (
        "execution e\nprograms 1: mf",
        "f:2: `1` is a number: write a name before the `:`",
    ),
    (
        "execution e\nprograms ld x sees 0\nallowed\ninitially x=0",
        "f:4: write `initially` before what is claimed",
    ),
    (
        "execution e\nprograms mf\nprograms mf",
        "f:3: the execution has programs already",
    ),
    (
        "execution e\nprograms mf\nplaces v at 0",
        "f:3: write `places` before",
    ),
    ("execution e\nplaces 3 at 0", "f:2: `3` is a number"),
    (
        "execution e\nplaces v at 256",
        "f:2: 256 is too large: write an address",
    ),
    (
        "execution e\ninitially x=256",
        "f:2: 256 is too large: write a byte",
    ),
    ("execution e\nallowed", "f:2: write `programs` before `allowed`"),
    (
        "execution e\npairs 0 1\nprograms mf, mf",
        "f:2: write `programs` before `pairs`",
    ),
    (
        "execution e\norder none\nprograms none",
        "f:2: write `programs` before `order`",
    ),
    (
        "execution e\nprograms ld8 4 sees 0\nallowed",
        "f:3: the execution fails question 8 (is the address a multiple of the size, within the lines?)",
    ),
    (
        "execution e\nprograms ld 64 sees 0\nallowed",
        "f:3: the execution fails question 3",
    ),
    (
        "execution e\nprograms none\nrefused 10",
        "f:3: no record fails question 10: write one of 1, 2, 3, 4, 5, 6, 7, 8, 9, 11, 12, 13, 14, 15, 26, 27",
    ),
    (
        "execution e\nprograms none\nrefused 16",
        "f:3: no record fails question 16",
    ),
    (
        "execution e\nprograms none\npairs 0 1",
        "f:3: `0` is not an instruction: the line `programs` has none, write one there",
    ),
    (
        "execution e\nprograms none; none\nlegal order 0",
        "f:3: there is no operation 0, since no processor has an instruction: write `none`",
    ),
    (
        "execution e\nprograms none; none\nlegal order F(0)",
        "f:3: `0` is not an instruction: the line `programs` has none, write one there",
    ),
    (
        "execution e\nprograms none\nlegal",
        "f:3: `legal` is said of no order: write `order` and the operations, or `order none`, here or in a line above",
    ),
    (
        "execution e\nprograms none\noperations 129",
        "f:3: 129 is too large: write the number of operations, 0 to 128",
    ),
    (
        "execution e\nprograms none, mf\nallowed",
        "f:2: `,` is left over at the end",
    ),
    (
        "execution e\nprograms st x=1, st x=2\npairs 0 1\nallowed",
        "f:4: the execution fails question 13",
    ),
    ("execution e\nprograms mf\nlegal", "f:3: `legal` is said of no order"),
    (
        "execution e\nprograms mf\nunfinished steps 1",
        "f:3: `unfinished` has not the parts that it takes: write `order` with the position left (`none` for the empty one) and `steps`",
    ),
    (
        "execution e\nprograms mf\nforbidden by sets",
        "f:3: `forbidden` has not the parts that it takes",
    ),
    (
        "execution e\nprograms mf\nallowed steps 1 steps 1",
        "f:3: `steps` does not belong here, or stands here twice",
    ),
    (
        "execution e\nprograms mf\nbreaks 17 order 0",
        "f:3: 17 is too large: write the number of a rule, 1 to 16",
    ),
];

#[test]
fn wrong_lines_are_told() {
    for (text, beginning) in WRONG_LINES {
        let said = said(text);
        assert!(said.starts_with(beginning), "{text:?} gives {said}");
    }
}

/// Lines after `programs a: st x=1, b: ld y sees 0`, and how the message about them begins.
const WRONG_NAMES: [(&str, &str); 26] = [
    ("pairs 0", "f:3: the line ends too early"),
    ("pairs 0 2", "f:3: `2` is not an instruction"),
    ("pairs a c", "f:3: `c` is not an instruction"),
    (
        "order",
        "f:3: nothing follows `order`: write operations, as `0 1 2` or `LV(0) -> RVp(0)`, or `none` for the empty order",
    ),
    ("allowed order steps 0", "f:3: nothing follows `order`"),
    ("legal order on WB", "f:3: nothing follows `order`"),
    (
        "order none 0",
        "f:3: `none` is an order with no operation: write it alone",
    ),
    ("order 0 none", "f:3: `none` is an order with no operation"),
    ("order 0 -> none", "f:3: `none` is an order with no operation"),
    ("order none none", "f:3: `none` is an order with no operation"),
    (
        "allowed order none -> 0 steps 3",
        "f:3: `none` is an order with no operation",
    ),
    (
        "unfinished order none 0 steps 1",
        "f:3: `none` is an order with no operation",
    ),
    (
        "order 0 3",
        "f:3: there is no operation 3: write one below 3",
    ),
    (
        "order RV(a)",
        "f:3: `RV` is not an operation: write the number of an operation, or R(..), LV(..), RVp(..) or F(..) with its instruction, or `none` alone",
    ),
    ("order LV(b)", "f:3: the instruction has no operation LV"),
    ("order RVq(a)", "f:3: the instruction has no operation RVq"),
    ("order R b", "f:3: `b` stands where `(` is expected"),
    (
        "allowed on WX",
        "f:3: `WX` is neither a memory attribute nor a place: write WB, UC, WC, UC1, UC2, UC3 or any, or one of these after each place: x, y, z, w",
    ),
    (
        "allowed on UC0",
        "f:3: `UC0` is neither a memory attribute nor a place: write WB, UC, WC, UC1, UC2, UC3 or any",
    ),
    (
        "allowed on UC4",
        "f:3: `UC4` is neither a memory attribute nor a place: write WB, UC, WC, UC1, UC2, UC3 or any",
    ),
    (
        "allowed on x UC, y UC4",
        "f:3: `UC4` is not a memory attribute: write WB, UC, WC, UC1, UC2, UC3 or any",
    ),
    (
        "allowed on UC3 or UC0",
        "f:3: `UC0` is not a memory attribute: write WB, UC, WC, UC1, UC2, UC3 or any",
    ),
    (
        "allowed on",
        "f:3: the line ends too early: write WB, UC, WC, UC1, UC2, UC3 or any",
    ),
    ("allowed on x WB, UC1", "f:3: `UC1` is not a place"),
    (
        "allowed on x WB or",
        "f:3: the line ends too early: write WB, ",
    ),
    (
        "allowed on x WB",
        "f:3: the line of address 8 has no attribute",
    ),
];

#[test]
fn wrong_names_are_told() {
    for (line, beginning) in WRONG_NAMES {
        let said = said_after("a: st x=1, b: ld y sees 0", line);
        assert!(said.starts_with(beginning), "{line:?} gives {said}");
    }
}

/// Claims about `st x=1, ld x sees 1` that are not so, and a part of the message about them.
const WRONG_CLAIMS: [(&str, &str); 17] = [
    ("forbidden", "f:3: e on WB: answer: Allowed, not Forbidden"),
    (
        "legal on WC or UC2 order 0 2 1",
        "f:3: e on UC2: judgement: Breaks(14), not Legal",
    ),
    ("allowed steps 4", "steps: 3, not 4 as claimed"),
    ("allowed order 0 2 1", "order: [0, 1, 2], not [0, 2, 1]"),
    (
        "unfinished order 0 2 steps 2",
        "position: [0, 1], not [0, 2]",
    ),
    (
        "unfinished order 0 1 2 steps 3",
        "answer: Allowed, not Unfinished",
    ),
    (
        "unfinished order none steps 1",
        "position: [0], not [] as claimed",
    ),
    ("unfinished order 0 steps 0", "position: [], not [0]"),
    ("allowed order none", "order: [0, 1, 2], not []"),
    ("legal order none", "judgement: Refused(16), not Legal"),
    (
        "breaks 1 order none",
        "judgement: Refused(16), not Breaks(1)",
    ),
    ("operations 0", "number of operations: Ok(3), not Ok(0)"),
    ("legal order 1 0 2", "judgement: Breaks(1), not Legal"),
    (
        "breaks 14 on any order 0 2 1",
        "f:3: e on WB: judgement: Legal",
    ),
    ("refused 8", "check: Ok(()), not Err(8)"),
    ("operations 4", "number of operations: Ok(3), not Ok(4)"),
    (
        "forbidden by sets steps 3",
        "prefixes by sets: Some(Counted",
    ),
];

/// Claims about `sem.acq x sees 0 writes 1` that are not so, and a part of the message about them.
const WRONG_OF_SEMAPHORES: [(&str, &str); 6] = [
    (
        "allowed on WB or UC1",
        "f:3: e on UC1: check: Err(26), not Ok(()) as claimed",
    ),
    ("refused 26", "check: Ok(()), not Err(26)"),
    ("legal order 1 0 2", "judgement: Breaks(11), not Legal"),
    (
        "breaks 15 order LV(0) R(0) RVp(0)",
        "judgement: Breaks(11), not Breaks(15)",
    ),
    ("operations 2", "number of operations: Ok(3), not Ok(2)"),
    (
        "order RVq(0)",
        "f:3: the instruction has no operation RVq: a load has R, a store LV and an RV for each of the 1 processors (p, q, ..), a semaphore R and these, an mf F",
    ),
];

#[test]
fn wrong_claims_of_semaphores_are_told() {
    assert_told("sem.acq x sees 0 writes 1", &WRONG_OF_SEMAPHORES);
}

/// Claims about `ld16 x sees 0` that are not so, and a part of the message about them.
const WRONG_OF_SIXTEEN: [(&str, &str); 5] = [
    (
        "allowed on WB or UC",
        "f:3: e on WB, UC: check: Err(27), not Ok(()) as claimed",
    ),
    (
        "allowed on x UC1, y UC2",
        "f:3: e on UC1, UC2: check: Err(27), not Ok(()) as claimed",
    ),
    ("refused 27", "check: Ok(()), not Err(27)"),
    (
        "allowed on x WB",
        "f:3: the line of address 8 has no attribute",
    ),
    ("operations 2", "number of operations: Ok(1), not Ok(2)"),
];

#[test]
fn wrong_claims_of_sixteen_bytes_are_told() {
    assert_told("ld16 x sees 0", &WRONG_OF_SIXTEEN);
}

/// What is said of each of these claims about the programs has the part that stands beside it.
fn assert_told(programs: &str, claims: &[(&str, &str)]) {
    for (claim, part) in claims {
        let said = said_after(programs, claim);
        assert!(said.contains(part), "{claim:?} gives {said}");
    }
}

#[test]
fn wrong_claims_are_told() {
    assert_told("st x=1, ld x sees 1", &WRONG_CLAIMS);
}

/// Claims about an execution with no instruction that are not so, and a part of the message about them.
const WRONG_OF_NOTHING: [(&str, &str); 7] = [
    ("forbidden", "f:3: e on WB: answer: Allowed, not Forbidden"),
    ("allowed steps 1", "steps: 0, not 1 as claimed"),
    (
        "unfinished order none steps 0",
        "answer: Allowed, not Unfinished",
    ),
    ("breaks 1 order none", "judgement: Legal, not Breaks(1)"),
    ("operations 1", "number of operations: Ok(0), not Ok(1)"),
    ("refused 1", "check: Ok(()), not Err(1)"),
    (
        "forbidden by sets steps 0",
        "prefixes by sets: Some(Counted { prefixes: 0, full: 1 })",
    ),
];

#[test]
fn wrong_claims_of_nothing_are_told() {
    assert_told("none; none", &WRONG_OF_NOTHING);
}

/// What may be said of an execution with no instruction (document 02, P2), and of the empty position of one that has some.
#[test]
fn the_empty_order_may_be_written() {
    for programs in [
        "none",
        "none; none",
        "none; none; none; none; none; none; none; none",
    ] {
        for claim in [
            "allowed",
            "allowed on any",
            "allowed on x UC",
            "allowed steps 0",
            "allowed order none",
            "allowed order none steps 0",
            "allowed steps 0 on any order none",
            "operations 0",
            "operations 0 on WB or WC",
            "legal order none",
            "legal order none on any",
            "order none\n  legal on any",
        ] {
            assert_eq!(
                said_after(programs, claim),
                "nothing",
                "{programs}: {claim}"
            );
        }
    }
    for claim in [
        "unfinished order none steps 0",
        "unfinished steps 0 order none",
        "unfinished order none steps 0 on any",
    ] {
        assert_eq!(
            said_after("st x=1, ld x sees 1", claim),
            "nothing",
            "{claim}"
        );
    }
    let text = "execution e\n  initially y=7\n  programs none; none\n  allowed on x UC, y WC";
    let executions = read("f", text).unwrap_or_else(|wrong| panic!("{wrong}"));
    let record = executions[0].record();
    let lines = [[0; 9], [0, 7, 0, 0, 0, 0, 0, 0, 0]].concat();
    assert_eq!(record, Ok([&[2, 2][..], &lines, &[0, 0, 0]].concat()));
    assert_eq!(said(text), "nothing");
}

/// A record counts to 255, and the questions ask for less.
#[test]
fn too_many_are_told() {
    let many = |count: usize, claim: &str| {
        let programs = vec!["mf"; count].join(", ");
        said(&format!("execution e\nprograms {programs}\n{claim}"))
    };
    assert_eq!(many(40, "operations 40"), "nothing");
    assert_eq!(many(41, "refused 5"), "nothing");
    assert!(many(41, "allowed").starts_with("f:3: the execution fails question 5"));
    assert!(many(256, "refused 5").starts_with("f:2: 256 are more than a record counts"));
    let processors = ["mf"; 9].join("; ");
    let text = format!("execution e\nprograms {processors}\nrefused 2");
    assert_eq!(said(&text), "nothing");
    let executions = read("f", &text).unwrap_or_else(|wrong| panic!("{wrong}"));
    assert_eq!(executions[0].record(), Err(2));
}

/// Of several wrong claims the first is told, whichever thread ran it.
#[test]
fn the_first_wrong_claim_is_told() {
    let mut text = "execution e\nprograms st x=1, ld x sees 1\nallowed\n".to_string();
    text += &"legal order 0 1 2\n".repeat(50);
    text += &"forbidden\n".repeat(50);
    assert!(said(&text).starts_with("f:54: "), "{}", said(&text));
}

/// Too many states to count are no fault of the execution.
#[test]
fn what_is_not_counted() {
    let program = |at: usize| format!("st {0}=1, st {1}=1, st {2}=1", at, at + 1, at + 2);
    let programs: Vec<String> = (0..4).map(|p| program(8 * p)).collect();
    let text = format!("execution e\nprograms {}\nallowed", programs.join("; "));
    let executions = read("f", &text).unwrap_or_else(|wrong| panic!("{wrong}"));
    let ran = run_all("f", &executions).unwrap_or_else(|wrong| panic!("{wrong}"));
    assert_eq!((ran.steps, ran.uncounted), (60, 1));
}

/// What may be written: sizes, labels, places, initial bytes, numbers of both kinds, comments, lines that go on.
#[test]
fn what_may_be_written() {
    let text = "
# a comment
execution all of it   # and one here
  source    free text, with signs;
  places    v at 4, u at 16
  initially v=0x05, v+1=6, 17=9
  programs  A: ld2.acq v sees 0x0605, mf,
            B: st4.rel x=70000; none;
            ld u+1 sees 9   # the last
  pairs     A B
  allowed   on x any, u WB or UC3 steps 7
  order     R(A) -> F(1) -> LV(B) -> RVp(B) -> RV1(B) ->
            RVr(2) -> R(3)
  legal     on x WB, u UC
  breaks 2  order 1 0 2 3 4 5 6
";
    let executions = read("f", text).unwrap_or_else(|wrong| panic!("{wrong}"));
    let record = executions[0].record();
    let expected = [
        &[3, 3][..],
        &[0, 0, 0, 0, 0, 5, 6, 0, 0],
        &[0, 0, 0, 0, 0, 0, 0, 0, 0],
        &[0, 0, 9, 0, 0, 0, 0, 0, 0],
        &[3],
        &[1, 4, 2, 5, 6, 0, 0, 0, 0, 0, 0],
        &[4, 0, 0, 0, 0, 0, 0, 0, 0, 0, 0],
        &[3, 0, 4, 112, 17, 1, 0, 0, 0, 0, 0],
        &[0],
        &[1],
        &[0, 17, 1, 9, 0, 0, 0, 0, 0, 0, 0],
        &[1, 0, 2],
    ];
    assert_eq!(record, Ok(expected.concat()));
    let ran = run_all("f", &executions).unwrap_or_else(|wrong| panic!("{wrong}"));
    assert_eq!(ran.executions, 6 * 2 + 1 + 1);
}

/// Semaphores of every size, with both values; their operations by role.
#[test]
fn semaphores_may_be_written() {
    let text = "
execution semaphores
  initially x=2
  programs  A: sem.acq x sees 2 writes 255, sem2.rel y+2 sees 0 writes 0x0102;
            sem4.rel y+4 sees 0 writes z, B: sem8.acq z sees 0 writes 0x0102030405060708
  allowed
  order     R(A) -> LV(A) -> RVp(A) -> RVq(A) -> R(1) -> LV(1) -> RVp(1) -> RVq(1) ->
            R(2) -> LV(2) -> RVq(2) -> RVp(2) -> R(B) -> LV(B) -> RVq(B) -> RVp(B)
  legal
";
    let executions = read("f", text).unwrap_or_else(|wrong| panic!("{wrong}"));
    let record = executions[0].record();
    let expected = [
        &[2, 3][..],
        &[0, 2, 0, 0, 0, 0, 0, 0, 0],
        &[0; 18],
        &[2],
        &[5, 0, 1, 2, 0, 0, 0, 0, 0, 0, 0],
        &[255, 0, 0, 0, 0, 0, 0, 0],
        &[6, 10, 2, 0, 0, 0, 0, 0, 0, 0, 0],
        &[2, 1, 0, 0, 0, 0, 0, 0],
        &[2],
        &[6, 12, 4, 0, 0, 0, 0, 0, 0, 0, 0],
        &[16, 0, 0, 0, 0, 0, 0, 0],
        &[5, 16, 8, 0, 0, 0, 0, 0, 0, 0, 0],
        &[8, 7, 6, 5, 4, 3, 2, 1],
        &[0],
    ];
    assert_eq!(record, Ok(expected.concat()));
    assert_eq!(said(text), "nothing");
}

/// Loads and stores of sixteen bytes, of every kind; a value has up to 32 hexadecimal digits, or is a place.
#[test]
fn sixteen_bytes_may_be_written() {
    let text = "
execution sixteen bytes
  initially x=1, y+7=2
  programs  A: ld16 x sees 0x02000000000000000000000000000001, ld16.acq 0 sees 0x2000000000000000000000000000001;
            st16 z=0x0f0e0d0c0b0a09080706050403020100, st16.rel 32=340282366920938463463374607431768211455,
            st16 48=z
  allowed   on x WC, y WC, z UC1, w UC1, 32 WB, 40 WB, 48 UC, 56 UC
  refused 27 on x WC, y WB, z UC1, w UC1, 32 WB, 40 WB, 48 UC, 56 UC
  refused 27 on x WC, y WC, z UC1, w UC2, 32 WB, 40 WB, 48 UC, 56 UC
  operations 11
  legal     order R(A) -> 1 -> 2 -> 4 -> 3 -> 5 -> 7 -> 6 -> 8 -> 10 -> 9
";
    let executions = read("f", text).unwrap_or_else(|wrong| panic!("{wrong}"));
    let record = executions[0].record();
    let expected = [
        &[2, 8][..],
        &[0, 1, 0, 0, 0, 0, 0, 0, 0],
        &[0, 0, 0, 0, 0, 0, 0, 0, 2],
        &[0; 54],
        &[2],
        &[0, 0, 16, 1, 0, 0, 0, 0, 0, 0, 0],
        &[0, 0, 0, 0, 0, 0, 0, 2],
        &[1, 0, 16, 1, 0, 0, 0, 0, 0, 0, 0],
        &[0, 0, 0, 0, 0, 0, 0, 2],
        &[3],
        &[2, 16, 16, 0, 1, 2, 3, 4, 5, 6, 7],
        &[8, 9, 10, 11, 12, 13, 14, 15],
        &[3, 32, 16, 255, 255, 255, 255, 255, 255, 255, 255],
        &[255; 8],
        &[2, 48, 16, 16, 0, 0, 0, 0, 0, 0, 0],
        &[0; 8],
        &[0],
    ];
    assert_eq!(record, Ok(expected.concat()));
    assert_eq!(said(text), "nothing");
}

/// What may stand after `on`, and the attribute bytes of the two lines in each record that it is run for.
#[test]
fn attributes_may_be_written() {
    let any = ATTRIBUTES.map(|x| ATTRIBUTES.map(|y| [x, y]));
    let rows: [(&str, &[[u8; 2]]); 9] = [
        ("", &[[0, 0]]),
        ("on UC", &[[1, 1]]),
        ("on UC1", &[[17, 17]]),
        ("on UC2", &[[33, 33]]),
        ("on UC3", &[[49, 49]]),
        ("on x UC, y UC2", &[[1, 33]]),
        ("on y WC, x UC1 or UC3", &[[17, 2], [49, 2]]),
        ("on WB or UC1", &[[0, 0], [0, 17], [17, 0], [17, 17]]),
        ("on any", any.as_flattened()),
    ];
    for (on, expected) in rows {
        let text = format!("execution e\n  programs ld x sees 0, ld y sees 0\n  allowed {on}");
        let executions = read("f", &text).unwrap_or_else(|wrong| panic!("{wrong}"));
        let mixes = executions[0].mixes(&executions[0].claims[0]).into_iter();
        let bytes = mixes.map(|mix| mix.to_bytes());
        let bytes: Vec<[u8; 2]> = bytes.map(|bytes| [bytes[2], bytes[11]]).collect();
        assert_eq!(bytes, expected, "{on}");
        assert_eq!(said(&text), "nothing", "{on}");
    }
}
