//! How much stack the calls need: each is made on the largest records in a thread of 128 KB, and in one of what the header says.
//!
//! To measure, `cargo test --test stack -- --ignored --nocapture`: it prints for each call, on a small record and on the largest
//! ones, the smallest thread that comes through, in pages of 4 KB. Rust makes none below some 20 KB. To the byte it is measured
//! in C: a thread on an array of one's own (`pthread_attr_setstack`), filled before the call and looked at after it.

use oglindesh::beside::proved_write;
use oglindesh::examples::{k1, longest};
use oglindesh::proved::{
    chain_table, check, compare, first, judge, search, solvers_copy, Comparison, Judgement, Verdict,
};
use oglindesh::reference::notation::{acq, ld, programs, rel, st};
use oglindesh::reference::record::{Attribute, Execution, Instruction};
use oglindesh::reference::renumbering::renumbered;
use oglindesh::reference::writer::Sections;
use std::process::{Command, Stdio};

const HEADER: &str = include_str!("../../include/oglindesh.h");

/// A call of the library.
struct Call {
    name: &'static str,
    /// What the header says that it needs, in kilobytes.
    needs: usize,
    run: fn(&Case),
}

/// All calls.
const CALLS: [Call; 8] = [
    Call {
        name: "oglindesh_check",
        needs: 16,
        run: |case| assert_eq!(check(&case.record), Ok(())),
    },
    Call {
        name: "oglindesh_judge",
        needs: 20,
        run: |case| assert_eq!(judge(&case.record, &case.order), Ok(Judgement::Legal)),
    },
    Call {
        name: "oglindesh_search",
        needs: 64,
        run: searches,
    },
    Call {
        name: "oglindesh_chains",
        needs: 48,
        run: |case| {
            let mut table = vec![0; case.order.len() * case.order.len()];
            assert_eq!(chain_table(&case.record, &mut table), Ok(()));
        },
    },
    Call {
        name: "oglindesh_write",
        needs: 16,
        run: writes,
    },
    Call {
        name: "oglindesh_solvers_copy",
        needs: 16,
        run: |case| {
            let length = case.record.len();
            let answer = solvers_copy(&case.record, &mut vec![0; length]);
            assert_eq!(answer, Ok(length));
        },
    },
    Call {
        name: "oglindesh_compare",
        needs: 16,
        run: |case| {
            let answer = compare(&case.record, &case.renumbered);
            assert_eq!(answer, Ok(Comparison::Equal));
            let answer = compare(&case.renumbered, &case.forbidden);
            assert_eq!(answer, Ok(Comparison::LeftFirst));
        },
    },
    Call {
        name: "oglindesh_first",
        needs: 16,
        run: |case| {
            assert_eq!(first(&case.record, &case.renumbered), case.record);
            assert_eq!(first(&case.forbidden, &case.renumbered), case.renumbered);
        },
    },
];

/// What a thread of Rust needs beside a call, in kilobytes: its own data, which stands on its stack, its start, and the wrapper.
/// Less than 8 KB are measured.
const THREAD: usize = 16;

/// What the calls are made on.
struct Case {
    record: Vec<u8>,
    /// What the record is written out of.
    sections: Sections,
    /// The first legal order.
    order: Vec<u8>,
    /// The record with a load that sees what nobody wrote, which a search finds out last.
    forbidden: Vec<u8>,
    /// The record with its processors in the opposite order.
    renumbered: Vec<u8>,
}

/// To the first legal order; then a long search, which goes on once from where it was left.
fn searches(case: &Case) {
    let mut buffer = vec![0; case.order.len()];
    let found = search(&case.record, &mut buffer, 0, u32::MAX);
    assert_eq!((found.answer, &buffer), (Ok(Verdict::Allowed), &case.order));
    let left = search(&case.forbidden, &mut buffer, 0, LONG);
    let last = search(&case.forbidden, &mut buffer, left.length, LONG);
    assert!(last.answer.is_ok_and(|verdict| verdict != Verdict::Allowed));
}

/// The record out of its sections; then sections with too many entries, since what is needed does not depend on their number.
fn writes(case: &Case) {
    let mut buffer = vec![0; case.record.len()];
    let answer = proved_write(&case.sections, &mut buffer);
    assert_eq!((answer, &buffer), (Ok(case.record.len()), &case.record));
    let mut long = case.sections.clone();
    long.instructions = long.instructions.repeat(MANY);
    assert_eq!(proved_write(&long, &mut buffer), Err(5));
    long.lines = long.lines.repeat(MANY);
    assert_eq!(proved_write(&long, &mut buffer), Err(3));
}

/// How often the entries of a section are repeated.
const MANY: usize = 5_000;

/// Steps of one call of a long search.
const LONG: u32 = 300_000;

fn case(execution: &Execution) -> Case {
    let mut forbidden = execution.clone();
    let mut loads = forbidden.instructions.iter_mut().rev();
    let last = loads.find(|i| i.kind.is_load()).expect("there is a load");
    last.seen[0] = 9;
    let record = execution.to_bytes();
    let mut order = vec![0; execution.operation_count()];
    let reply = search(&record, &mut order, 0, u32::MAX);
    assert_eq!(reply.answer, Ok(Verdict::Allowed));
    let opposite: Vec<usize> = (0..execution.processors).rev().collect();
    Case {
        record,
        sections: execution.sections(),
        order,
        forbidden: forbidden.to_bytes(),
        renumbered: renumbered(execution, &opposite).to_bytes(),
    }
}

/// As many as a record can hold of everything: 8 processors, 8 lines of all attributes, 40 instructions, 128 operations, 40 pairs.
/// That of the most bytes is the longest one.
fn largest() -> Execution {
    // Five instructions a processor; three processors store twice, the others once.
    let program = |p: u8| -> Vec<Instruction> {
        let own = 8 * p;
        let third = if p < 3 { rel(own, 1) } else { ld(own + 3, 0) };
        vec![
            ld(own + 1, 0),
            acq(own + 2, 0),
            third,
            ld(own + 4, 0),
            st(own + 5, 1),
        ]
    };
    let all: Vec<Vec<Instruction>> = (0..8).map(program).collect();
    let all: Vec<&[Instruction]> = all.iter().map(Vec::as_slice).collect();
    let mut draft = programs(&all);
    let attributes = Attribute::all();
    for p in 0..8 {
        let attribute = attributes[usize::from(p) % attributes.len()];
        draft = draft.line(usize::from(p), attribute);
        for (earlier, later) in [(0, 1), (0, 2), (0, 3), (0, 4), (1, 3)] {
            draft = draft.pair(5 * p + earlier, 5 * p + later);
        }
    }
    draft.build()
}

/// Makes a call in a thread of its name and of so many kilobytes. Where they are too few, the process ends and names the thread.
fn run_in(kilobytes: usize, name: &str, run: fn(&Case), case: &Case) {
    std::thread::scope(|scope| {
        let thread = std::thread::Builder::new()
            .name(name.to_string())
            .stack_size(kilobytes * 1024);
        let thread = thread.spawn_scoped(scope, || run(case));
        thread.expect("the thread starts").join().expect(name);
    });
}

#[test]
fn the_largest_record_is_as_large_as_any() {
    let largest = largest();
    assert_eq!(largest.operation_count(), 128);
    assert_eq!(largest.pairs.len(), 40);
    assert_eq!(largest.instructions.len(), 40);
    assert!(HEADER.contains(&format!(
        "OGLINDESH_MAX_RECORD {}\n",
        longest().to_bytes().len()
    )));
    let mut buffer = [0; 128];
    let long = search(&case(&largest).forbidden, &mut buffer, 0, 2 * LONG);
    assert_eq!(long.answer, Ok(Verdict::Unfinished));
}

#[test]
fn every_call_in_128_kilobytes() {
    for case in [largest(), longest()].map(|execution| case(&execution)) {
        for call in CALLS {
            run_in(128, call.name, call.run, &case);
        }
    }
}

#[test]
fn every_call_in_what_the_header_says() {
    for case in [largest(), longest()].map(|execution| case(&execution)) {
        for call in CALLS {
            let said = format!("{} {} KB", call.name, call.needs);
            assert!(HEADER.contains(&said), "the header does not say `{said}`");
            run_in(call.needs + THREAD, call.name, call.run, &case);
        }
    }
}

/// In the environment of a child of `measure`: a record and a call by their indices, and the kilobytes of the thread.
const ASKED: &str = "OGLINDESH_STACK";

#[test]
#[ignore = "prints numbers, and ends child processes by overflows"]
fn measure() {
    let nothing = Call {
        name: "no call",
        needs: 0,
        run: |_| {},
    };
    let calls: Vec<Call> = [nothing].into_iter().chain(CALLS).collect();
    let records = [
        ("K1", k1()),
        ("the most operations", largest()),
        ("the most bytes", longest()),
    ];
    if let Ok(asked) = std::env::var(ASKED) {
        let asked: Vec<usize> = asked.split(' ').flat_map(str::parse).collect();
        let call = &calls[asked[1]];
        return run_in(asked[2], call.name, call.run, &case(&records[asked[0]].1));
    }
    for (record, (name, _)) in records.iter().enumerate() {
        for (call, Call { name: made, .. }) in calls.iter().enumerate() {
            let least = least_thread(record, call);
            println!("{name}, {made}: {least} KB");
        }
    }
}

/// The fewest kilobytes, in pages, that a child process comes through with.
fn least_thread(record: usize, call: usize) -> usize {
    let comes_through = |kilobytes: usize| {
        let this = std::env::current_exe().expect("the test has a path");
        let mut child = Command::new(this);
        child.args(["--ignored", "--exact", "measure"]);
        child.env(ASKED, format!("{record} {call} {kilobytes}"));
        let child = child.stdout(Stdio::null()).stderr(Stdio::null());
        child.status().expect("the child starts").success()
    };
    let sizes: Vec<usize> = (5..=256).map(|pages| 4 * pages).collect();
    let least = sizes.partition_point(|&kilobytes| !comes_through(kilobytes));
    sizes[least]
}
