//! The program `book` as it is built: what it prints, where, and whether it says that it failed.

use oglindesh::examples::{k1, k1_uncacheable, named};
use oglindesh::proved::solvers_copy;
use std::io::{BufRead, BufReader};
use std::path::PathBuf;
use std::process::{Command, Output, Stdio};

/// The repository, in which the program is run.
const ROOT: &str = concat!(env!("CARGO_MANIFEST_DIR"), "/..");

fn book(arguments: &[&str]) -> Output {
    let mut command = Command::new(env!("CARGO_BIN_EXE_book"));
    let run = command.current_dir(ROOT).args(arguments).output();
    run.expect("the program starts")
}

fn text(bytes: &[u8]) -> &str {
    std::str::from_utf8(bytes).expect("it is text")
}

/// What a run that succeeds prints; it says nothing on standard error.
fn printed(arguments: &[&str]) -> Vec<u8> {
    let output = book(arguments);
    assert_eq!(text(&output.stderr), "", "{arguments:?}");
    assert!(output.status.success(), "{arguments:?}");
    output.stdout
}

/// What a run that fails says on standard error; it prints nothing.
fn complaint(arguments: &[&str]) -> String {
    let output = book(arguments);
    assert_eq!(output.stdout, b"", "{arguments:?}");
    assert_eq!(output.status.code(), Some(1), "{arguments:?}");
    text(&output.stderr).to_string()
}

/// A file of this text, in Cargo's folder for tests; no two tests use the same name.
fn file(name: &str, text: &str) -> String {
    let path = PathBuf::from(env!("CARGO_TARGET_TMPDIR")).join(name);
    std::fs::write(&path, text).expect("the file is written");
    path.display().to_string()
}

const K1: &str = "execution K1\n  programs st x=1, ld x sees 1\n";

#[test]
fn check_of_a_good_file() {
    let good = file("good.txt", &format!("{K1}  allowed steps 3\n"));
    let all = "1 executions, 1 claims, 1 records, 3 steps: all as claimed\n";
    assert_eq!(text(&printed(&["check", &good])), format!("{good}: {all}"));
}

#[test]
fn check_of_two_files() {
    let good = file("one_of_two.txt", &format!("{K1}  allowed\n"));
    let lines = printed(&["check", "executions/scope.txt", &good]);
    let lines: Vec<&str> = text(&lines).lines().collect();
    assert_eq!(lines.len(), 2);
    assert!(lines[0].starts_with("executions/scope.txt: "));
    assert!(lines[1].starts_with(&format!("{good}: 1 executions, ")));
}

/// With no file it begins with the first of the repository's own, from whatever folder; all of them take some seconds.
#[test]
fn check_of_no_file() {
    let mut child = Command::new(env!("CARGO_BIN_EXE_book"))
        .arg("check")
        .current_dir(env!("CARGO_TARGET_TMPDIR"))
        .stdout(Stdio::piped())
        .spawn()
        .expect("the program starts");
    let mut line = String::new();
    let output = child.stdout.take().expect("its output is a pipe");
    let read = BufReader::new(output).read_line(&mut line);
    child.kill().expect("the program is stopped");
    child.wait().expect("the program ends");
    assert!(read.is_ok());
    assert!(line.starts_with("executions/scope.txt: "), "{line}");
}

#[test]
fn check_of_a_wrong_line() {
    let wrong = file("wrong_line.txt", "execution e\n\n  programs lod x sees 0\n");
    let says = complaint(&["check", &wrong]);
    let begins = format!("{wrong}:3: `lod` is not an instruction: write ld, ");
    assert!(says.starts_with(&begins), "{says}");
}

#[test]
fn check_of_a_claim_that_does_not_hold() {
    let wrong = file("wrong_claim.txt", &format!("{K1}  allowed\n  forbidden\n"));
    let says = complaint(&["check", &wrong]);
    assert!(
        says.starts_with(&format!("{wrong}:4: K1 on WB: ")),
        "{says}"
    );
    assert!(says.contains("not Forbidden as claimed"), "{says}");
}

#[test]
fn record_is_bytes_alone() {
    let scope = "executions/scope.txt";
    assert_eq!(printed(&["record", scope, "K1"]), k1().to_bytes());
    let eight = named("scope", "eight processors").to_bytes();
    assert_eq!(printed(&["record", scope, "eight processors"]), eight);
    let nothing = printed(&[
        "record",
        "executions/requests.txt",
        "nothing on one processor",
    ]);
    assert_eq!(nothing, [1, 1, 0, 0, 0, 0, 0, 0, 0, 0, 0, 0, 0]);
    let semaphore = printed(&["record", "executions/requests.txt", "a semaphore alone"]);
    let entry = [5, 0, 1, 0, 0, 0, 0, 0, 0, 0, 0, 1, 0, 0, 0, 0, 0, 0, 0];
    assert_eq!(
        semaphore,
        [&[1, 1], &[0; 9][..], &[1], &entry, &[0]].concat()
    );
}

/// The attributes are those of the first claim.
#[test]
fn record_on_the_first_claim() {
    let first = file(
        "first_claim.txt",
        &format!("{K1}  allowed on UC or WB\n  allowed\n"),
    );
    let bytes = printed(&["record", &first, "K1"]);
    assert_eq!(bytes, k1_uncacheable().to_bytes());
    assert_ne!(bytes, k1().to_bytes());
    let domain = file("first_domain.txt", &format!("{K1}  allowed on UC2\n"));
    assert_eq!(printed(&["record", &domain, "K1"])[2], 33);
}

/// No record is written of an execution that fails a question, whether that is claimed of it or not.
#[test]
fn record_of_an_execution_that_fails() {
    let forty_one = ["mf"; 41].join(", ");
    let semaphore = "sem.acq x sees 0 writes 1";
    for (name, text, question) in [
        (
            "claimed.txt",
            format!("# 41\nexecution e\n  programs {forty_one}\n  refused 5\n"),
            "5 (are there at most 40 instructions?)",
        ),
        (
            "not_claimed.txt",
            format!("\nexecution e\n  programs {semaphore}\n  allowed on UC\n"),
            "26 (is the semaphore's line WB?)",
        ),
    ] {
        let failing = file(name, &text);
        assert_eq!(
            complaint(&["record", &failing, "e"]),
            format!("{failing}:2: the execution fails question {question}, so it has no record: write it so that it passes\n")
        );
    }
}

#[test]
fn record_of_an_unknown_name() {
    let one = file("one.txt", &format!("{K1}  allowed\n"));
    let says = complaint(&["record", &one, "K2"]);
    assert_eq!(
        says,
        format!("{one} has no execution `K2`: write one of: K1\n")
    );
}

/// Claims, source and order are left out, and nothing is seen. What is printed is a file too, and its record the solvers' copy.
#[test]
fn solvers_of_a_file() {
    let answered = "execution turn
  source    how it ends
  programs  A: sem.acq x sees 1 writes 2, ld2 y sees 0x0301; st.rel x=1
  allowed   steps 9
  order     R(A)
execution elsewhere  # where no semaphore lies
  programs  sem.acq x sees 0 writes 1
  refused 26 on UC
execution K1
  programs  st x=1, ld x sees 1
  allowed   on UC or WB\n";
    let answered = file("answered.txt", answered);
    let solvers = printed(&["solvers", &answered]);
    let expected = "execution turn
  programs    A: sem.acq x sees 0 writes 2, ld2 y sees 0; st.rel x=1
  operations  8

# elsewhere: question 26 refuses it (is the semaphore's line WB?), so it has no copy

execution K1
  programs    st x=1, ld x sees 0
  operations  3 on UC\n";
    assert_eq!(text(&solvers), expected);

    let copies = file("copies.txt", expected);
    let all = "2 executions, 2 claims, 2 records, 0 steps: all as claimed\n";
    let checked = printed(&["check", &copies]);
    assert_eq!(text(&checked), format!("{copies}: {all}"));
    let k1 = k1_uncacheable().to_bytes();
    let mut copy = vec![170; k1.len()];
    assert_eq!(solvers_copy(&k1, &mut copy), Ok(copy.len()));
    assert_eq!(printed(&["record", &copies, "K1"]), copy);
}

#[test]
fn solvers_of_a_wrong_line() {
    let wrong = file("wrong_for_solvers.txt", &format!("{K1}  alowed\n"));
    let says = complaint(&["solvers", &wrong]);
    let begins = format!("{wrong}:3: `alowed` does not begin a line: write execution, ");
    assert!(says.starts_with(&begins), "{says}");
}

/// K6 by another author, with the processors the other way round.
const TURNED: &str = "execution message passing
  programs   ld.acq y sees 1, ld x sees 0; st x=1, st.rel y=1
  forbidden\n";

#[test]
fn same_over_two_files() {
    let scope = "executions/scope.txt";
    let mine = file("turned.txt", TURNED);
    let list = printed(&["same", scope, &mine]);
    let lines: Vec<&str> = text(&list).lines().collect();
    // Where they stand in the file, by its text.
    let whole = std::fs::read_to_string(format!("{ROOT}/{scope}")).expect("it is read");
    let at = |name: &str| {
        let head = format!("execution {name}");
        let line = whole.lines().position(|line| line == head);
        let line = line.unwrap_or_else(|| panic!("{scope} has no {name}"));
        format!("{scope}:{}: `{name}`", line + 1)
    };
    assert_eq!(
        lines,
        [
            format!("{} = {} = {}", at("K1"), at("K3"), at("K5")),
            format!("{} = {mine}:1: `message passing`", at("K6")),
            format!(
                "{} is left out: question 8 refuses it (is the address a multiple of the size, within the lines?), so it has no record",
                at("lone load at address 4")
            ),
            format!(
                "{} is left out: question 11 refuses it (are there at most 128 operations?), so it has no record",
                at("eight processors and a store more")
            ),
        ]
    );
    // The order of reading.
    let turned = printed(&["same", &mine, scope]);
    let line = format!("{mine}:1: `message passing` = {}", at("K6"));
    assert_eq!(text(&turned).lines().next(), Some(line.as_str()));
}

/// What counts are the attributes that the execution is printed with, and of a line only if an access touches it.
#[test]
fn same_with_other_attributes_and_lines() {
    let executions = "execution on UC
  programs   st x=1, ld x sees 1; none
  refused 8
  allowed    on UC or WB
execution on WB
  programs   st x=1, ld x sees 1; none
  allowed    on WB or UC
execution on two lines
  programs   none; st x=1, ld x sees 1
  initially  y=3
  allowed    on x WB, y UC
execution on two others
  programs   st x=1, ld x sees 1; none
  initially  y=4
  allowed
execution elsewhere
  programs   sem.acq x sees 0 writes 1
  refused 26 on UC
  refused 26 on WC\n";
    let executions = file("attributes.txt", executions);
    let expected = format!(
        "{executions}:8: `on two lines` = {executions}:12: `on two others`
{executions}:16: `elsewhere` is left out: question 26 refuses it (is the semaphore's line WB?), so it has no record\n"
    );
    let list = printed(&["same", &executions]);
    assert_eq!(text(&list), expected);
}

#[test]
fn same_where_none_is() {
    let one = file("alone.txt", &format!("{K1}  allowed\n"));
    let other = file("beside.txt", TURNED);
    let list = printed(&["same", &one, &other]);
    let none = "2 executions, no two of which are the same\n";
    assert_eq!(text(&list), none);
    // A file that is read twice has everything twice.
    let twice = printed(&["same", &one, &one]);
    assert_eq!(text(&twice), format!("{one}:1: `K1` = {one}:1: `K1`\n"));
}

#[test]
fn same_of_a_wrong_line() {
    let good = file("good_of_same.txt", &format!("{K1}  allowed\n"));
    let wrong = file("wrong_of_same.txt", &format!("{K1}  alowed\n"));
    let says = complaint(&["same", &good, &wrong]);
    let begins = format!("{wrong}:3: `alowed` does not begin a line: write execution, ");
    assert!(says.starts_with(&begins), "{says}");
}

/// The rows of a help, each cut into its columns.
fn rows(help: &str) -> Vec<Vec<&str>> {
    let rows = help.lines().filter_map(|line| line.strip_prefix("  "));
    let columns = rows.map(|row| row.split("   ").map(str::trim));
    columns
        .map(|columns| columns.filter(|column| !column.is_empty()).collect())
        .collect()
}

#[test]
fn help_has_a_row_for_each_command() {
    let help = printed(&["help"]);
    let rows = rows(text(&help));
    let forms: Vec<&str> = rows.iter().map(|row| row[0]).collect();
    for form in [
        "book check [FILE ...]",
        "book record FILE NAME",
        "book solvers FILE",
        "book same FILE ...",
        "book help",
    ] {
        assert!(forms.contains(&form), "{forms:?}");
    }
    for row in rows {
        let name = row[0].split(' ').take(2).collect::<Vec<_>>().join(" ");
        assert_eq!(row.len(), 3, "{row:?}");
        assert!(row[2].starts_with(&name), "{row:?}");
    }
}

#[test]
fn no_command_and_an_unknown_one() {
    let help = printed(&["help"]);
    for (arguments, says) in [
        (&[][..], "No command was given"),
        (&["chek"], "`chek` is not a command"),
        (&["chek", "executions/scope.txt"], "`chek` is not a command"),
    ] {
        let complaint = complaint(arguments);
        assert!(complaint.starts_with(says), "{complaint}");
        assert_eq!(rows(&complaint), rows(text(&help)));
    }
}

#[test]
fn wrong_arguments() {
    for (arguments, says) in [
        (&["record"][..], "write: book record FILE NAME, "),
        (
            &["record", "executions/scope.txt"],
            "write: book record FILE NAME, ",
        ),
        (&["record", "a", "b", "c"], "write: book record FILE NAME, "),
        (&["check", "--all"], "write: book check [FILE ...], "),
        (&["solvers"], "write: book solvers FILE, "),
        (&["solvers", "a", "b"], "write: book solvers FILE, "),
        (&["same"], "write: book same FILE ..., "),
        (&["same", "--all"], "write: book same FILE ..., "),
        (&["help", "check"], "write: book help, "),
    ] {
        let complaint = complaint(arguments);
        assert!(complaint.starts_with(says), "{arguments:?}: {complaint}");
        assert_eq!(complaint.lines().count(), 1, "{complaint}");
    }
}

#[test]
fn a_missing_file() {
    for arguments in [
        &["check", "missing.txt"][..],
        &["record", "missing.txt", "K1"],
        &["solvers", "missing.txt"],
        &["same", "executions/scope.txt", "missing.txt"],
    ] {
        let complaint = complaint(arguments);
        let says = "missing.txt: the file cannot be read: ";
        assert!(complaint.starts_with(says), "{complaint}");
        assert!(complaint.ends_with(": write the path of a text file\n"));
    }
}
