//! The program `book`: runs what files of executions claim, writes their records, prints them for solvers, and lists those that are
//! there twice. `COMMANDS` has all that it can do.

use oglindesh::executions::{
    self, asks, load, run_all, same_text, solvers_text, source, Written, Wrong, SOURCES,
};
use std::io::Write;
use std::path::Path;
use std::process::ExitCode;

/// A row of the help, and what is run for it.
struct Command {
    name: &'static str,
    /// What is written behind the name.
    takes: &'static str,
    does: &'static str,
    example: &'static str,
    run: fn(&[&str]) -> Result<(), Failed>,
}

/// All commands, in the order in which the help has them.
const COMMANDS: [Command; 5] = [
    Command {
        name: "check",
        takes: "[FILE ...]",
        does: "runs all claims of the files; with no file, of those in executions/",
        example: "book check mine.txt",
        run: check,
    },
    Command {
        name: "record",
        takes: "FILE NAME",
        does: "writes the bytes of an execution's record to standard output",
        example: "book record mine.txt K1 > k1.record",
        run: record,
    },
    Command {
        name: "solvers",
        takes: "FILE",
        does: "prints the executions with nothing seen, and none of their claims",
        example: "book solvers mine.txt",
        run: solvers,
    },
    Command {
        name: "same",
        takes: "FILE ...",
        does: "lists the executions that are equal but for the numbers of their processors",
        example: "book same mine.txt yours.txt",
        run: same,
    },
    Command {
        name: "help",
        takes: "",
        does: "prints this",
        example: "book help",
        run: help,
    },
];

/// Why a command came to nothing.
enum Failed {
    /// What stands behind the command is not what it takes.
    Arguments,
    Because(String),
}

impl From<Wrong> for Failed {
    fn from(wrong: Wrong) -> Failed {
        Failed::Because(wrong.to_string())
    }
}

impl Command {
    /// How it is written, without an example.
    fn form(&self) -> String {
        format!("book {} {}", self.name, self.takes)
            .trim_end()
            .to_string()
    }
}

fn main() -> ExitCode {
    let arguments: Vec<String> = std::env::args().skip(1).collect();
    let arguments: Vec<&str> = arguments.iter().map(String::as_str).collect();
    match dispatch(&arguments) {
        Ok(()) => ExitCode::SUCCESS,
        Err(what) => {
            eprintln!("{what}");
            ExitCode::FAILURE
        }
    }
}

/// Runs the command that the first argument names. What went wrong is told with what to write.
fn dispatch(arguments: &[&str]) -> Result<(), String> {
    let Some((&name, rest)) = arguments.split_first() else {
        return Err(format!(
            "No command was given: write one of these.\n{}",
            table()
        ));
    };
    let Some(command) = COMMANDS.iter().find(|command| command.name == name) else {
        return Err(format!(
            "`{name}` is not a command: write one of these.\n{}",
            table()
        ));
    };
    (command.run)(rest).map_err(|failed| match failed {
        Failed::Arguments => format!("write: {}, as in: {}", command.form(), command.example),
        Failed::Because(what) => what,
    })
}

/// A line for each command: how it is written, what it does, an example.
fn table() -> String {
    let forms: Vec<String> = COMMANDS.iter().map(Command::form).collect();
    let form_width = forms.iter().map(String::len).max().unwrap_or(0);
    let does_width = COMMANDS.iter().map(|command| command.does.len()).max();
    let does_width = does_width.unwrap_or(0);
    let row = |(form, command): (&String, &Command)| {
        let (does, example) = (command.does, command.example);
        format!("  {form:form_width$}   {does:does_width$}   {example}")
    };
    let rows: Vec<String> = forms.iter().zip(&COMMANDS).map(row).collect();
    rows.join("\n")
}

fn help(arguments: &[&str]) -> Result<(), Failed> {
    if !arguments.is_empty() {
        return Err(Failed::Arguments);
    }
    println!(
        "Works on files of executions; docs/EXECUTIONS.md says how to write one.\n{}",
        table()
    );
    Ok(())
}

fn check(files: &[&str]) -> Result<(), Failed> {
    no_option(files)?;
    if files.is_empty() {
        return SOURCES.iter().try_for_each(|name| {
            let file = format!("executions/{name}.txt");
            check_file(&file, source(name))
        });
    }
    files
        .iter()
        .try_for_each(|file| check_file(file, load(Path::new(file))))
}

/// What begins with `-` is no file.
fn no_option(files: &[&str]) -> Result<(), Failed> {
    match files.iter().any(|file| file.starts_with('-')) {
        true => Err(Failed::Arguments),
        false => Ok(()),
    }
}

/// Runs a file, and says in a line what was run.
fn check_file(file: &str, read: Result<Vec<Written>, Wrong>) -> Result<(), Failed> {
    let executions = read?;
    let ran = run_all(file, &executions)?;
    let claims: usize = executions.iter().map(|written| written.claims.len()).sum();
    println!(
        "{file}: {} executions, {claims} claims, {} records, {} steps: all as claimed",
        executions.len(),
        ran.executions,
        ran.steps
    );
    if ran.uncounted > 0 {
        println!(
            "{file}: {} records have too many states for a count over sets",
            ran.uncounted
        );
    }
    Ok(())
}

/// Writes the record of an execution, with the attributes of its first claim, the first where there are several. Where it fails a
/// question, that is told instead.
fn record(arguments: &[&str]) -> Result<(), Failed> {
    let &[file, name] = arguments else {
        return Err(Failed::Arguments);
    };
    let executions = load(Path::new(file))?;
    let Some(written) = executions.iter().find(|written| written.name == name) else {
        let names: Vec<&str> = executions.iter().map(|e| e.name.as_str()).collect();
        let names = names.join(", ");
        let what = format!("{file} has no execution `{name}`: write one of: {names}");
        return Err(Failed::Because(what));
    };
    let first = written.claims.first();
    let execution = first.map_or(written.execution.clone(), |claim| written.first_mix(claim));
    let bytes = executions::record(&execution).map_err(|question| Wrong {
        file: file.to_string(),
        line: written.line,
        what: format!(
            "the execution fails question {question} ({}), so it has no record: write it so that it passes",
            asks(question)
        ),
    })?;
    write("the record", &bytes)
}

/// Prints the executions of a file for solvers.
fn solvers(arguments: &[&str]) -> Result<(), Failed> {
    let &[file] = arguments else {
        return Err(Failed::Arguments);
    };
    let executions = load(Path::new(file))?;
    write("the text", solvers_text(&executions).as_bytes())
}

/// Lists the executions of all files that are there twice.
fn same(files: &[&str]) -> Result<(), Failed> {
    no_option(files)?;
    if files.is_empty() {
        return Err(Failed::Arguments);
    }
    let read = files.iter().map(|&file| Ok((file, load(Path::new(file))?)));
    let read: Result<Vec<_>, Wrong> = read.collect();
    write("the list", same_text(&read?).as_bytes())
}

/// Writes to standard output.
fn write(what: &str, bytes: &[u8]) -> Result<(), Failed> {
    let mut output = std::io::stdout();
    let done = output.write_all(bytes).and_then(|()| output.flush());
    done.map_err(|error| Failed::Because(format!("{what} cannot be written: {error}")))
}
