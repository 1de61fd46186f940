//! Executions written as the papers write them, in text files: what a file holds, how it is read, how its claims are run, how it
//! is printed for solvers, and which executions are there twice.
//! docs/EXECUTIONS.md says how to write one.

mod claims;
mod draft;
mod print;
mod reader;
mod run;
mod same;
mod words;

use crate::beside::proved_write;
use crate::proved::numbers::MAX_RECORD;
use crate::reference::notation;
use crate::reference::record::{Attribute, Execution};
use std::fmt;
use std::path::Path;

pub use print::solvers_text;
pub use reader::{asks, read};
pub use run::{run_all, Ran};
pub use same::same_text;

/// One execution of a file, and what is claimed of it.
#[derive(Clone, PartialEq, Eq, Debug)]
pub struct Written {
    pub name: String,
    /// Where it begins in its file, from 1.
    pub line: usize,
    /// With all lines WB.
    pub execution: Execution,
    pub names: Names,
    pub claims: Vec<Claim>,
}

/// The names that an execution is written with.
#[derive(Clone, PartialEq, Eq, Debug)]
pub struct Names {
    /// Places and their addresses.
    pub places: Vec<(String, u8)>,
    /// By instruction: its own.
    pub labels: Vec<Option<String>>,
    /// By instruction: the place that its address is written from; none where that is a number.
    pub bases: Vec<Option<String>>,
}

impl Default for Names {
    /// The places that there are without a line `places`.
    fn default() -> Names {
        let places = [
            ("x", notation::X),
            ("y", notation::Y),
            ("z", notation::Z),
            ("w", notation::W),
        ];
        Names {
            places: places.map(|(name, at)| (name.to_string(), at)).to_vec(),
            labels: Vec::new(),
            bases: Vec::new(),
        }
    }
}

/// One claim, and the attributes that it is made for.
#[derive(Clone, PartialEq, Eq, Debug)]
pub struct Claim {
    pub line: usize,
    /// By line of memory: the attributes that it may have. The claim holds for every mix.
    pub on: Vec<Vec<Attribute>>,
    pub says: Says,
}

/// What is claimed.
#[derive(Clone, PartialEq, Eq, Debug)]
pub enum Says {
    /// This question refuses the record.
    Refused(u8),
    /// The record passes, and has so many operations.
    Operations(usize),
    /// The judge finds this order legal.
    Legal(Vec<u8>),
    /// The lowest rule that this order breaks.
    Breaks(u8, Vec<u8>),
    /// The search finds an order: this one, after so many steps.
    Allowed {
        order: Option<Vec<u8>>,
        steps: Option<u32>,
    },
    /// The search finds none, after so many steps.
    Forbidden { steps: Option<u32> },
    /// There are so many consistent prefixes, too many for a walk, and none of them is full.
    ForbiddenBySets { prefixes: u64 },
    /// With this allowance the search comes to this position.
    Unfinished { position: Vec<u8>, allowance: u32 },
}

/// The record of an execution: the proved library writes it out of the execution's sections. Where a question refuses it, its
/// number.
pub fn record(execution: &Execution) -> Result<Vec<u8>, u8> {
    let mut buffer = vec![0; MAX_RECORD];
    let length = proved_write(&execution.sections(), &mut buffer)?;
    buffer.truncate(length);
    Ok(buffer)
}

impl Written {
    /// The record with all lines WB, by [`record`].
    pub fn record(&self) -> Result<Vec<u8>, u8> {
        record(&self.execution)
    }

    /// The execution under the first mix of the attributes that a claim is made for.
    pub fn first_mix(&self, claim: &Claim) -> Execution {
        let mut first = self.execution.clone();
        for (line, attributes) in first.lines.iter_mut().zip(&claim.on) {
            line.attribute = attributes[0];
        }
        first
    }

    /// What is printed of it: the execution with the attributes of the first claim that is not 'refused', the first where there
    /// are several. Where all are, those of the first claim.
    pub fn printed_execution(&self) -> Execution {
        let passes = |claim: &&Claim| !matches!(claim.says, Says::Refused(_));
        let claim = self.claims.iter().find(passes).or(self.claims.first());
        claim.map_or(self.execution.clone(), |claim| self.first_mix(claim))
    }

    /// The execution under every mix of the attributes that a claim is made for.
    pub fn mixes(&self, claim: &Claim) -> Vec<Execution> {
        let mut mixes = vec![self.execution.clone()];
        for (line, attributes) in claim.on.iter().enumerate() {
            let with = |execution: &Execution, attribute: Attribute| {
                let mut execution = execution.clone();
                execution.lines[line].attribute = attribute;
                execution
            };
            mixes = mixes
                .iter()
                .flat_map(|execution| attributes.iter().map(|&to| with(execution, to)))
                .collect();
        }
        mixes
    }
}

/// What is wrong, and where.
#[derive(Clone, PartialEq, Eq, Debug)]
pub struct Wrong {
    pub file: String,
    /// From 1; 0 where it is the whole file.
    pub line: usize,
    pub what: String,
}

impl fmt::Display for Wrong {
    fn fmt(&self, f: &mut fmt::Formatter) -> fmt::Result {
        match self.line {
            0 => write!(f, "{}: {}", self.file, self.what),
            line => write!(f, "{}:{line}: {}", self.file, self.what),
        }
    }
}

/// Reads a file from the disk.
pub fn load(path: &Path) -> Result<Vec<Written>, Wrong> {
    load_as(&path.display().to_string(), path)
}

/// The files of the folder `executions`: documents 01 and 02, source documents 000 and 001, our own.
pub const SOURCES: [&str; 5] = ["scope", "requests", "computations", "note", "rules"];

/// Reads one of the files of the folder `executions`, by its name without the ending.
pub fn source(name: &str) -> Result<Vec<Written>, Wrong> {
    let file = format!("executions/{name}.txt");
    let path = Path::new(env!("CARGO_MANIFEST_DIR")).join("..").join(&file);
    load_as(&file, &path)
}

fn load_as(file: &str, path: &Path) -> Result<Vec<Written>, Wrong> {
    let text = std::fs::read_to_string(path).map_err(|error| Wrong {
        file: file.to_string(),
        line: 0,
        what: format!("the file cannot be read: {error}: write the path of a text file"),
    })?;
    read(file, &text)
}
