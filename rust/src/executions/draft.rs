//! An execution while it is read: places, initial bytes, programs and pairs.

use super::words::{is_number, number_of, Fault, Words};
use super::Names;
use crate::reference::notation;
use crate::reference::record::{
    Attribute, Execution, Instruction, Kind, Line, LINE_SIZE, MAX_SIZE,
};

/// Every count of a record is one byte.
const MOST_COUNTED: usize = 255;

/// An execution being read.
pub(super) struct Draft {
    pub(super) names: Names,
    /// Address and byte.
    initial: Vec<(u8, u8)>,
    processors: usize,
    instructions: Vec<Instruction>,
    pub(super) has_programs: bool,
    pairs: Vec<(u8, u8)>,
    /// The paper's order, for the claims after it.
    pub(super) order: Option<Vec<u8>>,
}

impl Draft {
    pub(super) fn new() -> Draft {
        Draft {
            names: Names::default(),
            initial: Vec::new(),
            processors: 0,
            instructions: Vec::new(),
            has_programs: false,
            pairs: Vec::new(),
            order: None,
        }
    }

    /// `y at 0, x at 8`.
    pub(super) fn read_places(&mut self, words: &mut Words) -> Result<(), Fault> {
        if self.has_programs || !self.initial.is_empty() {
            return words.fault("write `places` before `initially` and `programs`".into());
        }
        loop {
            let name = words.take("the name of a place")?.to_string();
            if is_number(&name) {
                return words.fault(format!("`{name}` is a number: write the name of a place"));
            }
            words.expect("at")?;
            let address = words.number_to(255, "an address")? as u8;
            self.names.places.retain(|(other, _)| *other != name);
            self.names.places.push((name, address));
            if !words.skip(",") {
                return Ok(());
            }
        }
    }

    /// `x=5, x+1=6`.
    pub(super) fn read_initially(&mut self, words: &mut Words) -> Result<(), Fault> {
        loop {
            let address = self.read_address(words)?;
            words.expect("=")?;
            let byte = words.number_to(255, "a byte, 0 to 255")? as u8;
            self.initial.push((address, byte));
            if !words.skip(",") {
                return Ok(());
            }
        }
    }

    /// A place or a number, and what is added to it.
    pub(super) fn read_address(&self, words: &mut Words) -> Result<u8, Fault> {
        let word = words.take("a place or an address")?;
        let mut address = self.address_of(words, word)?;
        if words.skip("+") {
            let further = words.number_to(255, "how many bytes further")?;
            address = address.saturating_add(further.into());
        }
        match u8::try_from(address) {
            Ok(address) => Ok(address),
            Err(_) => words.fault(format!(
                "address {address} is too large: write one up to 63"
            )),
        }
    }

    fn address_of(&self, words: &Words, word: &str) -> Result<u128, Fault> {
        match self.find_address(word) {
            Some(address) => Ok(address),
            None => words.fault(format!(
                "`{word}` is not a place: write {}, or a line `places` that says where it is",
                self.place_names()
            )),
        }
    }

    /// Where a place is, or the number itself.
    pub(super) fn find_address(&self, word: &str) -> Option<u128> {
        let place = self.names.places.iter().find(|(name, _)| name == word);
        place.map_or_else(|| number_of(word), |&(_, at)| Some(at.into()))
    }

    fn is_place(&self, word: &str) -> bool {
        self.names.places.iter().any(|(name, _)| name == word)
    }

    pub(super) fn place_names(&self) -> String {
        let names: Vec<&str> = self
            .names
            .places
            .iter()
            .map(|(name, _)| name.as_str())
            .collect();
        names.join(", ")
    }

    /// `st x=1, ld y sees 0; mf; none`: programs apart by semicolons, instructions by commas.
    pub(super) fn read_programs(&mut self, words: &mut Words) -> Result<(), Fault> {
        if self.has_programs {
            return words.fault("the execution has programs already: write them in one line, or end the line before with `;`".into());
        }
        self.has_programs = true;
        loop {
            if !words.skip("none") {
                self.read_program(words)?;
            }
            self.processors += 1;
            counted(words, self.instructions.len().max(self.processors))?;
            if !words.skip(";") {
                return Ok(());
            }
        }
    }

    fn read_program(&mut self, words: &mut Words) -> Result<(), Fault> {
        loop {
            let instruction = self.read_instruction(words)?;
            self.instructions.push(instruction);
            if !words.skip(",") {
                return Ok(());
            }
        }
    }

    /// `LA1: ld2.acq x sees 0x0077`, `st16 x=1`, `sem.acq x sees 0 writes 1`.
    fn read_instruction(&mut self, words: &mut Words) -> Result<Instruction, Fault> {
        const WANTED: &str = "ld, ld.acq, st, st.rel, sem.acq, sem.rel or mf, with the size after ld, st or sem where it is not 1 (2, 4 or 8, of ld and st also 16), or `none` for a processor with no instruction";
        let mut word = words.take(WANTED)?;
        let mut label = None;
        if words.skip(":") {
            if self
                .names
                .labels
                .iter()
                .flatten()
                .any(|other| other == word)
            {
                return words.fault(format!(
                    "there is an instruction `{word}` above: write another name"
                ));
            }
            if is_number(word) {
                return words.fault(format!("`{word}` is a number: write a name before the `:`"));
            }
            label = Some(word.to_string());
            word = words.take(WANTED)?;
        }
        self.names.labels.push(label);
        let Some((kind, size)) = kind_and_size(word) else {
            return words.fault(format!("`{word}` is not an instruction: write {WANTED}"));
        };
        if kind == Kind::Fence {
            self.names.bases.push(None);
            return Ok(self.placed(notation::mf()));
        }
        let base = words.peek().filter(|word| self.is_place(word));
        self.names.bases.push(base.map(str::to_string));
        let address = self.read_address(words)?;
        words.expect(if kind.is_load() { "sees" } else { "=" })?;
        let value = self.read_value(words, size)?;
        if !kind.is_semaphore() {
            return Ok(self.placed(notation::access(kind, address, &value)));
        }
        words.expect("writes")?;
        let written = self.read_value(words, size)?;
        let semaphore = notation::semaphore(kind, address, &value, &written);
        Ok(self.placed(semaphore))
    }

    fn placed(&self, instruction: Instruction) -> Instruction {
        Instruction {
            processor: self.processors,
            ..instruction
        }
    }

    /// The `size` bytes of a number, or of a place's address, that they hold.
    fn read_value(&self, words: &mut Words, size: usize) -> Result<Vec<u8>, Fault> {
        let word = words.take("the value")?;
        let value = match self.find_address(word) {
            None if is_number(word) => None,
            _ => Some(self.address_of(words, word)?.to_le_bytes()),
        };
        let fits = |bytes: &[u8; MAX_SIZE]| bytes[size..].iter().all(|&byte| byte == 0);
        let larger = match size < MAX_SIZE {
            true => ", or the size after ld, st or sem",
            false => ", no access is longer",
        };
        match value.filter(fits) {
            Some(bytes) => Ok(bytes[..size].to_vec()),
            None => words.fault(format!(
                "{word} does not fit into size {size}: write a smaller value{larger}"
            )),
        }
    }

    /// Instructions and operations are spoken of after the programs.
    pub(super) fn need_programs(&self, key: &str, words: &Words) -> Result<(), Fault> {
        if self.has_programs {
            return Ok(());
        }
        words.fault(format!("write `programs` before `{key}`"))
    }

    /// `2 3, UL1 UL2`.
    pub(super) fn read_pairs(&mut self, words: &mut Words) -> Result<(), Fault> {
        self.need_programs("pairs", words)?;
        loop {
            let earlier = self.read_instruction_name(words)?;
            let later = self.read_instruction_name(words)?;
            self.pairs.push((earlier as u8, later as u8));
            counted(words, self.pairs.len())?;
            if !words.skip(",") {
                return Ok(());
            }
        }
    }

    /// An instruction's label or number.
    pub(super) fn read_instruction_name(&self, words: &mut Words) -> Result<usize, Fault> {
        let word = words.take("the name or the number of an instruction")?;
        let labelled = |label: &Option<String>| label.as_deref() == Some(word);
        let found = self.names.labels.iter().position(labelled);
        let number = number_of(word).and_then(|number| number.try_into().ok());
        let count = self.instructions.len();
        match found.or(number).filter(|&at| at < count) {
            Some(at) => Ok(at),
            None if count == 0 => words.fault(format!(
                "`{word}` is not an instruction: the line `programs` has none, write one there"
            )),
            None => words.fault(format!(
                "`{word}` is not an instruction: write the name before its `:`, or its number, below {count}"
            )),
        }
    }

    /// The lines that accesses and initial bytes lie on.
    pub(super) fn touched(&self) -> impl Iterator<Item = usize> + '_ {
        let accesses = self.instructions.iter().flat_map(Instruction::lines);
        let initial = self.initial.iter();
        accesses.chain(initial.map(|&(at, _)| usize::from(at) / LINE_SIZE))
    }

    /// As many lines as the accesses and the initial bytes need.
    pub(super) fn line_count(&self) -> usize {
        self.touched().max().unwrap_or(0) + 1
    }

    pub(super) fn execution(&self) -> Execution {
        let line = Line {
            attribute: Attribute::WriteBack,
            initial: [0; LINE_SIZE],
        };
        let mut lines = vec![line; self.line_count()];
        for &(address, byte) in &self.initial {
            let address = usize::from(address);
            lines[address / LINE_SIZE].initial[address % LINE_SIZE] = byte;
        }
        Execution::new(
            self.processors,
            lines,
            self.instructions.clone(),
            self.pairs.clone(),
        )
    }
}

/// A record can say so many.
fn counted(words: &Words, count: usize) -> Result<(), Fault> {
    if count <= MOST_COUNTED {
        return Ok(());
    }
    words.fault(format!(
        "{count} are more than a record counts: write at most {MOST_COUNTED}"
    ))
}

/// How an mf is written.
pub(super) const FENCE: &str = "mf";

/// How the others are written: what stands before the size, and what behind it.
pub(super) const ACCESSES: [(Kind, &str, &str); 6] = [
    (Kind::Load, "ld", ""),
    (Kind::LoadAcquire, "ld", ".acq"),
    (Kind::Store, "st", ""),
    (Kind::StoreRelease, "st", ".rel"),
    (Kind::SemaphoreAcquire, "sem", ".acq"),
    (Kind::SemaphoreRelease, "sem", ".rel"),
];

/// `ld`, `ld2.acq`, `st16` and so on; size 1 where none is written. A kind has the sizes that question 7 passes.
fn kind_and_size(word: &str) -> Option<(Kind, usize)> {
    if word == FENCE {
        return Some((Kind::Fence, 0));
    }
    let (access, order) = word.split_at(word.find('.').unwrap_or(word.len()));
    let name = access.trim_end_matches(|c: char| c.is_ascii_digit());
    let size = &access[name.len()..];
    let mut rows = ACCESSES.into_iter();
    let (kind, ..) = rows.find(|row| (row.1, row.2) == (name, order))?;
    let written = if size.is_empty() { "1" } else { size };
    let mut sizes = kind.sizes().iter();
    let size = sizes.find(|size| size.to_string() == written)?;
    Some((kind, usize::from(*size)))
}
