//! The words of a file of executions, each with its line: put together to entries, and taken one after another.

/// A line and what is wrong there.
pub(super) type Fault = (usize, String);

/// One word or sign, and the line that it stands on, from 1.
#[derive(Clone, PartialEq, Eq, Debug)]
pub(super) struct Word {
    pub(super) line: usize,
    pub(super) text: String,
}

/// A word that begins a line, what follows it, and the same as it was written.
#[derive(Clone, PartialEq, Eq, Debug)]
pub(super) struct Entry {
    pub(super) line: usize,
    pub(super) key: String,
    pub(super) words: Vec<Word>,
    pub(super) text: String,
}

/// Signs that are words of their own.
const SIGNS: [&str; 8] = ["->", ",", ";", ":", "=", "(", ")", "+"];

/// A line that ends with one of these goes on in the next.
pub(super) const OPEN_ENDS: [&str; 4] = ["->", ",", ";", ":"];

/// The entries of a file; comments and empty lines are left out.
pub(super) fn entries(text: &str) -> Vec<Entry> {
    let mut entries: Vec<Entry> = Vec::new();
    for (number, written) in text.lines().enumerate() {
        let line = number + 1;
        let written = written.split('#').next().unwrap_or("").trim();
        if written.is_empty() {
            continue;
        }
        if let Some(open) = entries.last_mut().filter(|entry| goes_on(entry)) {
            open.words.extend(words(line, written));
            continue;
        }
        let (key, rest) = match written.split_once(char::is_whitespace) {
            Some((key, rest)) => (key, rest.trim()),
            None => (written, ""),
        };
        entries.push(Entry {
            line,
            key: key.to_string(),
            words: words(line, rest),
            text: rest.to_string(),
        });
    }
    entries
}

/// Names and sources are free text; of the rest, what ends with an open sign goes on.
fn goes_on(entry: &Entry) -> bool {
    let last = entry.words.last().map(|word| word.text.as_str());
    !["execution", "source"].contains(&entry.key.as_str())
        && last.is_some_and(|last| OPEN_ENDS.contains(&last))
}

/// Splits at blanks, and around signs.
fn words(line: usize, text: &str) -> Vec<Word> {
    let mut words = Vec::new();
    for part in text.split_whitespace() {
        let mut rest = part;
        while !rest.is_empty() {
            let (word, after) = rest.split_at(first_word(rest));
            words.push(Word {
                line,
                text: word.to_string(),
            });
            rest = after;
        }
    }
    words
}

/// The length of the word or sign that a text without blanks begins with.
fn first_word(text: &str) -> usize {
    let sign = SIGNS.iter().find(|sign| text.starts_with(**sign));
    let signs = SIGNS.iter().filter_map(|sign| text.find(sign));
    match sign {
        Some(sign) => sign.len(),
        None => signs.min().unwrap_or(text.len()),
    }
}

/// The words of an entry that are not yet read.
pub(super) struct Words<'a> {
    /// The line of the last word taken.
    pub(super) line: usize,
    rest: &'a [Word],
}

impl<'a> Words<'a> {
    pub(super) fn of(entry: &'a Entry) -> Words<'a> {
        Words {
            line: entry.line,
            rest: &entry.words,
        }
    }

    pub(super) fn peek(&self) -> Option<&'a str> {
        self.rest.first().map(|word| word.text.as_str())
    }

    /// The next word; `wanted` says what it should be, if it is missing.
    pub(super) fn take(&mut self, wanted: &str) -> Result<&'a str, Fault> {
        let Some((first, rest)) = self.rest.split_first() else {
            return Err((
                self.line,
                format!("the line ends too early: write {wanted}"),
            ));
        };
        self.line = first.line;
        self.rest = rest;
        Ok(&first.text)
    }

    /// Takes this word, if it comes next.
    pub(super) fn skip(&mut self, word: &str) -> bool {
        let next = self.peek() == Some(word);
        if let (true, Some((first, rest))) = (next, self.rest.split_first()) {
            self.line = first.line;
            self.rest = rest;
        }
        next
    }

    /// Takes this word, which must come next.
    pub(super) fn expect(&mut self, word: &str) -> Result<(), Fault> {
        let wanted = format!("`{word}`");
        let found = self.take(&wanted)?;
        if found == word {
            return Ok(());
        }
        self.fault(format!("`{found}` stands where {wanted} is expected"))
    }

    pub(super) fn fault<T>(&self, what: String) -> Result<T, Fault> {
        Err((self.line, what))
    }

    /// No word may be left.
    pub(super) fn end(&mut self) -> Result<(), Fault> {
        match self.peek() {
            None => Ok(()),
            Some(_) => {
                let word = self.take("")?;
                self.fault(format!("`{word}` is left over at the end: take it away, or see docs/EXECUTIONS.md for what may stand here"))
            }
        }
    }

    /// A number, decimal or after 0x hexadecimal.
    pub(super) fn number(&mut self, wanted: &str) -> Result<u64, Fault> {
        let word = self.take(wanted)?;
        match number_of(word).and_then(|number| number.try_into().ok()) {
            Some(number) => Ok(number),
            None => self.fault(format!("`{word}` is not a number: write {wanted}")),
        }
    }

    /// A number of at most this much.
    pub(super) fn number_to(&mut self, most: u64, wanted: &str) -> Result<u64, Fault> {
        let number = self.number(wanted)?;
        if number <= most {
            return Ok(number);
        }
        self.fault(format!("{number} is too large: write {wanted}"))
    }
}

/// A number, decimal or after 0x hexadecimal, of at most sixteen bytes.
pub(super) fn number_of(word: &str) -> Option<u128> {
    let (digits, radix) = digits_of(word);
    u128::from_str_radix(digits, radix).ok()
}

/// Whether the word is a number, however large.
pub(super) fn is_number(word: &str) -> bool {
    let (digits, radix) = digits_of(word);
    !digits.is_empty() && digits.chars().all(|digit| digit.is_digit(radix))
}

/// The digits of a number, and what each counts.
fn digits_of(word: &str) -> (&str, u32) {
    match word.strip_prefix("0x") {
        Some(digits) => (digits, 16),
        None => (word, 10),
    }
}
