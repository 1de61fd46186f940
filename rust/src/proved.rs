//! The proved library's calls, wrapped for safe Rust. The numbers that they return are those of `crates/capi`.
//!
//! A record is bytes, laid out as docs/FORMAT.md says. [`write`] makes one from lines, instructions and pairs that were prepared
//! apart; `executions::read` reads the papers' notation, and `record` of what it read makes one by the same call. A call that is
//! refused gives `Err` with the number of the first question answered 'no', and leaves lent bytes as they came. Nothing is kept
//! between calls.
//!
//! | call | `Ok` says |
//! |---|---|
//! | [`write`] | the record is written, and how long it is |
//! | [`solvers_copy`] | the copy of a record without what was seen is written, and how long it is |
//! | [`compare`] | whether two records are equal but for the numbers of their processors, else which stands first |
//! | [`first`] | without an `Ok`: whichever of two records stands first is handed back; where one is refused, nothing |
//! | [`check`] | the record passes questions 1 to 15, 26 and 27 |
//! | [`judge`] | whether an order is legal, else the lowest rule that it breaks |
//! | [`search`] | allowed, with the first legal order; forbidden; or unfinished, with the position to go on from |
//! | [`chain_table`] | the table is written: from which operation links lead to which |
//!
//! K1, which the notation has written, through the others:
//!
//! ```
//! use oglindesh::executions;
//! use oglindesh::proved::{chain_table, check, judge, search, Judgement, Verdict};
//!
//! let text = "execution K1\n  programs st x=1, ld x sees 1\n  allowed";
//! let written = executions::read("K1", text).expect("it is well written");
//! let record = written[0].record().expect("it passes");
//! assert_eq!(check(&record), Ok(()));
//!
//! // Its operations are 0 (LV), 1 (RV) and 2 (R). The load may read its own store before the RV, but no RV stands before its LV.
//! assert_eq!(judge(&record, &[0, 2, 1]), Ok(Judgement::Legal));
//! assert_eq!(judge(&record, &[1, 0, 2]), Ok(Judgement::Breaks(1)));
//! assert_eq!(judge(&record, &[0, 2]), Err(16));
//!
//! // A buffer of 128 bytes serves every record. Two steps at a time, the search goes on from where it was.
//! let mut buffer = [0; 128];
//! let (mut length, mut steps) = (0, 0);
//! let verdict = loop {
//!     let reply = search(&record, &mut buffer, length, 2);
//!     (length, steps) = (reply.length, steps + reply.steps);
//!     match reply.answer.expect("the record passes") {
//!         Verdict::Unfinished => continue,
//!         verdict => break verdict,
//!     }
//! };
//! assert_eq!((verdict, &buffer[..length], steps), (Verdict::Allowed, &[0, 1, 2][..], 3));
//!
//! // LV stands before RV by rule 1, and before R by rule 5.
//! let mut table = [0; 3 * 3];
//! assert_eq!(chain_table(&record, &mut table), Ok(()));
//! assert_eq!(table, [0, 1, 1, 0, 0, 0, 0, 0, 0]);
//! ```
//!
//! A lock that two processors take by a semaphore, both of which see it free:
//!
//! ```
//! use oglindesh::executions;
//! use oglindesh::proved::{judge, search, Judgement, Verdict};
//!
//! let text = "execution lock
//!   programs A: sem.acq x sees 0 writes 1; B: sem.acq x sees 0 writes 1
//!   forbidden";
//! let written = executions::read("lock", text).expect("it is well written");
//! let record = written[0].record().expect("it passes");
//! let reply = search(&record, &mut [0; 128], 0, 1_000);
//! assert_eq!((reply.answer, reply.steps), (Ok(Verdict::Forbidden), 50));
//!
//! // The operations of A are 0 (R), 1 (LV), 2 and 3 (RV), those of B 4 to 7. RV of A to q stands between R and RV of B to q.
//! assert_eq!(judge(&record, &[0, 4, 1, 2, 3, 5, 7, 6]), Ok(Judgement::Breaks(16)));
//! ```
//!
//! A load of sixteen bytes that sees each half from another store, the upper one without the lower one; x and y are its lines:
//!
//! ```
//! use oglindesh::executions;
//! use oglindesh::proved::{check, search, Verdict};
//!
//! let text = "execution halves
//!   programs st8 x=1; st8 y=2; ld16 x sees 0x00000000000000020000000000000000
//!   allowed";
//! let written = executions::read("halves", text).expect("it is well written");
//! let mut record = written[0].record().expect("it passes");
//! let reply = search(&record, &mut [0; 128], 0, 1_000);
//! assert_eq!(reply.answer, Ok(Verdict::Allowed));
//!
//! // Both lines have one attribute. That of the upper line stands behind two counts and the nine bytes of the lower one.
//! record[11] = 1;
//! assert_eq!(check(&record), Err(27));
//! ```

mod exported {
    extern "C" {
        pub fn oglindesh_check(bytes: *const u8, length: usize) -> u32;
        pub fn oglindesh_judge(
            bytes: *const u8,
            length: usize,
            order: *const u8,
            entries: usize,
        ) -> u32;
        pub fn oglindesh_chains(
            bytes: *const u8,
            length: usize,
            table: *mut u8,
            room: usize,
        ) -> u32;
        pub fn oglindesh_search(
            bytes: *const u8,
            length: usize,
            buffer: *mut u8,
            room: usize,
            saved: usize,
            allowance: u32,
        ) -> SearchNumbers;
        pub fn oglindesh_write(
            processors: u8,
            lines: *const u8,
            lines_length: usize,
            instructions: *const u8,
            instructions_length: usize,
            pairs: *const u8,
            pairs_length: usize,
            buffer: *mut u8,
            room: usize,
        ) -> Numbers;
        pub fn oglindesh_solvers_copy(
            bytes: *const u8,
            length: usize,
            buffer: *mut u8,
            room: usize,
        ) -> Numbers;
        pub fn oglindesh_compare(
            left: *const u8,
            left_length: usize,
            right: *const u8,
            right_length: usize,
        ) -> u32;
        pub fn oglindesh_first(
            left: *const u8,
            left_length: usize,
            right: *const u8,
            right_length: usize,
        ) -> u32;
    }

    /// The reply of a call that writes a record, as the library returns it.
    #[repr(C)]
    pub struct Numbers {
        pub answer: u32,
        /// Of the record; 0 at a refusal.
        pub length: usize,
    }

    /// The reply of a search, as the library returns it.
    #[repr(C)]
    pub struct SearchNumbers {
        pub answer: u32,
        pub steps: u32,
        pub length: usize,
    }
}

/// The numbers that the calls return, by the names that include/oglindesh.h has for them.
pub mod numbers {
    /// [`check`](super::check): the record passes questions 1 to 15, 26 and 27.
    pub const PASSES: u32 = 0;
    /// [`judge`](super::judge): the order breaks no rule.
    pub const LEGAL: u32 = 0;
    /// [`search`](super::search), and the two after it.
    pub const UNFINISHED: u32 = 0;
    pub const ALLOWED: u32 = 1;
    pub const FORBIDDEN: u32 = 2;
    /// [`chain_table`](super::chain_table): the table is written. [`write`](super::write): the record is.
    /// [`solvers_copy`](super::solvers_copy): the copy is.
    pub const DONE: u32 = 0;
    /// [`compare`](super::compare), and the two after it.
    pub const EQUAL: u32 = 0;
    pub const LEFT_FIRST: u32 = 1;
    pub const RIGHT_FIRST: u32 = 2;
    /// [`first`](super::first): what it hands back, and the two after it. The empty part is of the left record, where either is
    /// refused.
    pub const EMPTY_PART: u32 = 0;
    pub const LEFT_RECORD: u32 = 1;
    pub const RIGHT_RECORD: u32 = 2;
    /// What a refused call returns, less the number of the question.
    pub const REFUSED: u32 = 256;
    /// No record has more bytes, so a buffer of so many has room for all that [`write`](super::write) and
    /// [`solvers_copy`](super::solvers_copy) write.
    pub const MAX_RECORD: usize = 923;
}

use numbers::{
    ALLOWED, DONE, EMPTY_PART, EQUAL, FORBIDDEN, LEFT_FIRST, LEFT_RECORD, LEGAL, PASSES, REFUSED,
    RIGHT_FIRST, RIGHT_RECORD, UNFINISHED,
};

/// The question of a number that says 'refused'.
fn question(number: u32) -> u8 {
    u8::try_from(number - REFUSED).expect("a refusal is 256 + the number of a question")
}

/// Writes a record to the front of `buffer`, out of the number of processors and three sections without counts, and gives its
/// length; where a question refuses it, the number of the first that it fails.
///
/// Lines have nine bytes and pairs two, as in the record. An instruction has twelve: the number of its processor, then the
/// eleven of the record. Where the record has nineteen (a semaphore, or a load or store of sixteen bytes) it has twenty.
/// Instructions may stand in any order: they are grouped by processor, and those of one keep their order. The numbers of the
/// pairs are those that the instructions have after the grouping. Pairs are not sorted: they have to ascend, as question 14 asks.
///
/// The questions are asked in this order: 23, whether each section is a whole number of entries; 24, whether each processor
/// number is below `processors`; those of the record that would be written; 25, whether the buffer is as long as that record or
/// longer, as one of [`MAX_RECORD`](numbers::MAX_RECORD) bytes always is. Bytes past the record stay as they are; at a refusal
/// all do.
///
/// ```
/// use oglindesh::proved::{check, numbers::MAX_RECORD, write};
///
/// // One WB line of zeros. The second processor's mf stands before the two of the first, which load and store its first byte.
/// let lines = [0; 9];
/// let instructions = [
///     [1, 4, 0, 0, 0, 0, 0, 0, 0, 0, 0, 0],
///     [0, 0, 0, 1, 0, 0, 0, 0, 0, 0, 0, 0],
///     [0, 2, 0, 1, 7, 0, 0, 0, 0, 0, 0, 0],
/// ];
/// let instructions = instructions.as_flattened();
/// // In the record the load is number 0, the store 1 and the mf 2. The store waits for the load.
/// let pairs = [0, 1];
///
/// let mut buffer = [0; MAX_RECORD];
/// let length = write(2, &lines, instructions, &pairs, &mut buffer).expect("it passes");
/// let record = &buffer[..length];
/// assert_eq!(record[..2], [2, 1]);
/// assert_eq!(record[11..], [
///     2,
///     0, 0, 1, 0, 0, 0, 0, 0, 0, 0, 0,
///     2, 0, 1, 7, 0, 0, 0, 0, 0, 0, 0,
///     1,
///     4, 0, 0, 0, 0, 0, 0, 0, 0, 0, 0,
///     1,
///     0, 1,
/// ]);
/// assert_eq!(check(record), Ok(()));
///
/// // A byte too few; a processor too few; a pair over two programs; a byte too little room.
/// assert_eq!(write(2, &lines[1..], instructions, &pairs, &mut buffer), Err(23));
/// assert_eq!(write(1, &lines, instructions, &pairs, &mut buffer), Err(24));
/// assert_eq!(write(2, &lines, instructions, &[0, 2], &mut buffer), Err(13));
/// assert_eq!(write(2, &lines, instructions, &pairs, &mut buffer[..length - 1]), Err(25));
/// ```
pub fn write(
    processors: u8,
    lines: &[u8],
    instructions: &[u8],
    pairs: &[u8],
    buffer: &mut [u8],
) -> Result<usize, u8> {
    // SAFETY: each pointer and the length after it are those of one slice. The call only reads the sections, and the buffer is
    // lent to it alone.
    let numbers = unsafe {
        exported::oglindesh_write(
            processors,
            lines.as_ptr(),
            lines.len(),
            instructions.as_ptr(),
            instructions.len(),
            pairs.as_ptr(),
            pairs.len(),
            buffer.as_mut_ptr(),
            buffer.len(),
        )
    };
    written(numbers)
}

/// Writes the solvers' copy of a record to the front of `buffer` and gives its length, which is the record's; where a question
/// refuses it, the number of the first that it fails.
///
/// In the copy the data bytes of every load are zero, all sixteen of one of that size, and of every semaphore those that it saw.
/// All other bytes are the record's, what stores and semaphores wrote among them. So records that differ only in what was seen
/// have the same copy. It passes [`check`], but need not be an allowed execution.
///
/// The questions of the record are asked first, then 25, whether the buffer is as long as the record or longer, as one of
/// [`MAX_RECORD`](numbers::MAX_RECORD) bytes always is. Bytes past the copy stay as they are; at a refusal all do.
///
/// ```
/// use oglindesh::executions;
/// use oglindesh::proved::{check, solvers_copy};
///
/// let record = |text: &str| {
///     let text = format!("execution e\n  programs {text}\n  operations 6");
///     let written = executions::read("e", &text).expect("it is well written");
///     written[0].record().expect("it passes")
/// };
/// let seen = record("st x=7, sem.acq x sees 7 writes 2, ld2 x sees 2");
///
/// // Behind the copy the buffer has room for two bytes more.
/// let mut buffer = vec![170; seen.len() + 2];
/// assert_eq!(solvers_copy(&seen, &mut buffer), Ok(seen.len()));
/// let (copy, rest) = buffer.split_at(seen.len());
/// assert_eq!(copy, record("st x=7, sem.acq x sees 0 writes 2, ld2 x sees 0"));
/// assert_eq!(rest, [170; 2]);
/// assert_eq!(check(copy), Ok(()));
///
/// // A byte too little room; the same of a record without its last byte, of which question 1 is asked before.
/// let mut short = vec![170; seen.len() - 1];
/// assert_eq!(solvers_copy(&seen, &mut short), Err(25));
/// assert_eq!(solvers_copy(&seen[..seen.len() - 1], &mut short[1..]), Err(1));
/// assert_eq!(short, vec![170; seen.len() - 1]);
/// ```
pub fn solvers_copy(record: &[u8], buffer: &mut [u8]) -> Result<usize, u8> {
    // SAFETY: each pointer and the length after it are those of one slice. The call only reads the record, and the buffer is
    // lent to it alone.
    let numbers = unsafe {
        exported::oglindesh_solvers_copy(
            record.as_ptr(),
            record.len(),
            buffer.as_mut_ptr(),
            buffer.len(),
        )
    };
    written(numbers)
}

/// The length of what a call has written to its buffer, or the question that refuses it.
fn written(numbers: exported::Numbers) -> Result<usize, u8> {
    match numbers.answer {
        DONE => Ok(numbers.length),
        number => {
            debug_assert_eq!(numbers.length, 0, "a refusal writes nothing");
            Err(question(number))
        }
    }
}

/// How two records stand to each other.
#[derive(Clone, Copy, PartialEq, Eq, Debug)]
pub enum Comparison {
    /// Some renumbering of processors turns one into the other.
    Equal,
    LeftFirst,
    RightFirst,
}

/// Whether two records are the same execution but for the numbers of its processors, and if not, which stands first; where a
/// question refuses one, the number of the first that the left record fails, else that of the right one.
///
/// A renumbering of the processors carries their programs and pairs along: the instructions are numbered anew, and the pairs
/// sorted. Attribute and initial bytes of a line that no access touches do not count, an mf being none; how many lines there are
/// does. Records that are equal are all allowed or all forbidden, but a search of them may find other orders after other steps.
///
/// The order is that of the smallest renumbered forms: of all records that the renumberings make of one, untouched lines taken as
/// zero, the smallest byte by byte.
///
/// ```
/// use oglindesh::executions;
/// use oglindesh::proved::{compare, Comparison};
///
/// let record = |text: &str| {
///     let text = format!("execution e\n  programs {text}\n  operations 8");
///     let written = executions::read("e", &text).expect("it is well written");
///     written[0].record().expect("it passes")
/// };
/// let one = record("st x=1, st.rel y=1; ld.acq y sees 1, ld x sees 0");
/// let other = record("ld.acq y sees 1, ld x sees 0; st x=1, st.rel y=1");
/// assert_ne!(one, other);
/// assert_eq!(compare(&one, &other), Ok(Comparison::Equal));
///
/// // With ld for ld.acq. The loads stand first in the smallest form of either, and ld has the smaller number.
/// let weaker = record("st x=1, st.rel y=1; ld y sees 1, ld x sees 0");
/// assert_eq!(compare(&one, &weaker), Ok(Comparison::RightFirst));
/// assert_eq!(compare(&weaker, &other), Ok(Comparison::LeftFirst));
///
/// // Without its last byte, and with one too many: the left record is asked first.
/// let (cut, long) = (&one[..one.len() - 1], [&one[..], &[0]].concat());
/// assert_eq!(compare(cut, &long), Err(1));
/// assert_eq!(compare(&one, &long), Err(15));
/// ```
pub fn compare(left: &[u8], right: &[u8]) -> Result<Comparison, u8> {
    // SAFETY: each pointer and the length after it are those of one slice, which the call only reads.
    match unsafe {
        exported::oglindesh_compare(left.as_ptr(), left.len(), right.as_ptr(), right.len())
    } {
        EQUAL => Ok(Comparison::Equal),
        LEFT_FIRST => Ok(Comparison::LeftFirst),
        RIGHT_FIRST => Ok(Comparison::RightFirst),
        number => Err(question(number)),
    }
}

/// Hands back the record that stands first, the left one where they are equal; where a question refuses either, the empty part of
/// the left one. [`compare`] says which of these it is, and the question.
///
/// ```
/// use oglindesh::proved::first;
///
/// // Two processors, one WB line of zeros; of the left record the first has an mf and the other nothing, of the right one
/// // the other way round. Of the third both have an mf.
/// let record = |programs: &[&[u8]]| [&[2, 1][..], &[0; 9], &programs.concat(), &[0]].concat();
/// let (none, mf) = (&[0][..], &[1, 4, 0, 0, 0, 0, 0, 0, 0, 0, 0, 0][..]);
/// let (left, right, both) = (record(&[mf, none]), record(&[none, mf]), record(&[mf, mf]));
/// assert_eq!(first(&left, &right), left);
/// assert_eq!(first(&right, &left), right);
/// assert_eq!(first(&both, &left), left);
/// assert_eq!(first(&left, &both[1..]), []);
/// ```
pub fn first<'a>(left: &'a [u8], right: &'a [u8]) -> &'a [u8] {
    // SAFETY: each pointer and the length after it are those of one slice, which the call only reads.
    match unsafe {
        exported::oglindesh_first(left.as_ptr(), left.len(), right.as_ptr(), right.len())
    } {
        LEFT_RECORD => left,
        RIGHT_RECORD => right,
        number => {
            debug_assert_eq!(number, EMPTY_PART, "one of three parts is handed back");
            &left[..0]
        }
    }
}

/// Whether a record passes questions 1 to 15, 26 and 27; if not, the number of the first that it fails.
///
/// ```
/// use oglindesh::proved::check;
///
/// // One processor, one WB line of zeros, no instruction, no pair.
/// let mut record = vec![1, 1];
/// record.extend([0; 9]);
/// record.extend([0, 0]);
/// assert_eq!(check(&record), Ok(()));
/// // Without its last byte the number of pairs is missing.
/// assert_eq!(check(&record[..12]), Err(1));
/// ```
pub fn check(record: &[u8]) -> Result<(), u8> {
    // SAFETY: the pointer and the length are those of one slice, which the call only reads.
    match unsafe { exported::oglindesh_check(record.as_ptr(), record.len()) } {
        PASSES => Ok(()),
        number => Err(question(number)),
    }
}

/// What the judge says of an order that is not refused.
#[derive(Clone, Copy, PartialEq, Eq, Debug)]
pub enum Judgement {
    Legal,
    /// The lowest rule number that the order breaks.
    Breaks(u8),
}

/// Judges an order of all operations of a record; where a question refuses it, the number of the first that it fails.
///
/// ```
/// use oglindesh::proved::{judge, Judgement};
///
/// // One processor, one WB line of zeros, one mf: its only order.
/// let mut record = vec![1, 1];
/// record.extend([0; 9]);
/// record.push(1);
/// record.extend([4, 0, 0, 0, 0, 0, 0, 0, 0, 0, 0]);
/// record.push(0);
/// assert_eq!(judge(&record, &[0]), Ok(Judgement::Legal));
/// assert_eq!(judge(&record, &[]), Err(16));
/// ```
pub fn judge(record: &[u8], order: &[u8]) -> Result<Judgement, u8> {
    // SAFETY: each pointer and the length after it are those of one slice, which the call only reads.
    match unsafe {
        exported::oglindesh_judge(record.as_ptr(), record.len(), order.as_ptr(), order.len())
    } {
        LEGAL => Ok(Judgement::Legal),
        number if number < REFUSED => Ok(Judgement::Breaks(rule(number))),
        number => Err(question(number)),
    }
}

/// The rule of a number that says 'breaks'.
fn rule(number: u32) -> u8 {
    u8::try_from(number).expect("a broken rule is its number")
}

/// Writes the chain table of a record's N operations to the front of `table`; where a question refuses it, the number of the
/// first that it fails.
///
/// The byte at a × N + b becomes 1 where one or more links of rules 1 to 8, 13 and 15 lead from operation a to operation b, else
/// 0. Bytes past N × N stay as they are; at a refusal all do. Where it is 1, a stands before b in every order that is judged
/// legal; where a and b differ and it is 0, the links alone let b stand before a, though another rule may forbid it.
///
/// ```
/// use oglindesh::proved::chain_table;
///
/// // One processor, one WB line of zeros, two mf: the first is linked to the second.
/// let mut record = vec![1, 1];
/// record.extend([0; 9]);
/// record.push(2);
/// record.extend([4, 0, 0, 0, 0, 0, 0, 0, 0, 0, 0]);
/// record.extend([4, 0, 0, 0, 0, 0, 0, 0, 0, 0, 0]);
/// record.push(0);
/// let mut table = [7; 5];
/// assert_eq!(chain_table(&record, &mut table[..3]), Err(22));
/// assert_eq!(table, [7; 5]);
/// assert_eq!(chain_table(&record, &mut table), Ok(()));
/// assert_eq!(table, [0, 1, 0, 0, 7]);
/// ```
pub fn chain_table(record: &[u8], table: &mut [u8]) -> Result<(), u8> {
    // SAFETY: each pointer and the length after it are those of one slice. The call only reads the record, and the table is
    // lent to it alone.
    match unsafe {
        exported::oglindesh_chains(
            record.as_ptr(),
            record.len(),
            table.as_mut_ptr(),
            table.len(),
        )
    } {
        DONE => Ok(()),
        number => Err(question(number)),
    }
}

/// What a search says that is not refused.
#[derive(Clone, Copy, PartialEq, Eq, Debug)]
pub enum Verdict {
    /// The allowance is used up, and more is to be searched: go on from the position that is left.
    Unfinished,
    /// The position that is left is the first legal order.
    Allowed,
    /// No legal order begins with the position given, nor comes after it.
    Forbidden,
}

/// What a search call returns; the position's entries stand at the front of the buffer.
#[derive(Clone, Copy, PartialEq, Eq, Debug)]
pub struct SearchReply {
    /// Where a question refuses the call, the number of the first that it fails.
    pub answer: Result<Verdict, u8>,
    /// Consistent prefixes that this call walked over, at most its allowance.
    pub steps: u32,
    /// Of the position that is left.
    pub length: usize,
}

/// Searches on from the position of the first `saved` entries of `buffer`, with at most `allowance` steps.
///
/// A search begins with `saved` 0, and goes on with the length of the last reply. Bytes past the position that is left stay as
/// they are; where the call is refused or forbids, all do.
///
/// ```
/// use oglindesh::proved::{search, Verdict};
///
/// // One processor, one WB line of zeros, two mf: the first is linked to the second.
/// let mut record = vec![1, 1];
/// record.extend([0; 9]);
/// record.push(2);
/// record.extend([4, 0, 0, 0, 0, 0, 0, 0, 0, 0, 0]);
/// record.extend([4, 0, 0, 0, 0, 0, 0, 0, 0, 0, 0]);
/// record.push(0);
/// let mut buffer = [7; 3];
/// let first = search(&record, &mut buffer, 0, 1);
/// assert_eq!((first.answer, first.steps, buffer), (Ok(Verdict::Unfinished), 1, [0, 7, 7]));
/// let second = search(&record, &mut buffer, first.length, 9);
/// assert_eq!((second.answer, second.steps, buffer), (Ok(Verdict::Allowed), 1, [0, 1, 7]));
/// assert_eq!(search(&record, &mut buffer[..1], 0, 9).answer, Err(18));
/// ```
pub fn search(record: &[u8], buffer: &mut [u8], saved: usize, allowance: u32) -> SearchReply {
    // SAFETY: each pointer and the length after it are those of one slice. The call only reads the record, and the buffer is
    // lent to it alone.
    let numbers = unsafe {
        exported::oglindesh_search(
            record.as_ptr(),
            record.len(),
            buffer.as_mut_ptr(),
            buffer.len(),
            saved,
            allowance,
        )
    };
    let answer = match numbers.answer {
        UNFINISHED => Ok(Verdict::Unfinished),
        ALLOWED => Ok(Verdict::Allowed),
        FORBIDDEN => Ok(Verdict::Forbidden),
        number => Err(question(number)),
    };
    SearchReply {
        answer,
        steps: numbers.steps,
        length: numbers.length,
    }
}
