//! Safe calls to Remburai, the case finder: the check of a rule file, its search, a run on one closed input, the entries of a list, the
//! printed text of a list, with its length beforehand, and the names that the entries of a list stand for.
//!
//! The calls stand in a static library whose functions are proved, for every content and every length of the slices: they stop, stay
//! inside the slices, and give the answer that their definition gives. This crate passes slices to them and takes their answers, one
//! number each, apart. The calls allocate nothing; [`Rule`] and [`Part`], which read what stands in the bytes, [`list_text`] and
//! [`list_names`] do.
//!
//! Calls share nothing and keep nothing: they may run at the same time in any number of threads, each with the slices of its own that it
//! writes to, also on one file. Every type of this crate is [`Send`] and [`Sync`]. A call needs up to 256 KiB of stack.
//!
//! A search stops, but it may take years, and nothing ends it before its answer: what bounds it is the number of partial inputs up to
//! depth D that S steps can tell apart. So let a caller choose D and S, and run a search of unknown length in a thread or a process that
//! can be given up. A run takes at most S steps, and reads the whole of an input that fits, whatever its length. One that does not fit is
//! read up to its first fault. A value that is too deep is known to be so at its end, or where it goes deeper than 64.
//!
//! ```
//! use remburai::{check, entries, list_text, run, search, work_words, Kind, Outcome, Rule, Verdict};
//!
//! let file = b"TY\x02\x00\x01\x00FN\x01\x00\x00\x17\x00\x03\x00\x00\x00\x01\x02\x00\x00\x01\x03\x00\x00\x01\x01\x02\x00\x00\x01\x05\x07\x02\x00\x00GO\x00\x07\x04\x14\x00";
//! assert_eq!(check(file), Ok(()));
//!
//! let rule = Rule::read(file).unwrap();
//! let mut work = vec![0; work_words(rule.goal().steps as usize)];
//! let mut list = vec![0; 1000];
//! let listed = search(file, &mut work, &mut list).unwrap();
//! assert_eq!(listed.verdict, Verdict::Found);
//! assert_eq!(listed.total(&list).to_string(), "total 1 0 0 0 found");
//!
//! // One entry: reached after 6 steps by every input that begins with 1 1, whatever is below.
//! let entry = entries(&list[..listed.length]).next().unwrap();
//! assert_eq!((entry.kind(), entry.steps()), (Kind::Reach, 6));
//! assert_eq!(entry.to_string(), "reach 6 1 1 _");
//! assert_eq!(entry.parts(&rule).unwrap()[0].to_string(), "1 1 _");
//!
//! // The whole list, as `reachlist` prints it.
//! let text = list_text(file, &list[..listed.length], false).unwrap();
//! assert_eq!(text, "reach 6 1 1 _\ntotal 1 0 0 0 found\n");
//!
//! // One closed input, 1 1 0: it reaches the target too, and is 3 deep.
//! let ran = run(file, &[1, 1, 0], &mut work).unwrap();
//! assert_eq!((ran.outcome, ran.depth), (Outcome::Reached(6), 3));
//! assert_eq!(ran.to_string(), "reached 6 3");
//! ```

mod list;
mod names;
mod refusal;
mod rule;
mod text;

pub use list::{entries, Entries, Entry, Kind, Part, Total};
pub use names::{list_names, names, names_refusal, Name};
pub use refusal::Refusal;
pub use rule::{Goal, Rule};
use std::fmt;
pub use text::{list_text, text_length, write_text};

/// The version of this crate, which is that of the library and of its header.
pub const VERSION: &str = env!("CARGO_PKG_VERSION");

extern "C" {
    fn remburai_check(file: *const u8, file_length: usize) -> u64;
    fn remburai_search(
        file: *const u8,
        file_length: usize,
        work: *mut u32,
        work_length: usize,
        list: *mut u8,
        list_length: usize,
    ) -> u64;
    fn remburai_run(
        file: *const u8,
        file_length: usize,
        input: *const u8,
        input_length: usize,
        work: *mut u32,
        work_length: usize,
    ) -> u64;
    fn remburai_entry(list: *const u8, list_length: usize, number: usize) -> u64;
}

/// The bytes of the longest rule file.
pub const FILE_LIMIT: usize = 16_384;

/// The largest step limit S.
pub const STEP_LIMIT: usize = 4_096;

/// How many bytes of a list slice count, which is also the most bytes of a list that has a text.
pub const LIST_LIMIT: usize = 16_777_216;

/// The words of work slice that a search or a run with step limit `steps` needs: 64 × S + 1,024.
pub const fn work_words(steps: usize) -> usize {
    64 * steps + 1_024
}

/// The most bytes of a text of a list of `list_length` bytes: 4 for each of them, and 64 more. Of the text of [`names()`] count the bytes of
/// the list slice; of these, as of a list, no more than [`LIST_LIMIT`] need be counted.
pub const fn text_bound(list_length: usize) -> usize {
    list_length.saturating_mul(4).saturating_add(64)
}

/// What a complete list says of its rule file.
#[derive(Clone, Copy, Debug, PartialEq, Eq, Hash)]
pub enum Verdict {
    /// An entry reaches the target.
    Found = 1,
    /// No entry reaches the target, and one ran out of steps.
    Undecided = 2,
    /// No entry reaches the target or ran out of steps: every closed input within the depth stops in time off target.
    None = 3,
}

impl fmt::Display for Verdict {
    fn fmt(&self, f: &mut fmt::Formatter<'_>) -> fmt::Result {
        f.write_str(match self {
            Verdict::Found => "found",
            Verdict::Undecided => "undecided",
            Verdict::None => "none",
        })
    }
}

/// How the run of a closed input ends, with the steps that it took.
#[derive(Clone, Copy, Debug, PartialEq, Eq, Hash)]
pub enum Outcome {
    /// The sought target is demanded.
    Reached(u16),
    /// It stops off target: its whole result is evaluated, every constructor that the rule built to its last field.
    Ended(u16),
    /// S steps are done and it is none of the others.
    Unfinished(u16),
    /// It stops off target at a case that has no alternative for the constructor.
    Missing(u16),
}

impl fmt::Display for Outcome {
    fn fmt(&self, f: &mut fmt::Formatter<'_>) -> fmt::Result {
        match self {
            Outcome::Reached(steps) => write!(f, "reached {steps}"),
            Outcome::Ended(steps) => write!(f, "ended {steps}"),
            Outcome::Unfinished(steps) => write!(f, "unfinished {steps}"),
            Outcome::Missing(steps) => write!(f, "missing {steps}"),
        }
    }
}

/// How the run of a closed input ends, and how deep the input goes.
#[derive(Clone, Copy, Debug, PartialEq, Eq, Hash)]
pub struct Ran {
    pub outcome: Outcome,
    /// The depth of the deepest parameter, at most D; 0 without parameters. A constructor without fields is 1 deep, with fields 1 more than
    /// its deepest field.
    pub depth: u8,
}

impl fmt::Display for Ran {
    fn fmt(&self, f: &mut fmt::Formatter<'_>) -> fmt::Result {
        write!(f, "{} {}", self.outcome, self.depth)
    }
}

/// A complete list: its length in bytes, at the front of the list slice, and its verdict.
#[derive(Clone, Copy, Debug, PartialEq, Eq, Hash)]
pub struct Listed {
    pub length: usize,
    pub verdict: Verdict,
}

/// Why a search gave no complete list.
#[derive(Clone, Copy, Debug, PartialEq, Eq, Hash)]
pub enum SearchError {
    /// A refusal of 1 to 9, 11 or 15: no slice is changed.
    Refused(Refusal),
    /// Refusal 12: the list of all entries before the one that does not fit, `length` bytes, is at the front of the list slice.
    Full { length: usize },
}

impl SearchError {
    /// The refusal.
    pub const fn refusal(self) -> Refusal {
        match self {
            SearchError::Refused(why) => why,
            SearchError::Full { .. } => Refusal::ListFull,
        }
    }
}

impl fmt::Display for SearchError {
    fn fmt(&self, f: &mut fmt::Formatter<'_>) -> fmt::Result {
        self.refusal().fmt(f)
    }
}

impl std::error::Error for SearchError {}

/// Checks a rule file: accepted, or a refusal of 1 to 9 or 15.
///
/// ```
/// assert_eq!(remburai::check(b""), Err(remburai::Refusal::Truncated));
/// ```
pub fn check(file: &[u8]) -> Result<(), Refusal> {
    // SAFETY: the pointer and the length are those of one slice, which is lent until the call returns.
    let answer = unsafe { remburai_check(file.as_ptr(), file.len()) };
    match Refusal::of(answer) {
        Some(why) => Err(why),
        None => Ok(()),
    }
}

/// Searches a rule file in the words of `work`, and writes its list to the front of `list`. The bytes of `list` behind the list are as
/// before, and so are the words from [`work_words`] of S on; what the words below it hold is not specified.
///
/// ```
/// use remburai::{search, Refusal, SearchError};
///
/// assert_eq!(search(b"FN", &mut [], &mut []), Err(SearchError::Refused(Refusal::UnexpectedMark)));
/// ```
pub fn search(file: &[u8], work: &mut [u32], list: &mut [u8]) -> Result<Listed, SearchError> {
    // SAFETY: each pointer and length are those of one slice, lent until the call returns, work and list to it alone.
    let answer = unsafe {
        remburai_search(
            file.as_ptr(),
            file.len(),
            work.as_mut_ptr(),
            work.len(),
            list.as_mut_ptr(),
            list.len(),
        )
    };
    let length = (answer >> 16) as usize;
    match Refusal::of(answer) {
        Some(Refusal::ListFull) => return Err(SearchError::Full { length }),
        Some(why) => return Err(SearchError::Refused(why)),
        None => {}
    }
    let verdict = match answer >> 8 & 0xFF {
        1 => Verdict::Found,
        2 => Verdict::Undecided,
        3 => Verdict::None,
        number => unreachable!("no verdict has the number {number}"),
    };
    Ok(Listed { length, verdict })
}

/// Runs a rule file on one closed input, in the words of `work`: how it ends, and how deep the input goes; or a refusal of 1 to 11 or 15,
/// which changes no word. The words from [`work_words`] of S on are as before; what the words below it hold is not specified.
pub fn run(file: &[u8], input: &[u8], work: &mut [u32]) -> Result<Ran, Refusal> {
    // SAFETY: each pointer and length are those of one slice, lent until the call returns, work to it alone.
    let answer = unsafe {
        remburai_run(
            file.as_ptr(),
            file.len(),
            input.as_ptr(),
            input.len(),
            work.as_mut_ptr(),
            work.len(),
        )
    };
    if let Some(why) = Refusal::of(answer) {
        return Err(why);
    }
    let steps = (answer >> 16) as u16;
    let outcome = match answer >> 8 & 0xFF {
        1 => Outcome::Reached(steps),
        2 => Outcome::Ended(steps),
        3 => Outcome::Unfinished(steps),
        4 => Outcome::Missing(steps),
        number => unreachable!("no outcome has the number {number}"),
    };
    let depth = (answer >> 32) as u8;
    Ok(Ran { outcome, depth })
}

/// The part of a list that the entry of a given number fills, counted from 0; else the empty part at the list's end.
///
/// Give the list alone, `&list[..length]`: bytes behind it may be read as entries. Of a slice longer than [`LIST_LIMIT`] the list's end is
/// there. Each call passes over the entries before that number; [`entries`] gives all of them in one pass.
///
/// ```
/// let list = b"UN\x02\x00\x01\x00\xFFRE\x06\x00\x00\x00";
/// assert_eq!(remburai::entry(list, 1), b"RE\x06\x00\x00\x00");
/// assert_eq!(remburai::entry(list, 2), b"");
/// ```
pub fn entry(list: &[u8], number: usize) -> &[u8] {
    // SAFETY: the pointer and the length are those of one slice, which is lent until the call returns.
    let answer = unsafe { remburai_entry(list.as_ptr(), list.len(), number) };
    let place = (answer & 0xFFFF_FFFF) as usize;
    let size = (answer >> 32) as usize;
    &list[place..place + size]
}
