//! The printed text of a list, as one would write it without proofs: its length, and the text. The list is checked, since a list may be of
//! another rule file; the rule file is not, and has to be an accepted one.
use crate::program::Program;
use std::cmp::Ordering;

/// The byte of an open part.
const OPEN: u8 = 255;

/// The longest list.
const LIST_LIMIT: usize = 1 << 24;

/// Some of all, in per cent, to the nearest whole number, an exact half to the even one; 0 where there are none.
fn share(some: usize, all: usize) -> usize {
    if all == 0 {
        return 0;
    }
    let (whole, rest) = (100 * some / all, 100 * some % all);
    match (2 * rest).cmp(&all) {
        Ordering::Less => whole,
        Ordering::Equal => whole + whole % 2,
        Ordering::Greater => whole + 1,
    }
}

/// How many entries there are of each kind.
#[derive(Clone, Copy, Default)]
struct Counts {
    reach: usize,
    unfinished: usize,
    missing: usize,
}

impl Counts {
    /// Counts an entry by its mark; the word of its kind.
    fn count(&mut self, mark: &[u8]) -> &'static str {
        let (count, word) = match mark {
            b"RE" => (&mut self.reach, "reach"),
            b"UN" => (&mut self.unfinished, "unfinished"),
            _ => (&mut self.missing, "missing"),
        };
        *count += 1;
        word
    }

    fn last_line(&self, full: bool) -> String {
        if full {
            return "refused 12\n".to_string();
        }
        let Counts {
            reach,
            unfinished,
            missing,
        } = *self;
        let share = share(unfinished, reach + unfinished);
        let verdict = match (reach, unfinished) {
            (0, 0) => "none",
            (0, _) => "undecided",
            _ => "found",
        };
        format!("total {reach} {unfinished} {missing} {share} {verdict}\n")
    }
}

/// An entry: its mark, its steps, and the bytes of its values.
struct Entry<'l> {
    mark: &'l [u8],
    steps: u16,
    values: &'l [u8],
}

/// Takes the entry at the front of a list, if a whole one stands there.
fn take<'l>(list: &mut &'l [u8]) -> Option<Entry<'l>> {
    let (head, rest) = list.split_at_checked(6)?;
    let size = u16::from_le_bytes([head[4], head[5]]);
    let (values, behind) = rest.split_at_checked(size as usize)?;
    *list = behind;
    Some(Entry {
        mark: &head[..2],
        steps: u16::from_le_bytes([head[2], head[3]]),
        values,
    })
}

/// A program, and the least depth of each of its types.
struct Depths {
    program: Program,
    least: Vec<usize>,
}

impl Depths {
    fn of(file: &[u8]) -> Depths {
        let program = Program::read(file);
        let least = program.types.iter().map(|constructors| {
            let depths = constructors.iter().map(|constructor| constructor.least);
            depths.min().expect("a type has a constructor")
        });
        let least = least.collect();
        Depths { program, least }
    }

    /// Whether a list is whole entries of the program.
    fn fit(&self, mut list: &[u8]) -> bool {
        if LIST_LIMIT < list.len() {
            return false;
        }
        while let Some(entry) = take(&mut list) {
            if !self.fit_entry(&entry) {
                return false;
            }
        }
        list.is_empty()
    }

    fn fit_entry(&self, entry: &Entry) -> bool {
        let mut rest = entry.values;
        for of in self.program.parameters() {
            match self.depth(*of, &mut rest) {
                Some(depth) if depth <= self.program.depth => {}
                _ => return false,
            }
        }
        let known = matches!(entry.mark, b"RE" | b"UN" | b"MI");
        known && entry.steps as usize <= self.program.steps && rest.is_empty()
    }

    /// The depth of the value at the front of the bytes, which is passed over, if it is one of this type.
    fn depth(&self, of: usize, rest: &mut &[u8]) -> Option<usize> {
        let (&first, behind) = rest.split_first()?;
        *rest = behind;
        if first == OPEN {
            return Some(self.least[of]);
        }
        let mut deepest = 0;
        for field in &self.program.types[of].get(first as usize)?.fields {
            deepest = deepest.max(self.depth(*field, rest)?);
        }
        Some(deepest + 1)
    }
}

/// The length of the text, if the list fits the rule file.
pub fn text_length(file: &[u8], list: &[u8], full: bool) -> Option<usize> {
    Depths::of(file).fit(list).then(|| length(list, full))
}

fn length(mut list: &[u8], full: bool) -> usize {
    let mut counts = Counts::default();
    let mut length = 0;
    while let Some(entry) = take(&mut list) {
        let word = counts.count(entry.mark);
        let values: usize = entry.values.iter().map(|byte| 1 + width(*byte)).sum();
        length += word.len() + 1 + digits(entry.steps) + values + 1;
    }
    length + counts.last_line(full).len()
}

/// How many characters stand for a byte.
fn width(byte: u8) -> usize {
    match byte {
        OPEN => 1,
        _ => digits(byte as u16),
    }
}

fn digits(number: u16) -> usize {
    1 + [10, 100, 1000, 10000]
        .iter()
        .filter(|power| **power <= number)
        .count()
}

/// Puts the text into `text`, in place of what it had, if the list fits the rule file. The result is whether it does.
pub fn write_text(file: &[u8], list: &[u8], full: bool, text: &mut Vec<u8>) -> bool {
    let fits = Depths::of(file).fit(list);
    if fits {
        write(list, full, text);
    }
    fits
}

fn write(mut list: &[u8], full: bool, text: &mut Vec<u8>) {
    let mut counts = Counts::default();
    text.clear();
    while let Some(entry) = take(&mut list) {
        text.extend_from_slice(counts.count(entry.mark).as_bytes());
        push_number(text, entry.steps);
        for byte in entry.values {
            match *byte {
                OPEN => text.extend_from_slice(b" _"),
                number => push_number(text, number as u16),
            }
        }
        text.push(b'\n');
    }
    text.extend_from_slice(counts.last_line(full).as_bytes());
}

/// A space and a number in decimal.
fn push_number(text: &mut Vec<u8>, number: u16) {
    text.push(b' ');
    let mut power = [10000, 1000, 100, 10]
        .into_iter()
        .find(|power| *power <= number)
        .unwrap_or(1);
    while power != 0 {
        text.push(b'0' + (number / power % 10) as u8);
        power /= 10;
    }
}
