//! The entries of a list, one by one, what each says, and the counts of a whole list; printed as `reachlist` prints them.
use crate::{entry, Listed, Rule, Verdict, LIST_LIMIT};
use std::fmt;

extern "C" {
    fn remburai_share(reach: u32, unfinished: u32) -> u64;
}

/// The byte of an open part.
const OPEN: u8 = 0xFF;

/// The bytes before the parameters: a mark, the steps, and how many bytes follow.
const HEADER: usize = 6;

/// What an entry says of the inputs that complete it.
#[derive(Clone, Copy, Debug, PartialEq, Eq, Hash)]
pub enum Kind {
    /// They reach the target.
    Reach,
    /// They ran out of steps.
    Unfinished,
    /// They run into a missing alternative: no case covers them.
    Missing,
}

impl fmt::Display for Kind {
    fn fmt(&self, f: &mut fmt::Formatter<'_>) -> fmt::Result {
        f.write_str(match self {
            Kind::Reach => "reach",
            Kind::Unfinished => "unfinished",
            Kind::Missing => "missing",
        })
    }
}

/// One entry of a list. It is printed as `reachlist` prints it:
///
/// ```
/// let entry = remburai::entries(b"RE\x06\x00\x03\x00\x01\x01\xFF").next().unwrap();
/// assert_eq!(entry.to_string(), "reach 6 1 1 _");
/// ```
#[derive(Clone, Copy, Debug, PartialEq, Eq, Hash)]
pub struct Entry<'l> {
    bytes: &'l [u8],
}

impl<'l> Entry<'l> {
    /// The whole entry, from its mark to its last byte.
    pub fn bytes(&self) -> &'l [u8] {
        self.bytes
    }

    /// What the entry says.
    pub fn kind(&self) -> Kind {
        match &self.bytes[..2] {
            b"RE" => Kind::Reach,
            b"UN" => Kind::Unfinished,
            b"MI" => Kind::Missing,
            mark => unreachable!("no entry has the mark {mark:?}"),
        }
    }

    /// After how many steps.
    pub fn steps(&self) -> u16 {
        u16::from_le_bytes([self.bytes[2], self.bytes[3]])
    }

    /// The parameters in prefix form: a constructor's number before its fields, 255 for an open part.
    pub fn parameters(&self) -> &'l [u8] {
        &self.bytes[HEADER..]
    }

    /// The parameters as trees, one for each parameter of the rule's source. `None` where they are not of the rule's types, or deeper
    /// than its depth, an open part being as deep as its type's least depth; the entries of the rule's own list always are, and no deeper.
    ///
    /// ```
    /// use remburai::{entries, Part, Rule};
    ///
    /// let file = b"TY\x02\x00\x01\x00FN\x01\x00\x00\x02\x00\x00\x00GO\x00\x07\x04\x14\x00";
    /// let entry = entries(b"RE\x06\x00\x03\x00\x01\x01\xFF").next().unwrap();
    /// let inner = Part::Bound(1, vec![Part::Open]);
    /// assert_eq!(entry.parts(&Rule::read(file).unwrap()), Some(vec![Part::Bound(1, vec![inner])]));
    /// ```
    pub fn parts(&self, rule: &Rule) -> Option<Vec<Part>> {
        let mut rest = self.parameters();
        let parts = row(rule, rule.parameters(), rule.goal().depth, &mut rest)?;
        rest.is_empty().then_some(parts)
    }
}

impl fmt::Display for Entry<'_> {
    fn fmt(&self, f: &mut fmt::Formatter<'_>) -> fmt::Result {
        write!(f, "{} {}", self.kind(), self.steps())?;
        for byte in self.parameters() {
            match *byte {
                OPEN => f.write_str(" _")?,
                number => write!(f, " {number}")?,
            }
        }
        Ok(())
    }
}

/// A part of an input: open, or bound to a constructor, by its number, over the parts that are its fields. It is printed in prefix
/// form, as in `1 1 _`.
#[derive(Clone, Debug, PartialEq, Eq, Hash)]
pub enum Part {
    Open,
    Bound(u8, Vec<Part>),
}

impl fmt::Display for Part {
    fn fmt(&self, f: &mut fmt::Formatter<'_>) -> fmt::Result {
        let Part::Bound(constructor, fields) = self else {
            return f.write_str("_");
        };
        write!(f, "{constructor}")?;
        for field in fields {
            write!(f, " {field}")?;
        }
        Ok(())
    }
}

/// A part of each of these types, each at most so deep, from the front of the bytes.
fn row(rule: &Rule, types: &[u8], room: u8, rest: &mut &[u8]) -> Option<Vec<Part>> {
    let mut parts = Vec::with_capacity(types.len());
    for of in types {
        parts.push(part(rule, *of, room, rest)?);
    }
    Some(parts)
}

/// A part of a type that is at most so deep, from the front of the bytes.
fn part(rule: &Rule, of: u8, room: u8, rest: &mut &[u8]) -> Option<Part> {
    let below = room.checked_sub(1)?;
    let (&first, behind) = rest.split_first()?;
    *rest = behind;
    if first == OPEN {
        return (rule.least_depth(of)? <= room).then_some(Part::Open);
    }
    let fields = row(rule, rule.fields(of, first)?, below, rest)?;
    Some(Part::Bound(first, fields))
}

/// The entries of a list, one behind the other, up to the first place where none stands.
///
/// Give the list alone, `&list[..length]`: bytes behind it may be read as entries.
pub fn entries(list: &[u8]) -> Entries<'_> {
    Entries {
        rest: &list[..list.len().min(LIST_LIMIT)],
    }
}

/// What [`entries`] gives.
#[derive(Clone, Debug)]
pub struct Entries<'l> {
    rest: &'l [u8],
}

impl<'l> Iterator for Entries<'l> {
    type Item = Entry<'l>;

    fn next(&mut self) -> Option<Entry<'l>> {
        let bytes = entry(self.rest, 0);
        self.rest = &self.rest[bytes.len()..];
        (!bytes.is_empty()).then_some(Entry { bytes })
    }
}

/// The counts and the verdict of a complete list. It is printed as the last line of `reachlist`:
///
/// ```
/// use remburai::{Total, Verdict};
///
/// let total = Total { reach: 2, unfinished: 1, missing: 4, verdict: Verdict::Found };
/// assert_eq!(total.to_string(), "total 2 1 4 33 found");
/// ```
#[derive(Clone, Copy, Debug, PartialEq, Eq, Hash)]
pub struct Total {
    /// How many entries reach the target.
    pub reach: u32,
    /// How many entries ran out of steps.
    pub unfinished: u32,
    /// How many entries run into a missing alternative.
    pub missing: u32,
    pub verdict: Verdict,
}

impl Total {
    /// The share of the entries that ran out of steps among these and those that reach the target, in per cent, to the nearest whole
    /// number, an exact half to the even one; 0 where there is neither.
    pub fn share(&self) -> u64 {
        // SAFETY: the call takes and gives numbers alone.
        unsafe { remburai_share(self.reach, self.unfinished) }
    }
}

impl fmt::Display for Total {
    fn fmt(&self, f: &mut fmt::Formatter<'_>) -> fmt::Result {
        write!(
            f,
            "total {} {} {} {} {}",
            self.reach,
            self.unfinished,
            self.missing,
            self.share(),
            self.verdict
        )
    }
}

impl Listed {
    /// The total of this list, which stands at the front of the list slice.
    pub fn total(&self, list: &[u8]) -> Total {
        let mut total = Total {
            reach: 0,
            unfinished: 0,
            missing: 0,
            verdict: self.verdict,
        };
        for entry in entries(&list[..self.length]) {
            *match entry.kind() {
                Kind::Reach => &mut total.reach,
                Kind::Unfinished => &mut total.unfinished,
                Kind::Missing => &mut total.missing,
            } += 1;
        }
        total
    }
}
