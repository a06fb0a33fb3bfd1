//! What an accepted rule file says of its inputs, of its names and of its goal: enough to read the entries of its list.
use crate::{check, Refusal};

/// The goal of a rule file, its last five bytes.
#[derive(Clone, Copy, Debug, PartialEq, Eq, Hash)]
pub struct Goal {
    /// The number of the source function.
    pub source: u8,
    /// The label sought.
    pub label: u8,
    /// The depth D.
    pub depth: u8,
    /// The step limit S.
    pub steps: u16,
}

/// The types, the source's parameters, the named type and the goal of an accepted rule file.
///
/// ```
/// use remburai::{Refusal, Rule};
///
/// // A type with the constructors 0, without fields, and 1, with one field of the type itself.
/// let file = b"TY\x02\x00\x01\x00FN\x01\x00\x00\x02\x00\x00\x00GO\x00\x07\x04\x14\x00";
/// let rule = Rule::read(file).unwrap();
/// assert_eq!((rule.goal().depth, rule.goal().steps), (4, 20));
/// assert_eq!(rule.parameters(), [0]);
/// assert_eq!(rule.names(), None);
/// assert_eq!(rule.fields(0, 1), Some(&[0][..]));
/// assert_eq!(rule.fields(0, 2), None);
/// assert_eq!(rule.least_depth(0), Some(1));
///
/// assert_eq!(Rule::read(b"FN"), Err(Refusal::UnexpectedMark));
/// ```
#[derive(Clone, Debug, PartialEq, Eq)]
pub struct Rule {
    /// Per type and constructor the types of its fields.
    types: Vec<Vec<Vec<u8>>>,
    /// The least depth of each type.
    least: Vec<u8>,
    /// The types of the source's parameters.
    parameters: Vec<u8>,
    /// The named type.
    names: Option<u8>,
    goal: Goal,
}

impl Rule {
    /// Checks a rule file, and reads it where it is accepted.
    pub fn read(file: &[u8]) -> Result<Rule, Refusal> {
        check(file)?;
        Ok(Reader { file, at: 0 }.rule())
    }

    /// The goal.
    pub fn goal(&self) -> Goal {
        self.goal
    }

    /// The types of the source's parameters.
    pub fn parameters(&self) -> &[u8] {
        &self.parameters
    }

    /// The type whose values spell names, where the rule file has a record NA.
    pub fn names(&self) -> Option<u8> {
        self.names
    }

    /// How many parameters of the source are of the named type: so many names has each entry of a list.
    pub fn named_parameters(&self) -> usize {
        let named = |of: &&u8| Some(**of) == self.names;
        self.parameters.iter().filter(named).count()
    }

    /// The types of a constructor's fields, where the type has that constructor.
    pub fn fields(&self, of: u8, constructor: u8) -> Option<&[u8]> {
        let constructors = self.types.get(of as usize)?;
        constructors.get(constructor as usize).map(Vec::as_slice)
    }

    /// The least depth of a type, that of its shallowest closed value, where there is such a type. An open part counts as so deep.
    pub fn least_depth(&self, of: u8) -> Option<u8> {
        self.least.get(of as usize).copied()
    }
}

/// The least depth of each type. Each turn finds those that are one deeper than what the turn before found; every type has one.
fn least_depths(types: &[Vec<Vec<u8>>]) -> Vec<u8> {
    let mut least = vec![u8::MAX; types.len()];
    for _ in types {
        let depth = |fields: &Vec<u8>| {
            let deepest = fields.iter().map(|field| least[*field as usize]).max();
            deepest.unwrap_or(0).saturating_add(1)
        };
        let shallowest = |constructors: &Vec<Vec<u8>>| constructors.iter().map(depth).min();
        least = types.iter().filter_map(shallowest).collect();
    }
    least
}

/// Reads an accepted rule file from its front. Every byte that is asked for is there, since the check has read it.
struct Reader<'f> {
    file: &'f [u8],
    at: usize,
}

impl<'f> Reader<'f> {
    fn bytes(&mut self, count: usize) -> &'f [u8] {
        self.at += count;
        &self.file[self.at - count..self.at]
    }

    fn byte(&mut self) -> u8 {
        self.bytes(1)[0]
    }

    /// A two-byte number, the low byte first.
    fn pair(&mut self) -> u16 {
        u16::from_le_bytes([self.byte(), self.byte()])
    }

    /// Bytes behind their number.
    fn counted(&mut self) -> Vec<u8> {
        let count = self.byte() as usize;
        self.bytes(count).to_vec()
    }

    fn rule(mut self) -> Rule {
        let (mut types, mut heads, mut names) = (vec![], vec![], None);
        loop {
            match self.bytes(2) {
                b"TY" => types.push(self.constructors()),
                b"FN" => heads.push(self.head()),
                b"NA" => names = Some(self.byte()),
                _ => break,
            }
        }
        let goal = self.goal();
        let parameters = heads.swap_remove(goal.source as usize);
        Rule {
            least: least_depths(&types),
            types,
            parameters,
            names,
            goal,
        }
    }

    fn constructors(&mut self) -> Vec<Vec<u8>> {
        let count = self.byte();
        (0..count).map(|_| self.counted()).collect()
    }

    /// The types of a function's parameters. Its result and its body are passed over.
    fn head(&mut self) -> Vec<u8> {
        let parameters = self.counted();
        self.byte();
        let length = self.pair();
        self.bytes(length as usize);
        parameters
    }

    fn goal(&mut self) -> Goal {
        Goal {
            source: self.byte(),
            label: self.byte(),
            depth: self.byte(),
            steps: self.pair(),
        }
    }
}
