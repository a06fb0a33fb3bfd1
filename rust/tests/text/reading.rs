//! Lists read without the calls that are tested: a test of what fits a rule file, by depths from the bottom up.
use remburai::*;

/// A rule file with its types' least depths.
pub struct Types {
    rule: Rule,
    least: Vec<usize>,
}

impl Types {
    pub fn of(file: &[u8]) -> Types {
        let rule = Rule::read(file).expect("an accepted rule file");
        let count = (0..).take_while(|of| rule.fields(*of, 0).is_some()).count();
        let mut types = Types {
            rule,
            least: vec![usize::MAX; count],
        };
        // each turn finds the depth of at least one type more
        for _ in 0..count {
            types.least = (0..count as u8).map(|of| types.least_depth(of)).collect();
        }
        types
    }

    /// The least depth of a type's closed values, as far as those of its fields are known.
    fn least_depth(&self, of: u8) -> usize {
        let constructors = (0..).map_while(|constructor| self.rule.fields(of, constructor));
        let depths = constructors.map(|fields| {
            let deepest = fields.iter().map(|field| self.least[*field as usize]).max();
            deepest.unwrap_or(0).saturating_add(1)
        });
        depths.min().expect("a constructor")
    }

    /// The depth of the partial value at the front of the bytes, which is passed over, where it is one of this type.
    fn depth(&self, of: u8, rest: &mut &[u8]) -> Option<usize> {
        let (&first, behind) = rest.split_first()?;
        *rest = behind;
        if first == 255 {
            return Some(self.least[of as usize]);
        }
        let mut deepest = 0;
        for field in self.rule.fields(of, first)? {
            deepest = deepest.max(self.depth(*field, rest)?);
        }
        Some(deepest + 1)
    }

    /// Whether the parameters of an entry are those of the rule.
    fn has_parameters(&self, mut bytes: &[u8]) -> bool {
        let room = self.rule.goal().depth as usize;
        let mut types = self.rule.parameters().iter();
        let fit = types.all(|of| self.depth(*of, &mut bytes).is_some_and(|deep| deep <= room));
        fit && bytes.is_empty()
    }

    /// Whether the crate reads the parameters of an entry as trees.
    pub fn has_parts(&self, entry: &Entry) -> bool {
        entry.parts(&self.rule).is_some()
    }

    /// Whether a list passes refusal 14.
    pub fn fit(&self, list: &[u8]) -> bool {
        let mut rest = list;
        while let [a, b, c, d, e, f, behind @ ..] = rest {
            let (steps, size) = (u16::from_le_bytes([*c, *d]), u16::from_le_bytes([*e, *f]));
            let known = [b"RE", b"UN", b"MI"].contains(&&[*a, *b]);
            let Some((parameters, next)) = behind.split_at_checked(size as usize) else {
                return false;
            };
            if !known || self.rule.goal().steps < steps || !self.has_parameters(parameters) {
                return false;
            }
            rest = next;
        }
        rest.is_empty() && list.len() <= LIST_LIMIT
    }
}

/// An entry.
pub fn entry_of(mark: &[u8; 2], steps: u16, parameters: &[u8]) -> Vec<u8> {
    let mut entry = mark.to_vec();
    entry.extend(steps.to_le_bytes());
    entry.extend((parameters.len() as u16).to_le_bytes());
    entry.extend(parameters);
    entry
}

/// The text and its length by the calls; they agree, and the text is not longer than is said of it.
pub fn text_of(file: &[u8], list: &[u8], full: bool) -> Result<String, Refusal> {
    let text = list_text(file, list, full);
    let length = text.as_ref().map(String::len).map_err(|why| *why);
    assert_eq!(text_length(file, list, full), length);
    assert!(length.is_err() || length.is_ok_and(|length| length <= text_bound(list.len())));
    text
}
