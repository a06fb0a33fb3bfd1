//! The text of the names without the call that is tested: from the list of the search, by its entries as trees.
use remburai::*;

/// What a search leaves in its slices, and the text that is due.
pub struct Due {
    pub work: Vec<u32>,
    pub list: Vec<u8>,
    pub text: String,
}

/// Searches in slices that have this in them before.
pub fn due(file: &[u8], mut work: Vec<u32>, mut list: Vec<u8>) -> Due {
    let (length, refusal) = match search(file, &mut work, &mut list) {
        Ok(listed) => (listed.length, None),
        Err(SearchError::Full { length }) => (length, Some(Refusal::ListFull)),
        Err(SearchError::Refused(why)) => (0, Some(why)),
    };
    let mut text = match Rule::read(file) {
        Ok(rule) => entries(&list[..length])
            .map(|entry| lines(&rule, &entry))
            .collect(),
        Err(_) => String::new(),
    };
    if let Some(why) = refusal {
        text += &format!("refused {}\n", why.number());
    }
    Due { work, list, text }
}

/// The lines of an entry.
fn lines(rule: &Rule, entry: &Entry) -> String {
    let parts = entry.parts(rule).expect("an entry of the rule's own list");
    let named = rule.parameters().iter().zip(parts);
    let named = named.filter(|(of, _)| rule.names() == Some(**of));
    named.map(|(_, part)| line(&latin1(&part)) + "\n").collect()
}

/// The name that a part spells, filled.
fn latin1(part: &Part) -> Vec<u8> {
    match part {
        Part::Bound(1, fields) => {
            let byte = 16 * half(&fields[0]) + half(&fields[1]);
            [vec![byte], latin1(&fields[2])].concat()
        }
        _ => vec![],
    }
}

fn half(part: &Part) -> u8 {
    match part {
        Part::Bound(number, _) => *number,
        Part::Open => 0,
    }
}

/// The line of a name, without its line feed.
pub fn line(latin1: &[u8]) -> String {
    let text: String = latin1.iter().map(|byte| *byte as char).collect();
    let bytes: Vec<String> = latin1
        .iter()
        .chain(text.as_bytes())
        .map(u8::to_string)
        .collect();
    bytes.join(" ")
}
