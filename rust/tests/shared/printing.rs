//! The text of a list without the calls that are tested: by the entries as the crate prints them, one by one, and by its total.
use remburai::*;
use std::fmt::Write;

/// The text of a list, as far as it is whole entries.
pub fn printed(list: &[u8], full: bool) -> String {
    let mut text = String::new();
    for entry in entries(list) {
        writeln!(text, "{entry}").expect("a string");
    }
    let last = match full {
        true => "refused 12".to_string(),
        false => total(list).to_string(),
    };
    text + &last + "\n"
}

fn total(list: &[u8]) -> Total {
    let has = |kind| entries(list).any(|entry| entry.kind() == kind);
    let verdict = match (has(Kind::Reach), has(Kind::Unfinished)) {
        (true, _) => Verdict::Found,
        (false, true) => Verdict::Undecided,
        (false, false) => Verdict::None,
    };
    let length = list.len();
    Listed { length, verdict }.total(list)
}
