//! The stored cases of the repository, through this crate: each rule file of crates/check_vectors, each input of crates/run_vectors, each
//! search of crates/search_vectors and each list of crates/printing_vectors, with the answers that the blind side gave. Beside each `stdin`
//! its maker in tests/ says what stands in it.
#[path = "shared/printing.rs"]
mod printing;

use printing::printed;
use remburai::*;
use std::fs;

const WORD: u32 = 0xA5A5_A5A5;
const BYTE: u8 = 0xA5;

/// The longest input of a stored run.
const INPUT_LIMIT: usize = 1_048_576;

fn stored(name: &str) -> Vec<u8> {
    let path = format!("{}/../crates/{name}", env!("CARGO_MANIFEST_DIR"));
    fs::read(&path).unwrap_or_else(|error| panic!("{path}: {error}"))
}

/// The cases of a container, read from its front.
struct Cases {
    bytes: Vec<u8>,
    at: usize,
}

impl Cases {
    fn of(name: &str) -> Cases {
        Cases {
            bytes: stored(&format!("{name}/stdin")),
            at: 0,
        }
    }

    fn left(&self) -> bool {
        self.at < self.bytes.len()
    }

    /// A number of so many bytes, low byte first.
    fn number(&mut self, size: usize) -> usize {
        let bytes = &self.bytes[self.at..self.at + size];
        self.at += size;
        bytes
            .iter()
            .rev()
            .fold(0, |n, byte| n * 256 + *byte as usize)
    }

    /// Bytes behind their two-byte length.
    fn part(&mut self) -> Vec<u8> {
        let size = self.number(2);
        self.at += size;
        self.bytes[self.at - size..self.at].to_vec()
    }

    /// An input: a pattern, how often it stands, and the rest behind it.
    fn input(&mut self) -> Vec<u8> {
        let mut input = self.part();
        let times = self.number(4);
        assert!(input.len() * times <= INPUT_LIMIT);
        input = input.repeat(times);
        input.extend(self.part());
        assert!(input.len() <= INPUT_LIMIT);
        input
    }
}

/// The lines that a program over the same calls must print.
fn see_lines(name: &str, lines: Vec<String>, least: usize) {
    let expected = String::from_utf8(stored(&format!("{name}/stdout"))).unwrap();
    let expected: Vec<&str> = expected.lines().collect();
    assert_eq!(lines.len(), expected.len());
    assert!(least <= lines.len());
    for (number, (line, due)) in lines.iter().zip(expected).enumerate() {
        assert_eq!(line, due, "{name}, line {number}");
    }
}

fn kept(same: bool) -> &'static str {
    if same {
        "kept"
    } else {
        "changed"
    }
}

#[test]
fn rule_files() {
    let mut cases = Cases::of("check_vectors");
    let mut lines = vec![];
    while cases.left() {
        lines.push(match check(&cases.part()) {
            Ok(()) => "accepted".to_string(),
            Err(why) => format!("refused {}", why.number()),
        });
    }
    see_lines("check_vectors", lines, 1000);
}

#[test]
fn closed_runs() {
    let mut cases = Cases::of("run_vectors");
    let mut lines = vec![];
    while cases.left() {
        let (file, input) = (cases.part(), cases.input());
        let mut work = vec![WORD; cases.number(4)];
        lines.push(match run(&file, &input, &mut work) {
            Ok(ran) => ran.to_string(),
            Err(why) => format!("refused {}", why.number()),
        });
    }
    see_lines("run_vectors", lines, 2500);
}

/// What a search answers, the length of its list, and from which word on the work slice is as before.
fn answered(file: &[u8], answer: Result<Listed, SearchError>) -> (String, usize, usize) {
    let spare = || {
        let steps = u16::from_le_bytes([file[file.len() - 2], file[file.len() - 1]]);
        work_words(steps as usize)
    };
    match answer {
        Ok(Listed { length, verdict }) => (format!("{verdict} {length}"), length, spare()),
        Err(SearchError::Full { length }) => (format!("refused 12 {length}"), length, spare()),
        Err(SearchError::Refused(why)) => (format!("refused {}", why.number()), 0, 0),
    }
}

/// The entries fill the list, and each is found by its number.
fn see_entries(list: &[u8]) {
    let sizes = entries(list).map(|entry| entry.bytes().len());
    assert_eq!(sizes.sum::<usize>(), list.len());
    for (number, part) in entries(list).enumerate().take(20) {
        assert_eq!(entry(list, number), part.bytes());
    }
}

#[test]
fn searches() {
    let mut cases = Cases::of("search_vectors");
    let mut lines = vec![];
    while cases.left() {
        let file = cases.part();
        let mut work = vec![WORD; cases.number(3)];
        let mut list = vec![BYTE; cases.number(3)];
        let (first, length, spare) = answered(&file, search(&file, &mut work, &mut list));
        lines.push(first);
        let bytes: String = list[..length]
            .iter()
            .map(|byte| format!("{byte} "))
            .collect();
        let behind = list[length..].iter().all(|byte| *byte == BYTE);
        let words = work[spare..].iter().all(|word| *word == WORD);
        lines.push(format!("{bytes}{} {}", kept(behind), kept(words)));
        see_entries(&list[..length]);
    }
    see_lines("search_vectors", lines, 5000);
}

/// What both calls answer for a list that is handed in with its rule file, and the text slice.
fn handed_in(file: &[u8], list: &[u8], full: bool, room: usize) -> String {
    let shown = |answer: Result<usize, Refusal>| match answer {
        Ok(length) => length.to_string(),
        Err(why) => format!("refused {}", why.number()),
    };
    let mut text = vec![b'.'; room];
    let length = shown(text_length(file, list, full));
    let written = shown(write_text(file, list, full, &mut text));
    let text = String::from_utf8(text).expect("ASCII");
    format!("length {length}\ntext {written}\n{text}\n")
}

#[test]
fn printed_lists() {
    let mut cases = Cases::of("printing_vectors");
    let mut text = String::new();
    let mut handed = 0;
    while cases.left() {
        let kind = cases.number(1);
        let full = kind % 2 == 1;
        if kind < 2 {
            text += &printed(&cases.part(), full);
            continue;
        }
        let (file, list) = (cases.part(), cases.part());
        text += &handed_in(&file, &list, full, cases.number(3));
        handed += 1;
    }
    assert!(500 < handed, "{handed}");
    let lines = text.lines().map(str::to_string).collect();
    see_lines("printing_vectors", lines, 5000);
}
