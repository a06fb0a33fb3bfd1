//! The text of the names against another reading of the lists, `spelled`, which is compared in every call: of the example with a type of
//! names, of every stored search, and of rule files made at random.
use crate::naming::*;
use crate::slices::text_of;
use crate::spelled::line;
use remburai::*;
use std::fs;

fn stored(name: &str) -> Vec<u8> {
    let path = format!("{}/../{name}", env!("CARGO_MANIFEST_DIR"));
    fs::read(&path).unwrap_or_else(|error| panic!("{path}: {error}"))
}

/// The names that open a second record: those that begin with a byte from 128 on. Where a half is open, it is filled with 0.
#[test]
fn the_relays() {
    let file = stored("examples/relay.rule");
    let halves = [0x80, 0x90, 0xA0, 0xB0];
    let firsts = halves.into_iter().chain(0xC0..=0xCF);
    let lines: String = firsts
        .chain([0xD0, 0xE0, 0xF0])
        .map(|first| line(&[first]) + "\n")
        .collect();
    assert_eq!(text_of(&file, work_words(100), 1000), lines);
}

/// Most have no names, but every refusal.
#[test]
fn stored_searches() {
    let bytes = stored("crates/search_vectors/stdin");
    let mut rest = &bytes[..];
    let number = |size: usize, rest: &mut &[u8]| {
        let (front, behind) = rest.split_at(size);
        *rest = behind;
        front
            .iter()
            .rev()
            .fold(0, |n, byte| n * 256 + *byte as usize)
    };
    let mut refused = 0;
    while !rest.is_empty() {
        let size = number(2, &mut rest);
        let (file, behind) = rest.split_at(size);
        rest = behind;
        let (words, bytes) = (number(3, &mut rest), number(3, &mut rest));
        refused += text_of(file, words, bytes).contains("refused") as usize;
    }
    assert!(100 < refused, "{refused}");
}

/// Numbers that look random (xorshift).
struct Random(u64);

impl Random {
    fn below(&mut self, limit: usize) -> usize {
        self.0 ^= self.0 << 13;
        self.0 ^= self.0 >> 7;
        self.0 ^= self.0 << 17;
        (self.0 >> 20) as usize % limit
    }

    /// An expression of a type, with variables of these types in view.
    fn expression(&mut self, of: u8, view: &[u8], fuel: usize) -> Vec<u8> {
        match self.below(8) {
            _ if fuel == 0 => self.leaf(of, view),
            0 => self.leaf(of, view),
            1 | 2 => {
                let inner = self.expression(of, view, fuel - 1);
                [&[5, 7 + self.below(2) as u8], &inner[..]].concat()
            }
            _ => self.case(of, view, fuel - 1),
        }
    }

    /// A variable, or a value without fields.
    fn leaf(&mut self, of: u8, view: &[u8]) -> Vec<u8> {
        let variable = self.below(view.len());
        match view[variable] == of {
            true => vec![0, variable as u8],
            false if of == HALF => vec![2, HALF, self.below(16) as u8],
            false => vec![2, of, 0],
        }
    }

    /// A case on a variable, with alternatives that are leaves but for two at most, or missing.
    fn case(&mut self, of: u8, view: &[u8], fuel: usize) -> Vec<u8> {
        let variable = self.below(view.len());
        let fields: &[&[u8]] = match view[variable] {
            HALF => &HALVES,
            NAME => &[&[], &[HALF, HALF, NAME]],
            _ => &[&[], &[NUMBER]],
        };
        let mut case = vec![3, view[variable], 0, variable as u8];
        let deeper = [self.below(fields.len()), fields.len() - 1];
        for (number, fields) in fields.iter().enumerate() {
            let view = [view, fields].concat();
            if self.below(12) == 0 {
                case.push(0);
                continue;
            }
            case.push(1);
            case.extend(match deeper.contains(&number) {
                true => self.expression(of, &view, fuel),
                false => self.leaf(of, &view),
            });
        }
        case
    }

    /// A rule file with up to four parameters, the last of which is a name.
    fn rule(&mut self) -> Vec<u8> {
        let mut parameters: Vec<u8> = (0..self.below(4)).map(|_| self.below(3) as u8).collect();
        parameters.push(NAME);
        let body = self.expression(NAME, &parameters, 6);
        let source = function(&parameters, NAME, &body);
        let goal = goal(1 + self.below(4) as u8, self.below(40) as u16);
        [&types()[..], &source, b"NA", &[NAME], &goal].concat()
    }
}

/// They have names of no byte, of one and of several, more than one to an entry, and lists that are cut short.
#[test]
fn random_rule_files() {
    let mut random = Random(5);
    let mut seen = [0; 4];
    for _ in 0..6000 {
        let file = random.rule();
        if check(&file).is_err() {
            continue;
        }
        let text = text_of(&file, work_words(40), random.below(200));
        let words = |line: &str| line.split_whitespace().count();
        seen[0] += text.lines().any(str::is_empty) as usize;
        seen[1] += text.lines().any(|line| [2, 3].contains(&words(line))) as usize;
        seen[2] += text.lines().any(|line| 3 < words(line)) as usize;
        let cut = text.ends_with("refused 12\n") && 1 < text.lines().count();
        seen[3] += cut as usize;
    }
    assert!(seen.iter().all(|count| 100 < *count), "{seen:?}");
}
