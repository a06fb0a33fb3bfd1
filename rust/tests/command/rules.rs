//! Rule files: those stored in tests/reachlist, one with a missing alternative, one with names, and three that are too large for `reachlist`
//! or `namelist`.
use crate::calling::path;
use std::fs;

/// A stored rule file, and what `reachlist` prints for it.
pub struct Stored {
    pub name: String,
    pub rule: String,
    pub printed: String,
}

impl Stored {
    pub fn named(name: &str) -> Stored {
        let out = path(&format!("tests/reachlist/{name}.out"));
        Stored {
            name: name.to_string(),
            rule: path(&format!("tests/reachlist/{name}.rule")),
            printed: fs::read_to_string(out).expect("a stored text"),
        }
    }

    pub fn last(&self) -> &str {
        self.printed.lines().last().expect("a line")
    }

    /// Where it says nothing of the buffers of `reachlist`, whose refusals 11 and 12 the command does not share.
    pub fn whole(&self) -> bool {
        !["refused 11", "refused 12"].contains(&self.last())
    }
}

pub fn stored() -> Vec<Stored> {
    let folder = fs::read_dir(path("tests/reachlist")).expect("a folder");
    let names = folder.map(|entry| {
        entry
            .expect("an entry")
            .file_name()
            .into_string()
            .expect("UTF-8")
    });
    let mut names: Vec<String> = names
        .filter_map(|name| Some(name.strip_suffix(".rule")?.to_string()))
        .collect();
    names.sort();
    assert!(40 < names.len());
    names.iter().map(|name| Stored::named(name)).collect()
}

/// A function of a rule file.
fn function(parameters: usize, body: &[u8]) -> Vec<u8> {
    let mut record = b"FN".to_vec();
    record.push(parameters as u8);
    record.extend(vec![0; parameters + 1]);
    record.extend((body.len() as u16).to_le_bytes());
    record.extend(body);
    record
}

/// The example P without its alternative for zero.
pub fn uncovered() -> Vec<u8> {
    let inner = [3, 0, 0, 1, 1, 2, 0, 0, 1, 5, 7, 2, 0, 0];
    let body = [&[3, 0, 0, 0, 0, 1], &inner[..]].concat();
    let mut file = b"TY\x02\x00\x01\x00".to_vec();
    file.extend(function(1, &body));
    file.extend(b"GO\x00\x07\x04\x14\x00");
    file
}

/// The halves of a byte, type 0, and the names, type 1, of which there is one: the target is where its first byte is from 192 to 207. D is 3.
pub fn named() -> Vec<u8> {
    let mut body = b"\x03\x01\x00\x00\x01\x00\x00\x01\x03\x00\x00\x01".to_vec();
    for half in 0..16 {
        body.extend(match half {
            12 => &[1, 5, 7, 0, 0][..],
            _ => &[1, 0, 0],
        });
    }
    let types = [&b"TY\x10"[..], &[0; 16], b"TY\x02\x00\x03\x00\x00\x01"];
    let source = [b"FN\x01\x01\x01", &[body.len() as u8, 0][..], &body];
    [
        types.concat(),
        source.concat(),
        b"NA\x01GO\x00\x07\x03\x14\x00".to_vec(),
    ]
    .concat()
}

/// The rule file of too many entries with a name as a further parameter: 13 bytes for each entry, whose name is empty.
pub fn too_many_names() -> Vec<u8> {
    let file = too_many_entries();
    let (halves, records) = file.split_at(19);
    // the source, whose parameters are first, has one more, and calls the next function as before
    let (head, rest) = records.split_at(9);
    assert_eq!(head, b"FN\x06\0\0\0\0\0\0");
    let (rest, goal) = rest.split_at(rest.len() - 7);
    let names = b"TY\x02\x00\x03\x00\x00\x01";
    let parameters = b"FN\x07\0\0\0\0\0\0\x01";
    [halves, names, parameters, rest, b"NA\x01", goal].concat()
}

/// Six parameters of a type of sixteen constructors without fields, all looked at: 16,777,216 entries of 12 bytes, more than any list holds.
pub fn too_many_entries() -> Vec<u8> {
    const PARAMETERS: usize = 6;
    let mut file = [&b"TY\x10"[..], &[0; 16]].concat();
    for number in 0..PARAMETERS {
        let left = PARAMETERS - number;
        let operands = (1..left as u8).flat_map(|variable| [0, variable]);
        let next: Vec<u8> = match left {
            1 => vec![5, 7, 2, 0, 0],
            _ => [1, number as u8 + 1].into_iter().chain(operands).collect(),
        };
        let alternative = [&[1], &next[..]].concat();
        let body = [&[3, 0, 0, 0], &alternative.repeat(16)[..]].concat();
        file.extend(function(left, &body));
    }
    file.extend(b"GO\x00\x07\x01\x64\x00");
    file
}

/// A search without end, as far as anyone can wait: all trees of depth 64 that 4,096 steps can pass through.
pub fn endless() -> Vec<u8> {
    let right = [3, 0, 1, 0, 0, 1, 1, 1, 0, 0, 2, 0];
    let body = [&[3, 0, 0, 0, 1, 2, 0, 0, 1], &right[..]].concat();
    let mut file = b"TY\x02\x00\x02\x00\x00".to_vec();
    file.extend(function(1, &body));
    file.extend(b"GO\x00\x07\x40\x00\x10");
    file
}
