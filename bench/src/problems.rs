//! The rule files of the benchmark: those of `problems`, built from their texts, and the stored cases of the repository.
use crate::program::Program;
use std::path::{Path, PathBuf};
use std::process::Command;
use std::{fs, io};

pub struct Problem {
    pub name: String,
    pub file: Vec<u8>,
}

fn here() -> &'static Path {
    Path::new(env!("CARGO_MANIFEST_DIR"))
}

/// The problems, in the order of their names, built by tools/rule.
pub fn problems() -> io::Result<Vec<Problem>> {
    let mut texts: Vec<PathBuf> = vec![];
    for found in fs::read_dir(here().join("problems"))? {
        texts.push(found?.path());
    }
    texts.retain(|path| path.extension().is_some_and(|extension| extension == "txt"));
    texts.sort();
    texts.iter().map(|path| build(path)).collect()
}

fn build(text: &Path) -> io::Result<Problem> {
    let built = Command::new(here().join("../tools/rule"))
        .arg("build")
        .arg(text)
        .output()?;
    if !built.status.success() {
        let message = String::from_utf8_lossy(&built.stderr).into_owned();
        return Err(io::Error::other(message));
    }
    let name = text
        .file_stem()
        .expect("a text has a name")
        .to_string_lossy()
        .into_owned();
    Ok(Problem {
        name,
        file: built.stdout,
    })
}

/// A stored search: the rule file, the words of the work slice and the bytes of the list slice.
pub struct Stored {
    pub file: Vec<u8>,
    pub words: usize,
    pub room: usize,
}

/// The stored searches; tests/make_searches.py says how they stand in their file.
pub fn stored() -> io::Result<Vec<Stored>> {
    let bytes = fs::read(here().join("../crates/search_vectors/stdin"))?;
    let mut rest = &bytes[..];
    let mut cases = vec![];
    while !rest.is_empty() {
        let size = number(&mut rest, 2);
        let file = rest[..size].to_vec();
        rest = &rest[size..];
        let (words, room) = (number(&mut rest, 3), number(&mut rest, 3));
        cases.push(Stored { file, words, room });
    }
    Ok(cases)
}

/// A number of so many bytes, low byte first.
fn number(rest: &mut &[u8], size: usize) -> usize {
    let (bytes, behind) = rest.split_at(size);
    *rest = behind;
    bytes
        .iter()
        .rev()
        .fold(0, |number, byte| number * 256 + *byte as usize)
}

/// The step limit of a rule file: its last two bytes.
pub fn steps_of(file: &[u8]) -> usize {
    file[file.len() - 2] as usize + 256 * file[file.len() - 1] as usize
}

/// The depth of a rule file: the byte before them.
pub fn depth_of(file: &[u8]) -> usize {
    file[file.len() - 3] as usize
}

/// The rule file with another depth.
pub fn with_depth(file: &[u8], depth: u8) -> Vec<u8> {
    let mut changed = file.to_vec();
    changed[file.len() - 3] = depth;
    changed
}

/// The bytes of GO.
const GO: usize = 7;

/// The rule file with a record NA that names the type of the source's first parameter, unless it has one.
pub fn with_names(file: &[u8]) -> Vec<u8> {
    let program = Program::read(file);
    if program.names.is_some() {
        return file.to_vec();
    }
    let named = program.parameters()[0] as u8;
    let (records, go) = file.split_at(file.len() - GO);
    [records, b"NA", &[named], go].concat()
}

/// The rule file with unused functions added behind the others, as many as `count` says. It has no record NA, and type 0 is the numbers.
pub fn with_unused(file: &[u8], count: usize) -> Vec<u8> {
    let mut body = vec![];
    push_unused_body(&mut body, 7);
    let mut function = b"FN\x01\x00\x00".to_vec();
    function.extend_from_slice(&(body.len() as u16).to_le_bytes());
    function.extend_from_slice(&body);
    let (records, go) = file.split_at(file.len() - GO);
    [records, &function.repeat(count), go].concat()
}

/// A body that is a tree of cases on a number, of so many levels.
fn push_unused_body(body: &mut Vec<u8>, levels: usize) {
    if levels == 0 {
        body.extend_from_slice(&[0, 0]);
        return;
    }
    body.extend_from_slice(&[3, 0, 0, 0, 1]);
    push_unused_body(body, levels - 1);
    body.push(1);
    push_unused_body(body, levels - 1);
}
