//! The text of lists that searches have written: those of tests/reachlist, with what `reachlist` prints, those of examples, and the stored
//! searches of crates/search_vectors, also damaged.
use crate::printing::printed;
use crate::reading::{text_of, Types};
use remburai::*;
use std::fs;
use std::path::PathBuf;

/// The buffers of `reachlist`.
const WORDS: usize = 16_384;
const BYTES: usize = 32_768;

fn path(name: &str) -> PathBuf {
    PathBuf::from(env!("CARGO_MANIFEST_DIR"))
        .join("..")
        .join(name)
}

/// The rule files of a folder.
fn rules(folder: &str) -> Vec<PathBuf> {
    let found = fs::read_dir(path(folder)).expect("a folder");
    let paths = found.map(|entry| entry.expect("an entry").path());
    paths
        .filter(|path| path.extension().is_some_and(|end| end == "rule"))
        .collect()
}

/// A list that a search has written, and whether it is cut short.
struct List {
    bytes: Vec<u8>,
    full: bool,
}

impl List {
    fn of(file: &[u8], words: usize, room: usize) -> Result<List, Refusal> {
        let (mut work, mut bytes) = (vec![0; words], vec![0; room]);
        let (length, full) = match search(file, &mut work, &mut bytes) {
            Ok(listed) => (listed.length, false),
            Err(SearchError::Full { length }) => (length, true),
            Err(SearchError::Refused(why)) => return Err(why),
        };
        bytes.truncate(length);
        Ok(List { bytes, full })
    }
}

/// What `reachlist` prints: the text of the list, or the refusal of its search. The calls have the refusals of the file, and no 11.
#[test]
fn texts_of_reachlist() {
    let paths = rules("tests/reachlist");
    assert!(40 < paths.len());
    let mut cut = 0;
    for path in paths {
        let file = fs::read(&path).expect("a rule file");
        let stored = fs::read_to_string(path.with_extension("out")).expect("a stored text");
        match List::of(&file, WORDS, BYTES) {
            Ok(list) => {
                cut += list.full as usize;
                assert_eq!(
                    text_of(&file, &list.bytes, list.full),
                    Ok(stored),
                    "{path:?}"
                );
            }
            Err(why) => {
                assert_eq!(stored, format!("refused {}\n", why.number()), "{path:?}");
                let text = match why {
                    Refusal::WorkTooShort => Ok(printed(b"", false)),
                    _ => Err(why),
                };
                assert_eq!(text_of(&file, b"", false), text, "{path:?}");
            }
        }
    }
    assert!(2 < cut);
}

#[test]
fn texts_of_examples() {
    let paths = rules("examples");
    assert!(5 < paths.len());
    for path in paths {
        let file = fs::read(&path).expect("a rule file");
        for room in [LIST_LIMIT, 100] {
            let list = List::of(&file, work_words(STEP_LIMIT), room).expect("a list");
            let text = text_of(&file, &list.bytes, list.full);
            assert_eq!(text, Ok(printed(&list.bytes, list.full)), "{path:?}");
        }
    }
}

/// The stored searches that have a list, and its rule file; tests/make_searches.py says how they stand in their file.
fn searches() -> Vec<(Vec<u8>, List)> {
    let bytes = fs::read(path("crates/search_vectors/stdin")).expect("the stored searches");
    let mut rest = &bytes[..];
    let number = |size: usize, rest: &mut &[u8]| {
        let (front, behind) = rest.split_at(size);
        *rest = behind;
        front
            .iter()
            .rev()
            .fold(0, |n, byte| n * 256 + *byte as usize)
    };
    let mut found = vec![];
    while !rest.is_empty() {
        let size = number(2, &mut rest);
        let (file, behind) = rest.split_at(size);
        rest = behind;
        let (words, room) = (number(3, &mut rest), number(3, &mut rest));
        if let Ok(list) = List::of(file, words, room) {
            found.push((file.to_vec(), list));
        }
    }
    found
}

/// What a search has written always has a text, complete or cut short.
#[test]
fn texts_of_stored_searches() {
    let searches = searches();
    assert!(2500 < searches.len());
    assert!(100 < searches.iter().filter(|(_, list)| list.full).count());
    for (file, list) in &searches {
        let text = text_of(file, &list.bytes, list.full);
        assert_eq!(text, Ok(printed(&list.bytes, list.full)), "{file:02x?}");
    }
}

/// Numbers that look random (xorshift).
struct Random(u64);

impl Random {
    fn below(&mut self, limit: usize) -> usize {
        self.0 ^= self.0 << 13;
        self.0 ^= self.0 >> 7;
        self.0 ^= self.0 << 17;
        (self.0 >> 20) as usize % limit
    }
}

/// Lists with one or two bytes changed, or cut off: they have a text where they still fit, and that one.
#[test]
fn damaged_lists() {
    let mut random = Random(11);
    let mut seen = [0, 0];
    for (file, list) in searches().iter().filter(|(_, list)| !list.bytes.is_empty()) {
        let types = Types::of(file);
        for _ in 0..20 {
            let mut bytes = list.bytes.clone();
            for _ in 0..1 + random.below(2) {
                let at = random.below(bytes.len());
                bytes[at] = [0, 1, 2, 3, 4, 255][random.below(6)];
            }
            if random.below(8) == 0 {
                bytes.truncate(random.below(bytes.len()));
            }
            let fits = types.fit(&bytes);
            seen[fits as usize] += 1;
            assert!(!fits || entries(&bytes).all(|entry| types.has_parts(&entry)));
            let text = fits
                .then(|| printed(&bytes, list.full))
                .ok_or(Refusal::BadList);
            assert_eq!(
                text_of(file, &bytes, list.full),
                text,
                "{file:02x?} {bytes:02x?}"
            );
        }
    }
    assert!(seen.iter().all(|count| 5000 < *count), "{seen:?}");
}
