//! The plain search against the library, list by list.
use bench::compare::{compare_problem, compare_stored, library_list};
use bench::problems::{problems, stored};
use bench::program::Program;
use bench::search::{search, search_within};
use remburai::{entries, Kind};
use std::collections::HashMap;

#[test]
fn problems_against_an_independent_implementation() {
    let problems = problems().unwrap();
    assert!(8 <= problems.len());
    let enumerated = problems
        .iter()
        .filter(|problem| compare_problem(problem, 20_000).unwrap())
        .count();
    assert!(5 <= enumerated, "{enumerated} problems were enumerated");
}

#[test]
fn stored_files_against_an_independent_implementation() {
    let mut listed = 0;
    for case in stored().unwrap() {
        if compare_stored(&case).unwrap() {
            listed += 1;
        }
    }
    assert!(1_000 <= listed, "{listed} cases have a list");
}

/// The stored files have entries of every kind, so that each is compared.
#[test]
fn kinds_of_entries() {
    let mut counts: HashMap<Kind, usize> = HashMap::new();
    for case in stored().unwrap() {
        if remburai::check(&case.file).is_err() {
            continue;
        }
        for entry in entries(&search(&case.file).list) {
            *counts.entry(entry.kind()).or_default() += 1;
        }
    }
    for kind in [Kind::Reach, Kind::Unfinished, Kind::Missing] {
        assert!(
            counts.get(&kind).is_some_and(|count| 1_000 <= *count),
            "{counts:?}"
        );
    }
}

/// Stored rule files with one to three bytes changed at random; those that are accepted and searched in time are compared.
#[test]
fn random_files_against_an_independent_implementation() {
    let files: Vec<Vec<u8>> = stored()
        .unwrap()
        .into_iter()
        .map(|case| case.file)
        .collect();
    let files: Vec<Vec<u8>> = files
        .into_iter()
        .filter(|file| remburai::check(file).is_ok())
        .collect();
    let mut random = Random(7);
    let mut compared = 0;
    for _ in 0..40_000 {
        let file = damaged(&mut random, &files);
        if remburai::check(&file).is_err() {
            continue;
        }
        let Some(plain) = search_within(&Program::read(&file), 2_000) else {
            continue;
        };
        let (list, _) = library_list(&file).unwrap();
        assert_eq!(plain.list, list, "{file:02x?}");
        compared += 1;
    }
    assert!(3_000 <= compared, "{compared} files were compared");
}

/// Numbers that look random (xorshift).
struct Random(u64);

impl Random {
    fn below(&mut self, limit: usize) -> usize {
        self.0 ^= self.0 << 13;
        self.0 ^= self.0 >> 7;
        self.0 ^= self.0 << 17;
        (self.0 >> 20) as usize % limit
    }
}

fn damaged(random: &mut Random, files: &[Vec<u8>]) -> Vec<u8> {
    let mut file = files[random.below(files.len())].clone();
    for _ in 0..1 + random.below(3) {
        let at = random.below(file.len());
        file[at] = random.below(8) as u8;
    }
    file
}
