//! The plain names of a rule file against the library's.
use bench::compare::compare_names;
use bench::problems::{problems, stored, with_depth, with_names};

/// The problem with names, at several depths and with lists that are cut short.
#[test]
fn names_of_a_problem_against_an_independent_implementation() {
    let problems = problems().unwrap();
    let problem = problems.iter().find(|problem| problem.name == "names");
    let file = with_names(&problem.expect("the problem with names").file);
    for (depth, lines) in [(2, 0), (3, 8), (4, 504)] {
        for room in [1 << 20, 100, 16, 0] {
            let text = compare_names(&with_depth(&file, depth), room).unwrap();
            let cut = text.ends_with(b"refused 12\n");
            assert_eq!(cut, lines != 0 && room < 1 << 20, "{depth} {room}");
            assert!(cut || text.iter().filter(|byte| **byte == b'\n').count() == lines);
        }
    }
}

/// The stored searches in their list slices, with names where they have a record NA.
#[test]
fn stored_files_against_an_independent_implementation() {
    let mut compared = 0;
    for case in stored().unwrap() {
        if remburai::check(&case.file).is_ok() {
            compare_names(&case.file, case.room).unwrap();
            compared += 1;
        }
    }
    assert!(1_000 <= compared, "{compared} files were compared");
}
