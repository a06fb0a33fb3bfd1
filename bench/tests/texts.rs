//! The plain text of a list against the library's. The stored searches are compared with their lists.
use bench::compare::{compare_text, library_list};
use bench::long::LongList;
use bench::problems::problems;
use remburai::LIST_LIMIT;

#[test]
fn texts_of_problems_against_an_independent_implementation() {
    for problem in problems().unwrap() {
        let (list, _) = library_list(&problem.file).unwrap();
        for full in [false, true] {
            assert_eq!(compare_text(&problem.file, &list, full), Ok(true));
        }
    }
}

/// The list of each problem with each other problem's rule file: some fit, most do not.
#[test]
fn lists_of_other_problems_against_an_independent_implementation() {
    let problems = problems().unwrap();
    let (mut fitting, mut compared) = (0, 0);
    for problem in &problems {
        let (list, _) = library_list(&problem.file).unwrap();
        let others = problems.iter().filter(|other| other.name != problem.name);
        for other in others.filter(|_| !list.is_empty()) {
            fitting += compare_text(&other.file, &list, false).unwrap() as usize;
            compared += 1;
        }
    }
    let some = 5 <= fitting && 2 * fitting < compared;
    assert!(some, "{fitting} of {compared} lists fit");
}

/// The list of a problem as often as it fits the limit, and once more.
#[test]
fn long_lists() {
    let problems = problems().unwrap();
    let lists: Vec<LongList> = problems
        .iter()
        .filter_map(|problem| LongList::of(problem).unwrap())
        .collect();
    assert!(5 <= lists.len());
    for LongList { problem, list } in &lists {
        let (once, _) = library_list(&problem.file).unwrap();
        assert!(list.len() <= LIST_LIMIT && LIST_LIMIT < list.len() + once.len());
        assert_eq!(compare_text(&problem.file, list, false), Ok(true));
        let longer = [&list[..], &once].concat();
        assert_eq!(compare_text(&problem.file, &longer, false), Ok(false));
    }
}
