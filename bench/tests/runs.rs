//! Closed runs of the plain evaluator against the library, input by input.
use bench::blind::{sample, Counts};
use bench::closed::{input_bytes, longest_run, run};
use bench::compare::{compare_run, compare_runs};
use bench::problems::{depth_of, problems, stored, with_depth};
use bench::program::Program;

#[test]
fn runs_of_problems_against_an_independent_implementation() {
    let compared: u64 = problems()
        .unwrap()
        .iter()
        .map(|problem| compare_runs(&problem.file, 500).unwrap())
        .sum();
    assert!(3_000 <= compared, "{compared} inputs were compared");
}

#[test]
fn runs_of_stored_files_against_an_independent_implementation() {
    let compared: u64 = stored()
        .unwrap()
        .iter()
        .filter(|case| remburai::check(&case.file).is_ok())
        .map(|case| compare_runs(&case.file, 5).unwrap())
        .sum();
    assert!(3_000 <= compared, "{compared} inputs were compared");
}

/// The inputs of a sample.
fn inputs(file: &[u8], most: u64) -> Vec<Vec<u8>> {
    let program = Program::read(file);
    let counts = Counts::of(&program);
    let ranks = sample(&counts, most).filter(|_| counts.countable());
    ranks
        .map(|rank| input_bytes(&program, &counts, rank))
        .collect()
}

/// An input with something behind it, cut off, and with another byte, at up to eight places.
fn changed(input: &[u8]) -> Vec<Vec<u8>> {
    let mut all = vec![[input, &[0]].concat(), [input, &[1; 100]].concat()];
    for at in (0..input.len()).step_by(input.len() / 8 + 1) {
        all.push(input[..at].to_vec());
        for byte in [0, 1, 2, 255] {
            let mut other = input.to_vec();
            other[at] = byte;
            all.push(other);
        }
    }
    all
}

/// Inputs that are changed, or are run at a smaller depth: some fit, many do not.
#[test]
fn changed_inputs_against_an_independent_implementation() {
    let (mut fitting, mut compared) = (0, 0);
    let mut see = |file: &[u8], input: &[u8]| {
        fitting += compare_run(file, input).unwrap() as usize;
        compared += 1;
    };
    let files = stored().unwrap().into_iter().map(|case| case.file);
    for file in files.filter(|file| remburai::check(file).is_ok()) {
        for input in inputs(&file, 3) {
            changed(&input).iter().for_each(|input| see(&file, input));
            let shallower = (1..depth_of(&file)).map(|depth| with_depth(&file, depth as u8));
            shallower
                .filter(|file| remburai::check(file).is_ok())
                .for_each(|file| see(&file, &input));
        }
    }
    let some = 20_000 <= fitting && 20_000 <= compared - fitting;
    assert!(some, "{fitting} of {compared} inputs fit");
}

/// A rule that walks a number down, with the depths that it may have; and numbers of all depths, also a million deep.
#[test]
fn depths_against_an_independent_implementation() {
    let body = b"\x03\x00\x00\x01\x01\x05\x07\x02\x00\x00\x01\x01\x00\x00\x00\x00\x02";
    let mut file = b"TY\x02\x00\x01\x00FN\x02\x00\x00\x00\x11\x00".to_vec();
    file.extend(body);
    file.extend(b"GO\x00\x07\x40\x00\x10");
    for most in [1, 2, 5, 63, 64] {
        let file = with_depth(&file, most as u8);
        for deep in (1..=70).chain([1_000, 1_000_000]) {
            let number = [vec![1; deep - 1], vec![0]].concat();
            for input in [[&number[..], &[0]].concat(), [&[0], &number[..]].concat()] {
                assert_eq!(compare_run(&file, &input), Ok(deep <= most), "{deep}");
            }
        }
    }
}

/// The longest run of a sample is compared too, and is the first with its steps; none takes more.
#[test]
fn longest_runs() {
    let mut compared = 0;
    for problem in &problems().unwrap() {
        let Some(longest) = longest_run(problem, 500) else {
            continue;
        };
        assert_eq!(compare_run(&problem.file, &longest.input), Ok(true));
        let inputs = inputs(&problem.file, 500);
        let steps = |input: &Vec<u8>| run(&problem.file, input).unwrap().steps;
        let most = inputs.iter().map(steps).max();
        let first = inputs.iter().find(|input| Some(steps(input)) == most);
        assert_eq!(first, Some(&longest.input), "{}", problem.name);
        compared += 1;
    }
    assert!(8 <= compared, "{compared} runs were compared");
}
