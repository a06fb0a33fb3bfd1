//! Prints the benchmark's tables. README.md says what they show.
use bench::blind::Counts;
use bench::closed::{longest_run, run, ClosedRun};
use bench::compare::{
    compare_names, compare_problem, compare_run, compare_runs, compare_stored, compare_text,
    library_list,
};
use bench::long::LongList;
use bench::measure::{measure, measure_names, measure_runs, measure_texts, Times, ROUNDS};
use bench::problems::{
    depth_of, problems, steps_of, stored, with_depth, with_names, with_unused, Problem,
};
use bench::program::Program;
use bench::search::search;
use bench::text::text_length;
use remburai::{Verdict, LIST_LIMIT};
use std::process::exit;

/// The most closed inputs that a blind enumeration runs.
const MOST_INPUTS: u64 = 20_000;

/// The most closed inputs of a problem on which the runs are compared.
const MOST_COMPARED: u64 = 500;

/// The problem whose depth and whose file size are changed, the depths, the depth for the sizes, and the numbers of unused functions.
const GROWING: &str = "member";
const DEPTHS: [u8; 4] = [2, 3, 4, 5];
const DEPTH_FOR_SIZES: u8 = 4;
const UNUSED: [usize; 5] = [0, 2, 4, 8, 15];

/// The problem whose names are measured, and the depths.
const NAMED: &str = "names";
const NAME_DEPTHS: [u8; 3] = [3, 4, 5];

fn main() {
    let problems = problems().unwrap_or_else(|error| stop(&error.to_string()));
    compare_lists(&problems);
    let runs = closed_runs(&problems);
    let lists = long_lists(&problems);
    let named = named_files(file_of(&problems, NAMED));
    println!("Times: medians of {ROUNDS} interleaved rounds; at most {MOST_INPUTS} closed inputs are run.\n");
    print_problems(&problems);
    let growing = file_of(&problems, GROWING);
    print_depths(growing);
    let largest = print_sizes(growing);
    print_runs(&runs);
    print_largest(&largest);
    print_texts(&lists);
    print_names(&named);
}

/// The rule file of a problem.
fn file_of<'p>(problems: &'p [Problem], name: &str) -> &'p [u8] {
    let problem = problems.iter().find(|problem| problem.name == name);
    &problem
        .unwrap_or_else(|| stop(&format!("the problem {name} is missing")))
        .file
}

fn stop(why: &str) -> ! {
    eprintln!("bench: {why}");
    exit(1)
}

/// Compares the lists first: without equal lists there are no times.
fn compare_lists(problems: &[Problem]) {
    for problem in problems {
        compare_problem(problem, MOST_INPUTS).unwrap_or_else(|why| stop(&why));
    }
    let cases = stored().unwrap_or_else(|error| stop(&error.to_string()));
    let compared = cases
        .iter()
        .filter(|case| compare_stored(case).unwrap_or_else(|why| stop(&why)));
    let (problems, stored) = (problems.len(), compared.count());
    println!("Equal lists: {problems} problems and {stored} stored searches.");
}

/// The long lists to be measured, their texts compared too.
fn long_lists(problems: &[Problem]) -> Vec<LongList<'_>> {
    let mut lists = vec![];
    for problem in problems {
        let list = LongList::of(problem).unwrap_or_else(|error| stop(&error.to_string()));
        lists.extend(list);
    }
    for LongList { problem, list } in &lists {
        match compare_text(&problem.file, list, false) {
            Ok(true) => {}
            Ok(false) => stop("a long list does not fit"),
            Err(why) => stop(&why),
        }
    }
    println!("Equal texts: {} long lists.", lists.len());
    lists
}

/// A rule file with a record NA, and the text of its names.
struct Named {
    file: Vec<u8>,
    text: Vec<u8>,
}

/// The rule files whose names are to be measured, their names compared too.
fn named_files(file: &[u8]) -> Vec<Named> {
    let named = NAME_DEPTHS.map(|depth| {
        let file = with_names(&with_depth(file, depth));
        let text = compare_names(&file, LIST_LIMIT).unwrap_or_else(|why| stop(&why));
        Named { file, text }
    });
    println!("Equal names: {} rule files.", named.len());
    named.into()
}

/// The closed runs to be measured, compared too: without equal runs there are no times.
fn closed_runs(problems: &[Problem]) -> Vec<ClosedRun<'_>> {
    let runs: Vec<ClosedRun> = problems
        .iter()
        .filter_map(|problem| longest_run(problem, MOST_INPUTS))
        .collect();
    let inputs: u64 = runs.iter().map(compared_inputs).sum();
    let problems = runs.len();
    println!("Equal closed runs: {inputs} inputs of {problems} problems.");
    runs
}

/// Compares the closed run that is measured and a sample of the same problem. The result is the number of inputs in the sample.
fn compared_inputs(closed: &ClosedRun) -> u64 {
    let file = &closed.problem.file;
    match compare_run(file, &closed.input) {
        Ok(true) => compare_runs(file, MOST_COMPARED).unwrap_or_else(|why| stop(&why)),
        Ok(false) => stop("the input of a closed run does not fit"),
        Err(why) => stop(&why),
    }
}

fn print_problems(problems: &[Problem]) {
    let files: Vec<&[u8]> = problems.iter().map(|problem| &problem.file[..]).collect();
    let times = measure(&files, MOST_INPUTS);
    println!("| Problem | Bytes | D | S | Verdict | Entries | Steps in all | Library, ms | Plain, ms | Library / plain | Library, steps a second |");
    println!("|---|--:|--:|--:|---|--:|--:|--:|--:|--:|--:|");
    for (problem, times) in problems.iter().zip(&times) {
        let file = &problem.file;
        let (depth, steps) = (depth_of(file), steps_of(file));
        println!(
            "| {} | {} | {depth} | {steps} | {}",
            problem.name,
            file.len(),
            search_columns(file, times)
        );
    }
    println!("\n| Problem | Closed inputs | Run | Blind, ms | Blind, all inputs, ms | Blind / library | Blind / plain |");
    println!("|---|--:|--:|--:|--:|--:|--:|");
    for (problem, times) in problems.iter().zip(&times) {
        println!(
            "| {} | {}",
            problem.name,
            blind_columns(&problem.file, times)
        );
    }
    println!("\n`~`: not measured, but reckoned from the inputs that were run, as if all others took as long on average.\n");
}

/// Verdict, entries, steps and times of a search.
fn search_columns(file: &[u8], times: &Times) -> String {
    let (list, verdict) = library_list(file).unwrap_or_else(|error| stop(&error.to_string()));
    let searched = search(file);
    if searched.list != list {
        stop("the plain list is another");
    }
    format!(
        "{} | {} | {} | {}",
        word(verdict),
        remburai::entries(&list).count(),
        searched.moves,
        time_columns(searched.moves, times),
    )
}

/// The times of the library and of the plain side, their ratio, and the library's steps a second.
fn time_columns(steps: u64, times: &Times) -> String {
    format!(
        "{:.3} | {:.3} | {:.2} | {:.1} million |",
        times.library * 1e3,
        times.plain * 1e3,
        times.library / times.plain,
        steps as f64 / times.library / 1e6,
    )
}

fn word(verdict: Verdict) -> &'static str {
    match verdict {
        Verdict::Found => "found",
        Verdict::Undecided => "undecided",
        Verdict::None => "none",
    }
}

/// The closed inputs and the times of their enumeration.
fn blind_columns(file: &[u8], times: &Times) -> String {
    let inputs = Counts::of(&Program::read(file)).inputs;
    let Some(blind) = times.blind else {
        return "over 1e19 | 0 | | | | |".to_string();
    };
    let run = inputs.min(MOST_INPUTS);
    let all = blind * inputs as f64 / run as f64;
    let sign = if run < inputs { "~" } else { "" };
    format!(
        "{inputs} | {run} | {:.1} | {sign}{} | {sign}{} | {sign}{} |",
        blind * 1e3,
        short(all * 1e3),
        short(all / times.library),
        short(all / times.plain),
    )
}

/// A number with as many places as are of use.
fn short(number: f64) -> String {
    if number < 10.0 {
        format!("{number:.2}")
    } else {
        format!("{number:.0}")
    }
}

/// How the cost grows with the depth.
fn print_depths(file: &[u8]) {
    let files = DEPTHS.map(|depth| with_depth(file, depth));
    let times = measure(&files.each_ref().map(|file| &file[..]), 0);
    println!("| {GROWING}, D | Closed inputs | Verdict | Entries | Steps in all | Library, ms | Plain, ms | Library / plain | Library, steps a second |");
    println!("|--:|--:|---|--:|--:|--:|--:|--:|--:|");
    for (file, times) in files.iter().zip(&times) {
        let inputs = Counts::of(&Program::read(file)).inputs;
        println!(
            "| {} | {inputs} | {}",
            depth_of(file),
            search_columns(file, times)
        );
    }
    println!();
}

/// A rule file's bytes and the seconds of its check.
struct Checked {
    bytes: usize,
    check: f64,
}

/// How the cost grows with the file, by functions that are not used. The result is the check of the last file, the largest.
fn print_sizes(file: &[u8]) -> Checked {
    let file = with_depth(file, DEPTH_FOR_SIZES);
    let files = UNUSED.map(|unused| with_unused(&file, unused));
    let times = measure(&files.each_ref().map(|file| &file[..]), 0);
    println!("| {GROWING}, D {DEPTH_FOR_SIZES}, bytes | Unused functions | Check alone, ms | Verdict | Entries | Steps in all | Library, ms | Plain, ms | Library / plain | Library, steps a second |");
    println!("|--:|--:|--:|---|--:|--:|--:|--:|--:|--:|");
    for ((file, times), unused) in files.iter().zip(&times).zip(UNUSED) {
        let check = times.check * 1e3;
        println!(
            "| {} | {unused} | {check:.3} | {}",
            file.len(),
            search_columns(file, times)
        );
    }
    println!();
    let last = files.len() - 1;
    Checked {
        bytes: files[last].len(),
        check: times[last].check,
    }
}

/// One closed run of each problem.
fn print_runs(runs: &[ClosedRun]) {
    let times = measure_runs(runs);
    println!("| Closed run | Bytes | S | Steps | Check alone, ms | Library, ms | Plain, ms | Library / plain | Library, steps a second |");
    println!("|---|--:|--:|--:|--:|--:|--:|--:|--:|");
    for (ClosedRun { problem, input }, times) in runs.iter().zip(&times) {
        let file = &problem.file;
        let steps = run(file, input).expect("it fits").steps;
        println!(
            "| {} | {} | {} | {steps} | {:.3} | {}",
            problem.name,
            file.len(),
            steps_of(file),
            times.check * 1e3,
            time_columns(steps as u64, times)
        );
    }
}

/// The text of a long list: its length, and its writing.
fn print_texts(lists: &[LongList]) {
    println!("\n| Text of a long list | Bytes of the list | Entries | Bytes of the text | Length, library, ns a byte | Length, plain, ns a byte | Library / plain | Writing, library, ns a byte | Writing, plain, ns a byte | Library / plain |");
    println!("|---|--:|--:|--:|--:|--:|--:|--:|--:|--:|");
    for (LongList { problem, list }, [length, writing]) in lists.iter().zip(measure_texts(lists)) {
        let bytes = list.len();
        println!(
            "| {} | {bytes} | {} | {} | {} | {} |",
            problem.name,
            remburai::entries(list).count(),
            text_length(&problem.file, list, false).expect("it fits"),
            byte_columns(bytes, &length),
            byte_columns(bytes, &writing),
        );
    }
}

/// The names in the lists of a rule file at several depths: the search, and their text.
fn print_names(named: &[Named]) {
    println!("\n| Names of {NAMED}, D | Names | Bytes of the text | Library, ms | Plain, ms | Library / plain |");
    println!("|--:|--:|--:|--:|--:|--:|");
    let files: Vec<&[u8]> = named.iter().map(|named| &named.file[..]).collect();
    for (Named { file, text }, times) in named.iter().zip(measure_names(&files)) {
        println!(
            "| {} | {} | {} | {:.3} | {:.3} | {:.2} |",
            depth_of(file),
            text.iter().filter(|byte| **byte == b'\n').count(),
            text.len(),
            times.library * 1e3,
            times.plain * 1e3,
            times.library / times.plain
        );
    }
}

/// Nanoseconds for each byte of a list, of the library and of the plain side, and their ratio.
fn byte_columns(bytes: usize, times: &Times) -> String {
    let each = |seconds: f64| seconds * 1e9 / bytes as f64;
    format!(
        "{:.2} | {:.2} | {:.2}",
        each(times.library),
        each(times.plain),
        times.library / times.plain
    )
}

fn print_largest(largest: &Checked) {
    println!(
        "\nThe largest rule file of these tables has {} bytes; its check alone takes {:.3} ms.",
        largest.bytes,
        largest.check * 1e3
    );
}
