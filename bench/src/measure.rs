//! Times of the library, the plain side and the blind enumeration, in interleaved rounds.
use crate::blind::{enumerate, Counts};
use crate::closed::{run, ClosedRun};
use crate::long::LongList;
use crate::names::write_names;
use crate::problems::steps_of;
use crate::program::Program;
use crate::search::search;
use crate::text::{text_length, write_text};
use remburai::{text_bound, work_words, Ran, LIST_LIMIT, STEP_LIMIT};
use std::hint::black_box;
use std::time::Instant;

/// Rounds; each time is the median of them.
pub const ROUNDS: usize = 7;

/// The seconds that one measurement takes at least, by repetition of the call.
const LEAST_SECONDS: f64 = 0.02;

/// The seconds of one call of each kind.
#[derive(Clone, Copy)]
pub struct Times {
    pub library: f64,
    pub check: f64,
    pub plain: f64,
    pub blind: Option<f64>,
}

/// The library, with slices that are long enough for every rule file.
struct Library {
    work: Vec<u32>,
    list: Vec<u8>,
}

impl Library {
    fn new() -> Library {
        Library {
            work: vec![1; work_words(STEP_LIMIT)],
            list: vec![1; LIST_LIMIT],
        }
    }

    fn search(&mut self, file: &[u8]) -> usize {
        let words = work_words(steps_of(file));
        let listed = remburai::search(file, &mut self.work[..words], &mut self.list);
        listed
            .expect("an accepted rule file whose list fits")
            .length
    }

    fn names(&mut self, file: &[u8], text: &mut [u8]) -> usize {
        let words = work_words(steps_of(file));
        remburai::names(file, &mut self.work[..words], &mut self.list, text)
    }

    fn run(&mut self, file: &[u8], input: &[u8]) -> Ran {
        let words = work_words(steps_of(file));
        let ran = remburai::run(file, input, &mut self.work[..words]);
        ran.expect("an accepted rule file and an input that fits it")
    }
}

/// A rule file with what the measurements of it need.
struct Subject<'f> {
    file: &'f [u8],
    program: Program,
    counts: Counts,
    times: u32,
}

/// Measures rule files: in each round every file, and for each file the library, its check alone, the plain search and the blind
/// enumeration of at most `most_inputs` closed inputs, none where there are too many to be counted or `most_inputs` is 0.
pub fn measure(files: &[&[u8]], most_inputs: u64) -> Vec<Times> {
    let mut library = Library::new();
    let subjects: Vec<Subject> = files
        .iter()
        .map(|file| subject(file, &mut library))
        .collect();
    interleaved(&subjects, |subject| {
        one_round(subject, &mut library, most_inputs)
    })
}

/// Measures closed runs: in each round every one, and for each the library, its check alone and the plain run.
pub fn measure_runs(runs: &[ClosedRun]) -> Vec<Times> {
    let mut library = Library::new();
    let mut repeated = vec![];
    for closed in runs {
        let times = repetitions(|| library.run(&closed.problem.file, &closed.input));
        repeated.push((closed, times));
    }
    interleaved(&repeated, |(closed, times)| {
        one_round_of_run(closed, *times, &mut library)
    })
}

/// Measures the names of rule files: in each round every file, and for each the library, its check alone and the plain side.
pub fn measure_names(files: &[&[u8]]) -> Vec<Times> {
    let mut library = Library::new();
    let mut text = vec![1; text_bound(LIST_LIMIT)];
    let mut plain = vec![];
    let mut repeated = vec![];
    for file in files {
        let times = repetitions(|| library.names(file, &mut text));
        repeated.push((file, times));
    }
    interleaved(&repeated, |(file, times)| Times {
        library: seconds(*times, || library.names(file, &mut text)),
        check: seconds(*times, || remburai::check(file)),
        plain: seconds(*times, || write_names(file, &mut plain)),
        blind: None,
    })
}

/// The text slices of the library and of the plain side, each of which holds every text.
struct Slices {
    library: Vec<u8>,
    plain: Vec<u8>,
}

/// Measures long lists: in each round every one, and for each the length of its text, then the text, by the library, its check alone, and
/// plainly.
pub fn measure_texts(lists: &[LongList]) -> Vec<[Times; 2]> {
    let most = text_bound(LIST_LIMIT);
    let mut slices = Slices {
        library: vec![1; most],
        plain: Vec::with_capacity(most),
    };
    let calls: Vec<(&LongList, bool)> = lists
        .iter()
        .flat_map(|list| [(list, false), (list, true)])
        .collect();
    let times = interleaved(&calls, |(list, writing)| match writing {
        true => one_round_of_text(list, &mut slices),
        false => one_round_of_length(list),
    });
    times.chunks(2).map(|pair| [pair[0], pair[1]]).collect()
}

fn one_round_of_length(long: &LongList) -> Times {
    let (file, list) = (&long.problem.file, &long.list);
    Times {
        library: seconds(1, || remburai::text_length(file, list, false)),
        check: seconds(1, || remburai::check(file)),
        plain: seconds(1, || text_length(file, list, false)),
        blind: None,
    }
}

fn one_round_of_text(long: &LongList, slices: &mut Slices) -> Times {
    let (file, list) = (&long.problem.file, &long.list);
    Times {
        library: seconds(1, || {
            remburai::write_text(file, list, false, &mut slices.library)
        }),
        check: seconds(1, || remburai::check(file)),
        plain: seconds(1, || write_text(file, list, false, &mut slices.plain)),
        blind: None,
    }
}

/// Measures every subject once in each round. The results are the medians of each.
fn interleaved<S>(subjects: &[S], mut one_round: impl FnMut(&S) -> Times) -> Vec<Times> {
    let mut rounds = vec![vec![]; subjects.len()];
    for _ in 0..ROUNDS {
        for (subject, times) in subjects.iter().zip(&mut rounds) {
            times.push(one_round(subject));
        }
    }
    rounds.iter().map(|times| medians(times)).collect()
}

fn subject<'f>(file: &'f [u8], library: &mut Library) -> Subject<'f> {
    let program = Program::read(file);
    let counts = Counts::of(&program);
    Subject {
        file,
        program,
        counts,
        times: repetitions(|| library.search(file)),
    }
}

/// How often a call is repeated in one measurement.
fn repetitions<T>(call: impl FnMut() -> T) -> u32 {
    (LEAST_SECONDS / seconds(1, call)).ceil().clamp(1.0, 1e6) as u32
}

fn one_round(subject: &Subject, library: &mut Library, most_inputs: u64) -> Times {
    let Subject {
        file,
        program,
        counts,
        times,
    } = subject;
    let blind = most_inputs != 0 && counts.countable();
    Times {
        library: seconds(*times, || library.search(file)),
        check: seconds(*times, || remburai::check(file)),
        plain: seconds(*times, || search(file)),
        blind: blind.then(|| seconds(1, || enumerate(program, counts, most_inputs))),
    }
}

fn one_round_of_run(closed: &ClosedRun, times: u32, library: &mut Library) -> Times {
    let (file, input) = (&closed.problem.file, &closed.input);
    Times {
        library: seconds(times, || library.run(file, input)),
        check: seconds(times, || remburai::check(file)),
        plain: seconds(times, || run(file, input)),
        blind: None,
    }
}

/// Seconds of one call, as the mean of so many.
fn seconds<T>(times: u32, mut call: impl FnMut() -> T) -> f64 {
    let begun = Instant::now();
    for _ in 0..times {
        black_box(call());
    }
    begun.elapsed().as_secs_f64() / times as f64
}

fn medians(rounds: &[Times]) -> Times {
    let of = |kind: fn(&Times) -> Option<f64>| median(rounds.iter().filter_map(kind).collect());
    Times {
        library: of(|times| Some(times.library)).expect("measured in each round"),
        check: of(|times| Some(times.check)).expect("measured in each round"),
        plain: of(|times| Some(times.plain)).expect("measured in each round"),
        blind: of(|times| times.blind),
    }
}

/// The middle one of the numbers, if there are any.
fn median(mut numbers: Vec<f64>) -> Option<f64> {
    numbers.sort_by(f64::total_cmp);
    numbers.get(numbers.len() / 2).copied()
}
