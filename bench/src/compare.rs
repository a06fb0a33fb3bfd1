//! Where the plain search and the library differ, and where their closed runs, their texts and their names do.
use crate::blind::{completions, enumerate, sample, Counts};
use crate::closed::{input_bytes, run, Ran};
use crate::machine::Stop;
use crate::names::write_list;
use crate::problems::{steps_of, Problem, Stored};
use crate::program::Program;
use crate::search::search;
use crate::text::{text_length, write_text};
use remburai::{text_bound, work_words, Kind, Listed, Outcome, Refusal, SearchError, Verdict};

/// The library's list of an accepted rule file, in a work slice and a list slice that are large enough.
pub fn library_list(file: &[u8]) -> Result<(Vec<u8>, Verdict), SearchError> {
    let mut work = vec![0; work_words(steps_of(file))];
    let mut list = vec![0; remburai::LIST_LIMIT];
    let Listed { length, verdict } = remburai::search(file, &mut work, &mut list)?;
    list.truncate(length);
    Ok((list, verdict))
}

/// The verdict on a complete list.
pub fn verdict_of(list: &[u8]) -> Verdict {
    let has = |kind| remburai::entries(list).any(|entry| entry.kind() == kind);
    match (has(Kind::Reach), has(Kind::Unfinished)) {
        (true, _) => Verdict::Found,
        (false, true) => Verdict::Undecided,
        (false, false) => Verdict::None,
    }
}

/// Compares the lists of a problem; where all its inputs can be run, they must be what the list says. The result is whether they were run.
pub fn compare_problem(problem: &Problem, most_inputs: u64) -> Result<bool, String> {
    let name = &problem.name;
    let (list, verdict) =
        library_list(&problem.file).map_err(|error| format!("{name}: {error}"))?;
    if search(&problem.file).list != list {
        return Err(format!("{name}: the plain list is another"));
    }
    if verdict_of(&list) != verdict {
        return Err(format!("{name}: the verdict is another"));
    }
    let program = Program::read(&problem.file);
    let counts = Counts::of(&program);
    if most_inputs < counts.inputs {
        return Ok(false);
    }
    if enumerate(&program, &counts, most_inputs) != completions(&program, &counts, &list) {
        return Err(format!(
            "{name}: the closed inputs say something else than the list"
        ));
    }
    Ok(true)
}

/// Compares the lists of a stored case, also one that is cut short, and their texts. The result is whether the case has a list.
pub fn compare_stored(case: &Stored) -> Result<bool, String> {
    let mut work = vec![0; case.words];
    let mut list = vec![0; case.room];
    let (length, verdict) = match remburai::search(&case.file, &mut work, &mut list) {
        Ok(listed) => (listed.length, Some(listed.verdict)),
        Err(SearchError::Full { length }) => (length, None),
        Err(SearchError::Refused(_)) => return Ok(false),
    };
    let plain = search(&case.file).list;
    let due = match verdict {
        Some(_) => &plain[..],
        None => &plain[..front(&plain, case.room)],
    };
    let cut = due.len() < plain.len();
    let printed = compare_text(&case.file, &list[..length], verdict.is_none())?;
    if &list[..length] != due
        || !printed
        || cut != verdict.is_none()
        || verdict.is_some_and(|given| given != verdict_of(due))
    {
        return Err(format!("the plain list is another: {:02x?}", case.file));
    }
    Ok(true)
}

/// The length of the entries at the front of a list that fit so many bytes.
fn front(list: &[u8], room: usize) -> usize {
    let mut length = 0;
    for entry in remburai::entries(list) {
        let size = entry.bytes().len();
        if room < length + size {
            break;
        }
        length += size;
    }
    length
}

/// Compares the texts of a list that is handed in with an accepted rule file, and their lengths. The result is whether the list fits it.
pub fn compare_text(file: &[u8], list: &[u8], full: bool) -> Result<bool, String> {
    let mut plain = vec![];
    let fits = write_text(file, list, full, &mut plain);
    let lengths = match fits {
        true => (Ok(plain.len()), Some(plain.len())),
        false => (Err(Refusal::BadList), None),
    };
    let library = remburai::list_text(file, list, full).map(String::into_bytes);
    if lengths
        != (
            remburai::text_length(file, list, full),
            text_length(file, list, full),
        )
        || library.unwrap_or_default() != plain
    {
        return Err(format!("the plain text is another: {file:02x?}"));
    }
    Ok(fits)
}

/// Compares the names of an accepted rule file, in a list slice of so many bytes. The result is their text.
pub fn compare_names(file: &[u8], room: usize) -> Result<Vec<u8>, String> {
    let program = Program::read(file);
    let mut list = search(file).list;
    let length = front(&list, room);
    let last = match length < list.len() {
        true => &b"refused 12\n"[..],
        false => b"",
    };
    list.truncate(length);
    let mut plain = vec![];
    write_list(&program, &list, &mut plain);
    plain.extend(last);
    let (mut work, mut slice) = (vec![0; work_words(steps_of(file))], vec![0; room]);
    let mut text = vec![0; text_bound(room)];
    let length = remburai::names(file, &mut work, &mut slice, &mut text);
    text.truncate(length);
    if length != plain.len() || text != plain {
        return Err(format!("the plain names are others: {file:02x?}"));
    }
    Ok(text)
}

/// Compares the runs of an accepted rule file on at most so many of its closed inputs, at equal distances in the enumeration. The result is
/// their number; it is 0 where the inputs are too many to be counted.
pub fn compare_runs(file: &[u8], most: u64) -> Result<u64, String> {
    let program = Program::read(file);
    let counts = Counts::of(&program);
    if !counts.countable() {
        return Ok(0);
    }
    for rank in sample(&counts, most) {
        let input = input_bytes(&program, &counts, rank);
        if !compare_run(file, &input)? {
            return Err(format!(
                "an input does not fit: {file:02x?} on {input:02x?}"
            ));
        }
    }
    Ok(counts.inputs.min(most))
}

/// Compares the runs of an accepted rule file on one closed input: outcome, steps and the depth of the input, or that the input does not fit.
/// The result is whether it fits.
pub fn compare_run(file: &[u8], input: &[u8]) -> Result<bool, String> {
    let mut work = vec![0; work_words(steps_of(file))];
    let library = remburai::run(file, input, &mut work);
    let plain = run(file, input).map(in_words).ok_or(Refusal::BadInput);
    if library != plain {
        let shown = &input[..input.len().min(1000)];
        return Err(format!(
            "the library's run is {library:?}, the plain one {plain:?}: {file:02x?} on {shown:02x?}"
        ));
    }
    Ok(plain.is_ok())
}

/// What a plain run gives, in the library's words.
fn in_words(ran: Ran) -> remburai::Ran {
    let steps = ran.steps as u16;
    let outcome = match ran.stop {
        Stop::Reached => Outcome::Reached(steps),
        Stop::Ended => Outcome::Ended(steps),
        Stop::Unfinished => Outcome::Unfinished(steps),
        Stop::Missing => Outcome::Missing(steps),
        Stop::Waits(_) => unreachable!("a closed input has no open part"),
    };
    let depth = ran.depth as u8;
    remburai::Ran { outcome, depth }
}
