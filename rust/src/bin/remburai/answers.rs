//! The answers to the six commands.
use crate::arguments::{whole, Command, Form, Request};
use crate::lines::{explain, tell, write_entries, write_refusal, write_text, write_total};
use crate::searching::{named, searched, Searched};
use crate::standard::{say, Output};
use crate::status::{fault, Status, Stop};
use crate::storing;
use crate::subject::Subject;
use crate::wording;
use remburai::{entries, entry, names_refusal, run, text_length, work_words};
use remburai::{Goal, Refusal, SearchError};
use std::ffi::OsStr;
use std::path::Path;

/// Writes the answer to a request.
pub fn answer(request: &Request, out: &mut Output) -> Result<Status, Stop> {
    let given = Subject::of(request).and_then(|subject| match request.command {
        Command::List => list(request, &subject, out),
        Command::Entry => one_entry(request, &subject, out),
        Command::Run => closed_run(request, &subject, out),
        Command::Check => accepted(&subject, out),
        Command::Print => print(request, &subject, out),
        Command::Names => names(request, &subject, out),
    });
    with_refusal(request.form, given, out)
}

/// Writes the refusal where there is no other answer.
fn with_refusal(form: Form, given: Result<Status, Stop>, out: &mut Output) -> Result<Status, Stop> {
    let Err(Stop::Refused(why)) = given else {
        return given;
    };
    write_refusal(form, why, out)?;
    Ok(Status::Refused)
}

fn accepted(subject: &Subject, out: &mut Output) -> Result<Status, Stop> {
    let goal = subject.rule.goal();
    out.line(format_args!("accepted: {}", wording::limits(goal)))?;
    Ok(Status::Yes)
}

/// The list, stored where that is asked for. Where it cannot be stored is seen before the search; if it fails after it, the answer is
/// written all the same, and then the fault.
fn list(request: &Request, subject: &Subject, out: &mut Output) -> Result<Status, Stop> {
    let name = request.save.as_deref();
    name.map_or(Ok(()), storing::see_place)?;
    let Some(found) = search(request, subject)? else {
        return Ok(Status::Open);
    };
    let saved = name.map_or(Ok(()), |name| save(name, &found));
    let written = listed(request, subject, &found, out);
    let written = with_refusal(request.form, written, out);
    let Err(Stop::Fault(unsaved)) = saved else {
        return written;
    };
    let written = written.and_then(|_| out.flush());
    say(unsaved);
    written.map(|()| Status::Fault)
}

/// The answer that a search has given.
fn listed(
    request: &Request,
    subject: &Subject,
    found: &Searched,
    out: &mut Output,
) -> Result<Status, Stop> {
    if request.form == Form::Raw {
        return raw_list(subject, found, out);
    }
    write_entries(request.form, subject, found.list(), out)?;
    match found.answer {
        Ok(listed) => {
            let total = listed.total(found.list());
            write_total(request.form, &total, subject.rule.goal(), out)?;
            Ok(listed.verdict.into())
        }
        Err(why) => cut_short(why, found, request, subject, out),
    }
}

/// The list as `reachlist` prints it, in the library's own text. What else there is to say goes to standard error.
fn raw_list(subject: &Subject, found: &Searched, out: &mut Output) -> Result<Status, Stop> {
    write_text(subject, found.list(), found.full()?, out)?;
    let goal = subject.rule.goal();
    match found.answer {
        Ok(listed) => {
            say(format_args!("{} {}", listed.verdict, wording::within(goal)));
            Ok(listed.verdict.into())
        }
        Err(why) => {
            say(wording::cut_short(entries(found.list()).count(), goal));
            explain(Form::Raw, why.refusal(), out)?;
            Ok(Status::Refused)
        }
    }
}

/// Stores the list of a search, also one that is cut short. Without a list nothing is stored.
fn save(name: &OsStr, found: &Searched) -> Result<(), Stop> {
    let Ok(full) = found.full() else {
        return Ok(());
    };
    storing::save(name, found.list())?;
    if full {
        let path = Path::new(name).display();
        say(format_args!(
            "{path} has the entries that fit; remburai print needs --full for it"
        ));
    }
    Ok(())
}

/// The text of a stored list, or its length.
fn print(request: &Request, subject: &Subject, out: &mut Output) -> Result<Status, Stop> {
    let list = storing::read(&request.more[0])?;
    if request.length {
        let length = text_length(&subject.file, &list, request.full);
        out.line(length.map_err(Stop::Refused)?)?;
        return Ok(Status::Yes);
    }
    write_text(subject, &list, request.full, out)?;
    say(wording::handed_in(subject.rule.goal()));
    Ok(Status::Yes)
}

/// The search of the rule, or nothing where the limit has passed.
fn search(request: &Request, subject: &Subject) -> Result<Option<Searched>, Stop> {
    let goal = subject.rule.goal();
    let found = searched(&subject.file, goal.steps, request.limit)?;
    Ok(in_time(found, request, goal))
}

/// What a search has given; where that is nothing, it is said that the limit has passed.
fn in_time<T>(found: Option<T>, request: &Request, goal: Goal) -> Option<T> {
    if let (None, Some(limit)) = (&found, request.limit) {
        let (seconds, within) = (limit.as_secs_f64(), wording::within(goal));
        say(format_args!(
            "no answer after {seconds} s: the search {within} was given up, and nothing is known"
        ));
    }
    found
}

/// The names in the rule's list, as `namelist` prints them. What else there is to say goes to standard error.
fn names(request: &Request, subject: &Subject, out: &mut Output) -> Result<Status, Stop> {
    let goal = subject.rule.goal();
    let text = named(&subject.file, goal.steps, request.limit)?;
    let Some(text) = in_time(text, request, goal) else {
        return Ok(Status::Open);
    };
    out.bytes(&text)?;
    let refusal = names_refusal(&text);
    let lines = text.iter().filter(|byte| **byte == b'\n').count();
    let (count, full) = match refusal {
        Some(why) => (lines - 1, why == Refusal::ListFull),
        None => (lines, false),
    };
    say(wording::named(count, &subject.rule, full));
    let Some(why) = refusal else {
        return Ok(Status::Yes);
    };
    explain(request.form, why, out)?;
    Ok(Status::Refused)
}

/// A search that was refused. With 12 the entries that fit are known, and nothing of the others.
fn cut_short(
    why: SearchError,
    found: &Searched,
    request: &Request,
    subject: &Subject,
    out: &mut Output,
) -> Result<Status, Stop> {
    if let SearchError::Full { .. } = why {
        let count = entries(found.list()).count();
        let sentence = wording::cut_short(count, subject.rule.goal());
        tell(request.form, &sentence, out)?;
    }
    Err(Stop::Refused(why.refusal()))
}

fn one_entry(request: &Request, subject: &Subject, out: &mut Output) -> Result<Status, Stop> {
    let word = request.more[0].to_string_lossy();
    let number = whole(&word).ok_or_else(|| fault(&word, "entries have numbers, from 0 on"))?;
    let Some(found) = search(request, subject)? else {
        return Ok(Status::Open);
    };
    let part = entry(found.list(), number);
    write_entries(request.form, subject, part, out)?;
    let within = wording::within(subject.rule.goal());
    if !part.is_empty() {
        tell(
            request.form,
            &format!("entry {number} of the list {within}."),
            out,
        )?;
        return Ok(Status::Yes);
    }
    if let Err(why) = found.answer {
        return cut_short(why, &found, request, subject, out);
    }
    let count = entries(found.list()).count();
    let sentence = format!("no entry {number}: the list {within} has {count}, counted from 0.");
    tell(request.form, &sentence, out)?;
    Ok(Status::No)
}

fn closed_run(request: &Request, subject: &Subject, out: &mut Output) -> Result<Status, Stop> {
    let input = match &subject.text {
        Some(text) => text.input(&request.more)?,
        None => numbers(request)?,
    };
    let goal = subject.rule.goal();
    let mut work = vec![0; work_words(goal.steps as usize)];
    let ran = run(&subject.file, &input, &mut work).map_err(Stop::Refused)?;
    out.line(wording::ran(ran, goal))?;
    Ok(ran.outcome.into())
}

/// A closed input in numbers: the words of a request, or what stands between spaces in them.
fn numbers(request: &Request) -> Result<Vec<u8>, Stop> {
    let mut input = vec![];
    for word in request.more.iter().map(|word| word.to_string_lossy()) {
        for number in word.split_whitespace() {
            let byte = whole(number).and_then(|number| u8::try_from(number).ok());
            let wrong =
                "the input of a rule file is numbers from 0 to 255; names need the rule's text";
            input.push(byte.ok_or_else(|| fault(number, wrong))?);
        }
    }
    Ok(input)
}
