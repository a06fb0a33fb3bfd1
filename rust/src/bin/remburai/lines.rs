//! The lines of an answer in each of its forms: for people, as `reachlist` prints them, and in JSON.
use crate::arguments::Form;
use crate::standard::{say, Output};
use crate::status::Stop;
use crate::subject::Subject;
use crate::wording;
use remburai::{entries, list_text, Entry, Goal, Part, Refusal, Rule, Total};

/// Writes entries, by names where the rule has a text.
pub fn write_entries(
    form: Form,
    subject: &Subject,
    list: &[u8],
    out: &mut Output,
) -> Result<(), Stop> {
    let rule = &subject.rule;
    match (form, &subject.text) {
        _ if list.is_empty() => Ok(()),
        (Form::Raw, _) => entries(list).try_for_each(|entry| out.line(entry)),
        (form, Some(text)) => text.name_entries(list, form == Form::Json, out),
        (Form::Json, None) => entries(list).try_for_each(|entry| out.line(object(&entry, rule))),
        (Form::People, None) => {
            entries(list).try_for_each(|entry| out.line(numbered(&entry, rule)))
        }
    }
}

fn parts(entry: &Entry, rule: &Rule) -> Vec<Part> {
    entry.parts(rule).expect("an entry of the rule's own list")
}

/// An entry for people, by numbers: each parameter after two spaces, as tools/rule prints it by names.
fn numbered(entry: &Entry, rule: &Rule) -> String {
    let parameters = parts(entry, rule)
        .into_iter()
        .map(|part| format!("  {part}"));
    format!(
        "{} {}{}",
        entry.kind(),
        entry.steps(),
        parameters.collect::<String>()
    )
}

fn object(entry: &Entry, rule: &Rule) -> String {
    let parameters = parts(entry, rule)
        .into_iter()
        .map(|part| format!("\"{part}\""));
    let parameters = parameters.collect::<Vec<_>>().join(",");
    format!(
        "{{\"kind\":\"{}\",\"steps\":{},\"parameters\":[{parameters}]}}",
        entry.kind(),
        entry.steps()
    )
}

/// Writes the total of a complete list, and what it stands for. In the raw form it is the last line of the list's text.
pub fn write_total(form: Form, total: &Total, goal: Goal, out: &mut Output) -> Result<(), Stop> {
    let Total {
        reach,
        unfinished,
        missing,
        verdict,
    } = total;
    let (share, depth, steps) = (total.share(), goal.depth, goal.steps);
    if form == Form::Json {
        return out.line(format_args!(
            "{{\"reach\":{reach},\"unfinished\":{unfinished},\"missing\":{missing},\"share\":{share},\"verdict\":\"{verdict}\",\"depth\":{depth},\"steps\":{steps}}}"
        ));
    }
    out.line(total)?;
    wording::verdict(total, goal)
        .iter()
        .try_for_each(|line| out.line(line))
}

/// Writes the text of a list, as `reachlist` prints it.
pub fn write_text(
    subject: &Subject,
    list: &[u8],
    full: bool,
    out: &mut Output,
) -> Result<(), Stop> {
    let text = list_text(&subject.file, list, full).map_err(Stop::Refused)?;
    out.bytes(text.as_bytes())
}

/// Writes a refusal, with what to do.
pub fn write_refusal(form: Form, why: Refusal, out: &mut Output) -> Result<(), Stop> {
    let (number, word) = (why.number(), why.word());
    match form {
        Form::People => {}
        Form::Raw => out.line(format_args!("refused {number}"))?,
        Form::Json => out.line(format_args!("{{\"refused\":{number},\"word\":\"{word}\"}}"))?,
    }
    explain(form, why, out)
}

/// Writes what a refusal says, and what to do about it.
pub fn explain(form: Form, why: Refusal, out: &mut Output) -> Result<(), Stop> {
    tell(form, &why.to_string(), out)?;
    tell(form, &format!("What to do: {}.", why.advice()), out)
}

/// Writes a sentence that belongs to an answer for people. The other forms have no room for it, and it goes to standard error.
pub fn tell(form: Form, sentence: &str, out: &mut Output) -> Result<(), Stop> {
    match form {
        Form::People => out.line(sentence),
        Form::Raw | Form::Json => {
            say(sentence);
            Ok(())
        }
    }
}
