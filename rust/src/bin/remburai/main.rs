//! The command for people: a rule's list, one of its entries, its names, a run on one input, the check, and the text of a stored list, by
//! the proved calls of the library.
//!
//! `arguments` reads the command line and `subject` the rule, by `text` and tools/rule where it is a text. `answers` gives the answer: by
//! `searching` where it takes a search, by `storing` where a list is stored or was, in the sentences of `wording` and the lines of `lines`,
//! written by `standard`. How it ends is said in `status`.
mod answers;
mod arguments;
mod lines;
mod searching;
mod standard;
mod status;
mod storing;
mod subject;
mod text;
mod wording;

use arguments::{asked, Asked};
use standard::{say, Output};
use status::{Status, Stop};
use std::env;
use std::process::ExitCode;

fn done() -> Result<Status, Stop> {
    let asked = asked(env::args_os().skip(1).collect())?;
    let mut out = Output::open()?;
    let status = match asked {
        Asked::Text(text) => {
            out.bytes(text.as_bytes())?;
            Status::Yes
        }
        Asked::Answer(request) => answers::answer(&request, &mut out)?,
    };
    out.flush()?;
    Ok(status)
}

fn main() -> ExitCode {
    let status = done().unwrap_or_else(|stop| {
        match stop {
            Stop::Refused(why) => say(why),
            Stop::Fault(why) => say(why),
            Stop::Silent => {}
        }
        Status::Fault
    });
    ExitCode::from(status as u8)
}
