//! How the command ends: by an exit status, or before its answer.
use remburai::{Outcome, Refusal, Verdict};
use std::fmt::Display;

/// The exit statuses; help/remburai.txt says the same.
#[derive(Clone, Copy)]
pub enum Status {
    /// Found, accepted or reached; the entry asked for; a stored list or names printed.
    Yes = 0,
    /// None, ended or missing; no such entry.
    No = 1,
    /// Undecided or unfinished; no answer within the limit.
    Open = 2,
    /// Refused.
    Refused = 3,
    /// A fault of use, of a text, of reading, or of writing.
    Fault = 4,
}

impl From<Verdict> for Status {
    fn from(verdict: Verdict) -> Status {
        match verdict {
            Verdict::Found => Status::Yes,
            Verdict::None => Status::No,
            Verdict::Undecided => Status::Open,
        }
    }
}

impl From<Outcome> for Status {
    fn from(outcome: Outcome) -> Status {
        match outcome {
            Outcome::Reached(_) => Status::Yes,
            Outcome::Ended(_) | Outcome::Missing(_) => Status::No,
            Outcome::Unfinished(_) => Status::Open,
        }
    }
}

/// Why there is no answer.
pub enum Stop {
    /// The rule, or the list, is refused.
    Refused(Refusal),
    /// A fault, and what is to be said of it.
    Fault(String),
    /// A fault of which nothing is to be said: tools/rule has said it, or the reader of the output has gone.
    Silent,
}

/// The fault that something cannot be done, for a reason.
pub fn fault(what: impl Display, why: impl Display) -> Stop {
    Stop::Fault(format!("{what}: {why}"))
}
