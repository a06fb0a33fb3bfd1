//! The words of the command line: a command, what it is about, and options.
use crate::status::Stop;
use remburai::STEP_LIMIT;
use std::ffi::{OsStr, OsString};
use std::time::Duration;
use std::vec::IntoIter;

const DEPTH_LIMIT: usize = 64;
const LONGEST: f64 = 1e9;

#[derive(Clone, Copy, PartialEq)]
pub enum Command {
    List,
    Entry,
    Run,
    Check,
    Print,
    Names,
}

impl Command {
    fn named(word: &OsStr) -> Option<Command> {
        match word.to_str()? {
            "list" => Some(Command::List),
            "entry" => Some(Command::Entry),
            "run" => Some(Command::Run),
            "check" => Some(Command::Check),
            "print" => Some(Command::Print),
            "names" => Some(Command::Names),
            _ => None,
        }
    }

    /// Whether it makes a search.
    fn searches(self) -> bool {
        matches!(self, Command::List | Command::Entry | Command::Names)
    }

    /// Whether its answer has more forms than one.
    fn has_forms(self) -> bool {
        matches!(self, Command::List | Command::Entry)
    }

    pub fn help(self) -> &'static str {
        match self {
            Command::List => include_str!("help/list.txt"),
            Command::Entry => include_str!("help/entry.txt"),
            Command::Run => include_str!("help/run.txt"),
            Command::Check => include_str!("help/check.txt"),
            Command::Print => include_str!("help/print.txt"),
            Command::Names => include_str!("help/names.txt"),
        }
    }

    /// How its answer is written if no option says it. A stored list and names have the raw form only.
    fn form(self) -> Form {
        match self {
            Command::Print | Command::Names => Form::Raw,
            _ => Form::People,
        }
    }
}

/// How an answer is written.
#[derive(Clone, Copy, PartialEq)]
pub enum Form {
    People,
    Raw,
    Json,
}

/// What a command is asked to do.
pub struct Request {
    pub command: Command,
    pub form: Form,
    pub depth: Option<u8>,
    pub steps: Option<u16>,
    pub limit: Option<Duration>,
    /// Where the list is to be stored.
    pub save: Option<OsString>,
    /// Whether the search of the stored list ended in refusal 12.
    pub full: bool,
    /// Whether the length of the text is asked for, and not the text.
    pub length: bool,
    /// The rule, by its path, or `-`.
    pub rule: OsString,
    /// What stands behind the rule: the input of a run, the number of an entry, the path of a stored list.
    pub more: Vec<OsString>,
}

pub enum Asked {
    /// A text to print: a help, or the version.
    Text(String),
    Answer(Request),
}

const GENERAL: &str = include_str!("help/remburai.txt");

/// What the words behind the program's name ask for.
pub fn asked(words: Vec<OsString>) -> Result<Asked, Stop> {
    let mut words = words.into_iter();
    let Some(first) = words.next() else {
        return Err(wrong("a command is missing"));
    };
    if let Some(command) = Command::named(&first) {
        return Words::of(command, words).request();
    }
    match first.to_str() {
        Some("--version") => Ok(Asked::Text(format!("remburai {}\n", remburai::VERSION))),
        Some("help" | "--help" | "-h") => {
            let about = words.next().and_then(|word| Command::named(&word));
            Ok(Asked::Text(
                about.map_or(GENERAL, Command::help).to_string(),
            ))
        }
        _ => Err(wrong(format_args!("there is no command {first:?}"))),
    }
}

/// A fault of use, with where help is.
fn wrong(what: impl std::fmt::Display) -> Stop {
    Stop::Fault(format!("{what}; see remburai --help"))
}

/// The words behind a command, as they are read.
struct Words {
    left: IntoIter<OsString>,
    request: Request,
    /// The words that are no options.
    places: Vec<OsString>,
}

impl Words {
    fn of(command: Command, left: IntoIter<OsString>) -> Words {
        let request = Request {
            command,
            form: command.form(),
            depth: None,
            steps: None,
            limit: None,
            save: None,
            full: false,
            length: false,
            rule: OsString::new(),
            more: vec![],
        };
        Words {
            left,
            request,
            places: vec![],
        }
    }

    fn request(mut self) -> Result<Asked, Stop> {
        while let Some(word) = self.left.next() {
            match word.to_str() {
                Some("--") => self.places.extend(self.left.by_ref()),
                Some("--help" | "-h") => {
                    return Ok(Asked::Text(self.request.command.help().to_string()))
                }
                Some(option) if option.starts_with('-') && option != "-" => self.option(option)?,
                _ => self.places.push(word),
            }
        }
        self.placed().map(Asked::Answer)
    }

    fn option(&mut self, option: &str) -> Result<(), Stop> {
        let (name, value) = match option.split_once('=') {
            Some((name, value)) => (name, Some(value.to_string())),
            None => (option, None),
        };
        let command = self.request.command;
        let (searches, plain) = (command.searches(), value.is_none());
        match name {
            "--depth" => self.request.depth = Some(self.number(name, value, 1, DEPTH_LIMIT)? as u8),
            "--steps" => self.request.steps = Some(self.number(name, value, 0, STEP_LIMIT)? as u16),
            "--limit" if searches => self.request.limit = Some(self.seconds(name, value)?),
            "--raw" if command.has_forms() && plain => self.form(Form::Raw)?,
            "--json" if command.has_forms() && plain => self.form(Form::Json)?,
            "--save" if command == Command::List => {
                self.request.save = Some(self.file(name, value)?)
            }
            "--full" if command == Command::Print && plain => self.request.full = true,
            "--length" if command == Command::Print && plain => self.request.length = true,
            _ => return Err(wrong(format_args!("there is no option {option} here"))),
        }
        Ok(())
    }

    fn form(&mut self, form: Form) -> Result<(), Stop> {
        if ![Form::People, form].contains(&self.request.form) {
            return Err(wrong("--raw and --json exclude each other"));
        }
        self.request.form = form;
        Ok(())
    }

    /// The value of an option: behind its `=`, or the next word.
    fn word(&mut self, name: &str, given: Option<String>) -> Result<OsString, Stop> {
        let value = given.map(OsString::from).or_else(|| self.left.next());
        value.ok_or_else(|| wrong(format_args!("{name} needs a value")))
    }

    fn value(&mut self, name: &str, given: Option<String>) -> Result<String, Stop> {
        let word = self.word(name, given)?;
        Ok(word.to_string_lossy().into_owned())
    }

    /// The name of a file to be written, which standard output is not.
    fn file(&mut self, name: &str, given: Option<String>) -> Result<OsString, Stop> {
        let word = self.word(name, given)?;
        match word.to_str() {
            Some("" | "-") => Err(wrong(format_args!("{name} needs the name of a file"))),
            _ => Ok(word),
        }
    }

    fn number(
        &mut self,
        name: &str,
        given: Option<String>,
        least: usize,
        most: usize,
    ) -> Result<usize, Stop> {
        let value = self.value(name, given)?;
        let number = whole(&value).filter(|number| (least..=most).contains(number));
        number.ok_or_else(|| {
            wrong(format_args!(
                "{name} is a number from {least} to {most}, not {value:?}"
            ))
        })
    }

    fn seconds(&mut self, name: &str, given: Option<String>) -> Result<Duration, Stop> {
        let value = self.value(name, given)?;
        let number = value
            .parse()
            .ok()
            .filter(|number| 0.0 < *number && *number <= LONGEST);
        let fault = || {
            wrong(format_args!(
                "{name} is a number of seconds above 0, not {value:?}"
            ))
        };
        number.map(Duration::from_secs_f64).ok_or_else(fault)
    }

    /// The request with the words that are no options in their places.
    fn placed(mut self) -> Result<Request, Stop> {
        if self.places.is_empty() {
            return Err(wrong("the rule is missing"));
        }
        let more = self.places.split_off(1);
        let few = match self.request.command {
            Command::List | Command::Check | Command::Names => more.is_empty(),
            Command::Entry | Command::Print => more.len() == 1,
            Command::Run => true,
        };
        if !few {
            return Err(wrong(match self.request.command {
                Command::Entry => "a rule and the number of an entry are needed, and nothing else",
                Command::Print => "a rule and a stored list are needed, and nothing else",
                _ => "one rule is needed, and nothing else",
            }));
        }
        self.request.rule = self.places.remove(0);
        self.request.more = more;
        if self.request.command == Command::Print
            && self.request.rule == "-"
            && self.request.more[0] == "-"
        {
            return Err(wrong("the rule and the list cannot both be standard input"));
        }
        Ok(self.request)
    }
}

/// The number that a word of decimal digits stands for.
pub fn whole(word: &str) -> Option<usize> {
    let digits = word.bytes().all(|byte| byte.is_ascii_digit());
    word.parse().ok().filter(|_| digits)
}
