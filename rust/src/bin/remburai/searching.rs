//! A search, or that of names, in a thread of its own, so that the time it takes can be shown and limited.
use crate::status::{fault, Stop};
use remburai::{names, search, text_bound, work_words, Listed, SearchError, LIST_LIMIT};
use std::io::{self, IsTerminal, Write};
use std::sync::mpsc::{channel, Receiver, RecvTimeoutError};
use std::thread;
use std::time::{Duration, Instant};

/// Twice the stack that a call needs.
const STACK: usize = 512 * 1024;

/// After how long a search says how long it takes, and how often it says so again.
const PATIENCE: Duration = Duration::from_secs(2);
const PERIOD: Duration = Duration::from_secs(1);

/// A list slice after a search, and the search's answer.
pub struct Searched {
    slice: Vec<u8>,
    pub answer: Result<Listed, SearchError>,
}

impl Searched {
    /// The list, which is cut short where the answer is refusal 12.
    pub fn list(&self) -> &[u8] {
        match self.answer {
            Ok(Listed { length, .. }) | Err(SearchError::Full { length }) => &self.slice[..length],
            Err(SearchError::Refused(_)) => &[],
        }
    }

    /// Whether the list is cut short, refusal 12. With any other refusal there is no list.
    pub fn full(&self) -> Result<bool, Stop> {
        match self.answer {
            Ok(_) => Ok(false),
            Err(SearchError::Full { .. }) => Ok(true),
            Err(SearchError::Refused(why)) => Err(Stop::Refused(why)),
        }
    }
}

/// Searches a rule file of step limit `steps`. Nothing where the search has no answer within the limit; it then goes on until the command
/// ends.
pub fn searched(
    file: &[u8],
    steps: u16,
    limit: Option<Duration>,
) -> Result<Option<Searched>, Stop> {
    let file = file.to_vec();
    called(limit, move || {
        let mut work = vec![0; work_words(steps as usize)];
        let mut slice = vec![0; LIST_LIMIT];
        let answer = search(&file, &mut work, &mut slice);
        Searched { slice, answer }
    })
}

/// The text of the names in the list of a rule file of step limit `steps`. Nothing where there is none within the limit.
pub fn named(file: &[u8], steps: u16, limit: Option<Duration>) -> Result<Option<Vec<u8>>, Stop> {
    let file = file.to_vec();
    called(limit, move || {
        let mut work = vec![0; work_words(steps as usize)];
        let (mut list, mut text) = (vec![0; LIST_LIMIT], vec![0; text_bound(LIST_LIMIT)]);
        let length = names(&file, &mut work, &mut list, &mut text);
        text.truncate(length);
        text
    })
}

/// What a call gives, in a thread of its own.
fn called<T: Send + 'static>(
    limit: Option<Duration>,
    call: impl FnOnce() -> T + Send + 'static,
) -> Result<Option<T>, Stop> {
    let (send, receive) = channel();
    let call = move || {
        // There is no one to send it to where the limit has passed.
        let _ = send.send(call());
    };
    let thread = thread::Builder::new().stack_size(STACK).spawn(call);
    thread.map_err(|why| fault("the search cannot be started", why))?;
    Waiting::new(limit).wait(&receive)
}

/// The time that a search takes, as it passes.
struct Waiting {
    began: Instant,
    limit: Option<Duration>,
    terminal: bool,
    /// The length of the line that stands on the terminal.
    shown: usize,
}

impl Waiting {
    fn new(limit: Option<Duration>) -> Waiting {
        Waiting {
            began: Instant::now(),
            limit,
            terminal: io::stderr().is_terminal(),
            shown: 0,
        }
    }

    fn wait<T>(mut self, receive: &Receiver<T>) -> Result<Option<T>, Stop> {
        loop {
            let passed = self.began.elapsed();
            let left = self
                .limit
                .map_or(PERIOD, |limit| limit.saturating_sub(passed));
            let answer = receive.recv_timeout(left.min(PERIOD));
            if let Err(RecvTimeoutError::Timeout) = answer {
                if self
                    .limit
                    .is_some_and(|limit| limit <= self.began.elapsed())
                {
                    self.show("");
                    return Ok(None);
                }
                self.show_time();
                continue;
            }
            self.show("");
            let broken = |_| Stop::Fault("the search has ended without an answer".to_string());
            return answer.map(Some).map_err(broken);
        }
    }

    fn show_time(&mut self) {
        let passed = self.began.elapsed();
        if !self.terminal || passed < PATIENCE {
            return;
        }
        let limit = match self.limit {
            Some(limit) => format!(", of {} s at most", limit.as_secs_f64()),
            None => String::new(),
        };
        let time = passed.as_secs();
        self.show(&format!(
            "searching for {time} s{limit}; Ctrl-C ends the search, and nothing is listed"
        ));
    }

    /// Puts a line in place of the one that stands on the terminal.
    fn show(&mut self, line: &str) {
        if self.shown == 0 && line.is_empty() {
            return;
        }
        let blank = self.shown.saturating_sub(line.len());
        let back = if line.is_empty() { "\r" } else { "" };
        let _ = write!(io::stderr(), "\r{line}{:blank$}{back}", "");
        self.shown = line.len();
    }
}
