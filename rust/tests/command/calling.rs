//! Calls of the command.
use std::env;
use std::ffi::OsString;
use std::io::Write;
use std::path::PathBuf;
use std::process::{Child, Command, Output, Stdio};
use std::thread::sleep;
use std::time::{Duration, Instant};

pub const COMMAND: &str = env!("CARGO_BIN_EXE_remburai");

/// A path in the repository.
pub fn path(name: &str) -> String {
    format!("{}/../{name}", env!("CARGO_MANIFEST_DIR"))
}

fn tool() -> OsString {
    env::var_os("REMBURAI_RULE").unwrap_or_else(|| path("tools/rule").into())
}

/// A program with its words, which finds tools/rule.
pub fn program(words: &[&str]) -> Command {
    let mut command = Command::new(words[0]);
    command.args(&words[1..]).env("REMBURAI_RULE", tool());
    command.stdin(Stdio::null());
    command
}

/// The command with its words.
pub fn command(words: &[&str]) -> Command {
    program(&[&[COMMAND], words].concat())
}

/// What a call printed, and its exit status.
#[derive(Debug, PartialEq)]
pub struct Called {
    pub status: Option<i32>,
    pub printed: String,
    pub said: String,
}

impl Called {
    pub fn of(output: Output) -> Called {
        let text = |bytes| String::from_utf8(bytes).expect("UTF-8");
        Called {
            status: output.status.code(),
            printed: text(output.stdout),
            said: text(output.stderr),
        }
    }

    /// Sees the exit status; then the lines that were printed are handed on.
    pub fn lines(&self, status: i32) -> Vec<&str> {
        assert_eq!(self.status, Some(status), "{self:?}");
        self.printed.lines().collect()
    }

    /// Sees that it ended with a fault that says this, and that nothing was printed.
    pub fn see_fault(&self, part: &str) {
        assert_eq!(self.status, Some(4), "{self:?}");
        assert_eq!(self.printed, "");
        assert!(
            self.said.contains(part),
            "{part:?} is not in {:?}",
            self.said
        );
    }
}

pub fn call(words: &[&str]) -> Called {
    Called::of(command(words).output().expect("the command"))
}

/// A call that has to end within some seconds.
pub fn call_within(seconds: u64, words: &[&str]) -> Called {
    let mut command = command(words);
    command.stdout(Stdio::piped()).stderr(Stdio::piped());
    let mut child = command.spawn().expect("the command");
    let end = Instant::now() + Duration::from_secs(seconds);
    while child.try_wait().expect("the command").is_none() {
        if end < Instant::now() {
            child.kill().expect("the command");
            panic!("{words:?} has not ended within {seconds} s");
        }
        sleep(Duration::from_millis(10));
    }
    Called::of(child.wait_with_output().expect("the command"))
}

/// A call with this on standard input.
pub fn call_with(words: &[&str], input: &[u8]) -> Called {
    let mut command = command(words);
    command
        .stdin(Stdio::piped())
        .stdout(Stdio::piped())
        .stderr(Stdio::piped());
    let mut child: Child = command.spawn().expect("the command");
    // The command may end before it has read all.
    let _ = child.stdin.take().expect("it is piped").write_all(input);
    Called::of(child.wait_with_output().expect("the command"))
}

/// A file or a folder of the test's own, removed at its end.
pub struct Scratch(pub PathBuf);

impl Scratch {
    pub fn file(name: &str, bytes: &[u8]) -> Scratch {
        let path = PathBuf::from(env!("CARGO_TARGET_TMPDIR")).join(name);
        std::fs::write(&path, bytes).expect("a file");
        Scratch(path)
    }

    /// A folder, empty at first.
    pub fn folder(name: &str) -> Scratch {
        let path = PathBuf::from(env!("CARGO_TARGET_TMPDIR")).join(name);
        let _ = std::fs::remove_dir_all(&path);
        std::fs::create_dir(&path).expect("a folder");
        Scratch(path)
    }

    pub fn name(&self) -> &str {
        self.0.to_str().expect("UTF-8")
    }
}

impl Drop for Scratch {
    fn drop(&mut self) {
        let _ = match self.0.is_dir() {
            true => std::fs::remove_dir_all(&self.0),
            false => std::fs::remove_file(&self.0),
        };
    }
}
