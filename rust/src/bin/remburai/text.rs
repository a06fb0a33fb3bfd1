//! A rule's text, and what tools/rule does with it: the rule file, the bytes of a closed input, and the names in a list.
//!
//! A search may take long, and names must not come from a text that was changed meanwhile. So what was read is kept here, and given to
//! tools/rule for the names in a file of a folder that is removed again.
use crate::standard::Output;
use crate::status::{fault, Stop};
use remburai::entries;
use std::ffi::OsString;
use std::fs::{self, DirBuilder};
use std::io::{self, BufWriter, ErrorKind, Read, Write};
use std::os::unix::fs::DirBuilderExt;
use std::path::{Path, PathBuf};
use std::process::{Child, Command, ExitStatus, Stdio};
use std::{env, process, thread};

pub struct Text {
    /// The program tools/rule.
    tool: PathBuf,
    content: Vec<u8>,
    /// Where the text stands, if it can be read there once more.
    path: Option<PathBuf>,
}

impl Text {
    pub fn new(content: Vec<u8>, path: Option<PathBuf>) -> Result<Text, Stop> {
        Ok(Text {
            tool: tool()?,
            content,
            path,
        })
    }

    /// The rule file of the text.
    pub fn build(&self) -> Result<Vec<u8>, Stop> {
        let file = self.output(&["build", "--library"], &[])?;
        match &self.path {
            Some(path) if !fs::read(path).is_ok_and(|again| again == self.content) => {
                Err(fault(path.display(), "it was changed while it was read"))
            }
            _ => Ok(file),
        }
    }

    /// The bytes of a closed input, given by a value for each parameter. How deep a value may be is left to the library.
    pub fn input(&self, values: &[OsString]) -> Result<Vec<u8>, Stop> {
        self.output(&["input", "--depth", "64"], values)
    }

    /// Writes the entries of a list with the names of the text.
    pub fn name_entries(&self, list: &[u8], json: bool, out: &mut Output) -> Result<(), Stop> {
        let folder = Folder::new()?;
        let mut command = Command::new(&self.tool);
        command.arg("names").arg(folder.put("text", &self.content)?);
        command.args(json.then_some("--json"));
        let mut child = self.start(command)?;
        let (to, from) = (child.stdin.take(), child.stdout.take());
        let written = thread::scope(|scope| {
            scope.spawn(|| write_lines(list, to.expect("it is piped")));
            copy(from.expect("it is piped"), out)
        });
        let ended = child.wait();
        written?;
        self.see(ended)
    }

    fn start(&self, mut command: Command) -> Result<Child, Stop> {
        command.stdin(Stdio::piped()).stdout(Stdio::piped());
        command.spawn().map_err(|why| self.failed(why))
    }

    /// What tools/rule writes when it is given these words, then the text, then these values.
    fn output(&self, words: &[&str], values: &[OsString]) -> Result<Vec<u8>, Stop> {
        let (text, input) = match &self.path {
            Some(path) => (plain(path), &[][..]),
            None => ("-".into(), &self.content[..]),
        };
        let mut command = Command::new(&self.tool);
        command.args(words).arg(text).args(values);
        let mut child = self.start(command)?;
        let mut to = child.stdin.take().expect("it is piped");
        // Where it ends before it has read all, its exit status says why.
        let _ = to.write_all(input);
        drop(to);
        let ended = child.wait_with_output().map_err(|why| self.failed(why))?;
        self.see(Ok(ended.status))?;
        Ok(ended.stdout)
    }

    /// Sees that it ended well. With status 1 it has said itself what is wrong.
    fn see(&self, ended: io::Result<ExitStatus>) -> Result<(), Stop> {
        match ended {
            Ok(status) if status.success() => Ok(()),
            Ok(status) if status.code() == Some(1) => Err(Stop::Silent),
            Ok(status) => Err(self.failed(status)),
            Err(why) => Err(self.failed(why)),
        }
    }

    fn failed(&self, why: impl std::fmt::Display) -> Stop {
        fault(
            format_args!("{} does not do its part", self.tool.display()),
            why,
        )
    }
}

/// The program tools/rule: the one that REMBURAI_RULE names, or else that of an installed command.
fn tool() -> Result<PathBuf, Stop> {
    let named = env::var_os("REMBURAI_RULE").filter(|name| !name.is_empty());
    let tool = match named {
        Some(name) => PathBuf::from(name),
        None => installed().map_err(|why| fault("tools/rule is not found", why))?,
    };
    if !tool.is_file() {
        let missing = "a text needs tools/rule, and it is not there; REMBURAI_RULE may name it";
        return Err(fault(tool.display(), missing));
    }
    Ok(tool)
}

/// Beside the folder of the command: ../lib/remburai/rule.
fn installed() -> io::Result<PathBuf> {
    let command = env::current_exe()?.canonicalize()?;
    let prefix = command.parent().and_then(Path::parent);
    Ok(prefix.unwrap_or(Path::new("/")).join("lib/remburai/rule"))
}

/// A path that is not taken for an option.
fn plain(path: &Path) -> OsString {
    match path.as_os_str().as_encoded_bytes().first() {
        Some(b'-') => Path::new(".").join(path).into(),
        _ => path.into(),
    }
}

/// Writes the lines of reachlist for the entries of a list. Where the reader ends before, its exit status says why.
fn write_lines(list: &[u8], to: impl Write) {
    let mut to = BufWriter::new(to);
    let _ = entries(list).try_for_each(|entry| writeln!(to, "{entry}"));
}

/// Writes all that can be read.
fn copy(mut from: impl Read, out: &mut Output) -> Result<(), Stop> {
    let mut piece = [0; 1 << 16];
    loop {
        match from.read(&mut piece) {
            Ok(0) => return Ok(()),
            Ok(size) => out.bytes(&piece[..size])?,
            Err(why) => return Err(fault("the names of the text", why)),
        }
    }
}

/// A folder for files that tools/rule reads, removed with all that is in it.
struct Folder(PathBuf);

impl Folder {
    /// A new folder of a name that nothing has.
    fn new() -> Result<Folder, Stop> {
        let mut number = 0;
        loop {
            let path = env::temp_dir().join(format!("remburai-{}-{number}", process::id()));
            match DirBuilder::new().mode(0o700).create(&path) {
                Ok(()) => return Ok(Folder(path)),
                Err(why) if why.kind() == ErrorKind::AlreadyExists => number += 1,
                Err(why) => return Err(fault(path.display(), why)),
            }
        }
    }

    fn put(&self, name: &str, bytes: &[u8]) -> Result<PathBuf, Stop> {
        let path = self.0.join(name);
        fs::write(&path, bytes).map_err(|why| fault(path.display(), why))?;
        Ok(path)
    }
}

impl Drop for Folder {
    fn drop(&mut self) {
        let _ = fs::remove_dir_all(&self.0);
    }
}
