//! The rule that a command is about: read from a file or from standard input, built where it is a text, and checked.
use crate::arguments::Request;
use crate::standard;
use crate::status::{fault, Stop};
use crate::text::Text;
use remburai::{Rule, FILE_LIMIT};
use std::ffi::OsStr;
use std::fs::File;
use std::io::Read;
use std::path::{Path, PathBuf};

/// The longest text that is read.
const TEXT_LIMIT: usize = 16_777_216;

/// An accepted rule file, what it says, and its text where it has one.
pub struct Subject {
    pub file: Vec<u8>,
    pub rule: Rule,
    pub text: Option<Text>,
}

impl Subject {
    /// The rule of a request, with the goal that the request gives it.
    pub fn of(request: &Request) -> Result<Subject, Stop> {
        let (mut file, text) = match Content::read(&request.rule)? {
            Content::RuleFile(file) => (file, None),
            Content::Text(text) => (text.build()?, Some(text)),
        };
        let rule = Rule::read(&file).map_err(Stop::Refused)?;
        if request.depth.is_none() && request.steps.is_none() {
            return Ok(Subject { file, rule, text });
        }
        give_goal(&mut file, &rule, request);
        let rule = Rule::read(&file).map_err(Stop::Refused)?;
        Ok(Subject { file, rule, text })
    }
}

/// Puts D and S of the request in place of those of the rule file, which are the last three bytes of every one that is accepted.
fn give_goal(file: &mut [u8], rule: &Rule, request: &Request) {
    let goal = rule.goal();
    let behind = file.len() - 3;
    file[behind] = request.depth.unwrap_or(goal.depth);
    file[behind + 1..].copy_from_slice(&request.steps.unwrap_or(goal.steps).to_le_bytes());
}

enum Content {
    RuleFile(Vec<u8>),
    Text(Text),
}

impl Content {
    fn read(name: &OsStr) -> Result<Content, Stop> {
        let unread = |why| fault(Path::new(name).display(), why);
        let (file, path) = open(name)?;
        let mut bytes = vec![];
        let first = FILE_LIMIT as u64 + 1;
        (&file)
            .take(first)
            .read_to_end(&mut bytes)
            .map_err(unread)?;
        if is_rule_file(&bytes) {
            return Ok(Content::RuleFile(bytes));
        }
        let more = (TEXT_LIMIT + 1 - bytes.len()) as u64;
        (&file).take(more).read_to_end(&mut bytes).map_err(unread)?;
        if bytes.len() > TEXT_LIMIT {
            return Err(fault(
                Path::new(name).display(),
                "the text is longer than 16777216 bytes",
            ));
        }
        Ok(Content::Text(Text::new(bytes, path)?))
    }
}

/// The open file, and its path where it can be read once more.
fn open(name: &OsStr) -> Result<(File, Option<PathBuf>), Stop> {
    if name == "-" {
        return Ok((standard::input()?, None));
    }
    let path = Path::new(name);
    let unread = |why| fault(path.display(), why);
    let file = File::open(path).map_err(unread)?;
    let about = file.metadata().map_err(unread)?;
    if about.is_dir() {
        return Err(fault(path.display(), "it is a folder, not a rule"));
    }
    Ok((file, about.is_file().then(|| path.to_path_buf())))
}

/// Whether bytes are taken for a rule file. An accepted one begins with TY and has control bytes: the numbers of fields. No text that can
/// be built begins so or has any but these three.
fn is_rule_file(bytes: &[u8]) -> bool {
    let control = |byte: &u8| byte.is_ascii_control() && !b"\t\n\r".contains(byte);
    bytes.is_empty() || bytes.starts_with(b"TY") || bytes.iter().any(control)
}
