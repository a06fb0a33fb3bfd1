//! Lists that are stored and printed again: the same text, its length before it, and what is refused.
use crate::calling::{
    call, call_with, call_within, command, path, program, Called, Scratch, COMMAND,
};
use crate::rules::{endless, stored, too_many_entries, Stored};
use std::fs;
use std::os::unix::fs::symlink;
use std::process::{Command, Stdio};

/// What stands in a file before.
const OLD: &[u8] = b"an old list";

/// A file of the test's own that is not there yet, in a folder of its own.
pub struct Place {
    pub folder: Scratch,
    pub file: String,
}

impl Place {
    pub fn new(name: &str) -> Place {
        let folder = Scratch::folder(name);
        let file = format!("{}/list", folder.name());
        Place { folder, file }
    }

    /// Puts something into the file.
    pub fn put_old(&self) {
        fs::write(&self.file, OLD).expect("a file");
    }

    /// Sees that the file is as it was put there, and that nothing is beside it.
    pub fn see_old(&self) {
        assert_eq!(self.names(), ["list"]);
        assert_eq!(fs::read(&self.file).expect("a file"), OLD);
    }

    /// The names in the folder.
    pub fn names(&self) -> Vec<String> {
        let found = fs::read_dir(&self.folder.0).expect("a folder");
        let names = found.map(|entry| entry.expect("an entry").file_name());
        names
            .map(|name| name.into_string().expect("UTF-8"))
            .collect()
    }
}

fn see_said(called: &Called, part: &str) {
    assert!(called.said.contains(part), "{called:?}");
}

/// Sees that a stored list is refused: in the form of `list --raw`, with the word and what to do beside it.
fn see_refused(words: &[&str], number: usize, word: &str) {
    for more in [&[][..], &["--length"], &["--full"]] {
        let called = call(&[words, more].concat());
        assert_eq!(called.lines(3), [format!("refused {number}")]);
        see_said(&called, &format!("remburai: refused {number} {word}: "));
        see_said(&called, "remburai: What to do: ");
    }
}

/// What `list --raw` prints, and what `print` prints then, with its length.
fn see_printed(rule: &str, more: &[&str], file: &str) {
    let listed = call(&[&["list", "--raw", rule, "--save", file], more].concat());
    assert_eq!(
        call(&[&["list", "--raw", rule], more].concat()),
        listed,
        "{rule}"
    );
    let printed = call(&[&["print", rule, file], more].concat());
    assert_eq!(printed.lines(0), listed.printed.lines().collect::<Vec<_>>());
    assert_eq!(printed.printed, listed.printed);
    see_said(
        &printed,
        "speaks for the rule only if its search within depth ",
    );
    let length = call(&[&["print", "--length", rule, file], more].concat());
    assert_eq!(length.lines(0), [listed.printed.len().to_string()]);
    assert_eq!(length.said, "");
}

#[test]
fn stored_rule_files() {
    let place = Place::new("stored");
    for case in stored() {
        if case.last().starts_with("total") {
            see_printed(&case.rule, &[], &place.file);
            assert_eq!(
                call(&["print", &case.rule, &place.file]).printed,
                case.printed
            );
        }
    }
    assert_eq!(place.names(), ["list"]);
}

#[test]
fn texts_and_other_goals() {
    let place = Place::new("goals");
    for name in ["p", "relay", "group", "even", "tree", "sorted"] {
        see_printed(&path(&format!("examples/{name}.txt")), &[], &place.file);
        see_printed(&path(&format!("examples/{name}.rule")), &[], &place.file);
    }
    let rule = path("examples/p.rule");
    see_printed(&rule, &["--depth", "7", "--steps=5"], &place.file);
    // a list of S 2 does not fit S 1: its entry has two steps
    see_printed(&rule, &["--steps", "2"], &place.file);
    see_refused(&["print", &rule, &place.file, "--steps", "1"], 14, "scrap");
}

/// Other forms print as they do without `--save`, and store the same list.
#[test]
fn beside_other_forms() {
    let place = Place::new("forms");
    let rule = Stored::named("share_33").rule;
    for form in [&[][..], &["--json"], &["--raw"]] {
        let words = [&["list", &rule], form].concat();
        let listed = call(&[&words[..], &["--save", &place.file]].concat());
        assert_eq!(listed, call(&words));
        let bytes = fs::read(&place.file).expect("a list");
        assert!(bytes.starts_with(b"RE\x03\x00\x02\x00\x00\xFFUN\x14\x00\x02\x00\x01\x00"));
        fs::remove_file(&place.file).expect("a file");
    }
}

/// A list that is cut short is stored with what fits, and its text closes with the refusal.
#[test]
fn a_list_that_is_cut_short() {
    let place = Place::new("cut");
    let rule = Scratch::file("cut.rule", &too_many_entries());
    let listed = call(&["list", "--raw", rule.name(), "--save", &place.file]);
    assert_eq!(listed.lines(3).last(), Some(&"refused 12"));
    see_said(
        &listed,
        "has the entries that fit; remburai print needs --full for it",
    );
    let count = 16_777_216 / 12;
    assert_eq!(fs::metadata(&place.file).expect("a list").len(), 12 * count);
    let printed = call(&["print", "--full", rule.name(), &place.file]);
    assert_eq!(
        (printed.status, printed.printed.len()),
        (Some(0), listed.printed.len())
    );
    assert!(printed.printed == listed.printed);
    let length = call(&["print", "--full", "--length", rule.name(), &place.file]);
    assert_eq!(length.lines(0), [listed.printed.len().to_string()]);
    // a list that is handed in says what it says
    let printed = call(&["print", rule.name(), &place.file]);
    let total = format!("total {count} 0 0 0 found");
    assert_eq!(printed.lines(0).last(), Some(&&total[..]));
}

/// A list takes the place of the one before, also through a link.
#[test]
fn a_file_that_is_there() {
    let place = Place::new("there");
    let link = format!("{}/link", place.folder.name());
    let rule = path("examples/p.rule");
    fs::write(&place.file, [b'x'; 1000]).expect("a file");
    symlink("list", &link).expect("a link");
    assert_eq!(call(&["list", &rule, "--save", &link]).status, Some(0));
    assert_eq!(fs::read(&place.file).expect("a list").len(), 9);
    assert!(fs::symlink_metadata(&link).expect("a link").is_symlink());
    assert_eq!(place.names().len(), 2);
}

/// What a process of the same number has left beside the file is no hindrance, and stays.
#[test]
fn a_part_that_is_left() {
    let place = Place::new("left");
    let script = "echo left > \"$4.$$-0.part\"; exec \"$0\" \"$@\"";
    let rule = path("examples/p.rule");
    let words = [
        "sh",
        "-c",
        script,
        COMMAND,
        "list",
        &rule,
        "--save",
        &place.file,
    ];
    let called = Called::of(program(&words).output().expect("sh"));
    assert_eq!((called.status, &called.said[..]), (Some(0), ""));
    assert_eq!(fs::read(&place.file).expect("a list").len(), 9);
    let mut names = place.names();
    names.sort();
    assert!(
        names[0] == "list" && names[1].ends_with("-0.part"),
        "{names:?}"
    );
    let left = fs::read(place.folder.0.join(&names[1])).expect("a file");
    assert_eq!((names.len(), &left[..]), (2, &b"left\n"[..]));
}

/// A pipe is opened when there is a list, and not before: without one, its reader would be given an empty list.
#[test]
fn a_pipe() {
    let place = Place::new("pipe");
    let made = Command::new("mkfifo").arg(&place.file).status();
    assert!(made.expect("mkfifo").success());
    let rule = Scratch::file("pipe.rule", &endless());
    let words = ["list", rule.name(), "--limit", "0.2", "--save", &place.file];
    assert_eq!(call_within(20, &words).status, Some(2));
    let p = path("examples/p.rule");
    let mut child = command(&["list", &p, "--save", &place.file]);
    let mut child = child.stdout(Stdio::null()).spawn().expect("the command");
    let list = fs::read(&place.file).expect("a list");
    assert_eq!(list, b"RE\x06\x00\x03\x00\x01\x01\xFF");
    assert_eq!(child.wait().expect("the command").code(), Some(0));
    assert_eq!(place.names(), ["list"]);
}

#[test]
fn from_standard_input() {
    let rule = path("examples/p.rule");
    let list = b"RE\x06\x00\x03\x00\x01\x01\xFF";
    let wanted = ["reach 6 1 1 _", "total 1 0 0 0 found"];
    assert_eq!(call_with(&["print", &rule, "-"], list).lines(0), wanted);
    let place = Scratch::file("input.list", list);
    let file = fs::read(&rule).expect("a rule file");
    assert_eq!(
        call_with(&["print", "-", place.name()], &file).lines(0),
        wanted
    );
}

/// Lists that do not fit the rule, and rules that are refused before their list.
#[test]
fn refused() {
    let rule = path("examples/p.rule");
    let list = |name: &str, bytes: &[u8]| Scratch::file(name, bytes);
    for (name, bytes) in [
        ("other.list", &b"RE\x06\x00\x03\x00\x01\x02\xFF"[..]),
        ("cut.list", b"RE\x06\x00\x03\x00\x01\x01"),
        ("text.list", b"reach 6 1 1 _\ntotal 1 0 0 0 found\n"),
        ("deep.list", b"RE\x06\x00\x05\x00\x01\x01\x01\x01\xFF"),
    ] {
        see_refused(&["print", &rule, list(name, bytes).name()], 14, "scrap");
    }
    // one that does not end is read no further than a list may go
    see_refused(&["print", &rule, "/dev/zero"], 14, "scrap");
    see_refused(
        &["print", &Stored::named("mark").rule, "/dev/zero"],
        2,
        "mark",
    );
}
