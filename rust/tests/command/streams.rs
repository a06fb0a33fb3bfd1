//! Standard input and output that are closed, full, or left by their reader: an answer is printed whole, or the status is 4.
use crate::calling::{call, command, path, program, Called, COMMAND};
use crate::rules::Stored;
use std::fs::{File, OpenOptions};
use std::io::Read;
use std::process::Stdio;

fn commands() -> Vec<Vec<String>> {
    let (rule, text) = (path("examples/p.rule"), path("examples/p.txt"));
    let words = [
        format!("list {rule}"),
        format!("list --raw {rule}"),
        format!("list --json {rule}"),
        format!("list {text}"),
        format!("list {rule} --save /dev/null"),
        format!("list {rule} --save /dev/full"),
        format!("print {rule} /dev/null"),
        format!("print --length {rule} /dev/null"),
        format!("entry {rule} 0"),
        format!("run {rule} 0"),
        format!("check {rule}"),
        format!("check {}", Stored::named("mark").rule),
        format!("names {}", Stored::named("mark").rule),
        "--help".to_string(),
        "--version".to_string(),
    ];
    words
        .iter()
        .map(|line| line.split(' ').map(str::to_string).collect())
        .collect()
}

fn with_output(words: &[String], output: Stdio) -> Called {
    let words: Vec<&str> = words.iter().map(String::as_str).collect();
    let mut command = command(&words);
    Called::of(
        command
            .stdout(output)
            .stderr(Stdio::piped())
            .output()
            .expect("the command"),
    )
}

#[test]
fn a_full_disk() {
    for words in commands() {
        let full = OpenOptions::new()
            .write(true)
            .open("/dev/full")
            .expect("/dev/full");
        with_output(&words, full.into()).see_fault("cannot be written: No space left");
    }
}

#[test]
fn an_output_that_is_not_for_writing() {
    for words in commands() {
        let closed = File::open("/dev/null").expect("/dev/null");
        with_output(&words, closed.into()).see_fault("cannot be written: Bad file descriptor");
    }
}

/// The command with streams closed or opened as a shell does it.
fn by_shell(streams: &str, words: &[String]) -> Called {
    let script = format!("exec \"$0\" \"$@\" {streams}");
    let mut all = vec!["sh", "-c", &script, COMMAND];
    all.extend(words.iter().map(String::as_str));
    Called::of(program(&all).output().expect("sh"))
}

#[test]
fn a_closed_output() {
    for words in commands() {
        by_shell(">&-", &words).see_fault("standard output is closed");
        assert_eq!(by_shell("<&- >&- 2>&-", &words).status, Some(4));
    }
}

/// An output that is thrown away is not a closed one, however it was opened.
#[test]
fn an_output_that_is_thrown_away() {
    for streams in [">/dev/null", "1<>/dev/null"] {
        let called = by_shell(streams, &commands()[0]);
        assert_eq!((called.status, &called.said[..]), (Some(0), ""));
    }
}

#[test]
fn other_closed_streams() {
    for words in commands() {
        let plain = by_shell("", &words);
        let closed = by_shell("<&- 2>&-", &words);
        assert_eq!(
            (closed.status, closed.printed),
            (plain.status, plain.printed)
        );
        // nor has the answer anything to do with what is said beside it
        let full = by_shell("2>/dev/full", &words);
        assert_eq!(full.status, plain.status);
    }
    by_shell("<&-", &["list".to_string(), "-".to_string()]).see_fault("standard input is closed");
}

/// The reader goes after a byte, as `head -c 1` does: nothing is said.
#[test]
fn a_reader_that_goes() {
    let rule = Stored::named("many_entries").rule;
    for words in [
        &["list", &rule][..],
        &["list", "--depth", "6", &path("examples/relay.txt")],
    ] {
        let mut command = command(words);
        let mut child = command
            .stdout(Stdio::piped())
            .stderr(Stdio::piped())
            .spawn()
            .expect("the command");
        let mut output = child.stdout.take().expect("it is piped");
        output.read_exact(&mut [0]).expect("a byte");
        drop(output);
        let called = Called::of(child.wait_with_output().expect("the command"));
        assert_eq!((called.status, &called.said[..]), (Some(4), ""));
    }
}

#[test]
fn inputs_that_cannot_be_read() {
    call(&["list", "no such file"]).see_fault("no such file: No such file or directory");
    call(&["list", &path("examples")]).see_fault("it is a folder, not a rule");
    // one that does not end is read no further than a rule file may go
    assert_eq!(
        call(&["list", "--raw", "/dev/zero"]).lines(3),
        ["refused 3"]
    );
}
