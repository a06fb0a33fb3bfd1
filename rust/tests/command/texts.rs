//! Rules as texts: built by tools/rule, and the answer by the names of the text.
use crate::calling::{call, call_with, command, path, program, Called, Scratch, COMMAND};
use crate::rules::Stored;
use std::fs;

const P: &str = "type nat = zero | suc nat\n\nfn f (n : nat) : nat =\n  case n of\n    zero -> zero\n    suc m -> target 7 m\n\n";

fn text(go: &str) -> String {
    format!("{P}go f {go}\n")
}

#[test]
fn the_names_that_open_a_second_record() {
    let called = call(&["list", &path("examples/relay.txt")]);
    let mut wanted: Vec<String> = ["8", "9", "A", "B"]
        .iter()
        .map(|half| format!("reach 29  \"\\x{half}_\"_"))
        .collect();
    wanted.extend("ÀÁÂÃÄÅÆÇÈÉÊËÌÍÎÏ".chars().map(|letter| match letter {
        'Ã' => "reach 49  \"Ã\"".to_string(),
        _ => format!("reach 40  \"{letter}\"_"),
    }));
    wanted.extend(["D", "E", "F"].map(|half| format!("reach 29  \"\\x{half}_\"_")));
    wanted.push("total 23 0 0 0 found".to_string());
    wanted.push("found within depth 2, 100 steps: 23 entries reach the target.".to_string());
    wanted.push("Every other input of depth 2 or less stops within 100 steps, off target. Of deeper inputs nothing is said.".to_string());
    assert_eq!(called.lines(0), wanted);
    assert_eq!(called.said, "");
}

/// Names that no case covers, by names.
#[test]
fn names_that_no_case_covers() {
    let uncovered = text("label 7 depth 4 steps 20").replace("zero -> zero", "zero -> _");
    let called = call_with(&["list", "-"], uncovered.as_bytes());
    let wanted = [
        "missing 3  zero",
        "reach 3  suc _",
        "total 1 0 1 0 found",
        "found within depth 4, 20 steps: 1 entry reaches the target.",
        "1 entry runs into a missing alternative: no case covers its inputs, which stop there, off target.",
        "Every other input of depth 4 or less stops within 20 steps, off target. Of deeper inputs nothing is said.",
    ];
    assert_eq!((called.lines(0), &called.said[..]), (wanted.to_vec(), ""));
    let called = call_with(&["entry", "--json", "-", "0"], uncovered.as_bytes());
    let wanted = r#"{"kind":"missing","steps":3,"parameters":["zero"]}"#;
    assert_eq!(called.lines(0), [wanted]);
    let called = call_with(&["run", "-", "zero"], uncovered.as_bytes());
    let wanted =
        "missing an alternative after 3 steps on an input of depth 1, within depth 4, 20 steps: \
                  no case covers the input, which stops there, off target.";
    assert_eq!(called.lines(1), [wanted]);
}

fn names_of_examples() -> Vec<String> {
    let folder = fs::read_dir(path("examples")).expect("a folder");
    let names = folder.map(|entry| entry.expect("an entry").file_name());
    let texts = names.filter_map(|name| Some(name.to_str()?.strip_suffix(".txt")?.to_string()));
    texts.collect()
}

/// The text of a rule file gives what the rule file gives, but for names and warnings.
#[test]
fn a_text_and_its_rule_file() {
    let names = names_of_examples();
    assert!(6 <= names.len());
    for name in names {
        let text = path(&format!("examples/{name}.txt"));
        let rule = path(&format!("examples/{name}.rule"));
        for words in [&["list", "--raw"][..], &["check"]] {
            let (of_text, of_rule) = (
                call(&[words, &[&text]].concat()),
                call(&[words, &[&rule]].concat()),
            );
            assert_eq!(
                (of_text.status, of_text.printed),
                (of_rule.status, of_rule.printed),
                "{name}"
            );
        }
        let (named, numbered) = (call(&["list", &text]), call(&["list", &rule]));
        assert_eq!(named.status, numbered.status);
        assert_eq!(
            named.printed.lines().count(),
            numbered.printed.lines().count()
        );
    }
}

#[test]
fn json_and_entries_by_names() {
    let text = path("examples/p.txt");
    let wanted = [
        r#"{"kind":"reach","steps":6,"parameters":["suc (suc _)"]}"#,
        r#"{"reach":1,"unfinished":0,"missing":0,"share":0,"verdict":"found","depth":4,"steps":20}"#,
    ];
    assert_eq!(call(&["list", "--json", &text]).lines(0), wanted);
    assert_eq!(call(&["entry", "--json", &text, "0"]).lines(0), wanted[..1]);
    assert_eq!(
        call(&["entry", &text, "0"]).lines(0)[0],
        "reach 6  suc (suc _)"
    );
}

#[test]
fn runs_by_names() {
    let text = path("examples/p.txt");
    let reached = "reached after 6 steps on an input of depth 3, within depth 4, 20 steps.";
    assert_eq!(call(&["run", &text, "suc (suc zero)"]).lines(0), [reached]);
    assert_eq!(call(&["run", &text, "1 1 0"]).lines(0), [reached]);
    assert_eq!(call(&["run", &text, "zero"]).status, Some(1));
    assert_eq!(
        call_with(&["run", "-", "suc (suc zero)"], &fs::read(&text).unwrap()).lines(0),
        [reached]
    );
    call(&["run", &text, "succ zero"]).see_fault("succ");
    call(&["run", &text]).see_fault("'isTwo' takes 1 value");
    // too deep is a refusal, as it is for a rule file
    let deep = "suc (suc (suc (suc zero)))";
    assert!(call(&["run", &text, deep]).lines(3)[0].starts_with("refused 10 input"));
    assert_eq!(
        call(&["run", &text, deep, "--depth", "5"]).lines(0),
        ["reached after 6 steps on an input of depth 5, within depth 5, 20 steps."]
    );
}

/// A depth above that of the text: its entries have their names too.
#[test]
fn names_below_the_depth_of_the_text() {
    let shallow = text("label 7 depth 1 steps 20");
    assert_eq!(
        call_with(&["list", "-"], shallow.as_bytes()).status,
        Some(1)
    );
    let deeper = call_with(&["list", "-", "--depth", "5"], shallow.as_bytes());
    assert_eq!(deeper.lines(0)[0], "reach 3  suc _");
}

#[test]
fn warnings_and_faults_are_passed_on() {
    let typo = call_with(&["list", "-"], text("label 8 depth 4 steps 20").as_bytes());
    assert_eq!(typo.lines(1)[0], "total 0 0 0 0 none");
    assert!(
        typo.said.contains("standard input:8: warning:"),
        "{}",
        typo.said
    );
    // more steps than reachlist takes are no matter here
    let many = call_with(
        &["list", "-"],
        text("label 7 depth 4 steps 4096").as_bytes(),
    );
    assert_eq!((many.status, &many.said[..]), (Some(0), ""));
    let wrong = Scratch::file(
        "wrong.txt",
        text("label 7 depth 4 steps 20")
            .replace("target 7 m", "target 7 k")
            .as_bytes(),
    );
    call(&["list", wrong.name()]).see_fault(&format!("{}:6: ", wrong.name()));
    call_with(&["check", "-"], b"fn").see_fault("standard input:1: ");
    call_with(
        &["check", "-"],
        text("label 7 depth 4 steps 20")
            .replace("zero", "z\u{e9}ro \u{1}")
            .as_bytes(),
    )
    .lines(3);
}

/// Rule files and texts are told apart by their content.
#[test]
fn rule_files_and_texts() {
    let p = fs::read(path("examples/p.rule")).unwrap();
    let status = |bytes: &[u8]| call_with(&["check", "-"], bytes).status;
    // rule files, refused as such: empty, TY alone, a wrong first mark, zeros
    for bytes in [
        &b""[..],
        b"TY",
        &p[6..],
        b"\0\0\0",
        b"ty\x02",
        b"TYPE",
        b"\x7fELF",
    ] {
        assert_eq!(status(bytes), Some(3), "{bytes:?}");
    }
    assert_eq!(status(&p), Some(0));
    // texts with faults: a word, a rest of a mark, Latin-1
    for bytes in [&b"type"[..], b"T", b"\n", b"-- r\xe9union\n"] {
        assert_eq!(status(bytes), Some(4), "{bytes:?}");
    }
    assert_eq!(
        status(
            text("label 7 depth 4 steps 20")
                .replace('\n', "\r\n")
                .as_bytes()
        ),
        Some(0)
    );
    // longer than a rule file may be, but a text
    let long = format!(
        "{}{}",
        "-- a comment\n".repeat(2000),
        text("label 7 depth 4 steps 20")
    );
    assert_eq!(status(long.as_bytes()), Some(0));
}

/// A text that can be read once only: a pipe with a name.
#[test]
fn a_text_through_a_pipe() {
    let script = format!("cat {} | \"$0\" list /dev/stdin", path("examples/p.txt"));
    let called = Called::of(
        program(&["bash", "-c", &script, COMMAND])
            .output()
            .expect("bash"),
    );
    assert_eq!(called.lines(0)[0], "reach 6  suc (suc _)");
}

/// A name that begins like an option.
#[test]
fn a_path_that_looks_like_an_option() {
    let file = Scratch::file("-text.txt", text("label 7 depth 4 steps 20").as_bytes());
    let mut command = command(&["list", "--", "-text.txt"]);
    command.current_dir(file.0.parent().unwrap());
    let called = Called::of(command.output().unwrap());
    assert_eq!(called.lines(0)[0], "reach 3  suc _");
}

#[test]
fn without_the_tool() {
    let text = path("examples/p.txt");
    for (name, part) in [
        ("", "lib/remburai/rule: a text needs tools/rule"),
        ("/no/rule", "/no/rule: a text needs tools/rule"),
        ("/etc/passwd", "Permission denied"),
    ] {
        let mut command = command(&["list", &text]);
        Called::of(command.env("REMBURAI_RULE", name).output().unwrap()).see_fault(part);
    }
    // a rule file does not need it
    let mut command = command(&["list", &Stored::named("p").rule]);
    assert_eq!(
        Called::of(command.env("REMBURAI_RULE", "/no/rule").output().unwrap()).status,
        Some(0)
    );
}

/// A tool that fails in the middle of the names: what is printed has no total, and the status is 4.
#[test]
fn a_tool_that_breaks_off() {
    let real = command(&[])
        .get_envs()
        .find_map(|(name, value)| (name == "REMBURAI_RULE").then_some(value))
        .unwrap()
        .unwrap()
        .to_owned();
    let script = format!(
        "#!/bin/sh\n[ $1 = names ] || exec {} \"$@\"\nhead -n 2\nexit 3\n",
        real.to_str().unwrap()
    );
    let tool = Scratch::file("rule", script.as_bytes());
    fs::set_permissions(&tool.0, std::os::unix::fs::PermissionsExt::from_mode(0o755)).unwrap();
    let mut command = command(&["list", &path("examples/relay.txt")]);
    let called = Called::of(command.env("REMBURAI_RULE", &tool.0).output().unwrap());
    assert_eq!(
        (called.status, called.printed.lines().count()),
        (Some(4), 2)
    );
    assert!(called.said.contains("exit status: 3"), "{}", called.said);
}

/// What the command writes for tools/rule is gone when it ends, and no fault where it cannot be written is silent.
#[test]
fn no_files_are_left() {
    let folder = Scratch::file("holder", b"").0.with_file_name("temporary");
    fs::create_dir_all(&folder).unwrap();
    let mut listing = command(&["list", &path("examples/p.txt")]);
    assert_eq!(
        listing
            .env("TMPDIR", &folder)
            .output()
            .unwrap()
            .status
            .code(),
        Some(0)
    );
    assert_eq!(fs::read_dir(&folder).unwrap().count(), 0);
    fs::remove_dir(&folder).unwrap();
    let mut listing = command(&["list", &path("examples/p.txt")]);
    Called::of(listing.env("TMPDIR", &folder).output().unwrap())
        .see_fault("No such file or directory");
}
