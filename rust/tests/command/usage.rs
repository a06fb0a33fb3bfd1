//! Help, and faults of use.
use crate::calling::{call, path};

const COMMANDS: [&str; 6] = ["list", "entry", "run", "check", "print", "names"];

#[test]
fn help() {
    let general = call(&["--help"]);
    for words in [&["-h"][..], &["help"], &["help", "nothing"]] {
        assert_eq!(call(words), general);
    }
    let text = general.lines(0).join("\n");
    for status in [
        "0  found",
        "1  none, ended or missing",
        "2  undecided",
        "3  refused",
        "4  a fault",
        "told apart",
    ] {
        assert!(text.contains(status), "{status}");
    }
    for name in COMMANDS {
        let page = call(&[name, "--help"]);
        assert!(page.lines(0)[0].starts_with(&format!("  remburai {name} RULE")));
        assert!(page.printed.contains("Exit status: 0 "));
        assert!(text.contains(&format!("remburai {name} RULE")));
        assert_eq!(call(&["help", name]), page);
        assert_eq!(call(&[name, "rule", "--depth", "3", "-h"]), page);
    }
}

#[test]
fn kinds_in_the_help() {
    let page = call(&["list", "--help"]).printed;
    for kind in ["reach", "unfinished", "missing"] {
        assert!(page.contains(&format!("\n  {kind}  ")), "{kind}");
    }
}

#[test]
fn version() {
    assert_eq!(
        call(&["--version"]).lines(0),
        [format!("remburai {}", env!("CARGO_PKG_VERSION"))]
    );
}

#[test]
fn options_for_every_command_are_in_its_help() {
    for (name, options) in [
        ("list", 6),
        ("run", 2),
        ("check", 2),
        ("print", 4),
        ("names", 3),
    ] {
        let page = call(&[name, "--help"]).printed;
        assert_eq!(
            page.lines().filter(|line| line.starts_with("  --")).count(),
            options,
            "{name}"
        );
    }
}

/// Words with what is said of them; P is a rule file.
const FAULTS: [(&str, &str); 38] = [
    ("lists P", "there is no command \"lists\""),
    ("list", "the rule is missing"),
    ("list P P", "one rule is needed"),
    ("check P 0", "one rule is needed"),
    ("entry P", "the number of an entry"),
    ("entry P 0 1", "the number of an entry"),
    ("entry P first", "first: entries have numbers"),
    ("entry P +1", "+1: entries have numbers"),
    ("run P suc", "suc: the input of a rule file is numbers"),
    ("run P 256", "256: the input of a rule file is numbers"),
    ("list P --depth", "--depth needs a value"),
    ("list P --depth 0", "--depth is a number from 1 to 64"),
    ("list P --depth=65", "--depth is a number from 1 to 64"),
    ("list P --steps 4097", "--steps is a number from 0 to 4096"),
    ("list P --steps=", "--steps is a number from 0 to 4096"),
    ("list P --limit 0", "--limit is a number of seconds above 0"),
    (
        "list P --limit nan",
        "--limit is a number of seconds above 0",
    ),
    ("list P --raw --json", "--raw and --json exclude each other"),
    ("list P --raw=1", "there is no option --raw=1 here"),
    ("run P 0 --limit 3", "there is no option --limit here"),
    ("check -- --raw", "--raw: No such file or directory"),
    ("print P", "a rule and a stored list are needed"),
    ("print P P P", "a rule and a stored list are needed"),
    ("print - -", "cannot both be standard input"),
    ("print P no-list", "no-list: No such file or directory"),
    ("print P P --raw", "there is no option --raw here"),
    ("print P P --full=1", "there is no option --full=1 here"),
    ("list P --full", "there is no option --full here"),
    ("list P --length", "there is no option --length here"),
    ("list P --save", "--save needs a value"),
    ("list P --save -", "--save needs the name of a file"),
    ("entry P 0 --save=x", "there is no option --save=x here"),
    ("names", "the rule is missing"),
    ("names P P", "one rule is needed"),
    ("names P --raw", "there is no option --raw here"),
    ("names P --json", "there is no option --json here"),
    ("names P --save x", "there is no option --save here"),
    (
        "names P --limit 0",
        "--limit is a number of seconds above 0",
    ),
];

#[test]
fn faults() {
    let rule = path("examples/p.rule");
    for (line, part) in FAULTS {
        let put = |word| if word == "P" { rule.as_str() } else { word };
        let words: Vec<&str> = line.split(' ').map(put).collect();
        call(&words).see_fault(part);
    }
    call(&[]).see_fault("a command is missing");
}
