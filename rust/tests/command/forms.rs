//! The forms of a list: for people, raw, and in JSON.
use crate::calling::{call, call_with, path, Scratch};
use crate::json::{number, object, string, strings};
use crate::rules::{stored, uncovered, Stored};

/// The exit status that the last line of `reachlist` comes to.
fn status(last: &str) -> i32 {
    match last.split(' ').collect::<Vec<_>>()[..] {
        ["total", .., "found"] => 0,
        ["total", .., "none"] => 1,
        ["total", .., "undecided"] => 2,
        ["refused", _] => 3,
        _ => panic!("{last}"),
    }
}

#[test]
fn raw_lists_are_those_of_reachlist() {
    for case in stored().iter().filter(|case| case.whole()) {
        let called = call(&["list", "--raw", &case.rule]);
        assert_eq!(called.printed, case.printed, "{}", case.name);
        assert_eq!(called.status, Some(status(case.last())), "{}", case.name);
        let bytes = std::fs::read(&case.rule).expect("a rule file");
        let piped = call_with(&["list", "--raw", "-"], &bytes);
        assert_eq!(piped, called, "{}", case.name);
    }
}

/// What `reachlist` has no room for, with the total that the blind side gives it.
#[test]
fn raw_lists_that_reachlist_refuses() {
    let totals = [
        ("s241", "total 1 0 0 0 found"),
        ("s4096", "total 1 0 0 0 found"),
        ("list_lacks_a_byte", "total 2047 0 1 0 found"),
        ("list_lacks_entries", "total 2303 0 1 0 found"),
        ("many_entries", "total 4096 0 0 0 found"),
        ("long_entries", "total 752 16 0 2 found"),
        ("name_list_lacks_a_byte", "total 2048 0 0 0 found"),
        ("name_list_lacks_entries", "total 768 768 1024 50 found"),
        ("name_long_entries", "total 276 6 0 2 found"),
        ("name_s241", "total 1 0 0 0 found"),
    ];
    let refused: Vec<Stored> = stored().into_iter().filter(|case| !case.whole()).collect();
    assert_eq!(refused.len(), totals.len());
    for (name, total) in totals {
        let case = Stored::named(name);
        let called = call(&["list", &case.rule, "--raw"]);
        let lines = called.lines(0);
        let first: Vec<&str> = case
            .printed
            .lines()
            .filter(|line| !line.starts_with("refused"))
            .collect();
        assert_eq!(lines[..first.len()], first, "{name}");
        assert!(first.len() < lines.len());
        assert_eq!(lines.last(), Some(&total), "{name}");
    }
}

/// Each object says what the line of `reachlist` says.
#[test]
fn json_lists_say_the_same() {
    for case in stored().iter().filter(|case| case.whole()) {
        let called = call(&["list", "--json", &case.rule]);
        let lines: Vec<String> = called
            .lines(status(case.last()))
            .into_iter()
            .map(raw_line)
            .collect();
        assert_eq!(
            lines,
            case.printed.lines().collect::<Vec<_>>(),
            "{}",
            case.name
        );
    }
}

/// The line of `reachlist` that an object stands for.
fn raw_line(line: &str) -> String {
    let fields = object(line);
    let names: Vec<&str> = fields.iter().map(|(name, _)| name.as_str()).collect();
    match names[..] {
        ["kind", "steps", "parameters"] => {
            let parameters = strings(&fields[2].1)
                .into_iter()
                .map(|part| format!(" {part}"));
            format!(
                "{} {}{}",
                string(&fields[0].1),
                number(&fields[1].1),
                parameters.collect::<String>()
            )
        }
        ["reach", "unfinished", "missing", "share", "verdict", "depth", "steps"] => {
            let counts = fields[..4]
                .iter()
                .map(|(_, value)| number(value).to_string());
            format!(
                "total {} {}",
                counts.collect::<Vec<_>>().join(" "),
                string(&fields[4].1)
            )
        }
        ["refused", "word"] => format!("refused {}", number(&fields[0].1)),
        _ => panic!("{line}"),
    }
}

#[test]
fn json_of_a_list() {
    let called = call(&["list", "--json", "--depth", "5", &Stored::named("p").rule]);
    let wanted = [
        r#"{"kind":"reach","steps":6,"parameters":["1 1 _"]}"#,
        r#"{"reach":1,"unfinished":0,"missing":0,"share":0,"verdict":"found","depth":5,"steps":20}"#,
    ];
    assert_eq!(called.lines(0), wanted);
    let called = call(&["list", "--json", &Stored::named("shallow").rule]);
    assert_eq!(called.lines(3), [r#"{"refused":9,"word":"shallow"}"#]);
    let called = call(&["list", "--json", &Stored::named("no_parameters_found").rule]);
    assert!(called.lines(0)[0].ends_with(r#""parameters":[]}"#));
}

#[test]
fn a_missing_entry_in_each_form() {
    let rule = Scratch::file("forms.rule", &uncovered());
    let list = |form: &[&str]| call(&[&["list", rule.name()], form].concat());
    let people = list(&[]);
    assert_eq!(people.lines(0)[..2], ["missing 3  0", "reach 6  1 1 _"]);
    assert_eq!(
        list(&["--raw"]).lines(0),
        ["missing 3 0", "reach 6 1 1 _", "total 1 0 1 0 found"]
    );
    let wanted = [
        r#"{"kind":"missing","steps":3,"parameters":["0"]}"#,
        r#"{"reach":0,"unfinished":0,"missing":1,"share":0,"verdict":"none","depth":2,"steps":20}"#,
    ];
    assert_eq!(list(&["--json", "--depth", "2"]).lines(1), wanted);
    let entry = call(&["entry", rule.name(), "0"]);
    assert_eq!(
        entry.lines(0),
        [
            "missing 3  0",
            "entry 0 of the list within depth 4, 20 steps."
        ]
    );
}

/// By numbers, each parameter after two spaces.
#[test]
fn lists_for_people() {
    let called = call(&["list", &Stored::named("share_33").rule]);
    assert_eq!(
        called.lines(0)[..4],
        [
            "reach 3  0  _",
            "unfinished 20  1  0",
            "reach 6  1  1",
            "total 2 1 0 33 found"
        ]
    );
    let called = call(&["list", &Stored::named("no_parameters_found").rule]);
    assert_eq!(called.lines(0)[0].split(' ').count(), 2);
}

/// With `--raw`, D and S stand on standard error.
#[test]
fn depth_and_steps_beside_a_raw_list() {
    let called = call(&["list", "--raw", "--steps=7", &path("examples/p.rule")]);
    assert_eq!(called.said, "remburai: found within depth 4, 7 steps\n");
}

#[test]
fn entries_by_their_numbers() {
    let rule = Stored::named("share_33").rule;
    let called = call(&["entry", &rule, "1"]);
    assert_eq!(
        called.lines(0),
        [
            "unfinished 20  1  0",
            "entry 1 of the list within depth 8, 20 steps."
        ]
    );
    assert_eq!(
        call(&["entry", "--raw", &rule, "2"]).lines(0),
        ["reach 6 1 1"]
    );
    let called = call(&["entry", "--json", &rule, "0"]);
    assert_eq!(
        called.lines(0),
        [r#"{"kind":"reach","steps":3,"parameters":["0","_"]}"#]
    );
    let called = call(&["entry", &rule, "3"]);
    assert_eq!(
        called.lines(1),
        ["no entry 3: the list within depth 8, 20 steps has 3, counted from 0."]
    );
    let called = call(&["entry", "--raw", &rule, "18446744073709551615"]);
    assert_eq!(called.lines(1), [""; 0]);
    assert!(called.said.contains("no entry 18446744073709551615"));
}
