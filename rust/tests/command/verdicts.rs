//! What is said of a verdict or of an outcome: never without the depth and the step limit.
use crate::calling::{call, call_within, path, Scratch};
use crate::rules::{endless, uncovered, Stored};
use std::time::{Duration, Instant};

fn p(words: &[&str]) -> Vec<String> {
    let rule = path("examples/p.rule");
    let called = call(&[&["list", &rule], words].concat());
    let lines = called.printed.lines().map(str::to_string);
    lines
        .chain([format!("status {:?}", called.status)])
        .collect()
}

#[test]
fn found() {
    let wanted = [
        "reach 6  1 1 _",
        "total 1 0 0 0 found",
        "found within depth 4, 20 steps: 1 entry reaches the target.",
        "Every other input of depth 4 or less stops within 20 steps, off target. Of deeper inputs nothing is said.",
        "status Some(0)",
    ];
    assert_eq!(p(&[]), wanted);
}

#[test]
fn found_beside_unfinished() {
    let called = call(&["list", &Stored::named("long_entries").rule]);
    let wanted = [
        "total 752 16 0 2 found",
        "found within depth 60, 240 steps: 752 entries reach the target, and 16 are unfinished.",
        "Whether inputs that complete an unfinished entry reach the target, or run into a missing alternative, is not known; a larger --steps may tell.",
        "Every other input of depth 60 or less stops within 240 steps, off target. Of deeper inputs nothing is said.",
    ];
    assert_eq!(called.lines(0)[768..], wanted);
}

#[test]
fn none() {
    let wanted = [
        "total 0 0 0 0 none",
        "none within depth 2, 20 steps: every input of depth 2 or less stops within 20 steps, off target.",
        "Of deeper inputs nothing is said.",
        "status Some(1)",
    ];
    assert_eq!(p(&["--depth", "2"]), wanted);
}

#[test]
fn undecided() {
    let wanted = [
        "unfinished 1  _",
        "total 0 1 0 100 undecided",
        "undecided within depth 4, 1 step: no entry reaches the target, and 1 is unfinished.",
        "Whether inputs that complete an unfinished entry reach the target, or run into a missing alternative, is not known; a larger --steps may tell.",
        "Every other input of depth 4 or less stops within 1 step, off target. Of deeper inputs nothing is said.",
        "status Some(2)",
    ];
    assert_eq!(p(&["--steps", "1"]), wanted);
    // no larger step limit is promised where there is none
    let called = call(&[
        "list",
        "--steps",
        "4096",
        &Stored::named("no_parameters_undecided").rule,
    ]);
    assert!(called.lines(2)[3].ends_with("is not known; 4096 steps are the most there are."));
}

/// What is said of the entries that run into a missing alternative, beside each verdict.
#[test]
fn missing() {
    let rule = Scratch::file("uncovered.rule", &uncovered());
    let one = "1 entry runs into a missing alternative: no case covers its inputs, which stop there, off target.";
    let list = |words: &[&str]| call(&[&["list", rule.name()], words].concat());
    let wanted = [
        "total 1 0 1 0 found",
        "found within depth 4, 20 steps: 1 entry reaches the target.",
        one,
        "Every other input of depth 4 or less stops within 20 steps, off target. Of deeper inputs nothing is said.",
    ];
    assert_eq!(list(&[]).lines(0)[2..], wanted);
    let wanted = [
        "missing 3  0",
        "total 0 0 1 0 none",
        "none within depth 2, 20 steps: every input of depth 2 or less stops within 20 steps, off target.",
        one,
        "Of deeper inputs nothing is said.",
    ];
    assert_eq!(list(&["--depth", "2"]).lines(1), wanted);
    let wanted = [
        "missing 3  0",
        "unfinished 3  1 _",
        "total 0 1 1 100 undecided",
        "undecided within depth 4, 3 steps: no entry reaches the target, and 1 is unfinished.",
        "Whether inputs that complete an unfinished entry reach the target, or run into a missing alternative, is not known; a larger --steps may tell.",
        one,
        "Every other input of depth 4 or less stops within 3 steps, off target. Of deeper inputs nothing is said.",
    ];
    assert_eq!(list(&["--steps", "3"]).lines(2), wanted);
    let several = call(&["list", &path("examples/even.rule")]);
    assert!(several.lines(0)[10]
        .starts_with("3 entries run into a missing alternative: no case covers their inputs,"));
}

#[test]
fn a_run_into_a_missing_alternative() {
    let rule = Scratch::file("run.rule", &uncovered());
    let called = call(&["run", rule.name(), "0", "--steps", "3"]);
    let wanted =
        "missing an alternative after 3 steps on an input of depth 1, within depth 4, 3 steps: \
                  no case covers the input, which stops there, off target.";
    assert_eq!(called.lines(1), [wanted]);
    let called = call(&["run", rule.name(), "0", "--steps", "2"]);
    assert!(called.lines(2)[0]
        .starts_with("unfinished after 2 steps on an input of depth 1, within depth 4, 2 steps: "));
}

/// D and S of the command line give what a rule file with these D and S gives.
#[test]
fn another_goal() {
    let goals = [
        ("p_d3", &["--depth", "3"][..]),
        ("p_d2", &["--depth=2"]),
        ("p_d1", &["--depth", "1"]),
        ("p_s6", &["--steps", "6"]),
        ("p_s5", &["--steps", "5"]),
        ("p_s2", &["--steps=2"]),
        ("p_s0", &["--steps", "0"]),
        ("p", &["--depth", "64", "--steps", "4096"]),
    ];
    let rule = path("examples/p.rule");
    for (name, words) in goals {
        let called = call(&[&["list", "--raw", &rule], words].concat());
        assert_eq!(called.printed, Stored::named(name).printed, "{name}");
    }
    assert_eq!(
        call(&["check", "--depth", "64", "--steps=4096", &rule]).lines(0),
        ["accepted: depth 64, 4096 steps"]
    );
}

#[test]
fn runs() {
    let rule = path("examples/p.rule");
    let run = |words: &[&str], status: i32| {
        call(&[&["run", &rule], words].concat()).lines(status)[0].to_string()
    };
    assert_eq!(
        run(&["1", "1", "0"], 0),
        "reached after 6 steps on an input of depth 3, within depth 4, 20 steps."
    );
    assert_eq!(
        run(&["1 1", " 0"], 0),
        "reached after 6 steps on an input of depth 3, within depth 4, 20 steps."
    );
    assert_eq!(
        run(&["0"], 1),
        "ended off target after 3 steps on an input of depth 1, within depth 4, 20 steps."
    );
    let open =
        "unfinished after 5 steps on an input of depth 3, within depth 3, 5 steps: whether the input reaches the target, \
                or runs into a missing alternative, is not known; a larger --steps may tell.";
    assert_eq!(run(&["1 1 0", "--steps", "5", "--depth", "3"], 2), open);
}

/// The depth of the deepest value, which is 0 where there is none; and none where the input is refused.
#[test]
fn how_deep_an_input_is() {
    let without = call(&["run", &Stored::named("no_parameters_found").rule]);
    assert!(without.lines(0)[0].contains(" on an input of depth 0, within depth "));
    let deepest = "1 1 1 0";
    let rule = Stored::named("equal_numbers").rule;
    for values in [["0", deepest], [deepest, "1 0"]] {
        let called = call(&["run", &rule, values[0], values[1]]);
        let wanted = " on an input of depth 4, within depth 6, 40 steps.";
        assert!(called.lines(1)[0].ends_with(wanted), "{called:?}");
    }
    let rule = path("examples/p.rule");
    let called = call(&["run", &rule, "--depth", "3", deepest]);
    assert!(called.lines(3).iter().all(|line| !line.contains("depth")));
    let called = call(&["run", &rule, "--depth", "4", deepest]);
    assert!(called.lines(0)[0].contains(" on an input of depth 4, within depth 4, "));
    let number = |depth: usize| "1 ".repeat(depth - 1) + "0";
    let called = call(&["run", &rule, "--depth", "64", &number(64)]);
    assert!(called.lines(0)[0].contains(" on an input of depth 64, within depth 64, "));
    let called = call(&["run", &rule, "--depth", "64", &number(65)]);
    assert!(called.lines(3)[0].starts_with("refused 10 input"));
}

/// A search that is given up has no verdict: no word of one is printed.
#[test]
fn a_limit() {
    let rule = Scratch::file("endless.rule", &endless());
    for words in [
        &["list", rule.name()][..],
        &["entry", rule.name(), "0"],
        &["names", rule.name()],
    ] {
        let began = Instant::now();
        let called = call_within(20, &[words, &["--limit", "0.3"]].concat());
        assert!(Duration::from_millis(300) <= began.elapsed());
        assert_eq!(called.lines(2), [""; 0]);
        assert!(called.said.contains(
            "no answer after 0.3 s: the search within depth 64, 4096 steps was given up"
        ));
        assert!(!["found", "none", "undecided"]
            .iter()
            .any(|word| called.said.contains(word)));
    }
    // a search that ends in time is as without
    let rule = path("examples/p.rule");
    assert_eq!(
        call(&["list", &rule, "--limit", "60"]),
        call(&["list", &rule])
    );
}
