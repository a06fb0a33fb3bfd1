//! The names of a rule: the lines of `namelist`, and what is said beside them.
use crate::calling::{call, call_with, path, Called, Scratch};
use crate::rules::{named, too_many_names};

fn see_said(called: &Called, sentence: &str) {
    assert_eq!(called.said, format!("remburai: {sentence}\n"));
}

/// One name, whose second half and whose rest are open.
#[test]
fn lines() {
    let rule = Scratch::file("named.rule", &named());
    let called = call(&["names", rule.name()]);
    assert_eq!(called.lines(0), ["192 195 128"]);
    assert_eq!(called.printed, "192 195 128\n");
    let said = "1 name within depth 3, 20 steps; its entry may stand for others too";
    see_said(&called, said);
    assert_eq!(call_with(&["names", "-"], &named()), called);
    assert_eq!(call(&["names", rule.name(), "--limit", "60"]), called);
}

/// D and S of the command line: at D 1 there is the empty name alone, which does not reach the target, and with one step nothing is known.
#[test]
fn another_goal() {
    let rule = Scratch::file("goal.rule", &named());
    let called = call(&["names", rule.name(), "--depth", "1"]);
    assert_eq!((called.status, &called.printed[..]), (Some(0), ""));
    let said = "no names within depth 1, 20 steps: the list has no entry";
    see_said(&called, said);
    let called = call(&["names", rule.name(), "--steps=1"]);
    assert_eq!((called.status, &called.printed[..]), (Some(0), "\n"));
    // more steps than namelist takes
    let called = call(&["names", rule.name(), "--steps", "4096"]);
    assert_eq!(called.lines(0), ["192 195 128"]);
}

/// A rule that names no type, and one that has no parameter of the named type.
#[test]
fn no_names() {
    let called = call(&["names", &path("examples/p.rule")]);
    assert_eq!((called.status, &called.printed[..]), (Some(0), ""));
    see_said(&called, "no names: the rule has no record NA");
    let types = [&b"TY\x10"[..], &[0; 16], b"TY\x02\x00\x03\x00\x00\x01"];
    let source = b"FN\x01\x00\x00\x04\x00\x05\x07\x00\x00NA\x01GO\x00\x07\x03\x14\x00";
    let file = [&types.concat()[..], source].concat();
    assert_eq!(
        call_with(&["list", "--raw", "-"], &file).lines(0)[0],
        "reach 0 _"
    );
    let called = call_with(&["names", "-"], &file);
    assert_eq!((called.status, &called.printed[..]), (Some(0), ""));
    let said = "no names: no parameter of the source is of the named type";
    see_said(&called, said);
}

/// The other commands answer as without the record NA.
#[test]
fn other_answers() {
    let file = named();
    let (behind, record) = (file.len() - 7, file.len() - 10);
    let unnamed = [&file[..record], &file[behind..]].concat();
    for words in [
        &["list", "-"][..],
        &["list", "--raw", "-"],
        &["list", "--json", "-"],
        &["entry", "-", "0"],
        &["run", "-", "1 12 9 0"],
        &["check", "-"],
    ] {
        assert_eq!(call_with(words, &file), call_with(words, &unnamed));
    }
    let reached = call_with(&["run", "-", "1 12 9 0"], &file);
    assert!(reached.lines(0)[0].starts_with("reached after 6 steps"));
}

/// A list that is full: the names of the entries that fit are printed, and it is said that there are more.
#[test]
fn a_list_that_is_full() {
    const FIT: usize = 16_777_216 / 13;
    let rule = Scratch::file("names_full.rule", &too_many_names());
    let called = call(&["names", rule.name()]);
    let lines = called.lines(3);
    assert_eq!(lines.len(), FIT + 1);
    assert_eq!(lines[FIT], "refused 12");
    assert!(lines[..FIT].iter().all(|line| line.is_empty()));
    let sentence =
        format!("{FIT} names within depth 1, 100 steps: the list is full, and there are more");
    assert!(
        called.said.starts_with(&format!("remburai: {sentence}\n")),
        "{}",
        called.said
    );
    assert!(called.said.contains("remburai: refused 12 full: "));
    assert!(called.said.contains("remburai: What to do: "));
}

/// Two names for the one entry.
#[test]
fn several_names() {
    let types = [&b"TY\x10"[..], &[0; 16], b"TY\x02\x00\x03\x00\x00\x01"];
    let source = b"FN\x02\x01\x01\x01\x04\x00\x05\x07\x00\x00NA\x01GO\x00\x07\x03\x14\x00";
    let called = call_with(&["names", "-"], &[&types.concat()[..], source].concat());
    assert_eq!((called.status, &called.printed[..]), (Some(0), "\n\n"));
    let said = "2 names within depth 3, 20 steps; their entries may stand for others too";
    see_said(&called, said);
}
