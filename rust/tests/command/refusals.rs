//! Refusals: their number, their word and what to do, with status 3, by every command.
use crate::calling::{call, path, Scratch};
use crate::rules::{named, stored, too_many_entries, Stored};
use remburai::Refusal;

fn word(number: usize) -> &'static str {
    Refusal::ALL[number - 1].word()
}

fn see(printed: &[&str], number: usize) {
    let begin = format!("refused {number} {}: ", word(number));
    assert!(printed[0].starts_with(&begin), "{printed:?}");
    assert!(
        printed[1].starts_with("What to do: ") && printed[1].ends_with('.'),
        "{printed:?}"
    );
    assert_eq!(printed.len(), 2);
}

#[test]
fn of_the_check() {
    let mut seen = [false; Refusal::ALL.len() + 1];
    for case in stored().iter().filter(|case| case.whole()) {
        let Some(number) = case.last().strip_prefix("refused ") else {
            continue;
        };
        let number: usize = number.parse().expect("a number");
        seen[number] = true;
        see_every_command(&case.rule, number);
    }
    assert_eq!(seen[1..10], [true; 9]);
}

/// Sees that a rule is refused by each command, in its form.
fn see_every_command(rule: &str, number: usize) {
    for words in [&["list"][..], &["check"], &["entry", "0"], &["run", "0"]] {
        let called = call(&[&words[..1], &[rule], &words[1..]].concat());
        see(&called.lines(3), number);
    }
    for words in [
        &["list", "--raw", rule][..],
        &["names", rule],
        &["print", rule, "/dev/null"],
    ] {
        let called = call(words);
        assert_eq!(called.lines(3), [format!("refused {number}")]);
        let word = format!("remburai: refused {number} {}", word(number));
        assert!(called.said.contains(&word), "{called:?}");
    }
}

/// A named type of another form, also with a goal of the command line.
#[test]
fn of_a_named_type() {
    let mut file = named();
    let place = file.len() - 8;
    file[place] = 0;
    let rule = Scratch::file("spelling.rule", &file);
    see_every_command(rule.name(), 15);
    let called = call(&["check", rule.name(), "--depth", "1"]);
    see(&called.lines(3), 15);
    assert!(called
        .printed
        .contains("the type named by NA is not of the form that spells names"));
}

/// A file that is refused is refused as it is, whatever goal is asked for.
#[test]
fn before_another_goal() {
    for name in ["short", "range", "shallow"] {
        let rule = Stored::named(name).rule;
        let plain = call(&["list", &rule]);
        assert_eq!(
            call(&["list", "--depth", "9", "--steps", "9", &rule]),
            plain
        );
        assert_eq!(plain.status, Some(3));
    }
    // a depth that is too small for the rule is refused like one in the rule file
    let called = call(&["list", "--depth", "2", &Stored::named("least_depth").rule]);
    see(&called.lines(3), 9);
}

#[test]
fn of_an_input() {
    let rule = path("examples/p.rule");
    for words in [
        &[][..],
        &["1"],
        &["2"],
        &["0", "0"],
        &["1 1 1 1 0"],
        &["255"],
    ] {
        let called = call(&[&["run", &rule], words].concat());
        see(&called.lines(3), 10);
    }
}

/// A list that is full: the entries that fit are listed, and there is no verdict.
#[test]
fn of_a_list_that_is_full() {
    const FIT: usize = 16_777_216 / 12;
    let rule = Scratch::file("full.rule", &too_many_entries());
    let called = call(&["list", "--raw", rule.name()]);
    let lines = called.lines(3);
    assert_eq!(lines.len(), FIT + 1);
    assert_eq!(lines[FIT], "refused 12");
    assert!(lines[..FIT].iter().all(|line| line.starts_with("reach ")));
    let sentence = format!("No verdict within depth 1, 100 steps: the list is full after {FIT} entries, and there are more.");
    assert!(called.said.contains(&sentence), "{}", called.said);

    let last = (FIT - 1).to_string();
    assert_eq!(
        call(&["entry", "--raw", rule.name(), &last]).lines(0),
        [lines[FIT - 1]]
    );
    let called = call(&["entry", rule.name(), &FIT.to_string()]);
    let printed = called.lines(3);
    assert_eq!(printed[0], sentence);
    see(&printed[1..], 12);
}
