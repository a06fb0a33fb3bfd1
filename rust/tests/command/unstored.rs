//! Lists that are not stored: without an answer, at a place that cannot be written, or on a disk that is full. No answer is lost by that.
use crate::calling::{call, call_within, command, path, program, Called, Scratch, COMMAND};
use crate::rules::{endless, too_many_entries, Stored};
use crate::storing::Place;
use std::fs;
use std::os::unix::fs::FileTypeExt;
use std::thread::yield_now;

/// Without a list nothing is stored: an empty file would be the list of a search that found none.
#[test]
fn nothing_is_stored() {
    let place = Place::new("nothing");
    for name in ["short", "hollow", "shallow"] {
        let called = call(&["list", &Stored::named(name).rule, "--save", &place.file]);
        assert_eq!(called.status, Some(3));
    }
    let rule = Scratch::file("nothing.rule", &endless());
    let words = ["list", rule.name(), "--limit", "0.2", "--save", &place.file];
    assert_eq!(call_within(20, &words).status, Some(2));
    assert_eq!(place.names(), [""; 0]);
    place.put_old();
    assert_eq!(call_within(20, &words).status, Some(2));
    place.see_old();
}

/// A search that is killed leaves nothing beside the file. It has begun where the command has a second thread.
#[test]
fn a_search_that_is_killed() {
    let place = Place::new("killed");
    place.put_old();
    let rule = Scratch::file("killed.rule", &endless());
    let words = ["list", rule.name(), "--save", &place.file];
    let mut child = command(&words).spawn().expect("the command");
    let threads = format!("/proc/{}/task", child.id());
    while fs::read_dir(&threads).expect("its threads").count() < 2 {
        assert_eq!(child.try_wait().expect("the command"), None);
        yield_now();
    }
    child.kill().expect("the command");
    assert_eq!(child.wait().expect("the command").code(), None);
    place.see_old();
}

/// Where a list cannot be stored is said before the search, which here would have no end.
#[test]
fn a_place_that_cannot_be_written() {
    let place = Place::new("unwritten");
    let rule = Scratch::file("unwritten.rule", &endless());
    let see = |name: &str, part: &str| {
        call_within(20, &["list", rule.name(), "--save", name]).see_fault(part)
    };
    let folder = place.folder.name();
    let unmade = "list: no file can be made beside it: No such file or directory";
    see(&format!("{folder}/no/list"), unmade);
    see(&format!("{folder}/no/"), "No such file or directory");
    see(&format!("{folder}/{:0200}/list", 0), unmade);
    see(&format!("{folder}/{:0260}", 0), "File name too long");
    see(folder, "not stored: Is a directory");
    assert_eq!(place.names(), [""; 0]);
}

/// Sees that a call, with this fault said at last, has printed and said what the call without storing has.
fn see_unstored(called: &Called, plain: &Called, part: &str) {
    assert_eq!(called.status, Some(4), "{}", called.said);
    assert!(called.printed == plain.printed);
    let last = called.said.strip_prefix(&plain.said[..]);
    let wanted = |last: &str| last.starts_with("remburai: ") && last.contains(part);
    assert!(last.is_some_and(wanted), "{:?}", called.said);
    assert_eq!(called.said.lines().count(), plain.said.lines().count() + 1);
}

/// A list that cannot be stored after its search is printed all the same.
#[test]
fn a_full_disk() {
    let text = path("examples/p.txt");
    let cut = Scratch::file("unstored.rule", &too_many_entries());
    for words in [
        &["list", &path("examples/p.rule")][..],
        &["list", "--raw", &text],
        &["list", "--json", &text],
        &["list", &text],
        &["list", cut.name()],
    ] {
        let called = call(&[words, &["--save", "/dev/full"]].concat());
        see_unstored(
            &called,
            &call(words),
            "/dev/full: not stored: No space left",
        );
    }
    let about = fs::metadata("/dev/full").expect("/dev/full");
    assert!(about.file_type().is_char_device());
}

/// The same of a file that may not grow, in which the old list is left.
#[test]
fn a_file_that_may_not_grow() {
    let place = Place::new("grow");
    place.put_old();
    let script = "trap '' XFSZ; ulimit -f 0; exec \"$0\" \"$@\"";
    let rule = path("examples/p.rule");
    for form in [&[][..], &["--raw"], &["--json"]] {
        let words = [&["list", &rule], form].concat();
        let saved = [
            &["sh", "-c", script, COMMAND],
            &words[..],
            &["--save", &place.file],
        ];
        let called = Called::of(program(&saved.concat()).output().expect("sh"));
        see_unstored(&called, &call(&words), "list: not stored: File too large");
        place.see_old();
    }
}
