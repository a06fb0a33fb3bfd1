//! Which lists have a text: entries that fit the rule file, whatever they say, up to 16,777,216 bytes.
use crate::boxes::boxes;
use crate::printing::printed;
use crate::reading::{entry_of, text_of, Types};
use remburai::*;

/// The example P: D is 4 and S is 20.
const P: &[u8] = include_bytes!("../../../examples/p.rule");

fn see(file: &[u8], list: &[u8], fits: bool) {
    assert_eq!(Types::of(file).fit(list), fits, "{list:?}");
    let text = match fits {
        true => Ok(printed(list, false)),
        false => Err(Refusal::BadList),
    };
    assert_eq!(text_of(file, list, false), text, "{list:?}");
}

/// Entries that no search of P would write are accepted: the text says what the list says.
#[test]
fn entries_that_are_not_so() {
    let reach = |steps, parameters: &[u8]| entry_of(b"RE", steps, parameters);
    let lists = [
        reach(6, &[0]),
        reach(0, &[1, 1, 255]),
        reach(6, &[1, 1, 255]).repeat(2),
        [reach(6, &[1, 1, 255]), reach(6, &[0])].concat(),
        entry_of(b"UN", 19, &[255]),
        entry_of(b"UN", 0, &[1, 1, 1, 0]),
        entry_of(b"MI", 20, &[255]),
    ];
    for list in lists {
        see(P, &list, true);
    }
}

/// Unknown marks, steps above S, lengths that do not fit, entries that are cut off, bytes behind them.
#[test]
fn what_is_no_entry() {
    for mark in [b"RN", b"EN", b"re", b"\0\0", b"MN", b"UI"] {
        see(P, &entry_of(mark, 6, &[0]), false);
    }
    for (steps, fits) in [
        (20, true),
        (21, false),
        (256, false),
        (4096, false),
        (65535, false),
    ] {
        see(P, &entry_of(b"UN", steps, &[0]), fits);
    }
    let entry = entry_of(b"RE", 6, &[1, 1, 255]);
    let behind = [&entry[..], &entry].concat();
    for end in 1..behind.len() {
        see(P, &behind[..end], end == entry.len());
    }
    for length in [0, 1, 2, 4, 12, 255] {
        let mut wrong = behind.clone();
        wrong[4] = length;
        see(P, &wrong, false);
    }
    see(P, &[&entry[..], &[0]].concat(), false);
}

/// Values of another type or of none, too few and too many, too deep.
#[test]
fn what_does_not_fit() {
    let with = |parameters: &[u8]| entry_of(b"RE", 6, parameters);
    for wrong in [
        &[][..],
        &[2],
        &[0, 0],
        &[1],
        &[254],
        &[1, 2],
        &[255, 255],
        &[1, 255, 255],
    ] {
        see(P, &with(wrong), false);
    }
    // D is 4; an open number is as deep as zero
    for (parameters, fits) in [
        (&[1, 1, 1, 0][..], true),
        (&[1, 1, 1, 255], true),
        (&[1, 1, 1, 1, 0], false),
        (&[1, 1, 1, 1, 255], false),
    ] {
        see(P, &with(parameters), fits);
    }
    // an open box is as deep as its type's least depth, 2
    for (depth, parameters, fits) in [
        (2, &[0][..], true),
        (2, &[255], true),
        (2, &[1, 255], false),
        (2, &[1, 0, 255], false),
        (3, &[1, 255], true),
        (3, &[1, 0, 255], true),
        (3, &[1, 0, 0], true),
    ] {
        see(&boxes(depth), &with(parameters), fits);
    }
}

/// Without parameters, an entry has nothing behind its header.
#[test]
fn without_parameters() {
    let file = b"TY\x01\x00FN\x00\x00\x03\x00\x02\x00\x00GO\x00\x07\x01\x14\x00";
    see(file, &entry_of(b"RE", 20, &[]), true);
    see(file, &entry_of(b"RE", 20, &[]).repeat(3), true);
    see(file, &entry_of(b"RE", 20, &[0]), false);
    see(file, &entry_of(b"RE", 20, &[255]), false);
}

/// The longest list there may be, and whole entries that go beyond it.
#[test]
fn lists_at_the_limit() {
    let entry = entry_of(b"RE", 6, &[1, 0]);
    let count = LIST_LIMIT / entry.len();
    let mut list = entry.repeat(count);
    assert_eq!(list.len(), LIST_LIMIT);
    let text = text_of(P, &list, false).expect("a list of the most bytes");
    let lines = "reach 6 1 0\n".repeat(count);
    assert!(text == format!("{lines}total {count} 0 0 0 found\n"));
    assert!(text_of(P, &list, true) == Ok(format!("{lines}refused 12\n")));
    // the last entry one byte longer
    list.splice(LIST_LIMIT - entry.len().., entry_of(b"RE", 6, &[1, 1, 0]));
    assert_eq!(list.len(), LIST_LIMIT + 1);
    assert_eq!(text_of(P, &list, false), Err(Refusal::BadList));
    // one entry more
    assert_eq!(
        text_of(P, &entry.repeat(count + 1), true),
        Err(Refusal::BadList)
    );
    // one that is cut off at the limit
    assert_eq!(text_of(P, &list[..LIST_LIMIT], true), Err(Refusal::BadList));
}

/// As many entries as a list can have, of all kinds.
#[test]
fn the_most_entries() {
    let file = b"TY\x01\x00FN\x00\x00\x03\x00\x02\x00\x00GO\x00\x07\x01\x00\x10";
    let kinds = [b"UN", b"MI", b"UN", b"RE"].map(|mark| entry_of(mark, 4096, &[]));
    let times = LIST_LIMIT / 24;
    let text = text_of(file, &kinds.concat().repeat(times), false).expect("a list that fits");
    let lines = "unfinished 4096\nmissing 4096\nunfinished 4096\nreach 4096\n".repeat(times);
    let (twice, share) = (2 * times, 67);
    assert!(text == format!("{lines}total {times} {twice} {times} {share} found\n"));
}
