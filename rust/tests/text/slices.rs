//! What the calls do to the text slice: exact, too short, empty or longer, with guards before and behind it that no call may change.
use crate::reading::entry_of;
use remburai::*;

/// The example P: D is 4 and S is 20.
const P: &[u8] = include_bytes!("../../../examples/p.rule");

const GUARD: usize = 64;
const BYTE: u8 = 0x5A;

/// Writes into a slice of so many bytes, with guards, and sees that all but the text is as before.
fn written(file: &[u8], list: &[u8], full: bool, room: usize) -> Result<String, Refusal> {
    let mut bytes = vec![BYTE; room + 2 * GUARD];
    let answer = write_text(file, list, full, &mut bytes[GUARD..GUARD + room]);
    let length = answer.unwrap_or(0);
    assert!(length <= room);
    let (before, rest) = bytes.split_at(GUARD);
    let (text, behind) = rest.split_at(length);
    assert!(before.iter().chain(behind).all(|byte| *byte == BYTE));
    answer.map(|_| String::from_utf8(text.to_vec()).expect("ASCII"))
}

/// Sees that a list has this text, in a slice of every length up to its own and in longer ones.
fn see(file: &[u8], list: &[u8], full: bool, text: &str) {
    let length = text.len();
    assert_eq!(text_length(file, list, full), Ok(length));
    assert_eq!(list_text(file, list, full).as_deref(), Ok(text));
    for room in 0..length {
        let answer = written(file, list, full, room);
        assert_eq!(answer, Err(Refusal::TextTooShort), "{room}");
    }
    for room in [length, length + 1, length + 1000, text_bound(list.len())] {
        let answer = written(file, list, full, room);
        assert_eq!(answer.as_deref(), Ok(text), "{room}");
    }
}

#[test]
fn text_slices_from_empty_to_long() {
    let reach = entry_of(b"RE", 6, &[1, 1, 255]);
    see(P, &reach, false, "reach 6 1 1 _\ntotal 1 0 0 0 found\n");
    see(P, &reach, true, "reach 6 1 1 _\nrefused 12\n");
    see(P, b"", false, "total 0 0 0 0 none\n");
    see(P, b"", true, "refused 12\n");
    let all = [
        entry_of(b"MI", 3, &[0]),
        entry_of(b"UN", 20, &[1, 0]),
        entry_of(b"UN", 20, &[255]),
        reach,
    ];
    let lines = "missing 3 0\nunfinished 20 1 0\nunfinished 20 _\nreach 6 1 1 _\n";
    let total = format!("{lines}total 1 2 1 67 found\n");
    see(P, &all.concat(), false, &total);
    see(P, &all.concat(), true, &format!("{lines}refused 12\n"));
}

/// A list of each verdict; missing entries have no part in it, nor in the share.
#[test]
fn verdicts_of_the_list() {
    let (un, mi) = (entry_of(b"UN", 20, &[255]), entry_of(b"MI", 3, &[0]));
    see(P, &mi, false, "missing 3 0\ntotal 0 0 1 0 none\n");
    let undecided = "unfinished 20 _\nmissing 3 0\ntotal 0 1 1 100 undecided\n";
    see(P, &[un, mi].concat(), false, undecided);
}

/// A file for each refusal of the check comes first, whatever the list and the slice; then the list, and then the slice.
#[test]
fn refusals_in_their_order() {
    let two_types = b"TY\x01\x00TY\x01\x01\x00FN\x01\x01\x01\x02\x00\x00\x00GO\x00\x07\x02\x14\x00";
    let changed = |file: &[u8], at: usize, byte: u8| {
        let mut file = file.to_vec();
        file[at] = byte;
        file
    };
    let hollow = b"TY\x01\x01\x00FN\x01\x00\x00\x02\x00\x00\x00GO\x00\x07\x04\x14\x00";
    let files = [
        P[..42].to_vec(),
        P[6..].to_vec(),
        changed(P, 40, 65),
        changed(P, 5, 1),
        changed(P, 13, 6),
        changed(two_types, 13, 0),
        [P, &[0]].concat(),
        hollow.to_vec(),
        changed(two_types, 22, 1),
    ];
    for (file, why) in files.iter().zip(Refusal::ALL) {
        for list in [&b""[..], b"RE", &entry_of(b"RE", 6, &[1, 1, 255])] {
            see_refused(file, list, why);
        }
    }
    see_refused(P, b"RE", Refusal::BadList);
    see_refused(P, &vec![0; LIST_LIMIT + 1], Refusal::BadList);
    assert_eq!(written(P, b"", false, 0), Err(Refusal::TextTooShort));
}

/// Sees that both calls refuse, in a slice of any length.
fn see_refused(file: &[u8], list: &[u8], why: Refusal) {
    for full in [false, true] {
        assert_eq!(text_length(file, list, full), Err(why));
        assert_eq!(list_text(file, list, full), Err(why));
        for room in [0, 1, 1000] {
            assert_eq!(written(file, list, full, room), Err(why));
        }
    }
}

/// A file and a list may be lent to several calls at once.
#[test]
fn calls_at_the_same_time() {
    let list = entry_of(b"RE", 6, &[1, 1, 255]).repeat(10_000);
    let text = format!(
        "{}total 10000 0 0 0 found\n",
        "reach 6 1 1 _\n".repeat(10_000)
    );
    std::thread::scope(|scope| {
        for _ in 0..8 {
            scope.spawn(|| {
                let answer = written(P, &list, false, text.len());
                assert!(answer.is_ok_and(|written| written == text));
            });
        }
    });
}
