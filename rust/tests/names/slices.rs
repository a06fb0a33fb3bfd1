//! What the call does to the slices: text slices from empty to long, and list and work slices that are too short, with guards around them
//! that no call may change. Words and list are left as the search leaves them.
use crate::naming::*;
use crate::spelled::{due, line};
use remburai::*;

const GUARD: usize = 64;
const WORD: u32 = 0xA5A5_A5A5;
const BYTE: u8 = 0x5A;

/// A slice with guards before and behind it.
fn guarded<T: Copy>(fill: T, length: usize) -> Vec<T> {
    vec![fill; length + 2 * GUARD]
}

/// The slice between its guards, which have to be as they were.
fn inside<T: Copy + PartialEq + std::fmt::Debug>(all: &[T], fill: T) -> &[T] {
    let end = all.len() - GUARD;
    assert!(all[..GUARD].iter().all(|x| *x == fill));
    assert!(all[end..].iter().all(|x| *x == fill));
    &all[GUARD..end]
}

/// Writes into a slice of `room` bytes. The result is the answer and what there is of the text, which is the one that is due; all else is as
/// before, or as the search leaves it.
fn written(file: &[u8], words: usize, bytes: usize, room: usize) -> (usize, String) {
    let (mut work, mut list) = (guarded(WORD, words), guarded(BYTE, bytes));
    let mut text = guarded(BYTE, room);
    let length = names(
        file,
        &mut work[GUARD..GUARD + words],
        &mut list[GUARD..GUARD + bytes],
        &mut text[GUARD..GUARD + room],
    );
    let due = due(file, vec![WORD; words], vec![BYTE; bytes]);
    assert!(inside(&work, WORD) == due.work);
    assert!(inside(&list, BYTE) == due.list);
    let (text, behind) = inside(&text, BYTE).split_at(length.min(room));
    assert!(behind.iter().all(|byte| *byte == BYTE));
    assert_eq!(length, due.text.len(), "{file:02x?}");
    assert!(due.text.as_bytes().starts_with(text), "{file:02x?}");
    (length, String::from_utf8(text.to_vec()).expect("ASCII"))
}

/// The text, in a slice that always holds it.
pub fn text_of(file: &[u8], words: usize, bytes: usize) -> String {
    let (length, text) = written(file, words, bytes, text_bound(bytes));
    assert_eq!(length, text.len());
    text
}

#[test]
fn text_slices_from_empty_to_long() {
    let file = rule(&[NAME], &if_byte(0, &every_half(1)));
    let words = work_words(20);
    for (bytes, file) in [(160, &file[..]), (35, &file), (9, &file), (0, b"FN")] {
        let whole = text_of(file, words, bytes);
        for room in 0..whole.len() + 2 {
            let (length, text) = written(file, words, bytes, room);
            assert_eq!(
                (length, &text[..]),
                (whole.len(), &whole[..room.min(length)])
            );
        }
    }
}

/// Each entry has 10 bytes. With 12 the names of the entries that fit stand before the last line.
#[test]
fn list_slices_from_empty_to_long() {
    let file = rule(&[NAME], &if_byte(0, &every_half(1)));
    let whole = text_of(&file, work_words(20), 1000);
    assert_eq!(whole.lines().count(), 16);
    for bytes in 0..170 {
        let text = text_of(&file, work_words(20), bytes);
        let listed: String = whole.split_inclusive('\n').take(bytes / 10).collect();
        let last = if bytes < 160 { "refused 12\n" } else { "" };
        assert_eq!(text, listed + last, "{bytes}");
    }
    for bytes in [LIST_LIMIT - 1, LIST_LIMIT, LIST_LIMIT + 1] {
        assert_eq!(text_of(&file, work_words(20), bytes), whole);
    }
}

#[test]
fn work_slices_from_empty_to_long() {
    let file = rule(&[NAME], &REACHED);
    let words = work_words(20);
    for short in [0, 1, 1023, words - 1] {
        assert_eq!(text_of(&file, short, 100), "refused 11\n");
    }
    for long in [words, words + 1, 1_000_000] {
        assert_eq!(text_of(&file, long, 100), "\n");
    }
    // 15 before 11, and 11 before 12
    let mut other = file.clone();
    let named = file.len() - 8;
    other[named] = HALF;
    assert_eq!(text_of(&other, 0, 0), "refused 15\n");
    assert_eq!(text_of(&file, 0, 0), "refused 11\n");
    assert_eq!(text_of(&file, words, 0), "refused 12\n");
}

/// Names of up to 63 bytes, as many as D allows, all 255, whose lines have the most letters that there can be for each byte.
#[test]
fn the_longest_names() {
    let again = at_half(15, 1, &at_half(15, 2, &[1, 0, 0, 3]));
    let body = [&[3, NAME, 0, 0, 1], &REACHED[..], &[1], &again].concat();
    let source = function(&[NAME], NAME, &body);
    let file = [&types()[..], &source, b"NA", &[NAME], &goal(64, 4096)].concat();
    let lines: String = (0..64)
        .map(|count| line(&vec![255; count]) + "\n")
        .collect();
    let bytes = (0..64).map(|count| 7 + 3 * count).sum();
    assert_eq!(text_of(&file, work_words(4096), bytes), lines);
    assert!(3 * bytes < lines.len());
}

/// Calls at the same time on one file answer as one by one.
#[test]
fn calls_at_the_same_time() {
    let file = rule(&[NAME], &if_byte(0, &every_half(1)));
    let whole = text_of(&file, work_words(20), 160);
    std::thread::scope(|scope| {
        for _ in 0..8 {
            scope.spawn(|| {
                (0..20).for_each(|_| assert_eq!(text_of(&file, work_words(20), 160), whole))
            });
        }
    });
}
