//! Rule files with the lines of their names.
use crate::naming::*;
use crate::slices::text_of;
use remburai::*;

/// The text in slices that are long enough.
fn text(file: &[u8]) -> String {
    text_of(file, work_words(20), 1000)
}

/// The letter \u{c9}: its byte is 201, in UTF-8 195 and 137.
#[test]
fn a_byte_from_128_on() {
    let body = if_byte(0, &at_half(12, 1, &at_half(9, 2, &REACHED)));
    assert_eq!(text(&rule(&[NAME], &body)), "201 195 137\n");
}

/// All bytes, each of a name that ends behind it: an entry for each pair of halves, since the case on the second has no alternative.
#[test]
fn every_byte() {
    let low = [&[1, 3, HALF, 0, 2], &[0; 16][..]].concat().repeat(16);
    let body = if_byte(0, &[&[3, HALF, 0, 1], &low[..]].concat());
    let file = rule(&[NAME], &body);
    let lines: String = (0..=255u8)
        .map(|byte| match byte {
            0..128 => format!("{byte} {byte}\n"),
            _ => format!("{byte} {} {}\n", 192 + byte / 64, 128 + byte % 64),
        })
        .collect();
    assert_eq!(text_of(&file, work_words(20), 256 * 10), lines);
}

/// An open name ends, and an open half is 0.
#[test]
fn open_parts_are_filled() {
    assert_eq!(text(&rule(&[NAME], &REACHED)), "\n");
    assert_eq!(text(&rule(&[NAME], &if_byte(0, &REACHED))), "0 0\n");
    let high = if_byte(0, &at_half(12, 1, &REACHED));
    assert_eq!(text(&rule(&[NAME], &high)), "192 195 128\n");
    let low = if_byte(0, &at_half(9, 2, &REACHED));
    assert_eq!(text(&rule(&[NAME], &low)), "9 9\n");
    let second = if_byte(0, &if_byte(3, &at_half(15, 5, &REACHED)));
    assert_eq!(text(&rule(&[NAME], &second)), "0 15 0 15\n");
}

/// Entries of every kind have names: one that misses an alternative, one that reaches the target, one that runs out of steps.
#[test]
fn entries_of_every_kind() {
    let missing = [&[3, NAME, 0, 0, 0, 1], &REACHED[..]].concat();
    assert_eq!(text(&rule(&[NAME], &missing)), "\n0 0\n");
    let mut file = rule(&[NAME], &if_byte(0, &every_half(1)));
    let steps = file.len() - 2;
    file[steps] = 4;
    assert_eq!(text(&file), "0 0\n");
}

/// Two names with a number between them, in the order of the parameters.
#[test]
fn two_names_and_another_parameter() {
    let of_third = if_byte(2, &at_half(12, 3, &REACHED));
    let of_number = [&[3, NUMBER, 0, 1, 1, 0, 0, 1], &of_third[..]].concat();
    let file = rule(&[NAME, NUMBER, NAME], &if_byte(0, &of_number));
    assert_eq!(text(&file), "192 195 128\n0 0\n");
    // the same with the names of the parameters in their other order
    let of_first = if_byte(0, &at_half(12, 3, &REACHED));
    let file = rule(&[NAME, NUMBER, NAME], &if_byte(2, &of_first));
    assert_eq!(text(&file), "0 0\n192 195 128\n");
}

/// Eight parameters, all of them names.
#[test]
fn eight_names() {
    let file = rule(&[NAME; 8], &if_byte(7, &at_half(4, 8, &REACHED)));
    assert_eq!(text(&file), "\n\n\n\n\n\n\n64 64\n");
}

/// No record NA, no parameter of the named type, no entry.
#[test]
fn no_names() {
    let source = function(&[NAME], NAME, &REACHED);
    let unnamed = [types(), source, goal(3, 20)].concat();
    assert_eq!(Rule::read(&unnamed).map(|rule| rule.names()), Ok(None));
    assert_eq!(text(&unnamed), "");
    let file = rule(&[NUMBER, HALF], &[5, 7, 2, NAME, 0]);
    assert_eq!(Rule::read(&file).map(|rule| rule.named_parameters()), Ok(0));
    assert_eq!(text(&file), "");
    assert_eq!(text(&rule(&[], &[5, 7, 2, NAME, 0])), "");
    assert_eq!(text(&rule(&[NAME], &[0, 0])), "");
}

/// The named type may stand before its halves, which may be of two types; and other types may be of the same form.
#[test]
fn other_places_of_the_types() {
    let (halves, form) = (ty(&HALVES), |fields| ty(&[&[], fields]));
    let before = [form(&[1, 2, 0]), halves.clone(), halves.clone()].concat();
    let twice = [form(&[3, 2, 0]), form(&[2, 3, 1]), halves.clone(), halves].concat();
    for (types, named) in [(before, 0), (twice.clone(), 0), (twice, 1)] {
        let body = [3, named, 0, 0, 1, 0, 0, 1, 5, 7, 0, 0];
        let source = function(&[named], named, &body);
        let file = [&types[..], &source, b"NA", &[named], &goal(2, 20)].concat();
        assert_eq!(text(&file), "0 0\n", "{named}");
    }
}

/// The record NA has no part in the search: without it the list is the same.
#[test]
fn the_same_list() {
    let file = rule(&[NAME], &if_byte(0, &every_half(1)));
    let (behind, record) = (file.len() - 7, file.len() - 10);
    let unnamed = [&file[..record], &file[behind..]].concat();
    let lists = [file, unnamed].map(|file| {
        let (mut work, mut list) = (vec![0; work_words(20)], vec![0; 1000]);
        let listed = search(&file, &mut work, &mut list).expect("a list");
        list.truncate(listed.length);
        (listed, list)
    });
    assert_eq!(lists[0], lists[1]);
    assert_eq!(lists[0].0.length, 160);
}
