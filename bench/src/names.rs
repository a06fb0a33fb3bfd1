//! The names in the list of a rule file, as one would write them without proofs: the search, then a line for each name. The rule file has to
//! be an accepted one.
use crate::machine::OPEN;
use crate::program::Program;
use crate::search::search_within;

/// Puts the text into `text`, in place of what it had.
pub fn write_names(file: &[u8], text: &mut Vec<u8>) {
    let program = Program::read(file);
    let list = search_within(&program, u64::MAX).expect("no limit").list;
    write_list(&program, &list, text);
}

/// Puts the text of the names in a list of the program into `text`.
pub fn write_list(program: &Program, list: &[u8], text: &mut Vec<u8>) {
    let mut latin1 = vec![];
    let mut rest = list;
    text.clear();
    while let [_, _, _, _, low, high, behind @ ..] = rest {
        let (mut values, after) = behind.split_at(*low as usize + 256 * *high as usize);
        for of in program.parameters() {
            if program.names == Some(*of) {
                spell(&mut values, &mut latin1);
                write_line(&latin1, text);
            } else {
                pass(program, *of, &mut values);
            }
        }
        rest = after;
    }
}

/// Takes the name at the front of the values, with its open parts filled.
fn spell(values: &mut &[u8], latin1: &mut Vec<u8>) {
    latin1.clear();
    while let [1, high, low, rest @ ..] = *values {
        latin1.push(16 * filled(*high) + filled(*low));
        *values = rest;
    }
    *values = &values[1..];
}

fn filled(half: u8) -> u8 {
    match half {
        OPEN => 0,
        number => number,
    }
}

/// Passes over the value at the front.
fn pass(program: &Program, of: usize, values: &mut &[u8]) {
    let constructor = values[0];
    *values = &values[1..];
    if constructor != OPEN {
        let fields = program.types[of][constructor as usize].fields.iter();
        fields.for_each(|field| pass(program, *field, values));
    }
}

/// A name in Latin-1, then in UTF-8.
fn write_line(latin1: &[u8], text: &mut Vec<u8>) {
    let begin = text.len();
    latin1.iter().for_each(|byte| push_number(text, *byte));
    for byte in latin1 {
        match *byte {
            0..128 => push_number(text, *byte),
            _ => {
                push_number(text, 192 + byte / 64);
                push_number(text, 128 + byte % 64);
            }
        }
    }
    // every number has a space behind it, the last one a line feed
    match text.len() == begin {
        true => text.push(b'\n'),
        false => *text.last_mut().expect("a space") = b'\n',
    }
}

/// A number in decimal and a space.
fn push_number(text: &mut Vec<u8>, number: u8) {
    if 100 <= number {
        text.push(b'0' + number / 100);
    }
    if 10 <= number {
        text.push(b'0' + number / 10 % 10);
    }
    text.extend([b'0' + number % 10, b' ']);
}
