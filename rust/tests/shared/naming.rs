//! Rule files with a record NA, put together from their pieces. The types are the halves of a byte, the names, and numbers.

pub const HALF: u8 = 0;
pub const NAME: u8 = 1;
pub const NUMBER: u8 = 2;

/// The constructors of a type of halves.
pub const HALVES: [&[u8]; 16] = [&[]; 16];

/// A type, by the fields of each constructor.
pub fn ty(constructors: &[&[u8]]) -> Vec<u8> {
    let mut record = [b"TY", &[constructors.len() as u8][..]].concat();
    for fields in constructors {
        record.push(fields.len() as u8);
        record.extend(*fields);
    }
    record
}

/// The three types.
pub fn types() -> Vec<u8> {
    let name = ty(&[&[], &[HALF, HALF, NAME]]);
    [ty(&HALVES), name, ty(&[&[], &[NUMBER]])].concat()
}

/// A function.
pub fn function(parameters: &[u8], result: u8, body: &[u8]) -> Vec<u8> {
    let mut record = [b"FN", &[parameters.len() as u8][..], parameters].concat();
    record.push(result);
    record.extend((body.len() as u16).to_le_bytes());
    record.extend(body);
    record
}

/// The goal, whose source is function 0 and whose label is 7.
pub fn goal(depth: u8, steps: u16) -> Vec<u8> {
    let mut record = b"GO\x00\x07".to_vec();
    record.push(depth);
    record.extend(steps.to_le_bytes());
    record
}

/// A rule file with one function, whose result is a name. D is 3 and S is 20.
pub fn rule(parameters: &[u8], body: &[u8]) -> Vec<u8> {
    let source = function(parameters, NAME, body);
    [&types()[..], &source, b"NA", &[NAME], &goal(3, 20)].concat()
}

/// The target, around variable 0, which is a name.
pub const REACHED: [u8; 4] = [5, 7, 0, 0];

/// A case on a name: variable 0 where it is empty, else this.
pub fn if_byte(variable: u8, alternative: &[u8]) -> Vec<u8> {
    [&[3, NAME, 0, variable, 1, 0, 0, 1], alternative].concat()
}

/// A case on a half of a byte: variable 0 for every one but this number.
pub fn at_half(number: u8, variable: u8, alternative: &[u8]) -> Vec<u8> {
    let mut case = vec![3, HALF, 0, variable];
    for half in 0..16 {
        case.push(1);
        case.extend(if half == number { alternative } else { &[0, 0] });
    }
    case
}

/// A case on a half of a byte with the target for every one.
pub fn every_half(variable: u8) -> Vec<u8> {
    let alternative = [&[1], &REACHED[..]].concat();
    [&[3, HALF, 0, variable], &alternative.repeat(16)[..]].concat()
}
