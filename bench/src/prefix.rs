//! The input in prefix form: constructor numbers, each before those of its fields, one parameter after the other. What is read is checked, since
//! bytes may be no closed input of the program.
use crate::machine::{Machine, OPEN};
use crate::program::Program;

/// How deep a value is read, whatever the program's depth is.
const DEEPEST: u8 = 64;

/// Writes the input in the cells.
pub fn write_input(program: &Program, machine: &Machine, bytes: &mut Vec<u8>) {
    for parameter in 0..program.parameters().len() {
        write_part(program, machine, parameter, bytes);
    }
}

/// Writes the part of the input in a cell.
fn write_part(program: &Program, machine: &Machine, at: usize, bytes: &mut Vec<u8>) {
    let cell = machine.cells[at];
    bytes.push(cell.constructor);
    if cell.constructor != OPEN {
        let fields = program.types[cell.of as usize][cell.constructor as usize]
            .fields
            .len();
        for field in 0..fields {
            write_part(program, machine, cell.first as usize + field, bytes);
        }
    }
}

/// Puts a closed input into the cells. The result is the depth of its deepest value, 0 without parameters; none where the bytes are not one
/// closed value for each parameter, of its type and no deeper than the program's depth, and nothing more.
pub fn read_input(program: &Program, machine: &mut Machine, mut bytes: &[u8]) -> Option<usize> {
    let mut deepest = 0;
    for parameter in 0..program.parameters().len() {
        machine.cells[parameter].room = DEEPEST;
        deepest = deepest.max(read_value(program, machine, parameter, &mut bytes)?);
    }
    (bytes.is_empty() && deepest <= program.depth).then_some(deepest)
}

/// Puts the value at the front of `bytes`, which is passed over, into a cell. The result is its depth, if that is within the room of the cell.
fn read_value(
    program: &Program,
    machine: &mut Machine,
    at: usize,
    bytes: &mut &[u8],
) -> Option<usize> {
    let cell = machine.cells[at];
    let (constructor, behind) = bytes.split_first()?;
    let number = *constructor as usize;
    let fields = program.types[cell.of as usize].get(number)?.fields.len();
    if cell.room == 0 {
        return None;
    }
    *bytes = behind;
    let first = machine.put(at, number);
    let mut deepest = 0;
    for field in first..first + fields {
        deepest = deepest.max(read_value(program, machine, field, bytes)?);
    }
    Some(deepest + 1)
}
