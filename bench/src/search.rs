//! The plain search: the same list as the library's, by narrowing with a stack of choice points, in buffers without bounds.
use crate::machine::{Machine, Point, Stop};
use crate::prefix::write_input;
use crate::program::Program;

/// A list, and the steps of the search in all.
pub struct Searched {
    pub list: Vec<u8>,
    pub moves: u64,
}

/// A fork: its point, and the number from which on constructors are untried.
struct Choice {
    point: Point,
    untried: usize,
}

/// Searches an accepted rule file.
pub fn search(file: &[u8]) -> Searched {
    search_within(&Program::read(file), u64::MAX).expect("no limit")
}

/// Searches a program, but gives up after so many steps in all, or a few more.
pub fn search_within(program: &Program, most_moves: u64) -> Option<Searched> {
    let mut machine = Machine::new(program);
    let mut choices = vec![];
    let mut list = vec![];
    loop {
        match machine.run() {
            Stop::Reached => write_entry(program, &machine, b"RE", &mut list),
            Stop::Unfinished => write_entry(program, &machine, b"UN", &mut list),
            Stop::Missing => write_entry(program, &machine, b"MI", &mut list),
            Stop::Ended => {}
            Stop::Waits(cell) => choices.push(Choice {
                point: machine.point(cell),
                untried: 0,
            }),
        }
        if most_moves < machine.moves {
            return None;
        }
        if !next_choice(&mut machine, &mut choices) {
            return Some(Searched {
                list,
                moves: machine.moves,
            });
        }
    }
}

/// Goes on with the next constructor of the last fork that has one, if there is such a fork.
fn next_choice(machine: &mut Machine, choices: &mut Vec<Choice>) -> bool {
    while let Some(choice) = choices.last_mut() {
        machine.go_back(&choice.point);
        if let Some(constructor) = machine.fitting(&choice.point, choice.untried) {
            machine.bind(&choice.point, constructor);
            choice.untried = constructor + 1;
            return true;
        }
        choices.pop();
    }
    false
}

fn write_entry(program: &Program, machine: &Machine, mark: &[u8; 2], list: &mut Vec<u8>) {
    list.extend_from_slice(mark);
    list.extend_from_slice(&(machine.steps as u16).to_le_bytes());
    let length = list.len();
    list.extend_from_slice(&[0, 0]);
    write_input(program, machine, list);
    let size = (list.len() - length - 2) as u16;
    list[length..length + 2].copy_from_slice(&size.to_le_bytes());
}
