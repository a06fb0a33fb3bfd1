//! A closed run on the plain evaluator, and the closed input of an enumeration that takes the most steps.
use crate::blind::{put_input, run_rank, sample, Counts};
use crate::machine::{Machine, Stop};
use crate::prefix::{read_input, write_input};
use crate::problems::Problem;
use crate::program::Program;
use std::cmp::Reverse;

/// How a run stops, its steps, and the depth of its input.
pub struct Ran {
    pub stop: Stop,
    pub steps: usize,
    pub depth: usize,
}

/// Runs an accepted rule file on a closed input, both from their bytes; none where the input does not fit it.
pub fn run(file: &[u8], input: &[u8]) -> Option<Ran> {
    let program = Program::read(file);
    let mut machine = Machine::new(&program);
    let depth = read_input(&program, &mut machine, input)?;
    let stop = machine.run();
    Some(Ran {
        stop,
        steps: machine.steps,
        depth,
    })
}

/// The bytes of the closed input of a rank in the order of enumeration.
pub fn input_bytes(program: &Program, counts: &Counts, rank: u64) -> Vec<u8> {
    let mut machine = Machine::new(program);
    put_input(program, counts, &mut machine, rank);
    let mut input = vec![];
    write_input(program, &machine, &mut input);
    input
}

/// A problem and a closed input of it.
pub struct ClosedRun<'p> {
    pub problem: &'p Problem,
    pub input: Vec<u8>,
}

/// The run with the most steps, and the first of those, among the closed inputs that an enumeration of at most `most` runs; none where they
/// are too many to be counted.
pub fn longest_run(problem: &Problem, most: u64) -> Option<ClosedRun<'_>> {
    let program = Program::read(&problem.file);
    let counts = Counts::of(&program);
    if !counts.countable() {
        return None;
    }
    let mut machine = Machine::new(&program);
    let rank = sample(&counts, most).min_by_key(|rank| {
        run_rank(&program, &counts, &mut machine, *rank);
        Reverse(machine.steps)
    })?;
    Some(ClosedRun {
        problem,
        input: input_bytes(&program, &counts, rank),
    })
}
