//! The blind enumeration: closed inputs within the depth, each run by itself, and how many of them a list stands for.
use crate::machine::{Machine, Stop, OPEN};
use crate::program::Program;

/// What the runs of closed inputs gave.
#[derive(Clone, Copy, Default, PartialEq, Eq, Debug)]
pub struct Tried {
    pub inputs: u64,
    pub reached: u64,
    pub unfinished: u64,
    pub missing: u64,
}

/// The number of closed values of each type for each depth, and of inputs; `u64::MAX` where there are more.
pub struct Counts {
    values: Vec<Vec<u64>>,
    pub inputs: u64,
}

impl Counts {
    pub fn of(program: &Program) -> Counts {
        let mut values = vec![vec![0; program.types.len()]];
        for depth in 0..program.depth {
            let below = &values[depth];
            let counted = (0..program.types.len())
                .map(|of| count(program, below, of))
                .collect();
            values.push(counted);
        }
        let inputs = product(program.parameters(), &values[program.depth]);
        Counts { values, inputs }
    }

    /// Whether the number of inputs is exact.
    pub fn countable(&self) -> bool {
        self.inputs < u64::MAX
    }
}

fn count(program: &Program, below: &[u64], of: usize) -> u64 {
    let constructors = program.types[of].iter();
    constructors.fold(0, |sum, constructor| {
        sum.saturating_add(product(&constructor.fields, below))
    })
}

fn product(types: &[usize], counts: &[u64]) -> u64 {
    types
        .iter()
        .fold(1, |product: u64, of| product.saturating_mul(counts[*of]))
}

/// The ranks of all closed inputs, or, where there are more than `most`, of so many at equal distances in the order of
/// enumeration. The inputs must be countable.
pub fn sample(counts: &Counts, most: u64) -> impl Iterator<Item = u64> {
    let (all, inputs) = (counts.inputs, counts.inputs.min(most));
    (0..inputs).map(move |number| (number as u128 * all as u128 / inputs as u128) as u64)
}

/// Runs the closed inputs of the sample.
pub fn enumerate(program: &Program, counts: &Counts, most: u64) -> Tried {
    let mut machine = Machine::new(program);
    let mut tried = Tried {
        inputs: counts.inputs.min(most),
        ..Tried::default()
    };
    for rank in sample(counts, most) {
        match run_rank(program, counts, &mut machine, rank) {
            Stop::Reached => tried.reached += 1,
            Stop::Unfinished => tried.unfinished += 1,
            Stop::Missing => tried.missing += 1,
            Stop::Ended => {}
            Stop::Waits(_) => unreachable!("a closed input has no open part"),
        }
    }
    tried
}

/// Runs the input of a rank in the order of enumeration.
pub fn run_rank(program: &Program, counts: &Counts, machine: &mut Machine, rank: u64) -> Stop {
    machine.restart();
    put_input(program, counts, machine, rank);
    machine.run()
}

/// Puts the input of a rank in the order of enumeration into the cells.
pub fn put_input(program: &Program, counts: &Counts, machine: &mut Machine, rank: u64) {
    let mut rest = rank;
    for (parameter, of) in program.parameters().iter().enumerate().rev() {
        let count = counts.values[program.depth][*of];
        put_value(program, counts, machine, parameter, rest % count);
        rest /= count;
    }
}

/// Puts the value of a rank, among those of its cell's type and depth, into a cell.
fn put_value(program: &Program, counts: &Counts, machine: &mut Machine, at: usize, rank: u64) {
    let cell = machine.cells[at];
    let below = &counts.values[cell.room as usize - 1];
    let mut rest = rank;
    let mut constructor = 0;
    let fields = loop {
        let fields = &program.types[cell.of as usize][constructor].fields;
        let count = product(fields, below);
        if rest < count {
            break fields;
        }
        rest -= count;
        constructor += 1;
    };
    let first = machine.put(at, constructor);
    for (number, field) in fields.iter().enumerate().rev() {
        let count = below[*field];
        put_value(program, counts, machine, first + number, rest % count);
        rest /= count;
    }
}

/// How many closed inputs within the depth complete the entries of a list: what a full enumeration must give.
pub fn completions(program: &Program, counts: &Counts, list: &[u8]) -> Tried {
    let mut tried = Tried {
        inputs: counts.inputs,
        ..Tried::default()
    };
    let mut rest = list;
    while let [mark, _, _, _, low, high, behind @ ..] = rest {
        let (mut entry, after) = behind.split_at(*low as usize + 256 * *high as usize);
        let parameters = program.parameters().iter();
        let inputs = parameters.fold(1, |product: u64, of| {
            product.saturating_mul(complete(program, counts, *of, program.depth, &mut entry))
        });
        let sum = match *mark {
            b'R' => &mut tried.reached,
            b'U' => &mut tried.unfinished,
            _ => &mut tried.missing,
        };
        *sum = sum.saturating_add(inputs);
        rest = after;
    }
    tried
}

/// The closed values within the depth that complete the part at the front of `entry`, which is passed over.
fn complete(program: &Program, counts: &Counts, of: usize, depth: usize, entry: &mut &[u8]) -> u64 {
    let constructor = entry[0];
    *entry = &entry[1..];
    if constructor == OPEN {
        return counts.values[depth][of];
    }
    let fields = program.types[of][constructor as usize].fields.iter();
    fields.fold(1, |product: u64, field| {
        product.saturating_mul(complete(program, counts, *field, depth - 1, entry))
    })
}
