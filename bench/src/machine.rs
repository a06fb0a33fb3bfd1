//! The evaluation by name of a program's source function, on an input whose parts may be open.
//!
//! A result, a construction or a part of the input with no case waiting, is looked into as a whole: the fields of a construction are evaluated
//! from left to right, each as a result in its turn, and a part of the input is not gone into.
//!
//! Environments and what waits are records of growing arrays that only get longer along a path; an environment has a link to the one that
//! it extends. To go back to an earlier point of a path the arrays are cut to their lengths there.
use crate::program::{Expr, Program};

/// The constructor of an open part.
pub const OPEN: u8 = 0xFF;

/// No environment, nothing that waits.
const NONE: u32 = u32::MAX;

/// A part of the input: its constructor, its type, the depth that it may have, and its first field, behind which stand the others.
#[derive(Clone, Copy)]
pub struct Cell {
    pub constructor: u8,
    pub of: u8,
    pub room: u8,
    pub first: u32,
}

impl Cell {
    pub fn open(of: usize, room: usize) -> Cell {
        Cell {
            constructor: OPEN,
            of: of as u8,
            room: room as u8,
            first: 0,
        }
    }
}

/// What some variables stand for: expressions in one environment, or cells from one on.
#[derive(Clone, Copy)]
enum Bound<'p> {
    Expressions(&'p [Expr], u32),
    Cells(u32, u32),
}

/// An environment: the variables from number `from` on, and the one that has those before.
#[derive(Clone, Copy)]
struct Environment<'p> {
    before: u32,
    from: u32,
    bound: Bound<'p>,
}

/// What waits for a result: a case with its alternatives, or fields of a construction, at least one.
#[derive(Clone, Copy)]
enum Waiting<'p> {
    Case(&'p [Option<Expr>]),
    Fields(&'p [Expr]),
}

/// What waits, in its environment, and what waits below it.
#[derive(Clone, Copy)]
struct Frame<'p> {
    waiting: Waiting<'p>,
    environment: u32,
    below: u32,
}

/// What is evaluated.
#[derive(Clone, Copy)]
enum Focus<'p> {
    Closure(&'p Expr, u32),
    Part(u32),
}

/// Where an evaluation stops. `Missing`: a case has no alternative for the constructor. `Waits`: a case waits on the open part in this cell,
/// with steps left.
#[derive(Clone, Copy, PartialEq, Eq, Debug)]
pub enum Stop {
    Reached,
    Ended,
    Unfinished,
    Missing,
    Waits(u32),
}

/// A point of a path at which a case waits on a cell.
#[derive(Clone, Copy)]
pub struct Point {
    cell: u32,
    frame: u32,
    steps: usize,
    environments: usize,
    frames: usize,
    cells: usize,
}

pub struct Machine<'p> {
    program: &'p Program,
    pub cells: Vec<Cell>,
    environments: Vec<Environment<'p>>,
    frames: Vec<Frame<'p>>,
    frame: u32,
    focus: Focus<'p>,
    pub steps: usize,
    /// The steps made in all, on every path.
    pub moves: u64,
}

impl<'p> Machine<'p> {
    pub fn new(program: &'p Program) -> Machine<'p> {
        let mut machine = Machine {
            program,
            cells: vec![],
            environments: vec![],
            frames: vec![],
            frame: NONE,
            focus: Focus::Part(0),
            steps: 0,
            moves: 0,
        };
        machine.restart();
        machine
    }

    /// Back to the start: no step done, every parameter open.
    pub fn restart(&mut self) {
        let parameters = self.program.parameters();
        self.cells.clear();
        self.cells.extend(
            parameters
                .iter()
                .map(|of| Cell::open(*of, self.program.depth)),
        );
        self.frames.clear();
        self.environments.clear();
        self.environments.push(Environment {
            before: NONE,
            from: 0,
            bound: Bound::Cells(0, parameters.len() as u32),
        });
        self.frame = NONE;
        self.focus = Focus::Closure(&self.program.functions[self.program.source].body, 0);
        self.steps = 0;
    }

    /// Evaluates until there is a reason to stop.
    pub fn run(&mut self) -> Stop {
        let begun = self.steps;
        let stop = loop {
            if let Some(stop) = self.step() {
                break stop;
            }
        };
        self.moves += (self.steps - begun) as u64;
        stop
    }

    /// One step, or the reason to stop.
    fn step(&mut self) -> Option<Stop> {
        match self.focus {
            Focus::Part(cell) => self.meet_part(cell),
            Focus::Closure(Expr::Construction(constructor, fields), environment) => {
                match self.waiting_case() {
                    None => self.go_on(fields, environment),
                    Some((alternatives, frame)) => self.choose(
                        &alternatives[*constructor as usize],
                        frame,
                        Bound::Expressions(fields, environment),
                        fields.len(),
                    ),
                }
            }
            Focus::Closure(Expr::Target(label, _), _) if *label == self.program.label => {
                Some(Stop::Reached)
            }
            Focus::Closure(expression, environment) => {
                if self.steps == self.program.steps {
                    return Some(Stop::Unfinished);
                }
                self.steps += 1;
                self.focus = self.next(expression, environment);
                None
            }
        }
    }

    /// What is evaluated after a step from an expression that is no construction.
    fn next(&mut self, expression: &'p Expr, environment: u32) -> Focus<'p> {
        match expression {
            Expr::Variable(number) => self.look_up(*number as u32, environment),
            Expr::Call(function, arguments) => {
                let bound = Bound::Expressions(arguments, environment);
                let inside = self.extend(NONE, 0, bound);
                Focus::Closure(&self.program.functions[*function].body, inside)
            }
            Expr::Case(scrutinee, alternatives) => {
                self.wait(Waiting::Case(alternatives), environment);
                Focus::Closure(scrutinee, environment)
            }
            Expr::Let(bound, body) => {
                let bound = Bound::Expressions(std::slice::from_ref(bound), environment);
                let from = self.in_view(environment);
                Focus::Closure(body, self.extend(environment, from, bound))
            }
            Expr::Target(_, inner) => Focus::Closure(inner, environment),
            Expr::Construction(..) => unreachable!("a construction is no step by itself"),
        }
    }

    /// A part of the input is evaluated.
    fn meet_part(&mut self, at: u32) -> Option<Stop> {
        let Some((alternatives, frame)) = self.waiting_case() else {
            return self.go_on(&[], NONE);
        };
        let cell = self.cells[at as usize];
        if cell.constructor == OPEN {
            let full = self.steps == self.program.steps;
            return Some(if full {
                Stop::Unfinished
            } else {
                Stop::Waits(at)
            });
        }
        let fields = self.program.types[cell.of as usize][cell.constructor as usize]
            .fields
            .len();
        self.choose(
            &alternatives[cell.constructor as usize],
            frame,
            Bound::Cells(cell.first, fields as u32),
            fields,
        )
    }

    /// The innermost of what waits, if it is a case.
    fn waiting_case(&self) -> Option<(&'p [Option<Expr>], Frame<'p>)> {
        let frame = *self.frames.get(self.frame as usize)?;
        match frame.waiting {
            Waiting::Case(alternatives) => Some((alternatives, frame)),
            Waiting::Fields(_) => None,
        }
    }

    /// Something waits in its environment for what is evaluated from here on.
    fn wait(&mut self, waiting: Waiting<'p>, environment: u32) {
        let below = self.frame;
        self.frames.push(Frame {
            waiting,
            environment,
            below,
        });
        self.frame = self.frames.len() as u32 - 1;
    }

    /// Behind a result with these fields to be evaluated: the first of them, or the first that waits, is turned to, or it is the end.
    fn go_on(&mut self, fields: &'p [Expr], environment: u32) -> Option<Stop> {
        let (fields, environment, below) = match self.frames.get(self.frame as usize) {
            _ if !fields.is_empty() => (fields, environment, self.frame),
            Some(frame) => match frame.waiting {
                Waiting::Fields(fields) => (fields, frame.environment, frame.below),
                Waiting::Case(_) => unreachable!("a case waits for no result"),
            },
            None => return Some(Stop::Ended),
        };
        if self.steps == self.program.steps {
            return Some(Stop::Unfinished);
        }
        self.steps += 1;
        self.frame = below;
        if let [_, behind @ ..] = fields {
            if !behind.is_empty() {
                self.wait(Waiting::Fields(behind), environment);
            }
        }
        self.focus = Focus::Closure(&fields[0], environment);
        None
    }

    /// The innermost waiting case goes on with an alternative, if it is there.
    fn choose(
        &mut self,
        alternative: &'p Option<Expr>,
        frame: Frame<'p>,
        bound: Bound<'p>,
        fields: usize,
    ) -> Option<Stop> {
        if self.steps == self.program.steps {
            return Some(Stop::Unfinished);
        }
        self.steps += 1;
        self.frame = frame.below;
        let Some(alternative) = alternative else {
            return Some(Stop::Missing);
        };
        let environment = match fields {
            0 => frame.environment,
            _ => {
                let from = self.in_view(frame.environment);
                self.extend(frame.environment, from, bound)
            }
        };
        self.focus = Focus::Closure(alternative, environment);
        None
    }

    fn extend(&mut self, before: u32, from: u32, bound: Bound<'p>) -> u32 {
        self.environments.push(Environment {
            before,
            from,
            bound,
        });
        self.environments.len() as u32 - 1
    }

    /// The number of variables in view.
    fn in_view(&self, environment: u32) -> u32 {
        let environment = &self.environments[environment as usize];
        environment.from
            + match environment.bound {
                Bound::Expressions(bound, _) => bound.len() as u32,
                Bound::Cells(_, count) => count,
            }
    }

    fn look_up(&self, number: u32, environment: u32) -> Focus<'p> {
        let mut found = &self.environments[environment as usize];
        while number < found.from {
            found = &self.environments[found.before as usize];
        }
        match found.bound {
            Bound::Expressions(bound, inside) => {
                Focus::Closure(&bound[(number - found.from) as usize], inside)
            }
            Bound::Cells(first, _) => Focus::Part(first + number - found.from),
        }
    }

    /// Where the evaluation stands, waiting on a cell.
    pub fn point(&self, cell: u32) -> Point {
        Point {
            cell,
            frame: self.frame,
            steps: self.steps,
            environments: self.environments.len(),
            frames: self.frames.len(),
            cells: self.cells.len(),
        }
    }

    /// Goes back to a point, its cell open again.
    pub fn go_back(&mut self, point: &Point) {
        self.environments.truncate(point.environments);
        self.frames.truncate(point.frames);
        self.cells.truncate(point.cells);
        self.frame = point.frame;
        self.steps = point.steps;
        self.focus = Focus::Part(point.cell);
        self.cells[point.cell as usize].constructor = OPEN;
    }

    /// The first constructor of the point's cell, from a number on, that fits the depth.
    pub fn fitting(&self, point: &Point, from: usize) -> Option<usize> {
        let cell = self.cells[point.cell as usize];
        let constructors = &self.program.types[cell.of as usize];
        (from..constructors.len()).find(|number| constructors[*number].least <= cell.room as usize)
    }

    /// Binds the cell of a point; its fields are open.
    pub fn bind(&mut self, point: &Point, constructor: usize) {
        self.put(point.cell as usize, constructor);
    }

    /// Puts a constructor into a cell, and open cells for its fields behind all others. The result is the first of them.
    pub fn put(&mut self, at: usize, constructor: usize) -> usize {
        let first = self.cells.len();
        let cell = &mut self.cells[at];
        cell.constructor = constructor as u8;
        cell.first = first as u32;
        let (of, room) = (cell.of as usize, cell.room as usize);
        let fields = &self.program.types[of][constructor].fields;
        self.cells
            .extend(fields.iter().map(|field| Cell::open(*field, room - 1)));
        first
    }
}
