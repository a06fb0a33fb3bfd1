//! An accepted rule file as a tree. A file that `check` refuses may panic here.

/// An expression. Variables are numbered from the parameters on; the types of constructions, cases and lets are not needed any more.
pub enum Expr {
    Variable(usize),
    Call(usize, Vec<Expr>),
    Construction(u8, Vec<Expr>),
    Case(Box<Expr>, Vec<Option<Expr>>),
    Let(Box<Expr>, Box<Expr>),
    Target(u8, Box<Expr>),
}

/// A constructor: the types of its fields and the depth of its shallowest value.
pub struct Constructor {
    pub fields: Vec<usize>,
    pub least: usize,
}

pub struct Function {
    pub parameters: Vec<usize>,
    pub body: Expr,
}

pub struct Program {
    pub types: Vec<Vec<Constructor>>,
    pub functions: Vec<Function>,
    /// The type whose values spell names, if one is named.
    pub names: Option<usize>,
    pub source: usize,
    pub label: u8,
    pub depth: usize,
    pub steps: usize,
}

impl Program {
    /// The tree of an accepted rule file.
    pub fn read(file: &[u8]) -> Program {
        let mut reader = Reader { file, at: 0 };
        let mut types = vec![];
        while reader.mark(b"TY") {
            types.push(reader.constructors());
        }
        find_least_depths(&mut types);
        let mut heads = vec![];
        while reader.mark(b"FN") {
            heads.push(reader.head());
        }
        let names = reader.mark(b"NA").then(|| reader.number());
        assert!(reader.mark(b"GO"), "the file is not an accepted one");
        let (source, label, depth) = (reader.number(), reader.byte(), reader.number());
        let steps = reader.two();
        let functions = heads
            .iter()
            .map(|head| Function {
                parameters: head.parameters.clone(),
                body: Bodies {
                    types: &types,
                    heads: &heads,
                }
                .read(&mut Reader {
                    file,
                    at: head.body,
                }),
            })
            .collect();
        Program {
            types,
            functions,
            names,
            source,
            label,
            depth,
            steps,
        }
    }

    /// The types of the source function's parameters.
    pub fn parameters(&self) -> &[usize] {
        &self.functions[self.source].parameters
    }
}

/// What stands before a function's body, and where the body begins.
struct Head {
    parameters: Vec<usize>,
    body: usize,
}

struct Reader<'f> {
    file: &'f [u8],
    at: usize,
}

impl Reader<'_> {
    fn byte(&mut self) -> u8 {
        self.at += 1;
        self.file[self.at - 1]
    }

    fn number(&mut self) -> usize {
        self.byte() as usize
    }

    fn two(&mut self) -> usize {
        self.number() + 256 * self.number()
    }

    /// Passes over the mark if it stands here.
    fn mark(&mut self, mark: &[u8; 2]) -> bool {
        let here = self.file[self.at..].starts_with(mark);
        self.at += if here { 2 } else { 0 };
        here
    }

    /// Numbers behind their count.
    fn numbers(&mut self) -> Vec<usize> {
        (0..self.number()).map(|_| self.number()).collect()
    }

    fn constructors(&mut self) -> Vec<Constructor> {
        (0..self.number())
            .map(|_| Constructor {
                fields: self.numbers(),
                least: usize::MAX,
            })
            .collect()
    }

    fn head(&mut self) -> Head {
        let parameters = self.numbers();
        self.byte();
        let size = self.two();
        let body = self.at;
        self.at += size;
        Head { parameters, body }
    }
}

/// What the expressions of bodies refer to.
struct Bodies<'t> {
    types: &'t [Vec<Constructor>],
    heads: &'t [Head],
}

impl Bodies<'_> {
    fn read(&self, reader: &mut Reader) -> Expr {
        match reader.byte() {
            0 => Expr::Variable(reader.number()),
            1 => {
                let function = reader.number();
                Expr::Call(
                    function,
                    self.several(reader, self.heads[function].parameters.len()),
                )
            }
            2 => {
                let (of, constructor) = (reader.number(), reader.byte());
                let fields = self.types[of][constructor as usize].fields.len();
                Expr::Construction(constructor, self.several(reader, fields))
            }
            3 => {
                let of = reader.number();
                let scrutinee = self.read(reader);
                let alternatives = self.types[of]
                    .iter()
                    .map(|_| self.alternative(reader))
                    .collect();
                Expr::Case(Box::new(scrutinee), alternatives)
            }
            4 => {
                reader.byte();
                let bound = self.read(reader);
                Expr::Let(Box::new(bound), Box::new(self.read(reader)))
            }
            _ => Expr::Target(reader.byte(), Box::new(self.read(reader))),
        }
    }

    fn several(&self, reader: &mut Reader, count: usize) -> Vec<Expr> {
        (0..count).map(|_| self.read(reader)).collect()
    }

    fn alternative(&self, reader: &mut Reader) -> Option<Expr> {
        match reader.byte() {
            0 => None,
            _ => Some(self.read(reader)),
        }
    }
}

/// The least depth of a type: that of its shallowest constructor.
fn least_of(constructors: &[Constructor]) -> usize {
    constructors
        .iter()
        .map(|constructor| constructor.least)
        .min()
        .unwrap_or(usize::MAX)
}

/// Fills in the least depths, round by round until they stay.
fn find_least_depths(types: &mut [Vec<Constructor>]) {
    loop {
        let of_types: Vec<usize> = types
            .iter()
            .map(|constructors| least_of(constructors))
            .collect();
        let mut changed = false;
        for constructor in types.iter_mut().flatten() {
            let deepest = constructor
                .fields
                .iter()
                .map(|field| of_types[*field])
                .max()
                .unwrap_or(0);
            let least = deepest.saturating_add(1);
            changed |= least != constructor.least;
            constructor.least = least;
        }
        if !changed {
            return;
        }
    }
}
