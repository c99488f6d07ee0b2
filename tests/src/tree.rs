//! LOOP programs and T0 terms as trees (01, "Records", without the bytes).

/// A variable number, 1 to k in a sound record.
pub type Variable = u32;

/// A value, 0 to 4,294,967,295 (01, "Records").
pub type Value = u32;

/// What a header says: the number of variables, and the edition.
#[derive(Clone, Copy, Debug, PartialEq, Eq)]
pub struct Header {
    pub k: u32,
    pub edition: Edition,
}

/// The edition of a header (02, C-17).
#[derive(Clone, Copy, Debug, PartialEq, Eq)]
pub enum Edition {
    First,
    /// With this ceiling.
    Second(Value),
}

impl Edition {
    pub fn number(self) -> u32 {
        match self {
            Edition::First => 1,
            Edition::Second(_) => 2,
        }
    }
}

impl Header {
    /// Of edition 1.
    pub fn first(k: u32) -> Header {
        let edition = Edition::First;
        Header { k, edition }
    }

    /// Of edition 2, with this ceiling.
    pub fn second(k: u32, ceiling: Value) -> Header {
        let edition = Edition::Second(ceiling);
        Header { k, edition }
    }

    /// What no value may be above. An edition 1 header counts as the largest value.
    pub fn ceiling(self) -> Value {
        match self.edition {
            Edition::First => Value::MAX,
            Edition::Second(ceiling) => ceiling,
        }
    }
}

/// A program (01: tariff): its header and the outermost block.
#[derive(Clone, Debug, PartialEq, Eq)]
pub struct Program {
    pub header: Header,
    pub block: Block,
}

impl Program {
    /// Of edition 1.
    pub fn new(k: u32, block: Block) -> Program {
        let header = Header::first(k);
        Program { header, block }
    }

    /// The same in edition 2, with this ceiling.
    pub fn under(self, ceiling: Value) -> Program {
        let header = Header::second(self.header.k, ceiling);
        Program { header, ..self }
    }
}

/// The commands of a block, in order, possibly none.
pub type Block = Vec<Command>;

#[derive(Clone, Debug, PartialEq, Eq)]
pub enum Command {
    /// variable := expression
    Assign(Variable, Expr),
    /// for index := 1 to bound { body }
    Loop(Variable, Bound, Block),
    Block(Block),
}

#[derive(Clone, Copy, Debug, PartialEq, Eq)]
pub enum Expr {
    Literal(Value),
    Variable(Variable),
    PlusOne(Variable),
    MinusOne(Variable),
}

/// A loop's bound is a literal or a variable and nothing else (01, "Records", kind 3).
#[derive(Clone, Copy, Debug, PartialEq, Eq)]
pub enum Bound {
    Literal(Value),
    Variable(Variable),
}

/// A term with its header.
#[derive(Clone, Debug, PartialEq, Eq)]
pub struct TermRecord {
    pub header: Header,
    pub term: Term,
}

impl TermRecord {
    /// Of edition 1.
    pub fn new(k: u32, term: Term) -> TermRecord {
        let header = Header::first(k);
        TermRecord { header, term }
    }

    /// The same in edition 2, with this ceiling.
    pub fn under(self, ceiling: Value) -> TermRecord {
        let header = Header::second(self.header.k, ceiling);
        TermRecord { header, ..self }
    }
}

#[derive(Clone, Debug, PartialEq, Eq)]
pub enum Term {
    /// Exactly k atoms.
    Tuple(Vec<Atom>),
    /// let variable = simple in term
    LetOne(Variable, Simple, Box<Term>),
    /// let all variables = first term in last term
    LetAll(Box<Term>, Box<Term>),
    /// rec(index, count, start tuple, body)
    Rec(Variable, Atom, Vec<Atom>, Box<Term>),
}

#[derive(Clone, Copy, Debug, PartialEq, Eq)]
pub enum Atom {
    Numeral(Value),
    Variable(Variable),
}

/// What a let-one can bind: an atom, succ or pred.
#[derive(Clone, Copy, Debug, PartialEq, Eq)]
pub enum Simple {
    Atom(Atom),
    Succ(Atom),
    Pred(Atom),
}

impl Simple {
    pub fn atom(&self) -> &Atom {
        match self {
            Simple::Atom(atom) | Simple::Succ(atom) | Simple::Pred(atom) => atom,
        }
    }

    pub fn atom_mut(&mut self) -> &mut Atom {
        match self {
            Simple::Atom(atom) | Simple::Succ(atom) | Simple::Pred(atom) => atom,
        }
    }
}

/// Every variable number that stands somewhere in the program, for row 5.
pub fn program_variables(program: &Program) -> Vec<Variable> {
    let mut found = Vec::new();
    block_variables(&program.block, &mut found);
    found
}

fn block_variables(block: &Block, found: &mut Vec<Variable>) {
    for command in block {
        match command {
            Command::Assign(variable, expr) => {
                found.push(*variable);
                found.extend(expr_variable(expr));
            }
            Command::Loop(index, bound, body) => {
                found.push(*index);
                if let Bound::Variable(variable) = bound {
                    found.push(*variable);
                }
                block_variables(body, found);
            }
            Command::Block(block) => block_variables(block, found),
        }
    }
}

fn expr_variable(expr: &Expr) -> Option<Variable> {
    match expr {
        Expr::Literal(_) => None,
        Expr::Variable(x) | Expr::PlusOne(x) | Expr::MinusOne(x) => Some(*x),
    }
}

/// Every variable that a command of the program assigns, loop indexes included, for row 18.
pub fn assigned_variables(program: &Program) -> Vec<Variable> {
    let assigned = |command: &Command| match command {
        Command::Assign(variable, _) | Command::Loop(variable, ..) => Some(*variable),
        Command::Block(_) => None,
    };
    each_command(&program.block, &assigned)
}

/// Every variable that is the bound of a loop of the program, for row 18.
pub fn bound_variables(program: &Program) -> Vec<Variable> {
    let bound = |command: &Command| match command {
        Command::Loop(_, Bound::Variable(variable), _) => Some(*variable),
        _ => None,
    };
    each_command(&program.block, &bound)
}

/// What is looked for in the commands of a block, those within it included.
fn each_command(block: &Block, look: &dyn Fn(&Command) -> Option<Variable>) -> Vec<Variable> {
    let mut found = Vec::new();
    for command in block {
        found.extend(look(command));
        if let Command::Loop(_, _, inner) | Command::Block(inner) = command {
            found.extend(each_command(inner, look));
        }
    }
    found
}

/// Every variable number that stands somewhere in the term, bound or free, for row 5.
pub fn term_variables(term: &Term) -> Vec<Variable> {
    let mut found = Vec::new();
    collect_term_variables(term, &mut found);
    found
}

fn collect_term_variables(term: &Term, found: &mut Vec<Variable>) {
    match term {
        Term::Tuple(atoms) => found.extend(atoms.iter().filter_map(atom_variable)),
        Term::LetOne(variable, simple, last) => {
            found.push(*variable);
            found.extend(simple_variable(simple));
            collect_term_variables(last, found);
        }
        Term::LetAll(first, last) => {
            collect_term_variables(first, found);
            collect_term_variables(last, found);
        }
        Term::Rec(index, count, start, body) => {
            found.push(*index);
            found.extend(atom_variable(count));
            found.extend(start.iter().filter_map(atom_variable));
            collect_term_variables(body, found);
        }
    }
}

pub fn atom_variable(atom: &Atom) -> Option<Variable> {
    match atom {
        Atom::Numeral(_) => None,
        Atom::Variable(variable) => Some(*variable),
    }
}

pub fn simple_variable(simple: &Simple) -> Option<Variable> {
    atom_variable(simple.atom())
}

/// Every literal of the program, in an expression or a bound, for row 15.
pub fn program_literals(program: &Program) -> Vec<Value> {
    let mut found = Vec::new();
    block_literals(&program.block, &mut found);
    found
}

fn block_literals(block: &Block, found: &mut Vec<Value>) {
    for command in block {
        match command {
            Command::Assign(_, Expr::Literal(value)) => found.push(*value),
            Command::Assign(..) => (),
            Command::Loop(_, bound, body) => {
                if let Bound::Literal(value) = bound {
                    found.push(*value);
                }
                block_literals(body, found);
            }
            Command::Block(block) => block_literals(block, found),
        }
    }
}

/// Every numeral of the term, for row 15.
pub fn term_numerals(term: &Term) -> Vec<Value> {
    let mut found = Vec::new();
    collect_numerals(term, &mut found);
    found
}

fn collect_numerals(term: &Term, found: &mut Vec<Value>) {
    match term {
        Term::Tuple(atoms) => found.extend(atoms.iter().filter_map(atom_numeral)),
        Term::LetOne(_, simple, last) => {
            found.extend(atom_numeral(simple.atom()));
            collect_numerals(last, found);
        }
        Term::LetAll(first, last) => {
            collect_numerals(first, found);
            collect_numerals(last, found);
        }
        Term::Rec(_, count, start, body) => {
            found.extend(atom_numeral(count));
            found.extend(start.iter().filter_map(atom_numeral));
            collect_numerals(body, found);
        }
    }
}

fn atom_numeral(atom: &Atom) -> Option<Value> {
    match atom {
        Atom::Numeral(value) => Some(*value),
        Atom::Variable(_) => None,
    }
}

/// Stack for recursion over the deepest records: 16,384 bytes nest 4,094 deep.
const BIG_STACK: usize = 256 << 20;

/// Runs the closure on a thread with a big stack.
///
/// Every function on trees recurses, and so do the clone, the comparison and the drop that Rust
/// makes for them, so nothing that may be deep belongs on a thread of usual size.
pub fn with_big_stack<T: Send>(body: impl FnOnce() -> T + Send) -> T {
    std::thread::scope(|scope| {
        let thread = std::thread::Builder::new()
            .stack_size(BIG_STACK)
            .spawn_scoped(scope, body)
            .expect("a thread with a big stack");
        thread
            .join()
            .unwrap_or_else(|panic| std::panic::resume_unwind(panic))
    })
}
