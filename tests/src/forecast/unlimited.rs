//! A run with no largest value, no ceiling and no limit on buffers, step by step (02, C-19): how many steps it
//! takes, and how long its configurations and their terms are at most, the start and the end included.

use super::Figures;
use crate::codec::Record;
use crate::run::stepper::{place, Config};
use crate::tree::{self, Header, Program, Variable};

/// A value without a largest. A run of so many steps that 128 bits do not hold it takes for ever.
type Number = u128;

/// The commands of 01 with such numbers.
#[derive(Clone)]
enum Command {
    Assign(Variable, Expr),
    Loop(Variable, Bound, Block),
    Block(Block),
}

type Block = Vec<Command>;

#[derive(Clone, Copy)]
enum Expr {
    Literal(Number),
    Variable(Variable),
    PlusOne(Variable),
    MinusOne(Variable),
}

#[derive(Clone, Copy)]
enum Bound {
    Literal(Number),
    Variable(Variable),
}

struct Unlimited {
    header: Header,
    block: Block,
    store: Vec<Number>,
}

/// The figures of the run from this start, if it is at its end after at most so many steps, in configurations
/// of at most so many bytes.
pub fn figures_within(start: &Config, most_steps: u128, most_bytes: u128) -> Option<Figures> {
    let mut state = Unlimited {
        header: start.program.header,
        block: numbered(&start.program.block),
        store: start.store.iter().copied().map(Number::from).collect(),
    };
    let mut figures = state.lengths();
    while !state.block.is_empty() {
        step(&mut state.block, &mut state.store);
        let now = state.lengths();
        if figures.steps == most_steps || now.program_bytes > most_bytes {
            return None;
        }
        figures.steps += 1;
        figures.program_bytes = figures.program_bytes.max(now.program_bytes);
        figures.term_bytes = figures.term_bytes.max(now.term_bytes);
    }
    Some(figures)
}

impl Unlimited {
    /// Those of this configuration, by the codec; no step is made yet. No length depends on a value, so each
    /// is 0 there.
    fn lengths(&self) -> Figures {
        let program = Program {
            header: self.header,
            block: without_numbers(&self.block),
        };
        let store = vec![0; self.store.len()];
        let config = Config { program, store };
        Figures {
            steps: 0,
            program_bytes: config.program.encoded_len() as u128,
            term_bytes: config.term().encoded_len() as u128,
        }
    }
}

/// One step of a block that is not empty (01, "Stepper").
fn step(block: &mut Block, store: &mut [Number]) {
    let instead = match &mut block[0] {
        Command::Block(inner) if !inner.is_empty() => return step(inner, store),
        Command::Block(_) => vec![],
        Command::Assign(variable, expr) => assign(*variable, *expr, store),
        Command::Loop(index, bound, body) => {
            let value = match *bound {
                Bound::Literal(value) => value,
                Bound::Variable(variable) => store[place(variable)],
            };
            vec![Command::Block(unrolled(*index, value, body))]
        }
    };
    block.splice(..1, instead);
}

/// What is left of an assignment. 0 minus one is 0; plus one is never too large.
fn assign(variable: Variable, expr: Expr, store: &mut [Number]) -> Block {
    let stored = match expr {
        Expr::Literal(value) => value,
        Expr::Variable(from) => store[place(from)],
        Expr::PlusOne(from) => {
            let sum = store[place(from)] + 1;
            return vec![Command::Assign(variable, Expr::Literal(sum))];
        }
        Expr::MinusOne(from) => {
            let difference = store[place(from)].saturating_sub(1);
            return vec![Command::Assign(variable, Expr::Literal(difference))];
        }
    };
    store[place(variable)] = stored;
    vec![]
}

/// The block that a loop becomes: empty with bound value 0; with q + 1 the loop with q, the index, the body.
fn unrolled(index: Variable, value: Number, body: &Block) -> Block {
    if value == 0 {
        return vec![];
    }
    let earlier = Command::Loop(index, Bound::Literal(value - 1), body.clone());
    let turn = Command::Assign(index, Expr::Literal(value));
    [vec![earlier, turn], body.clone()].concat()
}

fn numbered(block: &tree::Block) -> Block {
    let command = |command: &tree::Command| match command {
        tree::Command::Assign(variable, expr) => Command::Assign(*variable, numbered_expr(expr)),
        tree::Command::Loop(index, bound, body) => {
            let bound = match *bound {
                tree::Bound::Literal(value) => Bound::Literal(value.into()),
                tree::Bound::Variable(variable) => Bound::Variable(variable),
            };
            Command::Loop(*index, bound, numbered(body))
        }
        tree::Command::Block(inner) => Command::Block(numbered(inner)),
    };
    block.iter().map(command).collect()
}

fn numbered_expr(expr: &tree::Expr) -> Expr {
    match *expr {
        tree::Expr::Literal(value) => Expr::Literal(value.into()),
        tree::Expr::Variable(variable) => Expr::Variable(variable),
        tree::Expr::PlusOne(variable) => Expr::PlusOne(variable),
        tree::Expr::MinusOne(variable) => Expr::MinusOne(variable),
    }
}

fn without_numbers(block: &Block) -> tree::Block {
    let command = |command: &Command| match command {
        Command::Assign(variable, expr) => tree::Command::Assign(*variable, without_number(*expr)),
        Command::Loop(index, bound, body) => {
            let bound = match *bound {
                Bound::Literal(_) => tree::Bound::Literal(0),
                Bound::Variable(variable) => tree::Bound::Variable(variable),
            };
            tree::Command::Loop(*index, bound, without_numbers(body))
        }
        Command::Block(inner) => tree::Command::Block(without_numbers(inner)),
    };
    block.iter().map(command).collect()
}

fn without_number(expr: Expr) -> tree::Expr {
    match expr {
        Expr::Literal(_) => tree::Expr::Literal(0),
        Expr::Variable(variable) => tree::Expr::Variable(variable),
        Expr::PlusOne(variable) => tree::Expr::PlusOne(variable),
        Expr::MinusOne(variable) => tree::Expr::MinusOne(variable),
    }
}
