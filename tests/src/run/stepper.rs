//! One step of a configuration (01, "Stepper"; 003, rules 1 to 9).

use crate::codec::{command_len, Record};
use crate::run::{plus_one, Answer, Machine};
use crate::substitute::{substitute, values_of};
use crate::translate::translate;
use crate::tree::{Block, Bound, Command, Expr, Program, TermRecord, Value, Variable};

/// A configuration: a program and a store of k values.
#[derive(Clone, Debug, PartialEq, Eq)]
pub struct Config {
    pub program: Program,
    pub store: Vec<Value>,
}

impl Config {
    /// The translation with the store substituted: what the reducer starts from, and what it holds
    /// after as many steps (01, "Run orders").
    pub fn term(&self) -> TermRecord {
        let mut record = translate(&self.program);
        substitute(&mut record.term, &values_of(&self.store));
        record
    }
}

/// One step: what stands in place of the command it acts on, and what it stores, if it does.
pub struct Step {
    commands: Vec<Command>,
    stored: Option<(Variable, Value)>,
}

impl Step {
    fn replace(commands: Vec<Command>) -> Step {
        let stored = None;
        Step { commands, stored }
    }

    fn store(variable: Variable, value: Value) -> Step {
        let stored = Some((variable, value));
        let commands = Vec::new();
        Step { commands, stored }
    }
}

impl Machine for Config {
    type Change = Step;

    fn state_len(&self) -> usize {
        self.program.encoded_len()
    }

    /// Finished: the outermost block is empty.
    fn next(&self) -> Answer<Step> {
        match active(&self.program.block).first() {
            None => Answer::Finished,
            Some(command) => step(command, &self.store, self.program.header.ceiling()),
        }
    }

    fn lengths(&self, step: &Step) -> (usize, usize) {
        let removed = active(&self.program.block).first().map_or(0, command_len);
        let added = step.commands.iter().map(command_len).sum();
        (removed, added)
    }

    fn apply(&mut self, step: Step) {
        active_mut(&mut self.program.block).splice(..1, step.commands);
        if let Some((variable, value)) = step.stored {
            self.store[place(variable)] = value;
        }
    }
}

/// Variables count from 1, a Rust slice from 0.
pub fn place(variable: Variable) -> usize {
    variable as usize - 1
}

fn starts_with_nonempty_block(block: &Block) -> bool {
    matches!(block.first(), Some(Command::Block(inner)) if !inner.is_empty())
}

/// Rule 7: with a nonempty block in front the step is one step inside it. So the command that the
/// step acts on is the first one of the block reached by going on as long as that is so.
fn active(mut block: &Block) -> &Block {
    while starts_with_nonempty_block(block) {
        if let Some(Command::Block(inner)) = block.first() {
            block = inner;
        }
    }
    block
}

fn active_mut(block: &mut Block) -> &mut Block {
    if !starts_with_nonempty_block(block) {
        return block;
    }
    match block.first_mut() {
        Some(Command::Block(inner)) => active_mut(inner),
        _ => unreachable!("it starts with a block"),
    }
}

/// One step of a command that is no nonempty block.
fn step(command: &Command, store: &[Value], ceiling: Value) -> Answer<Step> {
    match command {
        Command::Assign(variable, expr) => assign(*variable, expr, store, ceiling),
        // Rule 6: an empty block is gone.
        Command::Block(_) => Answer::Next(Step::replace(Vec::new())),
        Command::Loop(index, bound, body) => {
            let unrolled = unroll(*index, bound_value(bound, store), body);
            Answer::Next(Step::replace(vec![Command::Block(unrolled)]))
        }
    }
}

/// Rules 3 and 4 store; rules 1, 2 and 5 only turn the expression into a literal.
fn assign(variable: Variable, expr: &Expr, store: &[Value], ceiling: Value) -> Answer<Step> {
    let computed = match *expr {
        Expr::Literal(value) => return Answer::Next(Step::store(variable, value)),
        Expr::Variable(from) => return Answer::Next(Step::store(variable, store[place(from)])),
        Expr::PlusOne(from) => plus_one(store[place(from)], ceiling),
        Expr::MinusOne(from) => Some(store[place(from)].saturating_sub(1)),
    };
    match computed {
        None => Answer::Over,
        Some(value) => {
            let literal = Command::Assign(variable, Expr::Literal(value));
            Answer::Next(Step::replace(vec![literal]))
        }
    }
}

pub fn bound_value(bound: &Bound, store: &[Value]) -> Value {
    match *bound {
        Bound::Literal(value) => value,
        Bound::Variable(variable) => store[place(variable)],
    }
}

/// The block that a loop becomes. Rule 8: with bound value 0 it is empty. Rule 9: with q + 1 it is
/// the loop with literal q, the assignment of q + 1 to the index, then the body's commands.
fn unroll(index: Variable, bound: Value, body: &Block) -> Block {
    let Some(q) = bound.checked_sub(1) else {
        return Vec::new();
    };
    let earlier = Command::Loop(index, Bound::Literal(q), body.clone());
    let turn = Command::Assign(index, Expr::Literal(bound));
    let mut block = vec![earlier, turn];
    block.extend_from_slice(body);
    block
}
