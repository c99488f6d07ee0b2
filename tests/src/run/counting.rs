//! The stepper that carries loops as counts (02, C-14).
//!
//! A state points into the program, which stays as it is: it says how far each block has come and
//! what is open there. It stands for a configuration of 01, its expansion (`expand`), and a step of
//! it is a step of that; nothing is unrolled for it. `words` has the 189 words that a caller keeps.

pub mod expand;
pub mod words;

use crate::run::stepper::{bound_value, place, Config};
use crate::run::{plus_one, Answer, Outcome};
use crate::tree::{Block, Command, Expr, Program, Value, Variable};

/// How far a block has come.
#[derive(Clone, Debug, PartialEq, Eq)]
pub struct Spot {
    /// The command that stands first in what is left, counted from 0; the number of commands where
    /// nothing is left.
    pub at: usize,
    /// What is open of that command.
    pub open: Option<Open>,
}

#[derive(Clone, Debug, PartialEq, Eq)]
pub enum Open {
    /// The sum of a plus one or minus one, worked out but not yet stored.
    Sum(Value),
    /// A block, and how far it has come.
    Block(Box<Spot>),
    /// A loop in play: its top count, and where it is.
    Loop(Value, Turn),
}

/// Where a loop in play is.
#[derive(Clone, Debug, PartialEq, Eq)]
pub enum Turn {
    /// Unrolling, with this literal now left in the loop.
    Unrolling(Value),
    /// Running at 0: the empty block that the loop became.
    AtZero,
    /// In this turn, its index still to be stored.
    Index(Value),
    /// In this turn, its body come so far.
    Body(Value, Box<Spot>),
}

impl Turn {
    /// The count that the loop has reached.
    pub fn reached(&self) -> Value {
        match self {
            Turn::AtZero => 0,
            Turn::Unrolling(count) | Turn::Index(count) | Turn::Body(count, _) => *count,
        }
    }
}

impl Spot {
    /// Before the first command, with nothing open.
    pub fn start() -> Spot {
        Spot { at: 0, open: None }
    }

    /// Behind the command that stood first.
    fn pass(&mut self) -> Answer<()> {
        self.at += 1;
        self.open(None)
    }

    fn open(&mut self, open: Option<Open>) -> Answer<()> {
        self.open = open;
        Answer::Next(())
    }

    /// The values that it holds beside the store: the top counts of the loops in play, and the sum that
    /// waits, if one does. No count that a loop has reached is above its top.
    pub fn values(&self) -> Vec<Value> {
        match &self.open {
            None => vec![],
            Some(Open::Sum(sum)) => vec![*sum],
            Some(Open::Block(inside)) => inside.values(),
            Some(Open::Loop(top, Turn::Body(_, inside))) => [vec![*top], inside.values()].concat(),
            Some(Open::Loop(top, _)) => vec![*top],
        }
    }
}

/// What a step reads and writes beside the state: the store, whose values stay within the ceiling.
struct Store<'a> {
    values: &'a mut [Value],
    ceiling: Value,
}

impl Store<'_> {
    fn get(&self, variable: Variable) -> Value {
        self.values[place(variable)]
    }

    fn set(&mut self, variable: Variable, value: Value) {
        self.values[place(variable)] = value;
    }
}

/// The counting stepper's state: the program it was started with, how far it has come, and the store.
#[derive(Clone, Debug, PartialEq, Eq)]
pub struct Counting {
    pub program: Program,
    pub spot: Spot,
    pub store: Vec<Value>,
}

impl Counting {
    pub fn start(config: Config) -> Counting {
        Counting {
            program: config.program,
            spot: Spot::start(),
            store: config.store,
        }
    }

    /// One step. Nothing changes where none can be made.
    pub fn step(&mut self) -> Answer<()> {
        let mut store = Store {
            values: &mut self.store,
            ceiling: self.program.header.ceiling(),
        };
        step(&self.program.block, &mut self.spot, &mut store)
    }

    /// Runs for at most `budget` steps; gives the outcome, read from the state left, and the steps.
    /// There is no room to run out of.
    pub fn run(&mut self, budget: u32) -> (Outcome, u32) {
        for steps in 0..budget {
            if let Some(outcome) = stopped(self.step()) {
                return (outcome, steps);
            }
        }
        let further = self.clone().step();
        (stopped(further).unwrap_or(Outcome::Spent), budget)
    }

    /// The configuration that the state stands for.
    pub fn expansion(&self) -> Config {
        Config {
            program: Program {
                header: self.program.header,
                block: expand::block(&self.program.block, &self.spot),
            },
            store: self.store.clone(),
        }
    }
}

fn stopped(answer: Answer<()>) -> Option<Outcome> {
    match answer {
        Answer::Finished => Some(Outcome::Finished),
        Answer::Over => Some(Outcome::Over),
        Answer::Next(()) => None,
    }
}

/// One step of a block. Finished: nothing is left in it.
fn step(block: &Block, spot: &mut Spot, store: &mut Store) -> Answer<()> {
    match block.get(spot.at) {
        None => Answer::Finished,
        Some(Command::Assign(variable, expr)) => assign(spot, *variable, expr, store),
        Some(Command::Block(inner)) => within(spot, inner, store),
        Some(Command::Loop(index, bound, body)) => match &mut spot.open {
            Some(Open::Loop(top, turn)) => match turned(*index, *top, turn, body, store) {
                Answer::Finished => spot.pass(),
                other => other,
            },
            _ => spot.open(Some(met(bound_value(bound, store.values)))),
        },
    }
}

/// A waiting sum is stored. A plus one or minus one becomes one, and that is a step of its own.
fn assign(spot: &mut Spot, variable: Variable, expr: &Expr, store: &mut Store) -> Answer<()> {
    let value = match (&spot.open, expr) {
        (Some(Open::Sum(sum)), _) => *sum,
        (_, Expr::Literal(value)) => *value,
        (_, Expr::Variable(from)) => store.get(*from),
        (_, Expr::PlusOne(from)) => {
            return match plus_one(store.get(*from), store.ceiling) {
                None => Answer::Over,
                Some(sum) => spot.open(Some(Open::Sum(sum))),
            }
        }
        (_, Expr::MinusOne(from)) => {
            let sum = store.get(*from).saturating_sub(1);
            return spot.open(Some(Open::Sum(sum)));
        }
    };
    store.set(variable, value);
    spot.pass()
}

/// One step inside the block, which opens it where it is not; where nothing is left in it, it goes.
fn within(spot: &mut Spot, inner: &Block, store: &mut Store) -> Answer<()> {
    if let Some(Open::Block(inside)) = &mut spot.open {
        return match step(inner, inside, store) {
            Answer::Finished => spot.pass(),
            other => other,
        };
    }
    // An empty block goes without being opened, and one whose first step would be over stays shut.
    let mut inside = Spot::start();
    match step(inner, &mut inside, store) {
        Answer::Finished => spot.pass(),
        Answer::Over => Answer::Over,
        Answer::Next(()) => spot.open(Some(Open::Block(Box::new(inside)))),
    }
}

/// A loop that is met with this bound value: it becomes an empty block, or unrolls for the first time.
fn met(bound: Value) -> Open {
    let turn = match bound.checked_sub(1) {
        None => Turn::AtZero,
        Some(left) => Turn::Unrolling(left),
    };
    Open::Loop(bound, turn)
}

/// One step of a loop in play. Finished: the step took the last turn's empty block away, and with it
/// the loop.
fn turned(
    index: Variable,
    top: Value,
    turn: &mut Turn,
    body: &Block,
    store: &mut Store,
) -> Answer<()> {
    let next = match turn {
        Turn::Unrolling(0) => Turn::AtZero,
        Turn::Unrolling(left) => Turn::Unrolling(*left - 1),
        Turn::Index(count) => {
            store.set(index, *count);
            Turn::Body(*count, Box::new(Spot::start()))
        }
        Turn::AtZero if top == 0 => return Answer::Finished,
        Turn::AtZero => Turn::Index(1),
        Turn::Body(count, inside) => match step(body, inside, store) {
            // Nothing was left of this turn but its empty block, which goes.
            Answer::Finished if *count == top => return Answer::Finished,
            Answer::Finished => Turn::Index(*count + 1),
            other => return other,
        },
    };
    *turn = next;
    Answer::Next(())
}
