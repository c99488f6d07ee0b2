//! Sound programs of every shape in both editions, and stores for them.

use crate::codec::command_len;
use crate::generate::ceilings::{program_in_any_edition, value_above, value_within};
use crate::random::Random;
use crate::tree::{Block, Bound, Command, Expr, Header, Program, Value, Variable};

/// The shortest program: its header, of edition 1, and the head of an empty block.
pub const SHORTEST: usize = 12;

/// A sound program whose record is at most `limit` bytes long.
pub fn program(random: &mut Random, limit: usize) -> Program {
    let k = number_of_variables(random);
    let block = shaped_block(random, k, limit - SHORTEST);
    program_in_any_edition(random, Program::new(k, block), limit)
}

/// k from 1 to 16. Small ones come more often: they leave room for more commands, and with k = 1 a
/// let-all of a tuple has the very shape of a let-one.
pub fn number_of_variables(random: &mut Random) -> u32 {
    let most = if random.one_in(3) { 16 } else { 4 };
    1 + random.below(most) as u32
}

/// Commands of at most `room` bytes, in one of several shapes.
pub fn shaped_block(random: &mut Random, k: u32, room: usize) -> Block {
    match random.below(9) {
        0 => Vec::new(),
        1 => deep_blocks(random, k, room),
        2 => deep_loops(random, k, room),
        3 => row(room, || Command::Block(Vec::new())),
        4 => row(room, || assignment(random, k)),
        _ => mixed(random, k, room),
    }
}

/// Any mixture of commands, with blocks and loops inside.
fn mixed(random: &mut Random, k: u32, room: usize) -> Block {
    let mut left = random.below(room + 1);
    let mut block = Vec::new();
    while let Some(command) = command(random, k, left) {
        left -= command_len(&command);
        block.push(command);
    }
    block
}

fn command(random: &mut Random, k: u32, room: usize) -> Option<Command> {
    match random.below(4) {
        0 if room >= 4 => Some(Command::Block(mixed(random, k, room - 4))),
        1 if room >= 20 => {
            let index = variable(random, k);
            let bound = bound(random, k, index);
            Some(Command::Loop(index, bound, mixed(random, k, room - 20)))
        }
        _ if room >= 16 => Some(assignment(random, k)),
        _ => None,
    }
}

/// As many of the same as there is room for.
fn row(room: usize, mut command: impl FnMut() -> Command) -> Block {
    let mut left = room;
    let mut block = Vec::new();
    loop {
        let next = command();
        if command_len(&next) > left {
            return block;
        }
        left -= command_len(&next);
        block.push(next);
    }
}

/// Blocks within blocks, now and then with an assignment after the inner one.
fn deep_blocks(random: &mut Random, k: u32, room: usize) -> Block {
    let mut left = room;
    let mut block = Vec::new();
    while left >= 4 {
        block = vec![Command::Block(block)];
        left -= 4;
        if left >= 16 && random.one_in(8) {
            block.push(assignment(random, k));
            left -= 16;
        }
    }
    block
}

/// Loops within loops, down to an empty body.
fn deep_loops(random: &mut Random, k: u32, room: usize) -> Block {
    let mut block = Vec::new();
    for _ in 0..room / 20 {
        let index = variable(random, k);
        block = vec![Command::Loop(index, bound(random, k, index), block)];
    }
    block
}

fn assignment(random: &mut Random, k: u32) -> Command {
    let from = variable(random, k);
    let expr = match random.below(4) {
        0 => Expr::Literal(value(random)),
        1 => Expr::Variable(from),
        2 => Expr::PlusOne(from),
        _ => Expr::MinusOne(from),
    };
    Command::Assign(variable(random, k), expr)
}

pub fn variable(random: &mut Random, k: u32) -> Variable {
    1 + random.below(k as usize) as u32
}

/// A bound: the index itself, another variable, a few turns, or now and then any number.
fn bound(random: &mut Random, k: u32, index: Variable) -> Bound {
    match random.below(8) {
        0 => Bound::Variable(index),
        1 | 2 => Bound::Variable(variable(random, k)),
        3 => Bound::Literal(value(random)),
        _ => Bound::Literal(random.below(4) as u32),
    }
}

/// Mostly small, so that loops end; sometimes next to the largest value; sometimes any.
pub fn value(random: &mut Random) -> Value {
    match random.below(8) {
        0 => Value::MAX - random.below(2) as u32,
        1 => random.word(),
        2 => random.below(300) as u32,
        _ => random.below(5) as u32,
    }
}

/// A store for a record with this header: k values, none above the ceiling.
pub fn store(random: &mut Random, header: Header) -> Vec<Value> {
    (0..header.k)
        .map(|_| value_within(random, header))
        .collect()
}

/// A store of other than k values: one fewer, one more, none, or any other number. The values may be above
/// any ceiling: their number is looked at first.
pub fn wrong_store(random: &mut Random, k: u32) -> Vec<Value> {
    let len = match random.below(4) {
        0 => k - 1,
        1 => k + 1,
        2 => 0,
        _ => k + 1 + random.below(20) as u32,
    };
    (0..len).map(|_| value(random)).collect()
}

/// A store that is refused: of other than k values, or, where there is a value above the ceiling, of k with
/// such a one among them.
pub fn refused_store(random: &mut Random, header: Header) -> Vec<Value> {
    match store_above(random, header) {
        Some(values) if random.one_in(2) => values,
        _ => wrong_store(random, header.k),
    }
}

/// A store of k values of which at least one is above the ceiling, if there is such a value.
pub fn store_above(random: &mut Random, header: Header) -> Option<Vec<Value>> {
    let above = value_above(random, header)?;
    let mut values = store(random, header);
    let place = random.below(values.len());
    values[place] = above;
    Some(values)
}
