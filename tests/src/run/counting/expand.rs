//! The configuration that a counting state stands for (02, C-14), and its length without building it: a
//! loop of 4,294,967,295 turns expands to more bytes than any machine has.

use super::{Open, Spot, Turn};
use crate::codec::{command_len, header_len};
use crate::tree::{Block, Bound, Command, Expr, Program, Value, Variable};

/// What is left of the block, what is open in it expanded.
pub fn block(block: &Block, spot: &Spot) -> Block {
    let mut left = block[spot.at..].to_vec();
    if let Some(open) = &spot.open {
        left[0] = opened(&left[0], open);
    }
    left
}

/// The command that stands in place of the one that is open.
fn opened(command: &Command, open: &Open) -> Command {
    match (command, open) {
        (Command::Assign(variable, _), Open::Sum(sum)) => {
            Command::Assign(*variable, Expr::Literal(*sum))
        }
        (Command::Block(inner), Open::Block(inside)) => Command::Block(block(inner, inside)),
        (Command::Loop(index, _, body), Open::Loop(top, turn)) => {
            let first = innermost(*index, turn, body);
            (turn.reached()..*top).fold(first, |before, earlier| {
                Command::Block(turn_of(Some(before), *index, earlier + 1, body))
            })
        }
        _ => unreachable!("what is open is of the command's own sort"),
    }
}

/// What all later turns stand around: unrolling, the loop with the literal that is left in it; running,
/// the block of the turn it is in.
fn innermost(index: Variable, turn: &Turn, body: &Block) -> Command {
    match turn {
        Turn::Unrolling(left) => Command::Loop(index, Bound::Literal(*left), body.clone()),
        Turn::AtZero => Command::Block(Vec::new()),
        Turn::Index(count) => Command::Block(turn_of(None, index, *count, body)),
        Turn::Body(_, inside) => Command::Block(block(body, inside)),
    }
}

/// A turn as 01 unrolls it: what comes before it, the index's assignment, the body's commands.
fn turn_of(before: Option<Command>, index: Variable, count: Value, body: &Block) -> Block {
    let mut turn: Block = before.into_iter().collect();
    turn.push(Command::Assign(index, Expr::Literal(count)));
    turn.extend_from_slice(body);
    turn
}

/// The length of the expansion's record: the program's own header, the outermost block's head of 4 bytes,
/// and its commands.
pub fn record_len(program: &Program, spot: &Spot) -> u64 {
    header_len(program.header) as u64 + 4 + left_len(&program.block, spot)
}

/// The lengths of the commands of [`block`], added up.
fn left_len(block: &Block, spot: &Spot) -> u64 {
    let left = &block[spot.at..];
    match &spot.open {
        None => commands_len(left),
        Some(open) => opened_len(&left[0], open) + commands_len(&left[1..]),
    }
}

fn commands_len(commands: &[Command]) -> u64 {
    commands.iter().map(command_len).sum::<usize>() as u64
}

fn opened_len(command: &Command, open: &Open) -> u64 {
    match (command, open) {
        (Command::Block(inner), Open::Block(inside)) => 4 + left_len(inner, inside),
        (Command::Loop(_, _, body), Open::Loop(top, turn)) => {
            // A loop's record and a later turn's block are as long as each other: a loop has head,
            // index, bound and its block's head, 4 + 4 + 8 + 4; a turn its head and an assignment, 4
            // + 16.
            let one = 20 + commands_len(body);
            let first = match turn {
                Turn::Unrolling(_) => one,
                Turn::AtZero => 4,
                Turn::Index(_) => one,
                Turn::Body(_, inside) => 4 + left_len(body, inside),
            };
            first + u64::from(top - turn.reached()) * one
        }
        // A sum is a literal where plus one or minus one stood: as long as that.
        (other, _) => command_len(other) as u64,
    }
}
