//! What is foretold of a run (02, C-19): its steps, its longest configuration and its longest term, worked out
//! on the tree and not run. `unlimited` has the same three figures from a run.
//!
//! Of a program that assigns no bound each turn of a loop is like every other, so a few sums tell all of it.
//! Values don't matter beside the bounds: no length depends on one.

pub mod unlimited;

use crate::codec::header_len;
use crate::run::stepper::{bound_value, Config};
use crate::tree::{Block, Command, Expr, Value};

/// The three figures. A length is a sum over what stands within each other, which 128 bits hold by far. Steps
/// are a product: those that 128 bits don't hold are the largest number that they do, which is far above 64
/// bits as well. It stays so in every sum and in every product but one with 0, and that is 0 of any number.
#[derive(Clone, Copy, Debug, PartialEq, Eq)]
pub struct Figures {
    pub steps: u128,
    pub program_bytes: u128,
    pub term_bytes: u128,
}

/// The head of a record; an assignment, also its let-one, of a literal, a variable or an atom; a loop's head,
/// index, bound and the head of its block.
const HEAD: u128 = 4;
const ASSIGNMENT: u128 = 16;
const LOOP: u128 = 20;

/// How long something is when the run comes to it, and at most from there until it is gone.
#[derive(Clone, Copy)]
struct Length {
    first: u128,
    most: u128,
}

impl Length {
    /// Of something that never gets longer.
    fn shrinking(length: u128) -> Length {
        let (first, most) = (length, length);
        Length { first, most }
    }

    /// One behind the other: the last stands there as it is until the first is gone.
    fn then(self, last: Length) -> Length {
        Length {
            first: self.first + last.first,
            most: last.most.max(self.most + last.first),
        }
    }

    /// With something around it that stays until it is gone.
    fn within(self, around: u128) -> Length {
        Length {
            first: around + self.first,
            most: around + self.most,
        }
    }

    /// This is a loop's body; `own` is what the loop has beside it, and `block` the length of an empty block.
    ///
    /// Unrolling puts a block around the loop and a turn behind it, an assignment and the body, as often as there
    /// are turns. Then the loop is an empty block, which goes, and of the turns the first has all others
    /// behind it.
    fn repeated(self, turns: Value, own: u128, block: u128) -> Length {
        let first = own + self.first;
        let turn = block + ASSIGNMENT + self.first;
        let all_unrolled = first + u128::from(turns) * turn;
        let in_first_turn = match turns.checked_sub(1) {
            None => 0,
            Some(others) => block + self.most + u128::from(others) * turn,
        };
        Length {
            first,
            most: all_unrolled.max(in_first_turn),
        }
    }
}

/// A command, or a row of them: how many steps it takes until it is gone, and its length in the program and in
/// the term. A row's term is here without the tuple that it ends with.
struct Part {
    steps: u128,
    program: Length,
    term: Length,
}

/// What a run of the configuration comes to, one with no largest value, no ceiling and no limit on buffers. The
/// program assigns no bound.
pub fn figures(start: &Config) -> Figures {
    let header = start.program.header;
    let from = Start {
        store: &start.store,
        tuple: HEAD + 8 * u128::from(header.k),
    };
    let all = from.row(&start.program.block);
    let header = header_len(header) as u128;
    Figures {
        steps: all.steps,
        program_bytes: header + HEAD + all.program.most,
        term_bytes: header + from.tuple + all.term.most,
    }
}

/// The start store, in which the bounds never change, and the length of a tuple.
struct Start<'a> {
    store: &'a [Value],
    tuple: u128,
}

impl Start<'_> {
    fn row(&self, block: &Block) -> Part {
        let nothing = Part {
            steps: 0,
            program: Length::shrinking(0),
            term: Length::shrinking(0),
        };
        block.iter().fold(nothing, |row, command| {
            let next = self.command(command);
            Part {
                steps: row.steps.saturating_add(next.steps),
                program: row.program.then(next.program),
                term: row.term.then(next.term),
            }
        })
    }

    fn command(&self, command: &Command) -> Part {
        match command {
            Command::Assign(_, expr) => assignment(expr),
            Command::Block(inner) => self.block(self.row(inner)),
            Command::Loop(_, bound, body) => {
                self.repeated(bound_value(bound, self.store), self.row(body))
            }
        }
    }

    /// A block goes in a step of its own when it is empty. Its term is a let-all's first term, and ends with
    /// a tuple.
    fn block(&self, inner: Part) -> Part {
        Part {
            steps: inner.steps.saturating_add(1),
            program: inner.program.within(HEAD),
            term: inner.term.within(HEAD + self.tuple),
        }
    }

    /// A loop takes a step for each turn to unroll and two at 0; a turn takes one for the index, those of the
    /// body, and one when its block goes. Its term has a start tuple, and the body's ends with one.
    fn repeated(&self, turns: Value, body: Part) -> Part {
        let each = body.steps.saturating_add(3);
        let own = LOOP + 2 * self.tuple;
        Part {
            steps: u128::from(turns).saturating_mul(each).saturating_add(2),
            program: body.program.repeated(turns, LOOP, HEAD),
            term: body.term.repeated(turns, own, HEAD + self.tuple),
        }
    }
}

/// Plus one and minus one become a literal first; in the term they lose the head of succ or pred by that.
fn assignment(expr: &Expr) -> Part {
    let (steps, head) = match expr {
        Expr::Literal(_) | Expr::Variable(_) => (1, 0),
        Expr::PlusOne(_) | Expr::MinusOne(_) => (2, HEAD),
    };
    Part {
        steps,
        program: Length::shrinking(ASSIGNMENT),
        term: Length::shrinking(ASSIGNMENT + head),
    }
}
