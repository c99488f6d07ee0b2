//! Programs whose run can be foretold (02, C-19), as none of their commands assigns a bound, and programs that
//! do.

use crate::check::BUFFER_LIMIT;
use crate::codec::{command_len, Record};
use crate::generate::ceilings::program_in_any_edition;
use crate::generate::programs::{number_of_variables, value, variable, SHORTEST};
use crate::random::Random;
use crate::tree::{Block, Bound, Command, Expr, Program, Value, Variable};

/// A program of at most `limit` bytes that assigns no bound.
pub fn steady_program(random: &mut Random, limit: usize) -> Program {
    generated(random, limit, false)
}

/// The same, but in many cases it assigns some bound, here or there.
pub fn nearly_steady_program(random: &mut Random, limit: usize) -> Program {
    let slips = random.one_in(2);
    generated(random, limit, slips)
}

fn generated(random: &mut Random, limit: usize, slips: bool) -> Program {
    let k = number_of_variables(random);
    let roles = Roles::chosen(random, k, slips);
    let block = roles.shaped(random, limit - SHORTEST);
    program_in_any_edition(random, Program::new(k, block), limit)
}

/// How long a generated program may be: mostly short; now and then as long as any that can be lent.
pub fn limit(random: &mut Random) -> usize {
    let most = match random.below(300) {
        0 => return BUFFER_LIMIT,
        1..=15 => 3_000,
        16..=120 => 500,
        _ => 150,
    };
    SHORTEST + random.below(most)
}

/// How often loops of a program have turns.
#[derive(Clone, Copy)]
enum Turns {
    /// None or one, so that steps stay few however deep it is.
    AtMostOne,
    Few,
    Any,
    /// Numbers of every length up to 32 bits, so that steps are soon too many.
    Many,
}

/// Which variables may be bounds, and which are assigned: every variable is either.
struct Roles {
    k: u32,
    bounds: Vec<Variable>,
    assigned: Vec<Variable>,
    turns: Turns,
    /// Now and then a variable is taken for the other sort.
    slips: bool,
}

impl Roles {
    /// At least one is assigned: without one there is neither a loop nor an assignment.
    fn chosen(random: &mut Random, k: u32, slips: bool) -> Roles {
        let one = variable(random, k);
        let is_bound = |it: &Variable| *it != one && random.one_in(2);
        let (bounds, assigned) = (1..=k).partition(is_bound);
        let turns = *random.pick(&[Turns::AtMostOne, Turns::Few, Turns::Any, Turns::Many]);
        Roles {
            k,
            bounds,
            assigned,
            turns,
            slips,
        }
    }

    fn assigned(&self, random: &mut Random) -> Variable {
        if self.slips && random.one_in(3) {
            return variable(random, self.k);
        }
        *random.pick(&self.assigned)
    }

    fn bound(&self, random: &mut Random) -> Bound {
        if self.slips && random.one_in(3) {
            return Bound::Variable(variable(random, self.k));
        }
        if self.bounds.is_empty() || random.one_in(2) {
            return Bound::Literal(self.turns(random));
        }
        Bound::Variable(*random.pick(&self.bounds))
    }

    fn turns(&self, random: &mut Random) -> Value {
        match self.turns {
            Turns::AtMostOne => u32::from(!random.one_in(8)),
            Turns::Few => random.below(4) as u32,
            Turns::Any => value(random),
            Turns::Many => random.word() >> random.below(32),
        }
    }

    /// Commands of at most `room` bytes, in one of several shapes.
    fn shaped(&self, random: &mut Random, room: usize) -> Block {
        match random.below(12) {
            0 => row(room, || Command::Block(vec![])),
            1 => row(room, || self.assignment(random)),
            2 => row(room, || self.repeated(random, vec![])),
            3 => row(room, || {
                let body = self.mixed(random, 60);
                self.repeated(random, body)
            }),
            4 => self.deep(random, room, |_| false),
            5 => self.deep(random, room, |_| true),
            6 => self.deep(random, room, |random| random.one_in(2)),
            _ => self.mixed(random, room),
        }
    }

    /// Any mixture of commands, with blocks and loops inside.
    fn mixed(&self, random: &mut Random, room: usize) -> Block {
        let mut left = random.below(room + 1);
        let mut block = Vec::new();
        while let Some(command) = self.command(random, left) {
            left -= command_len(&command);
            block.push(command);
        }
        block
    }

    fn command(&self, random: &mut Random, room: usize) -> Option<Command> {
        match random.below(5) {
            0 if room >= 4 => Some(Command::Block(self.mixed(random, room - 4))),
            1 | 2 if room >= 20 => {
                let body = self.mixed(random, room - 20);
                Some(self.repeated(random, body))
            }
            _ if room >= 16 => Some(self.assignment(random)),
            _ => None,
        }
    }

    /// Loops or blocks within each other, now and then with an assignment or a block before or behind.
    fn deep(
        &self,
        random: &mut Random,
        room: usize,
        is_loop: impl Fn(&mut Random) -> bool,
    ) -> Block {
        let (mut left, mut block) = (room, Vec::new());
        while left >= 20 {
            let outer = if is_loop(random) {
                self.repeated(random, block)
            } else {
                Command::Block(block)
            };
            left -= if matches!(outer, Command::Loop(..)) {
                20
            } else {
                4
            };
            block = vec![outer];
            let beside = match random.below(40) {
                0 => Command::Block(vec![]),
                1 if left >= 16 => self.assignment(random),
                _ => continue,
            };
            left = left.saturating_sub(command_len(&beside));
            let place = random.below(2);
            block.insert(place, beside);
        }
        block
    }

    fn repeated(&self, random: &mut Random, body: Block) -> Command {
        Command::Loop(self.assigned(random), self.bound(random), body)
    }

    /// What is read may be a bound as well.
    fn assignment(&self, random: &mut Random) -> Command {
        let from = variable(random, self.k);
        let expr = match random.below(4) {
            0 => Expr::Literal(value(random)),
            1 => Expr::Variable(from),
            2 => Expr::PlusOne(from),
            _ => Expr::MinusOne(from),
        };
        Command::Assign(self.assigned(random), expr)
    }
}

/// As many as there is room for.
fn row(room: usize, mut command: impl FnMut() -> Command) -> Block {
    let mut left = room;
    let mut block = Vec::new();
    loop {
        let next = command();
        if command_len(&next) > left {
            return block;
        }
        left -= command_len(&next);
        block.push(next);
    }
}

/// A program of k = 2 that takes exactly so many steps. A loop of n turns whose body takes s takes
/// n · (3 + s) + 2, and what is left over stands beside it. One that would be too long to lend is made anew.
pub fn taking(random: &mut Random, steps: u128) -> Program {
    loop {
        let program = Program::new(2, row_taking(random, steps));
        if program.encoded_len() <= BUFFER_LIMIT {
            return program;
        }
    }
}

fn row_taking(random: &mut Random, steps: u128) -> Block {
    if steps < 60 {
        return (0..steps).map(|_| of_one_step(random)).collect();
    }
    // As many turns as leave the body some steps, or none.
    let most = ((steps - 2) / 3).min(u128::from(Value::MAX));
    let turns = match random.below(3) {
        0 => 1 + random.below(20.min(most as usize)) as u128,
        1 => 1 + random.below(most as usize) as u128,
        _ => most.min(1 + random.below(100_000) as u128),
    };
    let (each, left) = ((steps - 2) / turns, (steps - 2) % turns);
    let index = variable(random, 2);
    let body = row_taking(random, each - 3);
    let repeated = Command::Loop(index, Bound::Literal(turns as Value), body);
    let mut block = row_taking(random, left);
    let place = random.below(block.len() + 1);
    block.insert(place, repeated);
    block
}

fn of_one_step(random: &mut Random) -> Command {
    match random.below(8) {
        0 => Command::Assign(variable(random, 2), Expr::Literal(value(random))),
        1 => Command::Assign(1, Expr::Variable(2)),
        _ => Command::Block(vec![]),
    }
}
