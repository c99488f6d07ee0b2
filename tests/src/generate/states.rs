//! States of the counting stepper (02, C-14): words written by hand, states of any sort, and damage
//! to them.

use crate::check::depth;
use crate::generate::programs::program;
use crate::random::Random;
use crate::run::counting::words::{Words, STATE_WORDS};
use crate::run::counting::{Open, Spot, Turn};
use crate::tree::{Block, Command, Expr, Program, Value};

/// The words of an entry: what it is held open as, its place, top, reached, running, progress.
pub type Entry = [u32; 6];

/// Words with this place in the outermost block and these entries; no sum waits.
pub fn words(place: u32, entries: &[Entry]) -> Words {
    let mut words = [0; STATE_WORDS];
    words[0] = place;
    for (number, entry) in entries.iter().enumerate() {
        words[3 + 6 * number..9 + 6 * number].copy_from_slice(entry);
    }
    words
}

/// The same words with a sum that waits.
pub fn waiting(mut words: Words, sum: Value) -> Words {
    (words[1], words[2]) = (1, sum);
    words
}

/// A block open at this place, come to `at`.
pub fn block(place: u32, at: u32) -> Entry {
    [1, place, 0, 0, 0, at]
}

pub fn unrolling(place: u32, top: Value, left: Value) -> Entry {
    [2, place, top, left, 0, 0]
}

pub fn at_zero(place: u32, top: Value) -> Entry {
    [2, place, top, 0, 1, 0]
}

/// A loop in this turn, its index still to be stored.
pub fn index(place: u32, top: Value, turn: Value) -> Entry {
    [2, place, top, turn, 1, 1]
}

/// A loop in this turn, its body come to `at`.
pub fn body(place: u32, top: Value, turn: Value, at: u32) -> Entry {
    [2, place, top, turn, 1, at + 2]
}

/// How many entries the words hold.
pub fn held(words: &Words) -> usize {
    let entries = words[3..].chunks(6);
    entries.take_while(|entry| entry[0] != 0).count()
}

/// The same state in other words: anything in those that it does not hold, and anything but 0 in those
/// that are only asked whether they are 0.
pub fn other_words(random: &mut Random, words: &Words) -> Words {
    let mut other = *words;
    let held = held(words);
    for number in 0..held {
        let entry = &mut other[3 + 6 * number..9 + 6 * number];
        if entry[0] == 1 {
            entry[2..5].fill_with(|| random.word());
        } else if entry[4] != 0 {
            entry[4] = 1 + random.below(u32::MAX as usize) as u32;
        }
    }
    match other[1] {
        0 => other[2] = random.word(),
        _ => other[1] = 1 + random.below(u32::MAX as usize) as u32,
    }
    // The list ends at a 0; what is behind that word is free.
    if let Some(behind) = other.get_mut(3 + 6 * held + 1..) {
        behind.fill_with(|| random.word());
    }
    other
}

/// A program of at most 440 bytes that is nested at most 32 deep, with a command at least.
pub fn shallow_program(random: &mut Random) -> Program {
    loop {
        let limit = 40 + random.below(401);
        let program = program(random, limit);
        if depth(&program).is_ok() && !program.block.is_empty() {
            return program;
        }
    }
}

/// A state of a program, which a run need not come upon: any place, any counts, any sum within the ceiling.
pub fn any_spot(random: &mut Random, program: &Program) -> Spot {
    spot_up_to(random, &program.block, program.header.ceiling())
}

/// The same of a block, with counts and a sum of up to `most`.
pub fn spot_up_to(random: &mut Random, block: &Block, most: Value) -> Spot {
    let at = random.below(block.len() + 1);
    let open = match block.get(at) {
        Some(command) if !random.one_in(4) => open(random, command, most),
        _ => None,
    };
    Spot { at, open }
}

fn open(random: &mut Random, command: &Command, most: Value) -> Option<Open> {
    match command {
        Command::Assign(_, Expr::PlusOne(_) | Expr::MinusOne(_)) => {
            Some(Open::Sum(count(random, most)))
        }
        Command::Assign(..) => None,
        Command::Block(inner) => Some(Open::Block(Box::new(spot_up_to(random, inner, most)))),
        Command::Loop(_, _, body) => {
            let top = count(random, most);
            Some(Open::Loop(top, turn(random, top, body, most)))
        }
    }
}

fn turn(random: &mut Random, top: Value, body: &Block, most: Value) -> Turn {
    let reached = count(random, top);
    match (random.below(8), reached) {
        (0, _) => Turn::Unrolling(reached),
        (1, _) | (_, 0) => Turn::AtZero,
        (2, turn) => Turn::Index(turn),
        (_, turn) => Turn::Body(turn, Box::new(spot_up_to(random, body, most))),
    }
}

/// A count up to `most`: mostly small, so that loops end and expansions can be written out; sometimes
/// the largest, sometimes any.
fn count(random: &mut Random, most: Value) -> Value {
    match random.below(16) {
        0 => most,
        1 => random.word().min(most),
        2 => (random.below(300) as u32).min(most),
        _ => (random.below(5) as u32).min(most),
    }
}

/// One word, or an entry, other than it was. The state may be one still.
pub fn damaged(random: &mut Random, words: &Words) -> Words {
    let mut other = *words;
    let entries = held(words);
    // Mostly a word that counts.
    let place = match random.below(8) {
        0 => random.below(STATE_WORDS),
        _ => random.below((3 + 6 * entries + 1).min(STATE_WORDS)),
    };
    match random.below(8) {
        0 => other[place] = random.word(),
        1 => other[place] = other[place].wrapping_add(1),
        2 => other[place] = other[place].wrapping_sub(1),
        3 => other[place] = random.below(4) as u32,
        4 => other[place] = *random.pick(words),
        5 => other[place] = other[place].wrapping_add(4 * random.below(6) as u32),
        6 => other.fill_with(|| random.below(3) as u32),
        _ => exchange(random, &mut other, entries),
    }
    other
}

/// An entry for another, or for the one behind the last.
fn exchange(random: &mut Random, words: &mut Words, entries: usize) {
    let entry = |number: usize| 3 + 6 * number..9 + 6 * number;
    let (from, to) = (random.below(entries + 1), random.below(entries + 1));
    if from.max(to) < 31 {
        words.copy_within(entry(from), entry(to).start);
    }
}
