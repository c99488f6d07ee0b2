//! The 189 words of a state that a caller keeps (02, C-14), and refusal 13.
//!
//! `[0]` the place in the outermost block; `[1]` a sum waits if not 0; `[2]` the sum; then 31 entries
//! of six words, outermost first, up to the first that begins with 0. A place is the distance in
//! bytes from the outermost block's first command.

use super::{Open, Spot, Turn};
use crate::codec::command_len;
use crate::tree::{Block, Command, Expr, Program, Value};

pub const STATE_WORDS: usize = 189;

/// The words of a state.
pub type Words = [u32; STATE_WORDS];

/// The words before the entries, and those of an entry.
const FRONT: usize = 3;
const ENTRY: usize = 6;

/// What an entry is held open as.
const BLOCK: u32 = 1;
const LOOP: u32 = 2;

/// A loop's body progress: none, or its index is still to be stored; place p is p + 2.
const NO_PROGRESS: u32 = 0;
const INDEX: u32 = 1;
const PLACES: u32 = 2;

/// From a record's place to its block's first command: a block's head, and a loop's head, index,
/// bound and its block's head.
const INTO_BLOCK: u32 = 4;
const INTO_BODY: u32 = 4 + 4 + 8 + 4;

/// An entry's words. A block has no counts, and does not run.
struct Entry {
    what: u32,
    place: u32,
    top: Value,
    reached: Value,
    running: u32,
    progress: u32,
}

// Reading. `None` is refusal 13 all through.

/// The state that the words hold, if they hold one of this program.
pub fn read(words: &Words, program: &Program) -> Option<Spot> {
    let entry = |words: &[u32]| Entry {
        what: words[0],
        place: words[1],
        top: words[2],
        reached: words[3],
        running: words[4],
        progress: words[5],
    };
    let all = words[FRONT..].chunks(ENTRY).map(entry);
    let entries: Vec<Entry> = all.take_while(|entry| entry.what != 0).collect();
    let sum = (words[1] != 0).then_some(words[2]);
    read_spot(&program.block, 0, words[0], &entries, sum)
}

/// The spot of a block whose first command stands at `first`: at `place`, with these entries within it.
fn read_spot(
    block: &Block,
    first: u32,
    place: u32,
    entries: &[Entry],
    sum: Option<Value>,
) -> Option<Spot> {
    let at = places(block, first).position(|start| start == place)?;
    let open = match entries.split_first() {
        None => match sum {
            None => None,
            Some(sum) => Some(read_sum(block.get(at)?, sum)?),
        },
        // It is held open at its holder's place, and nowhere else.
        Some((entry, _)) if entry.place != place => return None,
        Some((entry, inner)) => Some(read_open(block.get(at)?, entry, inner, sum)?),
    };
    Some(Spot { at, open })
}

/// Where the commands of a block start, and behind them where it ends.
fn places(block: &Block, first: u32) -> impl Iterator<Item = u32> + '_ {
    let lengths = block.iter().map(|command| command_len(command) as u32);
    let ends = lengths.scan(first, |end, length| {
        *end += length;
        Some(*end)
    });
    [first].into_iter().chain(ends)
}

/// A sum waits only where a plus one or minus one stands.
fn read_sum(command: &Command, sum: Value) -> Option<Open> {
    match command {
        Command::Assign(_, Expr::PlusOne(_) | Expr::MinusOne(_)) => Some(Open::Sum(sum)),
        _ => None,
    }
}

fn read_open(
    command: &Command,
    entry: &Entry,
    inner: &[Entry],
    sum: Option<Value>,
) -> Option<Open> {
    match (entry.what, command) {
        (BLOCK, Command::Block(block)) => {
            let first = entry.place + INTO_BLOCK;
            let inside = read_spot(block, first, entry.progress, inner, sum)?;
            Some(Open::Block(Box::new(inside)))
        }
        (LOOP, Command::Loop(_, _, body)) => {
            let turn = read_turn(body, entry, inner, sum)?;
            // A reached count is not above its top.
            (entry.reached <= entry.top).then_some(Open::Loop(entry.top, turn))
        }
        _ => None,
    }
}

/// There is body progress in a turn, and neither while unrolling nor at 0.
fn read_turn(body: &Block, entry: &Entry, inner: &[Entry], sum: Option<Value>) -> Option<Turn> {
    let turn = match (entry.running != 0, entry.reached, entry.progress) {
        (false, left, NO_PROGRESS) => Turn::Unrolling(left),
        (true, 0, NO_PROGRESS) => Turn::AtZero,
        (false, ..) | (true, 0, _) | (true, _, NO_PROGRESS) => return None,
        (true, turn, INDEX) => Turn::Index(turn),
        (true, turn, place) => {
            let first = entry.place + INTO_BODY;
            let inside = read_spot(body, first, place - PLACES, inner, sum)?;
            return Some(Turn::Body(turn, Box::new(inside)));
        }
    };
    // Where the body is at no place, nothing is open in it and no sum waits.
    (inner.is_empty() && sum.is_none()).then_some(turn)
}

// Writing: 0 for all that the state does not hold.

/// The words of a state of this program, which is nested at most 32 deep.
pub fn write(spot: &Spot, program: &Program) -> Words {
    let mut words = [0; STATE_WORDS];
    let (front, entries) = words.split_at_mut(FRONT);
    let [place, waits, sum] = front else {
        unreachable!("three words")
    };
    let innermost = write_spot(&program.block, 0, spot, place, entries);
    if let Some(Open::Sum(value)) = &innermost.open {
        (*waits, *sum) = (1, *value);
    }
    words
}

/// Puts down the place of a block's spot, and the entries within it; gives the innermost spot.
fn write_spot<'a>(
    block: &Block,
    first: u32,
    spot: &'a Spot,
    place: &mut u32,
    entries: &mut [u32],
) -> &'a Spot {
    *place = places(block, first).nth(spot.at).expect("a place");
    let (open, command) = match &spot.open {
        None | Some(Open::Sum(_)) => return spot,
        Some(open) => (open, &block[spot.at]),
    };
    let (entry, inner) = entries.split_at_mut(ENTRY);
    let [what, at, top, reached, running, progress] = entry else {
        unreachable!("six words")
    };
    *at = *place;
    match (open, command) {
        (Open::Block(inside), Command::Block(block)) => {
            *what = BLOCK;
            write_spot(block, *at + INTO_BLOCK, inside, progress, inner)
        }
        (Open::Loop(most, turn), Command::Loop(_, _, body)) => {
            (*what, *top, *reached) = (LOOP, *most, turn.reached());
            *running = u32::from(!matches!(turn, Turn::Unrolling(_)));
            match turn {
                Turn::Unrolling(_) | Turn::AtZero => *progress = NO_PROGRESS,
                Turn::Index(_) => *progress = INDEX,
                Turn::Body(_, inside) => {
                    let innermost = write_spot(body, *at + INTO_BODY, inside, progress, inner);
                    *progress += PLACES;
                    return innermost;
                }
            }
            spot
        }
        _ => unreachable!("what is open is of the command's own sort"),
    }
}
