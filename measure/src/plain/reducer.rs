//! The reducer in place. The first term of a let-all starts right behind its head, so all heads
//! whose lengths a reduction changes follow each other.

use super::substitute::{closed, fill, Values};
use super::{half, put_half, put_head, put_leaf, put_word, run, word, Ahead, Header, State};
use other::calls::Reduced;
use other::check::Refusal;
use other::run::Outcome;

pub fn run_reducer(buf: &mut [u8], used: usize, budget: u32) -> Reduced {
    let checked = super::check::check_term(buf, used);
    if checked.number != 0 {
        return Reduced::refused(checked.number);
    }
    let header = Header::of(buf);
    if !closed(buf, header.contents) {
        return Reduced::refused(Refusal::FreeVariable);
    }
    let mut state = State { buf, header, used };
    let (end, replaced) = reduce(&mut state, budget);
    let ran = state.end(end, budget);
    Reduced { ran, replaced }
}

/// The run of a closed term, and how many variables it replaced.
pub(super) fn reduce(state: &mut State, budget: u32) -> ((Outcome, u32), u64) {
    let mut replaced = 0;
    let end = run(state, budget, ahead, |state, at, narrow, wide| {
        replaced += u64::from(perform(state, at, narrow, wide))
    });
    (end, replaced)
}

fn ahead(state: &State) -> Ahead {
    let (buf, header) = (&*state.buf, state.header);
    let mut at = header.contents;
    while half(buf, at + 2) == 38 && half(buf, at + 6) != 36 {
        at += 4;
    }
    let narrow = half(buf, at);
    let wide = match half(buf, at + 2) {
        36 => return Ahead::Finished,
        37 => match half(buf, at + 10) {
            32 => narrow - 16,
            34 if word(buf, at + 16) >= header.ceiling => return Ahead::Over,
            _ => narrow - 4,
        },
        38 => narrow - 4 - half(buf, at + 4),
        _ if word(buf, at + 12) == 0 => half(buf, at + 16),
        _ => 2 * narrow + 4 - half(buf, at + 16),
    };
    Ahead::Step { at, narrow, wide }
}

/// One reduction; gives how many variables it replaced, which only the lets with a value do.
fn perform(state: &mut State, at: usize, narrow: usize, wide: usize) -> u32 {
    match half(state.buf, at + 2) {
        37 if half(state.buf, at + 10) == 32 => return let_one(state, at, narrow, wide),
        37 => compute(state, at, narrow, wide),
        38 => return let_all(state, at, narrow, wide),
        _ if word(state.buf, at + 12) == 0 => {
            state.buf.copy_within(at + 16..at + 16 + wide, at);
            state.resize(at, narrow, wide);
        }
        _ => unroll(state, at, narrow, wide),
    }
    0
}

/// Succ or pred of a numeral becomes the numeral: the four bytes of its head go.
fn compute(state: &mut State, at: usize, narrow: usize, wide: usize) {
    let number = word(state.buf, at + 16);
    let value = if half(state.buf, at + 10) == 34 {
        number + 1
    } else {
        number.saturating_sub(1)
    };
    state.buf.copy_within(at + 20..at + narrow, at + 16);
    state.resize(at, narrow, wide);
    put_half(state.buf, at, wide);
    put_leaf(state.buf, at + 8, 32, value);
}

fn let_one(state: &mut State, at: usize, narrow: usize, wide: usize) -> u32 {
    let mut values: Values = [None; 17];
    values[word(state.buf, at + 4) as usize] = Some(word(state.buf, at + 12));
    state.buf.copy_within(at + 16..at + narrow, at);
    state.resize(at, narrow, wide);
    fill(state.buf, at, values)
}

fn let_all(state: &mut State, at: usize, narrow: usize, wide: usize) -> u32 {
    let mut values: Values = [None; 17];
    let tuple = half(state.buf, at + 4);
    for (n, atom) in (at + 8..at + 4 + tuple).step_by(8).enumerate() {
        values[n + 1] = Some(word(state.buf, atom + 4));
    }
    state.buf.copy_within(at + 4 + tuple..at + narrow, at);
    state.resize(at, narrow, wide);
    fill(state.buf, at, values)
}

/// Rec of q + 1 becomes let-all of the rec of q in let-one index = q + 1 in the body.
fn unroll(state: &mut State, at: usize, narrow: usize, wide: usize) {
    let (index, turns) = (word(state.buf, at + 4), word(state.buf, at + 12));
    let start = half(state.buf, at + 16);
    state.resize(at, narrow, wide);
    let buf = &mut *state.buf;
    let body = at + 16 + start..at + narrow;
    let turn = at + 4 + narrow;
    put_head(buf, turn, wide - 4 - narrow, 37);
    buf.copy_within(body, turn + 16);
    buf.copy_within(at..at + narrow, at + 4);
    put_head(buf, at, wide, 38);
    put_word(buf, at + 16, turns - 1);
    put_word(buf, turn + 4, index);
    put_leaf(buf, turn + 8, 32, turns);
}
