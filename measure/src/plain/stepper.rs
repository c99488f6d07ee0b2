//! The stepper in place. A block that stands first starts right behind the head of the one around
//! it, so all heads whose lengths a step changes follow each other.

use super::{half, put_head, put_leaf, put_word, run, word, Ahead, Header, State};
use other::calls::Ran;

pub fn run_stepper(buf: &mut [u8], used: usize, store: &mut [u32], budget: u32) -> Ran {
    let checked = super::check::check_program(buf, used);
    if checked.number != 0 {
        return Ran::refused(checked.number);
    }
    let header = Header::of(buf);
    if let Err(refusal) = header.takes(store) {
        return Ran::refused(refusal);
    }
    // Both closures read the store and one writes it, so it is handed about in a cell.
    let store = std::cell::RefCell::new(store);
    let mut state = State { buf, header, used };
    let end = run(
        &mut state,
        budget,
        |state| ahead(state, &store.borrow()),
        |state, at, narrow, wide| perform(state, at, narrow, wide, &mut store.borrow_mut()),
    );
    state.end(end, budget)
}

fn value(store: &[u32], variable: u32) -> u32 {
    store[variable as usize - 1]
}

fn bound(buf: &[u8], at: usize, store: &[u32]) -> u32 {
    let number = word(buf, at + 12);
    if half(buf, at + 10) == 16 {
        number
    } else {
        value(store, number)
    }
}

fn ahead(state: &State, store: &[u32]) -> Ahead {
    let (buf, header) = (&*state.buf, state.header);
    if half(buf, header.contents) == 4 {
        return Ahead::Finished;
    }
    let mut at = header.contents + 4;
    while half(buf, at + 2) == 1 && half(buf, at) > 4 {
        at += 4;
    }
    let narrow = half(buf, at);
    let wide = match half(buf, at + 2) {
        1 => 0,
        2 => match half(buf, at + 10) {
            16 | 17 => 0,
            18 if value(store, word(buf, at + 12)) >= header.ceiling => return Ahead::Over,
            _ => narrow,
        },
        _ if bound(buf, at, store) == 0 => 4,
        _ => 2 * narrow,
    };
    Ahead::Step { at, narrow, wide }
}

fn perform(state: &mut State, at: usize, narrow: usize, wide: usize, store: &mut [u32]) {
    match half(state.buf, at + 2) {
        1 => state.resize(at, narrow, wide),
        2 => assign(state, at, narrow, wide, store),
        _ if wide == 4 => {
            state.resize(at, narrow, wide);
            put_head(state.buf, at, 4, 1);
        }
        _ => unroll(state, at, narrow, store),
    }
}

fn assign(state: &mut State, at: usize, narrow: usize, wide: usize, store: &mut [u32]) {
    let number = word(state.buf, at + 12);
    let target = word(state.buf, at + 4) as usize - 1;
    match half(state.buf, at + 10) {
        16 => store[target] = number,
        17 => store[target] = value(store, number),
        18 => put_leaf(state.buf, at + 8, 16, value(store, number) + 1),
        _ => put_leaf(
            state.buf,
            at + 8,
            16,
            value(store, number).saturating_sub(1),
        ),
    }
    if wide == 0 {
        state.resize(at, narrow, wide);
    }
}

/// The loop of `length` bytes becomes a block of twice as many: the loop with one turn less, the
/// index, and the body's commands.
fn unroll(state: &mut State, at: usize, length: usize, store: &[u32]) {
    let turns = bound(state.buf, at, store);
    state.resize(at, length, 2 * length);
    let buf = &mut *state.buf;
    let index = word(buf, at + 4);
    buf.copy_within(at + 20..at + length, at + length + 20);
    buf.copy_within(at..at + length, at + 4);
    put_head(buf, at, 2 * length, 1);
    put_leaf(buf, at + 12, 16, turns - 1);
    let turn = at + 4 + length;
    put_head(buf, turn, 16, 2);
    put_word(buf, turn + 4, index);
    put_leaf(buf, turn + 8, 16, turns);
}
