//! The two calls that write a store: result and weigh.

use super::substitute::closed;
use super::{half, word, Header};
use other::check::Refusal;

pub fn result(buf: &[u8], used: usize, store: &mut [u32]) -> u32 {
    let checked = super::check::check_term(buf, used);
    if checked.number != 0 {
        return checked.number;
    }
    if store.len() != checked.k as usize {
        return Refusal::BadStore.number();
    }
    let term = Header::of(buf).contents;
    if !closed(buf, term) {
        return Refusal::FreeVariable.number();
    }
    if half(buf, term + 2) != 36 {
        return Refusal::Unfinished.number();
    }
    for (i, value) in store.iter_mut().enumerate() {
        *value = word(buf, term + 8 + 8 * i);
    }
    0
}

/// Not made a part of its caller, as a C function cannot be: a call is 1 to 2 of its 7 nanoseconds.
#[inline(never)]
pub fn weigh(rule: u32, gross: u32, tare: u32, store: &mut [u32]) -> u32 {
    if !(1..=16).contains(&store.len()) {
        return Refusal::BadStore.number();
    }
    let net = gross.abs_diff(tare);
    let count = match rule {
        1 => net / 20,
        2 => net / 20 + net % 20 / 10,
        _ => return Refusal::BadRule.number(),
    };
    store.fill(0);
    store[0] = count;
    if let Some(larger) = store.get_mut(1) {
        *larger = u32::from(tare > gross);
    }
    0
}
