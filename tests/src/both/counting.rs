//! Run counting, expand. The state is lent as just its 189 words, between guards.

use super::same;
use crate::calls::{self, Counted, Written};
use crate::codec::hex;
use crate::lent::Lent;
use crate::library;
use crate::run::counting::words::Words;

pub fn run_counting(
    program: &[u8],
    used: usize,
    state: &mut Words,
    store: &mut [u32],
    budget: u32,
) -> Counted {
    let before = (*state, store.to_vec());
    let case = || {
        let (program, (state, store)) = (hex(program), &before);
        format!("run_counting, used {used} of {program}, state {state:?}, store {store:?}, budget {budget}")
    };
    let from = Lent::bytes(program);
    let (mut words, mut values) = (Lent::values(state), Lent::values(store));
    let answer = calls::run_counting(program, used, state, store, budget);
    let (lent_words, lent_values) = (in_place_mut(&mut words), values.slice_mut());
    let got = library::run_counting(from.slice(), used, lent_words, lent_values, budget);
    same(got, answer, case);
    from.assert_holds(program, case);
    words.assert_holds(state, case);
    values.assert_holds(store, case);
    answer
}

pub fn expand(
    program: &[u8],
    used: usize,
    state: &Words,
    store: &[u32],
    out: &mut [u8],
) -> Written {
    let room = out.len();
    let case = || {
        let program = hex(program);
        format!(
            "expand, used {used} of {program}, state {state:?}, {} values, room {room}",
            store.len()
        )
    };
    let (from, mut to) = (Lent::bytes(program), Lent::bytes(out));
    let (words, values) = (Lent::values(state), Lent::values(store));
    let answer = calls::expand(program, used, state, store, out);
    let lent_words = in_place(&words);
    let got = library::expand(
        from.slice(),
        used,
        lent_words,
        values.slice(),
        to.slice_mut(),
    );
    same(got, answer, case);
    from.assert_holds(program, case);
    words.assert_holds(state, case);
    values.assert_holds(store, case);
    to.assert_holds(out, case);
    answer
}

/// The lent words where they stand, so that the guards are next to them.
fn in_place(words: &Lent<u32>) -> &Words {
    words.slice().try_into().expect("189 words")
}

fn in_place_mut(words: &mut Lent<u32>) -> &mut Words {
    words.slice_mut().try_into().expect("189 words")
}
