//! Run counting, expand.

use super::terms::Written;
use super::{start, start_mut};
use crate::calls;
use crate::run::counting::words::Words;

#[repr(C)]
struct Counted {
    number: u32,
    outcome: u32,
    steps: u32,
    left: u32,
}

// The state goes over as a pointer alone: it is always of 189 words.
extern "C" {
    fn vistrokk_run_counting(
        program: *const u8,
        program_len: usize,
        used: usize,
        state: *mut u32,
        store: *mut u32,
        store_len: usize,
        budget: u32,
    ) -> Counted;
    fn vistrokk_expand(
        program: *const u8,
        program_len: usize,
        used: usize,
        state: *const u32,
        store: *const u32,
        store_len: usize,
        out: *mut u8,
        out_len: usize,
    ) -> Written;
}

impl From<Counted> for calls::Counted {
    fn from(counted: Counted) -> calls::Counted {
        calls::Counted {
            number: counted.number,
            outcome: counted.outcome,
            steps: counted.steps,
            left: counted.left,
        }
    }
}

pub fn run_counting(
    program: &[u8],
    used: usize,
    state: &mut Words,
    store: &mut [u32],
    budget: u32,
) -> calls::Counted {
    let (at, len, words) = (start(program), program.len(), state.as_mut_ptr());
    let (values, count) = (start_mut(store), store.len());
    unsafe { vistrokk_run_counting(at, len, used, words, values, count, budget) }.into()
}

pub fn expand(
    program: &[u8],
    used: usize,
    state: &Words,
    store: &[u32],
    out: &mut [u8],
) -> calls::Written {
    let (at, len, words) = (start(program), program.len(), state.as_ptr());
    let (values, count) = (start(store), store.len());
    let (to, room) = (start_mut(out), out.len());
    unsafe { vistrokk_expand(at, len, used, words, values, count, to, room) }.into()
}
