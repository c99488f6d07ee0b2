//! Run stepper.

use super::ran::Ran;
use super::start_mut;
use crate::calls;

extern "C" {
    fn vistrokk_run_stepper(
        buf: *mut u8,
        buf_len: usize,
        used: usize,
        store: *mut u32,
        store_len: usize,
        budget: u32,
    ) -> Ran;
}

pub fn run_stepper(buf: &mut [u8], used: usize, store: &mut [u32], budget: u32) -> calls::Ran {
    let (at, values) = (start_mut(buf), start_mut(store));
    unsafe { vistrokk_run_stepper(at, buf.len(), used, values, store.len(), budget) }.into()
}
