//! Weigh.

use super::start_mut;

extern "C" {
    fn vistrokk_weigh(rule: u32, gross: u32, tare: u32, store: *mut u32, store_len: usize) -> u32;
}

/// Made a part of its caller, for `./bench`: a caller in C has no such step between, and in so short a
/// call it shows.
#[inline]
pub fn weigh(rule: u32, gross: u32, tare: u32, store: &mut [u32]) -> u32 {
    unsafe { vistrokk_weigh(rule, gross, tare, start_mut(store), store.len()) }
}
