//! Run reducer.

use super::ran::Ran;
use super::start_mut;
use crate::calls;

/// Field by field as the header has it: the first five are a [`Ran`]'s, and four bytes that belong to
/// no field stand before the 64-bit one.
#[repr(C)]
struct Reduced {
    ran: Ran,
    replaced: u64,
}

extern "C" {
    fn vistrokk_run_reducer(buf: *mut u8, buf_len: usize, used: usize, budget: u32) -> Reduced;
}

impl From<Reduced> for calls::Reduced {
    fn from(Reduced { ran, replaced }: Reduced) -> calls::Reduced {
        let ran = ran.into();
        calls::Reduced { ran, replaced }
    }
}

pub fn run_reducer(buf: &mut [u8], used: usize, budget: u32) -> calls::Reduced {
    unsafe { vistrokk_run_reducer(start_mut(buf), buf.len(), used, budget) }.into()
}
