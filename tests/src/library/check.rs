//! Check program, check term.

use super::start;
use crate::calls;

#[repr(C)]
struct Checked {
    number: u32,
    k: u32,
}

extern "C" {
    fn vistrokk_check_program(buf: *const u8, buf_len: usize, used: usize) -> Checked;
    fn vistrokk_check_term(buf: *const u8, buf_len: usize, used: usize) -> Checked;
}

impl From<Checked> for calls::Checked {
    fn from(Checked { number, k }: Checked) -> calls::Checked {
        calls::Checked { number, k }
    }
}

pub fn check_program(buf: &[u8], used: usize) -> calls::Checked {
    unsafe { vistrokk_check_program(start(buf), buf.len(), used) }.into()
}

pub fn check_term(buf: &[u8], used: usize) -> calls::Checked {
    unsafe { vistrokk_check_term(start(buf), buf.len(), used) }.into()
}
