//! The four calls that move a record to the other edition.

use super::terms::Written;
use super::{start, start_mut};
use crate::calls;

extern "C" {
    fn vistrokk_program_to_edition_2(
        src: *const u8,
        src_len: usize,
        used: usize,
        out: *mut u8,
        out_len: usize,
    ) -> Written;
    fn vistrokk_program_to_edition_1(
        src: *const u8,
        src_len: usize,
        used: usize,
        out: *mut u8,
        out_len: usize,
    ) -> Written;
    fn vistrokk_term_to_edition_2(
        src: *const u8,
        src_len: usize,
        used: usize,
        out: *mut u8,
        out_len: usize,
    ) -> Written;
    fn vistrokk_term_to_edition_1(
        src: *const u8,
        src_len: usize,
        used: usize,
        out: *mut u8,
        out_len: usize,
    ) -> Written;
}

pub fn program_to_edition_2(src: &[u8], used: usize, out: &mut [u8]) -> calls::Written {
    let (from, to) = (start(src), start_mut(out));
    unsafe { vistrokk_program_to_edition_2(from, src.len(), used, to, out.len()) }.into()
}

pub fn program_to_edition_1(src: &[u8], used: usize, out: &mut [u8]) -> calls::Written {
    let (from, to) = (start(src), start_mut(out));
    unsafe { vistrokk_program_to_edition_1(from, src.len(), used, to, out.len()) }.into()
}

pub fn term_to_edition_2(src: &[u8], used: usize, out: &mut [u8]) -> calls::Written {
    let (from, to) = (start(src), start_mut(out));
    unsafe { vistrokk_term_to_edition_2(from, src.len(), used, to, out.len()) }.into()
}

pub fn term_to_edition_1(src: &[u8], used: usize, out: &mut [u8]) -> calls::Written {
    let (from, to) = (start(src), start_mut(out));
    unsafe { vistrokk_term_to_edition_1(from, src.len(), used, to, out.len()) }.into()
}
