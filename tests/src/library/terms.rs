//! Translate, read back, substitute, result.

use super::{start, start_mut};
use crate::calls;

#[repr(C)]
pub(super) struct Written {
    number: u32,
    used: u32,
}

#[repr(C)]
struct Substituted {
    number: u32,
    used: u32,
    replaced: u32,
}

extern "C" {
    fn vistrokk_translate(
        src: *const u8,
        src_len: usize,
        used: usize,
        out: *mut u8,
        out_len: usize,
    ) -> Written;
    fn vistrokk_read_back(
        src: *const u8,
        src_len: usize,
        used: usize,
        out: *mut u8,
        out_len: usize,
    ) -> Written;
    fn vistrokk_substitute(
        buf: *mut u8,
        buf_len: usize,
        used: usize,
        store: *const u32,
        store_len: usize,
    ) -> Substituted;
    fn vistrokk_result(
        buf: *const u8,
        buf_len: usize,
        used: usize,
        store: *mut u32,
        store_len: usize,
    ) -> u32;
}

impl From<Written> for calls::Written {
    fn from(Written { number, used }: Written) -> calls::Written {
        calls::Written { number, used }
    }
}

impl From<Substituted> for calls::Substituted {
    fn from(substituted: Substituted) -> calls::Substituted {
        calls::Substituted {
            number: substituted.number,
            used: substituted.used,
            replaced: substituted.replaced,
        }
    }
}

pub fn translate(src: &[u8], used: usize, out: &mut [u8]) -> calls::Written {
    let (from, to) = (start(src), start_mut(out));
    unsafe { vistrokk_translate(from, src.len(), used, to, out.len()) }.into()
}

pub fn read_back(src: &[u8], used: usize, out: &mut [u8]) -> calls::Written {
    let (from, to) = (start(src), start_mut(out));
    unsafe { vistrokk_read_back(from, src.len(), used, to, out.len()) }.into()
}

pub fn substitute(buf: &mut [u8], used: usize, store: &[u32]) -> calls::Substituted {
    let (at, values) = (start_mut(buf), start(store));
    unsafe { vistrokk_substitute(at, buf.len(), used, values, store.len()) }.into()
}

pub fn result(buf: &[u8], used: usize, store: &mut [u32]) -> u32 {
    let (at, values) = (start(buf), start_mut(store));
    unsafe { vistrokk_result(at, buf.len(), used, values, store.len()) }
}
