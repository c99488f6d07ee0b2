//! The four calls that move a record to the other edition.

use super::same;
use crate::calls::{self, Written};
use crate::codec::hex;
use crate::lent::Lent;
use crate::library;

/// A call of one of the two programs.
type Move = fn(&[u8], usize, &mut [u8]) -> Written;

pub fn program_to_edition_2(src: &[u8], used: usize, out: &mut [u8]) -> Written {
    let calls: [Move; 2] = [calls::program_to_edition_2, library::program_to_edition_2];
    by_both("program_to_edition_2", calls, src, used, out)
}

pub fn program_to_edition_1(src: &[u8], used: usize, out: &mut [u8]) -> Written {
    let calls: [Move; 2] = [calls::program_to_edition_1, library::program_to_edition_1];
    by_both("program_to_edition_1", calls, src, used, out)
}

pub fn term_to_edition_2(src: &[u8], used: usize, out: &mut [u8]) -> Written {
    let calls: [Move; 2] = [calls::term_to_edition_2, library::term_to_edition_2];
    by_both("term_to_edition_2", calls, src, used, out)
}

pub fn term_to_edition_1(src: &[u8], used: usize, out: &mut [u8]) -> Written {
    let calls: [Move; 2] = [calls::term_to_edition_1, library::term_to_edition_1];
    by_both("term_to_edition_1", calls, src, used, out)
}

fn by_both(
    name: &str,
    [other, library]: [Move; 2],
    src: &[u8],
    used: usize,
    out: &mut [u8],
) -> Written {
    let room = out.len();
    let case = || format!("{name}, used {used} of {}, room {room}", hex(src));
    let (from, mut to) = (Lent::bytes(src), Lent::bytes(out));
    let answer = other(src, used, out);
    same(library(from.slice(), used, to.slice_mut()), answer, case);
    from.assert_holds(src, case);
    to.assert_holds(out, case);
    answer
}
