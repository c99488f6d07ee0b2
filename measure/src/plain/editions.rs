//! Moving a record to the other edition: the check, another header, and a copy of what is behind it.

use super::{put_head, put_word, word};
use other::calls::{Checked, Written};
use other::check::Refusal;

type Check = fn(&[u8], usize) -> Checked;

pub fn program_to_edition_2(src: &[u8], used: usize, out: &mut [u8]) -> Written {
    to_edition_2(src, used, out, super::check::check_program, [7, 9])
}

pub fn program_to_edition_1(src: &[u8], used: usize, out: &mut [u8]) -> Written {
    to_edition_1(src, used, out, super::check::check_program, [9, 7])
}

pub fn term_to_edition_2(src: &[u8], used: usize, out: &mut [u8]) -> Written {
    to_edition_2(src, used, out, super::check::check_term, [40, 41])
}

pub fn term_to_edition_1(src: &[u8], used: usize, out: &mut [u8]) -> Written {
    to_edition_1(src, used, out, super::check::check_term, [41, 40])
}

/// Rows 1 to 5 and 15, of a record with the kind that is moved from.
fn refusal(src: &[u8], used: usize, room: usize, check: Check, from: usize) -> Option<u32> {
    if room > 16_384 || src.len() > 16_384 || used > src.len() {
        return Some(Refusal::BadBuffer.into());
    }
    if used < 8 || super::half(src, 2) != from {
        return Some(Refusal::BadHeader.into());
    }
    let number = check(src, used).number;
    (number != 0).then_some(number)
}

fn to_edition_2(
    src: &[u8],
    used: usize,
    out: &mut [u8],
    check: Check,
    [from, to]: [usize; 2],
) -> Written {
    if let Some(number) = refusal(src, used, out.len(), check, from) {
        return Written::refused(number);
    }
    let size = used + 4;
    if size > out.len() {
        return Written::refused(Refusal::OutputTooShort);
    }
    put_word(out, 8, u32::MAX);
    out[12..size].copy_from_slice(&src[8..used]);
    end(src, size, to, out)
}

fn to_edition_1(
    src: &[u8],
    used: usize,
    out: &mut [u8],
    check: Check,
    [from, to]: [usize; 2],
) -> Written {
    if let Some(number) = refusal(src, used, out.len(), check, from) {
        return Written::refused(number);
    }
    if word(src, 8) != u32::MAX {
        return Written::refused(Refusal::SmallCeiling);
    }
    let size = used - 4;
    if size > out.len() {
        return Written::refused(Refusal::OutputTooShort);
    }
    out[8..size].copy_from_slice(&src[12..used]);
    end(src, size, to, out)
}

/// The head and k, and zeros behind the record.
fn end(src: &[u8], size: usize, kind: usize, out: &mut [u8]) -> Written {
    put_head(out, 0, size, kind);
    put_word(out, 4, word(src, 4));
    out[size..].fill(0);
    Written {
        number: 0,
        used: size as u32,
    }
}
