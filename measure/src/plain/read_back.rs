//! Read-back: recognised and measured in one pass, then written, with recursion for the terms inside.

use super::{half, put_head, put_leaf, put_word, word, Header};
use other::calls::Written;
use other::check::Refusal;

pub fn read_back(src: &[u8], used: usize, out: &mut [u8]) -> Written {
    if out.len() > 16_384 {
        return Written::refused(Refusal::BadBuffer);
    }
    let checked = super::check::check_term(src, used);
    if checked.number != 0 {
        return Written::refused(checked.number);
    }
    let Header { k, contents, .. } = Header::of(src);
    let Some(commands) = commands_size(src, contents, k) else {
        return Written::refused(Refusal::NoProgram);
    };
    let size = contents + 4 + commands;
    if size > out.len() {
        return Written::refused(Refusal::OutputTooShort);
    }
    out[..contents].copy_from_slice(&src[..contents]);
    let kind = if half(src, 2) == 40 { 7 } else { 9 };
    put_head(out, 0, size, kind);
    put_head(out, contents, size - contents, 1);
    write(src, contents, k, out, contents + 4);
    out[size..].fill(0);
    Written {
        number: 0,
        used: size as u32,
    }
}

/// Whether the tuple at this place is that of all variables.
fn is_all(src: &[u8], at: usize, k: u32) -> bool {
    (1..=k).all(|x| {
        let atom = at + 8 * x as usize - 4;
        half(src, atom + 2) == 33 && word(src, atom + 4) == x
    })
}

/// The bytes of the commands that the term at this place is the translation of, if there are any.
fn commands_size(src: &[u8], start: usize, k: u32) -> Option<usize> {
    let (mut size, mut at) = (0, start);
    loop {
        match half(src, at + 2) {
            36 => return is_all(src, at, k).then_some(size),
            37 => {
                let wrapped = half(src, at + 10) >= 34;
                if wrapped && half(src, at + 14) != 33 {
                    return None;
                }
                size += 16;
                at += 8 + half(src, at + 8);
            }
            38 => {
                let first = at + 4;
                size += if half(src, first + 2) == 39 {
                    if !is_all(src, first + 16, k) {
                        return None;
                    }
                    20 + commands_size(src, first + 20 + 8 * k as usize, k)?
                } else {
                    4 + commands_size(src, first, k)?
                };
                at = first + half(src, first);
            }
            _ => return None,
        }
    }
}

/// Writes those commands and gives where they end.
fn write(src: &[u8], start: usize, k: u32, out: &mut [u8], place: usize) -> usize {
    let (mut at, mut o) = (start, place);
    loop {
        match half(src, at + 2) {
            37 => {
                let next = at + 8 + half(src, at + 8);
                put_head(out, o, 16, 2);
                put_word(out, o + 4, word(src, at + 4));
                put_leaf(out, o + 8, half(src, at + 10) - 16, word(src, next - 4));
                o += 16;
                at = next;
            }
            38 => {
                let first = at + 4;
                o = if half(src, first + 2) == 39 {
                    let end = write(src, first + 20 + 8 * k as usize, k, out, o + 20);
                    put_head(out, o, end - o, 3);
                    put_word(out, o + 4, word(src, first + 4));
                    let bound = half(src, first + 10) - 16;
                    put_leaf(out, o + 8, bound, word(src, first + 12));
                    put_head(out, o + 16, end - o - 16, 1);
                    end
                } else {
                    let end = write(src, first, k, out, o + 4);
                    put_head(out, o, end - o, 1);
                    end
                };
                at = first + half(src, first);
            }
            _ => return o,
        }
    }
}
