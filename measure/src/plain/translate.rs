//! The translation: measured, then written, with recursion for the rows inside. Behind its kind
//! the term's header is the program's.

use super::{half, put_all, put_half, put_head, put_leaf, put_word, word, Header};
use other::calls::Written;
use other::check::Refusal;

pub fn translate(src: &[u8], used: usize, out: &mut [u8]) -> Written {
    if out.len() > 16_384 {
        return Written::refused(Refusal::BadBuffer);
    }
    let checked = super::check::check_program(src, used);
    if checked.number != 0 {
        return Written::refused(checked.number);
    }
    let header = Header::of(src);
    let size = size(&src[..used], header);
    if size > out.len() {
        return Written::refused(Refusal::OutputTooShort);
    }
    write(&src[..used], header, size, out);
    Written {
        number: 0,
        used: size as u32,
    }
}

/// How long the term of a program is that was checked.
pub fn size(program: &[u8], header: Header) -> usize {
    header.contents + row_size(&program[header.contents + 4..], header.k)
}

/// The term of that size, and zeros behind it.
pub fn write(program: &[u8], header: Header, size: usize, out: &mut [u8]) {
    let Header { k, contents, .. } = header;
    out[..contents].copy_from_slice(&program[..contents]);
    let kind = if half(program, 2) == 7 { 40 } else { 41 };
    put_head(out, 0, size, kind);
    row(&program[contents + 4..], k, out, contents);
    out[size..].fill(0);
}

fn row_size(bytes: &[u8], k: u32) -> usize {
    let tuple = 4 + 8 * k as usize;
    let (mut size, mut at) = (tuple, 0);
    while at < bytes.len() {
        let next = at + half(bytes, at);
        size += match half(bytes, at + 2) {
            2 if half(bytes, at + 10) < 18 => 16,
            2 => 20,
            3 => 20 + tuple + row_size(&bytes[at + 20..next], k),
            _ => 4 + row_size(&bytes[at + 4..next], k),
        };
        at = next;
    }
    size
}

/// Writes the term of a row of commands at this place and gives where it ends. The lengths of the
/// records that end there are known only then.
fn row(bytes: &[u8], k: u32, out: &mut [u8], start: usize) -> usize {
    let (mut o, mut at) = (start, 0);
    while at < bytes.len() {
        let next = at + half(bytes, at);
        o = match half(bytes, at + 2) {
            2 => let_one(bytes, at, out, o),
            3 => let_all(out, o, |out, o| {
                put_word(out, o + 4, word(bytes, at + 4));
                let bound = half(bytes, at + 10) + 16;
                put_leaf(out, o + 8, bound, word(bytes, at + 12));
                put_all(out, o + 16, k);
                let body = o + 20 + 8 * k as usize;
                let end = row(&bytes[at + 20..next], k, out, body);
                put_head(out, o, end - o, 39);
                end
            }),
            _ => let_all(out, o, |out, o| row(&bytes[at + 4..next], k, out, o)),
        };
        at = next;
    }
    put_all(out, o, k);
    let end = o + 4 + 8 * k as usize;
    tell(out, start, end);
    end
}

fn let_one(bytes: &[u8], at: usize, out: &mut [u8], o: usize) -> usize {
    put_head(out, o, 0, 37);
    put_word(out, o + 4, word(bytes, at + 4));
    let kind = half(bytes, at + 10) + 16;
    let number = word(bytes, at + 12);
    if kind < 34 {
        put_leaf(out, o + 8, kind, number);
        return o + 16;
    }
    put_head(out, o + 8, 12, kind);
    put_leaf(out, o + 12, 33, number);
    o + 20
}

fn let_all(out: &mut [u8], o: usize, first: impl FnOnce(&mut [u8], usize) -> usize) -> usize {
    put_head(out, o, 0, 38);
    first(out, o + 4)
}

/// Every record from this place on that ends at the end of the row gets its length.
fn tell(out: &mut [u8], start: usize, end: usize) {
    let mut o = start;
    loop {
        let inside = match half(out, o + 2) {
            37 => 8 + half(out, o + 8),
            38 => 4 + half(out, o + 4),
            _ => return,
        };
        put_half(out, o, end - o);
        o += inside;
    }
}
