//! Substitution along the one path on which a variable can be free, and the test for one.

use super::{half, put_head, put_word, word, Header};
use other::calls::Substituted;

/// The value of each variable, its number the index; none for one that stays.
pub type Values = [Option<u32>; 17];

pub fn substitute(buf: &mut [u8], used: usize, store: &[u32]) -> Substituted {
    let checked = super::check::check_term(buf, used);
    if checked.number != 0 {
        return Substituted::refused(checked.number);
    }
    let header = Header::of(buf);
    if let Err(refusal) = header.takes(store) {
        return Substituted::refused(refusal);
    }
    let replaced = fill(buf, header.contents, values_of(store));
    buf[used..].fill(0);
    Substituted {
        number: 0,
        used: used as u32,
        replaced,
    }
}

pub fn values_of(store: &[u32]) -> Values {
    let mut values = [None; 17];
    for (variable, value) in store.iter().enumerate() {
        values[variable + 1] = Some(*value);
    }
    values
}

/// Puts the values for the variables that are free in the term at this place, and counts them.
pub fn fill(buf: &mut [u8], at: usize, values: Values) -> u32 {
    let mut replaced = 0;
    walk(at, values, buf, |buf, at, values| {
        if half(buf, at + 2) == 33 {
            if let Some(value) = values[word(buf, at + 4) as usize] {
                put_head(buf, at, 8, 32);
                put_word(buf, at + 4, value);
                replaced += 1;
            }
        }
    });
    replaced
}

/// Whether no variable is free in the term at this place.
pub fn closed(buf: &[u8], at: usize) -> bool {
    let (mut closed, mut buf) = (true, buf);
    walk(at, [Some(0); 17], &mut buf, |buf, at, values| {
        closed &= half(buf, at + 2) == 32 || values[word(buf, at + 4) as usize].is_none();
    });
    closed
}

/// Every atom at which a variable could be free, with the values that are for it there. The bytes are
/// read here, and written, if at all, by what is done with an atom.
fn walk<B: AsRef<[u8]> + ?Sized>(
    start: usize,
    mut values: Values,
    buf: &mut B,
    mut atom: impl FnMut(&mut B, usize, &Values),
) {
    let mut at = start;
    loop {
        match half(buf.as_ref(), at + 2) {
            37 => {
                let simple = at + 8;
                let wrapped = matches!(half(buf.as_ref(), simple + 2), 34 | 35);
                atom(buf, simple + if wrapped { 4 } else { 0 }, &values);
                values[word(buf.as_ref(), at + 4) as usize] = None;
                at = simple + half(buf.as_ref(), simple);
            }
            38 => at += 4,
            39 => {
                atom(buf, at + 8, &values);
                return atoms(at + 16, &values, buf, atom);
            }
            _ => return atoms(at, &values, buf, atom),
        }
    }
}

fn atoms<B: AsRef<[u8]> + ?Sized>(
    tuple: usize,
    values: &Values,
    buf: &mut B,
    mut atom: impl FnMut(&mut B, usize, &Values),
) {
    for at in (tuple + 4..tuple + half(buf.as_ref(), tuple)).step_by(8) {
        atom(buf, at, values);
    }
}
