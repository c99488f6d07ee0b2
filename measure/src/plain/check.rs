//! Rows 1 to 5 and 15, in one pass over the bytes.

use super::{half, word, Header};
use other::calls::Checked;
use other::check::Refusal;

/// What variables and values are held to: 1 to k, and the ceiling.
#[derive(Clone, Copy)]
struct Limits {
    k: u32,
    ceiling: u32,
}

/// What was found of these two in sound bytes: a variable that is not 1 to k, a value above the ceiling.
#[derive(Clone, Copy)]
struct Found(u8);

const NOTHING: Found = Found(0);
const VARIABLE: u8 = 1;
const VALUE: u8 = 2;

impl Found {
    fn and(self, other: Found) -> Found {
        Found(self.0 | other.0)
    }

    fn has(self, what: u8) -> bool {
        self.0 & what != 0
    }
}

/// None: outside the grammar (row 4).
type Verdict = Option<Found>;

/// A record that passes rows 1 to 5: its header, and whether a literal or numeral is above its ceiling.
pub struct Sound {
    pub header: Header,
    pub above: bool,
}

pub fn check_program(buf: &[u8], used: usize) -> Checked {
    checked(sound_program(buf, used))
}

pub fn check_term(buf: &[u8], used: usize) -> Checked {
    checked(sound(buf, used, [40, 41], whole_term))
}

fn checked(sound: Result<Sound, Refusal>) -> Checked {
    match sound {
        Err(refusal) => Checked::refused(refusal),
        Ok(Sound { above: true, .. }) => Checked::refused(Refusal::LiteralAboveCeiling),
        Ok(Sound { header, .. }) => Checked {
            number: 0,
            k: header.k,
        },
    }
}

pub fn sound_program(buf: &[u8], used: usize) -> Result<Sound, Refusal> {
    sound(buf, used, [7, 9], program)
}

fn sound(
    buf: &[u8],
    used: usize,
    [first, second]: [usize; 2],
    contents: impl Fn(&[u8], Limits) -> Verdict,
) -> Result<Sound, Refusal> {
    if buf.len() > 16_384 || used > buf.len() {
        return Err(Refusal::BadBuffer);
    }
    if used < 8 || half(buf, 0) != used {
        return Err(Refusal::BadHeader);
    }
    let kind = half(buf, 2);
    if kind != first && (kind != second || used < 12) {
        return Err(Refusal::BadHeader);
    }
    let header = Header::of(buf);
    let Header { k, ceiling, .. } = header;
    if !(1..=16).contains(&k) {
        return Err(Refusal::BadK);
    }
    let limits = Limits { k, ceiling };
    let found = contents(&buf[header.contents..used], limits).ok_or(Refusal::Malformed)?;
    if found.has(VARIABLE) {
        return Err(Refusal::BadVariable);
    }
    let above = found.has(VALUE);
    Ok(Sound { header, above })
}

/// The kind and the contents of the first record, and what follows it.
fn first(bytes: &[u8]) -> Option<(usize, &[u8], &[u8])> {
    if bytes.len() < 4 {
        return None;
    }
    let length = half(bytes, 0);
    if length < 4 || length > bytes.len() {
        return None;
    }
    Some((half(bytes, 2), &bytes[4..length], &bytes[length..]))
}

/// A record of one word whose kind is in this range; the first kind of it holds a value, the
/// others a variable.
fn leaf(bytes: &[u8], kinds: std::ops::RangeInclusive<usize>, limits: Limits) -> Verdict {
    if bytes.len() != 8 || half(bytes, 0) != 8 {
        return None;
    }
    let kind = half(bytes, 2);
    if !kinds.contains(&kind) {
        return None;
    }
    if kind == *kinds.start() {
        let above = word(bytes, 4) > limits.ceiling;
        return Some(Found(VALUE * u8::from(above)));
    }
    Some(variable(bytes, 4, limits))
}

fn variable(bytes: &[u8], at: usize, limits: Limits) -> Found {
    let sound = (1..=limits.k).contains(&word(bytes, at));
    Found(VARIABLE * u8::from(!sound))
}

fn program(bytes: &[u8], limits: Limits) -> Verdict {
    let (kind, contents, rest) = first(bytes)?;
    if kind != 1 || !rest.is_empty() {
        return None;
    }
    commands(contents, limits)
}

fn commands(mut bytes: &[u8], limits: Limits) -> Verdict {
    let mut found = NOTHING;
    while !bytes.is_empty() {
        let (kind, contents, rest) = first(bytes)?;
        found = found.and(command(kind, contents, limits)?);
        bytes = rest;
    }
    Some(found)
}

fn command(kind: usize, contents: &[u8], limits: Limits) -> Verdict {
    match kind {
        1 => commands(contents, limits),
        2 if contents.len() == 12 => {
            let expr = leaf(&contents[4..], 16..=19, limits)?;
            Some(expr.and(variable(contents, 0, limits)))
        }
        3 if contents.len() >= 16 => {
            let bound = leaf(&contents[4..12], 16..=17, limits)?;
            let body = program(&contents[12..], limits)?;
            Some(bound.and(body).and(variable(contents, 0, limits)))
        }
        _ => None,
    }
}

fn whole_term(bytes: &[u8], limits: Limits) -> Verdict {
    let (found, rest) = term(bytes, limits)?;
    rest.is_empty().then_some(found)
}

/// The verdict on the term in front, and what follows it.
fn term(bytes: &[u8], limits: Limits) -> Option<(Found, &[u8])> {
    let (kind, contents, rest) = first(bytes)?;
    let found = match kind {
        36 => tuple(contents, limits)?,
        37 if contents.len() >= 12 => let_one(contents, limits)?,
        38 => {
            let (found, last) = term(contents, limits)?;
            whole_term(last, limits)?.and(found)
        }
        39 if contents.len() >= 12 => rec(contents, limits)?,
        _ => return None,
    };
    Some((found, rest))
}

fn tuple(contents: &[u8], limits: Limits) -> Verdict {
    if contents.len() != 8 * limits.k as usize {
        return None;
    }
    let mut found = NOTHING;
    for atom in contents.chunks_exact(8) {
        found = found.and(leaf(atom, 32..=33, limits)?);
    }
    Some(found)
}

fn let_one(contents: &[u8], limits: Limits) -> Verdict {
    let (kind, _, last) = first(&contents[4..])?;
    let simple = &contents[4..contents.len() - last.len()];
    let found = match kind {
        34 | 35 => leaf(&simple[4..], 32..=33, limits)?,
        _ => leaf(simple, 32..=33, limits)?,
    };
    let last = whole_term(last, limits)?;
    Some(last.and(found).and(variable(contents, 0, limits)))
}

fn rec(contents: &[u8], limits: Limits) -> Verdict {
    let count = leaf(&contents[4..12], 32..=33, limits)?;
    let (kind, start, body) = first(&contents[12..])?;
    if kind != 36 {
        return None;
    }
    let start = tuple(start, limits)?;
    let body = whole_term(body, limits)?;
    let found = body.and(start).and(count);
    Some(found.and(variable(contents, 0, limits)))
}
