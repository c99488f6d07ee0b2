//! Damaged records, each with the number of the row it was damaged for.
//!
//! The number is known from what was done and never asked of the checker: each change below is
//! one after which its row applies, and of several rows the first of the table is the one that is given.

use crate::check::Refusal;
use crate::codec::kind;
use crate::generate::ceilings::value_above;
use crate::generate::raw::Raw;
use crate::random::Random;
use crate::tree::Header;

/// A lent buffer, its used length, and the refusal to expect, where it is known.
#[derive(Clone, Debug)]
pub struct Damaged {
    pub buffer: Vec<u8>,
    pub used: usize,
    pub number: Option<u32>,
}

/// Kinds that belong nowhere inside a record; 7, 9, 40 and 41 are headers and do not nest.
pub const STRANGE_KINDS: [u16; 15] = [0, 4, 5, 6, 8, 10, 15, 20, 31, 42, 65_535, 7, 9, 40, 41];

/// One change to one record that puts the whole outside the grammar, variables disregarded.
#[derive(Clone, Debug)]
pub enum Break {
    /// The length written here differs by this.
    Length(i32),
    Kind(u16),
    /// So many zero bytes at the end, all lengths true.
    Tail(usize),
    /// An inner record less.
    Missing(usize),
    /// An inner record twice.
    Twice(usize),
    /// The first two inner records exchanged.
    Exchanged,
    /// Another kind for the first inner record.
    FirstKind(u16),
    /// No word, or the word twice.
    Words(usize),
    /// A header of so many words, its ceiling missing or one word more, all lengths true.
    HeaderWords(usize),
}

/// Every break of this record. Length and kind of the header belong to row 2 and are not here.
pub fn breaks(record: &Raw, header: bool) -> Vec<Break> {
    let mut breaks: Vec<Break> = (1..=4).map(Break::Tail).collect();
    if header {
        breaks.extend(header_breaks(record));
    } else {
        breaks.extend([-3, -2, -1, 1, 2, 3].map(Break::Length));
        breaks.extend(STRANGE_KINDS.map(Break::Kind));
        breaks.extend(misfits(record.kind).iter().copied().map(Break::Kind));
    }
    // A block takes any number of commands; every other record has its fixed inner records.
    if record.kind != kind::BLOCK {
        breaks.extend((0..record.children.len()).map(Break::Missing));
        breaks.extend((0..record.children.len()).map(Break::Twice));
    }
    if matches!(record.kind, kind::LOOP | kind::LET_ONE | kind::REC) {
        breaks.push(Break::Exchanged);
    }
    // A bound is a literal or a variable, not plus one or minus one.
    if record.kind == kind::LOOP {
        breaks.extend([kind::PLUS_ONE, kind::MINUS_ONE].map(Break::FirstKind));
    }
    if record.children.is_empty() && !record.words.is_empty() {
        breaks.extend([0, 2].map(Break::Words));
    }
    breaks
}

/// Headers with the fields of the other edition. A word more is 1, which no record's length is.
///
/// Where the ceiling is missing, or the kind says that there is one, the head of the block or term is
/// read as the ceiling. What is within it is then one block or term only where it is a block of one block.
fn header_breaks(header: &Raw) -> Vec<Break> {
    let mut breaks = vec![Break::HeaderWords(header.words.len() + 1)];
    let within = &header.children[0];
    let block_of_block = within.kind == kind::BLOCK
        && matches!(&within.children[..], [only] if only.kind == kind::BLOCK);
    if !block_of_block {
        breaks.push(match header.kind {
            kind::PROGRAM => Break::Kind(kind::PROGRAM_2),
            kind::TERM => Break::Kind(kind::TERM_2),
            _ => Break::HeaderWords(1),
        });
    }
    breaks
}

/// Known kinds that don't fit in place of this one, whatever is inside.
///
/// Where an inner record would be looked for at a variable number, which is at most 16, its kind
/// reads as 0. A let-all that becomes a let-one is not here: see `let_all_to_let_one`.
fn misfits(kind: u16) -> &'static [u16] {
    match kind {
        kind::BLOCK => &[2, 3, 16, 36, 37, 38, 39],
        kind::ASSIGNMENT => &[1, 3, 18, 37],
        kind::LOOP => &[1, 2, 39],
        kind::LITERAL..=kind::MINUS_ONE => &[1, 32, 33, 34],
        kind::NUMERAL | kind::TERM_VARIABLE => &[16, 17, 34, 35, 36],
        kind::SUCC | kind::PRED => &[18, 19, 32, 33, 36],
        kind::TUPLE => &[1, 32, 38],
        kind::LET_ONE => &[2, 36, 38, 39],
        kind::LET_ALL => &[1, 36, 39],
        kind::REC => &[3, 36, 37, 38],
        _ => &[],
    }
}

pub fn apply(record: &mut Raw, done: &Break) {
    match *done {
        Break::Length(by) => record.skew = by,
        Break::Kind(kind) => record.kind = kind,
        Break::Tail(bytes) => record.tail = vec![0; bytes],
        Break::Missing(child) => {
            record.children.remove(child);
        }
        Break::Twice(child) => {
            let again = record.children[child].clone();
            record.children.insert(child, again);
        }
        Break::Exchanged => record.children.swap(0, 1),
        Break::FirstKind(kind) => record.children[0].kind = kind,
        Break::Words(count) => record.words = vec![1; count],
        Break::HeaderWords(count) => record.words.resize(count, 1),
    }
}

/// Turns a let-all into a let-one without another change; gives the row that then applies.
///
/// The head of the first term is then read as the variable. With k = 1 and a tuple first, what
/// follows is one atom and one term: a let-one by the grammar, with a variable far too large. In
/// every other case no atom, succ or pred follows, or no term after it.
pub fn let_all_to_let_one(record: &mut Raw, k: u32) -> u32 {
    assert_eq!(record.kind, kind::LET_ALL);
    record.kind = kind::LET_ONE;
    if k == 1 && record.children[0].kind == kind::TUPLE {
        Refusal::BadVariable.number()
    } else {
        Refusal::Malformed.number()
    }
}

/// Variable numbers that are not 1 to k, 65,537 among them for a reader that takes 16 bits only.
pub fn wrong_variables(k: u32) -> [u32; 4] {
    [0, k + 1, 65_537, u32::MAX]
}

/// Numbers that are not 1 to 16. A reader of fewer than four bytes would take some of them for
/// others, the fifth even for 1.
pub const WRONG_K: [u32; 6] = [0, 17, 256, 65_536, 0x0100_0001, u32::MAX];

/// The rows that a record can be damaged for, in the order of the table.
const ROWS: [u32; 6] = [1, 2, 3, 4, 5, 15];

/// Damages a sound record for one of these rows and perhaps for some others at once.
pub fn damaged(random: &mut Random, sound: &[u8]) -> Damaged {
    let main = *random.pick(&ROWS);
    let [one, two, three, four, five, fifteen] = ROWS.map(|row| row == main || random.one_in(10));
    let mut raw = Raw::read(sound);
    let k = raw.words[0];
    let above = fifteen && put_a_value_above(random, &mut raw);
    let named = five && name_a_wrong_variable(random, &mut raw, k);
    if four {
        break_one(random, &mut raw);
    }
    // A record without any variable can't be damaged for row 5, nor one without a value for row 15, so they
    // are for row 3.
    let wrong_k = three || !(one || two || four || named || above);
    if wrong_k {
        raw.words[0] = *random.pick(&WRONG_K);
    }
    let mut case = if two {
        wrong_header(random, raw)
    } else {
        whole(raw.write())
    };
    let applied = [one, two, wrong_k, four, named, above];
    case.number = ROWS
        .into_iter()
        .zip(applied)
        .find(|row| row.1)
        .map(|row| row.0);
    if one {
        wrong_buffer(random, &mut case);
    } else {
        junk_behind(random, &mut case);
    }
    case
}

fn whole(buffer: Vec<u8>) -> Damaged {
    Damaged {
        used: buffer.len(),
        buffer,
        number: None,
    }
}

/// Row 5, at any record that names a variable; false where there is none.
pub fn name_a_wrong_variable(random: &mut Random, raw: &mut Raw, k: u32) -> bool {
    let places: Vec<usize> = (0..raw.count())
        .filter(|n| raw.node_mut(*n).names_a_variable())
        .collect();
    if places.is_empty() {
        return false;
    }
    let place = *random.pick(&places);
    raw.node_mut(place).words[0] = *random.pick(&wrong_variables(k));
    true
}

/// Row 15: a literal or numeral above the ceiling, or a ceiling one below such a value, for which a
/// record of edition 1 becomes one of edition 2; false where none of it can be.
pub fn put_a_value_above(random: &mut Random, raw: &mut Raw) -> bool {
    let places: Vec<usize> = (0..raw.count())
        .filter(|n| raw.node_mut(*n).holds_a_value())
        .collect();
    if places.is_empty() {
        return false;
    }
    let place = *random.pick(&places);
    let (k, value) = (raw.words[0], raw.node_mut(place).words[0]);
    let above = match raw.ceiling() {
        Some(ceiling) if random.one_in(2) => value_above(random, Header::second(k, ceiling)),
        _ => None,
    };
    match (above, value.checked_sub(1)) {
        (Some(above), _) => raw.node_mut(place).words[0] = above,
        (None, None) => return false,
        (None, Some(below)) => {
            raw.kind = second_edition(raw.kind);
            raw.words = vec![k, below];
        }
    }
    true
}

/// The kind of edition 2's header for this sort of record.
fn second_edition(kind: u16) -> u16 {
    match kind {
        kind::PROGRAM | kind::PROGRAM_2 => kind::PROGRAM_2,
        _ => kind::TERM_2,
    }
}

/// Row 4, at any record.
pub fn break_one(random: &mut Random, raw: &mut Raw) {
    let place = random.below(raw.count());
    let record = raw.node_mut(place);
    let done = random.pick(&breaks(record, place == 0)).clone();
    apply(record, &done);
}

/// Row 2: the length field, the kind, the used length, or a header of edition 2 in under 12 bytes.
fn wrong_header(random: &mut Random, mut raw: Raw) -> Damaged {
    match random.below(5) {
        0 => raw.skew = *random.pick(&[-256, -1, 1, 256]),
        1 => raw.kind = *random.pick(&wrong_kinds(raw.kind)),
        2 => {
            let mut case = whole(raw.write());
            // Often within the header and the first head after it.
            let most = *random.pick(&[8, 12, 16, case.buffer.len()]);
            case.used = random.below(most.min(case.buffer.len()));
            return case;
        }
        3 => {
            let mut case = whole(raw.write());
            case.buffer.extend([0; 8]);
            case.used += 1 + random.below(8);
            return case;
        }
        _ => return whole(short_second_edition(&raw, 8 + random.below(4))),
    }
    whole(raw.write())
}

/// Kinds that no header of this sort of record has, those of the other sort among them; 1,792 and 2,304
/// have 7 and 9 in their second byte.
fn wrong_kinds(kind: u16) -> Vec<u16> {
    let other_sort = match second_edition(kind) {
        kind::PROGRAM_2 => [kind::TERM, kind::TERM_2],
        _ => [kind::PROGRAM, kind::PROGRAM_2],
    };
    let none = [0, 1, 4, 5, 6, 8, 10, 36, 39, 42, 1_792, 2_304, 65_535];
    [&other_sort[..], &none].concat()
}

/// The first 8 to 11 bytes of a header of edition 2, which says that there are no more. Any k will do.
fn short_second_edition(raw: &Raw, used: usize) -> Vec<u8> {
    let mut bytes = raw.write();
    bytes.truncate(used);
    bytes[..2].copy_from_slice(&(used as u16).to_le_bytes());
    bytes[2..4].copy_from_slice(&second_edition(raw.kind).to_le_bytes());
    bytes
}

/// Row 1: a used length above the buffer, or a buffer above 16,384 bytes.
fn wrong_buffer(random: &mut Random, case: &mut Damaged) {
    let len = case.buffer.len();
    match random.below(4) {
        0 => case.used = len + 1,
        1 => case.used = *random.pick(&[usize::MAX, len + 65_536, len + (1 << 32)]),
        2 => case.buffer.resize(16_385, 0),
        _ => case.buffer.resize(16_385 + random.below(60_000), 0),
    }
}

/// What stands behind the used bytes is not looked at.
fn junk_behind(random: &mut Random, case: &mut Damaged) {
    for _ in 0..random.below(24) {
        case.buffer.push(random.word() as u8);
    }
}

/// The record cut short: as it is (row 2), or with a header that tells the new length (row 4, where that
/// is a whole header).
pub fn cut(random: &mut Random, sound: &[u8]) -> Damaged {
    let used = random.below(sound.len());
    let mut buffer = sound[..used].to_vec();
    let header = match Raw::read(sound).ceiling() {
        None => 8,
        Some(_) => 12,
    };
    let patched = used >= 8 && random.one_in(2);
    if patched {
        buffer[..2].copy_from_slice(&(used as u16).to_le_bytes());
    }
    let refusal = if patched && used >= header {
        Refusal::Malformed
    } else {
        Refusal::BadHeader
    };
    Damaged {
        buffer,
        used,
        number: Some(refusal.number()),
    }
}

/// The record with the other edition's kind, or without its ceiling, or with one more; which row applies,
/// if any, is not known: a block's head may be read as the ceiling, and a ceiling as a head.
pub fn other_edition(random: &mut Random, sound: &[u8]) -> Damaged {
    let mut raw = Raw::read(sound);
    let exchanged = match raw.kind {
        kind::PROGRAM => kind::PROGRAM_2,
        kind::PROGRAM_2 => kind::PROGRAM,
        kind::TERM => kind::TERM_2,
        _ => kind::TERM,
    };
    match random.below(3) {
        0 => raw.kind = exchanged,
        1 => raw.words.truncate(1),
        _ => {
            // As a head this ceiling is that of a block around all that follows.
            let inside: usize = raw.children.iter().map(|child| child.write().len()).sum();
            raw.words.push(65_536 + 4 + inside as u32);
        }
    }
    if random.one_in(3) {
        raw.kind = exchanged;
    }
    whole(raw.write())
}

/// The record with a value above the ceiling (row 15), if it can have one.
pub fn raised(random: &mut Random, sound: &[u8]) -> Damaged {
    let mut raw = Raw::read(sound);
    let above = put_a_value_above(random, &mut raw);
    let number = above.then_some(Refusal::LiteralAboveCeiling.number());
    Damaged {
        number,
        ..whole(raw.write())
    }
}

/// One to three bits turned over anywhere; which row applies, if any, is not known.
pub fn flipped(random: &mut Random, sound: &[u8]) -> Damaged {
    let mut case = whole(sound.to_vec());
    for _ in 0..=random.below(3) {
        let place = random.below(sound.len());
        case.buffer[place] ^= 1 << random.below(8);
    }
    case
}
