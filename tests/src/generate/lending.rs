//! Buffers as a caller may lend them: a record somewhere in front, a length and a used length that
//! are right or just wrong, and records that are sound or not.

use crate::check::BUFFER_LIMIT;
use crate::generate::damage::{cut, damaged, flipped, other_edition, raised, Damaged};
use crate::generate::lend;
use crate::generate::programs::{
    program, store, store_above, wrong_store, SHORTEST as SHORTEST_PROGRAM,
};
use crate::generate::terms::{any_term, closed_term, no_translation, translation, SHORTEST};
use crate::random::Random;
use crate::tree::{Header, Program, TermRecord};

/// A lent buffer and its used length.
pub struct Lending {
    pub buffer: Vec<u8>,
    pub used: usize,
}

/// How long a generated record may be: mostly short, so that there can be many; now and then as
/// long as any that can be lent.
fn limit(random: &mut Random, shortest: usize) -> usize {
    let most = match random.below(400) {
        0 => BUFFER_LIMIT - shortest,
        1..=20 => 3_000,
        21..=150 => 500,
        _ => 120,
    };
    shortest + random.below(most + 1)
}

pub fn sound_program(random: &mut Random) -> Program {
    let limit = limit(random, SHORTEST_PROGRAM);
    program(random, limit)
}

/// A program whose translation can be lent as well.
pub fn translatable_program(random: &mut Random) -> Program {
    let limit = limit(random, SHORTEST);
    translation(random, limit).0
}

pub fn closed(random: &mut Random) -> TermRecord {
    let limit = limit(random, SHORTEST);
    closed_term(random, limit)
}

/// A translation, a closed term, an open one, or one that is no translation.
pub fn sound_term(random: &mut Random) -> TermRecord {
    let limit = limit(random, SHORTEST);
    match random.below(4) {
        0 => translation(random, limit).1,
        1 => closed_term(random, limit),
        2 => any_term(random, limit),
        _ => no_translation(random),
    }
}

/// A length for a buffer that is to hold `least` bytes: just so many, some more, all that may be
/// lent, or one more than that.
pub fn room(random: &mut Random, least: usize) -> usize {
    match random.below(64) {
        0 => least.max(BUFFER_LIMIT),
        1 => BUFFER_LIMIT + 1,
        2..=25 => least,
        _ => least + random.below(200),
    }
}

/// A length for an output buffer, where the answer is `wanted` bytes long: also one too few.
pub fn output_room(random: &mut Random, wanted: usize) -> usize {
    match random.below(4) {
        0 => wanted.saturating_sub(1),
        1 => random.below(wanted + 1),
        _ => room(random, wanted),
    }
}

/// A used length: nearly always the record's own.
fn used(random: &mut Random, own: usize) -> usize {
    match random.below(32) {
        0 => own + 1,
        1 => own - 1,
        2 => random.below(18),
        3 => *random.pick(&[BUFFER_LIMIT, BUFFER_LIMIT + 1, own + (1 << 32), usize::MAX]),
        _ => own,
    }
}

/// A record as it is, in a buffer of any length.
pub fn lending(random: &mut Random, record: &[u8]) -> Lending {
    let room = room(random, record.len());
    Lending {
        buffer: lend(record, room),
        used: used(random, record.len()),
    }
}

/// A record that may have been damaged first.
pub fn perhaps_damaged(random: &mut Random, record: &[u8]) -> Lending {
    let case = match random.below(16) {
        0 => damaged(random, record),
        1 => cut(random, record),
        2 => flipped(random, record),
        3 => other_edition(random, record),
        4 => raised(random, record),
        _ => return lending(random, record),
    };
    let Damaged { buffer, used, .. } = case;
    Lending { buffer, used }
}

/// A store for a record with this header: nearly always of k values, and mostly within the ceiling.
pub fn lent_store(random: &mut Random, header: Header) -> Vec<u32> {
    match random.below(8) {
        0 => wrong_store(random, header.k),
        1 => store_above(random, header).unwrap_or_else(|| store(random, header)),
        _ => store(random, header),
    }
}

/// A budget; the largest ones only where `ends` says that the run then comes to an end.
pub fn lent_budget(random: &mut Random, ends: bool) -> u32 {
    match random.below(8) {
        0 => 0,
        1 => 1,
        2 if ends => u32::MAX,
        3 if ends => random.word(),
        2..=4 => random.below(100) as u32,
        _ => random.below(10) as u32,
    }
}
