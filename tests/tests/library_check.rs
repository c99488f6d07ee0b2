//! The library's two checks against the other program's, in bulk. Every call here goes through
//! `both`, which compares; `rows.rs` states the numbers that 01 gives.

use other::both::{check_program, check_term};
use other::calls::Checked;
use other::check::Refusal;
use other::codec::Record;
use other::examples::{nest_of_blocks, row_of_blocks, sample_programs, sample_terms};
use other::generate::damage::{break_one, name_a_wrong_variable, put_a_value_above};
use other::generate::lend;
use other::generate::lending::{perhaps_damaged, sound_program, sound_term, Lending};
use other::generate::raw::Raw;
use other::random::{cases, Counts, Random, Rows};
use other::tree::with_big_stack;

type Check = fn(&[u8], usize) -> Checked;

fn samples() -> Vec<(Check, Vec<u8>)> {
    let programs = sample_programs().map(|bytes| (check_program as Check, bytes));
    let terms = sample_terms().map(|bytes| (check_term as Check, bytes));
    programs.into_iter().chain(terms).collect()
}

/// Each byte of each sample, header and all, at each of its 256 values. Row 1 alone cannot come
/// of a byte.
#[test]
fn every_byte_at_every_value() {
    let seen = Rows::default();
    for (check, bytes) in samples() {
        for place in 0..bytes.len() {
            let mut changed = bytes.clone();
            for value in 0..=255 {
                changed[place] = value;
                seen.one(check(&changed, changed.len()).number);
            }
        }
    }
    seen.assert_at_least(&[
        (0, 10_000),
        (2, 1_000),
        (3, 1_000),
        (4, 10_000),
        (5, 10_000),
        (15, 500),
    ]);
}

/// Up to four bytes of a sample exchanged for others that stand in it, so that kinds, lengths and
/// variables turn up out of their places and one mistake may hide another.
#[test]
fn bytes_from_other_places() {
    let samples = samples();
    let seen = Rows::default();
    cases(60_000, |random| {
        let (check, bytes) = random.pick(&samples);
        let mut changed = bytes.clone();
        for _ in 0..=random.below(4) {
            let place = random.below(bytes.len());
            changed[place] = *random.pick(bytes);
        }
        seen.one(check(&changed, changed.len()).number);
    });
    seen.assert_at_least(&[
        (0, 5_000),
        (2, 1_000),
        (3, 1_000),
        (4, 10_000),
        (5, 1_000),
        (15, 100),
    ]);
}

/// Each used length in each buffer, from nothing to a little more than the sample.
#[test]
fn every_used_length_of_every_buffer() {
    let seen = Rows::default();
    for (check, bytes) in samples() {
        for len in 0..bytes.len() + 3 {
            let mut buffer = bytes.clone();
            buffer.resize(len, 0xA5);
            for used in (0..len + 3).chain([usize::MAX]) {
                seen.one(check(&buffer, used).number);
            }
        }
    }
    seen.assert_at_least(&[(0, 10), (1, 1_000), (2, 10_000)]);
}

/// The same with a header that says the used length, so that the record within is what is short.
#[test]
fn every_length_that_a_header_can_say() {
    for (check, bytes) in samples() {
        for len in 0..bytes.len() + 12 {
            let mut told = lend(&bytes, bytes.len() + 12);
            told[..2].copy_from_slice(&(len as u16).to_le_bytes());
            let number = check(&told, len).number;
            assert_eq!(number == 0, len == bytes.len());
        }
    }
}

/// Lengths from 0 to more than the whole, and every kind to beyond 41, at the header and every record
/// within; the kinds of two bytes are for a reader that looks at one.
#[test]
fn every_length_and_every_kind_at_every_level() {
    let kinds: Vec<u16> = (0..=70)
        .chain([
            255, 256, 257, 258, 259, 263, 265, 272, 288, 292, 296, 297, 0x0900, 0x2800, 0x2900,
            65_535,
        ])
        .collect();
    let seen = Rows::default();
    for (check, bytes) in samples() {
        let mut whole = Raw::read(&bytes);
        for place in 0..whole.count() {
            let longest = bytes.len() as i32 + 8;
            for skew in -longest..=longest {
                whole.node_mut(place).skew = skew;
                let changed = whole.write();
                seen.one(check(&changed, changed.len()).number);
            }
            whole.node_mut(place).skew = 0;
            let kind = whole.node_mut(place).kind;
            for other in &kinds {
                whole.node_mut(place).kind = *other;
                let changed = whole.write();
                seen.one(check(&changed, changed.len()).number);
            }
            whole.node_mut(place).kind = kind;
        }
    }
    seen.assert_at_least(&[(0, 50), (2, 1_000), (4, 10_000), (5, 2)]);
}

fn record(random: &mut Random) -> (Check, Vec<u8>) {
    // One in twenty is handed to the check of the other sort of record.
    let other = random.one_in(20);
    if random.one_in(2) {
        let check = if other { check_term } else { check_program };
        (check, sound_program(random).encode())
    } else {
        let check = if other { check_program } else { check_term };
        (check, sound_term(random).encode())
    }
}

/// Generated records, sound and damaged, in buffers of any length with used lengths of all sorts.
#[test]
fn generated_records() {
    let seen = Rows::default();
    cases(60_000, |random| {
        let (check, record) = record(random);
        let Lending { buffer, used } = perhaps_damaged(random, &record);
        seen.one(check(&buffer, used).number);
    });
    seen.assert_at_least(&[
        (0, 20_000),
        (1, 2_000),
        (2, 2_000),
        (3, 500),
        (4, 2_000),
        (5, 500),
        (15, 200),
    ]);
}

/// Row 4 anywhere comes before row 5 anywhere, and that before row 15 anywhere: a record with two or all of
/// them, at any places.
#[test]
fn a_break_a_wrong_variable_and_a_value_above() {
    let both = Counts::<2>::default();
    cases(20_000, |random| {
        let program = random.one_in(2);
        let bytes = if program {
            sound_program(random).encode()
        } else {
            sound_term(random).encode()
        };
        let check: Check = if program { check_program } else { check_term };
        // What is done to it must leave it short enough to be lent.
        if bytes.len() > 16_000 {
            return;
        }
        let mut raw = Raw::read(&bytes);
        let k = raw.words[0];
        let above = put_a_value_above(random, &mut raw);
        if above {
            let wrong = raw.write();
            assert_eq!(
                check(&wrong, wrong.len()),
                Checked::refused(Refusal::LiteralAboveCeiling)
            );
        }
        if !name_a_wrong_variable(random, &mut raw, k) {
            return;
        }
        let wrong = raw.write();
        assert_eq!(
            check(&wrong, wrong.len()),
            Checked::refused(Refusal::BadVariable)
        );
        break_one(random, &mut raw);
        let broken = raw.write();
        // A record twice may have made it too long all the same.
        if broken.len() <= 16_384 {
            assert_eq!(
                check(&broken, broken.len()),
                Checked::refused(Refusal::Malformed)
            );
            both.one(usize::from(above));
        }
    });
    both.assert_at_least([4_000, 7_000]);
}

/// The longest records that can be lent, of both editions, with a byte changed anywhere in them.
#[test]
fn the_longest_records_with_a_byte_changed() {
    let seen = Rows::default();
    let longest = with_big_stack(|| {
        let programs = [
            nest_of_blocks(1, 4_093),
            row_of_blocks(16, 4_093),
            nest_of_blocks(1, 4_092).under(7),
        ];
        programs.map(|program| program.encode())
    });
    cases(1_000, |random| {
        let mut bytes = random.pick(&longest).clone();
        assert_eq!(bytes.len(), 16_384);
        let place = random.below(bytes.len());
        bytes[place] = *random.pick(&[0, 1, 2, 3, 4, 5, 16, 64, 255]);
        seen.one(check_program(&bytes, bytes.len()).number);
        bytes.push(0);
        assert_eq!(
            check_program(&bytes, 16_384),
            Checked::refused(Refusal::BadBuffer)
        );
    });
    seen.assert_at_least(&[(0, 100), (4, 500)]);
}
