//! The library's four calls that move a record to the other edition against the other program's, in bulk.
//! Every call goes through `both`, which compares; `editions.rs` and `editions_rows.rs` state what 02 says.

use other::both::{
    program_to_edition_1, program_to_edition_2, read_back, term_to_edition_1, term_to_edition_2,
    translate,
};
use other::calls::Written;
use other::codec::Record;
use other::examples::{sample_programs, sample_terms};
use other::generate::damage::{damaged, Damaged};
use other::generate::editions::{to_move, LARGEST};
use other::generate::lending::{
    lending, output_room, perhaps_damaged, sound_program, sound_term, Lending,
};
use other::random::{cases, Counts, Random, Rows};
use other::tree::{Edition, Program, TermRecord};

type Move = fn(&[u8], usize, &mut [u8]) -> Written;

const PROGRAM: [Move; 2] = [program_to_edition_2, program_to_edition_1];
const TERM: [Move; 2] = [term_to_edition_2, term_to_edition_1];

/// What each of the two calls answered, to edition 2 first.
#[derive(Default)]
struct Seen([Rows; 2]);

impl Seen {
    /// Each row that a generated record can have. To edition 1 there are 15 and 17 as well; a record that is
    /// damaged for 15 is of edition 2, which the other call refuses.
    fn assert_every_row(&self) {
        let rows = [(1, 2_000), (2, 10_000), (3, 50), (4, 300), (5, 20)];
        for seen in &self.0 {
            seen.assert_at_least(&rows);
            seen.assert_at_least(&[(0, 4_000), (10, 2_000)]);
        }
        self.0[1].assert_at_least(&[(15, 300), (17, 1_000)]);
    }
}

/// Both calls on a record that is sound or not, into outputs of just the answer's length, one byte less,
/// 16,384, one more, and others.
fn move_both_ways(random: &mut Random, calls: [Move; 2], record: &[u8], seen: &Seen) {
    let Lending { buffer, used } = perhaps_damaged(random, record);
    let wanted = [record.len() + 4, record.len() - 4];
    for (way, call) in calls.into_iter().enumerate() {
        let room = output_room(random, wanted[way].min(16_384));
        let mut out = vec![0x5A; room];
        seen.0[way].one(call(&buffer, used, &mut out).number);
    }
}

#[test]
fn generated_programs() {
    let seen = Seen::default();
    cases(60_000, |random| {
        let program = sound_program(random);
        let record = to_move(random, program).encode();
        move_both_ways(random, PROGRAM, &record, &seen);
    });
    seen.assert_every_row();
}

#[test]
fn generated_terms() {
    let seen = Seen::default();
    cases(60_000, |random| {
        let term = sound_term(random);
        let record = to_move(random, term).encode();
        move_both_ways(random, TERM, &record, &seen);
    });
    seen.assert_every_row();
}

/// Records that were damaged for a row, which is known from what was done: the call that moves them gives it. A
/// damaged header may have the kind of the edition asked for, and that is row 2 before all others but 1.
#[test]
fn damaged_records() {
    let seen = Seen::default();
    cases(30_000, |random| {
        let (program, term) = (sound_program(random), sound_term(random));
        let way = random.below(2);
        damaged_and_moved(random, program, PROGRAM[way], way, &seen);
        damaged_and_moved(random, term, TERM[way], way, &seen);
    });
    for rows in &seen.0 {
        let some = [1, 2, 3, 4, 5].map(|number| (number, 1_000));
        rows.assert_at_least(&some);
    }
    seen.0[1].assert_at_least(&[(15, 1_000)]);
}

/// The way is 0 to edition 2, and 1 to edition 1.
fn damaged_and_moved<R: Record>(random: &mut Random, tree: R, call: Move, way: usize, seen: &Seen) {
    let (from, to) = ([Edition::First, LARGEST][way], R::KINDS[1 - way]);
    let tree = tree.in_edition(from);
    if tree.encoded_len() > 16_384 {
        return;
    }
    let Damaged {
        buffer,
        used,
        number,
    } = damaged(random, &tree.encode());
    let number = number.expect("the row that it was damaged for");
    let is_there = used >= 4 && buffer[2..4] == to.to_le_bytes();
    let wanted = if number != 1 && is_there { 2 } else { number };
    let mut out = vec![0x5A; output_room(random, used.min(16_384))];
    out.truncate(16_384);
    let written = call(&buffer, used, &mut out);
    assert_eq!(written, Written::refused(wanted));
    seen.0[way].one(wanted);
}

/// Each byte of each sample at each of its 256 values, in edition 1 and in edition 2 with the largest ceiling
/// and with their own, through every call: a program's too on terms, and a term's on programs.
#[test]
fn every_byte_at_every_value() {
    let seen = Rows::default();
    let programs = sample_programs().map(|it| in_editions::<Program>(&it));
    let terms = sample_terms().map(|it| in_editions::<TermRecord>(&it));
    for record in programs.into_iter().chain(terms).flatten() {
        each_change(&record, |changed| {
            for call in PROGRAM.into_iter().chain(TERM) {
                let mut out = [0x5A; 180];
                seen.one(call(changed, changed.len(), &mut out).number);
            }
        });
    }
    seen.assert_at_least(&[(0, 20_000), (2, 1_000_000), (3, 5_000), (4, 50_000)]);
    seen.assert_at_least(&[(5, 50_000), (15, 500), (17, 5_000)]);
}

/// The record as it is, in edition 1, and in edition 2 with the largest ceiling.
fn in_editions<R: Record>(record: &[u8]) -> [Vec<u8>; 3] {
    let tree = || R::decode(record).expect("a sound record");
    let first = tree().in_edition(Edition::First).encode();
    let second = tree().in_edition(LARGEST).encode();
    [record.to_vec(), first, second]
}

fn each_change(bytes: &[u8], test: impl Fn(&[u8])) {
    for place in 0..bytes.len() {
        let mut changed = bytes.to_vec();
        for value in 0..=255 {
            changed[place] = value;
            test(&changed);
        }
    }
}

/// Every used length of a sample, and every room, about the record's own and up to twice it.
#[test]
fn every_used_length_and_every_room() {
    let seen = Rows::default();
    let programs = sample_programs().map(|it| in_editions::<Program>(&it));
    let terms = sample_terms().map(|it| in_editions::<TermRecord>(&it));
    for record in programs.into_iter().chain(terms).flatten() {
        for call in PROGRAM.into_iter().chain(TERM) {
            for used in 0..=record.len() + 2 {
                let mut said = record.clone();
                said[..2].copy_from_slice(&(used as u16).to_le_bytes());
                for source in [&record, &said] {
                    let mut out = [0x5A; 300];
                    seen.one(call(source, used, &mut out).number);
                }
            }
            for room in 0..2 * record.len() {
                let mut out = vec![0x5A; room];
                seen.one(call(&record, record.len(), &mut out).number);
            }
        }
    }
    seen.assert_at_least(&[(0, 1_000), (1, 100), (2, 10_000), (4, 500), (10, 1_000)]);
    seen.assert_at_least(&[(17, 200)]);
}

/// The way round through the library alone: to edition 2, its term, back to edition 1, the program of that.
#[test]
fn the_way_round() {
    let seen = Counts::<1>::default();
    cases(5_000, |random| {
        let program = sound_program(random).in_edition(Edition::First);
        let source = program.encode();
        let Lending { buffer, .. } = lending(random, &source);
        let [mut second, mut term, mut first, mut again] = [(); 4].map(|()| vec![0x5A; 16_384]);
        let there = program_to_edition_2(&buffer, source.len(), &mut second);
        let translated = translate(&second, there.used as usize, &mut term);
        let back = term_to_edition_1(&term, translated.used as usize, &mut first);
        let read = read_back(&first, back.used as usize, &mut again);
        if read.number == 0 {
            assert_eq!(again[..read.used as usize], source);
            seen.one(0);
        }
    });
    seen.assert_at_least([3_000]);
}
