//! Records moved to the other edition (02, C-18): what is written, byte by byte; that there and back, and
//! back and there, gives the same bytes; that moving goes together with translation, read-back and
//! substitution. `editions_runs.rs` has the runs of moved records, `editions_rows.rs` the refusals.

use other::both::{
    check_program, check_term, program_to_edition_1, program_to_edition_2, read_back, result,
    substitute, term_to_edition_1, term_to_edition_2, translate,
};
use other::calls::Written;
use other::codec::{hex, Record};
use other::examples::{add, plus_one, program, row_of_blocks};
use other::generate::editions::{first_edition, to_move, LARGEST};
use other::generate::lend;
use other::generate::lending::{sound_program, sound_term, translatable_program};
use other::generate::programs::store;
use other::random::{cases, Counts};
use other::translate::translate as translation_of;
use other::tree::{with_big_stack, Atom, Command, Expr, Simple, Term, TermRecord};

const ROOM: usize = 16_384;

/// One of the four calls.
type Move = fn(&[u8], usize, &mut [u8]) -> Written;

/// The call on a record, which must be accepted; into a longer buffer, and into one that is just long
/// enough. Behind the record it must have written zeros.
fn moved(call: Move, record: &[u8]) -> Vec<u8> {
    let mut out = vec![0xA5; ROOM];
    let written = call(record, record.len(), &mut out);
    assert_eq!(written.number, 0);
    let used = written.used as usize;
    assert!(out[used..].iter().all(|byte| *byte == 0));
    out.truncate(used);
    let mut exact = vec![0xA5; used];
    assert_eq!(call(record, record.len(), &mut exact), written);
    assert_eq!(exact, out);
    out
}

/// There by the first call and back by the second: the bytes by hand, and each in a buffer of one less is
/// refused.
fn there_and_back_by_hand([there, back]: [Move; 2], first: &[u8], second: &[u8]) {
    assert_eq!(first.len() + 4, second.len());
    assert_eq!(hex(&moved(there, first)), hex(second));
    assert_eq!(hex(&moved(back, second)), hex(first));
    for (call, from, to) in [(there, first, second), (back, second, first)] {
        let mut short = vec![0xA5; to.len() - 1];
        let written = call(from, from.len(), &mut short);
        assert_eq!(written, Written::refused(10u32));
        assert!(short.iter().all(|byte| *byte == 0xA5));
    }
}

const PROGRAM: [Move; 2] = [program_to_edition_2, program_to_edition_1];
const TERM: [Move; 2] = [term_to_edition_2, term_to_edition_1];

/// P9, whose bytes 01 gives, and its term: the length is 4 more, 7 becomes 9 and 40 becomes 41, k stays, and
/// behind it stands the largest value, 4,294,967,295.
#[test]
fn the_least_records_byte_by_byte() {
    let first = [0x0C, 0, 7, 0, 1, 0, 0, 0, 4, 0, 1, 0];
    let second = [
        0x10, 0, 9, 0, 1, 0, 0, 0, 0xFF, 0xFF, 0xFF, 0xFF, 4, 0, 1, 0,
    ];
    there_and_back_by_hand(PROGRAM, &first, &second);
    let first = [
        0x14, 0, 40, 0, 1, 0, 0, 0, 0x0C, 0, 36, 0, 8, 0, 33, 0, 1, 0, 0, 0,
    ];
    let second = [
        0x18, 0, 41, 0, 1, 0, 0, 0, 0xFF, 0xFF, 0xFF, 0xFF, 0x0C, 0, 36, 0, 8, 0, 33, 0, 1, 0, 0, 0,
    ];
    there_and_back_by_hand(TERM, &first, &second);
}

/// ADD: 64 bytes with a block of 56, so 68; no length within changes.
#[test]
fn add_byte_by_byte() {
    let block = [
        56, 0, 1, 0, // the block
        16, 0, 2, 0, 3, 0, 0, 0, 8, 0, 17, 0, 1, 0, 0, 0, // x3 := x1
        36, 0, 3, 0, 4, 0, 0, 0, 8, 0, 17, 0, 2, 0, 0, 0, // for x4 := 1 to x2
        20, 0, 1, 0, // its block
        16, 0, 2, 0, 3, 0, 0, 0, 8, 0, 18, 0, 3, 0, 0, 0, // x3 := x3 + 1
    ];
    let first = [&[64, 0, 7, 0, 4, 0, 0, 0][..], &block].concat();
    let second = [&[68, 0, 9, 0, 4, 0, 0, 0, 255, 255, 255, 255][..], &block].concat();
    assert_eq!((first.len(), second.len()), (64, 68));
    there_and_back_by_hand(PROGRAM, &first, &second);
}

/// ADD's term: 172 bytes, so 176. With *all* for the tuple of the four variables, 36 bytes long:
/// let x3 = x1 in (let all = rec(x4, x2, all, let x3 = succ x3 in all) in all).
#[test]
fn adds_term_byte_by_byte() {
    let all = [
        36, 0, 36, 0, 8, 0, 33, 0, 1, 0, 0, 0, 8, 0, 33, 0, 2, 0, 0, 0, //
        8, 0, 33, 0, 3, 0, 0, 0, 8, 0, 33, 0, 4, 0, 0, 0,
    ];
    let term = [
        &[164, 0, 37, 0, 3, 0, 0, 0, 8, 0, 33, 0, 1, 0, 0, 0][..], // x3 = x1 in
        &[148, 0, 38, 0],                                          // all =
        &[108, 0, 39, 0, 4, 0, 0, 0, 8, 0, 33, 0, 2, 0, 0, 0],     // rec of x4, to x2
        &all,
        &[
            56, 0, 37, 0, 3, 0, 0, 0, 12, 0, 34, 0, 8, 0, 33, 0, 3, 0, 0, 0,
        ], // x3 = succ x3 in
        &all,
        &all,
    ]
    .concat();
    let first = [&[172, 0, 40, 0, 4, 0, 0, 0][..], &term].concat();
    let second = [&[176, 0, 41, 0, 4, 0, 0, 0, 255, 255, 255, 255][..], &term].concat();
    assert_eq!((first.len(), second.len()), (172, 176));
    there_and_back_by_hand(TERM, &first, &second);
}

/// A length whose lower byte is carried over: 252 bytes become 256, and 256 become 252. A row of n empty
/// blocks has 12 + 4·n, a term of let-ones of a numeral at k = 1 has 20 + 16·n, of succ 20 + 20·n.
#[test]
fn a_length_that_carries() {
    let first = row_of_blocks(1, 60).encode();
    assert_eq!(first[..2], [252, 0]);
    let second = moved(program_to_edition_2, &first);
    assert_eq!(second[..2], [0, 1]);
    assert_eq!(moved(program_to_edition_1, &second), first);
    // 20 + 16·2 + 20·10 = 252.
    let first = lets(2, 10).encode();
    assert_eq!(first[..2], [252, 0]);
    let second = moved(term_to_edition_2, &first);
    assert_eq!(second[..2], [0, 1]);
    assert_eq!(moved(term_to_edition_1, &second), first);
}

/// At k = 1 let-ones, so many of a numeral and so many of a succ: 16 and 20 bytes each, and 20 for the
/// header and the tuple.
fn lets(numerals: usize, succs: usize) -> TermRecord {
    let zero = Atom::Numeral(0);
    let wrap = |simple| move |last, _| Term::LetOne(1, simple, Box::new(last));
    let term = (0..numerals).fold(
        Term::Tuple(vec![Atom::Variable(1)]),
        wrap(Simple::Atom(zero)),
    );
    TermRecord::new(1, (0..succs).fold(term, wrap(Simple::Succ(zero))))
}

/// The longest: a program of edition 1 of 16,380 bytes becomes one of 16,384, which can be lent. One of
/// 16,384 has no edition 2, for it would be 16,388 bytes long: no buffer that may be lent takes it. Blocks in a
/// row: 12 + 4·4,092 and 12 + 4·4,093. Let-ones: 20 + 16·1,020 + 20·2 and 20 + 16·1,019 + 20·3.
#[test]
fn the_longest_records() {
    with_big_stack(|| {
        let programs = [4_092, 4_093].map(|count| row_of_blocks(1, count).encode());
        let terms = [lets(1_020, 2), lets(1_019, 3)].map(|term| term.encode());
        for ([there, back], [fits, too_long]) in [(PROGRAM, programs), (TERM, terms)] {
            assert_eq!((fits.len(), too_long.len()), (16_380, 16_384));
            let second = moved(there, &fits);
            assert_eq!(second.len(), 16_384);
            assert_eq!(moved(back, &second), fits);
            let mut out = vec![0xA5; ROOM];
            let short = there(&fits, fits.len(), &mut out[..16_383]);
            assert_eq!(short, Written::refused(10u32));
            let written = there(&too_long, too_long.len(), &mut out);
            assert_eq!(written, Written::refused(10u32));
            assert!(out.iter().all(|byte| *byte == 0xA5));
        }
    });
}

/// What stands behind the source's record does not matter, and what the output held neither; k is what the
/// check gives of both.
#[test]
fn nothing_else_is_read() {
    for k in 1..=16 {
        let first = program(k, vec![Command::Assign(k, Expr::PlusOne(1))]);
        let (record, second) = (first.encode(), first.under(u32::MAX).encode());
        let mut out = [0; 60];
        for (room, held) in [(32, 0), (40, 0xFF), (60, 7)] {
            let out = &mut out[..room];
            out.fill(held);
            let written = program_to_edition_2(&lend(&record, 50), record.len(), out);
            assert_eq!((written.number, written.used), (0, 32));
            assert_eq!(out[..32], second);
            assert!(out[32..].iter().all(|byte| *byte == 0));
        }
        assert_eq!(check_program(&record, record.len()).k, k);
        assert_eq!(check_program(&out, 32).k, k);
        let all = TermRecord::new(k, Term::Tuple((1..=k).map(Atom::Variable).collect()));
        let second = moved(term_to_edition_2, &all.encode());
        assert_eq!(check_term(&second, second.len()).k, k);
    }
}

/// There and back: the same bytes, of programs and terms of every shape. What is written there is the same
/// tree under the largest ceiling.
#[test]
fn there_and_back() {
    let seen = Counts::<2>::default();
    cases(8_000, |random| {
        if let Some(program) = first_edition(sound_program(random)) {
            let first = program.encode();
            let second = moved(program_to_edition_2, &first);
            assert_eq!(second, program.in_edition(LARGEST).encode());
            assert_eq!(moved(program_to_edition_1, &second), first);
            seen.one(0);
        }
        if let Some(term) = first_edition(sound_term(random)) {
            let first = term.encode();
            let second = moved(term_to_edition_2, &first);
            assert_eq!(second, term.in_edition(LARGEST).encode());
            assert_eq!(moved(term_to_edition_1, &second), first);
            seen.one(1);
        }
    });
    seen.assert_at_least([7_900, 7_900]);
}

/// Back and there: of edition 2 with the largest ceiling the same bytes. With a smaller one there is no way
/// back (row 17), and a literal or numeral above it comes first (row 15).
#[test]
fn back_and_there() {
    // Moved, refused for a literal, for the ceiling.
    let seen = Counts::<3>::default();
    cases(8_000, |random| {
        let (program, term) = (sound_program(random), sound_term(random));
        let (program, term) = (to_move(random, program), to_move(random, term));
        if let Some(sort) = back_and_there_of(PROGRAM, &program) {
            seen.one(sort);
        }
        if let Some(sort) = back_and_there_of(TERM, &term) {
            seen.one(sort);
        }
    });
    seen.assert_at_least([5_000, 100, 1_000]);
}

/// Which of these it is, if it is of edition 2.
fn back_and_there_of<R: Record>([there, back]: [Move; 2], tree: &R) -> Option<usize> {
    let (header, record) = (tree.header(), tree.encode());
    if header.edition.number() == 1 {
        return None;
    }
    if header.ceiling() == u32::MAX {
        let first = moved(back, &record);
        assert_eq!(first.len() + 4, record.len());
        assert_eq!(moved(there, &first), record);
        return Some(0);
    }
    let above = tree.literals().iter().any(|it| *it > header.ceiling());
    let mut out = vec![0xA5; ROOM];
    let written = back(&record, record.len(), &mut out);
    let wanted: u32 = if above { 15 } else { 17 };
    assert_eq!(written, Written::refused(wanted));
    assert!(out.iter().all(|byte| *byte == 0xA5));
    Some(if above { 1 } else { 2 })
}

/// Translating a moved program is moving the translation, in every buffer that is 4 bytes longer: also where
/// there is no room for the term. Reading back a moved term is moving the program that is read back.
#[test]
fn translation_of_a_moved_program() {
    // No room; translated.
    let seen = Counts::<2>::default();
    cases(8_000, |random| {
        let Some(program) = first_edition(translatable_program(random)) else {
            return;
        };
        let wanted = translation_of(&program).encoded_len();
        if wanted + 4 > ROOM {
            return;
        }
        let room = match random.below(3) {
            0 => random.below(wanted),
            _ => wanted + random.below(20).min(ROOM - 4 - wanted),
        };
        let first = program.encode();
        let second = moved(program_to_edition_2, &first);
        let (mut term, mut moved_term) = (vec![0xA5; room], vec![0xA5; room + 4]);
        let written = translate(&first, first.len(), &mut term);
        let of_moved = translate(&second, second.len(), &mut moved_term);
        assert_eq!(of_moved.number, written.number);
        if written.number != 0 {
            assert_eq!((written.number, room < wanted), (10, true));
            seen.one(0);
            return;
        }
        let used = written.used as usize;
        assert_eq!(of_moved.used as usize, used + 4);
        let wanted = moved(term_to_edition_2, &term[..used]);
        assert_eq!(moved_term[..used + 4], wanted);
        let mut program = vec![0xA5; second.len()];
        let back = read_back(&moved_term, used + 4, &mut program);
        assert_eq!((back.number, &program), (0, &second));
        seen.one(1);
    });
    seen.assert_at_least([2_000, 4_000]);
}

/// Reading back, of terms of every sort: the same number, and where there is a program, the moved one.
#[test]
fn read_back_of_a_moved_term() {
    // Read back, no program, no room.
    let seen = Counts::<3>::default();
    cases(8_000, |random| {
        let term = match random.below(3) {
            0 => sound_term(random),
            _ => translation_of(&translatable_program(random)),
        };
        let Some(term) = first_edition(term) else {
            return;
        };
        let first = term.encode();
        let second = moved(term_to_edition_2, &first);
        let room = random.below(first.len().min(ROOM - 4));
        let (mut out, mut moved_out) = (vec![0xA5; room], vec![0xA5; room + 4]);
        let written = read_back(&first, first.len(), &mut out);
        let of_moved = read_back(&second, second.len(), &mut moved_out);
        assert_eq!(of_moved.number, written.number);
        match written.number {
            0 => {
                let used = written.used as usize;
                let wanted = moved(program_to_edition_2, &out[..used]);
                assert_eq!(moved_out[..used + 4], wanted);
                seen.one(0);
            }
            9 => seen.one(1),
            number => {
                assert_eq!(number, 10);
                seen.one(2);
            }
        }
    });
    seen.assert_at_least([1_000, 1_000, 1_000]);
}

/// Substituting a store in a moved term is moving the term that it is substituted in, with as many
/// replaced; and the result of a moved term is the term's.
#[test]
fn a_store_in_a_moved_term() {
    // The result is shown, a free variable, not finished.
    let seen = Counts::<3>::default();
    cases(8_000, |random| {
        let Some(term) = first_edition(sound_term(random)) else {
            return;
        };
        let values = store(random, term.header);
        let mut first = term.encode();
        let mut second = moved(term_to_edition_2, &first);
        let (used, moved_used) = (first.len(), second.len());
        let results = [&first, &second].map(|record| {
            let mut shown = vec![77; values.len()];
            (result(record, record.len(), &mut shown), shown)
        });
        assert_eq!(results[0], results[1]);
        seen.one(match results[0].0 {
            0 => 0,
            7 => 1,
            number => {
                assert_eq!(number, 8);
                2
            }
        });
        let substituted = substitute(&mut first, used, &values);
        let of_moved = substitute(&mut second, moved_used, &values);
        assert_eq!((substituted.number, of_moved.number), (0, 0));
        assert_eq!(of_moved.replaced, substituted.replaced);
        assert_eq!(second, moved(term_to_edition_2, &first));
    });
    seen.assert_at_least([100, 1_000, 500]);
}

/// A moved program takes what edition 1 takes, and a ceiling below it does not: {x1 := x1 + 1} on one below
/// the largest value ends with that value.
#[test]
fn the_largest_value_is_within_the_ceiling() {
    let second = moved(program_to_edition_2, &plus_one().encode());
    let ran = other::both::run_stepper(&mut second.clone(), second.len(), &mut [u32::MAX - 1], 9);
    assert_eq!((ran.number, ran.outcome, ran.steps), (0, 1, 2));
    let ran = other::both::run_stepper(&mut second.clone(), second.len(), &mut [u32::MAX], 9);
    assert_eq!((ran.number, ran.outcome, ran.steps), (0, 2, 0));
    let literal = program(1, vec![Command::Assign(1, Expr::Literal(u32::MAX))]).encode();
    let second = moved(program_to_edition_2, &literal);
    assert_eq!(check_program(&second, second.len()).number, 0);
    assert_eq!(moved(program_to_edition_1, &second), literal);
    // And ADD, as in 01.
    let second = moved(program_to_edition_2, &add().encode());
    assert_eq!(second, add().under(u32::MAX).encode());
}
