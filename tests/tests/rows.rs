//! Rows 1 to 5 of 01's table, and 15 of 02 behind them: each damage gives the row it was made for, in every
//! call. `ceiling_rows.rs` has 15, 16 and edition 2's headers value by value.

use other::both::{
    check_program, check_term, read_back, result, run_reducer, run_stepper, substitute, translate,
};
use other::calls::{Checked, Ran, Reduced, Substituted, Written};
use other::check::Refusal;
use other::codec::{hex, kind, Record};
use other::examples::{add, nest_of_blocks, row_of_blocks, sample_programs, sample_terms};
use other::generate::damage::{
    apply, breaks, cut, damaged, flipped, let_all_to_let_one, wrong_variables, Damaged, WRONG_K,
};
use other::generate::programs::program;
use other::generate::raw::Raw;
use other::generate::terms::{any_term, closed_term, translation, SHORTEST};
use other::random::{cases, Counts, Random, Rows};
use other::tree::{with_big_stack, Command, Expr, Program, TermRecord};

type Check = fn(&[u8], usize) -> Checked;

/// Programs and terms of both editions in which every kind of the grammar occurs, each with its check.
fn samples() -> Vec<(Check, Vec<u8>)> {
    let programs = sample_programs().map(|bytes| (check_program as Check, bytes));
    let terms = sample_terms().map(|bytes| (check_term as Check, bytes));
    programs.into_iter().chain(terms).collect()
}

/// Every break of every record within the samples is row 4.
#[test]
fn every_break_at_every_level_is_4() {
    with_big_stack(|| {
        for (check, bytes) in samples() {
            assert_eq!(check(&bytes, bytes.len()).number, 0);
            let whole = Raw::read(&bytes);
            for place in 0..whole.count() {
                for done in breaks(whole.clone().node_mut(place), place == 0) {
                    let mut raw = whole.clone();
                    apply(raw.node_mut(place), &done);
                    let broken = raw.write();
                    let got = check(&broken, broken.len());
                    assert_eq!(
                        got,
                        Checked::refused(Refusal::Malformed),
                        "record {place}: {done:?}: {}",
                        hex(&broken)
                    );
                }
            }
        }
    });
}

/// The innermost of 4,093 blocks within each other, and the last of 4,093 in a row, are looked at
/// as well as the first.
#[test]
fn the_deepest_and_the_last_record_are_looked_at() {
    with_big_stack(|| {
        for program in [nest_of_blocks(1, 4_093), row_of_blocks(1, 4_093)] {
            let bytes = program.encode();
            assert_eq!(check_program(&bytes, 16_384), Checked { number: 0, k: 1 });
            // The kind of the last head; then its length, one too long.
            for (place, byte) in [(16_382, 4), (16_380, 5)] {
                let mut broken = bytes.clone();
                broken[place] = byte;
                assert_eq!(
                    check_program(&broken, 16_384),
                    Checked::refused(Refusal::Malformed)
                );
            }
        }
    });
}

/// Assignment targets and indexes of loops, let-ones and recs are looked at as well as atoms.
#[test]
fn every_variable_at_every_level_is_looked_at() {
    for (check, bytes) in samples() {
        let mut whole = Raw::read(&bytes);
        let k = whole.words[0];
        let mut looked_at = 0;
        for place in 0..whole.count() {
            if !whole.node_mut(place).names_a_variable() {
                continue;
            }
            looked_at += 1;
            for variable in wrong_variables(k) {
                let mut raw = whole.clone();
                raw.node_mut(place).words[0] = variable;
                let wrong = raw.write();
                assert_eq!(
                    check(&wrong, wrong.len()),
                    Checked::refused(Refusal::BadVariable),
                    "{}",
                    hex(&wrong)
                );
            }
        }
        assert!(looked_at >= 4);
    }
}

/// Row 4 is asked of the whole record before row 5 is asked of any part of it: the first variable
/// is wrong, and the break comes at its very end.
#[test]
fn a_wrong_variable_early_and_a_break_late_is_4() {
    let block = vec![
        Command::Assign(5, Expr::Variable(1)),
        Command::Assign(1, Expr::Variable(1)),
    ];
    let mut bytes = Program::new(4, block).encode();
    assert_eq!(
        check_program(&bytes, bytes.len()),
        Checked::refused(Refusal::BadVariable)
    );
    let last_kind = bytes.len() - 6;
    bytes[last_kind] = 20;
    assert_eq!(
        check_program(&bytes, bytes.len()),
        Checked::refused(Refusal::Malformed)
    );
    bytes[4] = 17;
    assert_eq!(
        check_program(&bytes, bytes.len()),
        Checked::refused(Refusal::BadK)
    );
    bytes[2] = 8;
    assert_eq!(
        check_program(&bytes, bytes.len()),
        Checked::refused(Refusal::BadHeader)
    );
    assert_eq!(
        check_program(&bytes, bytes.len() + 1),
        Checked::refused(Refusal::BadBuffer)
    );
}

/// Used lengths 0 to 12 of a buffer that holds the shortest program, and of one whose header says
/// just that length. Under 8 is row 2; from 8 to 11 there is a header and no whole block.
#[test]
fn used_lengths_around_the_header() {
    let sound = [12, 0, 7, 0, 1, 0, 0, 0, 4, 0, 1, 0, 0];
    for used in 0..=13 {
        let expected = if used == 12 {
            Checked { number: 0, k: 1 }
        } else {
            Checked::refused(Refusal::BadHeader)
        };
        assert_eq!(check_program(&sound, used), expected, "{used} bytes");
        let mut told = sound;
        told[0] = used as u8;
        let expected = match used {
            0..8 => Checked::refused(Refusal::BadHeader),
            12 => Checked { number: 0, k: 1 },
            _ => Checked::refused(Refusal::Malformed),
        };
        assert_eq!(check_program(&told, used), expected, "{used} bytes");
    }
    assert_eq!(
        check_program(&sound, 14),
        Checked::refused(Refusal::BadBuffer)
    );
    assert_eq!(check_program(&[], 0), Checked::refused(Refusal::BadHeader));
    assert_eq!(check_program(&[], 1), Checked::refused(Refusal::BadBuffer));
}

/// Row 1 at its two boundaries: 16,384 bytes are allowed, and so is a buffer used to its end.
#[test]
fn buffers_of_16384_and_16385() {
    let mut buffer = add().encode();
    assert_eq!(check_program(&buffer, 64), Checked { number: 0, k: 4 });
    buffer.resize(16_384, 0xA5);
    assert_eq!(check_program(&buffer, 64), Checked { number: 0, k: 4 });
    assert_eq!(
        check_program(&buffer, 16_385),
        Checked::refused(Refusal::BadBuffer)
    );
    assert_eq!(
        check_program(&buffer, usize::MAX),
        Checked::refused(Refusal::BadBuffer)
    );
    // 64 once more if only 16 or 32 bits of the used length were looked at.
    assert_eq!(
        check_program(&buffer, 65_536 + 64),
        Checked::refused(Refusal::BadBuffer)
    );
    assert_eq!(
        check_program(&buffer, (1 << 32) + 64),
        Checked::refused(Refusal::BadBuffer)
    );
    buffer.push(0);
    assert_eq!(
        check_program(&buffer, 64),
        Checked::refused(Refusal::BadBuffer)
    );
    assert_eq!(
        check_program(&buffer, 0),
        Checked::refused(Refusal::BadBuffer)
    );
}

#[test]
fn k_from_1_to_16_and_no_other() {
    for k in 1..=16 {
        let block = vec![Command::Assign(k, Expr::Variable(1))];
        let bytes = Program::new(k, block).encode();
        assert_eq!(check_program(&bytes, bytes.len()), Checked { number: 0, k });
    }
    for (check, bytes) in samples() {
        for k in WRONG_K {
            let mut wrong = bytes.clone();
            wrong[4..8].copy_from_slice(&k.to_le_bytes());
            assert_eq!(
                check(&wrong, wrong.len()),
                Checked::refused(Refusal::BadK),
                "k = {k}"
            );
        }
    }
}

/// Another k within 1 to 16. In a term no tuple has k atoms then, so row 4. In a program only the
/// variables depend on k: ADD names x4, so 3 is too few (row 5) and 5 is sound.
#[test]
fn another_k_that_is_allowed() {
    let [mut program, ..] = sample_programs();
    let [mut term, ..] = sample_terms();
    for k in (1..=16).filter(|k| *k != 4) {
        term[4] = k as u8;
        program[4] = k as u8;
        assert_eq!(
            check_term(&term, term.len()),
            Checked::refused(Refusal::Malformed)
        );
        let expected = if k < 4 {
            Checked::refused(Refusal::BadVariable)
        } else {
            Checked { number: 0, k }
        };
        assert_eq!(check_program(&program, program.len()), expected);
    }
}

/// The caller names which of the two it lends; the other is a wrong kind.
#[test]
fn the_other_kind_of_record_is_2() {
    for bytes in sample_programs() {
        assert_eq!(
            check_term(&bytes, bytes.len()),
            Checked::refused(Refusal::BadHeader)
        );
    }
    for bytes in sample_terms() {
        assert_eq!(
            check_program(&bytes, bytes.len()),
            Checked::refused(Refusal::BadHeader)
        );
    }
}

/// With k = 1 a let-all of a tuple has the shape of a let-one; see the generator.
#[test]
fn a_let_all_turned_into_a_let_one() {
    let rows = Counts::<6>::default();
    cases(3_000, |random| {
        let bytes = any_term(random, 600).encode();
        let mut raw = Raw::read(&bytes);
        let k = raw.words[0];
        let let_alls: Vec<usize> = (0..raw.count())
            .filter(|place| raw.node_mut(*place).kind == kind::LET_ALL)
            .collect();
        if let_alls.is_empty() {
            return;
        }
        let number = let_all_to_let_one(raw.node_mut(*random.pick(&let_alls)), k);
        let turned = raw.write();
        assert_eq!(
            check_term(&turned, turned.len()),
            Checked::refused(number),
            "{}",
            hex(&turned)
        );
        rows.one(number as usize);
    });
    rows.assert_at_least([0, 0, 0, 0, 50, 50]);
}

fn sound_program(random: &mut Random) -> Vec<u8> {
    let most = *random.pick(&[30, 100, 500]);
    let limit = 12 + random.below(most);
    program(random, limit).encode()
}

fn sound_term(random: &mut Random) -> Vec<u8> {
    let limit = SHORTEST + random.below(500);
    match random.below(3) {
        0 => translation(random, limit).1.encode(),
        1 => closed_term(random, limit).encode(),
        _ => any_term(random, limit).encode(),
    }
}

fn damage(random: &mut Random, sound: &[u8]) -> Damaged {
    if random.one_in(5) {
        cut(random, sound)
    } else {
        damaged(random, sound)
    }
}

/// Every call that takes a program gives the number, zero for all else, and changes nothing. The
/// store may be right or wrong: its row comes later.
fn program_calls_refuse(random: &mut Random, case: &Damaged, number: u32) {
    let Damaged { buffer, used, .. } = case;
    let mut lent = buffer.clone();
    let mut out = vec![0xA5; random.below(300)];
    let mut store = vec![3; random.below(18)];
    assert_eq!(check_program(&lent, *used), Checked::refused(number));
    let written = translate(&lent, *used, &mut out);
    assert_eq!(written, Written::refused(number));
    let ran = run_stepper(&mut lent, *used, &mut store, random.word());
    assert_eq!(ran, Ran::refused(number));
    assert!(lent == *buffer && only(&out, 0xA5) && only(&store, 3));
}

fn term_calls_refuse(random: &mut Random, case: &Damaged, number: u32) {
    let Damaged { buffer, used, .. } = case;
    let mut lent = buffer.clone();
    let mut out = vec![0xA5; random.below(300)];
    let mut store = vec![3; random.below(18)];
    assert_eq!(check_term(&lent, *used), Checked::refused(number));
    let written = read_back(&lent, *used, &mut out);
    assert_eq!(written, Written::refused(number));
    let written = substitute(&mut lent, *used, &store);
    assert_eq!(written, Substituted::refused(number));
    let ran = run_reducer(&mut lent, *used, random.word());
    assert_eq!(ran, Reduced::refused(number));
    assert_eq!(result(&lent, *used, &mut store), number);
    assert!(lent == *buffer && only(&out, 0xA5) && only(&store, 3));
}

fn only<T: PartialEq>(slice: &[T], value: T) -> bool {
    slice.iter().all(|entry| *entry == value)
}

/// The refusal that the damage was made for, from every call that takes such a record.
fn refused_by_every_call(
    sound: fn(&mut Random) -> Vec<u8>,
    refuse: fn(&mut Random, &Damaged, u32),
) {
    let rows = Rows::default();
    cases(20_000, |random| {
        let sound = sound(random);
        let case = damage(random, &sound);
        let number = case.number.expect("a known row");
        rows.one(number);
        let _told = Told(&case);
        refuse(random, &case, number);
    });
    rows.assert_at_least(&[(1, 500), (2, 500), (3, 500), (4, 500), (5, 500), (15, 300)]);
}

/// Of wrong headers the generator makes those that edition 2 brings: kind 8, between 7 and 9; the kinds
/// of the other sort of record; a header of edition 2 that says 8, 9, 10 or 11 bytes; a length that is
/// not the used length. And of broken records those without their ceiling, told by a header of edition
/// 2 behind whose 8 bytes a block's or term's head stands that is as long as the rest.
#[test]
fn damaged_headers_are_of_every_sort() {
    let seen = Counts::<8>::default();
    cases(20_000, |random| {
        let program = random.one_in(2);
        let sound = match program {
            true => sound_program(random),
            false => sound_term(random),
        };
        let Damaged {
            buffer,
            used,
            number,
        } = damaged(random, &sound);
        if used < 8 || used > buffer.len() || buffer.len() > 16_384 {
            return;
        }
        let half = |at: usize| usize::from(u16::from_le_bytes([buffer[at], buffer[at + 1]]));
        let (length, kind) = (half(0), half(2));
        let (second, others) = match program {
            true => (9, [40, 41]),
            false => (41, [7, 9]),
        };
        let whole = kind == second && length == used;
        let sorts = [
            kind == 8,
            others.contains(&kind),
            length != used,
            whole && used == 8,
            whole && used == 9,
            whole && used == 10,
            whole && used == 11,
        ];
        for (sort, met) in sorts.into_iter().enumerate() {
            if met {
                assert!(matches!(number, Some(1 | 2)));
                seen.one(sort);
            }
        }
        let without = whole && used >= 12 && half(8) == used - 8;
        if without && number == Some(Refusal::Malformed.number()) {
            seen.one(7);
        }
    });
    seen.assert_at_least([30, 100, 500, 100, 100, 100, 100, 50]);
}

/// Prints the bytes of a case that fails.
struct Told<'a>(&'a Damaged);

impl Drop for Told<'_> {
    fn drop(&mut self) {
        if std::thread::panicking() {
            let Damaged { buffer, used, .. } = self.0;
            eprintln!("used {used} of {}", hex(buffer));
        }
    }
}

#[test]
fn damaged_programs_are_refused_by_every_call() {
    refused_by_every_call(sound_program, program_calls_refuse);
}

#[test]
fn damaged_terms_are_refused_by_every_call() {
    refused_by_every_call(sound_term, term_calls_refuse);
}

/// Bits turned over anywhere: what passes is the encoding of a tree with that k, its variables and literals
/// what they may be, and nothing else passes; a row is one of 2 to 5, or 15.
#[test]
fn turned_bits_leave_a_sound_record_or_a_refusal() {
    let passed = Counts::<2>::default();
    cases(12_000, |random| {
        let case = if random.one_in(2) {
            let sound = sound_program(random);
            let case = flipped(random, &sound);
            agrees_with_its_tree::<Program>(check_program, &case, &passed);
            case
        } else {
            let sound = sound_term(random);
            let case = flipped(random, &sound);
            agrees_with_its_tree::<TermRecord>(check_term, &case, &passed);
            case
        };
        assert_eq!(case.used, case.buffer.len());
    });
    passed.assert_at_least([200, 200]);
}

fn agrees_with_its_tree<R: Record>(check: Check, case: &Damaged, passed: &Counts<2>) {
    let got = check(&case.buffer, case.used);
    let told = hex(&case.buffer);
    if got.number != 0 {
        assert!(matches!(got.number, 2..=5 | 15) && got.k == 0, "{told}");
        return;
    }
    let tree = R::decode(&case.buffer).expect("a tree");
    assert_eq!(tree.encode(), case.buffer);
    assert_eq!(got.k, tree.header().k);
    assert!((1..=16).contains(&got.k), "{told}");
    let named = |x: &u32| (1..=got.k).contains(x);
    assert!(tree.variables().iter().all(named), "{told}");
    // Of the bytes themselves: the ceiling stands behind k, in a record of kind 9 or 41.
    let ceiling = match case.buffer[2] {
        9 | 41 => u32::from_le_bytes(case.buffer[8..12].try_into().expect("4 bytes")),
        _ => u32::MAX,
    };
    assert!(
        tree.literals().iter().all(|value| *value <= ceiling),
        "{told}"
    );
    passed.one(usize::from(ceiling < u32::MAX));
}
