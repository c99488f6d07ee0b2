//! The library's translate, read back, substitute and result against the other program's, in bulk.
//! Every call goes through `both`, which compares; `terms.rs` and `figures.rs` state what 01 says.

use other::both::{read_back, result, substitute, translate};
use other::calls::Written;
use other::check::Refusal;
use other::codec::Record;
use other::examples::{row_of_blocks, sample_programs, sample_terms};
use other::generate::ceilings::term_in_any_edition;
use other::generate::lend;
use other::generate::lending::{
    lending, lent_store, output_room, perhaps_damaged, sound_program, sound_term,
    translatable_program, Lending,
};
use other::generate::programs::store;
use other::random::{cases, Counts, Random, Rows};
use other::translate::translate as translation_of;
use other::tree::{with_big_stack, Atom, Header, Term, TermRecord};

/// An output buffer with something in it.
fn output(random: &mut Random, wanted: usize) -> Vec<u8> {
    vec![0x5A; output_room(random, wanted)]
}

/// Programs, most of which have a term that fits, into outputs of just its length, one byte less,
/// 16,384, one more, and others.
#[test]
fn translations_of_generated_programs() {
    let seen = Rows::default();
    cases(40_000, |random| {
        let program = if random.one_in(8) {
            sound_program(random)
        } else {
            translatable_program(random)
        };
        let wanted = translation_of(&program).encoded_len();
        let Lending { buffer, used } = perhaps_damaged(random, &program.encode());
        let mut out = output(random, wanted.min(16_384));
        seen.one(translate(&buffer, used, &mut out).number);
    });
    seen.assert_at_least(&[
        (0, 5_000),
        (1, 2_000),
        (2, 500),
        (3, 100),
        (4, 500),
        (5, 50),
        (10, 5_000),
        (15, 50),
    ]);
}

/// Back from the term to the program, from terms of every sort.
#[test]
fn generated_terms_read_back() {
    let seen = Rows::default();
    cases(40_000, |random| {
        let (term, wanted) = if random.one_in(2) {
            let program = translatable_program(random);
            (translation_of(&program), program.encoded_len())
        } else {
            (sound_term(random), 40)
        };
        let Lending { buffer, used } = perhaps_damaged(random, &term.encode());
        let mut out = output(random, wanted);
        seen.one(read_back(&buffer, used, &mut out).number);
    });
    seen.assert_at_least(&[
        (0, 4_000),
        (1, 2_000),
        (2, 500),
        (3, 100),
        (4, 500),
        (5, 50),
        (15, 50),
    ]);
    seen.assert_at_least(&[(9, 4_000), (10, 3_000)]);
}

/// Stores into terms of every sort, closed ones among them: there nothing changes but the bytes
/// behind. A second time nothing changes at all, and nothing is replaced.
#[test]
fn stores_substituted_into_generated_terms() {
    let seen = Rows::default();
    // Refused, so with a count of 0; accepted, and nothing was replaced; something was.
    let replaced = Counts::<3>::default();
    cases(40_000, |random| {
        let term = sound_term(random);
        let Lending { mut buffer, used } = perhaps_damaged(random, &term.encode());
        let values = lent_store(random, term.header);
        let written = substitute(&mut buffer, used, &values);
        seen.one(written.number);
        replaced.one(usize::from(written.number == 0) + usize::from(written.replaced > 0));
        if written.number == 0 {
            let once = buffer.clone();
            let header = TermRecord::decode(&buffer[..used]).expect("a term").header;
            let again = substitute(&mut buffer, used, &store(random, header));
            assert_eq!((&buffer, again.replaced), (&once, 0));
        }
    });
    seen.assert_at_least(&[
        (0, 10_000),
        (1, 2_000),
        (2, 500),
        (3, 100),
        (4, 500),
        (5, 50),
        (15, 50),
    ]);
    seen.assert_at_least(&[(6, 2_000), (16, 1_000)]);
    replaced.assert_at_least([5_000, 5_000, 10_000]);
}

/// Results of terms of every sort: finished ones, open tuples, unfinished closed terms and others. What the
/// store held before may be above the ceiling: it is not read.
#[test]
fn results_of_generated_terms() {
    let (seen, above) = (Rows::default(), Counts::<1>::default());
    cases(40_000, |random| {
        let term = if random.one_in(2) {
            tuple(random)
        } else {
            sound_term(random)
        };
        let Lending { buffer, used } = perhaps_damaged(random, &term.encode());
        let mut values = lent_store(random, term.header);
        let held_above = values.iter().any(|value| *value > term.header.ceiling());
        let number = result(&buffer, used, &mut values);
        seen.one(number);
        above.add(0, u32::from(held_above && number == 0));
    });
    seen.assert_at_least(&[
        (0, 5_000),
        (1, 2_000),
        (2, 500),
        (3, 100),
        (4, 500),
        (5, 50),
        (15, 50),
    ]);
    seen.assert_at_least(&[(6, 2_000), (7, 5_000), (8, 1_000)]);
    above.assert_at_least([200]);
}

/// A tuple of numerals, at any place of it perhaps a variable.
fn tuple(random: &mut Random) -> TermRecord {
    let k = 1 + random.below(16) as u32;
    let values = store(random, Header::first(k));
    let mut atoms: Vec<Atom> = values.into_iter().map(Atom::Numeral).collect();
    if random.one_in(3) {
        let place = random.below(atoms.len());
        atoms[place] = Atom::Variable(1 + random.below(k as usize) as u32);
    }
    let term = Term::Tuple(atoms);
    term_in_any_edition(random, TermRecord::new(k, term), 16_384)
}

/// Each byte of each sample at each of its 256 values, through every call that takes such a record.
#[test]
fn every_byte_at_every_value() {
    let seen = Rows::default();
    for bytes in sample_programs() {
        each_change(&bytes, |changed| {
            let mut out = [0x5A; 250];
            seen.one(translate(changed, changed.len(), &mut out).number);
        });
    }
    for bytes in sample_terms() {
        let k = u32::from(bytes[4]) as usize;
        each_change(&bytes, |changed| {
            let mut out = [0x5A; 70];
            seen.one(read_back(changed, changed.len(), &mut out).number);
            let values = [7, 0, u32::MAX, 20];
            let mut filled = lend(changed, changed.len() + 3);
            substitute(&mut filled, changed.len(), &values[..k]);
            let number = result(changed, changed.len(), &mut [1; 4][..k]);
            seen.one(number);
        });
    }
    seen.assert_at_least(&[
        (0, 2_000),
        (2, 5_000),
        (3, 5_000),
        (4, 50_000),
        (5, 50_000),
        (15, 500),
    ]);
    seen.assert_at_least(&[(7, 4_000), (8, 2_000), (9, 5_000), (10, 10)]);
}

fn each_change(bytes: &[u8], test: impl Fn(&[u8])) {
    for place in 0..bytes.len() {
        let mut changed = bytes.to_vec();
        for value in 0..=255 {
            changed[place] = value;
            test(&changed);
        }
    }
}

/// Terms that are longer than 16 bits can say, of every k and of many lengths: among them are some
/// whose length would fit if it were cut to 16 bits. A row of n empty blocks at k is 12 + 4·n bytes,
/// and its term 8 + (8 + 8·k)·n + 4 + 8·k; in edition 2 each has 4 more.
#[test]
fn terms_of_more_than_65535_bytes() {
    let would_fit = Counts::<1>::default();
    with_big_stack(|| {
        for k in 1..=16 {
            for blocks in (65_536 / (8 + 8 * k)..4_093).step_by(101) {
                let len = 12 + (8 + 8 * k) * blocks + 8 * k;
                let first = row_of_blocks(k as u32, blocks);
                for (program, len) in [(first.clone(), len), (first.under(0), len + 4)] {
                    let record = program.encode();
                    let mut out = vec![0x5A; 16_384];
                    let written = translate(&record, record.len(), &mut out);
                    assert_eq!(written, Written::refused(Refusal::OutputTooShort));
                    would_fit.add(0, u32::from(len % 65_536 <= out.len()));
                }
            }
        }
    });
    would_fit.assert_at_least([100]);
}

/// The way round through the library alone: program, term, program again, for programs of up to
/// the greatest length whose term can be lent.
#[test]
fn there_and_back() {
    cases(5_000, |random| {
        let program = translatable_program(random);
        let source = program.encode();
        let Lending { buffer, .. } = lending(random, &source);
        let mut term = vec![0x5A; 16_384];
        let there = translate(&buffer, source.len(), &mut term);
        let mut again = vec![0x5A; source.len()];
        let back = read_back(&term, there.used as usize, &mut again);
        if buffer.len() <= 16_384 {
            assert_eq!((there.number, back.number), (0, 0));
            assert_eq!(again, source);
        }
    });
}
