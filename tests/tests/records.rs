//! Bytes: encoding and decoding are each other's inverse, and their lengths are as measured.

use other::check;
use other::codec::{hex, Record};
use other::examples::{nest_of_blocks, row_of_blocks};
use other::generate::programs::{program, store, store_above};
use other::generate::raw::Raw;
use other::generate::terms::{any_term, closed_term, translation, SHORTEST};
use other::random::{cases, Counts, Random};
use other::tree::{
    with_big_stack, Atom, Bound, Command, Edition, Expr, Program, Simple, Term, TermRecord,
};

/// One record of each kind, byte by byte from 01's table. ADD has no literal, no minus one and no
/// block inside; this has.
#[test]
fn a_program_with_the_other_kinds() {
    let block = vec![
        Command::Block(vec![Command::Assign(1, Expr::Literal(0x0403_0201))]),
        Command::Loop(2, Bound::Literal(513), vec![]),
        Command::Assign(2, Expr::MinusOne(1)),
    ];
    let program = Program::new(2, block);
    let bytes = [
        0x44, 0, 7, 0, 2, 0, 0, 0, 0x3C, 0, 1, 0, // header, block of 60
        0x14, 0, 1, 0, 0x10, 0, 2, 0, 1, 0, 0, 0, // block of 20, assignment to x1
        8, 0, 16, 0, 1, 2, 3, 4, // literal
        0x14, 0, 3, 0, 2, 0, 0, 0, 8, 0, 16, 0, 1, 2, 0, 0, 4, 0, 1, 0, // loop
        0x10, 0, 2, 0, 2, 0, 0, 0, 8, 0, 19, 0, 1, 0, 0, 0, // assignment, minus one
    ];
    assert_eq!(hex(&program.encode()), hex(&bytes));
    assert_eq!(Program::decode(&bytes), Some(program));
}

#[test]
fn a_term_with_every_kind() {
    let tuple = || vec![Atom::Numeral(513)];
    let rec = Term::Rec(
        1,
        Atom::Variable(1),
        tuple(),
        Box::new(Term::Tuple(tuple())),
    );
    let pred = Simple::Pred(Atom::Numeral(3));
    let last = Term::LetOne(1, pred, Box::new(Term::Tuple(tuple())));
    let inner = Term::LetAll(Box::new(rec), Box::new(last));
    let succ = Simple::Succ(Atom::Variable(1));
    let term = TermRecord::new(1, Term::LetOne(1, succ, Box::new(inner)));
    let bytes = [
        0x68, 0, 40, 0, 1, 0, 0, 0, // header of 104
        0x60, 0, 37, 0, 1, 0, 0, 0, 12, 0, 34, 0, 8, 0, 33, 0, 1, 0, 0,
        0, // let-one of 96, succ
        0x4C, 0, 38, 0, // let-all of 76
        0x28, 0, 39, 0, 1, 0, 0, 0, 8, 0, 33, 0, 1, 0, 0, 0, // rec of 40, count
        12, 0, 36, 0, 8, 0, 32, 0, 1, 2, 0, 0, // start tuple
        12, 0, 36, 0, 8, 0, 32, 0, 1, 2, 0, 0, // body
        0x20, 0, 37, 0, 1, 0, 0, 0, 12, 0, 35, 0, 8, 0, 32, 0, 3, 0, 0,
        0, // let-one of 32, pred
        12, 0, 36, 0, 8, 0, 32, 0, 1, 2, 0, 0,
    ];
    assert_eq!(hex(&term.encode()), hex(&bytes));
    assert_eq!(TermRecord::decode(&bytes), Some(term));
}

/// Edition 2 (02, C-17): the ceiling takes 4 bytes behind k, lower byte first, the kind is 9 or 41, and
/// nothing else is other than in edition 1.
#[test]
fn a_header_with_a_ceiling() {
    let assign = Command::Assign(1, Expr::Literal(5));
    let program = Program::new(2, vec![assign]).under(0x0403_0201);
    let bytes = [
        0x20, 0, 9, 0, 2, 0, 0, 0, 1, 2, 3, 4, // header of 32: k = 2, the ceiling
        0x14, 0, 1, 0, 0x10, 0, 2, 0, 1, 0, 0, 0, // block of 20, assignment to x1
        8, 0, 16, 0, 5, 0, 0, 0, // literal
    ];
    assert_eq!(hex(&program.encode()), hex(&bytes));
    assert_eq!(Program::decode(&bytes), Some(program));
    let tuple = Term::Tuple(vec![Atom::Numeral(5), Atom::Variable(2)]);
    let term = TermRecord::new(2, tuple).under(0xFFFF_FFFE);
    let bytes = [
        0x20, 0, 41, 0, 2, 0, 0, 0, 0xFE, 0xFF, 0xFF, 0xFF, // header of 32
        0x14, 0, 36, 0, 8, 0, 32, 0, 5, 0, 0, 0, // tuple of 20, numeral
        8, 0, 33, 0, 2, 0, 0, 0, // variable
    ];
    assert_eq!(hex(&term.encode()), hex(&bytes));
    assert_eq!(TermRecord::decode(&bytes), Some(term));
}

/// A sound record comes back from its bytes, is as long as measured and passes all rows.
fn round_trip<R: Record + PartialEq + std::fmt::Debug>(record: &R) {
    let bytes = record.encode();
    assert_eq!(bytes.len(), record.encoded_len());
    assert_eq!(R::decode(&bytes).as_ref(), Some(record), "{}", hex(&bytes));
    let checked = check::lent_within::<R>(&bytes, bytes.len());
    assert_eq!(checked.as_ref(), Ok(record));
    assert_eq!(Raw::read(&bytes).write(), bytes);
}

fn size(random: &mut Random, least: usize) -> usize {
    let most = *random.pick(&[50, 200, 200, 1_000, 4_000]);
    least + random.below(most)
}

#[test]
fn generated_programs_round_trip() {
    cases(4_000, |random| {
        let limit = size(random, 12);
        let program = program(random, limit);
        assert!(program.encoded_len() <= limit);
        round_trip(&program);
    });
}

#[test]
fn generated_terms_round_trip() {
    cases(4_000, |random| {
        let limit = size(random, SHORTEST);
        let record = match random.below(3) {
            0 => translation(random, limit).1,
            1 => closed_term(random, limit),
            _ => any_term(random, limit),
        };
        assert!(record.encoded_len() <= limit);
        round_trip(&record);
    });
}

#[test]
fn the_largest_records_round_trip() {
    with_big_stack(|| {
        round_trip(&row_of_blocks(16, 4_093));
        round_trip(&nest_of_blocks(16, 4_093));
        // A header of 12 bytes leaves room for one block less.
        round_trip(&row_of_blocks(16, 4_092).under(0));
        assert_eq!(row_of_blocks(16, 4_092).under(0).encoded_len(), 16_384);
        // 1,022 let-ones of 16 bytes, a header of 8 and a tuple of 12: 16,372.
        let end = Term::Tuple(vec![Atom::Variable(1)]);
        let one = || Simple::Atom(Atom::Numeral(7));
        let term = (0..1_022).fold(end, |last, _| Term::LetOne(1, one(), Box::new(last)));
        let record = TermRecord::new(1, term);
        assert_eq!(record.encoded_len(), 16_372);
        round_trip(&record);
    });
}

/// The generators are of use only if they make all that they promise.
#[test]
fn generators_make_every_k_and_large_and_deep_programs() {
    with_big_stack(|| {
        let mut random = Random::new(1);
        let made: Vec<Program> = (0..400).map(|_| program(&mut random, 16_384)).collect();
        for k in 1..=16 {
            assert!(made.iter().any(|program| program.header.k == k), "k = {k}");
        }
        let long = made.iter().filter(|p| p.encoded_len() > 16_300).count();
        let empty = made.iter().filter(|p| p.block.is_empty()).count();
        let deep = made.iter().filter(|p| depth(&p.block) > 500).count();
        assert!(
            long > 20 && empty > 20 && deep > 20,
            "{long} {empty} {deep}"
        );
        let own_bound =
            |c: &Command| matches!(c, Command::Loop(i, Bound::Variable(b), _) if i == b);
        assert!(made.iter().any(|p| p.block.iter().any(own_bound)));
    });
}

/// Both editions, and in the second ceilings of every sort: 0, small ones, the two largest, a literal or
/// numeral that occurs; among the records of each sort those that have such values.
#[test]
fn generators_make_ceilings_of_every_sort() {
    let (programs, terms) = (Counts::<8>::default(), Counts::<8>::default());
    cases(4_000, |random| {
        let made = program(random, 200);
        see(&made, &programs);
        see(&any_term(random, SHORTEST + 100), &terms);
    });
    for seen in [programs, terms] {
        seen.assert_at_least([1_000, 1_000, 100, 200, 100, 100, 300, 500]);
    }
}

fn see<R: Record>(record: &R, seen: &Counts<8>) {
    let Edition::Second(ceiling) = record.header().edition else {
        return seen.one(0);
    };
    let literals = record.literals();
    let sorts = [
        true,
        ceiling == 0,
        (1..10).contains(&ceiling),
        ceiling == u32::MAX - 1,
        ceiling == u32::MAX,
        literals.contains(&ceiling),
        literals.iter().any(|value| *value > 0),
    ];
    for (sort, met) in sorts.into_iter().enumerate() {
        seen.add(1 + sort, u32::from(met));
    }
}

/// Stores at the ceiling, one below it, and one above where they are to be refused.
#[test]
fn generators_make_stores_about_the_ceiling() {
    let seen = Counts::<4>::default();
    cases(4_000, |random| {
        let header = program(random, 200).header;
        let ceiling = header.ceiling();
        let within = store(random, header);
        assert!(within.len() == header.k as usize);
        assert!(within.iter().all(|value| *value <= ceiling));
        seen.add(0, u32::from(within.contains(&ceiling)));
        let below = ceiling.checked_sub(1);
        seen.add(
            1,
            u32::from(below.is_some_and(|below| within.contains(&below))),
        );
        if let Some(above) = store_above(random, header) {
            assert!(above.len() == header.k as usize);
            assert!(above.iter().any(|value| *value > ceiling));
            seen.add(2, u32::from(above.contains(&(ceiling + 1))));
            seen.one(3);
        }
    });
    seen.assert_at_least([1_000, 1_000, 500, 1_000]);
}

fn depth(block: &[Command]) -> usize {
    let inner = block.iter().map(|command| match command {
        Command::Assign(..) => 0,
        Command::Loop(_, _, body) => depth(body),
        Command::Block(block) => depth(block),
    });
    1 + inner.max().unwrap_or(0)
}
