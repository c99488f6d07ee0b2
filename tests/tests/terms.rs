//! Translation, read-back, substitution and free variables.

use other::both::{read_back, substitute, translate};
use other::calls::{Substituted, Written};
use other::check::Refusal;
use other::codec::{hex, Record};
use other::examples::{add, row_of_blocks};
use other::generate::lend;
use other::generate::programs::{program, store};
use other::generate::raw::Raw;
use other::generate::terms::{any_term, closed_term, no_translation, translation, SHORTEST};
use other::random::{cases, Counts, Random};
use other::read_back::read_back as program_of;
use other::substitute::{closed, free_variables, substitute as substitute_in, values_of};
use other::translate::translate as translation_of;
use other::tree::Atom::{self, Numeral, Variable};
use other::tree::{with_big_stack, Bound, Command, Expr, Program, Simple, Term, TermRecord};

fn tuple(atoms: &[Atom]) -> Term {
    Term::Tuple(atoms.to_vec())
}

fn let_one(variable: u32, simple: Simple, last: Term) -> Term {
    Term::LetOne(variable, simple, Box::new(last))
}

fn let_all(first: Term, last: Term) -> Term {
    Term::LetAll(Box::new(first), Box::new(last))
}

/// Each line of 01's list, on one program: {x1 := 5; x2 := x1; {x1 := x2 + 1}; for x2 := 1 to x1
/// {x1 := x1 − 1}; {}}
#[test]
fn each_rule_of_the_translation() {
    let inside = vec![Command::Assign(1, Expr::PlusOne(2))];
    let body = vec![Command::Assign(1, Expr::MinusOne(1))];
    let block = vec![
        Command::Assign(1, Expr::Literal(5)),
        Command::Assign(2, Expr::Variable(1)),
        Command::Block(inside),
        Command::Loop(2, Bound::Variable(1), body),
        Command::Block(vec![]),
    ];
    let all = || tuple(&[Variable(1), Variable(2)]);
    let rec_body = let_one(1, Simple::Pred(Variable(1)), all());
    let start = vec![Variable(1), Variable(2)];
    let rec = Term::Rec(2, Variable(1), start, Box::new(rec_body));
    let rest = let_all(rec, let_all(all(), all()));
    let rest = let_all(let_one(1, Simple::Succ(Variable(2)), all()), rest);
    let rest = let_one(2, Simple::Atom(Variable(1)), rest);
    let term = let_one(1, Simple::Atom(Numeral(5)), rest);
    let program = Program::new(2, block);
    assert_eq!(translation_of(&program), TermRecord::new(2, term));
}

#[test]
fn read_back_of_a_translation_is_the_program() {
    cases(4_000, |random| {
        let most = *random.pick(&[60, 400, 3_000]);
        let limit = 12 + random.below(most);
        let program = program(random, limit);
        let term = translation_of(&program);
        assert_eq!(term.header, program.header);
        assert_eq!(program_of(&term), Some(program));
    });
}

/// Over bytes: both outputs are exact, zero behind, and refused one byte short of their length.
#[test]
fn translate_and_read_back_over_bytes() {
    cases(2_000, |random| {
        let limit = SHORTEST + random.below(2_000);
        let (program, term) = translation(random, limit);
        let (source, wanted) = (program.encode(), term.encode());
        let lent = lend(&source, source.len() + random.below(9));
        fits_exactly(random, &wanted, |out| translate(&lent, source.len(), out));
        let lent = lend(&wanted, wanted.len() + random.below(9));
        fits_exactly(random, &source, |out| read_back(&lent, wanted.len(), out));
    });
}

fn fits_exactly(random: &mut Random, wanted: &[u8], call: impl Fn(&mut [u8]) -> Written) {
    let used = wanted.len() as u32;
    let mut short = vec![0xA5; wanted.len() - 1];
    assert_eq!(call(&mut short), Written::refused(Refusal::OutputTooShort));
    assert!(short.iter().all(|byte| *byte == 0xA5));
    let mut out = vec![0xA5; wanted.len() + random.below(30)];
    assert_eq!(call(&mut out), Written { number: 0, used });
    assert_eq!(out[..wanted.len()], *wanted);
    assert!(out[wanted.len()..].iter().all(|byte| *byte == 0));
}

/// One term of each shape that the rules of translation never give, at k = 2.
#[test]
fn terms_that_no_program_translates_to() {
    let all = || tuple(&[Variable(1), Variable(2)]);
    let start = || vec![Variable(1), Variable(2)];
    let rec = |body| Term::Rec(1, Variable(2), start(), Box::new(body));
    let other_start = |start: [Atom; 2]| Term::Rec(1, Variable(2), start.to_vec(), Box::new(all()));
    let refused = [
        rec(all()),
        let_one(1, Simple::Atom(Variable(2)), rec(all())),
        let_all(all(), rec(all())),
        let_all(rec(rec(all())), all()),
        let_one(1, Simple::Succ(Numeral(3)), all()),
        let_one(1, Simple::Pred(Numeral(0)), all()),
        tuple(&[Variable(2), Variable(1)]),
        tuple(&[Variable(1), Variable(1)]),
        tuple(&[Variable(1), Numeral(2)]),
        let_all(tuple(&[Numeral(1), Numeral(2)]), all()),
        let_all(other_start([Variable(2), Variable(1)]), all()),
        let_all(other_start([Numeral(0), Variable(2)]), all()),
    ];
    for term in refused {
        let record = TermRecord::new(2, term).encode();
        let mut out = [0xA5; 100];
        let written = read_back(&record, record.len(), &mut out);
        assert_eq!(
            written,
            Written::refused(Refusal::NoProgram),
            "{}",
            hex(&record)
        );
        assert_eq!(out, [0xA5; 100]);
        // 9 comes before 10, and after 1.
        assert_eq!(
            read_back(&record, record.len(), &mut []).number,
            Refusal::NoProgram.number()
        );
        assert_eq!(
            read_back(&record, record.len(), &mut vec![0; 16_385]).number,
            Refusal::BadBuffer.number()
        );
    }
    let read = let_all(rec(all()), all());
    assert!(program_of(&TermRecord::new(2, read)).is_some());
}

#[test]
fn generated_terms_that_no_program_translates_to() {
    cases(4_000, |random| {
        let record = no_translation(random).encode();
        let mut out = vec![0xA5; random.below(200)];
        let written = read_back(&record, record.len(), &mut out);
        assert_eq!(
            written,
            Written::refused(Refusal::NoProgram),
            "{}",
            hex(&record)
        );
        assert!(out.iter().all(|byte| *byte == 0xA5));
    });
}

/// Where read-back gives a program for a term of any shape, that program's translation is it.
#[test]
fn what_reads_back_is_a_translation() {
    let read = Counts::<1>::default();
    cases(20_000, |random| {
        let record = any_term(random, SHORTEST + 20);
        if let Some(program) = program_of(&record) {
            assert_eq!(translation_of(&program), record);
            read.one(0);
        }
    });
    read.assert_at_least([20]);
}

/// Row 1 looks at the output buffer, and before row 2 looks at the source.
#[test]
fn the_output_buffer_is_looked_at_first() {
    let source = add().encode();
    let mut out = vec![0xA5; 16_385];
    assert_eq!(
        translate(&source, 64, &mut out).number,
        Refusal::BadBuffer.number()
    );
    assert_eq!(
        translate(&source, 63, &mut out).number,
        Refusal::BadBuffer.number()
    );
    assert_eq!(
        read_back(&source, 64, &mut out).number,
        Refusal::BadBuffer.number()
    );
    assert_eq!(
        translate(&source, 63, &mut out[..16_384]).number,
        Refusal::BadHeader.number()
    );
    assert!(out.iter().all(|byte| *byte == 0xA5));
    assert_eq!(
        translate(&source, 64, &mut out[..171]).number,
        Refusal::OutputTooShort.number()
    );
    assert_eq!(
        translate(&source, 64, &mut []).number,
        Refusal::OutputTooShort.number()
    );
    let written = translate(&source, 64, &mut out[..16_384]);
    assert_eq!(
        written,
        Written {
            number: 0,
            used: 172
        }
    );
    assert!(out[172..16_384].iter().all(|byte| *byte == 0));
    assert_eq!(out[16_384], 0xA5);
}

/// 119 empty blocks at k = 16 are 8 + 136·119 + 132 = 16,324 bytes as a term; 120 are 16,460.
#[test]
fn the_longest_answer_is_16384_bytes() {
    let mut out = vec![0; 16_384];
    let source = row_of_blocks(16, 119).encode();
    let written = translate(&source, source.len(), &mut out);
    assert_eq!(
        written,
        Written {
            number: 0,
            used: 16_324
        }
    );
    let source = row_of_blocks(16, 120).encode();
    assert_eq!(
        translate(&source, source.len(), &mut out).number,
        Refusal::OutputTooShort.number()
    );
}

/// Every place of 01's "Filling", at k = 2 with x1 = 5 and x2 = 6: let-one's own part is open and
/// its last term only for the other variable; let-all's last term and rec's body are closed to it;
/// rec's count and start tuple are open. Replaced are pred's x1, the count's x2 and the start's x2.
#[test]
fn each_binding_rule_of_substitution() {
    let both = |a, b| tuple(&[a, b]);
    let rec = |count, start: [Atom; 2]| {
        let body = let_one(2, Simple::Succ(Variable(1)), both(Variable(2), Variable(1)));
        Term::Rec(1, count, start.to_vec(), Box::new(body))
    };
    let open = let_one(
        1,
        Simple::Pred(Variable(1)),
        let_all(
            rec(Variable(2), [Variable(1), Variable(2)]),
            let_one(2, Simple::Atom(Variable(1)), both(Variable(1), Variable(2))),
        ),
    );
    let substituted = let_one(
        1,
        Simple::Pred(Numeral(5)),
        let_all(
            rec(Numeral(6), [Variable(1), Numeral(6)]),
            let_one(2, Simple::Atom(Variable(1)), both(Variable(1), Variable(2))),
        ),
    );
    let encoded = |term| TermRecord::new(2, term).encode();
    let (record, wanted) = (encoded(open), encoded(substituted));
    let mut buffer = lend(&record, record.len() + 5);
    let written = substitute(&mut buffer, record.len(), &[5, 6]);
    assert_eq!((written.number, written.used as usize), (0, record.len()));
    assert_eq!(written.replaced, 3);
    assert_eq!(buffer[..wanted.len()], wanted);
    assert_eq!(buffer[wanted.len()..], [0; 5]);
}

/// No length changes, what is left is closed, and substituting again changes nothing but still
/// clears the bytes behind. Every field that is not a substituted atom stays as it was, and the
/// substituted atoms are as many as the call says.
#[test]
fn substitution_changes_no_length_and_closes() {
    let seen = Counts::<2>::default();
    cases(4_000, |random| {
        let limit = SHORTEST + random.below(600);
        let record = any_term(random, limit);
        let values = store(random, record.header);
        let bytes = record.encode();
        let mut buffer = lend(&bytes, bytes.len() + random.below(20));
        let used = bytes.len() as u32;
        let answer = |replaced| Substituted {
            number: 0,
            used,
            replaced,
        };
        let written = substitute(&mut buffer, bytes.len(), &values);
        let substituted = TermRecord::decode(&buffer[..bytes.len()]).expect("a term");
        assert!(closed(&substituted.term), "{}", hex(&bytes));
        assert!(buffer[bytes.len()..].iter().all(|byte| *byte == 0));
        let replaced = same_but_for_atoms(
            &Raw::read(&bytes),
            &Raw::read(&buffer[..bytes.len()]),
            &values,
        );
        assert_eq!(written, answer(replaced), "{}", hex(&bytes));
        seen.one(usize::from(replaced > 0));

        let mut again = lend(&buffer[..bytes.len()], buffer.len());
        let written = substitute(&mut again, bytes.len(), &values);
        assert_eq!((written, &again), (answer(0), &buffer));
    });
    seen.assert_at_least([100, 2_000]);
}

/// Gives how many variable records (kind 33) are numerals now (kind 32).
fn same_but_for_atoms(open: &Raw, substituted: &Raw, values: &[u32]) -> u32 {
    if open.kind == 33 && substituted.kind == 32 {
        assert_eq!(substituted.words, [values[open.words[0] as usize - 1]]);
        return 1;
    }
    assert_eq!(
        (open.kind, &open.words),
        (substituted.kind, &substituted.words)
    );
    assert_eq!(open.children.len(), substituted.children.len());
    let children = open.children.iter().zip(&substituted.children);
    children
        .map(|(open, substituted)| same_but_for_atoms(open, substituted, values))
        .sum()
}

/// Row 6 comes after 5, and a store of k values is asked for, no other number.
#[test]
fn substitution_wants_k_values() {
    let record = translation_of(&add()).encode();
    for len in (0..=17).filter(|len| *len != 4) {
        let mut buffer = lend(&record, 200);
        let written = substitute(&mut buffer, 172, &vec![1; len]);
        assert_eq!(written, Substituted::refused(Refusal::BadStore));
        assert_eq!(buffer, lend(&record, 200));
    }
    let mut buffer = record.clone();
    buffer[12] = 5; // let-one of x5
    assert_eq!(
        substitute(&mut buffer, 172, &[]).number,
        Refusal::BadVariable.number()
    );
}

/// A let-one binds in its last term only; a let-all and a rec bind everything.
#[test]
fn free_variables_by_hand() {
    let both = || tuple(&[Variable(1), Variable(2)]);
    let closed_pair = || tuple(&[Numeral(1), Numeral(2)]);
    let rec = |count, start: [Atom; 2]| Term::Rec(1, count, start.to_vec(), Box::new(both()));
    let zero = Numeral(0);
    let terms = [
        (both(), vec![1, 2]),
        (closed_pair(), vec![]),
        (let_one(1, Simple::Atom(zero), both()), vec![2]),
        (let_one(1, Simple::Succ(Variable(1)), both()), vec![1, 2]),
        (
            let_one(2, Simple::Pred(Variable(1)), closed_pair()),
            vec![1],
        ),
        (let_all(closed_pair(), both()), vec![]),
        (let_all(both(), closed_pair()), vec![1, 2]),
        (rec(zero, [zero, zero]), vec![]),
        (rec(Variable(2), [zero, zero]), vec![2]),
        (rec(zero, [zero, Variable(1)]), vec![1]),
    ];
    for (term, free) in terms {
        let found: Vec<u32> = free_variables(&term).into_iter().collect();
        assert_eq!(found, free, "{term:?}");
        assert_eq!(closed(&term), free.is_empty());
    }
}

/// A variable is free exactly where its value matters to a substitution.
#[test]
fn free_variables_are_those_that_substitution_replaces() {
    cases(4_000, |random| {
        let record = match random.below(3) {
            0 => closed_term(random, SHORTEST + 300),
            1 => translation(random, SHORTEST + 300).1,
            _ => any_term(random, SHORTEST + 300),
        };
        let free = free_variables(&record.term);
        for variable in 1..=record.header.k {
            let mut substituted = record.term.clone();
            let mut only = values_of(&store(random, record.header));
            only.retain(|x, _| *x == variable);
            substitute_in(&mut substituted, &only);
            assert_eq!(substituted != record.term, free.contains(&variable));
        }
    });
}

/// What the generator calls closed is so, and the longest translation, not yet substituted, is not:
/// its first let-all is one of all.
#[test]
fn generated_closed_terms_are_closed() {
    cases(2_000, |random| {
        let record = closed_term(random, SHORTEST + 400);
        assert!(closed(&record.term));
    });
    with_big_stack(|| assert!(!closed(&translation_of(&row_of_blocks(16, 4_093)).term)));
}
