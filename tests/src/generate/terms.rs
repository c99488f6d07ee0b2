//! Terms: translations, closed terms of any shape, open ones, and terms no program translates to.

use std::collections::BTreeSet;

use crate::check::BUFFER_LIMIT;
use crate::codec::Record;
use crate::generate::ceilings::term_in_any_edition;
use crate::generate::programs::{number_of_variables, program, shaped_block, value, variable};
use crate::random::Random;
use crate::translate::{all, block as translate_block, translate};
use crate::tree::{Atom, Program, Simple, Term, TermRecord, Variable};

/// Long enough for the shortest term at k = 16: a header of 8 bytes, as edition 1 has it, and a tuple of
/// 4 + 8·16.
pub const SHORTEST: usize = 140;

/// A program whose translation is at most `limit` bytes long, and that translation.
pub fn translation(random: &mut Random, limit: usize) -> (Program, TermRecord) {
    let mut room = limit;
    loop {
        let program = program(random, room.max(crate::generate::programs::SHORTEST));
        let term = translate(&program);
        if term.encoded_len() <= limit {
            return (program, term);
        }
        room /= 2;
    }
}

/// A closed term of the grammar; only seldom a translation.
pub fn closed_term(random: &mut Random, limit: usize) -> TermRecord {
    grammatical(random, limit, |_| BTreeSet::new())
}

/// A term of the grammar with variables anywhere, so in most cases an open one.
pub fn any_term(random: &mut Random, limit: usize) -> TermRecord {
    grammatical(random, limit, every_variable)
}

fn grammatical(
    random: &mut Random,
    limit: usize,
    scope: fn(u32) -> BTreeSet<Variable>,
) -> TermRecord {
    let k = number_of_variables(random);
    let term = term(random, k, limit - 8, &scope(k));
    term_in_any_edition(random, TermRecord::new(k, term), limit)
}

fn every_variable(k: u32) -> BTreeSet<Variable> {
    (1..=k).collect()
}

/// A term of at most `room` bytes whose free variables are all among `scope`.
fn term(random: &mut Random, k: u32, room: usize, scope: &BTreeSet<Variable>) -> Term {
    let tuple = 4 + 8 * k as usize;
    match random.below(12) {
        0..=4 if room >= 20 + tuple => {
            let variable = variable(random, k);
            let simple = simple(random, scope);
            let mut inside = scope.clone();
            inside.insert(variable);
            let last = term(random, k, room - 20, &inside);
            Term::LetOne(variable, simple, Box::new(last))
        }
        5..=7 if room >= 4 + 2 * tuple => {
            let first_room = tuple + random.below(room - 4 - 2 * tuple + 1);
            let first = term(random, k, first_room, scope);
            let last = term(random, k, room - 4 - first_room, &every_variable(k));
            Term::LetAll(Box::new(first), Box::new(last))
        }
        8..=10 if room >= 16 + 2 * tuple => {
            let body = term(random, k, room - 16 - tuple, &every_variable(k));
            let (index, count) = (variable(random, k), count(random, scope));
            Term::Rec(index, count, atoms(random, k, scope), Box::new(body))
        }
        _ => Term::Tuple(atoms(random, k, scope)),
    }
}

fn atoms(random: &mut Random, k: u32, scope: &BTreeSet<Variable>) -> Vec<Atom> {
    (0..k).map(|_| atom(random, scope)).collect()
}

fn atom(random: &mut Random, scope: &BTreeSet<Variable>) -> Atom {
    if scope.is_empty() || random.one_in(3) {
        return Atom::Numeral(value(random));
    }
    let place = random.below(scope.len());
    let found = scope.iter().nth(place);
    Atom::Variable(*found.expect("a place within the scope"))
}

/// Mostly few turns, so that the reduction of most terms ends.
fn count(random: &mut Random, scope: &BTreeSet<Variable>) -> Atom {
    match atom(random, scope) {
        Atom::Numeral(_) if !random.one_in(4) => Atom::Numeral(random.below(4) as u32),
        any => any,
    }
}

fn simple(random: &mut Random, scope: &BTreeSet<Variable>) -> Simple {
    let atom = atom(random, scope);
    match random.below(3) {
        0 => Simple::Atom(atom),
        1 => Simple::Succ(atom),
        _ => Simple::Pred(atom),
    }
}

/// A sound term that no program translates to (01, row 9).
///
/// It is one flaw, in surroundings that a translation may have: each part of a translation is a
/// translation again, so one flaw anywhere is enough.
pub fn no_translation(random: &mut Random) -> TermRecord {
    let k = number_of_variables(random);
    let mut term = flaw(random, k);
    // A rec alone is a flaw only where it is not the first term of a let-all.
    if matches!(term, Term::Rec(..)) {
        term = rec_out_of_place(random, k, term);
    }
    for _ in 0..random.below(4) {
        if !matches!(term, Term::Rec(..)) {
            term = surround(random, k, term);
        }
    }
    term_in_any_edition(random, TermRecord::new(k, term), BUFFER_LIMIT)
}

fn part(random: &mut Random, k: u32) -> Box<Term> {
    Box::new(translate_block(k, &shaped_block(random, k, 60)))
}

fn rec(random: &mut Random, k: u32, start: Vec<Atom>, body: Box<Term>) -> Term {
    let count = atom(random, &every_variable(k));
    Term::Rec(variable(random, k), count, start, body)
}

fn flaw(random: &mut Random, k: u32) -> Term {
    let rest = part(random, k);
    let numeral = Atom::Numeral(value(random));
    let variable = variable(random, k);
    match random.below(6) {
        0 => rec(random, k, all(k), rest),
        1 => Term::LetOne(variable, Simple::Succ(numeral), rest),
        2 => Term::LetOne(variable, Simple::Pred(numeral), rest),
        3 => Term::Tuple(not_all(random, k)),
        4 => Term::LetAll(Box::new(Term::Tuple(not_all(random, k))), rest),
        _ => {
            let (start, body) = (not_all(random, k), part(random, k));
            Term::LetAll(Box::new(rec(random, k, start, body)), rest)
        }
    }
}

/// Leaves the rec on top, or makes it a last term or a rec's body.
fn rec_out_of_place(random: &mut Random, k: u32, misplaced: Term) -> Term {
    let misplaced = Box::new(misplaced);
    match random.below(4) {
        0 => *misplaced,
        1 => Term::LetAll(part(random, k), misplaced),
        2 => {
            let simple = Simple::Atom(atom(random, &every_variable(k)));
            Term::LetOne(variable(random, k), simple, misplaced)
        }
        _ => {
            let rec = rec(random, k, all(k), misplaced);
            Term::LetAll(Box::new(rec), part(random, k))
        }
    }
}

fn surround(random: &mut Random, k: u32, term: Term) -> Term {
    let term = Box::new(term);
    match random.below(4) {
        0 => {
            let simple = Simple::Succ(Atom::Variable(variable(random, k)));
            Term::LetOne(variable(random, k), simple, term)
        }
        1 => Term::LetAll(term, part(random, k)),
        2 => Term::LetAll(part(random, k), term),
        _ => {
            let rec = rec(random, k, all(k), term);
            Term::LetAll(Box::new(rec), part(random, k))
        }
    }
}

/// k atoms other than all: a numeral, a variable repeated, or two variables exchanged.
fn not_all(random: &mut Random, k: u32) -> Vec<Atom> {
    let mut atoms = all(k);
    let place = random.below(k as usize);
    // With k = 1 there is no second place, and only a numeral can stand in for the variable.
    let other = (place + 1) % k as usize;
    match random.below(3) {
        0 if k > 1 => atoms.swap(place, other),
        1 if k > 1 => atoms[place] = atoms[other],
        _ => atoms[place] = Atom::Numeral(value(random)),
    }
    atoms
}
