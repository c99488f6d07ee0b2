//! One reduction of a closed term (01, "Reducer").

use crate::codec::{term_len, Record};
use crate::run::{plus_one, Answer, Machine};
use crate::substitute::{substitute, values_of, Values};
use crate::tree::{Atom, Simple, Term, TermRecord, Value, Variable};

/// One reduction: what stands in place of the redex, and how many variables it turned into numerals
/// (02, C-13).
pub struct Reduction {
    contracted: Term,
    pub replaced: u32,
}

impl Reduction {
    /// Succ, pred and rec substitute nothing.
    fn without_substitution(contracted: Term) -> Reduction {
        let replaced = 0;
        Reduction {
            contracted,
            replaced,
        }
    }
}

impl Machine for TermRecord {
    type Change = Reduction;

    fn state_len(&self) -> usize {
        self.encoded_len()
    }

    fn next(&self) -> Answer<Reduction> {
        contract(redex(&self.term), self.header.ceiling())
    }

    fn lengths(&self, reduction: &Reduction) -> (usize, usize) {
        let removed = term_len(redex(&self.term));
        (removed, term_len(&reduction.contracted))
    }

    fn apply(&mut self, reduction: Reduction) {
        *redex_mut(&mut self.term) = reduction.contracted;
    }
}

/// The numerals of a finished term, in order from variable 1.
pub fn finished_values(term: &Term) -> Option<Vec<Value>> {
    match term {
        Term::Tuple(atoms) => Some(numerals(atoms)),
        _ => None,
    }
}

fn waits_for_its_first(term: &Term) -> bool {
    matches!(term, Term::LetAll(first, _) if !matches!(**first, Term::Tuple(_)))
}

/// The place of the reduction: a let-all whose first term is no tuple is reduced inside that term.
fn redex(mut term: &Term) -> &Term {
    while waits_for_its_first(term) {
        if let Term::LetAll(first, _) = term {
            term = first;
        }
    }
    term
}

fn redex_mut(term: &mut Term) -> &mut Term {
    if !waits_for_its_first(term) {
        return term;
    }
    match term {
        Term::LetAll(first, _) => redex_mut(first),
        _ => unreachable!("only a let-all waits for its first term"),
    }
}

/// One reduction at its place. A tuple is finished.
fn contract(term: &Term, ceiling: Value) -> Answer<Reduction> {
    match term {
        Term::Tuple(_) => Answer::Finished,
        Term::LetOne(variable, simple, last) => let_one(*variable, simple, last, ceiling),
        Term::LetAll(first, last) => match &**first {
            Term::Tuple(atoms) => Answer::Next(substituted(last, &values_of(&numerals(atoms)))),
            _ => unreachable!("the redex lies deeper"),
        },
        Term::Rec(index, count, start, body) => {
            let unrolled = unroll(*index, numeral(count), start, body);
            Answer::Next(Reduction::without_substitution(unrolled))
        }
    }
}

fn substituted(last: &Term, values: &Values) -> Reduction {
    let mut contracted = last.clone();
    let replaced = substitute(&mut contracted, values);
    Reduction {
        contracted,
        replaced,
    }
}

/// Of a numeral: the last term with that variable substituted. Of succ or pred: that becomes the
/// numeral, which is a reduction of its own.
fn let_one(variable: Variable, simple: &Simple, last: &Term, ceiling: Value) -> Answer<Reduction> {
    let computed = match simple {
        Simple::Atom(atom) => {
            let only = Values::from([(variable, numeral(atom))]);
            return Answer::Next(substituted(last, &only));
        }
        Simple::Succ(atom) => plus_one(numeral(atom), ceiling),
        Simple::Pred(atom) => Some(numeral(atom).saturating_sub(1)),
    };
    match computed {
        None => Answer::Over,
        Some(value) => {
            let simple = Simple::Atom(Atom::Numeral(value));
            let computed = Term::LetOne(variable, simple, Box::new(last.clone()));
            Answer::Next(Reduction::without_substitution(computed))
        }
    }
}

/// Rec of 0 is its start tuple. Rec of q + 1 is let-all of the rec of q, the rest the same, in
/// let-one index = q + 1 in the body.
fn unroll(index: Variable, count: Value, start: &[Atom], body: &Term) -> Term {
    let start = start.to_vec();
    let Some(q) = count.checked_sub(1) else {
        return Term::Tuple(start);
    };
    let body = Box::new(body.clone());
    let earlier = Term::Rec(index, Atom::Numeral(q), start, body.clone());
    let turn = Term::LetOne(index, Simple::Atom(Atom::Numeral(count)), body);
    Term::LetAll(Box::new(earlier), Box::new(turn))
}

fn numerals(atoms: &[Atom]) -> Vec<Value> {
    atoms.iter().map(numeral).collect()
}

/// Where a reduction looks at an atom, nothing encloses it that could bind it.
fn numeral(atom: &Atom) -> Value {
    match atom {
        Atom::Numeral(value) => *value,
        Atom::Variable(_) => panic!("only closed terms are reduced (01, row 7)"),
    }
}
