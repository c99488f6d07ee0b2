//! Ceilings (02, C-17): records put into edition 2, and values at the ceiling and above it.

use crate::codec::Record;
use crate::generate::programs::value;
use crate::random::Random;
use crate::tree::{
    Atom, Block, Bound, Command, Edition, Expr, Header, Program, Term, TermRecord, Value,
};

/// The program as it is, of edition 1, or in edition 2, if its record then has at most `limit` bytes.
pub fn program_in_any_edition(random: &mut Random, mut program: Program, limit: usize) -> Program {
    if let Some(ceiling) = chosen(random, &program, limit) {
        each_literal(&mut program.block, &mut |value| {
            lower(random, value, ceiling)
        });
        program.header.edition = Edition::Second(ceiling);
    }
    program
}

/// The same of a term.
pub fn term_in_any_edition(
    random: &mut Random,
    mut record: TermRecord,
    limit: usize,
) -> TermRecord {
    if let Some(ceiling) = chosen(random, &record, limit) {
        each_numeral(&mut record.term, &mut |value| lower(random, value, ceiling));
        record.header.edition = Edition::Second(ceiling);
    }
    record
}

/// In one of two cases a ceiling: often a literal or numeral that occurs, else 0, a small one, one of the two
/// largest, or any.
fn chosen<R: Record>(random: &mut Random, record: &R, limit: usize) -> Option<Value> {
    if random.one_in(2) || record.encoded_len() + 4 > limit {
        return None;
    }
    let literals = record.literals();
    Some(match random.below(10) {
        0 => 0,
        1 => Value::MAX,
        2 => Value::MAX - 1,
        3 => random.word(),
        4 => random.below(300) as Value,
        5..=7 if !literals.is_empty() => *random.pick(&literals),
        _ => 1 + random.below(9) as Value,
    })
}

/// No value above the ceiling: one that is becomes the ceiling, or one of the few below it.
fn lower(random: &mut Random, value: &mut Value, ceiling: Value) {
    if *value > ceiling {
        *value = about(random, ceiling);
    }
}

/// The ceiling, or one of the few below it.
fn about(random: &mut Random, ceiling: Value) -> Value {
    ceiling.saturating_sub(*random.pick(&[0, 0, 1, 2]))
}

/// A value of a store for a record with this header, within its ceiling.
pub fn value_within(random: &mut Random, header: Header) -> Value {
    let mut any = value(random);
    if let Edition::Second(ceiling) = header.edition {
        if random.one_in(3) {
            return about(random, ceiling);
        }
        lower(random, &mut any, ceiling);
    }
    any
}

/// A value above the header's ceiling, often by one, if there is any.
pub fn value_above(random: &mut Random, header: Header) -> Option<Value> {
    let least = header.ceiling().checked_add(1)?;
    Some(match random.below(4) {
        0 => Value::MAX,
        1 => random.word().max(least),
        _ => least,
    })
}

fn each_literal(block: &mut Block, change: &mut dyn FnMut(&mut Value)) {
    for command in block {
        match command {
            Command::Assign(_, Expr::Literal(value)) => change(value),
            Command::Assign(..) => (),
            Command::Loop(_, bound, body) => {
                if let Bound::Literal(value) = bound {
                    change(value);
                }
                each_literal(body, change);
            }
            Command::Block(inner) => each_literal(inner, change),
        }
    }
}

fn each_numeral(term: &mut Term, change: &mut dyn FnMut(&mut Value)) {
    match term {
        Term::Tuple(atoms) => atoms.iter_mut().for_each(|atom| numeral(atom, change)),
        Term::LetOne(_, simple, last) => {
            numeral(simple.atom_mut(), change);
            each_numeral(last, change);
        }
        Term::LetAll(first, last) => {
            each_numeral(first, change);
            each_numeral(last, change);
        }
        Term::Rec(_, count, start, body) => {
            numeral(count, change);
            start.iter_mut().for_each(|atom| numeral(atom, change));
            each_numeral(body, change);
        }
    }
}

fn numeral(atom: &mut Atom, change: &mut dyn FnMut(&mut Value)) {
    if let Atom::Numeral(value) = atom {
        change(value);
    }
}
