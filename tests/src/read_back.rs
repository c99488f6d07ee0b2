//! Terms to the one program that translates to them (01, "Translation and read-back").

use crate::translate::all;
use crate::tree::{Atom, Block, Bound, Command, Expr, Program, Simple, Term, TermRecord};

/// The program whose translation the term is, if there is one (01, row 9, if not). Its header says what
/// the term's does.
pub fn read_back(record: &TermRecord) -> Option<Program> {
    let header = record.header;
    Some(Program {
        header,
        block: block(header.k, &record.term)?,
    })
}

/// Follows the last terms; each let is one command, and the tuple at the end must be all.
fn block(k: u32, term: &Term) -> Option<Block> {
    let mut commands = Vec::new();
    let mut rest = term;
    loop {
        match rest {
            Term::Tuple(atoms) => return (*atoms == all(k)).then_some(commands),
            Term::LetOne(variable, simple, last) => {
                commands.push(Command::Assign(*variable, expr(simple)?));
                rest = last;
            }
            Term::LetAll(first, last) => {
                commands.push(no_assignment(k, first)?);
                rest = last;
            }
            // Nothing translates to a rec by itself: a loop is always the first term of a let-all.
            Term::Rec(..) => return None,
        }
    }
}

/// The first term of a let-all: a rec is a loop, anything else is a block inside.
fn no_assignment(k: u32, term: &Term) -> Option<Command> {
    match term {
        Term::Rec(index, count, start, body) => {
            let body = block(k, body)?;
            (*start == all(k)).then(|| Command::Loop(*index, bound(count), body))
        }
        other => block(k, other).map(Command::Block),
    }
}

/// Succ and pred come from plus one and minus one, which hold variables only.
fn expr(simple: &Simple) -> Option<Expr> {
    match *simple {
        Simple::Atom(Atom::Numeral(value)) => Some(Expr::Literal(value)),
        Simple::Atom(Atom::Variable(variable)) => Some(Expr::Variable(variable)),
        Simple::Succ(Atom::Variable(variable)) => Some(Expr::PlusOne(variable)),
        Simple::Pred(Atom::Variable(variable)) => Some(Expr::MinusOne(variable)),
        Simple::Succ(Atom::Numeral(_)) | Simple::Pred(Atom::Numeral(_)) => None,
    }
}

fn bound(count: &Atom) -> Bound {
    match *count {
        Atom::Numeral(value) => Bound::Literal(value),
        Atom::Variable(variable) => Bound::Variable(variable),
    }
}
