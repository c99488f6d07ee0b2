//! Programs to terms (01, "Translation and read-back"; 003, definition 3).

use crate::tree::{Atom, Block, Bound, Command, Expr, Program, Simple, Term, TermRecord};

/// The translation of a program, with the same k, edition and ceiling.
pub fn translate(program: &Program) -> TermRecord {
    let header = program.header;
    TermRecord {
        header,
        term: block(header.k, &program.block),
    }
}

/// "all": the tuple of variables 1 to k.
pub fn all(k: u32) -> Vec<Atom> {
    (1..=k).map(Atom::Variable).collect()
}

/// A block is built from its end: the empty block is all, and each command takes what follows it.
pub fn block(k: u32, commands: &Block) -> Term {
    let end = Term::Tuple(all(k));
    commands.iter().rev().fold(end, |rest, command| {
        let rest = Box::new(rest);
        match command {
            Command::Assign(variable, expr) => Term::LetOne(*variable, simple(expr), rest),
            other => Term::LetAll(Box::new(no_assignment(k, other)), rest),
        }
    })
}

/// A loop or a block inside.
fn no_assignment(k: u32, command: &Command) -> Term {
    match command {
        Command::Loop(index, bound, body) => {
            Term::Rec(*index, count(bound), all(k), Box::new(block(k, body)))
        }
        Command::Block(inner) => block(k, inner),
        Command::Assign(..) => unreachable!("an assignment becomes a let-one"),
    }
}

fn simple(expr: &Expr) -> Simple {
    match *expr {
        Expr::Literal(value) => Simple::Atom(Atom::Numeral(value)),
        Expr::Variable(variable) => Simple::Atom(Atom::Variable(variable)),
        Expr::PlusOne(variable) => Simple::Succ(Atom::Variable(variable)),
        Expr::MinusOne(variable) => Simple::Pred(Atom::Variable(variable)),
    }
}

fn count(bound: &Bound) -> Atom {
    match *bound {
        Bound::Literal(value) => Atom::Numeral(value),
        Bound::Variable(variable) => Atom::Variable(variable),
    }
}
