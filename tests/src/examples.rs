//! 01's examples (its bench loads), with the values that 01 gives for them, and the same under a ceiling
//! (02, C-17).

use crate::codec::Record;
use crate::run::Outcome;
use crate::translate::translate;
use crate::tree::{Atom, Block, Bound, Command, Expr, Program, Simple, Term, TermRecord, Value};

/// A program, a start store, and what 01 says of the run.
pub struct Example {
    pub name: &'static str,
    pub program: Program,
    pub store: Vec<Value>,
    pub outcome: Outcome,
    pub steps: u32,
    /// The store at the end. Where a run goes over 01 gives none; these are worked out by hand.
    pub end: Vec<Value>,
}

/// k = 4, {x3 := x1; for x4 := 1 to x2 {x3 := x3 + 1}}
pub fn add() -> Program {
    copy_then_repeat(Expr::PlusOne(3))
}

/// ADD with minus one in the place of plus one: x3 gets x1 less x2, or 0 where x2 is the larger. It
/// takes ADD's steps.
pub fn subtract() -> Program {
    copy_then_repeat(Expr::MinusOne(3))
}

/// k = 4, {x3 := x1; for x4 := 1 to x2 {x3 := expr}}
fn copy_then_repeat(expr: Expr) -> Program {
    let body = vec![Command::Assign(3, expr)];
    let block = vec![
        Command::Assign(3, Expr::Variable(1)),
        Command::Loop(4, Bound::Variable(2), body),
    ];
    program(4, block)
}

/// {x1 := x1 + 1}
pub fn plus_one() -> Program {
    one(1, Command::Assign(1, Expr::PlusOne(1)))
}

/// {x1 := x1 - 1}
fn minus_one() -> Program {
    one(1, Command::Assign(1, Expr::MinusOne(1)))
}

/// {for x1 := 1 to 0 {}}
fn never() -> Program {
    one(1, Command::Loop(1, Bound::Literal(0), vec![]))
}

/// {for x1 := 1 to 3 {x1 := 0}}
fn index_lost() -> Program {
    let to_zero = vec![Command::Assign(1, Expr::Literal(0))];
    one(1, Command::Loop(1, Bound::Literal(3), to_zero))
}

/// {for x2 := 1 to x1 {x1 := x1 + 1}}
fn bound_grows() -> Program {
    let grow = vec![Command::Assign(1, Expr::PlusOne(1))];
    one(2, Command::Loop(2, Bound::Variable(1), grow))
}

/// P1 to P9; P5 has two stores. P9 names no store, so it has any.
pub fn examples() -> Vec<Example> {
    use Outcome::{Finished, Over};
    const MAX: Value = Value::MAX;
    let empty = program(1, vec![]);
    vec![
        example("P1", add(), &[7, 3, 0, 0], Finished, 18, &[7, 3, 10, 3]),
        example("P2", add(), &[7, 0, 0, 0], Finished, 3, &[7, 0, 7, 0]),
        // x3 := x1; the loop unrolls once; the loop of 0 becomes an empty block, which goes;
        // x4 := 1; then x3 + 1 would be too large.
        example("P3", add(), &[MAX, 1, 0, 0], Over, 5, &[MAX, 1, MAX, 1]),
        example("P4", minus_one(), &[0], Finished, 2, &[0]),
        example("P5", plus_one(), &[MAX - 1], Finished, 2, &[MAX]),
        example("P5, too large", plus_one(), &[MAX], Over, 0, &[MAX]),
        example("P6", never(), &[9], Finished, 2, &[9]),
        example("P7", index_lost(), &[9], Finished, 14, &[0]),
        example("P8", bound_grows(), &[2, 0], Finished, 12, &[4, 2]),
        example("P9", empty, &[5], Finished, 0, &[5]),
    ]
}

/// The same in edition 2, worked out by hand from 01's values: each to its own ceiling, which the name
/// tells. Where no value of a run is above it, all is as without one; else the run is over before the first
/// that would be.
pub fn examples_under_ceiling() -> Vec<Example> {
    use Outcome::{Finished, Over};
    const MAX: Value = Value::MAX;
    let add_to = |ceiling| add().under(ceiling);
    let (p1, p3) = ([7, 3, 0, 0], [MAX, 1, 0, 0]);
    let (below, empty) = (plus_one().under(MAX - 1), program(1, vec![]));
    vec![
        example("P1, 10", add_to(10), &p1, Finished, 18, &[7, 3, 10, 3]),
        // Its third turn would give 10. Before the first turn there are 1 + 3 + 2 steps; a turn has 4, the
        // index first.
        example("P1, 9", add_to(9), &p1, Over, 15, &[7, 3, 9, 3]),
        // Its first turn would give 8.
        example("P1, 7", add_to(7), &p1, Over, 7, &[7, 3, 7, 1]),
        example(
            "P2, 7",
            add_to(7),
            &[7, 0, 0, 0],
            Finished,
            3,
            &[7, 0, 7, 0],
        ),
        example("P3, largest", add_to(MAX), &p3, Over, 5, &[MAX, 1, MAX, 1]),
        example("P3, 5", add_to(5), &[5, 1, 0, 0], Over, 5, &[5, 1, 5, 1]),
        example("P4, 0", minus_one().under(0), &[0], Finished, 2, &[0]),
        example("P5, one less", below, &[MAX - 1], Over, 0, &[MAX - 1]),
        example("P5, 1", plus_one().under(1), &[0], Finished, 2, &[1]),
        example("P5, 0", plus_one().under(0), &[0], Over, 0, &[0]),
        example("P6, 9", never().under(9), &[9], Finished, 2, &[9]),
        example("P7, 9", index_lost().under(9), &[9], Finished, 14, &[0]),
        example(
            "P8, 4",
            bound_grows().under(4),
            &[2, 0],
            Finished,
            12,
            &[4, 2],
        ),
        // Its second turn would give 4: 2 + 2 steps before the first, 4 in it, and the second's index.
        example("P8, 3", bound_grows().under(3), &[2, 0], Over, 9, &[3, 2]),
        example("P9, 5", empty.under(5), &[5], Finished, 0, &[5]),
    ]
}

/// 01's own, and those under a ceiling.
pub fn all_examples() -> Vec<Example> {
    let mut all = examples();
    all.extend(examples_under_ceiling());
    all
}

fn example(
    name: &'static str,
    program: Program,
    store: &[Value],
    outcome: Outcome,
    steps: u32,
    end: &[Value],
) -> Example {
    Example {
        name,
        program,
        store: store.to_vec(),
        outcome,
        steps,
        end: end.to_vec(),
    }
}

pub fn program(k: u32, block: Block) -> Program {
    Program::new(k, block)
}

/// A program of one command.
fn one(k: u32, command: Command) -> Program {
    program(k, vec![command])
}

/// Records of programs in which every kind that a program can hold occurs. The last is of edition 2, and a
/// literal of it is as large as its ceiling.
pub fn sample_programs() -> [Vec<u8>; 3] {
    let inner = vec![Command::Assign(2, Expr::Literal(6)), Command::Block(vec![])];
    let body = vec![Command::Assign(1, Expr::MinusOne(3))];
    let block = vec![
        Command::Block(inner),
        Command::Loop(3, Bound::Literal(2), body),
        Command::Assign(1, Expr::Variable(2)),
    ];
    let sample = program(3, block);
    [add(), sample.clone(), sample.under(6)].map(|program| program.encode())
}

/// Records of terms in which every kind that a term can hold occurs: a translation, an open term,
/// and a closed one at k = 1, where a let-all of a tuple has the very shape of a let-one. The last is the
/// open one in edition 2, where a numeral is as large as the ceiling.
pub fn sample_terms() -> [Vec<u8>; 4] {
    let tuple = |a, b| vec![Atom::Numeral(a), Atom::Variable(b)];
    let body = Box::new(Term::Tuple(tuple(8, 2)));
    let rec = Term::Rec(2, Atom::Numeral(5), tuple(4, 1), body);
    let pred = Term::LetOne(1, Simple::Pred(Atom::Variable(2)), Box::new(rec));
    let numeral = Term::LetOne(2, Simple::Atom(Atom::Numeral(7)), Box::new(pred));
    let open = Term::LetAll(Box::new(Term::Tuple(tuple(9, 2))), Box::new(numeral));
    let one = |atom| Term::Tuple(vec![atom]);
    let succ = Simple::Succ(Atom::Variable(1));
    let last = Term::LetOne(1, succ, Box::new(one(Atom::Variable(1))));
    let rec = Term::Rec(1, Atom::Numeral(2), vec![Atom::Numeral(3)], Box::new(last));
    let closed = Term::LetAll(Box::new(one(Atom::Numeral(6))), Box::new(rec));
    let open = TermRecord::new(2, open);
    let terms = [
        translate(&add()),
        open.clone(),
        TermRecord::new(1, closed),
        open.under(9),
    ];
    terms.map(|term| term.encode())
}

/// A program of `count` empty blocks in a row.
pub fn row_of_blocks(k: u32, count: usize) -> Program {
    program(k, vec![Command::Block(vec![]); count])
}

/// A program of `count` assignments of a literal in a row.
pub fn row_of_assignments(k: u32, count: usize) -> Program {
    program(k, vec![Command::Assign(1, Expr::Literal(6)); count])
}

/// A program of `depth` blocks, each the only command of the one around it.
pub fn nest_of_blocks(k: u32, depth: usize) -> Program {
    let wrap = |inner, _| vec![Command::Block(inner)];
    program(k, (0..depth).fold(vec![], wrap))
}

/// A program of `depth` loops with index x1, each of so many turns and the only command of the one
/// around it.
pub fn nest_of_loops(k: u32, turns: Value, depth: usize) -> Program {
    let wrap = |body, _| vec![Command::Loop(1, Bound::Literal(turns), body)];
    program(k, (0..depth).fold(vec![], wrap))
}
