//! The refusals that a ceiling brings (02, C-17), of every call that takes both editions: headers of edition 2 in row 2, rows 15
//! and 16 at their boundaries, and the order of all rows. A refusal gives 0 for the rest and changes
//! nothing that was lent.

use other::both;
use other::calls::{Checked, Counted, Ran, Reduced, Substituted, Written};
use other::codec::Record;
use other::examples::{nest_of_blocks, program};
use other::generate::batches::{job, Batch};
use other::generate::lend;
use other::generate::states::{at_zero, block, body, index, unrolling, waiting, words, Entry};
use other::run::counting::words::{Words, STATE_WORDS};
use other::tree::Atom::{self, Numeral, Variable};
use other::tree::{Bound, Command, Expr, Program, Simple, Term, TermRecord};

const START: Words = [0; STATE_WORDS];
const MAX: u32 = u32::MAX;

/// Ceilings at which something may change: a byte is full, and the ends of the range.
const CEILINGS: [u32; 11] = [
    0,
    1,
    9,
    255,
    256,
    65_535,
    65_536,
    16_777_216,
    1 << 31,
    MAX - 1,
    MAX,
];

/// What is lent to a call, as far as it takes it.
#[derive(Clone)]
struct Lent {
    record: Vec<u8>,
    used: usize,
    store: Vec<u32>,
    state: Words,
    /// Of output buffers.
    room: usize,
    budgets: Vec<u32>,
}

impl Lent {
    /// A record with a store of zeros.
    fn holding(record: Vec<u8>) -> Lent {
        Lent {
            used: record.len(),
            store: vec![0; usize::from(record[4])],
            record,
            state: START,
            room: 16_384,
            budgets: vec![9],
        }
    }
}

/// A call on what is lent: its number. Refused, it must give 0 for the rest and leave all as it came.
type Call = fn(&Lent) -> u32;

/// The calls that take a program, and those that take a term.
const PROGRAM_CALLS: [Call; 6] = [
    check_program,
    translate,
    run_stepper,
    run_counting,
    expand,
    run_batch,
];
const TERM_CALLS: [Call; 5] = [check_term, read_back, substitute, run_reducer, result];

fn check_program(lent: &Lent) -> u32 {
    checked(both::check_program(&lent.record, lent.used))
}

fn check_term(lent: &Lent) -> u32 {
    checked(both::check_term(&lent.record, lent.used))
}

fn checked(answer: Checked) -> u32 {
    if answer.number != 0 {
        assert_eq!(answer, Checked::refused(answer.number));
    }
    answer.number
}

fn translate(lent: &Lent) -> u32 {
    written(lent, |out| both::translate(&lent.record, lent.used, out))
}

fn read_back(lent: &Lent) -> u32 {
    written(lent, |out| both::read_back(&lent.record, lent.used, out))
}

fn expand(lent: &Lent) -> u32 {
    let (record, used, state) = (&lent.record, lent.used, &lent.state);
    written(lent, |out| {
        both::expand(record, used, state, &lent.store, out)
    })
}

fn written(lent: &Lent, call: impl Fn(&mut [u8]) -> Written) -> u32 {
    let mut out = vec![0xA5; lent.room];
    let answer = call(&mut out);
    if answer.number != 0 {
        assert_eq!(answer, Written::refused(answer.number));
        assert!(out.iter().all(|byte| *byte == 0xA5));
    }
    answer.number
}

fn substitute(lent: &Lent) -> u32 {
    let mut buffer = lent.record.clone();
    let answer = both::substitute(&mut buffer, lent.used, &lent.store);
    if answer.number != 0 {
        assert_eq!(answer, Substituted::refused(answer.number));
        assert_eq!(buffer, lent.record);
    }
    answer.number
}

fn run_stepper(lent: &Lent) -> u32 {
    let (mut buffer, mut store) = (lent.record.clone(), lent.store.clone());
    let answer = both::run_stepper(&mut buffer, lent.used, &mut store, 9);
    if answer.number != 0 {
        assert_eq!(answer, Ran::refused(answer.number));
        assert_eq!((buffer, store), (lent.record.clone(), lent.store.clone()));
    }
    answer.number
}

fn run_counting(lent: &Lent) -> u32 {
    let (mut state, mut store) = (lent.state, lent.store.clone());
    let answer = both::run_counting(&lent.record, lent.used, &mut state, &mut store, 9);
    if answer.number != 0 {
        assert_eq!(answer, Counted::refused(answer.number));
        assert_eq!((state, store), (lent.state, lent.store.clone()));
    }
    answer.number
}

fn run_reducer(lent: &Lent) -> u32 {
    let mut buffer = lent.record.clone();
    let answer = both::run_reducer(&mut buffer, lent.used, 9);
    if answer.ran.number != 0 {
        assert_eq!(answer, Reduced::refused(answer.ran.number));
        assert_eq!(buffer, lent.record);
    }
    answer.ran.number
}

fn result(lent: &Lent) -> u32 {
    let mut store = lent.store.clone();
    let number = both::result(&lent.record, lent.used, &mut store);
    if number != 0 {
        assert_eq!(store, lent.store);
    }
    number
}

/// The store once for each budget.
fn run_batch(lent: &Lent) -> u32 {
    let jobs: Vec<_> = lent.budgets.iter().map(|n| job(&lent.store, *n)).collect();
    let mut batch = Batch::of(&lent.record, &jobs);
    batch.used = lent.used;
    batch.term.truncate(lent.room);
    let before = batch.clone();
    let answer = batch.run(both::run_batch);
    if answer.number != 0 {
        assert_eq!(answer, Written::refused(answer.number));
        assert!(batch == before);
    }
    answer.number
}

// The order of the rows.

/// Something lent so that just these rows apply to it.
type Flawed = fn(&[u32]) -> Lent;

/// Each call, what it is lent, and its rows in order.
const ROWS: [(Call, Flawed, &[u32]); 11] = [
    (check_program, flawed_program, &[1, 2, 3, 4, 5, 15]),
    (check_term, flawed_tuple, &[1, 2, 3, 4, 5, 15]),
    (translate, flawed_program, &[1, 2, 3, 4, 5, 15, 10]),
    (read_back, flawed_translation, &[1, 2, 3, 4, 5, 15, 9, 10]),
    (substitute, flawed_tuple, &[1, 2, 3, 4, 5, 15, 6, 16]),
    (run_stepper, flawed_program, &[1, 2, 3, 4, 5, 15, 6, 16]),
    (
        run_counting,
        flawed_program,
        &[1, 2, 3, 4, 5, 12, 15, 6, 13, 16],
    ),
    (
        expand,
        flawed_program,
        &[1, 2, 3, 4, 5, 12, 15, 6, 13, 16, 10],
    ),
    (run_reducer, flawed_tuple, &[1, 2, 3, 4, 5, 15, 7]),
    (
        run_batch,
        flawed_program,
        &[1, 14, 2, 3, 4, 5, 15, 6, 16, 10],
    ),
    (result, flawed_tuple, &[1, 2, 3, 4, 5, 15, 6, 7, 8]),
];

/// A program of k = 2 under a ceiling of 9: {x1 := 9; x2 := x1; {..}}, in whose innermost block nothing is.
fn flawed_program(flaws: &[u32]) -> Lent {
    let has = |number| flaws.contains(&number);
    let literal = if has(15) { 10 } else { 9 };
    let variable = if has(5) { 3 } else { 2 };
    let depth = if has(12) { 32 } else { 2 };
    let mut block = nest_of_blocks(2, depth).block;
    let assignments = [
        Command::Assign(1, Expr::Literal(literal)),
        Command::Assign(variable, Expr::Variable(1)),
    ];
    block.splice(..0, assignments);
    let mut lent = Lent::holding(program(2, block).under(9).encode());
    lent.state[0] = u32::from(has(13));
    // The kind of the first assignment.
    flaw(&mut lent, flaws, 18);
    lent
}

fn let_one(variable: u32, atom: Atom, last: Term) -> Term {
    Term::LetOne(variable, Simple::Atom(atom), Box::new(last))
}

/// A term, likewise: (9, 0), which is closed and finished.
fn flawed_tuple(flaws: &[u32]) -> Lent {
    let has = |number| flaws.contains(&number);
    let nine = Numeral(if has(15) { 10 } else { 9 });
    let second = match (has(5), has(7)) {
        (true, _) => Variable(3),
        (false, true) => Variable(2),
        (false, false) => Numeral(0),
    };
    let tuple = Term::Tuple(vec![nine, second]);
    flawed_term(
        flaws,
        if has(8) {
            let_one(1, Numeral(0), tuple)
        } else {
            tuple
        },
    )
}

/// Another: x1 = 9 in (x1, x2), which is a translation.
fn flawed_translation(flaws: &[u32]) -> Lent {
    let has = |number| flaws.contains(&number);
    let nine = Numeral(if has(15) { 10 } else { 9 });
    let variable = if has(5) { 3 } else { 1 };
    let last = if has(9) { [2, 1] } else { [1, 2] };
    let last = Term::Tuple(last.map(Variable).to_vec());
    flawed_term(flaws, let_one(variable, nine, last))
}

fn flawed_term(flaws: &[u32], term: Term) -> Lent {
    let mut lent = Lent::holding(TermRecord::new(2, term).under(9).encode());
    // The kind of the term.
    flaw(&mut lent, flaws, 14);
    lent
}

/// Rows that any record can have; `kind` is the place of a kind for row 4.
fn flaw(lent: &mut Lent, flaws: &[u32], kind: usize) {
    let has = |number| flaws.contains(&number);
    if has(16) {
        lent.store[1] = 10;
    }
    if has(6) {
        lent.store.push(10);
    }
    if has(14) {
        lent.budgets.clear();
    }
    if has(10) {
        lent.room = 0;
    }
    if has(4) {
        lent.record[kind] = 4;
    }
    if has(3) {
        lent.record[4] = 17;
    }
    if has(2) {
        lent.record[2] = 8;
    }
    if has(1) {
        lent.used = lent.record.len() + 1;
    }
}

/// Of any rows that apply together the first is given; with none, the call is accepted. Every set of
/// them is tried.
#[test]
fn the_first_of_any_rows_is_given() {
    for (call, flawed, rows) in ROWS {
        for set in 0..1 << rows.len() {
            let applies = |n: &usize| set >> n & 1 == 1;
            let chosen = (0..rows.len()).filter(applies).map(|n| rows[n]);
            let flaws: Vec<u32> = chosen.collect();
            let wanted = flaws.first().copied().unwrap_or(0);
            assert_eq!(call(&flawed(&flaws)), wanted, "of {rows:?}: {flaws:?}");
        }
    }
}

// Row 2.

fn empty_program(k: u32) -> Program {
    program(k, vec![])
}

fn all_variables(k: u32) -> TermRecord {
    TermRecord::new(k, Term::Tuple((1..=k).map(Variable).collect()))
}

/// What every call that takes such a record says of it. Where the check accepts a term, it may be open
/// or unfinished, which the reducer and the result refuse.
fn number_of(calls: &[Call], lent: &Lent) -> u32 {
    let numbers: Vec<u32> = calls.iter().map(|call| call(lent)).collect();
    let first = numbers[0];
    for number in numbers {
        assert!(number == first || (first == 0 && matches!(number, 7 | 8)));
    }
    first
}

/// An edition 2 header needs 12 bytes, whatever k is; with 12 to 15 the block is missing, and k is
/// looked at. Shorter than 12, it is 2 with each of its bytes there and the length that it says.
#[test]
fn a_header_of_edition_2_needs_12_bytes() {
    let program = empty_program(1).under(5).encode();
    let term = all_variables(1).under(5).encode();
    assert_eq!((program.len(), term.len()), (16, 24));
    for (calls, record) in [(&PROGRAM_CALLS[..], &program), (&TERM_CALLS[..], &term)] {
        for used in 0..=record.len() {
            for k in [0, 1, 17, 255] {
                let mut lent = Lent::holding(record.clone());
                lent.record[0] = used as u8;
                lent.record[4] = k;
                lent.used = used;
                let wanted = match (used, k) {
                    (..12, _) => 2,
                    (_, 1) if used == record.len() => 0,
                    (_, 1) => 4,
                    _ => 3,
                };
                assert_eq!(number_of(calls, &lent), wanted, "{used} bytes, k = {k}");
                // The buffer may be just so long.
                lent.record.truncate(used);
                assert_eq!(number_of(calls, &lent), wanted, "{used} bytes, k = {k}");
            }
        }
        // With its own length, or another, where the used length is not that.
        for used in (0..record.len()).chain([record.len() + 1]) {
            let mut lent = Lent::holding(lend(record, 40));
            lent.used = used;
            assert_eq!(number_of(calls, &lent), 2, "{used} bytes");
        }
    }
}

/// Of all kinds a program's header has 7 or 9 and a term's 40 or 41; every other is 2, 8 too, and those
/// whose lower byte is one of them. With the other edition's kind the fields are read otherwise: a
/// ceiling of 5 is no head of a record, and behind the head of an empty block or of a tuple there is no
/// block or term.
#[test]
fn every_kind_of_a_header() {
    let programs = [empty_program(1), empty_program(1).under(5)].map(|it| it.encode());
    let terms = [all_variables(1), all_variables(1).under(5)].map(|it| it.encode());
    let kinds = (0..=300).chain([0x0700, 0x0900, 0x2800, 0x2900, 0x0709, 65_535]);
    for kind in kinds {
        let number = |calls, record: &[u8]| {
            let mut lent = Lent::holding(record.to_vec());
            lent.record[2..4].copy_from_slice(&u16::to_le_bytes(kind));
            number_of(calls, &lent)
        };
        let wanted = |own: [u16; 2]| match own.iter().position(|own| *own == kind) {
            Some(0) => [0, 4],
            Some(_) => [4, 0],
            None => [2, 2],
        };
        let got = [&programs[0], &programs[1]].map(|record| number(&PROGRAM_CALLS, record));
        assert_eq!(got, wanted([7, 9]), "kind {kind}");
        let got = [&terms[0], &terms[1]].map(|record| number(&TERM_CALLS, record));
        assert_eq!(got, wanted([40, 41]), "kind {kind}");
    }
}

/// The ceiling left out of a header of edition 2: the block's head, its length and 1, is read as the
/// ceiling, so 65,536 and the length. What is left is a program only where the block's one command is a
/// block.
#[test]
fn a_header_without_its_ceiling() {
    let number = |block: Vec<Command>| {
        let whole = program(1, block).under(5).encode();
        let mut record = [&whole[..8], &whole[12..]].concat();
        record[0] -= 4;
        number_of(&PROGRAM_CALLS, &Lent::holding(record))
    };
    let assign = |value| Command::Assign(1, Expr::Literal(value));
    assert_eq!(number(vec![]), 4);
    assert_eq!(number(vec![assign(5)]), 4);
    assert_eq!(number(vec![Command::Loop(1, Bound::Literal(0), vec![])]), 4);
    assert_eq!(
        number(vec![Command::Block(vec![]), Command::Block(vec![])]),
        4
    );
    assert_eq!(number(vec![Command::Block(vec![])]), 0);
    // The outer block has 4 + 4 + 16 bytes.
    assert_eq!(number(vec![Command::Block(vec![assign(65_560)])]), 0);
    assert_eq!(number(vec![Command::Block(vec![assign(65_561)])]), 15);
    // Of a term nothing is left that is one.
    let last = || Box::new(Term::Tuple(vec![Numeral(1)]));
    let terms = [
        Term::Tuple(vec![Numeral(1)]),
        Term::LetOne(1, Simple::Atom(Numeral(1)), last()),
        Term::LetAll(last(), last()),
        Term::Rec(1, Numeral(1), vec![Numeral(1)], last()),
    ];
    for term in terms {
        let whole = TermRecord::new(1, term).under(5).encode();
        let mut record = [&whole[..8], &whole[12..]].concat();
        record[0] -= 4;
        assert_eq!(number_of(&TERM_CALLS, &Lent::holding(record)), 4);
    }
}

/// Kinds 9 and 41 are headers only: inside a record they are malformed, as 7 and 40 are, also where all
/// else is as a header has it.
#[test]
fn a_header_inside_a_record_is_4() {
    let inner = empty_program(1).under(5).encode();
    for kind in [7, 9, 40, 41] {
        let mut record = vec![32, 0, 9, 0, 1, 0, 0, 0, 5, 0, 0, 0, 20, 0, 1, 0];
        record.extend(&inner);
        record[18] = kind;
        assert_eq!(record.len(), 32);
        assert_eq!(number_of(&PROGRAM_CALLS, &Lent::holding(record)), 4);
        let mut record = vec![28, 0, 41, 0, 1, 0, 0, 0, 5, 0, 0, 0];
        record.extend(&inner);
        record[14] = kind;
        assert_eq!(record.len(), 28);
        assert_eq!(number_of(&TERM_CALLS, &Lent::holding(record)), 4);
    }
}

// Row 15.

/// The values about a ceiling, with what they are answered.
fn about(ceiling: u32, above: u32) -> Vec<(u32, u32)> {
    let mut values = vec![(0, 0), (ceiling, 0), (ceiling.saturating_sub(1), 0)];
    if let Some(next) = ceiling.checked_add(1) {
        values.extend([(next, above), (MAX, above)]);
    }
    values
}

/// A literal in each place that a program can have it: of an expression, of a bound; first, last, in a
/// loop's body, in a block, far inside.
#[test]
fn every_literal_of_a_program() {
    let literal = |value| Command::Assign(1, Expr::Literal(value));
    let counted = |value| Command::Loop(1, Bound::Literal(value), vec![]);
    let around = |inner: Command| Command::Loop(2, Bound::Variable(1), vec![inner]);
    let deep = |inner: Command| (0..20).fold(inner, |inner, _| Command::Block(vec![inner]));
    for ceiling in CEILINGS {
        for (value, number) in about(ceiling, 15) {
            let programs = [
                vec![literal(value)],
                vec![counted(value)],
                vec![literal(0), literal(value), literal(0)],
                vec![literal(0), counted(0), counted(value)],
                vec![around(literal(value))],
                vec![around(counted(value)), literal(0)],
                vec![deep(literal(value))],
                vec![deep(counted(value))],
                vec![Command::Block(vec![]), deep(around(literal(value)))],
            ];
            for block in programs {
                let record = program(2, block).under(ceiling).encode();
                let got = number_of(&PROGRAM_CALLS, &Lent::holding(record));
                assert_eq!(got, number, "{value} under {ceiling}");
            }
        }
    }
}

/// A numeral in each place that a term can have it.
#[test]
fn every_numeral_of_a_term() {
    let zeros = || vec![Numeral(0), Numeral(0)];
    let tuple = || Term::Tuple(zeros());
    let of_simple = |simple| Term::LetOne(1, simple, Box::new(tuple()));
    let let_all = |first, last| Term::LetAll(Box::new(first), Box::new(last));
    let rec = |count, start, body| Term::Rec(1, count, start, Box::new(body));
    for ceiling in CEILINGS {
        for (value, number) in about(ceiling, 15) {
            let n = Numeral(value);
            let pair = || Term::Tuple(vec![Numeral(0), n]);
            let finished = [pair(), Term::Tuple(vec![n, Numeral(0)])];
            let unfinished = [
                of_simple(Simple::Atom(n)),
                of_simple(Simple::Succ(n)),
                of_simple(Simple::Pred(n)),
                let_one(1, Numeral(0), pair()),
                let_all(pair(), tuple()),
                let_all(tuple(), pair()),
                rec(n, zeros(), tuple()),
                rec(Numeral(0), vec![n, Numeral(0)], tuple()),
                rec(Numeral(0), vec![Numeral(0), n], tuple()),
                rec(Numeral(0), zeros(), pair()),
                let_all(let_all(tuple(), of_simple(Simple::Succ(n))), tuple()),
            ];
            let terms = finished.map(|term| (term, 0)).into_iter();
            for (term, shown) in terms.chain(unfinished.map(|term| (term, 8))) {
                let lent = Lent::holding(TermRecord::new(2, term).under(ceiling).encode());
                for call in [check_term, substitute, run_reducer] {
                    assert_eq!(call(&lent), number, "{value} under {ceiling}");
                }
                // None of them is a translation.
                let behind = if number == 0 { [9, shown] } else { [number; 2] };
                assert_eq!(
                    [read_back(&lent), result(&lent)],
                    behind,
                    "{value} under {ceiling}"
                );
            }
        }
    }
}

/// Variables' numbers and k are no values: x16 of 16 is sound under a ceiling of 0, wherever it stands.
#[test]
fn numbers_of_variables_are_not_held_to_the_ceiling() {
    let block = vec![
        Command::Assign(16, Expr::Variable(16)),
        Command::Assign(16, Expr::MinusOne(16)),
        Command::Loop(16, Bound::Variable(16), vec![]),
        Command::Assign(16, Expr::PlusOne(16)),
    ];
    let program = program(16, block).under(0);
    let lent = Lent::holding(program.encode());
    assert_eq!(number_of(&PROGRAM_CALLS, &lent), 0);
    let term = other::translate::translate(&program).encode();
    assert_eq!(number_of(&TERM_CALLS, &Lent::holding(term)), 0);
}

/// In edition 1 every literal, numeral and value passes.
#[test]
fn edition_1_has_the_largest_value() {
    let block = vec![
        Command::Assign(1, Expr::Literal(MAX)),
        Command::Loop(1, Bound::Literal(MAX), vec![]),
    ];
    let mut lent = Lent::holding(program(1, block).encode());
    lent.store[0] = MAX;
    assert_eq!(number_of(&PROGRAM_CALLS, &lent), 0);
    let mut lent = Lent::holding(TermRecord::new(1, Term::Tuple(vec![Numeral(MAX)])).encode());
    lent.store[0] = MAX;
    for call in [check_term, substitute, run_reducer, result] {
        assert_eq!(call(&lent), 0);
    }
}

// Row 16.

/// Each value of a store that is read, about each ceiling.
#[test]
fn every_value_of_a_store() {
    let program = program(3, vec![Command::Block(vec![])]);
    let reading_program: [Call; 4] = [run_stepper, run_counting, expand, run_batch];
    for ceiling in CEILINGS {
        let program = Lent::holding(program.clone().under(ceiling).encode());
        let term = Lent::holding(all_variables(3).under(ceiling).encode());
        for (place, value, number) in at_each_place(about(ceiling, 16)) {
            let with_value = |lent: &Lent| {
                let mut lent = lent.clone();
                lent.store[place] = value;
                lent
            };
            for call in reading_program {
                assert_eq!(
                    call(&with_value(&program)),
                    number,
                    "{value} under {ceiling}"
                );
            }
            let number_of_term = substitute(&with_value(&term));
            assert_eq!(number_of_term, number, "{value} under {ceiling}");
        }
    }
}

fn at_each_place(values: Vec<(u32, u32)>) -> Vec<(usize, u32, u32)> {
    let place = |place| {
        values
            .iter()
            .map(move |(value, number)| (place, *value, *number))
    };
    (0..3).flat_map(place).collect()
}

/// A store that only takes values is not read: the result's may hold anything before.
#[test]
fn the_store_of_a_result_is_not_read() {
    for ceiling in CEILINGS {
        let tuple = Term::Tuple(vec![Numeral(ceiling), Numeral(0)]);
        let record = TermRecord::new(2, tuple).under(ceiling).encode();
        for before in [0, ceiling, ceiling.saturating_add(1), MAX] {
            let mut store = [before; 2];
            assert_eq!(both::result(&record, record.len(), &mut store), 0);
            assert_eq!(store, [ceiling, 0]);
        }
    }
}

// Row 16, of a state of the counting stepper. The program that it is tried on, k = 1:
//
//   0  {                            a block, with its first command at 4
//   4    for x1 := 1 to 2 {         a loop, with its body's first command at 24
//  24      for x1 := 1 to x1 {      a loop, with its body's first command at 44
//  44        x1 := x1 - 1
//  60      }
//  60    }
//  60  }

fn nested() -> Program {
    let minus_one = Command::Assign(1, Expr::MinusOne(1));
    let inner = Command::Loop(1, Bound::Variable(1), vec![minus_one]);
    let outer = Command::Loop(1, Bound::Literal(2), vec![inner]);
    let nested = program(1, vec![Command::Block(vec![outer])]);
    assert_eq!(nested.encoded_len(), 12 + 60);
    nested
}

/// What both calls say of the nested program in this state, under this ceiling.
fn in_state(ceiling: u32, state: Words) -> u32 {
    let mut lent = Lent::holding(nested().under(ceiling).encode());
    lent.state = state;
    let number = run_counting(&lent);
    // A long expansion has no room; with the largest tops none of them has.
    let written = expand(&lent);
    assert!(written == number || (number == 0 && written == 10));
    number
}

fn entries(all: &[Entry]) -> Words {
    words(0, &[&[block(0, 4)], all].concat())
}

/// Tops of a loop in play, in each state that it can be in, about each ceiling; the program's literal 2
/// needs a ceiling of 2 at least.
#[test]
fn every_top_of_a_state() {
    for ceiling in CEILINGS.into_iter().filter(|ceiling| *ceiling >= 2) {
        for (top, number) in about(ceiling, 16) {
            let reached = top.min(1);
            let states = [
                entries(&[unrolling(4, top, 0)]),
                entries(&[unrolling(4, top, top)]),
                entries(&[at_zero(4, top)]),
                entries(&[body(4, 2, 1, 24), unrolling(24, top, 0)]),
                entries(&[body(4, 2, 1, 24), at_zero(24, top)]),
            ];
            for state in states {
                assert_eq!(in_state(ceiling, state), number, "{top} under {ceiling}");
            }
            // In a turn there is a first one.
            if reached == 0 {
                continue;
            }
            let states = [
                entries(&[index(4, top, reached)]),
                entries(&[index(4, top, top)]),
                entries(&[body(4, top, reached, 24)]),
                entries(&[body(4, top, top, 60)]),
                entries(&[body(4, top, reached, 24), unrolling(24, 2, 1)]),
                entries(&[body(4, 2, 1, 24), index(24, top, reached)]),
                entries(&[body(4, 2, 1, 24), body(24, top, top, 44)]),
            ];
            for state in states {
                assert_eq!(in_state(ceiling, state), number, "{top} under {ceiling}");
            }
        }
    }
}

/// A sum that waits, about each ceiling; one that does not is not looked at, and is 0 in what is handed
/// out.
#[test]
fn a_sum_only_where_one_waits() {
    let state = entries(&[body(4, 2, 1, 24), body(24, 2, 1, 44)]);
    for ceiling in CEILINGS.into_iter().filter(|ceiling| *ceiling >= 2) {
        for (sum, number) in about(ceiling, 16) {
            assert_eq!(in_state(ceiling, waiting(state, sum)), number, "{sum}");
            for waits in [1, 2, MAX] {
                let mut words = state;
                (words[1], words[2]) = (waits, sum);
                assert_eq!(in_state(ceiling, words), number, "{sum}");
            }
            let mut words = state;
            words[2] = sum;
            assert_eq!(in_state(ceiling, words), 0, "{sum}");
            let record = nested().under(ceiling).encode();
            both::run_counting(&record, record.len(), &mut words, &mut [0], 0);
            assert_eq!(words, state);
        }
    }
}

/// Words that a state does not hold are no values: the counts of a block, and all that is behind the
/// list's end.
#[test]
fn words_that_are_not_held_may_be_above_the_ceiling() {
    for ceiling in [2, 9, MAX - 1] {
        let mut state = entries(&[unrolling(4, 2, 1)]);
        state[5..8].fill(ceiling + 1); // The block's top, count reached and running.
        assert_eq!(in_state(ceiling, state), 0);
        state[16..].fill(MAX); // The entry at 15 is none.
        assert_eq!(in_state(ceiling, state), 0);
        // And with an entry there, it counts.
        state[15..].fill(0);
        state[9..21].copy_from_slice(&[body(4, 2, 1, 24), unrolling(24, ceiling + 1, 0)].concat());
        assert_eq!(in_state(ceiling, state), 16);
    }
    // The last of 31 entries as well as the first.
    let nest = (0..31).fold(vec![], |inner, _| {
        vec![Command::Loop(1, Bound::Variable(1), inner)]
    });
    let mut lent = Lent::holding(program(1, nest).under(3).encode());
    for place in 0..31 {
        for (top, number) in [(3, 0), (4, 16)] {
            let entry = |n| match n {
                30 => unrolling(20 * n, 3, 0),
                _ => body(20 * n, 3, 1, 20 * (n + 1)),
            };
            let mut all: Vec<Entry> = (0..31).map(entry).collect();
            all[place][2] = top;
            lent.state = words(0, &all);
            assert_eq!(run_counting(&lent), number, "entry {place}");
        }
    }
}

/// 13 looks first: a state that is none is 13, also with a top, a sum or a value above the ceiling.
#[test]
fn a_state_that_is_none_before_a_value_above_the_ceiling() {
    assert_eq!(in_state(9, entries(&[unrolling(4, 10, 11)])), 13);
    assert_eq!(in_state(9, entries(&[unrolling(4, 10, 10)])), 16);
    assert_eq!(in_state(9, entries(&[unrolling(5, 10, 1)])), 13);
    assert_eq!(in_state(9, waiting(words(0, &[]), 10)), 13);
    let mut lent = Lent::holding(nested().under(9).encode());
    lent.store[0] = 10;
    lent.state = words(1, &[]);
    assert_eq!(run_counting(&lent), 13);
    lent.state = START;
    assert_eq!(run_counting(&lent), 16);
}
