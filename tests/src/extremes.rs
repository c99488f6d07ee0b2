//! The longest, the deepest and the most branching records that can be lent, in both editions.
//!
//! They are for the stack, for a step that has to change many lengths at once, and for timing. To
//! make, encode or drop one takes a big stack: see [`crate::tree::with_big_stack`].

use crate::check;
use crate::codec::{header_len, Record};
use crate::examples::{nest_of_blocks, nest_of_loops, program, row_of_blocks};
use crate::generate::editions::LARGEST;
use crate::substitute::{substitute, values_of};
use crate::translate::translate;
use crate::tree::{
    Atom, Block, Bound, Command, Edition, Expr, Header, Program, Simple, Term, TermRecord, Variable,
};

/// Both editions; the second with a ceiling that no value of these records is above.
pub const EDITIONS: [Edition; 2] = [Edition::First, Edition::Second(1_000)];

/// Records, or what they are made of, with their names.
pub type Named<T> = Vec<(String, T)>;
pub type Records = Named<Vec<u8>>;

/// What is left for the commands of 16,384 bytes: less the header and the outermost block's head.
fn room_for_commands(edition: Edition) -> usize {
    16_384 - header_len(Header { k: 1, edition }) - 4
}

/// How many blocks a program can have beside the outermost so that its term fits at k = 1: the
/// term is 8 bytes, 16 for each block (a let-all's head and a tuple) and the last tuple's 12. The 4 bytes
/// more of edition 2 fit as well, here and below.
const BLOCKS_IN_TERM: usize = (16_384 - 20) / 16;

/// The same for loops within each other: a loop's term is a let-all's head of 4, the rec's own 28 and a
/// tuple of 12.
const LOOPS_IN_TERM: usize = (16_384 - 20) / 44;

/// Programs of up to 16,384 bytes.
pub fn programs(edition: Edition) -> Named<Program> {
    let all = shapes(room_for_commands(edition));
    in_edition(edition, all, |program| &mut program.header)
}

/// Programs with commands of up to so many bytes. A block's head takes 4 of them, a loop's 20, an assignment 16.
fn shapes(room: usize) -> [(String, Program); 7] {
    let count = |length| room / length;
    let assignments = vec![Command::Assign(1, Expr::PlusOne(1)); count(16)];
    let literals = vec![Command::Assign(1, Expr::Literal(6)); count(16)];
    [
        named(count(4) + 1, "nested blocks", nest_of_blocks(1, count(4))),
        named(count(4), "blocks in a row", row_of_blocks(1, count(4))),
        named(count(20), "nested loops", nest_of_loops(1, 1, count(20))),
        ("balanced tree of blocks".into(), program(1, blocks(room))),
        ("balanced tree of loops".into(), program(1, loops(room, 1))),
        named(count(16), "assignments", program(1, assignments)),
        named(count(16), "literals", program(1, literals)),
    ]
}

/// Terms of up to 16,384 bytes at k = 1, where most lets fit. The first four are translations, of
/// programs whose lengths follow from their terms'.
pub fn terms(edition: Edition) -> Named<TermRecord> {
    let (blocks_in, loops_in) = (BLOCKS_IN_TERM, LOOPS_IN_TERM);
    let balanced = program(1, blocks(4 * blocks_in));
    let recs_in = (16_384 - 20) / 28;
    let all = [
        named(
            blocks_in,
            "let-alls nested",
            translate(&nest_of_blocks(1, blocks_in)),
        ),
        named(
            blocks_in,
            "let-alls in a row",
            translate(&row_of_blocks(1, blocks_in)),
        ),
        ("balanced tree of let-alls".into(), translate(&balanced)),
        named(
            loops_in,
            "recs nested in let-alls",
            translate(&nest_of_loops(1, 1, loops_in)),
        ),
        named(
            blocks_in,
            "let-ones",
            TermRecord::new(1, let_ones(blocks_in)),
        ),
        named(recs_in, "recs nested", TermRecord::new(1, recs(recs_in))),
    ];
    in_edition(edition, all, |term| &mut term.header)
}

/// The programs of those terms that are translations, so that their translation fits.
pub fn translatable(edition: Edition) -> Named<Program> {
    let (blocks_in, loops_in) = (BLOCKS_IN_TERM, LOOPS_IN_TERM);
    let balanced = program(1, blocks(4 * blocks_in));
    let all = [
        named(blocks_in, "nested blocks", nest_of_blocks(1, blocks_in)),
        named(blocks_in, "blocks in a row", row_of_blocks(1, blocks_in)),
        ("balanced tree of blocks".into(), balanced),
        named(loops_in, "nested loops", nest_of_loops(1, 1, loops_in)),
        ("119 blocks at k = 16".into(), row_of_blocks(16, 119)),
    ];
    in_edition(edition, all, |program| &mut program.header)
}

/// Programs with loops that a forecast takes (02, C-19): x1 is every index and x2 every bound, and k = 2. With 3
/// turns each, those within each other are too many.
fn with_steady_loops(room: usize) -> [(String, Program); 4] {
    let count = room / 20;
    let one = |body| Command::Loop(1, Bound::Variable(2), body);
    let nested = (0..count).fold(vec![], |body, _| vec![one(body)]);
    [
        ("tree of loops to x2".into(), program(2, loops(room, 2))),
        (
            "tree of loops and blocks".into(),
            program(2, loops_and_blocks(room, true)),
        ),
        named(
            count,
            "loops in a row",
            program(2, vec![one(vec![]); count]),
        ),
        named(count, "nested loops to x2", program(2, nested)),
    ]
}

/// The programs of a forecast: those of every other call, of which one is refused, and these.
pub fn forecast_programs(edition: Edition) -> Named<Program> {
    let room = room_for_commands(edition);
    let own = in_edition(edition, with_steady_loops(room), |program| {
        &mut program.header
    });
    [programs(edition), own].concat()
}

/// Those of up to so many bytes, in edition 1, that assign no bound: each is foretold where every value is 1.
pub fn foretellable(len: usize) -> Named<Program> {
    let room = len - 12;
    let all = shapes(room).into_iter().chain(with_steady_loops(room));
    all.filter(|(_, program)| check::bounds(program).is_ok())
        .collect()
}

pub fn forecast_records() -> Records {
    EDITIONS
        .into_iter()
        .flat_map(|edition| encoded(forecast_programs(edition)))
        .collect()
}

fn named<T>(count: usize, what: &str, record: T) -> (String, T) {
    (format!("{} {what}", in_thousands(count)), record)
}

/// A number of up to six digits as it is written in text: 4,094.
fn in_thousands(count: usize) -> String {
    match count / 1_000 {
        0 => count.to_string(),
        thousands => format!("{thousands},{:03}", count % 1_000),
    }
}

/// The same with headers of this edition.
fn in_edition<T, const N: usize>(
    edition: Edition,
    all: [(String, T); N],
    header: fn(&mut T) -> &mut Header,
) -> Named<T> {
    let own = |(name, mut record): (String, T)| {
        header(&mut record).edition = edition;
        (name + suffix(edition), record)
    };
    all.into_iter().map(own).collect()
}

fn suffix(edition: Edition) -> &'static str {
    match edition {
        Edition::First => "",
        Edition::Second(_) => ", edition 2",
    }
}

/// Commands of exactly `room` bytes, a multiple of 4: a block, and the rest of the row, each with
/// half of it. A recursion into both halves is as deep as this is long only in its logarithm, and
/// one that calls on the shorter half is never deeper than here.
fn blocks(room: usize) -> Block {
    if room < 4 {
        return vec![];
    }
    let inner = (room - 4) / 8 * 4;
    let mut row = vec![Command::Block(blocks(inner))];
    row.extend(blocks(room - 4 - inner));
    row
}

/// The same of loops with index x1 and this bound.
fn loops(room: usize, bound: Variable) -> Block {
    if room < 20 {
        return vec![];
    }
    let inner = (room - 20) / 8 * 4;
    let body = loops(inner, bound);
    let mut row = vec![Command::Loop(1, Bound::Variable(bound), body)];
    row.extend(loops(room - 20 - inner, bound));
    row
}

/// The same of loops to x2 and blocks by turns, where what is within is the longer half.
fn loops_and_blocks(room: usize, is_loop: bool) -> Block {
    let head = if is_loop { 20 } else { 4 };
    if room < head {
        return vec![];
    }
    let rest = (room - head) / 8 * 4;
    let inner = loops_and_blocks(room - head - rest, !is_loop);
    let outer = if is_loop {
        Command::Loop(1, Bound::Variable(2), inner)
    } else {
        Command::Block(inner)
    };
    let mut row = vec![outer];
    row.extend(loops_and_blocks(rest, !is_loop));
    row
}

fn one(atom: Atom) -> Term {
    Term::Tuple(vec![atom])
}

fn let_ones(depth: usize) -> Term {
    let numeral = Simple::Atom(Atom::Numeral(7));
    let wrap = |last, _| Term::LetOne(1, numeral, Box::new(last));
    (0..depth).fold(one(Atom::Variable(1)), wrap)
}

/// Recs, each the body of the one around it: closed, and no translation.
fn recs(depth: usize) -> Term {
    let zero = Atom::Numeral(0);
    let wrap = |body, _| Term::Rec(1, zero, vec![zero], Box::new(body));
    (0..depth).fold(one(zero), wrap)
}

/// All programs in both editions, those whose translation fits behind those that are as long as can be.
pub fn program_records() -> Records {
    let of = |edition| [programs(edition), translatable(edition)].concat();
    EDITIONS
        .into_iter()
        .flat_map(|edition| encoded(of(edition)))
        .collect()
}

/// The same for the counting stepper (02, C-14): also the deepest that it takes, 31 within the
/// outermost block.
pub fn counting_records() -> Records {
    let of = |edition| [deepest(edition), programs(edition)].concat();
    EDITIONS
        .into_iter()
        .flat_map(|edition| encoded(of(edition)))
        .collect()
}

fn deepest(edition: Edition) -> Named<Program> {
    let in_turns = (0..31).fold(
        vec![Command::Assign(1, Expr::PlusOne(1))],
        |inner, n| match n % 2 {
            0 => vec![Command::Block(inner)],
            _ => vec![Command::Loop(1, Bound::Literal(2), inner)],
        },
    );
    let all = [
        named(31, "nested blocks", nest_of_blocks(1, 31)),
        named(31, "nested loops", nest_of_loops(1, 1, 31)),
        named(31, "loops and blocks", program(1, in_turns)),
    ];
    in_edition(edition, all, |program| &mut program.header)
}

pub fn term_records() -> Records {
    EDITIONS
        .into_iter()
        .flat_map(|edition| encoded(terms(edition)))
        .collect()
}

/// The same terms with 3 for every variable.
pub fn closed_records() -> Records {
    EDITIONS
        .into_iter()
        .flat_map(|edition| encoded(closed(edition)))
        .collect()
}

fn closed(edition: Edition) -> Named<TermRecord> {
    let mut all = terms(edition);
    for (_, record) in &mut all {
        let values = vec![3; record.header.k as usize];
        substitute(&mut record.term, &values_of(&values));
    }
    all
}

/// A tuple of 16 numerals.
pub fn finished_record() -> Records {
    let term = Term::Tuple(vec![Atom::Numeral(5); 16]);
    let of = |edition| {
        let all = [named(16, "numerals", TermRecord::new(16, term.clone()))];
        encoded(in_edition(edition, all, |term| &mut term.header))
    };
    EDITIONS.into_iter().flat_map(of).collect()
}

/// What a result is asked of: terms that are open, closed and finished.
pub fn result_records() -> Records {
    [term_records(), closed_records(), finished_record()].concat()
}

/// What is moved to the other edition (02, C-18): the longest of edition 2, with the largest ceiling, and the
/// same in edition 1, whose move gives them.
pub fn programs_to_move() -> Records {
    [Edition::First, LARGEST]
        .into_iter()
        .flat_map(programs_to_move_from)
        .collect()
}

pub fn terms_to_move() -> Records {
    [Edition::First, LARGEST]
        .into_iter()
        .flat_map(terms_to_move_from)
        .collect()
}

/// Those of one edition.
pub fn programs_to_move_from(edition: Edition) -> Records {
    moved_to(edition, programs(LARGEST))
}

pub fn terms_to_move_from(edition: Edition) -> Records {
    moved_to(edition, terms(LARGEST))
}

/// Records of edition 2 in this edition, and by its name.
fn moved_to<R: Record>(edition: Edition, all: Named<R>) -> Records {
    let one = |(name, record): (String, R)| {
        let name = name.trim_end_matches(suffix(LARGEST));
        let record = record.in_edition(edition).encode();
        (format!("{name}{}", suffix(edition)), record)
    };
    all.into_iter().map(one).collect()
}

fn encoded<R: Record>(all: Named<R>) -> Records {
    let one = |(name, record): (String, R)| (name, record.encode());
    all.into_iter().map(one).collect()
}
