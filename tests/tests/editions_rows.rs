//! The refusals of the four calls that move a record to the other edition (02, C-18): each row at its
//! boundary and one past it, and the order of all of them. A refusal gives 0 for the length and leaves the
//! output as it came. The source is only read: `both` looks at every byte of it.

use other::both::{
    program_to_edition_1, program_to_edition_2, term_to_edition_1, term_to_edition_2,
};
use other::calls::Written;
use other::codec::Record;
use other::examples::program;
use other::generate::damage::{wrong_variables, WRONG_K};
use other::generate::lend;
use other::tree::Atom::{Numeral, Variable};
use other::tree::{Bound, Command, Edition, Expr, Program, Simple, Term, TermRecord};

const MAX: u32 = u32::MAX;

type Call = fn(&[u8], usize, &mut [u8]) -> Written;

/// One of the four calls: the kind that it takes, the one that it gives, and its rows in order. Row 15 is none
/// of moving to edition 2: no value is above edition 1's ceiling.
struct Move {
    call: Call,
    from: u8,
    to: u8,
    rows: &'static [u32],
}

const TO_EDITION_2: &[u32] = &[1, 2, 3, 4, 5, 10];
const TO_EDITION_1: &[u32] = &[1, 2, 3, 4, 5, 15, 17, 10];

const MOVES: [Move; 4] = [
    Move {
        call: program_to_edition_2,
        from: 7,
        to: 9,
        rows: TO_EDITION_2,
    },
    Move {
        call: program_to_edition_1,
        from: 9,
        to: 7,
        rows: TO_EDITION_1,
    },
    Move {
        call: term_to_edition_2,
        from: 40,
        to: 41,
        rows: TO_EDITION_2,
    },
    Move {
        call: term_to_edition_1,
        from: 41,
        to: 40,
        rows: TO_EDITION_1,
    },
];

/// What is lent to such a call; the output is filled with something.
#[derive(Clone)]
struct Lent {
    source: Vec<u8>,
    used: usize,
    room: usize,
}

impl Lent {
    fn holding(record: Vec<u8>) -> Lent {
        Lent {
            used: record.len(),
            room: 100,
            source: record,
        }
    }

    /// The call's number. Refused, it must give 0 for the length and leave the output as it came.
    fn number(&self, call: Call) -> u32 {
        let mut out = vec![0xA5; self.room];
        let written = call(&self.source, self.used, &mut out);
        if written.number != 0 {
            assert_eq!(written, Written::refused(written.number));
            assert!(out.iter().all(|byte| *byte == 0xA5));
        }
        written.number
    }
}

impl Move {
    fn number(&self, record: &[u8]) -> u32 {
        Lent::holding(record.to_vec()).number(self.call)
    }

    fn is_of_terms(&self) -> bool {
        self.from >= 40
    }

    /// To edition 1, so that the source has a ceiling.
    fn is_back(&self) -> bool {
        matches!(self.from, 9 | 41)
    }

    /// The edition that the source has, under this ceiling if it has one.
    fn source(&self, ceiling: u32) -> Edition {
        if self.is_back() {
            Edition::Second(ceiling)
        } else {
            Edition::First
        }
    }

    /// A record of k variables that the call takes, the program {x1 := value; x2 := x1} or the term
    /// let x1 = value in (x1, x2), with the variable in the place of the second.
    fn record(&self, value: u32, variable: u32, ceiling: u32) -> Vec<u8> {
        let edition = self.source(ceiling);
        if self.is_of_terms() {
            let last = Term::Tuple(vec![Variable(1), Variable(variable)]);
            let term = Term::LetOne(1, Simple::Atom(Numeral(value)), Box::new(last));
            return TermRecord::new(2, term).in_edition(edition).encode();
        }
        let block = vec![
            Command::Assign(1, Expr::Literal(value)),
            Command::Assign(variable, Expr::Variable(1)),
        ];
        program(2, block).in_edition(edition).encode()
    }

    /// How long the answer to that record is.
    fn answer_len(&self) -> usize {
        let len = self.record(0, 2, MAX).len();
        if self.is_back() {
            len - 4
        } else {
            len + 4
        }
    }
}

// The order of the rows.

/// Ways in which row 1 applies, and row 2.
const WAYS_OF_1: usize = 3;
const WAYS_OF_2: usize = 5;

/// Something lent to the call to which just these rows apply, 1 and 2 in one of their ways. A value above the
/// ceiling is above a smaller one than the largest, so 17 applies wherever 15 does.
fn flawed(call: &Move, flaws: &[u32], [one, two]: [usize; 2]) -> Lent {
    let has = |number| flaws.contains(&number);
    let ceiling = if has(15) || has(17) { MAX - 1 } else { MAX };
    let value = if has(15) { MAX } else { MAX - 1 };
    let variable = if has(5) { 3 } else { 2 };
    let mut lent = Lent::holding(call.record(value, variable, ceiling));
    lent.room = call.answer_len() - usize::from(has(10));
    let contents = if call.is_back() { 12 } else { 8 };
    if has(4) {
        // The kind of the block or term.
        lent.source[contents + 2] = 4;
    }
    if has(3) {
        lent.source[4] = 17;
    }
    if has(2) {
        wrong_header(&mut lent, call, two);
    }
    if has(1) {
        wrong_buffer(&mut lent, one);
    }
    lent
}

fn wrong_header(lent: &mut Lent, call: &Move, way: usize) {
    match way {
        0 => lent.source[2] = call.to,
        1 => lent.source[2] = 8,
        2 if call.is_of_terms() => lent.source[2] = 7,
        2 => lent.source[2] = 40,
        3 => lent.source[0] += 1,
        _ => lent.used = 7,
    }
}

fn wrong_buffer(lent: &mut Lent, way: usize) {
    match way {
        0 => lent.used = lent.source.len() + 1,
        1 => lent.source.resize(16_385, 0),
        _ => lent.room = 16_385,
    }
}

/// Of any rows that apply together the first is given; with none, the call accepts. Every set of them is
/// tried, with each way of rows 1 and 2.
#[test]
fn the_first_of_any_rows_is_given() {
    for call in &MOVES {
        for set in 0..1 << call.rows.len() {
            let applies = |n: &usize| set >> n & 1 == 1;
            let chosen = (0..call.rows.len()).filter(applies).map(|n| call.rows[n]);
            let flaws: Vec<u32> = chosen.collect();
            let wanted = flaws.first().copied().unwrap_or(0);
            for ways in 0..WAYS_OF_1 * WAYS_OF_2 {
                let ways = [ways % WAYS_OF_1, ways / WAYS_OF_1];
                let number = flawed(call, &flaws, ways).number(call.call);
                assert_eq!(number, wanted, "from {}: {flaws:?}, {ways:?}", call.from);
            }
        }
    }
}

// Row 1.

/// 16,384 bytes may be lent, as source and as output, and one more may not; nor a used length above the
/// source. With the output it is looked at before anything else, also with an empty source.
#[test]
fn buffers_above_their_length() {
    for call in &MOVES {
        let record = call.record(0, 2, MAX);
        let number = |source: usize, used, room| {
            let source = lend(&record, source);
            Lent { source, used, room }.number(call.call)
        };
        let used = record.len();
        assert_eq!(number(16_384, used, 16_384), 0);
        assert_eq!(number(16_385, used, 16_384), 1);
        assert_eq!(number(16_384, used, 16_385), 1);
        assert_eq!(number(used, used, 100), 0);
        for wrong in [used + 1, used + 65_536, used + (1 << 32), usize::MAX] {
            assert_eq!(number(used, wrong, 100), 1);
        }
        assert_eq!(number(16_384, 16_385, 100), 1);
        // A used length within the buffer is not row 1's.
        assert_eq!(number(used + 1, used + 1, 100), 2);
        let nothing = |room| {
            let (source, used) = (vec![], 0);
            Lent { source, used, room }.number(call.call)
        };
        assert_eq!([nothing(0), nothing(16_384), nothing(16_385)], [2, 2, 1]);
    }
}

// Row 2.

/// Of all kinds a call takes just one; the other edition's is wrong, and so are 8, those of the other sort
/// of record, and those whose lower byte is right.
#[test]
fn every_kind_of_a_header() {
    let kinds = (0..=300).chain([0x0700, 0x0900, 0x2800, 0x2900, 0x0709, 65_535]);
    for kind in kinds {
        for call in &MOVES {
            let mut record = call.record(0, 2, MAX);
            record[2..4].copy_from_slice(&u16::to_le_bytes(kind));
            let wanted = if kind == u16::from(call.from) { 0 } else { 2 };
            assert_eq!(call.number(&record), wanted, "kind {kind} to {}", call.to);
        }
    }
}

/// What is already in the edition asked for is refused, whatever it holds: sound, under any ceiling, with a
/// wrong k, with bytes outside the grammar, of a header alone.
#[test]
fn already_in_the_edition_asked_for() {
    for (call, other) in [(0, 1), (1, 0), (2, 3), (3, 2)].map(|(a, b)| (&MOVES[a], &MOVES[b])) {
        for ceiling in [0, 5, MAX - 1, MAX] {
            let record = other.record(0, 2, ceiling);
            assert_eq!(record[2], call.to);
            assert_eq!(call.number(&record), 2);
            let mut wrong = record.clone();
            wrong[4] = 17;
            assert_eq!(call.number(&wrong), 2);
            wrong[14] = 4;
            assert_eq!(call.number(&wrong), 2);
            for used in 0..=16 {
                let mut lent = Lent::holding(record[..used].to_vec());
                if used > 0 {
                    lent.source[0] = used as u8;
                }
                assert_eq!(lent.number(call.call), 2, "{used} bytes");
            }
        }
    }
}

/// A header needs 8 bytes in edition 1 and 12 in edition 2, whatever k is: shorter ones are 2 with the length
/// that they say. With just a header k is looked at (3), and then the block or term is missing (4).
#[test]
fn the_bytes_that_a_header_needs() {
    for call in &MOVES {
        let needed = if call.is_back() { 12 } else { 8 };
        let record = call.record(0, 2, MAX);
        for used in [0, 1, 2, 3, 4, 5, 6, 7, 8, 9, 10, 11, 12, 13, 15, 16] {
            for k in [0, 2, 17] {
                let mut lent = Lent::holding(record.clone());
                lent.source[0] = used as u8;
                lent.source[4] = k;
                lent.used = used;
                let wanted = match k {
                    _ if used < needed => 2,
                    2 => 4,
                    _ => 3,
                };
                assert_eq!(lent.number(call.call), wanted, "{used} bytes, k = {k}");
                // The buffer may be just so long.
                lent.source.truncate(used);
                assert_eq!(lent.number(call.call), wanted, "{used} bytes, k = {k}");
            }
        }
    }
}

/// The header's length is the used length, neither one less nor one more, nor with 256 more.
#[test]
fn the_length_is_the_used_length() {
    for call in &MOVES {
        let record = call.record(0, 2, MAX);
        let len = record.len();
        for said in [0, len - 4, len - 1, len + 1, len + 4, len + 256] {
            let mut lent = Lent::holding(lend(&record, 400));
            lent.used = len;
            lent.source[..2].copy_from_slice(&(said as u16).to_le_bytes());
            assert_eq!(lent.number(call.call), 2, "{said} of {len}");
        }
        for used in (0..len).chain(len + 1..len + 9) {
            let mut lent = Lent::holding(lend(&record, 400));
            lent.used = used;
            assert_eq!(lent.number(call.call), 2, "{used} used of {len}");
        }
    }
}

// Rows 3, 4 and 5.

#[test]
fn k_is_1_to_16() {
    for call in &MOVES {
        for k in WRONG_K {
            let mut record = call.record(0, 2, MAX);
            record[4..8].copy_from_slice(&k.to_le_bytes());
            assert_eq!(call.number(&record), 3, "k = {k}");
        }
        for k in [1, 2, 15, 16] {
            let edition = call.source(MAX);
            let all = Term::Tuple((1..=k).map(Variable).collect());
            let record = if call.is_of_terms() {
                TermRecord::new(k, all).in_edition(edition).encode()
            } else {
                program(k, vec![]).in_edition(edition).encode()
            };
            let mut lent = Lent::holding(record);
            lent.room = 200;
            assert_eq!(lent.number(call.call), 0, "k = {k}");
        }
    }
}

/// Bytes outside the grammar: a kind that no record has, a length that is not true, a byte more, a ceiling
/// that is missing, and one too many.
#[test]
fn bytes_outside_the_grammar() {
    for call in &MOVES {
        let record = call.record(0, 2, MAX);
        let header = if call.is_back() { 12 } else { 8 };
        for kind in [0, 4, 6, 7, 8, 9, 40, 41, 42] {
            let mut wrong = record.clone();
            wrong[header + 2] = kind;
            assert_eq!(call.number(&wrong), 4, "kind {kind} within");
        }
        for by in [1, 2, 255] {
            let mut wrong = record.clone();
            wrong[header] = wrong[header].wrapping_add(by);
            assert_eq!(call.number(&wrong), 4);
        }
        let mut wrong = record.clone();
        wrong.push(0);
        wrong[0] += 1;
        assert_eq!(call.number(&wrong), 4);
        // A word more, or a word less, behind k.
        let more = [&record[..8], &[255; 4], &record[8..]].concat();
        assert_eq!(call.number(&with_length(more)), 4);
        let less = [&record[..8], &record[12..]].concat();
        assert_eq!(call.number(&with_length(less)), 4);
    }
}

/// The record with its own length in its header.
fn with_length(mut record: Vec<u8>) -> Vec<u8> {
    let len = record.len() as u16;
    record[..2].copy_from_slice(&len.to_le_bytes());
    record
}

#[test]
fn a_variable_is_1_to_k() {
    for call in &MOVES {
        assert_eq!(call.number(&call.record(0, 1, MAX)), 0);
        assert_eq!(call.number(&call.record(0, 2, MAX)), 0);
        for wrong in wrong_variables(2) {
            assert_eq!(call.number(&call.record(0, wrong, MAX)), 5, "x{wrong}");
        }
    }
}

// Rows 15 and 17.

/// Ceilings smaller than the largest value: the two ends, and one in which each byte in turn is not full.
const SMALLER: [u32; 9] = [
    0,
    1,
    255,
    0x7FFF_FFFF,
    0xFFFF_FF00,
    0xFFFF_00FF,
    0xFF00_FFFF,
    0x00FF_FFFF,
    MAX - 1,
];

/// The programs and terms of k = 2 that have this value, at each place that can hold one.
fn programs_with(value: u32) -> Vec<Program> {
    let literal = Command::Assign(1, Expr::Literal(value));
    let counted = Command::Loop(1, Bound::Literal(value), vec![]);
    let around = |inner: &Command| Command::Loop(2, Bound::Variable(1), vec![inner.clone()]);
    let deep =
        |inner: &Command| (0..20).fold(inner.clone(), |inner, _| Command::Block(vec![inner]));
    let blocks = [
        vec![literal.clone()],
        vec![counted.clone()],
        vec![around(&literal)],
        vec![around(&counted), Command::Block(vec![])],
        vec![Command::Block(vec![]), deep(&literal)],
        vec![deep(&counted)],
    ];
    blocks.map(|block| program(2, block)).to_vec()
}

fn terms_with(value: u32) -> Vec<TermRecord> {
    let (zero, n) = (Numeral(0), Numeral(value));
    let pair = |first, second| Term::Tuple(vec![first, second]);
    let zeros = || Box::new(pair(zero, zero));
    let let_one = |simple| Term::LetOne(1, simple, zeros());
    let terms = [
        pair(zero, n),
        let_one(Simple::Atom(n)),
        let_one(Simple::Succ(n)),
        let_one(Simple::Pred(n)),
        Term::LetAll(Box::new(pair(n, zero)), zeros()),
        Term::LetAll(zeros(), Box::new(pair(zero, n))),
        Term::Rec(1, n, vec![zero, zero], zeros()),
        Term::Rec(1, zero, vec![zero, n], zeros()),
        Term::Rec(1, zero, vec![zero, zero], Box::new(pair(n, zero))),
    ];
    terms.map(|term| TermRecord::new(2, term)).to_vec()
}

/// Every record with this value, in the edition that the call moves from.
fn records_with(call: &Move, value: u32, ceiling: u32) -> Vec<Vec<u8>> {
    let edition = call.source(ceiling);
    if call.is_of_terms() {
        let all = terms_with(value).into_iter();
        return all.map(|it| it.in_edition(edition).encode()).collect();
    }
    let all = programs_with(value).into_iter();
    all.map(|it| it.in_edition(edition).encode()).collect()
}

/// Back to edition 1 only from the largest ceiling: any smaller one is 17, with every value within it, and
/// 15 with one above it at whichever place. With the largest no value is above it.
#[test]
fn ceilings_and_values_about_them() {
    for call in MOVES.iter().filter(|call| call.is_back()) {
        let all = |value, ceiling, wanted| {
            for record in records_with(call, value, ceiling) {
                let mut lent = Lent::holding(record);
                lent.room = 400;
                assert_eq!(lent.number(call.call), wanted, "{value} under {ceiling}");
            }
        };
        for ceiling in SMALLER {
            all(0, ceiling, 17);
            all(ceiling.saturating_sub(1), ceiling, 17);
            all(ceiling, ceiling, 17);
            all(ceiling + 1, ceiling, 15);
            all(MAX, ceiling, 15);
        }
        for value in [0, 1, MAX - 1, MAX] {
            all(value, MAX, 0);
        }
    }
}

/// Moving to edition 2 there is no such row: every value passes.
#[test]
fn edition_1_has_no_smaller_ceiling() {
    for call in MOVES.iter().filter(|call| !call.is_back()) {
        for value in [0, 1, MAX - 1, MAX] {
            for record in records_with(call, value, MAX) {
                let mut lent = Lent::holding(record);
                lent.room = 400;
                assert_eq!(lent.number(call.call), 0, "{value}");
            }
        }
    }
}

// Row 10.

/// The answer is 4 bytes longer than the record, or 4 shorter: into just so many it goes, into one less it
/// does not, nor into none. Nothing but the output's length decides it.
#[test]
fn the_answer_fits_or_not() {
    for call in &MOVES {
        let record = call.record(5, 2, MAX);
        let len = call.answer_len();
        for (room, wanted) in [(len, 0), (len + 1, 0), (16_384, 0), (len - 1, 10), (0, 10)] {
            let mut lent = Lent::holding(record.clone());
            lent.room = room;
            assert_eq!(lent.number(call.call), wanted, "{room} for {len}");
            lent.source = lend(&record, 16_384);
            assert_eq!(lent.number(call.call), wanted, "{room} for {len}");
        }
        // An output as long as the source is enough on the way back alone.
        let mut lent = Lent::holding(record.clone());
        lent.room = record.len();
        let wanted = if call.is_back() { 0 } else { 10 };
        assert_eq!(lent.number(call.call), wanted);
    }
}

/// A small ceiling before an output that is too short; a value above the ceiling before both.
#[test]
fn a_small_ceiling_before_a_short_output() {
    for call in MOVES.iter().filter(|call| call.is_back()) {
        for room in [0, call.answer_len() - 1] {
            let number = |value, ceiling| {
                let mut lent = Lent::holding(call.record(value, 2, ceiling));
                lent.room = room;
                lent.number(call.call)
            };
            assert_eq!(number(9, MAX), 10);
            assert_eq!(number(9, 9), 17);
            assert_eq!(number(9, MAX - 1), 17);
            assert_eq!(number(9, 8), 15);
        }
    }
}
