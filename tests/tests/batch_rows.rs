//! The refusals of a batch (02, C-16 and C-17): 1 of three buffers, 14, 2 to 5, 15, 6, 16 and 10, each
//! at its boundary, and their order. A refusal gives its number and 0, and changes nothing that was
//! lent.

use other::both::run_batch;
use other::calls::Written;
use other::codec::Record;
use other::examples::{add, program};
use other::generate::batches::{job, Batch};
use other::generate::damage::{cut, damaged, Damaged};
use other::generate::programs::program as any_program;
use other::random::{cases, Rows};
use other::tree::{Bound, Command, Expr, Program};

/// Two jobs of ADD, with P1's store and P2's.
fn batch() -> Batch {
    let jobs = [job(&[7, 3, 0, 0], 18), job(&[7, 0, 0, 0], 3)];
    Batch::of(&add().encode(), &jobs)
}

/// Fails unless the batch is refused with this number, or, with 0, accepted.
fn expect(number: u32, batch: &Batch) {
    let mut lent = batch.clone();
    let written = lent.run(run_batch);
    if number == 0 {
        assert_eq!(written.number, 0);
        return;
    }
    assert_eq!(written, Written::refused(number));
    assert!(lent == *batch, "refused with {number}, but changed");
}

fn changed(change: impl FnOnce(&mut Batch)) -> Batch {
    let mut batch = batch();
    change(&mut batch);
    batch
}

/// k = 4, {x3 := 2; for x4 := 1 to x2 {x3 := x3 + 1}}: ADD from 2 on, whatever x1 is.
fn from_two() -> Program {
    let body = vec![Command::Assign(3, Expr::PlusOne(3))];
    let block = vec![
        Command::Assign(3, Expr::Literal(2)),
        Command::Loop(4, Bound::Variable(2), body),
    ];
    program(4, block)
}

/// The same two jobs of it, under a ceiling of 9.
fn under_ceiling() -> Batch {
    let jobs = [job(&[7, 3, 0, 0], 18), job(&[7, 0, 0, 0], 3)];
    Batch::of(&from_two().under(9).encode(), &jobs)
}

/// The literal 2 of the program, at the ceiling and above it.
#[test]
fn row_15_of_the_program() {
    for (ceiling, number) in [(9, 0), (3, 16), (2, 16), (1, 15), (0, 15)] {
        let mut batch = under_ceiling();
        batch.program = from_two().under(ceiling).encode();
        expect(number, &batch);
    }
    // With values within it a ceiling of 2 is enough for the literal, but not for the first sum.
    let mut batch = Batch::of(&from_two().under(2).encode(), &[job(&[0, 1, 0, 0], 18)]);
    expect(0, &batch);
    batch.run(run_batch);
    assert_eq!(batch.answers, [2, 5, 0, 0, 0, 0]);
}

/// Each value of each store at the ceiling, and above it.
#[test]
fn row_16_of_the_values() {
    for ceiling in [9, 1_000, u32::MAX - 1] {
        let mut sound = under_ceiling();
        sound.program = from_two().under(ceiling).encode();
        for place in 0..sound.values.len() {
            for (value, number) in [
                (ceiling - 1, 0),
                (ceiling, 0),
                (ceiling + 1, 16),
                (u32::MAX, 16),
            ] {
                let mut batch = sound.clone();
                batch.values[place] = value;
                expect(number, &batch);
            }
        }
    }
    // What only takes answers, and the budgets, are no values: they may be above it.
    let mut batch = under_ceiling();
    batch.answers.fill(10);
    batch.budgets.fill(u32::MAX);
    expect(0, &batch);
}

/// 16,384 bytes are allowed of each of the three buffers, and one more of none. A used length may be
/// the buffer's; 64 and more would be 64 if it were cut to 16 or 32 bits.
#[test]
fn row_1_of_three_buffers() {
    expect(0, &changed(|batch| batch.program.resize(16_384, 0xA5)));
    expect(1, &changed(|batch| batch.program.resize(16_385, 0xA5)));
    for (len, number) in [(16_384, 0), (16_385, 1), (65_536 + 16_384, 1)] {
        expect(number, &changed(|batch| batch.term.resize(len, 0)));
        expect(number, &changed(|batch| batch.work.resize(len, 0)));
    }
    for used in [65, 16_385, 65_536 + 64, (1 << 32) + 64, usize::MAX] {
        expect(1, &changed(|batch| batch.used = used));
    }
}

/// 1 to 64 stores, at k = 1, 4 and 16; 257 and 65,537 would be 1 if they were cut to 8 or 16 bits.
#[test]
fn row_14_below_1_and_above_64() {
    for k in [1, 4, 16] {
        let block = vec![Command::Assign(k, Expr::PlusOne(1))];
        let record = program(k, block).encode();
        for stores in (0..=70).chain([128, 256, 257, 320, 65_537, 65_600]) {
            let jobs = vec![job(&vec![3; k as usize], 9); stores];
            let number = if (1..=64).contains(&stores) { 0 } else { 14 };
            expect(number, &Batch::of(&record, &jobs));
        }
    }
}

/// Other than k values, or k + 2 places, for each store: one fewer, one more, those of one more store or of
/// one alone, none; places without outcome or count; and both as for one store more.
#[test]
fn row_6_of_values_and_of_answers() {
    for (k, stores) in (1..=16).flat_map(|k| (1..=64).map(move |stores| (k, stores))) {
        let record = program(k as u32, vec![]).encode();
        let mut sound = Batch::of(&record, &vec![job(&vec![3; k], 9); stores]);
        sound.term.truncate(200);
        sound.work.truncate(200);
        let (values, places) = (stores * k, stores * (k + 2));
        let lent = |values, places| {
            let mut batch = sound.clone();
            batch.values.resize(values, 3);
            batch.answers.resize(places, 3);
            batch
        };
        expect(0, &lent(values, places));
        for n in [0, k, values - 1, values + 1, values + k, places] {
            expect(if n == values { 0 } else { 6 }, &lent(n, places));
        }
        for n in [0, k + 2, values, values + stores, places - 1, places + 1] {
            expect(if n == places { 0 } else { 6 }, &lent(values, n));
        }
        expect(6, &lent(values + k, places + k + 2));
    }
}

/// ADD's term is 172 bytes: neither of the two may be shorter, and either may be just so long.
#[test]
fn row_10_of_term_and_of_work() {
    for (term, work, number) in [
        (172, 172, 0),
        (171, 172, 10),
        (172, 171, 10),
        (171, 171, 10),
        (16_384, 171, 10),
        (171, 16_384, 10),
        (0, 16_384, 10),
        (16_384, 0, 10),
    ] {
        let rooms = |batch: &mut Batch| {
            batch.term.truncate(term);
            batch.work.truncate(work);
        };
        expect(number, &changed(rooms));
    }
}

/// Something that makes a row apply, and no row before it.
type Flaw = (u32, fn(&mut Batch));

/// In the table's order. Of the program's bytes, 2 is the kind, 4 is k, 20 the variable of the first
/// assignment, 28 its literal, and 62 the kind of the last expression. Clearing the budgets makes the
/// lengths of the rest wrong too, but 14 is before 6.
const FLAWS: [Flaw; 19] = [
    (1, |batch| batch.program.resize(16_385, 0)),
    (1, |batch| batch.used = batch.program.len() + 1),
    (1, |batch| batch.term.resize(16_385, 0)),
    (1, |batch| batch.work.resize(16_385, 0)),
    (14, |batch| batch.budgets.clear()),
    (14, |batch| batch.budgets.resize(65, 9)),
    (2, |batch| batch.program[2] = 8),
    (3, |batch| batch.program[4] = 17),
    (4, |batch| batch.program[62] = 20),
    (5, |batch| batch.program[20] = 5),
    (15, |batch| batch.program[28] = 10),
    (6, |batch| batch.values.resize(7, 3)),
    (6, |batch| batch.values.resize(9, 3)),
    (6, |batch| batch.answers.resize(11, 3)),
    (6, |batch| batch.answers.resize(13, 3)),
    (16, |batch| batch.values[0] = 10),
    (16, |batch| {
        batch.values.iter_mut().for_each(|value| *value += 10)
    }),
    (10, |batch| batch.term.truncate(175)),
    (10, |batch| batch.work.truncate(175)),
];

/// Where any two rows apply, the first is given. Its flaw is made last, because two may be of one thing: a
/// buffer that is too short, then too long.
#[test]
fn the_first_of_two_rows_is_given() {
    expect(0, &under_ceiling());
    let mut tried = 0;
    for (n, (number, flaw)) in FLAWS.iter().enumerate() {
        let mut one = under_ceiling();
        flaw(&mut one);
        expect(*number, &one);
        for (_, later) in &FLAWS[n + 1..] {
            let mut both = under_ceiling();
            later(&mut both);
            flaw(&mut both);
            expect(*number, &both);
            tried += 1;
        }
    }
    assert_eq!(tried, 171);
}

/// Damaged programs give the row that they were damaged for, whatever is wrong with the lengths; with no
/// store or 65 it is 14, unless it is 1.
#[test]
fn damaged_programs_are_refused() {
    let rows = Rows::default();
    cases(20_000, |random| {
        let limit = 12 + random.below(200);
        let sound = any_program(random, limit).encode();
        let Damaged {
            buffer,
            used,
            number,
        } = if random.one_in(5) {
            cut(random, &sound)
        } else {
            damaged(random, &sound)
        };
        let stores = *random.pick(&[0, 1, 1, 2, 3, 64, 65]);
        let mut number = number.expect("a known row");
        if number != 1 && !(1..=64).contains(&stores) {
            number = 14;
        }
        let mut batch = Batch::of(&[], &vec![job(&[3], 9); stores]);
        (batch.program, batch.used) = (buffer, used);
        batch.values.resize(random.below(20), 3);
        batch.term.truncate(random.below(300));
        batch.work.truncate(random.below(300));
        rows.one(number);
        expect(number, &batch);
    });
    rows.assert_at_least(&[
        (1, 500),
        (2, 500),
        (3, 500),
        (4, 500),
        (5, 500),
        (14, 2_000),
        (15, 300),
    ]);
}
