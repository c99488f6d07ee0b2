//! Programs and terms under a ceiling (02, C-17): when a run is over, that every engine stops alike,
//! that the ceiling travels through translation, read-back and the writing out, and that edition 1
//! counts as the largest value. `ceiling_rows.rs` has the refusals, `lockstep.rs` and
//! `lockstep_counting.rs` the lists of runs.

use other::both::{
    expand, read_back, result, run_batch, run_counting, run_reducer, run_stepper, substitute,
    translate,
};
use other::codec::{header_len, hex, Record};
use other::examples::{add, examples_under_ceiling, plus_one, program, Example};
use other::generate::batches::{job, Batch};
use other::generate::lend;
use other::generate::programs::store;
use other::generate::states::{body, shallow_program, unrolling, waiting, words};
use other::random::{cases, Counts};
use other::run::counting::words::{Words, STATE_WORDS};
use other::run::stepper::Config;
use other::run::{next_state, run, Answer, Machine, Outcome};
use other::tree::{Bound, Command, Expr, Header, Program, Value};

const MAX: Value = Value::MAX;
const ROOM: usize = 16_384;
const START: Words = [0; STATE_WORDS];

const FINISHED: u32 = Outcome::Finished as u32;
const OVER: u32 = Outcome::Over as u32;
const SPENT: u32 = Outcome::Spent as u32;

/// What every engine makes of a program and a start store, with all room and this budget: they must
/// agree. Gives the outcome, the steps and the steppers' store.
fn every_engine(program: &Program, start: &[Value], budget: u32) -> (u32, u32, Vec<Value>) {
    let record = program.encode();
    let (mut buffer, mut values) = (lend(&record, ROOM), start.to_vec());
    let ran = run_stepper(&mut buffer, record.len(), &mut values, budget);
    assert_eq!(ran.number, 0);
    let ended = (ran.outcome, ran.steps);

    let (mut state, mut counted_values) = (START, start.to_vec());
    let used = record.len();
    let counted = run_counting(&record, used, &mut state, &mut counted_values, budget);
    assert_eq!((counted.outcome, counted.steps), ended);
    assert_eq!(counted_values, values);

    let mut term = vec![0xA5; ROOM];
    let written = translate(&record, used, &mut term);
    let substituted = substitute(&mut term, written.used as usize, start);
    assert_eq!((written.number, substituted.number), (0, 0));
    let reduced = run_reducer(&mut term, substituted.used as usize, budget).ran;
    assert_eq!((reduced.outcome, reduced.steps), ended);
    let mut shown = vec![77; start.len()];
    let number = result(&term, reduced.used as usize, &mut shown);
    let wanted = if ended.0 == FINISHED {
        (0, &values)
    } else {
        (8, &vec![77; start.len()])
    };
    assert_eq!((number, &shown), wanted);

    let mut batch = Batch::of(&record, &[job(start, budget)]);
    assert_eq!(batch.run(run_batch).number, 0);
    let end = if ended.0 == FINISHED {
        values.clone()
    } else {
        vec![0; start.len()]
    };
    assert_eq!(batch.answers, [vec![ended.0, ended.1], end].concat());
    (ended.0, ended.1, values)
}

/// The examples under their ceilings: outcome, steps and store of every engine, with more budget than
/// they need and with just enough; with one step less a run is spent.
#[test]
fn the_examples_under_a_ceiling() {
    for Example {
        name,
        program,
        store,
        outcome,
        steps,
        end,
    } in examples_under_ceiling()
    {
        let wanted = (outcome.number(), steps, end);
        assert_eq!(every_engine(&program, &store, 1_000_000), wanted, "{name}");
        assert_eq!(every_engine(&program, &store, steps), wanted, "{name}");
        if let Some(less) = steps.checked_sub(1) {
            let (outcome, made, _) = every_engine(&program, &store, less);
            assert_eq!((outcome, made), (SPENT, less), "{name}");
        }
    }
}

/// Over is a next value above the ceiling, and not one at it: {x1 := x1 + 1} on one below takes its two
/// steps, and on the ceiling itself none.
#[test]
fn over_is_above_the_ceiling() {
    for ceiling in [1, 2, 9, 255, 256, 65_535, 65_536, 1 << 31, MAX - 1, MAX] {
        let program = plus_one().under(ceiling);
        let below = every_engine(&program, &[ceiling - 1], 9);
        assert_eq!(below, (FINISHED, 2, vec![ceiling]));
        assert_eq!(
            every_engine(&program, &[ceiling], 9),
            (OVER, 0, vec![ceiling])
        );
        assert_eq!(
            every_engine(&program, &[ceiling], 0),
            (OVER, 0, vec![ceiling])
        );
        assert_eq!(every_engine(&program, &[0], 9), (FINISHED, 2, vec![1]));
    }
    assert_eq!(
        every_engine(&plus_one().under(0), &[0], 9),
        (OVER, 0, vec![0])
    );
}

/// Nothing but plus one goes over: a literal, a variable, minus one, a bound and an index may all be at
/// the ceiling. {x1 := 3; x2 := x1; x2 := x2 - 1; for x1 := 1 to 3 {}; for x2 := 1 to x1 {}} takes 1 +
/// 1 + 2, and 3·3 + 2 for each loop of three turns.
#[test]
fn nothing_else_goes_over() {
    let block = vec![
        Command::Assign(1, Expr::Literal(3)),
        Command::Assign(2, Expr::Variable(1)),
        Command::Assign(2, Expr::MinusOne(2)),
        Command::Loop(1, Bound::Literal(3), vec![]),
        Command::Loop(2, Bound::Variable(1), vec![]),
    ];
    let program = program(2, block).under(3);
    assert_eq!(
        every_engine(&program, &[3, 3], 99),
        (FINISHED, 26, vec![3, 3])
    );
    // And a store that is not touched may be at it.
    let empty = Program::new(2, vec![]).under(MAX - 1);
    let ends = [MAX - 1, MAX - 1];
    assert_eq!(every_engine(&empty, &ends, 9), (FINISHED, 0, ends.to_vec()));
}

/// A sum that is never worked out is not over: in a loop of no turns, and behind the end of the budget.
#[test]
fn over_comes_when_its_step_is_next() {
    let one_more = || vec![Command::Assign(1, Expr::PlusOne(1))];
    let never = vec![Command::Loop(2, Bound::Variable(2), one_more())];
    let program = Program::new(2, never).under(5);
    assert_eq!(
        every_engine(&program, &[5, 0], 9),
        (FINISHED, 2, vec![5, 0])
    );
    // One turn: unrolled, two steps at 0, the index; then the sum would be 6.
    for (budget, outcome, steps) in [(3, SPENT, 3), (4, OVER, 4), (9, OVER, 4)] {
        let (got, made, _) = every_engine(&program, &[5, 1], budget);
        assert_eq!((got, made), (outcome, steps));
    }
    // Over inside blocks that no step has opened.
    let nested = (0..5).fold(one_more(), |inner, _| vec![Command::Block(inner)]);
    let program = Program::new(1, nested).under(5);
    assert_eq!(every_engine(&program, &[5], 9), (OVER, 0, vec![5]));
    assert_eq!(every_engine(&program, &[4], 9), (FINISHED, 7, vec![5]));
}

/// {x1 := 5} with k = 1 under a ceiling of 258, byte by byte: the header keeps k and ceiling, and 9
/// becomes 41. Back again it is the same bytes, and each is refused in a buffer of one byte less.
#[test]
fn translation_and_read_back_keep_the_ceiling() {
    let source = [
        0x20, 0, 9, 0, 1, 0, 0, 0, 2, 1, 0, 0, // program of 32, k = 1, the ceiling
        0x14, 0, 1, 0, // block of 20
        0x10, 0, 2, 0, 1, 0, 0, 0, 8, 0, 16, 0, 5, 0, 0, 0, // x1 := 5
    ];
    let term = [
        0x28, 0, 41, 0, 1, 0, 0, 0, 2, 1, 0, 0, // header of 40, k = 1, the ceiling
        0x1C, 0, 37, 0, 1, 0, 0, 0, 8, 0, 32, 0, 5, 0, 0, 0, // x1 = 5 in
        0x0C, 0, 36, 0, 8, 0, 33, 0, 1, 0, 0, 0, // (x1)
    ];
    let mut out = [0xA5; 50];
    let written = translate(&source, 32, &mut out);
    assert_eq!((written.number, written.used), (0, 40));
    assert_eq!(hex(&out[..40]), hex(&term));
    assert_eq!(out[40..], [0; 10]);
    let mut back = [0xA5; 50];
    let written = read_back(&out, 40, &mut back);
    assert_eq!((written.number, written.used), (0, 32));
    assert_eq!(hex(&back[..32]), hex(&source));
    assert_eq!(back[32..], [0; 18]);
    assert_eq!(translate(&source, 32, &mut out[..39]).number, 10);
    assert_eq!(read_back(&term, 40, &mut back[..31]).number, 10);
}

/// The least records of edition 2: {} at k = 1 has 16 bytes and its term 24.
#[test]
fn the_least_program_under_a_ceiling() {
    let source = [16, 0, 9, 0, 1, 0, 0, 0, 0, 0, 0, 0, 4, 0, 1, 0];
    let term = [
        24, 0, 41, 0, 1, 0, 0, 0, 0, 0, 0, 0, 12, 0, 36, 0, 8, 0, 33, 0, 1, 0, 0, 0,
    ];
    let mut out = [0xA5; 24];
    assert_eq!(translate(&source, 16, &mut out).used, 24);
    assert_eq!(out, term);
    assert_eq!(
        every_engine(&program(1, vec![]).under(0), &[0], 9),
        (FINISHED, 0, vec![0])
    );
}

/// A run leaves the header as it was: P1 to 10 ends with an empty block and a tuple of values, 16 and
/// 48 bytes with the ceiling in them.
#[test]
fn a_run_keeps_the_ceiling() {
    let record = add().under(10).encode();
    let mut buffer = lend(&record, 300);
    let ran = run_stepper(&mut buffer, record.len(), &mut [7, 3, 0, 0], 18);
    assert_eq!((ran.outcome, ran.used), (FINISHED, 16));
    let left = [16, 0, 9, 0, 4, 0, 0, 0, 10, 0, 0, 0, 4, 0, 1, 0];
    assert_eq!(buffer[..16], left);
    assert!(buffer[16..].iter().all(|byte| *byte == 0));
    let (program, store) = (add().under(10), vec![7, 3, 0, 0]);
    let term = Config { program, store }.term().encode();
    let mut buffer = lend(&term, 400);
    let ran = run_reducer(&mut buffer, term.len(), 18).ran;
    assert_eq!((ran.outcome, ran.used), (FINISHED, 48));
    assert_eq!(
        buffer[..16],
        [48, 0, 41, 0, 4, 0, 0, 0, 10, 0, 0, 0, 36, 0, 36, 0]
    );
}

/// 01's rooms with 4 bytes more for the header: on P1's store the configuration needs 160 bytes and the
/// term 388, and with one less each stops at 3.
#[test]
fn a_ceiling_takes_four_bytes_of_room() {
    let (program, store) = (add().under(10), vec![7, 3, 0, 0]);
    let (record, config) = (program.encode(), Config { program, store });
    let term = config.term().encode();
    assert_eq!((record.len(), term.len()), (68, 176));
    for (room, outcome, steps) in [(160, Outcome::Finished, 18), (159, Outcome::NoRoom, 3)] {
        let ran = run_stepper(&mut lend(&record, room), 68, &mut [7, 3, 0, 0], 99);
        assert_eq!((ran.outcome, ran.steps), (outcome.number(), steps));
    }
    for (room, outcome, steps) in [(388, Outcome::Finished, 18), (387, Outcome::NoRoom, 3)] {
        let ran = run_reducer(&mut lend(&term, room), 176, 99).ran;
        assert_eq!((ran.outcome, ran.steps), (outcome.number(), steps));
    }
}

/// What the start replaces is as in edition 1. P1 to 9 makes the first 15 of P1's 18 reductions, which
/// replace 1, two turns' 3 + 1 + 0 + 1 and the third's 3 + 1: 15 (`replaced.rs`); P1 to 7 the first 7:
/// 1, 3 and 1.
#[test]
fn replaced_until_it_is_over() {
    for (ceiling, steps, replaced) in [(10, 18, 20), (9, 15, 15), (7, 7, 5)] {
        let mut term = vec![0; ROOM];
        let record = add().under(ceiling).encode();
        let used = translate(&record, record.len(), &mut term).used as usize;
        assert_eq!(substitute(&mut term, used, &[7, 3, 0, 0]).replaced, 5);
        let reduced = run_reducer(&mut term, used, 99);
        assert_eq!((reduced.ran.steps, reduced.replaced), (steps, replaced));
    }
}

/// A batch under a ceiling of 9: ADD on 7, 2 gives 9 after 3 + 5·2 steps, on 7, 3 it is over after 15,
/// on 9, 0 it finishes after 3. One that goes over changes none of the others, wherever it stands.
#[test]
fn a_batch_under_a_ceiling() {
    let all = [
        (job(&[7, 2, 0, 0], 99), vec![1, 13, 7, 2, 9, 2]),
        (job(&[9, 0, 9, 9], 99), vec![1, 3, 9, 0, 9, 9]),
        (job(&[7, 3, 0, 0], 99), vec![2, 15, 0, 0, 0, 0]),
        (job(&[7, 3, 0, 0], 14), vec![4, 14, 0, 0, 0, 0]),
        (job(&[7, 3, 0, 0], 15), vec![2, 15, 0, 0, 0, 0]),
    ];
    for first in 0..all.len() {
        let mut turned = all.to_vec();
        turned.rotate_left(first);
        let (jobs, wanted): (Vec<_>, Vec<_>) = turned.into_iter().unzip();
        let mut batch = Batch::of(&add().under(9).encode(), &jobs);
        let written = batch.run(run_batch);
        assert_eq!((written.number, written.used), (0, 176));
        assert_eq!(batch.answers, wanted.concat());
        // The term that is left has the ceiling too.
        assert_eq!(batch.term[..12], [176, 0, 41, 0, 4, 0, 0, 0, 9, 0, 0, 0]);
    }
}

/// The writing out keeps edition and ceiling: P1 to 9 with two turns to come, its sum worked out. ADD's
/// assignment is gone; the loop's block stands around the turn it is in, x3 := 8, and behind that the
/// turns 2 and 3.
#[test]
fn the_writing_out_keeps_the_ceiling() {
    let record = add().under(9).encode();
    let state = waiting(words(16, &[body(16, 3, 1, 36)]), 8);
    let mut out = vec![0xA5; 300];
    let written = expand(&record, record.len(), &state, &[7, 3, 7, 1], &mut out);
    let assign = |variable, expr| Command::Assign(variable, expr);
    let turn = |before, count| {
        let index = assign(4, Expr::Literal(count));
        Command::Block(vec![before, index, assign(3, Expr::PlusOne(3))])
    };
    let first = Command::Block(vec![assign(3, Expr::Literal(8))]);
    let wanted = program(4, vec![turn(turn(first, 2), 3)]).under(9).encode();
    assert_eq!(written.used as usize, wanted.len());
    assert_eq!(hex(&out[..wanted.len()]), hex(&wanted));
    // A place is counted from the first command, so the same words are the state in edition 1.
    let first_edition = add().encode();
    let written = expand(&first_edition, 64, &state, &[7, 3, 7, 1], &mut out);
    assert_eq!(written.used as usize, wanted.len() - 4);
    assert_eq!(out[8..wanted.len() - 4], wanted[12..]);
}

/// Going back under a ceiling: after any number of steps the old stepper goes on from what is written
/// out, and stops where the run without a break does.
#[test]
fn going_back_under_a_ceiling() {
    for Example {
        name,
        program,
        store,
        outcome,
        steps,
        end,
    } in examples_under_ceiling()
    {
        let record = program.encode();
        for made in 0..=steps {
            let (mut state, mut values) = (START, store.clone());
            run_counting(&record, record.len(), &mut state, &mut values, made);
            let mut buffer = vec![0xA5; ROOM];
            let written = expand(&record, record.len(), &state, &values, &mut buffer);
            assert_eq!(written.number, 0, "{name}");
            let ran = run_stepper(&mut buffer, written.used as usize, &mut values, 1_000);
            let wanted = (0, outcome.number(), steps - made);
            assert_eq!((ran.number, ran.outcome, ran.steps), wanted, "{name}");
            assert_eq!(values, end, "{name}");
        }
    }
}

/// The counting stepper needs no room under a ceiling either: ADD on 7, 3500 needs 3,507, and with one
/// less it is over when the last turn's index is stored. Before the first turn there are 1 + 3,500 + 2
/// steps, and a turn has 4.
#[test]
fn many_turns_under_a_ceiling() {
    for (ceiling, outcome, steps) in [(3_507, FINISHED, 17_503), (3_506, OVER, 17_500)] {
        let record = add().under(ceiling).encode();
        let (mut state, mut values) = (START, [7, 3_500, 0, 0]);
        let counted = run_counting(&record, record.len(), &mut state, &mut values, 100_000);
        assert_eq!((counted.outcome, counted.steps), (outcome, steps));
        assert_eq!(values, [7, 3_500, ceiling, 3_500]);
    }
    // A top at the ceiling unrolls as any other.
    let record = add().under(MAX - 1).encode();
    let (mut state, mut values) = (START, [7, MAX - 1, 0, 0]);
    run_counting(&record, record.len(), &mut state, &mut values, 100);
    assert_eq!(state, words(16, &[unrolling(16, MAX - 1, MAX - 100)]));
}

/// The largest value that a run has to do with: of the start store, of the program's literals, and of
/// all that plus one gives; and the step that first gives it, if plus one does. None where the run does
/// not finish within its bounds, or the reducer has no room for it.
fn largest_of(start: &Config) -> Option<(Value, Option<u32>)> {
    if run(&mut start.term(), ROOM - 4, 400).0 != Outcome::Finished {
        return None;
    }
    let mut largest = start
        .store
        .iter()
        .chain(&start.program.literals())
        .copied()
        .max();
    let (mut first, mut state) = (None, start.clone());
    for step in 0..400 {
        let next = match next_state(&state) {
            Answer::Finished => return Some((largest.unwrap_or(0), first)),
            Answer::Next(next) if next.state_len() <= 3_000 => next,
            _ => return None,
        };
        // A step brings no new value but a sum's, which is then a literal of the record.
        let now = next
            .program
            .literals()
            .into_iter()
            .chain(next.store.clone())
            .max();
        if now > largest {
            (largest, first) = (now, Some(step));
        }
        state = next;
    }
    None
}

/// A ceiling that no value of a run is above changes nothing. With one less, the start is refused for a
/// literal or a value that is above it, or else the run is over just before the step that would have
/// given one: every engine, at the same total.
#[test]
fn just_enough_and_one_less() {
    // Refused for a literal, for a value; over.
    let seen = Counts::<3>::default();
    cases(6_000, |random| {
        let mut program = shallow_program(random);
        program.header = Header::first(program.header.k);
        let values = store(random, program.header);
        let start = Config {
            program: program.clone(),
            store: values.clone(),
        };
        let Some((largest, first)) = largest_of(&start) else {
            return;
        };
        let wanted = every_engine(&program, &values, 1_000);
        let enough = program.clone().under(largest);
        assert_eq!(every_engine(&enough, &values, 1_000), wanted);
        let Some(less) = largest.checked_sub(1) else {
            return;
        };
        let less = program.under(less);
        let above = |values: &[Value]| values.contains(&largest);
        let record = less.encode();
        if above(&less.literals()) || above(&values) {
            let number = if above(&less.literals()) { 15 } else { 16 };
            seen.one(number - 15);
            let mut buffer = lend(&record, ROOM);
            let ran = run_stepper(&mut buffer, record.len(), &mut values.clone(), 9);
            assert_eq!(ran.number as usize, number);
            return;
        }
        let steps = first.expect("a step that gives it");
        let (outcome, made, _) = every_engine(&less, &values, 1_000);
        assert_eq!((outcome, made), (OVER, steps));
        seen.one(2);
    });
    seen.assert_at_least([300, 300, 300]);
}

/// What a run ends with, and the record that it leaves, from behind its header on.
type End = (u32, u32, Vec<u8>);

/// An edition 1 header counts as the largest value: the same program in edition 2 with that ceiling
/// makes the same run in a buffer of 4 bytes more, in either engine.
#[test]
fn edition_1_counts_as_the_largest_value() {
    // The stepper's outcomes, then the reducer's.
    let seen = Counts::<10>::default();
    cases(6_000, |random| {
        let mut first = shallow_program(random);
        first.header = Header::first(first.header.k);
        let second = first.clone().under(MAX);
        let values = store(random, first.header);
        let budget = random.below(60) as u32;
        let room = first.encoded_len() + random.below(400);
        let step = |program: &Program, room| -> (End, Vec<Value>) {
            let (record, mut values) = (program.encode(), values.clone());
            let mut buffer = lend(&record, room);
            let ran = run_stepper(&mut buffer, record.len(), &mut values, budget);
            assert_eq!(ran.number, 0);
            buffer.truncate(ran.used as usize);
            let left = buffer.split_off(header_len(program.header));
            ((ran.outcome, ran.steps, left), values)
        };
        let ended = step(&first, room);
        assert_eq!(step(&second, room + 4), ended);
        seen.one(ended.0 .0 as usize);

        let term_of = |program: &Program| {
            let (program, store) = (program.clone(), values.clone());
            Config { program, store }.term().encode()
        };
        let room = term_of(&first).len() + random.below(800);
        let reduce = |program: &Program, room| -> (End, u64) {
            let term = term_of(program);
            let mut buffer = lend(&term, room);
            let reduced = run_reducer(&mut buffer, term.len(), budget);
            assert_eq!(reduced.ran.number, 0);
            buffer.truncate(reduced.ran.used as usize);
            let left = buffer.split_off(header_len(program.header));
            (
                (reduced.ran.outcome, reduced.ran.steps, left),
                reduced.replaced,
            )
        };
        let ended = reduce(&first, room);
        assert_eq!(reduce(&second, room + 4), ended);
        seen.one(5 + ended.0 .0 as usize);
    });
    seen.assert_at_least([0, 1_000, 50, 200, 500, 0, 1_000, 50, 200, 500]);
}
