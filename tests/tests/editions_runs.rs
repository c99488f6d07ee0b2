//! A moved record runs the same (02, C-18). In buffers of 4 bytes more, one order or a list of them, refused
//! ones included, gives the same outcomes, steps, budgets left, stores and replaced variables, with a used
//! length of 4 more; and the record left is the moved record left. The counting stepper has no room to lack,
//! so its answers, words and stores are the same without that condition. And 02's own words: in any two
//! buffers where neither lacks room, counts and end values are equal.

use other::both::{
    expand, program_to_edition_2, run_batch, run_counting, run_reducer, run_stepper,
    term_to_edition_2,
};
use other::calls::{Ran, Written};
use other::codec::Record;
use other::examples::{add, examples, Example};
use other::generate::batches::{job, Batch, Job};
use other::generate::editions::first_edition;
use other::generate::lend;
use other::generate::lending::{
    closed, lent_budget, sound_program, sound_term, translatable_program,
};
use other::generate::programs::{store, wrong_store};
use other::generate::runs::{any_used, ends_within, runs, Budget, Engine, Run};
use other::generate::states::{damaged, shallow_program};
use other::random::{cases, Counts, Random};
use other::run::counting::words::{Words, STATE_WORDS};
use other::run::stepper::Config;
use other::run::Outcome;
use other::translate::translate as translation_of;
use other::tree::{Program, Value};

/// The longest buffer of edition 1 that one of 4 bytes more can stand beside.
const MOST: usize = 16_380;
const NO_ROOM: u32 = Outcome::NoRoom as u32;

type Move = fn(&[u8], usize, &mut [u8]) -> Written;

/// The record in the other edition, by the call.
fn moved(call: Move, record: &[u8]) -> Vec<u8> {
    let mut out = vec![0xA5; record.len() + 4];
    let written = call(record, record.len(), &mut out);
    assert_eq!(
        (written.number, written.used as usize),
        (0, record.len() + 4)
    );
    out
}

/// A record of edition 1 and the moved one, each in the buffer of its engine and as its last order left it.
struct Pair {
    there: Move,
    first: Vec<u8>,
    second: Vec<u8>,
    used: usize,
    total: u64,
}

impl Pair {
    /// The rooms are those of the two buffers.
    fn start(there: Move, record: &[u8], [room, moved_room]: [usize; 2]) -> Pair {
        Pair {
            there,
            first: lend(record, room),
            second: lend(&moved(there, record), moved_room),
            used: record.len(),
            total: 0,
        }
    }

    /// Both answers to one order, which must be alike; and then the record left. Gives the number.
    fn take(&mut self, answers: [Ran; 2], before: [Vec<u8>; 2]) -> u32 {
        let [first, second] = answers;
        assert_eq!(second.number, first.number);
        if first.number != 0 {
            assert_eq!([first, second], [Ran::refused(first.number); 2]);
            assert_eq!([&self.first, &self.second], [&before[0], &before[1]]);
            return first.number;
        }
        let used = first.used + 4;
        assert_eq!(second, Ran { used, ..first });
        self.used = first.used as usize;
        self.total += u64::from(first.steps);
        let wanted = moved(self.there, &self.first[..self.used]);
        assert_eq!(self.second[..self.used + 4], wanted);
        assert!(self.second[self.used + 4..].iter().all(|byte| *byte == 0));
        0
    }

    fn buffers(&self) -> [Vec<u8>; 2] {
        [self.first.clone(), self.second.clone()]
    }
}

/// One order to both steppers; the stores must be equal afterwards. Another used length than the record's is
/// handed to the second with 4 more.
fn order_steppers(pair: &mut Pair, store: &mut Vec<Value>, used: usize, budget: u32) -> Ran {
    let (before, mut other_store) = (pair.buffers(), store.clone());
    let first = run_stepper(&mut pair.first, used, store, budget);
    let moved_used = used.saturating_add(4);
    let second = run_stepper(&mut pair.second, moved_used, &mut other_store, budget);
    pair.take([first, second], before);
    assert_eq!(*store, other_store);
    first
}

/// One order to both reducers, which must have replaced as many.
fn order_reducers(pair: &mut Pair, used: usize, budget: u32) -> Ran {
    let before = pair.buffers();
    let first = run_reducer(&mut pair.first, used, budget);
    let second = run_reducer(&mut pair.second, used.saturating_add(4), budget);
    pair.take([first.ran, second.ran], before);
    assert_eq!(second.replaced, first.replaced);
    first.ran
}

/// P1 to P9 with 01's values, moved: as many steps, the same outcome and end values, from every engine.
#[test]
fn the_examples_moved() {
    for Example {
        name,
        program,
        store,
        outcome,
        steps,
        end,
    } in examples()
    {
        let record = program.encode();
        let wanted = (0, outcome.number(), steps);
        let rooms = [MOST, MOST + 4];
        let mut pair = Pair::start(program_to_edition_2, &record, rooms);
        let mut values = store.clone();
        let ran = order_steppers(&mut pair, &mut values, record.len(), 100_000);
        assert_eq!((ran.number, ran.outcome, ran.steps), wanted, "{name}");
        assert_eq!(values, end, "{name}");
        let second = moved(program_to_edition_2, &record);
        let (mut state, mut values) = ([0; STATE_WORDS], store.clone());
        let counted = run_counting(&second, second.len(), &mut state, &mut values, 100_000);
        let got = (counted.number, counted.outcome, counted.steps);
        assert_eq!((got, &values), (wanted, &end), "{name}");
        let term = Config { program, store }.term().encode();
        let mut pair = Pair::start(term_to_edition_2, &term, rooms);
        let ran = order_reducers(&mut pair, term.len(), 100_000);
        assert_eq!((ran.number, ran.outcome, ran.steps), wanted, "{name}");
    }
}

/// 01's rooms, and 4 bytes more for the moved ones. On P1's store the configuration needs 156 bytes and the term
/// 384; with one less each stops at 3. So 160 and 388 are enough when moved, and with 159 and 387 they stop at 3.
#[test]
fn four_bytes_more_of_room() {
    let (record, start) = (add().encode(), vec![7, 3, 0, 0]);
    for (room, outcome, steps) in [(156, Outcome::Finished, 18), (155, Outcome::NoRoom, 3)] {
        let rooms = [room, room + 4];
        let mut pair = Pair::start(program_to_edition_2, &record, rooms);
        let ran = order_steppers(&mut pair, &mut start.clone(), 64, 99);
        assert_eq!((ran.outcome, ran.steps), (outcome.number(), steps));
    }
    let (program, store) = (add(), start);
    let term = Config { program, store }.term().encode();
    for (room, outcome, steps) in [(384, Outcome::Finished, 18), (383, Outcome::NoRoom, 3)] {
        let mut pair = Pair::start(term_to_edition_2, &term, [room, room + 4]);
        let ran = order_reducers(&mut pair, 172, 99);
        assert_eq!((ran.outcome, ran.steps), (outcome.number(), steps));
    }
}

/// A start in edition 1 whose program and term can both be moved.
fn start(random: &mut Random) -> Option<Config> {
    let program = match random.below(3) {
        0 => translatable_program(random),
        _ => shallow_program(random),
    };
    let program = first_edition(program)?;
    let store = store(random, program.header);
    let config = Config { program, store };
    first_edition(config.term())?;
    Some(config)
}

/// Room for this record and some more, so that some runs lack it.
fn room_above(random: &mut Random, least: usize) -> usize {
    (least + random.below(600)).min(MOST)
}

/// The budget of an order, where its engine has made `own` steps and the other one `other`.
fn budget_of(budget: Budget, own: u64, other: u64) -> u32 {
    match budget {
        Budget::Exactly(budget) => budget,
        Budget::CatchUp => other.saturating_sub(own) as u32,
    }
}

/// Lists of orders to the stepper and the reducer, in any mixture and with refused ones among them, in
/// buffers of which the moved records' are 4 bytes longer.
#[test]
fn lists_of_orders() {
    // Refused for the buffer, the header, the store; then the outcomes of the stepper and of the reducer.
    let seen = Counts::<12>::default();
    cases(8_000, |random| {
        let Some(config) = start(random) else {
            return;
        };
        let (record, term) = (config.program.encode(), config.term());
        let room = room_above(random, record.len());
        let term_room = room_above(random, term.encoded_len());
        let ends = ends_within(&config, room, 2_000) && ends_within(&term, term_room, 2_000);
        let mut steppers = Pair::start(program_to_edition_2, &record, [room, room + 4]);
        let rooms = [term_room, term_room + 4];
        let mut reducers = Pair::start(term_to_edition_2, &term.encode(), rooms);
        let mut values = config.store.clone();
        for run in runs(random, config.program.header, ends) {
            let totals = [steppers.total, reducers.total];
            let (ran, first) = match run.engine {
                Engine::Stepper => {
                    let budget = budget_of(run.budget, totals[0], totals[1]);
                    (one_of_steppers(&mut steppers, &mut values, &run, budget), 4)
                }
                Engine::Reducer => {
                    let budget = budget_of(run.budget, totals[1], totals[0]);
                    let used = run.used.unwrap_or(reducers.used);
                    (order_reducers(&mut reducers, used, budget), 8)
                }
            };
            seen.one(match ran.number {
                0 => first + ran.outcome as usize - 1,
                1 => 0,
                2 => 1,
                number => {
                    assert_eq!(number, 6);
                    2
                }
            });
        }
    });
    seen.assert_at_least([
        2_000, 2_000, 1_000, 0, 3_000, 100, 500, 3_000, 3_000, 100, 500, 3_000,
    ]);
}

/// With the list's own used length and store, where it has them: the engine's store is then not touched.
fn one_of_steppers(pair: &mut Pair, values: &mut Vec<Value>, run: &Run, budget: u32) -> Ran {
    let used = run.used.unwrap_or(pair.used);
    match run.store.clone() {
        None => order_steppers(pair, values, used, budget),
        Some(mut wrong) => {
            let before = wrong.clone();
            let ran = order_steppers(pair, &mut wrong, used, budget);
            assert!(ran.number != 0 && wrong == before);
            ran
        }
    }
}

/// Orders to the reducer on terms of every sort, which need be no translation: open ones are refused (7).
#[test]
fn lists_of_orders_on_any_term() {
    // Refused for the buffer, the header, a free variable; then the outcomes.
    let seen = Counts::<8>::default();
    cases(8_000, |random| {
        let term = match random.below(4) {
            0 => sound_term(random),
            _ => closed(random),
        };
        let Some(term) = first_edition(term) else {
            return;
        };
        let room = room_above(random, term.encoded_len());
        let mut pair = Pair::start(term_to_edition_2, &term.encode(), [room, room + 4]);
        for _ in 0..random.below(8) {
            let used = match random.one_in(8) {
                true => any_used(random),
                false => pair.used,
            };
            let ran = order_reducers(&mut pair, used, random.below(12) as u32);
            seen.one(match ran.number {
                0 => 3 + ran.outcome as usize,
                1 => 0,
                2 => 1,
                number => {
                    assert_eq!(number, 7);
                    2
                }
            });
        }
    });
    seen.assert_at_least([500, 500, 1_000, 0, 5_000, 100, 500, 1_000]);
}

/// In any two buffers: as long as neither engine answers no room, every order of a list has the same count,
/// outcome and values, and leaves the moved record.
#[test]
fn any_two_buffers() {
    // Lists in which neither lacked room, in which one did: of the stepper, of the reducer.
    let seen = Counts::<4>::default();
    cases(8_000, |random| {
        let Some(config) = start(random) else {
            return;
        };
        let (record, term) = (config.program.encode(), config.term().encode());
        let rooms = [0, 4].map(|more| room_above(random, record.len()) + more);
        let mut steppers = Pair::start(program_to_edition_2, &record, rooms);
        let rooms = [0, 4].map(|more| room_above(random, term.len()) + more);
        let mut reducers = Pair::start(term_to_edition_2, &term, rooms);
        let budgets: Vec<u32> = (0..6).map(|_| random.below(40) as u32).collect();
        seen.one(usize::from(!steppers_alike(
            &mut steppers,
            &config.store,
            &budgets,
        )));
        seen.one(2 + usize::from(!reducers_alike(&mut reducers, &budgets)));
    });
    seen.assert_at_least([3_000, 500, 3_000, 500]);
}

/// Whether neither of the two came to answer no room.
fn steppers_alike(pair: &mut Pair, start: &[Value], budgets: &[u32]) -> bool {
    let mut stores = [start.to_vec(), start.to_vec()];
    for budget in budgets {
        let (before, used) = (pair.buffers(), pair.used);
        let first = run_stepper(&mut pair.first, used, &mut stores[0], *budget);
        let second = run_stepper(&mut pair.second, used + 4, &mut stores[1], *budget);
        if first.outcome == NO_ROOM || second.outcome == NO_ROOM {
            return false;
        }
        pair.take([first, second], before);
        assert_eq!(stores[0], stores[1]);
    }
    true
}

fn reducers_alike(pair: &mut Pair, budgets: &[u32]) -> bool {
    for budget in budgets {
        let (before, used) = (pair.buffers(), pair.used);
        let first = run_reducer(&mut pair.first, used, *budget);
        let second = run_reducer(&mut pair.second, used + 4, *budget);
        if first.ran.outcome == NO_ROOM || second.ran.outcome == NO_ROOM {
            return false;
        }
        pair.take([first.ran, second.ran], before);
        assert_eq!(second.replaced, first.replaced);
    }
    true
}

/// The counting stepper is lent the record alone: its answers, words and stores are the same, refused or
/// not; with wrong stores, damaged words and programs nested too deep among them. What the words stand for is
/// written out as the moved record, in a buffer of 4 bytes more.
#[test]
fn lists_of_orders_to_the_counting_stepper() {
    // Refused for depth, store, state; finished, over, spent; written out, no room for that.
    let seen = Counts::<8>::default();
    cases(8_000, |random| {
        let program = match random.below(8) {
            0 => sound_program(random),
            _ => shallow_program(random),
        };
        let Some(program) = first_edition(program) else {
            return;
        };
        let record = program.encode();
        let records = [moved(program_to_edition_2, &record), record];
        let (mut state, mut values) = ([0; STATE_WORDS], store(random, program.header));
        for _ in 0..random.below(8) {
            let budget = random.below(30) as u32;
            seen.one(counting_order(
                random,
                &records,
                &mut state,
                &mut values,
                budget,
            ));
            seen.one(written_out(random, &records, &state, &values));
        }
    });
    seen.assert_at_least([100, 1_000, 1_000, 2_000, 100, 2_000, 3_000, 3_000]);
}

/// One order with these words and values, or with wrong ones; gives its sort.
fn counting_order(
    random: &mut Random,
    [second, first]: &[Vec<u8>; 2],
    state: &mut Words,
    values: &mut Vec<Value>,
    budget: u32,
) -> usize {
    let (mut lent_state, mut lent_values) = (*state, values.clone());
    match random.below(10) {
        0 => lent_state = damaged(random, state),
        1 => lent_values = wrong_store(random, values.len() as u32),
        _ => (),
    }
    let (mut other_state, mut other_values) = (lent_state, lent_values.clone());
    let answer = run_counting(
        first,
        first.len(),
        &mut lent_state,
        &mut lent_values,
        budget,
    );
    let used = second.len();
    let of_moved = run_counting(second, used, &mut other_state, &mut other_values, budget);
    assert_eq!(of_moved, answer);
    assert_eq!(
        (other_state, other_values),
        (lent_state, lent_values.clone())
    );
    match answer.number {
        12 => 0,
        6 => 1,
        13 => 2,
        number => {
            assert_eq!(number, 0);
            (*state, *values) = (lent_state, lent_values);
            match answer.outcome {
                1 => 3,
                2 => 4,
                outcome => {
                    assert_eq!(outcome, 4);
                    5
                }
            }
        }
    }
}

/// The state written out of both, in a room of any length and 4 bytes more; gives its sort.
fn written_out(
    random: &mut Random,
    [second, first]: &[Vec<u8>; 2],
    state: &Words,
    values: &[Value],
) -> usize {
    let room = first.len() / 2 + random.below(first.len() + 400);
    let room = room.min(MOST);
    let (mut out, mut moved_out) = (vec![0xA5; room], vec![0xA5; room + 4]);
    let written = expand(first, first.len(), state, values, &mut out);
    let of_moved = expand(second, second.len(), state, values, &mut moved_out);
    assert_eq!(of_moved.number, written.number);
    match written.number {
        0 => {
            let used = written.used as usize;
            assert_eq!(of_moved.used as usize, used + 4);
            let wanted = moved(program_to_edition_2, &out[..used]);
            assert_eq!(moved_out[..used + 4], wanted);
            6
        }
        10 => 7,
        number => {
            assert_eq!(number, 12);
            0
        }
    }
}

/// Jobs for a program, with budgets that are spent, that are enough, and none.
fn any_jobs(random: &mut Random, program: &Program, room: usize) -> Vec<Job> {
    let one = |random: &mut Random| {
        let store = store(random, program.header);
        let (program, start) = (program.clone(), store.clone());
        let term = Config {
            program,
            store: start,
        }
        .term();
        let ends = ends_within(&term, room, 500);
        job(&store, lent_budget(random, ends))
    };
    (0..1 + random.below(4)).map(|_| one(random)).collect()
}

/// A batch on the moved program, in two buffers of 4 bytes more: the same number and answers, and the moved
/// term; refused ones among them. And with a work buffer of any other length, each job that neither lacks
/// room for has the same answer.
#[test]
fn batches() {
    // Answered, no room for the term, wrong lengths; jobs alike in any two buffers, jobs that lacked room.
    let seen = Counts::<5>::default();
    cases(4_000, |random| {
        let Some(Config { program, .. }) = start(random) else {
            return;
        };
        let wanted = translation_of(&program).encoded_len();
        let rooms = [(); 2].map(|()| match random.below(8) {
            0 => random.below(wanted),
            _ => room_above(random, wanted),
        });
        let jobs = any_jobs(random, &program, rooms[1]);
        let mut first = batch_in(&program.encode(), &jobs, rooms);
        if random.one_in(8) {
            first.values.pop();
        }
        let mut second = moved_batch(&first);
        let number = batches_alike(&mut first, &mut second);
        seen.one(match number {
            0 => 0,
            10 => 1,
            _ => 2,
        });
        if number == 0 {
            let room = room_above(random, wanted);
            let [alike, without] = jobs_alike(&first, &mut second, room + 4);
            seen.add(3, alike);
            seen.add(4, without);
        }
    });
    seen.assert_at_least([2_000, 300, 200, 3_000, 300]);
}

fn batch_in(record: &[u8], jobs: &[Job], [term, work]: [usize; 2]) -> Batch {
    let mut batch = Batch::of(record, jobs);
    batch.term.truncate(term);
    batch.work.truncate(work);
    batch
}

/// The same with the moved program and 4 bytes more of both buffers.
fn moved_batch(first: &Batch) -> Batch {
    let mut second = first.clone();
    second.program = moved(program_to_edition_2, &first.program);
    second.used += 4;
    second.term.resize(first.term.len() + 4, 0x5A);
    second.work.resize(first.work.len() + 4, 0xA5);
    second
}

/// Runs both, and gives their number: 0, or a refusal that changes nothing.
fn batches_alike(first: &mut Batch, second: &mut Batch) -> u32 {
    let before = [first.clone(), second.clone()];
    let (written, of_moved) = (first.run(run_batch), second.run(run_batch));
    assert_eq!(of_moved.number, written.number);
    if written.number != 0 {
        assert!(matches!(written.number, 6 | 10));
        assert!(*first == before[0] && *second == before[1]);
        return written.number;
    }
    let used = written.used as usize;
    assert_eq!(of_moved.used as usize, used + 4);
    let wanted = moved(term_to_edition_2, &first.term[..used]);
    assert_eq!(second.term[..used + 4], wanted);
    assert!(second.term[used + 4..].iter().all(|byte| *byte == 0));
    assert!(second.work.iter().all(|byte| *byte == 0));
    assert_eq!(second.answers, first.answers);
    0
}

/// Runs the moved batch once more, in a work buffer of this length: how many jobs have the same answer, and
/// how many lacked room in one of the two.
fn jobs_alike(first: &Batch, second: &mut Batch, work: usize) -> [u32; 2] {
    second.work = vec![0xA5; work];
    second.answers.fill(0x5A5A_5A5A);
    assert_eq!(second.run(run_batch).number, 0);
    let width = first.answers.len() / first.budgets.len();
    let answers = first
        .answers
        .chunks(width)
        .zip(second.answers.chunks(width));
    let mut counts = [0; 2];
    for (answer, in_other) in answers {
        let without = answer[0] == NO_ROOM || in_other[0] == NO_ROOM;
        assert!(without || in_other == answer);
        counts[usize::from(without)] += 1;
    }
    counts
}
