//! The library's counting stepper and its writing out against the other program's, in bulk. Every
//! call goes through `both`, which compares; `counting.rs`, `counting_rows.rs` and `mistakes.rs`
//! state what 02 says.

use other::both::{expand, run_counting};
use other::check::{depth, lent_within, values as within};
use other::codec::Record;
use other::examples::{all_examples, nest_of_loops, sample_programs, Example};
use other::extremes::{programs, EDITIONS};
use other::generate::lend;
use other::generate::lending::{
    lent_budget, lent_store, output_room, perhaps_damaged, sound_program, Lending,
};
use other::generate::programs::{refused_store, store};
use other::generate::runs::any_used;
use other::generate::states::{
    any_spot, block, body, damaged, other_words, shallow_program, spot_up_to, waiting, words,
};
use other::random::{cases, Counts, Random, Rows};
use other::run::counting::expand::record_len;
use other::run::counting::words::{read, write, Words, STATE_WORDS};
use other::run::counting::Counting;
use other::run::Outcome;
use other::tree::{with_big_stack, Header, Program};

const START: Words = [0; STATE_WORDS];

/// Both calls on what is lent: the writing out first, which leaves it, then the run.
fn both_calls(
    buffer: &[u8],
    used: usize,
    state: &mut Words,
    values: &mut [u32],
    (room, budget): (usize, u32),
) -> (u32, u32) {
    let mut out = vec![0xA5; room];
    let written = expand(buffer, used, state, values, &mut out);
    let counted = run_counting(buffer, used, state, values, budget);
    assert_ne!(counted.outcome, Outcome::NoRoom.number());
    // Where the run is accepted, the writing out is, or it has no room.
    if room <= 16_384 {
        let wanted = match (counted.number, written.number) {
            (0, 10) => 10,
            (number, _) => number,
        };
        assert_eq!(written.number, wanted);
    }
    (written.number, counted.outcome)
}

/// 01's examples, also under ceilings, with every budget from nothing to beyond their end, and each state
/// written out into every room from nothing to more than it needs.
#[test]
fn the_examples_with_every_budget_in_every_room() {
    let (rows, outcomes) = (Rows::default(), Counts::<5>::default());
    for Example {
        program,
        store,
        steps,
        ..
    } in all_examples()
    {
        let (record, k) = (program.encode(), program.header.k as usize);
        for budget in (0..steps + 3).chain([u32::MAX]) {
            let (mut state, mut values) = (START, store.clone());
            let ran = run_counting(&record, record.len(), &mut state, &mut values, budget);
            outcomes.one(ran.outcome as usize);
            for room in 0..180 {
                let mut out = vec![0xA5; room];
                let written = expand(&record, record.len(), &state, &values[..k], &mut out);
                rows.one(written.number);
            }
        }
    }
    outcomes.assert_at_least([0, 40, 30, 0, 100]);
    rows.assert_at_least(&[(0, 14_000), (10, 8_000)]);
}

/// Programs, stores, buffers, used lengths, states and budgets of every sort.
#[test]
fn generated_orders() {
    let (rows, outcomes) = (Rows::default(), Counts::<5>::default());
    cases(60_000, |random| {
        let program = sound_program(random);
        let mut state = some_state(random, &program);
        let mut values = lent_store(random, program.header);
        let Lending { buffer, used } = perhaps_damaged(random, &program.encode());
        let ends = taken(&buffer, used, &state, &values).is_none_or(|it| ends_within(it, 2_000));
        let budget = lent_budget(random, ends);
        let room = output_room(random, expanded_len(&program, &state));
        let lent = (room, budget);
        let (number, outcome) = both_calls(&buffer, used, &mut state, &mut values, lent);
        rows.one(number);
        outcomes.one(outcome as usize);
    });
    rows.assert_at_least(&[
        (0, 8_000),
        (1, 1_000),
        (2, 1_000),
        (3, 100),
        (4, 500),
        (5, 50),
        (15, 50),
    ]);
    rows.assert_at_least(&[
        (6, 2_000),
        (10, 5_000),
        (12, 1_000),
        (13, 3_000),
        (16, 1_200),
    ]);
    outcomes.assert_at_least([15_000, 5_000, 300, 0, 5_000]);
}

/// The start, a state of any sort, the same in other words, or a damaged one. Now and then its counts
/// and its sum are of any size, whatever the ceiling is.
fn some_state(random: &mut Random, program: &Program) -> Words {
    if depth(program).is_err() || random.one_in(8) {
        return START;
    }
    let spot = match random.one_in(8) {
        true => spot_up_to(random, &program.block, u32::MAX),
        false => any_spot(random, program),
    };
    let state = write(&spot, program);
    match random.below(4) {
        0 => damaged(random, &state),
        1 => other_words(random, &state),
        _ => state,
    }
}

/// What is lent, where it is taken.
fn taken(buffer: &[u8], used: usize, state: &Words, values: &[u32]) -> Option<Counting> {
    let program: Program = lent_within(buffer, used).ok()?;
    depth(&program).ok()?;
    let spot = read(state, &program)?;
    let store = values.to_vec();
    within(program.header, &[&store[..], &spot.values()].concat()).ok()?;
    (store.len() == program.header.k as usize).then_some(Counting {
        program,
        spot,
        store,
    })
}

/// Whether the run comes to its end, of whatever kind, in at most `limit` steps.
fn ends_within(mut counting: Counting, limit: u32) -> bool {
    counting.run(limit).0 != Outcome::Spent
}

/// The length of the expansion; the program's own where there is none, or it is longer than any buffer.
fn expanded_len(program: &Program, state: &Words) -> usize {
    let spot = depth(program).ok().and_then(|()| read(state, program));
    let length = spot.map(|spot| record_len(program, &spot));
    match length {
        Some(length) if length <= 16_384 => length as usize,
        _ => program.encoded_len(),
    }
}

/// Lists of orders, each on what the last one left, refused ones among them; what is left is written
/// out after each.
#[test]
fn lists_of_orders() {
    let seen = Counts::<5>::default();
    cases(12_000, |random| {
        let program = shallow_program(random);
        let state = some_state(random, &program);
        let values = store(random, program.header);
        let record = program.encode();
        let ends =
            taken(&record, record.len(), &state, &values).is_none_or(|it| ends_within(it, 2_000));
        play(
            random,
            (&record, program.header),
            (state, values),
            ends,
            &seen,
        );
    });
    seen.assert_at_least([8_000, 10_000, 500, 0, 8_000]);
}

fn play(
    random: &mut Random,
    (record, header): (&[u8], Header),
    (mut state, mut values): (Words, Vec<u32>),
    ends: bool,
    seen: &Counts<5>,
) {
    for _ in 0..random.below(10) {
        let budget = lent_budget(random, ends);
        let mut other = refused_store(random, header);
        let (used, lent_values) = match random.below(10) {
            0 => (record.len(), &mut other),
            1 => (any_used(random), &mut values),
            _ => (record.len(), &mut values),
        };
        let counted = run_counting(record, used, &mut state, lent_values, budget);
        seen.one(counted.outcome as usize);
        let room = random.below(600);
        expand(record, record.len(), &state, &values, &mut vec![0xA5; room]);
    }
}

/// Each byte of three programs at each of its 256 values, with a state of theirs. ADD's loop stands at
/// 16, and the plus one in its body, whose sum waits, at 36; the others' block stands at 0, and their
/// loop at 24. Where the ceiling is changed to below 4, its top is above it.
#[test]
fn every_byte_at_every_value() {
    let rows = Rows::default();
    let in_turn = waiting(words(16, &[body(16, 5, 2, 36)]), 9);
    let in_loop = words(24, &[body(24, 4, 1, 44)]);
    let states = [in_turn, words(0, &[block(0, 20)]), in_loop];
    for (bytes, state) in sample_programs().iter().zip(states) {
        for place in 0..bytes.len() {
            for value in 0..=255 {
                let mut buffer = lend(bytes, 200);
                buffer[place] = value;
                let mut values = [3, 2, 1, u32::MAX];
                let values = &mut values[..usize::from(bytes[4])];
                let lent = (300, 25);
                let (number, _) =
                    both_calls(&buffer, bytes.len(), &mut state.clone(), values, lent);
                rows.one(number);
            }
        }
    }
    rows.assert_at_least(&[
        (0, 2_500),
        (2, 1_500),
        (3, 1_000),
        (4, 10_000),
        (5, 5_000),
        (15, 500),
    ]);
    // The plus one is no sum as a literal or a variable; as minus one it is.
    rows.assert_at_least(&[(6, 10), (13, 2)]);
}

/// Each word of states that runs come upon and of others, at every small value, about what it was,
/// and at the largest: those behind the last entry as well.
#[test]
fn every_word_at_many_values() {
    let rows = Rows::default();
    let values = (0..100).chain([255, 256, 65_535, 65_536, 1 << 31, u32::MAX - 1, u32::MAX]);
    let values: Vec<u32> = values.collect();
    cases(40, |random| {
        let (program, state) = nested_state(random);
        let record = program.encode();
        let store = store(random, program.header);
        for place in (0..40).chain([STATE_WORDS - 6, STATE_WORDS - 1]) {
            let own = state[place];
            let about = [own.wrapping_sub(1), own.wrapping_add(1)];
            for value in values.iter().chain(&about) {
                let (mut state, mut store) = (state, store.clone());
                state[place] = *value;
                let lent = (300, 2);
                let (number, _) = both_calls(&record, record.len(), &mut state, &mut store, lent);
                rows.one(number);
            }
        }
    });
    rows.assert_at_least(&[(0, 20_000), (10, 1_000), (13, 20_000), (16, 300)]);
}

/// A state with something open in something open, of a program with loops.
fn nested_state(random: &mut Random) -> (Program, Words) {
    loop {
        let program = shallow_program(random);
        let state = write(&any_spot(random, &program), &program);
        if state[9] != 0 {
            return (program, state);
        }
    }
}

/// Words of no sort at all: they are hardly ever a state, but any array may be lent.
#[test]
fn words_at_random() {
    let rows = Rows::default();
    cases(3_000, |random| {
        let program = shallow_program(random);
        let record = program.encode();
        let small = random.one_in(2);
        let mut state = START;
        state.fill_with(|| match small {
            true => random.below(30) as u32,
            false => random.word(),
        });
        // Now and then the outermost place is one, so that the rest is looked at.
        if random.one_in(2) {
            state[0] = 0;
        }
        let mut store = store(random, program.header);
        let lent = (300, 10);
        let (number, _) = both_calls(&record, record.len(), &mut state, &mut store, lent);
        rows.one(number);
    });
    rows.assert_at_least(&[(13, 2_000)]);
}

/// Four loops of nine turns within each other, in one run and in runs of any length: 23,780 steps, as
/// library_stepper.rs says. What is left between is written out.
#[test]
fn a_long_run_in_pieces() {
    let program = nest_of_loops(1, 9, 4);
    let record = program.encode();
    cases(4, |random| {
        let (mut state, mut values, mut total) = (START, [5], 0);
        while total < 23_780 {
            let budget = *random.pick(&[7, 100, 3_000, 23_780]);
            let counted = run_counting(&record, record.len(), &mut state, &mut values, budget);
            total += counted.steps;
            let mut out = vec![0xA5; 2_000];
            let written = expand(&record, record.len(), &state, &values, &mut out);
            assert_eq!(written.number, 0);
        }
        let counted = run_counting(&record, record.len(), &mut state, &mut values, 1);
        assert_eq!((counted.outcome, counted.steps, total), (1, 0, 23_780));
        assert_eq!(values, [9]);
    });
}

/// The longest programs: those nested over 32 deep are refused, the others run.
#[test]
fn the_longest_programs() {
    let rows = Rows::default();
    with_big_stack(|| {
        for (_, program) in EDITIONS.into_iter().flat_map(programs) {
            let record = program.encode();
            for (room, budget) in [(16_384, 0), (16_384, 3), (16_384, 20_000), (16_385, 1)] {
                let mut store = vec![2; program.header.k as usize];
                let lent = (room, budget);
                let (number, _) =
                    both_calls(&record, record.len(), &mut START.clone(), &mut store, lent);
                rows.one(number);
            }
        }
    });
    // Of seven in each edition two are too deep: the nested blocks and the nested loops. Each is lent
    // 16,385 bytes of output once.
    rows.assert_at_least(&[(0, 30), (1, 14), (12, 12)]);
}
