//! The library's stepper against the other program's, in bulk. Every call goes through `both`,
//! which compares; `figures.rs`, `mistakes.rs` and `runs.rs` state what 01 says.

use other::both::run_stepper;
use other::check::{lent_within, values as within};
use other::codec::Record;
use other::examples::{all_examples, nest_of_loops, sample_programs, Example};
use other::extremes::{programs, EDITIONS};
use other::generate::lend;
use other::generate::lending::{
    lent_budget, lent_store, perhaps_damaged, room, sound_program, Lending,
};
use other::generate::programs::{refused_store, store};
use other::generate::runs::{any_used, ends_within};
use other::random::{cases, Counts, Random, Rows};
use other::run::stepper::Config;
use other::run::Machine;
use other::tree::{with_big_stack, Program};

/// 01's examples, also under ceilings, with every budget from nothing to beyond their end, in every
/// room from one byte less than the record to more than any of their states.
#[test]
fn the_examples_in_every_room_with_every_budget() {
    let seen = Counts::<5>::default();
    for Example {
        program,
        store,
        steps,
        ..
    } in all_examples()
    {
        let record = program.encode();
        for room in record.len() - 1..record.len() + 110 {
            for budget in (0..steps + 3).chain([u32::MAX]) {
                let mut buffer = lend(&record, record.len().max(room));
                buffer.truncate(room);
                let ran = run_stepper(&mut buffer, record.len(), &mut store.clone(), budget);
                seen.one(ran.outcome as usize);
            }
        }
    }
    seen.assert_at_least([100, 2_000, 1_000, 2_000, 2_000]);
}

/// Programs, stores, buffers, used lengths and budgets of every sort.
#[test]
fn generated_runs() {
    let (rows, outcomes) = (Rows::default(), Counts::<5>::default());
    cases(60_000, |random| {
        let program = sound_program(random);
        let mut values = lent_store(random, program.header);
        let Lending { mut buffer, used } = perhaps_damaged(random, &program.encode());
        let budget = match start(&buffer, used, &values) {
            Some(config) => lent_budget(random, ends_within(&config, buffer.len(), 2_000)),
            // Refused, so any budget ends.
            None => lent_budget(random, true),
        };
        let ran = run_stepper(&mut buffer, used, &mut values, budget);
        rows.one(ran.number);
        outcomes.one(ran.outcome as usize);
    });
    rows.assert_at_least(&[
        (0, 10_000),
        (1, 1_000),
        (2, 1_000),
        (3, 100),
        (4, 500),
        (5, 50),
        (15, 50),
    ]);
    rows.assert_at_least(&[(6, 2_000), (16, 1_000)]);
    outcomes.assert_at_least([5_000, 5_000, 700, 3_000, 5_000]);
}

/// What is lent, where it is a program with a value for each variable. A changed bit may have made
/// a loop that goes on for long of one that did not.
fn start(buffer: &[u8], used: usize, values: &[u32]) -> Option<Config> {
    let program: Program = lent_within(buffer, used).ok()?;
    let store = values.to_vec();
    let taken = store.len() == program.header.k as usize && within(program.header, values).is_ok();
    taken.then_some(Config { program, store })
}

/// Lists of runs, each on what the last one left, refused ones among them. The room for most is
/// tight, so that the steps made before it gives out are looked at as well.
#[test]
fn lists_of_runs() {
    let seen = Counts::<5>::default();
    cases(12_000, |random| {
        let program = sound_program(random);
        let store = store(random, program.header);
        let config = Config { program, store };
        let room = room(random, config.state_len());
        let ends = ends_within(&config, room, 2_000);
        play(random, config, room, ends, &seen);
    });
    seen.assert_at_least([5_000, 5_000, 1_000, 5_000, 3_000]);
}

fn play(random: &mut Random, config: Config, room: usize, ends: bool, seen: &Counts<5>) {
    let record = config.program.encode();
    let (mut buffer, mut used) = (lend(&record, room), record.len());
    let mut store = config.store;
    for _ in 0..random.below(10) {
        let budget = lent_budget(random, ends);
        let ran = match random.below(10) {
            0 => {
                let mut values = refused_store(random, config.program.header);
                run_stepper(&mut buffer, used, &mut values, budget)
            }
            1 => {
                let other = any_used(random);
                run_stepper(&mut buffer, other, &mut store, budget)
            }
            _ => run_stepper(&mut buffer, used, &mut store, budget),
        };
        if ran.number == 0 {
            used = ran.used as usize;
        }
        seen.one(ran.outcome as usize);
    }
}

/// Each byte of three programs at each of its 256 values.
#[test]
fn every_byte_at_every_value() {
    let seen = Rows::default();
    for bytes in sample_programs() {
        for place in 0..bytes.len() {
            for value in 0..=255 {
                let mut buffer = lend(&bytes, 200);
                buffer[place] = value;
                let mut values = [3, 2, 1, u32::MAX];
                let k = usize::from(bytes[4]);
                let ran = run_stepper(&mut buffer, bytes.len(), &mut values[..k], 25);
                seen.one(ran.number);
            }
        }
    }
    seen.assert_at_least(&[
        (0, 2_000),
        (2, 1_000),
        (3, 500),
        (4, 10_000),
        (5, 5_000),
        (15, 200),
    ]);
    seen.assert_at_least(&[(6, 10)]);
}

/// Four loops of nine turns within each other, in one run and in runs of any length. A loop of n
/// turns with a body of b steps takes n + 2 + n·(b + 2) (see line.rs): 29, 290, 2,639, 23,780.
#[test]
fn a_long_run_in_pieces() {
    let program = nest_of_loops(1, 9, 4);
    let record = program.encode();
    cases(4, |random| {
        let (mut buffer, mut used, mut total) = (lend(&record, 2_000), record.len(), 0);
        let mut values = [5];
        while total < 23_780 {
            let budget = *random.pick(&[7, 100, 3_000, 23_780]);
            let ran = run_stepper(&mut buffer, used, &mut values, budget);
            (used, total) = (ran.used as usize, total + ran.steps);
        }
        let ran = run_stepper(&mut buffer, used, &mut values, 1);
        assert_eq!((ran.outcome, ran.steps, total, values), (1, 0, 23_780, [9]));
    });
}

/// The longest programs: a step of the deepest one changes the length of every block around it.
#[test]
fn the_longest_programs() {
    with_big_stack(|| {
        for (_, program) in EDITIONS.into_iter().flat_map(programs) {
            let record = program.encode();
            let k = program.header.k as usize;
            for (room, budget) in [(16_384, 0), (16_384, 3), (16_384, 20_000), (16_385, 1)] {
                let room = room.max(record.len());
                let mut buffer = lend(&record, room);
                run_stepper(&mut buffer, record.len(), &mut vec![2; k], budget);
            }
        }
    });
}
