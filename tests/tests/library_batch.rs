//! The library's batches against the other program's, in bulk. Every call goes through `both`, which
//! compares; `batch.rs` and `batch_rows.rs` state what 02 says.

use other::both::run_batch;
use other::codec::Record;
use other::examples::{all_examples, sample_programs, Example};
use other::extremes::{translatable, EDITIONS};
use other::generate::batches::{any_batch, job, Batch, Job};
use other::random::{cases, Counts, Rows};
use other::translate::translate;
use other::tree::with_big_stack;

/// Counts the outcomes of an accepted batch.
fn see(batch: &Batch, outcomes: &Counts<5>) {
    let k = usize::from(batch.program[4]);
    for answer in batch.answers.chunks(k + 2) {
        outcomes.one(answer[0] as usize);
    }
}

/// Programs, jobs, lengths, buffers and budgets of every sort.
#[test]
fn generated_batches() {
    let (rows, outcomes) = (Rows::default(), Counts::<5>::default());
    // Accepted with k = 1, with k = 16, with 1 job, with 64, and with 64 at k = 16.
    let extremes = Counts::<5>::default();
    cases(60_000, |random| {
        let mut batch = any_batch(random);
        let written = batch.run(run_batch);
        rows.one(written.number);
        if written.number != 0 {
            return;
        }
        see(&batch, &outcomes);
        let (k, jobs) = (batch.program[4], batch.budgets.len());
        let sorts = [
            k == 1,
            k == 16,
            jobs == 1,
            jobs == 64,
            k == 16 && jobs == 64,
        ];
        for (n, met) in sorts.into_iter().enumerate() {
            extremes.add(n, u32::from(met));
        }
    });
    rows.assert_at_least(&[
        (0, 20_000),
        (1, 3_000),
        (2, 4_000),
        (3, 1_000),
        (4, 2_000),
        (5, 300),
        (15, 100),
    ]);
    rows.assert_at_least(&[(6, 3_000), (10, 1_000), (14, 2_000), (16, 500)]);
    outcomes.assert_at_least([0, 50_000, 2_000, 5_000, 20_000]);
    extremes.assert_at_least([5_000, 300, 3_000, 500, 5]);
}

/// 01's examples, also under ceilings, in every room from one byte less than the term to more than any
/// of their states, each with a job for every budget from nothing to beyond its end.
#[test]
fn the_examples_in_every_room_with_every_budget() {
    let (rows, outcomes) = (Rows::default(), Counts::<5>::default());
    for Example {
        program,
        store,
        steps,
        ..
    } in all_examples()
    {
        let budgets = (0..steps + 3).chain([u32::MAX]);
        let jobs: Vec<Job> = budgets.map(|budget| job(&store, budget)).collect();
        let sound = Batch::of(&program.encode(), &jobs);
        let len = translate(&program).encoded_len();
        for work in len - 1..len + 230 {
            for term in [len - 1, len, 16_384] {
                let mut batch = sound.clone();
                batch.term.truncate(term);
                batch.work.truncate(work);
                let number = batch.run(run_batch).number;
                rows.one(number);
                if number == 0 {
                    see(&batch, &outcomes);
                }
            }
        }
    }
    rows.assert_at_least(&[(0, 8_000), (10, 4_000)]);
    outcomes.assert_at_least([0, 10_000, 5_000, 10_000, 10_000]);
}

/// Each byte of three programs at each of its 256 values, with two jobs. The last has a ceiling of 6; where
/// that is changed to below a value of a job, but not below a literal, it is 16.
#[test]
fn every_byte_at_every_value() {
    let seen = Rows::default();
    for bytes in sample_programs() {
        let k = usize::from(bytes[4]);
        let jobs = [[3, 2, 1, u32::MAX], [6, 3, 0, 1]].map(|store| job(&store[..k], 25));
        let mut sound = Batch::of(&bytes, &jobs);
        sound.term.truncate(250);
        sound.work.truncate(400);
        for place in 0..bytes.len() {
            for value in 0..=255 {
                let mut batch = sound.clone();
                batch.program[place] = value;
                seen.one(batch.run(run_batch).number);
            }
        }
    }
    seen.assert_at_least(&[
        (0, 2_000),
        (2, 1_000),
        (3, 500),
        (4, 10_000),
        (5, 5_000),
        (15, 200),
    ]);
    seen.assert_at_least(&[(6, 10)]);
}

/// The longest programs whose term can be lent, with jobs that make few steps and many.
#[test]
fn the_longest_programs() {
    with_big_stack(|| {
        for (name, program) in EDITIONS.into_iter().flat_map(translatable) {
            let store = vec![2; program.header.k as usize];
            let jobs = [0, 3, 5_000, 1].map(|budget| job(&store, budget));
            let mut batch = Batch::of(&program.encode(), &jobs);
            assert_eq!(batch.run(run_batch).number, 0, "{name}");
        }
    });
}
