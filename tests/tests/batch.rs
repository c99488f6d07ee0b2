//! Batches (02, C-16): what each job is answered, that it is what the reducer says of that store alone,
//! and what is left in the buffers. `batch_rows.rs` has the refusals.
//!
//! An answer is k + 2 values: outcome (1 finished, 2 over, 3 no room, 4 spent), count, end values.

use other::both::{result, run_batch, run_reducer, substitute, translate};
use other::calls::Written;
use other::codec::Record;
use other::examples::{add, examples, program, Example};
use other::generate::batches::{any_batch, job, Batch, Job};
use other::generate::lend;
use other::random::{cases, Counts};
use other::tree::{Bound, Command, Expr, Program, Value};

const MAX: Value = Value::MAX;

/// The answers of an accepted batch, job by job. Whatever the jobs, `term` is left as translate leaves
/// its output, and `work` all zero.
fn answers(batch: &mut Batch) -> Vec<Vec<u32>> {
    let k = usize::from(batch.program[4]);
    let mut out = vec![0xC3; batch.term.len()];
    let written = translate(&batch.program, batch.used, &mut out);
    assert_eq!(batch.run(run_batch), written);
    assert_eq!(written.number, 0);
    assert!(batch.term == out && batch.work.iter().all(|byte| *byte == 0));
    batch.answers.chunks(k + 2).map(<[u32]>::to_vec).collect()
}

fn answers_to(program: &Program, jobs: &[Job]) -> Vec<Vec<u32>> {
    answers(&mut Batch::of(&program.encode(), jobs))
}

/// The same in so many bytes of work.
fn answers_in(room: usize, program: &Program, jobs: &[Job]) -> Vec<Vec<u32>> {
    let mut batch = Batch::of(&program.encode(), jobs);
    batch.work.truncate(room);
    answers(&mut batch)
}

/// P1; P3; ADD on 0, 1000, whose term has 156 + 76·j bytes after the first reduction and j turns
/// unrolled, so that 213 fit (`figures.rs`) and 214 reductions are made; P1 without its last step; P1.
#[test]
fn add_with_every_outcome() {
    let p1 = [7, 3, 0, 0];
    let jobs = [
        job(&p1, 1_000_000),
        job(&[MAX, 1, 0, 0], 1_000_000),
        job(&[0, 1_000, 0, 0], 1_000_000),
        job(&p1, 17),
        job(&p1, 18),
    ];
    let mut batch = Batch::of(&add().encode(), &jobs);
    let wanted = [
        [1, 18, 7, 3, 10, 3],
        [2, 5, 0, 0, 0, 0],
        [3, 214, 0, 0, 0, 0],
        [4, 17, 0, 0, 0, 0],
        [1, 18, 7, 3, 10, 3],
    ];
    assert_eq!(answers(&mut batch), wanted);
    // Once more, with what is left in the buffers and in the answers: nothing of it matters.
    let left = batch.clone();
    let again = batch.run(run_batch);
    assert_eq!((again.number, again.used), (0, 172));
    assert_eq!(batch, left);
}

/// P1 to P9 as 01 has them, twice each, with a budget that is not used up and one that just suffices.
#[test]
fn the_examples_as_jobs() {
    for Example {
        name,
        program,
        store,
        outcome,
        steps,
        end,
    } in examples()
    {
        let finished = outcome.number() == 1;
        let shown = if finished { end } else { vec![0; store.len()] };
        let wanted = [vec![outcome.number(), steps], shown].concat();
        let jobs = [job(&store, MAX), job(&store, steps)];
        let got = answers_to(&program, &jobs);
        assert_eq!(got, [&wanted[..], &wanted[..]], "{name}");
    }
}

/// One that goes over, lacks room or is spent, before, between and behind others. ADD on 1, 1 takes
/// 3 + 5 steps and leaves 2 in x3 and 1 in x4.
#[test]
fn a_job_that_is_not_finished_changes_no_other() {
    let sound = [
        (job(&[7, 3, 0, 0], 18), [1, 18, 7, 3, 10, 3]),
        (job(&[7, 0, 0, 0], 3), [1, 3, 7, 0, 7, 0]),
        (job(&[1, 1, 1, 1], 8), [1, 8, 1, 1, 2, 1]),
    ];
    let others = [
        (job(&[MAX, 1, 0, 0], MAX), [2, 5, 0, 0, 0, 0]),
        (job(&[0, 1_000, 0, 0], MAX), [3, 214, 0, 0, 0, 0]),
        (job(&[7, 3, 0, 0], 17), [4, 17, 0, 0, 0, 0]),
    ];
    for other in others {
        for place in 0..=sound.len() {
            let mut all = sound.to_vec();
            all.insert(place, other.clone());
            let (jobs, wanted): (Vec<Job>, Vec<_>) = all.into_iter().unzip();
            assert_eq!(answers_to(&add(), &jobs), wanted);
        }
    }
}

/// A budget of 0, with each outcome. {} is finished at the start and shows its store. The term of
/// {for x1 := 1 to 1 {}} is 64 bytes long, a rec of 40 in it; unrolled that is 72: a let-all's head of
/// 4, the rec, and a let-one of 28. So the next state has 96, which 95 bytes do not hold.
#[test]
fn a_budget_of_0() {
    let empty = program(2, vec![]);
    let jobs = [job(&[5, MAX], 0), job(&[0, 9], 0), job(&[6, 7], MAX)];
    let wanted = [[1, 0, 5, MAX], [1, 0, 0, 9], [1, 0, 6, 7]];
    assert_eq!(answers_to(&empty, &jobs), wanted);
    let plus_one = program(1, vec![Command::Assign(1, Expr::PlusOne(1))]);
    let jobs = [job(&[MAX], 0), job(&[MAX - 1], 0)];
    assert_eq!(answers_to(&plus_one, &jobs), [[2, 0, 0], [4, 0, 0]]);
    let once = program(1, vec![Command::Loop(1, Bound::Literal(1), vec![])]);
    let jobs = [job(&[9], 0)];
    assert_eq!(answers_in(64, &once, &jobs), [[3, 0, 0]]);
    assert_eq!(answers_in(95, &once, &jobs), [[3, 0, 0]]);
    assert_eq!(answers_in(96, &once, &jobs), [[4, 0, 0]]);
}

/// 01: on P1's store ADD's term needs 384 bytes; with 383 the reducer stops at 3. It is `work` that the
/// reducer has, so the length of `term` does not matter, nor does what another job needed.
#[test]
fn the_room_is_that_of_work() {
    for term in [172, 383, 384, 16_384] {
        for (room, wanted) in [
            (383, [3, 3, 0, 0, 0, 0]),
            (384, [1, 18, 7, 3, 10, 3]),
            (16_384, [1, 18, 7, 3, 10, 3]),
        ] {
            let small = job(&[7, 0, 0, 0], MAX);
            let jobs = [small.clone(), job(&[7, 3, 0, 0], MAX), small];
            let mut batch = Batch::of(&add().encode(), &jobs);
            batch.term.truncate(term);
            batch.work.truncate(room);
            let end = [1, 3, 7, 0, 7, 0];
            assert_eq!(answers(&mut batch), [end, wanted, end]);
        }
    }
}

/// The most: 64 stores of 16 values, so 1,024 values and 1,152 places. {x16 := x1 + 1} takes two
/// steps. Every value of every store is another, so that none can stand in for another.
#[test]
fn sixty_four_jobs_at_k_16() {
    let block = vec![Command::Assign(16, Expr::PlusOne(1))];
    let store = |n: u32| -> Vec<u32> { (0..16).map(|x| 1_000 * n + 10 * x).collect() };
    let jobs: Vec<Job> = (0..64).map(|n| job(&store(n), 1 + n % 2)).collect();
    let mut batch = Batch::of(&program(16, block).encode(), &jobs);
    assert_eq!((batch.values.len(), batch.answers.len()), (1_024, 1_152));
    let got = answers(&mut batch);
    for n in 0..64 {
        let mut wanted = vec![1, 2];
        wanted.extend(&store(n)[..15]);
        wanted.push(1_000 * n + 1);
        // With a budget of 1 the sum is worked out and not stored.
        if n % 2 == 0 {
            wanted = vec![4, 1];
            wanted.resize(18, 0);
        }
        assert_eq!(got[n as usize], wanted);
    }
}

/// What the calls for one store say of a job: its store substituted in the term, in a buffer of work's
/// length, run, and its result; k zeros where that is refused as not finished.
fn by_itself(term: &[u8], room: usize, job: &Job) -> Vec<u32> {
    let mut buffer = lend(term, room);
    let substituted = substitute(&mut buffer, term.len(), &job.store);
    assert_eq!(substituted.number, 0);
    let ran = run_reducer(&mut buffer, term.len(), job.budget).ran;
    let mut end = vec![0; job.store.len()];
    let number = result(&buffer, ran.used as usize, &mut end);
    assert_eq!(number, if ran.outcome == 1 { 0 } else { 8 });
    [vec![ran.outcome, ran.steps], end].concat()
}

/// The same batch with other jobs for the same program.
fn with_jobs(batch: &Batch, jobs: &[Job]) -> Batch {
    Batch {
        term: batch.term.clone(),
        work: batch.work.clone(),
        ..Batch::of(&batch.program[..batch.used], jobs)
    }
}

/// Of generated batches each answer is that of its job by itself, by the other calls and as a batch of
/// one, and jobs in another order have their answers in that order.
#[test]
fn each_answer_is_that_of_its_store_alone() {
    let (outcomes, sorts) = (Counts::<5>::default(), Counts::<5>::default());
    cases(20_000, |random| {
        let mut batch = any_batch(random);
        let lent = batch.clone();
        let Written { number, used } = batch.clone().run(run_batch);
        if number != 0 {
            return;
        }
        let got = answers(&mut batch);
        let (term, room) = (&batch.term[..used as usize], batch.work.len());
        let k = usize::from(lent.program[4]);
        let stores = lent.values.chunks(k).zip(&lent.budgets);
        let mut jobs: Vec<Job> = stores.map(|(store, budget)| job(store, *budget)).collect();
        for (job, answer) in jobs.iter().zip(&got) {
            assert_eq!(by_itself(term, room, job), *answer);
            let mut alone = with_jobs(&lent, std::slice::from_ref(job));
            assert_eq!(answers(&mut alone), [&answer[..]]);
            outcomes.one(answer[0] as usize);
        }
        jobs.reverse();
        let mut backwards = answers(&mut with_jobs(&lent, &jobs));
        backwards.reverse();
        assert_eq!(backwards, got);
        let sort = |outcome| got.iter().any(|answer| answer[0] == outcome);
        sorts.one((1..=4).filter(|outcome| sort(*outcome)).count());
    });
    outcomes.assert_at_least([0, 10_000, 200, 1_000, 5_000]);
    // Batches of so many sorts of outcomes.
    sorts.assert_at_least([0, 2_000, 1_000, 100, 3]);
}
