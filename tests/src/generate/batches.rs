//! Batches (02, C-16): a program and jobs for it, by hand and of every sort.

use crate::calls::Written;
use crate::check::{lent_within, BATCH_LIMIT, BUFFER_LIMIT};
use crate::codec::Record;
use crate::generate::ceilings::value_above;
use crate::generate::lending::{
    lent_budget, output_room, perhaps_damaged, room, sound_program, translatable_program, Lending,
};
use crate::generate::programs::store;
use crate::generate::runs::ends_within;
use crate::random::Random;
use crate::run::stepper::Config;
use crate::translate::translate;
use crate::tree::{Header, Program, Value};

/// A start store and the budget of its run.
#[derive(Clone, Debug)]
pub struct Job {
    pub store: Vec<Value>,
    pub budget: u32,
}

pub fn job(store: &[Value], budget: u32) -> Job {
    let store = store.to_vec();
    Job { store, budget }
}

/// All that a batch is lent.
#[derive(Clone, Debug, PartialEq, Eq)]
pub struct Batch {
    pub program: Vec<u8>,
    pub used: usize,
    pub term: Vec<u8>,
    pub work: Vec<u8>,
    pub budgets: Vec<u32>,
    pub values: Vec<u32>,
    pub answers: Vec<u32>,
}

/// The call, of either program.
pub type RunBatch = fn(&[u8], usize, &mut [u8], &mut [u8], &[u32], &[u32], &mut [u32]) -> Written;

impl Batch {
    /// Lent as it should be, with the longest buffers. What only takes answers holds something: it must
    /// not matter on entry, and an accepted call must have written it all.
    pub fn of(record: &[u8], jobs: &[Job]) -> Batch {
        let places = jobs.iter().map(|job| job.store.len() + 2).sum();
        Batch {
            program: record.to_vec(),
            used: record.len(),
            term: vec![0x5A; BUFFER_LIMIT],
            work: vec![0xA5; BUFFER_LIMIT],
            budgets: jobs.iter().map(|job| job.budget).collect(),
            values: jobs.iter().flat_map(|job| job.store.clone()).collect(),
            answers: vec![0x5A5A_5A5A; places],
        }
    }

    #[inline]
    pub fn run(&mut self, call: RunBatch) -> Written {
        call(
            &self.program,
            self.used,
            &mut self.term,
            &mut self.work,
            &self.budgets,
            &self.values,
            &mut self.answers,
        )
    }
}

/// A program, sound or not, with jobs, lengths and buffers that are right or just wrong.
pub fn any_batch(random: &mut Random) -> Batch {
    let program = if random.one_in(8) {
        sound_program(random)
    } else {
        translatable_program(random)
    };
    let Lending { buffer, used } = perhaps_damaged(random, &program.encode());
    // Changed bits may have made another sound program, whose runs may be much longer.
    let program: Program = lent_within(&buffer, used).unwrap_or(program);
    let wanted = translate(&program).encoded_len().min(BUFFER_LIMIT);
    let (term, work) = (term_room(random, wanted), work_room(random, wanted));
    let count = number_of_jobs(random);
    let jobs: Vec<Job> = (0..count)
        .map(|_| any_job(random, &program, work))
        .collect();
    let mut batch = Batch::of(&[], &jobs);
    (batch.program, batch.used) = (buffer, used);
    batch.term.resize(term, 0x5A);
    batch.work.resize(work, 0xA5);
    if random.one_in(12) {
        raise_a_value(random, &mut batch.values, program.header);
    }
    let values = length(random, batch.values.len());
    batch.values.resize(values, 3);
    let answers = length(random, batch.answers.len());
    batch.answers.resize(answers, 3);
    batch
}

/// One of them above the ceiling, if there is such a value.
fn raise_a_value(random: &mut Random, values: &mut [Value], header: Header) {
    let above = value_above(random, header);
    if let (Some(above), false) = (above, values.is_empty()) {
        let place = random.below(values.len());
        values[place] = above;
    }
}

/// Mostly as long as the term or longer.
fn term_room(random: &mut Random, wanted: usize) -> usize {
    if random.one_in(12) {
        return output_room(random, wanted);
    }
    room(random, wanted)
}

/// The same, and mostly with more room for the runs, of which some then come to their end.
fn work_room(random: &mut Random, wanted: usize) -> usize {
    if random.one_in(3) {
        return term_room(random, wanted);
    }
    (wanted + random.below(1_500)).min(BUFFER_LIMIT)
}

/// Mostly a few, so that there can be many batches; also as many as there may be, one more, and none.
fn number_of_jobs(random: &mut Random) -> usize {
    match random.below(48) {
        0 => 0,
        1 => BATCH_LIMIT,
        2 => BATCH_LIMIT + 1,
        3 => random.below(4 * BATCH_LIMIT),
        _ => 1 + random.below(5),
    }
}

fn any_job(random: &mut Random, program: &Program, room: usize) -> Job {
    let store = store(random, program.header);
    let ends = random.one_in(4) && {
        let (program, store) = (program.clone(), store.clone());
        ends_within(&Config { program, store }.term(), room, 500)
    };
    let budget = lent_budget(random, ends);
    Job { store, budget }
}

/// A number of values: nearly always the right one.
fn length(random: &mut Random, right: usize) -> usize {
    match random.below(64) {
        0 => right.saturating_sub(1),
        1 => right + 1,
        2 => 0,
        3 => random.below(2 * right + 2),
        _ => right,
    }
}
