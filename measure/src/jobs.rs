//! What a further job of a batch costs: neither a check nor a translation.

use std::hint::black_box;

use crate::timing::best;
use other::codec::Record;
use other::examples::row_of_blocks;
use other::generate::batches::{job, Batch};
use other::library;

/// The term of 1,022 blocks in a row fills the buffer, but a start store has only one place in it; so with
/// no step to make, nearly all of a job is a copy of the term. Beside the batch stands what its jobs take
/// one by one, each with its own check and translation, and the least that one translation for all leaves to do:
/// that copy for each job. The last column is what a job beyond the first adds: from 8 jobs as from 64,
/// or the time is not linear in their number.
pub fn print() {
    println!("A batch on 1,022 blocks in a row, no step, nanoseconds: the library; job by job; one translation and the copies");
    println!(
        "{:>4}{:>11}{:>12}{:>7}{:>11}{:>7}{:>13}",
        "jobs", "batch", "job by job", "ratio", "copies", "ratio", "further job"
    );
    let mut first = 0.0;
    for jobs in [1, 8, 64] {
        let [batch, single, copies] = times(jobs);
        print!("{jobs:>4}{batch:>11.0}");
        print!("{single:>12.0}{:>7.2}", batch / single);
        print!("{copies:>11.0}{:>7.2}", batch / copies);
        if jobs == 1 {
            first = batch;
            println!();
        } else {
            println!("{:>13.0}", (batch - first) / (jobs - 1) as f64);
        }
    }
    println!();
}

fn times(jobs: usize) -> [f64; 3] {
    let (record, store) = (row_of_blocks(1, 1_022).encode(), [5]);
    let mut batch = Batch::of(&record, &vec![job(&store, 0); jobs]);
    let [mut own, mut term, mut work] = [(); 3].map(|()| vec![0; 16_384]);
    let translate = |out: &mut [u8]| {
        let record = black_box(&record[..]);
        library::translate(record, record.len(), out).used as usize
    };
    let times = best(&mut [
        &mut || _ = black_box(black_box(&mut batch).run(library::run_batch)),
        &mut || {
            for _ in 0..jobs {
                let used = translate(&mut own);
                library::substitute(&mut own, used, &store);
                black_box(library::run_reducer(&mut own, used, 0));
            }
        },
        &mut || {
            let used = translate(&mut term);
            for _ in 0..jobs {
                black_box(&mut work[..used]).copy_from_slice(&term[..used]);
            }
            black_box(&mut work).fill(0);
        },
    ]);
    times.try_into().expect("three pieces of work")
}
