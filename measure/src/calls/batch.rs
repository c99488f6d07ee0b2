use std::hint::black_box;

use super::{row, CEILING};
use crate::plain;
use other::calls;
use other::codec::Record;
use other::examples::{add, row_of_blocks};
use other::generate::batches::{job, Batch, RunBatch};
use other::library;
use other::tree::Program;

/// ADD in one job and in as many as can be, with few steps and with many; 16 variables, so 1,152 places
/// for answers; and a program that is as long to translate as any, with no step to make.
pub fn print() {
    let p1 = [7, 3, 0, 0];
    let long = [7, 200, 0, 0];
    run("ADD on 7, 3: 1 of 18 steps", &add(), &p1, 1, 100_000);
    run("ADD on 7, 3: 64 of 18 steps", &add(), &p1, 64, 100_000);
    let second = add().under(CEILING);
    run("ADD on 7, 3: 64, edition 2", &second, &p1, 64, 100_000);
    run("ADD on 7, 200: 64 of 1,003", &add(), &long, 64, 100_000);
    let wide = row_of_blocks(16, 119);
    run("k = 16: 64 of 119 steps", &wide, &[5; 16], 64, 100_000);
    let row = row_of_blocks(1, 1_022);
    run("1,022 blocks: 64 of 0 steps", &row, &[5], 64, 0);
}

/// What a batch writes it does not read before, so that nothing has to be lent anew.
fn run(on: &str, program: &Program, store: &[u32], jobs: usize, budget: u32) {
    let batch = Batch::of(&program.encode(), &vec![job(store, budget); jobs]);
    let calls: [RunBatch; 3] = [
        library::run_batch,
        calls::run_batch,
        plain::batch::run_batch,
    ];
    let mut work = calls.map(|call| {
        let mut batch = batch.clone();
        move || _ = black_box(black_box(&mut batch).run(call))
    });
    let [one, two, three] = &mut work;
    row("run_batch", on, &mut [one, two, three]);
}
