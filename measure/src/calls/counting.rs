use std::hint::black_box;

use super::{row, CEILING};
use crate::plain;
use other::calls;
use other::codec::Record;
use other::examples::{add, nest_of_blocks, nest_of_loops, row_of_assignments, subtract};
use other::generate::lend;
use other::generate::states::{body, unrolling, words};
use other::library;
use other::run::counting::words::{Words, STATE_WORDS};
use other::tree::Program;

const START: Words = [0; STATE_WORDS];

/// Runs to the end: ADD on 7, 3500 is what the stepper has no room for; 31 loops within each other
/// are as deep as can be, and a step there opens or leaves one of 31; 31 blocks are opened by the
/// first step.
pub fn print() {
    let runs = [
        ("ADD on 7, 3: 18 steps", add(), vec![7, 3, 0, 0]),
        (
            "ADD on 7, 3, edition 2",
            add().under(CEILING),
            vec![7, 3, 0, 0],
        ),
        ("ADD on 7, 3500: 17,503 steps", add(), vec![7, 3_500, 0, 0]),
        (
            "ADD on 7, 3500, edition 2",
            add().under(CEILING),
            vec![7, 3_500, 0, 0],
        ),
        ("minus one: 17,503 steps", subtract(), vec![7, 3_500, 0, 0]),
        (
            "4 loops of 9: 23,780 steps",
            nest_of_loops(1, 9, 4),
            vec![5],
        ),
        ("31 loops of 1: 155 steps", nest_of_loops(1, 1, 31), vec![5]),
        ("31 nested: 31 steps", nest_of_blocks(1, 31), vec![5]),
        (
            "1,000 in a row: 1,000 steps",
            row_of_assignments(1, 1_000),
            vec![5],
        ),
    ];
    for (on, program, store) in runs {
        run(on, &program, &store);
    }
    // The loop of n loops, itself counted, is 20 · n bytes long. In the first of two turns it expands
    // to a block's head, what it holds, and one turn of its length: 12 + 31 · 4 + 20 · (1 + .. + 31)
    // bytes. ADD, unrolled 400 times, takes 48 + 36 · 400.
    let deep: Vec<_> = (0..31).map(|n| body(20 * n, 2, 1, 20 * (n + 1))).collect();
    let states = [
        ("ADD at its start", add(), START),
        (
            "ADD, 400 turns: 14,448 bytes",
            add(),
            words(16, &[unrolling(16, 400, 0)]),
        ),
        (
            "31 loops: 10,056 bytes",
            nest_of_loops(1, 2, 31),
            words(0, &deep),
        ),
        (
            "1,000 in a row: 16,012 bytes",
            row_of_assignments(1, 1_000),
            START,
        ),
    ];
    for (on, program, state) in states {
        expand(on, &program, &state);
    }
}

fn run(on: &str, program: &Program, store: &[u32]) {
    let record = program.encode();
    let (buf, used) = (lend(&record, 16_384), record.len());
    let buf = || black_box(&buf[..]);
    let mut copies = [(); 3].map(|()| (START, store.to_vec()));
    let [one, two, three] = &mut copies;
    row(
        "run_counting",
        on,
        &mut [
            &mut || {
                let (state, store) = anew(one, store);
                black_box(library::run_counting(buf(), used, state, store, 100_000));
            },
            &mut || {
                let (state, store) = anew(two, store);
                black_box(calls::run_counting(buf(), used, state, store, 100_000));
            },
            &mut || {
                let (state, store) = anew(three, store);
                let counted = plain::counting::run_counting(buf(), used, state, store, 100_000);
                black_box(counted);
            },
        ],
    );
}

fn anew<'a>(copy: &'a mut (Words, Vec<u32>), store: &[u32]) -> (&'a mut Words, &'a mut [u32]) {
    copy.0.fill(0);
    copy.1.copy_from_slice(store);
    (&mut copy.0, &mut copy.1)
}

fn expand(on: &str, program: &Program, state: &Words) {
    let record = program.encode();
    let (buf, used) = (lend(&record, 16_384), record.len());
    let (buf, state) = (|| black_box(&buf[..]), || black_box(state));
    let store = vec![3; program.header.k as usize];
    let [mut out, mut other_out, mut plain_out] = [(); 3].map(|()| vec![0; 16_384]);
    row(
        "expand",
        on,
        &mut [
            &mut || _ = black_box(library::expand(buf(), used, state(), &store, &mut out)),
            &mut || _ = black_box(calls::expand(buf(), used, state(), &store, &mut other_out)),
            &mut || {
                let written = plain::expand::expand(buf(), used, state(), &store, &mut plain_out);
                black_box(written);
            },
        ],
    );
}
