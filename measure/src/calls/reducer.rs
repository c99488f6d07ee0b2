use std::hint::black_box;

use super::{lent_with_copies, row, CEILING};
use crate::plain;
use other::calls;
use other::codec::Record;
use other::examples::{add, nest_of_blocks, nest_of_loops, row_of_assignments, subtract};
use other::library;
use other::run::stepper::Config;

/// Runs to the end, as of the stepper; terms are longer, so 200 turns and 1,022 blocks.
pub fn print() {
    let runs = [
        ("ADD on 7, 3: 18 steps", add(), vec![7, 3, 0, 0]),
        (
            "ADD on 7, 3, edition 2",
            add().under(CEILING),
            vec![7, 3, 0, 0],
        ),
        ("ADD on 7, 200: 1,003 steps", add(), vec![7, 200, 0, 0]),
        (
            "ADD on 7, 200, edition 2",
            add().under(CEILING),
            vec![7, 200, 0, 0],
        ),
        (
            "with minus one: 1,003 steps",
            subtract(),
            vec![7, 200, 0, 0],
        ),
        (
            "4 loops of 9: 23,780 steps",
            nest_of_loops(1, 9, 4),
            vec![5],
        ),
        (
            "1,022 nested: 1,022 steps",
            nest_of_blocks(1, 1_022),
            vec![5],
        ),
        (
            "1,000 in a row: 1,000 steps",
            row_of_assignments(1, 1_000),
            vec![5],
        ),
    ];
    for (on, program, store) in runs {
        run(on, &Config { program, store }.term().encode());
    }
}

fn run(on: &str, record: &[u8]) {
    let used = record.len();
    let (fresh, mut copies) = lent_with_copies(record);
    let [one, two, three] = &mut copies;
    row(
        "run_reducer",
        on,
        &mut [
            &mut || {
                one.copy_from_slice(&fresh);
                black_box(library::run_reducer(one, used, 100_000));
            },
            &mut || {
                two.copy_from_slice(&fresh);
                black_box(calls::run_reducer(two, used, 100_000));
            },
            &mut || {
                three.copy_from_slice(&fresh);
                black_box(plain::reducer::run_reducer(three, used, 100_000));
            },
        ],
    );
}
