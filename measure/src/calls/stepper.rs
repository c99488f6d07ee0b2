use std::hint::black_box;

use super::{lent_with_copies, row, CEILING};
use crate::plain;
use other::calls;
use other::codec::Record;
use other::examples::{add, nest_of_blocks, nest_of_loops, row_of_assignments, subtract};
use other::library;

/// Runs to the end: ADD on 7, 3 takes 18 steps; on 7, 400 it has states of up to 14 KB, and so it has
/// with minus one in the place of plus one; 23,780 small steps; 1,022 that each change the lengths of
/// all blocks around; and 1,000 that each move all that is left.
pub fn print() {
    let runs = [
        ("ADD on 7, 3: 18 steps", add(), vec![7, 3, 0, 0]),
        (
            "ADD on 7, 3, edition 2",
            add().under(CEILING),
            vec![7, 3, 0, 0],
        ),
        ("ADD on 7, 400: 2,003 steps", add(), vec![7, 400, 0, 0]),
        (
            "ADD on 7, 400, edition 2",
            add().under(CEILING),
            vec![7, 400, 0, 0],
        ),
        (
            "with minus one: 2,003 steps",
            subtract(),
            vec![7, 400, 0, 0],
        ),
        (
            "4 loops of 9: 23,780 steps",
            nest_of_loops(1, 9, 4),
            vec![5],
        ),
        (
            "1,022 nested: 1,022 steps",
            nest_of_blocks(1, 1_022),
            vec![5],
        ),
        (
            "1,000 in a row: 1,000 steps",
            row_of_assignments(1, 1_000),
            vec![5],
        ),
    ];
    for (on, program, store) in runs {
        run(on, &program.encode(), &store);
    }
}

fn run(on: &str, record: &[u8], store: &[u32]) {
    let used = record.len();
    let (fresh, copies) = lent_with_copies(record);
    let mut copies = copies.map(|copy| (copy, store.to_vec()));
    let [one, two, three] = &mut copies;
    row(
        "run_stepper",
        on,
        &mut [
            &mut || {
                anew(one, &fresh, store);
                black_box(library::run_stepper(&mut one.0, used, &mut one.1, 100_000));
            },
            &mut || {
                anew(two, &fresh, store);
                black_box(calls::run_stepper(&mut two.0, used, &mut two.1, 100_000));
            },
            &mut || {
                anew(three, &fresh, store);
                let (buf, store) = (&mut three.0, &mut three.1);
                black_box(plain::stepper::run_stepper(buf, used, store, 100_000));
            },
        ],
    );
}

fn anew(copy: &mut (Vec<u8>, Vec<u32>), buffer: &[u8], store: &[u32]) {
    copy.0.copy_from_slice(buffer);
    copy.1.copy_from_slice(store);
}
