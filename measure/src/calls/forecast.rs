use std::hint::black_box;

use super::{row, CEILING};
use crate::plain::forecast as plain;
use other::calls;
use other::codec::Record;
use other::examples::{add, subtract};
use other::extremes::foretellable;
use other::generate::lend;
use other::library;
use other::tree::Program;

/// No step is made, so the time is one of the program's bytes alone: ADD on 7, 4294967295 takes 21 billion steps.
/// The longest programs have 1 in every variable, so one turn for each loop, and are accepted with it however
/// their loops stand within each other.
pub fn print() {
    let adds = [
        ("ADD on 7, 3", add(), [7, 3, 0, 0]),
        ("ADD on 7, 3, edition 2", add().under(CEILING), [7, 3, 0, 0]),
        ("ADD on 7, 4294967295", add(), [7, u32::MAX, 0, 0]),
        ("with minus one", subtract(), [7, 3, 0, 0]),
    ];
    for (on, program, store) in adds {
        forecast(on, &program, &store);
    }
    for (on, program) in foretellable(16_384) {
        forecast(&on, &program, &vec![1; program.header.k as usize]);
    }
}

fn forecast(on: &str, program: &Program, store: &[u32]) {
    let record = program.encode();
    let (buf, used) = (lend(&record, 16_384), record.len());
    let (buf, store) = (|| black_box(&buf[..]), || black_box(store));
    row(
        "forecast_run",
        on,
        &mut [
            &mut || _ = black_box(library::forecast_run(buf(), used, store())),
            &mut || _ = black_box(calls::forecast_run(buf(), used, store())),
            &mut || _ = black_box(plain::forecast_run(buf(), used, store())),
        ],
    );
}
