//! So many steps of ADD, or of ADD with minus one in the place of plus one, or of ADD in edition 2, by
//! one engine of the library, for a count of instructions: `steps stepper|counting|reducer
//! add|subtract|ceiling BUDGET`. ./bench runs it under callgrind with two budgets and divides.

use std::hint::black_box;

use other::codec::Record;
use other::examples::{add, subtract};
use other::generate::lend;
use other::library;
use other::run::counting::words::STATE_WORDS;

fn main() {
    let arguments: Vec<String> = std::env::args().collect();
    let program = match arguments[2].as_str() {
        "add" => add(),
        "subtract" => subtract(),
        "ceiling" => add().under(1_000_000),
        program => panic!("no such program: {program}"),
    };
    let budget = arguments[3].parse().expect("a budget");
    match arguments[1].as_str() {
        "stepper" => {
            let record = program.encode();
            let mut store = [7, 400, 0, 0];
            let mut buf = lend(&record, 16_384);
            black_box(library::run_stepper(
                &mut buf,
                record.len(),
                &mut store,
                budget,
            ));
        }
        "counting" => {
            let record = program.encode();
            let (mut state, mut store) = ([0; STATE_WORDS], [7, 3_500, 0, 0]);
            let buf = lend(&record, 16_384);
            black_box(library::run_counting(
                &buf,
                record.len(),
                &mut state,
                &mut store,
                budget,
            ));
        }
        "reducer" => {
            let store = vec![7, 200, 0, 0];
            let config = other::run::stepper::Config { program, store };
            let record = config.term().encode();
            let mut buf = lend(&record, 16_384);
            black_box(library::run_reducer(&mut buf, record.len(), budget));
        }
        engine => panic!("no such engine: {engine}"),
    }
}
