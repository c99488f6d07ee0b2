//! How the time of a forecast grows with the program: twice as long should take twice as much.

use std::hint::black_box;

use crate::timing::best;
use other::codec::Record;
use other::extremes::foretellable;
use other::generate::lend;
use other::library;
use other::tree::Program;

/// Programs of about 4,096, 8,192 and 16,384 bytes, beside each time its ratio to the one before. The check alone is
/// timed too: it is part of a forecast.
pub fn print() {
    println!("A forecast of programs of about 4, 8 and 16 KB, nanoseconds, and the ratio to the half; then the check alone");
    let columns = format!(
        "{:>10}{:>10}{:>6}{:>10}{:>6}",
        "4 KB", "8 KB", "ratio", "16 KB", "ratio"
    );
    println!("{:<32}{columns}{columns}", "16 KB are");
    let sizes = [4_096, 8_192, 16_384].map(foretellable);
    for number in 0..sizes[0].len() {
        let (on, _) = &sizes[2][number];
        let programs = sizes.each_ref().map(|all| &all[number].1);
        print!("{on:<32}");
        print_row(programs, |buf, used, store| {
            _ = black_box(library::forecast_run(buf, used, store));
        });
        print_row(programs, |buf, used, _| {
            _ = black_box(library::check_program(buf, used));
        });
        println!();
    }
    println!();
}

fn print_row(programs: [&Program; 3], call: impl Fn(&[u8], usize, &[u32])) {
    let times = programs.map(|program| {
        let record = program.encode();
        let (buf, store) = (lend(&record, 16_384), vec![1; program.header.k as usize]);
        let mut work = || call(black_box(&buf[..]), record.len(), black_box(&store));
        best(&mut [&mut work])[0]
    });
    print!("{:>10.0}", times[0]);
    for half in 0..2 {
        print!(
            "{:>10.0}{:>6.2}",
            times[half + 1],
            times[half + 1] / times[half]
        );
    }
}
