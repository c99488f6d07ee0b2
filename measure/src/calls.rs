//! Each call against the other program, and against a plain version on bytes where
//! there is one.
//!
//! A call that writes its input gets it anew each time, so the times of such a call have that of a copy
//! of the buffer in them. Every buffer is 16,384 bytes long. Rows of edition 2 have a ceiling that
//! their runs do not come to, and stand behind the same work in edition 1.

mod batch;
mod check;
mod counting;
mod editions;
mod forecast;
mod reducer;
mod stepper;
mod terms;
mod weigh;

use crate::timing::best;
use other::generate::lend;

pub fn print() {
    println!("The calls, nanoseconds: the library, the other program (trees), plain Rust on bytes");
    println!(
        "{:<21}{:<32}{:>11}{:>11}{:>7}{:>11}{:>7}",
        "", "on", "library", "other", "ratio", "plain", "ratio"
    );
    check::print();
    terms::print();
    editions::print();
    weigh::print();
    stepper::print();
    forecast::print();
    counting::print();
    reducer::print();
    batch::print();
    println!();
}

/// The ceiling of the rows of edition 2: above every value that they have.
const CEILING: u32 = 1_000_000;

/// A record in a buffer, and three copies of that buffer to work in. Some processors are slow to copy to a
/// place that is whole pages and a few bytes away, so the first buffer has half a page of room behind it.
fn lent_with_copies(record: &[u8]) -> (Vec<u8>, [Vec<u8>; 3]) {
    let mut buffer = lend(record, 16_384);
    buffer.reserve_exact(2_048);
    let copies = [(); 3].map(|()| buffer.clone());
    (buffer, copies)
}

/// One line of the table: the library first, then the other program, then the plain version.
fn row(call: &str, on: &str, work: &mut [&mut dyn FnMut()]) {
    let times = best(work);
    print!("{call:<21}{on:<32}{:>11.0}", times[0]);
    for time in &times[1..] {
        print!("{time:>11.0}{:>7.2}", times[0] / time);
    }
    println!();
}
