//! The most stack that each call takes; what is measured stands at `other::stack`.

use other::stack::{measure, Measured};

pub fn print() {
    println!("Worst stack, bytes, the Rust wrapper's frames included");
    let measured = measure();
    let mut calls: Vec<&str> = measured.iter().map(|each| each.call).collect();
    calls.dedup();
    for call in calls {
        let of_call = measured.iter().filter(|each| each.call == call);
        if let Some(Measured {
            bytes, on, limit, ..
        }) = of_call.max_by_key(|each| each.bytes)
        {
            println!("{call:<21}{bytes:>7} of {limit:<7} on {on}");
        }
    }
    println!();
}
