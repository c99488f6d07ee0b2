//! The stack that each call of the library takes: no more than 2 KB, a batch 2.2 KB,
//! however long, deep or branching the record is and of whichever edition, as `include/vistrokk.h` says.
//!
//! What is measured, and how, stands at `other::stack`: the deepest byte written below the start of
//! a painted stack, the frames of the Rust wrapper included. `cargo test --test stack --
//! --nocapture` prints every number; `./bench` prints the worst of each call.

use other::stack::{measure, used_by};

#[test]
fn no_call_takes_more_stack_than_it_may() {
    let measured = measure();
    for each in &measured {
        let above = if each.bytes > each.limit {
            "  TOO MUCH"
        } else {
            ""
        };
        println!("{:>7} {:<20} on {}{above}", each.bytes, each.call, each.on);
    }
    assert!(measured.iter().all(|each| each.bytes <= each.limit));
}

/// What the measurement itself adds, and that it sees what is written.
#[test]
fn the_measurement_sees_a_frame() {
    let nothing = used_by(&mut || {});
    assert!(nothing < 150, "{nothing} bytes for no call");
    for size in [1_000, 100_000] {
        let frame = used_by(&mut || recursion(size / 100));
        assert!(frame > size, "{frame} bytes for {size}");
    }
}

/// A hundred bytes of stack at each level, all written.
fn recursion(depth: usize) {
    let frame = std::hint::black_box([1u8; 100]);
    if depth > 0 {
        recursion(depth - 1);
    }
    std::hint::black_box(frame);
}
