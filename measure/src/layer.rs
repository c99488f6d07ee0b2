//! The buffer layer's moves, zeroing and copy against memmove, memset and memcpy.

use std::hint::black_box;

use crate::timing::best;

extern "C" {
    fn probe_move_down(buf: *mut u8, len: usize, from: usize, to: usize, count: usize);
    fn probe_move_up(buf: *mut u8, len: usize, from: usize, to: usize, count: usize);
    fn probe_zero(buf: *mut u8, len: usize, at: usize, count: usize);
    fn probe_copy(
        src: *const u8,
        src_len: usize,
        from: usize,
        dst: *mut u8,
        dst_len: usize,
        to: usize,
        count: usize,
    );
}

/// By how many bytes the engines move: heads, atoms, assignments and loops come and go.
const DISTANCES: [usize; 5] = [4, 8, 16, 20, 36];

/// How many bytes are moved, and the ratio that is still good: a move in place can come near to the
/// C library on short buffers, and is not to fall far behind its wide stores on the longest.
const COUNTS: [(usize, f64); 2] = [(1_000, 1.5), (16_000, 3.5)];

pub fn print() {
    println!("The buffer layer against the C library, nanoseconds and ratio");
    println!("{:<22}{:>28}{:>28}", "", "1,000 bytes", "16,000 bytes");
    for distance in DISTANCES {
        row(&format!("move down by {distance}"), |count| {
            move_down(distance, count)
        });
    }
    for distance in DISTANCES {
        row(&format!("move up by {distance}"), |count| {
            move_up(distance, count)
        });
    }
    row("zero", zero);
    row("copy", copy);
    println!("goal: 1.5 at 1,000 bytes and 3.5 at 16,000; above it is marked with !\n");
}

fn row(name: &str, measure: impl Fn(usize) -> Vec<f64>) {
    print!("{name:<22}");
    for (count, goal) in COUNTS {
        let times = measure(count);
        let ratio = times[0] / times[1];
        let mark = if ratio > goal { '!' } else { ' ' };
        print!("{:>10.1}{:>9.1}{ratio:>8.2}{mark}", times[0], times[1]);
    }
    println!();
}

/// Bytes in no order, so that a move that does not happen would be seen.
fn bytes(len: usize) -> Vec<u8> {
    (0..len).map(|at| (at * at / 7 + at) as u8).collect()
}

/// Both do the same; a benchmark of something else would say nothing.
fn both(len: usize, ours: impl Fn(&mut [u8]), theirs: impl Fn(&mut [u8])) -> Vec<f64> {
    let (mut one, mut other) = (bytes(len), bytes(len));
    ours(&mut one);
    theirs(&mut other);
    assert!(one == other && one != bytes(len));
    best(&mut [&mut || ours(black_box(&mut one)), &mut || {
        theirs(black_box(&mut other))
    }])
}

fn move_down(distance: usize, count: usize) -> Vec<f64> {
    let count = black_box(count);
    both(
        count + distance,
        |buf| unsafe { probe_move_down(buf.as_mut_ptr(), buf.len(), distance, 0, count) },
        |buf| buf.copy_within(distance..distance + count, 0),
    )
}

fn move_up(distance: usize, count: usize) -> Vec<f64> {
    let count = black_box(count);
    both(
        count + distance,
        |buf| unsafe { probe_move_up(buf.as_mut_ptr(), buf.len(), 0, distance, count) },
        |buf| buf.copy_within(..count, distance),
    )
}

fn zero(count: usize) -> Vec<f64> {
    let count = black_box(count);
    both(
        count + 8,
        |buf| unsafe { probe_zero(buf.as_mut_ptr(), buf.len(), 4, count) },
        |buf| buf[4..4 + count].fill(0),
    )
}

fn copy(count: usize) -> Vec<f64> {
    let count = black_box(count);
    let source: Vec<u8> = bytes(count + 8).iter().map(|byte| !byte).collect();
    both(
        count + 8,
        |buf| unsafe {
            let (from, to) = (source.as_ptr(), buf.as_mut_ptr());
            probe_copy(from, source.len(), 4, to, buf.len(), 4, count);
        },
        |buf| buf[4..4 + count].copy_from_slice(&source[4..4 + count]),
    )
}
