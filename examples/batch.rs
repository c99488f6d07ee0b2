//! The same as batch.c, in Rust, with the same argument, lines and exit status. `./test` builds and runs it:
//!
//!     rustc -O -L native=crates/vistrokk/out -l static=vistrokk examples/batch.rs
//!     ./batch [ROOM]

use std::process::exit;

// The constants of include/vistrokk.h, as far as they are needed here.
const BUFFER_MOST: usize = 16_384;
const ACCEPTED: u32 = 0;
const FINISHED: u32 = 1;

/// The outcomes by name, in the order of their numbers. An answer has none that is refused.
const OUTCOMES: [&str; 5] = ["refused", "finished", "over", "noroom", "spent"];

/// Those refusals by name that a batch can give.
fn refusal(number: u32) -> &'static str {
    match number {
        1 => "bad buffer",
        14 => "bad batch",
        2 => "bad header",
        3 => "bad k",
        4 => "malformed",
        5 => "bad variable",
        15 => "literal above ceiling",
        6 => "bad store",
        16 => "value above ceiling",
        10 => "output too short",
        _ => "unknown",
    }
}

/// k = 4, {x3 := x1; for x4 := 1 to x2 {x3 := x3 + 1}}, of edition 1; compare.c says which bytes are what.
const K: usize = 4;
const ADD: [u8; 64] = [
    64, 0, 7, 0, 4, 0, 0, 0, 56, 0, 1, 0, 16, 0, 2, 0, 3, 0, 0, 0, 8, 0, 17, 0, 1, 0, 0, 0, 36, 0,
    3, 0, 4, 0, 0, 0, 8, 0, 17, 0, 2, 0, 0, 0, 20, 0, 1, 0, 16, 0, 2, 0, 3, 0, 0, 0, 8, 0, 18, 0,
    3, 0, 0, 0,
];

/// The start stores with their budgets; batch.c says what becomes of them.
const JOBS: [([u32; K], u32); 5] = [
    ([7, 3, 0, 0], 1_000_000),
    ([u32::MAX, 1, 0, 0], 1_000_000),
    ([0, 1_000, 0, 0], 1_000_000),
    ([7, 3, 0, 0], 17),
    ([7, 3, 0, 0], 18),
];

#[repr(C)]
#[allow(dead_code)] // The length of the term is not looked at here.
struct Written {
    number: u32,
    used: u32,
}

extern "C" {
    fn vistrokk_run_batch(
        program: *const u8,
        program_len: usize,
        used: usize,
        term: *mut u8,
        term_len: usize,
        work: *mut u8,
        work_len: usize,
        budgets: *const u32,
        budgets_len: usize,
        values: *const u32,
        values_len: usize,
        answers: *mut u32,
        answers_len: usize,
    ) -> Written;
}

/// The answers, store after store, or the number of a refusal. The reducer has `room` bytes.
fn run_batch(program: &[u8], room: usize, jobs: &[([u32; K], u32)]) -> Result<Vec<u32>, u32> {
    let budgets: Vec<u32> = jobs.iter().map(|job| job.1).collect();
    let values: Vec<u32> = jobs.iter().flat_map(|job| job.0).collect();
    let mut answers = vec![0; jobs.len() * (K + 2)];
    let (mut term, mut work) = (vec![0; BUFFER_MOST], vec![0; room]);
    // Each pointer goes with the length of what it is taken from, and nothing of it overlaps.
    let written = unsafe {
        vistrokk_run_batch(
            program.as_ptr(),
            program.len(),
            program.len(),
            term.as_mut_ptr(),
            term.len(),
            work.as_mut_ptr(),
            work.len(),
            budgets.as_ptr(),
            budgets.len(),
            values.as_ptr(),
            values.len(),
            answers.as_mut_ptr(),
            answers.len(),
        )
    };
    match written.number {
        ACCEPTED => Ok(answers),
        number => Err(number),
    }
}

fn main() {
    let argument = std::env::args().nth(1).unwrap_or(BUFFER_MOST.to_string());
    let room = match argument.parse() {
        Ok(room) if room <= BUFFER_MOST => room,
        _ => {
            eprintln!("{argument} is not a number from 0 to {BUFFER_MOST}");
            exit(2)
        }
    };
    let answers = run_batch(&ADD, room, &JOBS).unwrap_or_else(|number| {
        eprintln!("run_batch: refused {number} ({})", refusal(number));
        exit(1)
    });
    // Outcome, count and k end values. The zeros of a store that is not finished are no result.
    for answer in answers.chunks(K + 2) {
        print!("{} after {}", OUTCOMES[answer[0] as usize], answer[1]);
        if answer[0] == FINISHED {
            let values: Vec<String> = answer[2..].iter().map(u32::to_string).collect();
            print!(": {}", values.join(" "));
        }
        println!();
    }
}
