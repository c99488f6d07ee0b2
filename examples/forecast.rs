//! The same as forecast.c, in Rust, with the same arguments, lines and exit status. `./test` builds and runs it:
//!
//!     rustc -O -L native=crates/vistrokk/out -l static=vistrokk examples/forecast.rs
//!     ./forecast [FILE [STEPPER_ROOM [REDUCER_ROOM]]]

use std::process::exit;

// The constants of include/vistrokk.h, as far as they are needed here.
const BUFFER_MOST: usize = 16_384;
const ACCEPTED: u32 = 0;
const BAD_BUFFER: u32 = 1;
const BAD_HEADER: u32 = 2;
const BAD_STORE: u32 = 6;
const FINISHED: u32 = 1;
const NO_ROOM: u32 = 3;

/// No run is longer, whatever is foretold.
const BUDGET_MOST: u64 = 10_000_000;

/// The outcomes by name, in the order of their numbers.
const OUTCOMES: [&str; 5] = ["refused", "finished", "over", "noroom", "spent"];

/// Those refusals by name that the calls here can give.
fn refusal(number: u32) -> &'static str {
    match number {
        ACCEPTED => "accepted",
        BAD_BUFFER => "bad buffer",
        BAD_HEADER => "bad header",
        3 => "bad k",
        4 => "malformed",
        5 => "bad variable",
        15 => "literal above ceiling",
        BAD_STORE => "bad store",
        16 => "value above ceiling",
        18 => "bound assigned",
        10 => "output too short",
        19 => "figure too large",
        _ => "unknown",
    }
}

/// ADD of edition 1 and the values 7, 3, 0, 0; compare.c says which bytes are what.
const ADD: [u8; 80] = [
    64, 0, 7, 0, 4, 0, 0, 0, 56, 0, 1, 0, 16, 0, 2, 0, 3, 0, 0, 0, 8, 0, 17, 0, 1, 0, 0, 0, 36, 0,
    3, 0, 4, 0, 0, 0, 8, 0, 17, 0, 2, 0, 0, 0, 20, 0, 1, 0, 16, 0, 2, 0, 3, 0, 0, 0, 8, 0, 18, 0,
    3, 0, 0, 0, 7, 0, 0, 0, 3, 0, 0, 0, 0, 0, 0, 0, 0, 0, 0, 0,
];

#[repr(C)]
struct Checked {
    number: u32,
    k: u32,
}

#[repr(C)]
struct Written {
    number: u32,
    used: u32,
}

#[repr(C)]
#[allow(dead_code)] // Who substitutes a store may leave uncounted what it replaces.
struct Substituted {
    number: u32,
    used: u32,
    replaced: u32,
}

#[repr(C)]
#[allow(dead_code)] // Of a run that is not gone on with, the budget left and the length do not matter.
struct Ran {
    number: u32,
    outcome: u32,
    steps: u32,
    left: u32,
    used: u32,
}

#[repr(C)]
#[allow(dead_code)] // Nor how many variables were replaced.
struct Reduced {
    ran: Ran,
    replaced: u64,
}

#[repr(C)]
struct Forecast {
    number: u32,
    steps: u64,
    program_bytes: u64,
    term_bytes: u64,
}

extern "C" {
    fn vistrokk_check_program(buf: *const u8, buf_len: usize, used: usize) -> Checked;
    fn vistrokk_forecast_run(
        buf: *const u8,
        buf_len: usize,
        used: usize,
        store: *const u32,
        store_len: usize,
    ) -> Forecast;
    fn vistrokk_translate(
        src: *const u8,
        src_len: usize,
        used: usize,
        out: *mut u8,
        out_len: usize,
    ) -> Written;
    fn vistrokk_substitute(
        buf: *mut u8,
        buf_len: usize,
        used: usize,
        store: *const u32,
        store_len: usize,
    ) -> Substituted;
    fn vistrokk_run_stepper(
        buf: *mut u8,
        buf_len: usize,
        used: usize,
        store: *mut u32,
        store_len: usize,
        budget: u32,
    ) -> Ran;
    fn vistrokk_run_reducer(buf: *mut u8, buf_len: usize, used: usize, budget: u32) -> Reduced;
}

// Safety, for every call below: each pointer goes with the length of the slice that it is taken from, or with
// less, and no two of them overlap.

/// Why it stops: a line, told by whoever stops it.
type Stop = String;

fn refused(call: &str, number: u32) -> Stop {
    format!("{call}: refused {number} ({})", refusal(number))
}

/// Goes on where the call was accepted.
fn accepted(call: &str, number: u32) -> Result<(), Stop> {
    match number {
        ACCEPTED => Ok(()),
        _ => Err(refused(call, number)),
    }
}

fn word(bytes: &[u8]) -> u32 {
    u32::from_le_bytes([bytes[0], bytes[1], bytes[2], bytes[3]])
}

/// A program and its start store.
struct Load<'a> {
    record: &'a [u8],
    start: Vec<u32>,
}

/// The load that the bytes of a file are; or the number of a refusal.
fn taken_from(bytes: &[u8]) -> Result<Load<'_>, u32> {
    let [low, high, ..] = *bytes else {
        return Err(BAD_HEADER);
    };
    let used = usize::from(u16::from_le_bytes([low, high]));
    if used > BUFFER_MOST {
        return Err(BAD_BUFFER);
    }
    let (record, values) = bytes.split_at_checked(used).ok_or(BAD_HEADER)?;
    let checked = unsafe { vistrokk_check_program(record.as_ptr(), used, used) };
    match checked.number {
        ACCEPTED if values.len() != 4 * checked.k as usize => Err(BAD_STORE),
        ACCEPTED => Ok(Load {
            record,
            start: values.chunks(4).map(word).collect(),
        }),
        number => Err(number),
    }
}

fn forecast(load: &Load) -> Result<Forecast, Stop> {
    let (at, used) = (load.record.as_ptr(), load.record.len());
    let (values, k) = (load.start.as_ptr(), load.start.len());
    let forecast = unsafe { vistrokk_forecast_run(at, used, used, values, k) };
    accepted("forecast_run", forecast.number)?;
    Ok(forecast)
}

/// What is foretold, and whether the two buffers are long enough for it.
fn show(foretold: &Forecast, [stepper, reducer]: [usize; 2]) {
    let Forecast {
        steps,
        program_bytes,
        term_bytes,
        ..
    } = *foretold;
    let whether_enough = |bytes: u64, room: usize| {
        if bytes <= room as u64 {
            "enough"
        } else {
            "too short"
        }
    };
    println!("steps {steps}, configuration {program_bytes} bytes, term {term_bytes} bytes");
    println!(
        "stepper in {stepper}: {}, reducer in {reducer}: {}",
        whether_enough(program_bytes, stepper),
        whether_enough(term_bytes, reducer)
    );
}

/// How a run ended: its outcome and its steps.
struct End {
    outcome: u32,
    steps: u32,
}

fn run_stepper(load: &Load, room: usize, budget: u32) -> Result<End, Stop> {
    let mut buf = vec![0; BUFFER_MOST];
    let (used, mut store) = (load.record.len(), load.start.clone());
    buf[..used].copy_from_slice(load.record);
    let (at, values) = (buf.as_mut_ptr(), store.as_mut_ptr());
    let ran = unsafe { vistrokk_run_stepper(at, room, used, values, store.len(), budget) };
    accepted("run_stepper", ran.number)?;
    Ok(End {
        outcome: ran.outcome,
        steps: ran.steps,
    })
}

/// From the program's term with the store substituted.
fn run_reducer(load: &Load, room: usize, budget: u32) -> Result<End, Stop> {
    let mut buf = vec![0; BUFFER_MOST];
    let (from, used, to) = (load.record.as_ptr(), load.record.len(), buf.as_mut_ptr());
    let written = unsafe { vistrokk_translate(from, used, used, to, room) };
    accepted("translate", written.number)?;
    let (values, k) = (load.start.as_ptr(), load.start.len());
    let used = written.used as usize;
    let substituted = unsafe { vistrokk_substitute(to, room, used, values, k) };
    accepted("substitute", substituted.number)?;
    let used = substituted.used as usize;
    let Reduced { ran, .. } = unsafe { vistrokk_run_reducer(to, room, used, budget) };
    accepted("run_reducer", ran.number)?;
    Ok(End {
        outcome: ran.outcome,
        steps: ran.steps,
    })
}

impl End {
    /// Of an engine that needs so many bytes of this room.
    fn is_as_foretold(&self, foretold: &Forecast, bytes: u64, room: usize) -> bool {
        let made = u64::from(self.steps);
        match self.outcome {
            FINISHED => made == foretold.steps && bytes <= room as u64,
            NO_ROOM => made < foretold.steps && bytes > room as u64,
            // Over, or spent, so that a step was left.
            _ => made < foretold.steps,
        }
    }
}

/// Whether the runs are as foretold.
fn run(bytes: &[u8], rooms: [usize; 2]) -> Result<bool, Stop> {
    let load = taken_from(bytes).map_err(|number| refused("the load", number))?;
    let foretold = forecast(&load)?;
    show(&foretold, rooms);
    let budget = foretold.steps.min(BUDGET_MOST) as u32;
    let stepper = run_stepper(&load, rooms[0], budget)?;
    let reducer = run_reducer(&load, rooms[1], budget)?;
    let good = stepper.is_as_foretold(&foretold, foretold.program_bytes, rooms[0])
        && reducer.is_as_foretold(&foretold, foretold.term_bytes, rooms[1]);
    println!(
        "stepper {} after {}, reducer {} after {}: {}",
        OUTCOMES[stepper.outcome as usize],
        stepper.steps,
        OUTCOMES[reducer.outcome as usize],
        reducer.steps,
        if good {
            "as foretold"
        } else {
            "not as foretold"
        }
    );
    Ok(good)
}

fn argument(which: usize) -> usize {
    let Some(text) = std::env::args().nth(which) else {
        return BUFFER_MOST;
    };
    match text.parse() {
        Ok(number) if number <= BUFFER_MOST => number,
        _ => {
            eprintln!("{text} is not a number from 0 to {BUFFER_MOST}");
            exit(2)
        }
    }
}

fn main() {
    let rooms = [argument(2), argument(3)];
    let bytes = match std::env::args_os().nth(1) {
        None => ADD.to_vec(),
        Some(name) => std::fs::read(&name).unwrap_or_else(|_| {
            eprintln!("cannot read {}", name.to_string_lossy());
            exit(2)
        }),
    };
    match run(&bytes, rooms) {
        Ok(true) => (),
        Ok(false) => exit(1),
        Err(line) => {
            eprintln!("{line}");
            exit(1)
        }
    }
}
