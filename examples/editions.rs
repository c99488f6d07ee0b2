//! The same as editions.c, in Rust, with the same argument, lines and exit status. `./test` builds and runs it:
//!
//!     rustc -O -L native=crates/vistrokk/out -l static=vistrokk examples/editions.rs
//!     ./editions [FILE]

use std::process::exit;

// The constants of include/vistrokk.h, as far as they are needed here.
const BUFFER_MOST: usize = 16_384;
const ACCEPTED: u32 = 0;
const BAD_BUFFER: u32 = 1;
const BAD_HEADER: u32 = 2;
const BAD_STORE: u32 = 6;

const BUDGET: u32 = 1_000_000;

/// The outcomes by name, in the order of their numbers.
const OUTCOMES: [&str; 5] = ["refused", "finished", "over", "noroom", "spent"];

/// Those refusals by name that the calls here can give.
fn refusal(number: u32) -> &'static str {
    match number {
        ACCEPTED => "accepted",
        BAD_BUFFER => "bad buffer",
        BAD_HEADER => "bad header",
        3 => "bad k",
        4 => "malformed",
        5 => "bad variable",
        15 => "literal above ceiling",
        17 => "small ceiling",
        BAD_STORE => "bad store",
        16 => "value above ceiling",
        10 => "output too short",
        _ => "unknown",
    }
}

/// ADD of edition 1 and the values 7, 3, 0, 0; compare.c says which bytes are what.
const ADD: [u8; 80] = [
    64, 0, 7, 0, 4, 0, 0, 0, 56, 0, 1, 0, 16, 0, 2, 0, 3, 0, 0, 0, 8, 0, 17, 0, 1, 0, 0, 0, 36, 0,
    3, 0, 4, 0, 0, 0, 8, 0, 17, 0, 2, 0, 0, 0, 20, 0, 1, 0, 16, 0, 2, 0, 3, 0, 0, 0, 8, 0, 18, 0,
    3, 0, 0, 0, 7, 0, 0, 0, 3, 0, 0, 0, 0, 0, 0, 0, 0, 0, 0, 0,
];

#[repr(C)]
struct Checked {
    number: u32,
    k: u32,
}

#[repr(C)]
struct Written {
    number: u32,
    used: u32,
}

#[repr(C)]
#[allow(dead_code)] // Who substitutes a store may leave uncounted what it replaces.
struct Substituted {
    number: u32,
    used: u32,
    replaced: u32,
}

#[repr(C)]
#[allow(dead_code)] // Of a run that is not gone on with, the budget left and the length do not matter.
struct Ran {
    number: u32,
    outcome: u32,
    steps: u32,
    left: u32,
    used: u32,
}

#[repr(C)]
struct Reduced {
    ran: Ran,
    replaced: u64,
}

/// Translate and the four calls that move a record are called alike.
type Call = unsafe extern "C" fn(*const u8, usize, usize, *mut u8, usize) -> Written;

extern "C" {
    fn vistrokk_check_program(buf: *const u8, buf_len: usize, used: usize) -> Checked;
    fn vistrokk_translate(
        src: *const u8,
        src_len: usize,
        used: usize,
        out: *mut u8,
        out_len: usize,
    ) -> Written;
    fn vistrokk_program_to_edition_2(
        src: *const u8,
        src_len: usize,
        used: usize,
        out: *mut u8,
        out_len: usize,
    ) -> Written;
    fn vistrokk_program_to_edition_1(
        src: *const u8,
        src_len: usize,
        used: usize,
        out: *mut u8,
        out_len: usize,
    ) -> Written;
    fn vistrokk_term_to_edition_2(
        src: *const u8,
        src_len: usize,
        used: usize,
        out: *mut u8,
        out_len: usize,
    ) -> Written;
    fn vistrokk_term_to_edition_1(
        src: *const u8,
        src_len: usize,
        used: usize,
        out: *mut u8,
        out_len: usize,
    ) -> Written;
    fn vistrokk_substitute(
        buf: *mut u8,
        buf_len: usize,
        used: usize,
        store: *const u32,
        store_len: usize,
    ) -> Substituted;
    fn vistrokk_run_stepper(
        buf: *mut u8,
        buf_len: usize,
        used: usize,
        store: *mut u32,
        store_len: usize,
        budget: u32,
    ) -> Ran;
    fn vistrokk_run_reducer(buf: *mut u8, buf_len: usize, used: usize, budget: u32) -> Reduced;
}

// Safety, for every call below: each pointer goes with the length of the slice that it is taken from, and
// no two of them overlap.

/// Why it stops: a line, told by whoever stops it.
type Stop = String;

fn refused(call: &str, number: u32) -> Stop {
    format!("{call}: refused {number} ({})", refusal(number))
}

/// Goes on where the call was accepted.
fn accepted(call: &str, number: u32) -> Result<(), Stop> {
    match number {
        ACCEPTED => Ok(()),
        _ => Err(refused(call, number)),
    }
}

/// What the call writes from this record, without the zeros behind it; or the number of its refusal.
fn written(call: Call, record: &[u8]) -> Result<Vec<u8>, u32> {
    let mut out = vec![0; BUFFER_MOST];
    let len = record.len();
    let written = unsafe { call(record.as_ptr(), len, len, out.as_mut_ptr(), out.len()) };
    if written.number != ACCEPTED {
        return Err(written.number);
    }
    out.truncate(written.used as usize);
    Ok(out)
}

fn write_from(name: &str, call: Call, record: &[u8]) -> Result<Vec<u8>, Stop> {
    written(call, record).map_err(|number| refused(name, number))
}

fn word(bytes: &[u8]) -> u32 {
    u32::from_le_bytes([bytes[0], bytes[1], bytes[2], bytes[3]])
}

/// A program and its values from the bytes of a file; or the number of a refusal.
fn taken_from(bytes: &[u8]) -> Result<(&[u8], Vec<u32>), u32> {
    let [low, high, ..] = *bytes else {
        return Err(BAD_HEADER);
    };
    let used = usize::from(u16::from_le_bytes([low, high]));
    if used > BUFFER_MOST {
        return Err(BAD_BUFFER);
    }
    let (record, values) = bytes.split_at_checked(used).ok_or(BAD_HEADER)?;
    let checked = unsafe { vistrokk_check_program(record.as_ptr(), used, used) };
    match checked.number {
        ACCEPTED if values.len() != 4 * checked.k as usize => Err(BAD_STORE),
        ACCEPTED => Ok((record, values.chunks(4).map(word).collect())),
        number => Err(number),
    }
}

/// A program and its term, in one edition.
struct Edition {
    program: Vec<u8>,
    term: Vec<u8>,
}

/// The program and its term in edition 1 and in edition 2. The moved program's own translation must be the
/// moved term.
fn move_there(program: &[u8]) -> Result<[Edition; 2], Stop> {
    let moved = write_from(
        "program_to_edition_2",
        vistrokk_program_to_edition_2,
        program,
    )?;
    let term = write_from("translate", vistrokk_translate, program)?;
    let moved_term = write_from("term_to_edition_2", vistrokk_term_to_edition_2, &term)?;
    if write_from("translate", vistrokk_translate, &moved)? != moved_term {
        return Err("the terms differ".into());
    }
    let first = Edition {
        program: program.to_vec(),
        term,
    };
    let second = Edition {
        program: moved,
        term: moved_term,
    };
    Ok([first, second])
}

/// How the two engines ended: outcome and steps of each, what the reductions replaced, and the stepper's store.
#[derive(PartialEq)]
struct End {
    stepper: (u32, u32),
    reducer: (u32, u32),
    replaced: u64,
    store: Vec<u32>,
}

/// The record at the front of a buffer of `room` bytes.
fn lent(record: &[u8], room: usize) -> Vec<u8> {
    let mut buf = record.to_vec();
    buf.resize(room, 0);
    buf
}

fn run(edition: &Edition, start: &[u32], room: usize) -> Result<End, Stop> {
    let mut store = start.to_vec();
    let (mut buf, used) = (lent(&edition.program, room), edition.program.len());
    let (at, values) = (buf.as_mut_ptr(), store.as_mut_ptr());
    let stepper = unsafe { vistrokk_run_stepper(at, room, used, values, start.len(), BUDGET) };
    accepted("run_stepper", stepper.number)?;
    let (mut buf, used) = (lent(&edition.term, room), edition.term.len());
    let (at, values) = (buf.as_mut_ptr(), start.as_ptr());
    let substituted = unsafe { vistrokk_substitute(at, room, used, values, start.len()) };
    accepted("substitute", substituted.number)?;
    let used = substituted.used as usize;
    let Reduced { ran, replaced } = unsafe { vistrokk_run_reducer(at, room, used, BUDGET) };
    accepted("run_reducer", ran.number)?;
    Ok(End {
        stepper: (stepper.outcome, stepper.steps),
        reducer: (ran.outcome, ran.steps),
        replaced,
        store,
    })
}

fn show(number: usize, edition: &Edition, end: &End) {
    let (bytes, term) = (edition.program.len(), edition.term.len());
    let ended =
        |(outcome, steps): (u32, u32)| format!("{} after {steps}", OUTCOMES[outcome as usize]);
    let values: Vec<String> = end.store.iter().map(u32::to_string).collect();
    println!(
        "edition {number}: {bytes} bytes, its term {term}, stepper {}, reducer {}, store: {}",
        ended(end.stepper),
        ended(end.reducer),
        values.join(" ")
    );
}

/// Both editions, edition 2 in buffers of 4 bytes more: its header takes them, so the room is the same.
fn run_both([first, second]: &[Edition; 2], start: &[u32]) -> Result<(), Stop> {
    let end = run(first, start, BUFFER_MOST - 4)?;
    show(1, first, &end);
    let moved_end = run(second, start, BUFFER_MOST)?;
    show(2, second, &moved_end);
    if moved_end != end {
        return Err("the editions run otherwise".into());
    }
    Ok(())
}

/// To edition 1 again: the bytes that they were.
fn move_back([first, second]: &[Edition; 2]) -> Result<(), Stop> {
    let program = write_from(
        "program_to_edition_1",
        vistrokk_program_to_edition_1,
        &second.program,
    )?;
    let term = write_from(
        "term_to_edition_1",
        vistrokk_term_to_edition_1,
        &second.term,
    )?;
    if program != first.program || term != first.term {
        return Err("moved back, it differs".into());
    }
    println!("moved back: the same bytes");
    Ok(())
}

fn show_refusals(mut record: Vec<u8>) {
    let number_of = |call, record: &[u8]| written(call, record).err().unwrap_or(ACCEPTED);
    let number = number_of(vistrokk_program_to_edition_2, &record);
    println!("moved once more: refused {number} ({})", refusal(number));
    record[8] = 0xFE; // The ceiling's lowest byte: one below the largest value.
    let number = number_of(vistrokk_program_to_edition_1, &record);
    println!(
        "moved back from a ceiling of {}: refused {number} ({})",
        word(&record[8..]),
        refusal(number)
    );
}

fn editions(bytes: &[u8]) -> Result<(), Stop> {
    let (program, start) = taken_from(bytes).map_err(|number| refused("the load", number))?;
    let both = move_there(program)?;
    run_both(&both, &start)?;
    move_back(&both)?;
    let [_, second] = both;
    show_refusals(second.program);
    Ok(())
}

fn main() {
    let bytes = match std::env::args_os().nth(1) {
        None => ADD.to_vec(),
        Some(name) => std::fs::read(&name).unwrap_or_else(|_| {
            eprintln!("cannot read {}", name.to_string_lossy());
            exit(2)
        }),
    };
    if let Err(line) = editions(&bytes) {
        eprintln!("{line}");
        exit(1)
    }
}
