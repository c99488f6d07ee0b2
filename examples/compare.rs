//! The same as compare.c, in Rust, with the same arguments, lines and exit status. `./test` builds and runs it:
//!
//!     rustc -O -L native=crates/vistrokk/out -l static=vistrokk examples/compare.rs
//!     ./compare [FILE [BUDGET [STEPPER_ROOM [REDUCER_ROOM]]]]

use std::process::exit;

// The constants of include/vistrokk.h, as far as they are needed here.
const BUFFER_MOST: usize = 16_384;
const STATE_WORDS: usize = 189;

const ACCEPTED: u32 = 0;
const BAD_BUFFER: u32 = 1;
const BAD_HEADER: u32 = 2;
const BAD_STORE: u32 = 6;

const ROUND_NEAREST: u32 = 2;

const FINISHED: u32 = 1;
const SPENT: u32 = 4;

/// The refusals by name, in the order of their numbers.
const REFUSALS: [&str; 17] = [
    "accepted",
    "bad buffer",
    "bad header",
    "bad k",
    "malformed",
    "bad variable",
    "bad store",
    "free variable",
    "unfinished",
    "no program",
    "output too short",
    "bad rule",
    "too deep",
    "bad state",
    "bad batch",
    "literal above ceiling",
    "value above ceiling",
];

/// The outcomes by name, in the order of their numbers.
const OUTCOMES: [&str; 5] = ["refused", "finished", "over", "noroom", "spent"];

/// How many steps an engine gets at a time: different numbers, so that the engines are seldom level.
const STEPPER_SLICE: u32 = 3;
const REDUCER_SLICE: u32 = 2;
const COUNTING_SLICE: u32 = 5;

#[repr(C)]
struct Checked {
    number: u32,
    k: u32,
}

#[repr(C)]
struct Written {
    number: u32,
    used: u32,
}

#[repr(C)]
struct Substituted {
    number: u32,
    used: u32,
    replaced: u32,
}

#[repr(C)]
#[allow(dead_code)] // The budget left is not looked at here.
struct Ran {
    number: u32,
    outcome: u32,
    steps: u32,
    left: u32,
    used: u32,
}

#[repr(C)]
#[allow(dead_code)] // The budget left is not looked at here.
struct Counted {
    number: u32,
    outcome: u32,
    steps: u32,
    left: u32,
}

/// The fields of the header's struct in its order: a `Ran`'s, and the count.
#[repr(C)]
struct Reduced {
    ran: Ran,
    replaced: u64,
}

extern "C" {
    fn vistrokk_check_program(buf: *const u8, buf_len: usize, used: usize) -> Checked;
    fn vistrokk_weigh(
        rule: u32,
        gross: u32,
        tare: u32,
        store: *mut u32,
        store_len: usize,
    ) -> u32;
    fn vistrokk_translate(
        src: *const u8,
        src_len: usize,
        used: usize,
        out: *mut u8,
        out_len: usize,
    ) -> Written;
    fn vistrokk_substitute(
        buf: *mut u8,
        buf_len: usize,
        used: usize,
        store: *const u32,
        store_len: usize,
    ) -> Substituted;
    fn vistrokk_run_stepper(
        buf: *mut u8,
        buf_len: usize,
        used: usize,
        store: *mut u32,
        store_len: usize,
        budget: u32,
    ) -> Ran;
    fn vistrokk_run_counting(
        program: *const u8,
        program_len: usize,
        used: usize,
        state: *mut u32,
        store: *mut u32,
        store_len: usize,
        budget: u32,
    ) -> Counted;
    fn vistrokk_expand(
        program: *const u8,
        program_len: usize,
        used: usize,
        state: *const u32,
        store: *const u32,
        store_len: usize,
        out: *mut u8,
        out_len: usize,
    ) -> Written;
    fn vistrokk_run_reducer(buf: *mut u8, buf_len: usize, used: usize, budget: u32) -> Reduced;
    fn vistrokk_result(
        buf: *const u8,
        buf_len: usize,
        used: usize,
        store: *mut u32,
        store_len: usize,
    ) -> u32;
}

// Safe forms of the calls: slices that do not overlap, as the borrow checker sees to. The address of an empty slice is not that of
// any memory, and no call looks there.

fn check_program(buf: &[u8], used: usize) -> Checked {
    unsafe { vistrokk_check_program(buf.as_ptr(), buf.len(), used) }
}

fn weigh(rule: u32, gross: u32, tare: u32, store: &mut [u32]) -> u32 {
    unsafe { vistrokk_weigh(rule, gross, tare, store.as_mut_ptr(), store.len()) }
}

fn translate(src: &[u8], used: usize, out: &mut [u8]) -> Written {
    unsafe { vistrokk_translate(src.as_ptr(), src.len(), used, out.as_mut_ptr(), out.len()) }
}

fn substitute(buf: &mut [u8], used: usize, store: &[u32]) -> Substituted {
    let (values, count) = (store.as_ptr(), store.len());
    unsafe { vistrokk_substitute(buf.as_mut_ptr(), buf.len(), used, values, count) }
}

fn run_stepper(buf: &mut [u8], used: usize, store: &mut [u32], budget: u32) -> Ran {
    let (values, count) = (store.as_mut_ptr(), store.len());
    unsafe { vistrokk_run_stepper(buf.as_mut_ptr(), buf.len(), used, values, count, budget) }
}

// The state goes over without its length, so its type must have it.

fn run_counting(
    program: &[u8],
    state: &mut [u32; STATE_WORDS],
    store: &mut [u32],
    budget: u32,
) -> Counted {
    let (at, used, words) = (program.as_ptr(), program.len(), state.as_mut_ptr());
    let (values, count) = (store.as_mut_ptr(), store.len());
    unsafe { vistrokk_run_counting(at, used, used, words, values, count, budget) }
}

fn expand(program: &[u8], state: &[u32; STATE_WORDS], store: &[u32], out: &mut [u8]) -> Written {
    let (at, used, words) = (program.as_ptr(), program.len(), state.as_ptr());
    let (values, count) = (store.as_ptr(), store.len());
    let (to, room) = (out.as_mut_ptr(), out.len());
    unsafe { vistrokk_expand(at, used, used, words, values, count, to, room) }
}

fn run_reducer(buf: &mut [u8], used: usize, budget: u32) -> Reduced {
    unsafe { vistrokk_run_reducer(buf.as_mut_ptr(), buf.len(), used, budget) }
}

fn result(buf: &[u8], used: usize, store: &mut [u32]) -> u32 {
    let (values, count) = (store.as_mut_ptr(), store.len());
    unsafe { vistrokk_result(buf.as_ptr(), buf.len(), used, values, count) }
}

/// k = 4, {x3 := x1; for x4 := 1 to x2 {x3 := x3 + 1}}, of edition 2, with a ceiling of 10; compare.c says which bytes are what.
const ADD: [u8; 68] = [
    68, 0, 9, 0, 4, 0, 0, 0, 10, 0, 0, 0, 56, 0, 1, 0, 16, 0, 2, 0, 3, 0, 0, 0, 8, 0, 17, 0, 1, 0,
    0, 0, 36, 0, 3, 0, 4, 0, 0, 0, 8, 0, 17, 0, 2, 0, 0, 0, 20, 0, 1, 0, 16, 0, 2, 0, 3, 0, 0, 0,
    8, 0, 18, 0, 3, 0, 0, 0,
];

/// What both engines start from: a program's record and its values.
struct Load {
    record: Vec<u8>,
    store: Vec<u32>,
}

/// A refusal's number, with the call that gave it.
type Refused = (&'static str, u32);

/// The answer's number as a refusal, unless it is 0.
fn accepted(call: &'static str, number: u32) -> Result<(), Refused> {
    match number {
        ACCEPTED => Ok(()),
        number => Err((call, number)),
    }
}

/// ADD, and a store whose first value comes from the scales: 130 kg are 10 over 6 · 20, so 7 by the
/// nearest 20. Weighing leaves in variable 2 whether tare is larger, here 0; ADD adds variable 2 to
/// variable 1, so 3 is written over it. No call that reads the store takes a value above the ceiling: 7
/// and 3 are within it, and so is their sum.
fn weighed() -> Result<Load, Refused> {
    let mut store = vec![0; 4];
    accepted("the load", weigh(ROUND_NEAREST, 1_500, 1_370, &mut store))?;
    store[1] = 3;
    let record = ADD.to_vec();
    Ok(Load { record, store })
}

/// The record and its values from the bytes of a file.
fn taken_from(bytes: &[u8]) -> Result<Load, Refused> {
    let refused = |number| ("the load", number);
    let first: &[u8; 2] = bytes.first_chunk().ok_or(refused(BAD_HEADER))?;
    let used = usize::from(u16::from_le_bytes(*first));
    if used > BUFFER_MOST {
        return Err(refused(BAD_BUFFER));
    }
    let (record, values) = bytes.split_at_checked(used).ok_or(refused(BAD_HEADER))?;
    let checked = check_program(record, used);
    accepted("the load", checked.number)?;
    if values.len() != 4 * checked.k as usize {
        return Err(refused(BAD_STORE));
    }
    let word = |at: &[u8]| u32::from_le_bytes([at[0], at[1], at[2], at[3]]);
    Ok(Load {
        record: record.to_vec(),
        store: values.chunks(4).map(word).collect(),
    })
}

/// An engine: its buffer, the budget it was not yet given, the steps it made in all, and the answer to its last order.
struct Engine {
    buf: Vec<u8>,
    left: u32,
    steps: u32,
    last: Ran,
}

impl Engine {
    fn used(&self) -> usize {
        self.last.used as usize
    }

    /// Only a spent engine can go on: finished, over and no room are what its state says, and every further order would say so
    /// again.
    fn goes_on(&self) -> bool {
        self.last.outcome == SPENT && self.left > 0
    }

    /// The budget of the next order. It counts as given whatever the answer is, so the orders come to an end.
    fn slice(&mut self, most: u32) -> u32 {
        let budget = most.min(self.left);
        self.left -= budget;
        budget
    }

    fn answered(&mut self, ran: Ran) {
        self.steps += ran.steps;
        self.last = ran;
    }
}

/// How many variables became numerals: at the start, where the store was substituted, and in all orders of the reducer together.
struct Replaced {
    at_start: u32,
    by_reductions: u64,
}

/// The counting stepper: the program of the start, which it is lent with every order, its state, its store, its steps, and the
/// outcome of its last order.
struct Counting {
    program: Vec<u8>,
    state: [u32; STATE_WORDS],
    store: Vec<u32>,
    steps: u32,
    outcome: u32,
}

impl Counting {
    /// All zeros is the start.
    fn begin(load: &Load) -> Counting {
        Counting {
            program: load.record.clone(),
            state: [0; STATE_WORDS],
            store: load.store.clone(),
            steps: 0,
            outcome: SPENT,
        }
    }

    /// Up to `budget` further steps. The first order makes none: it tells where the stepper stands.
    fn count(&mut self, mut budget: u32) -> Result<(), Refused> {
        let mut most = 0;
        loop {
            let counted = run_counting(&self.program, &mut self.state, &mut self.store, most);
            accepted("run_counting", counted.number)?;
            self.outcome = counted.outcome;
            self.steps += counted.steps;
            budget -= most;
            most = budget.min(COUNTING_SLICE);
            if self.outcome != SPENT || most == 0 {
                return Ok(());
            }
        }
    }

    /// Is the state, written out, the stepper's record, and the store the stepper's?
    fn level(&self, stepper: &Engine, store: &[u32]) -> bool {
        let mut out = vec![0; BUFFER_MOST];
        let written = expand(&self.program, &self.state, &self.store, &mut out);
        let used = written.used as usize;
        written.number == ACCEPTED
            && used == stepper.used()
            && out[..used] == stepper.buf[..used]
            && self.steps == stepper.steps
            && self.store == store
    }
}

struct Engines {
    stepper: Engine,
    counting: Counting,
    reducer: Engine,
    store: Vec<u32>,
    replaced: Replaced,
}

impl Engines {
    /// Both at their start: the stepper has the program and the store, the reducer the program's term with the store's values in
    /// it. A budget of 0 makes no step: it tells where each engine stands.
    fn begin(load: Load, budget: u32, rooms: [usize; 2]) -> Result<Engines, Refused> {
        let used = load.record.len();
        let counting = Counting::begin(&load);
        let mut program = load.record.clone();
        program.resize(BUFFER_MOST, 0);
        program.truncate(rooms[0]);
        let (mut store, mut term) = (load.store, vec![0; rooms[1]]);
        let stepper = run_stepper(&mut program, used, &mut store, 0);
        accepted("run_stepper", stepper.number)?;
        let written = translate(&load.record, used, &mut term);
        accepted("translate", written.number)?;
        let substituted = substitute(&mut term, written.used as usize, &store);
        accepted("substitute", substituted.number)?;
        let reducer = run_reducer(&mut term, substituted.used as usize, 0);
        accepted("run_reducer", reducer.ran.number)?;
        let replaced = Replaced {
            at_start: substituted.replaced,
            by_reductions: reducer.replaced,
        };
        let engine = |buf, last| Engine {
            buf,
            left: budget,
            steps: 0,
            last,
        };
        Ok(Engines {
            stepper: engine(program, stepper),
            counting,
            reducer: engine(term, reducer.ran),
            store,
            replaced,
        })
    }

    /// Is the reducer's term the translation of the stepper's program with the store substituted?
    fn agree(&self) -> bool {
        let mut wanted = vec![0; BUFFER_MOST];
        let translated = translate(&self.stepper.buf, self.stepper.used(), &mut wanted);
        if translated.number != ACCEPTED {
            return false;
        }
        let written = substitute(&mut wanted, translated.used as usize, &self.store);
        let used = written.used as usize;
        written.number == ACCEPTED
            && used == self.reducer.used()
            && wanted[..used] == self.reducer.buf[..used]
    }

    /// One order to the engine that is behind, or to the other where that one has stopped; false where both have.
    fn next_order(&mut self) -> bool {
        let Engines {
            stepper,
            reducer,
            store,
            replaced,
            ..
        } = self;
        if stepper.goes_on() && (stepper.steps <= reducer.steps || !reducer.goes_on()) {
            let (used, budget) = (stepper.used(), stepper.slice(STEPPER_SLICE));
            let ran = run_stepper(&mut stepper.buf, used, store, budget);
            stepper.answered(ran);
            return true;
        }
        if reducer.goes_on() {
            let (used, budget) = (reducer.used(), reducer.slice(REDUCER_SLICE));
            let reduced = run_reducer(&mut reducer.buf, used, budget);
            // No order has in it what an earlier one told, nor the start's.
            replaced.by_reductions += reduced.replaced;
            reducer.answered(reduced.ran);
            return true;
        }
        false
    }

    /// The counting stepper, as far as the stepper came, where it is compared; then as far as the budget reaches.
    fn count_all(&mut self, budget: u32) -> Result<(), Refused> {
        let steps = self.stepper.steps;
        self.counting.count(steps)?;
        if !self.counting.level(&self.stepper, &self.store) {
            eprintln!("the steppers differ after {steps} steps");
            exit(1);
        }
        self.counting.count(budget - steps)
    }

    /// Where the reducer and a stepper have finished, the reducer's values are that stepper's store.
    fn same_result(&self, outcome: u32, store: &[u32]) -> bool {
        if [outcome, self.reducer.last.outcome] != [FINISHED; 2] {
            return true;
        }
        let mut shown = vec![0; store.len()];
        let number = result(&self.reducer.buf, self.reducer.used(), &mut shown);
        number == ACCEPTED && shown == store
    }

    fn same_results(&self) -> bool {
        let counting = &self.counting;
        self.same_result(self.stepper.last.outcome, &self.store)
            && self.same_result(counting.outcome, &counting.store)
    }
}

fn compare(engines: &mut Engines, budget: u32) -> Result<(), Refused> {
    let mut compared = 0;
    loop {
        if engines.stepper.steps == engines.reducer.steps {
            if !engines.agree() {
                eprintln!("the engines differ after {} steps", engines.stepper.steps);
                exit(1);
            }
            compared += 1;
        }
        if !engines.next_order() {
            break;
        }
    }
    accepted("run_stepper", engines.stepper.last.number)?;
    accepted("run_reducer", engines.reducer.last.number)?;
    engines.count_all(budget)?;
    if !engines.same_results() {
        eprintln!("the engines show different results");
        exit(1);
    }
    let (stepper, counting, reducer) = (&engines.stepper, &engines.counting, &engines.reducer);
    let show = |engine: &str, outcome: u32, steps: u32| {
        print!("{engine} {} after {steps}, ", OUTCOMES[outcome as usize]);
    };
    show("stepper", stepper.last.outcome, stepper.steps);
    show("counting", counting.outcome, counting.steps);
    show("reducer", reducer.last.outcome, reducer.steps);
    print!("comparisons: {compared}, ");
    let Replaced {
        at_start,
        by_reductions,
    } = engines.replaced;
    print!("replaced: {at_start} at the start and {by_reductions} by reductions, store:");
    for value in &engines.store {
        print!(" {value}");
    }
    println!();
    Ok(())
}

/// The number that an argument says, `otherwise` where there is none.
fn argument(arguments: &[String], which: usize, most: u32, otherwise: u32) -> u32 {
    let Some(argument) = arguments.get(which) else {
        return otherwise;
    };
    match argument.parse() {
        Ok(number) if number <= most => number,
        _ => {
            eprintln!("{argument} is not a number from 0 to {most}");
            exit(2)
        }
    }
}

fn read(name: &str) -> Vec<u8> {
    std::fs::read(name).unwrap_or_else(|_| {
        eprintln!("cannot read {name}");
        exit(2)
    })
}

fn main() {
    let arguments: Vec<String> = std::env::args().collect();
    let most = BUFFER_MOST as u32;
    let budget = argument(&arguments, 2, u32::MAX, 1_000_000);
    let rooms = [3, 4].map(|which| argument(&arguments, which, most, most) as usize);
    let load = match arguments.get(1) {
        Some(name) => taken_from(&read(name)),
        None => weighed(),
    };
    let begun = load.and_then(|load| Engines::begin(load, budget, rooms));
    if let Err((call, number)) = begun.and_then(|mut engines| compare(&mut engines, budget)) {
        eprintln!("{call}: refused {number} ({})", REFUSALS[number as usize]);
        exit(1);
    }
}
