//! Every call over bytes: the seventeen functions of `include/vistrokk.h`.
//!
//! Each one tests its rows in the table's order before it changes anything. A refusal gives its number
//! and 0 for everything else, and leaves every lent slice as it came. After an accepted call the
//! bytes of a written buffer past the new used length are zero (01, "Records").

use crate::check::{self, Refusal, BUFFER_LIMIT};
use crate::codec::Record;
use crate::forecast;
use crate::read_back;
use crate::run::counting::words::{self, Words};
use crate::run::counting::{expand as expansion, Counting};
use crate::run::reducer::finished_values;
use crate::run::stepper::Config;
use crate::run::{self, Outcome};
use crate::substitute::{closed, substitute as substitute_in, values_of};
use crate::translate;
use crate::tree::{Edition, Header, Program, Term, TermRecord, Value};

#[derive(Clone, Copy, Debug, Default, PartialEq, Eq)]
pub struct Checked {
    pub number: u32,
    pub k: u32,
}

#[derive(Clone, Copy, Debug, Default, PartialEq, Eq)]
pub struct Written {
    pub number: u32,
    pub used: u32,
}

/// `replaced`: how many variable records became numerals (02, C-13).
#[derive(Clone, Copy, Debug, Default, PartialEq, Eq)]
pub struct Substituted {
    pub number: u32,
    pub used: u32,
    pub replaced: u32,
}

/// `outcome` is the number of an [`Outcome`]; `left` is the budget less the steps.
#[derive(Clone, Copy, Debug, Default, PartialEq, Eq)]
pub struct Ran {
    pub number: u32,
    pub outcome: u32,
    pub steps: u32,
    pub left: u32,
    pub used: u32,
}

/// A run of the reducer; `replaced` is the sum over its reductions (02, C-13).
#[derive(Clone, Copy, Debug, Default, PartialEq, Eq)]
pub struct Reduced {
    pub ran: Ran,
    pub replaced: u64,
}

/// A run of the counting stepper (02, C-14): it has no buffer to write, so no used length.
#[derive(Clone, Copy, Debug, Default, PartialEq, Eq)]
pub struct Counted {
    pub number: u32,
    pub outcome: u32,
    pub steps: u32,
    pub left: u32,
}

/// What is foretold of a run (02, C-19): its steps, and how long its longest configuration and its longest
/// term are.
#[derive(Clone, Copy, Debug, Default, PartialEq, Eq)]
pub struct Forecast {
    pub number: u32,
    pub steps: u64,
    pub program_bytes: u64,
    pub term_bytes: u64,
}

// A refusal: its number, and 0 for everything else.

impl Checked {
    pub fn refused(number: impl Into<u32>) -> Checked {
        let number = number.into();
        Checked { number, k: 0 }
    }
}

impl Written {
    pub fn refused(number: impl Into<u32>) -> Written {
        let number = number.into();
        Written { number, used: 0 }
    }
}

impl Substituted {
    pub fn refused(number: impl Into<u32>) -> Substituted {
        Substituted {
            number: number.into(),
            ..Substituted::default()
        }
    }
}

impl Ran {
    /// The outcome is `refused`, and the budget is not handed back.
    pub fn refused(number: impl Into<u32>) -> Ran {
        Ran {
            number: number.into(),
            outcome: Outcome::Refused.number(),
            ..Ran::default()
        }
    }
}

impl Reduced {
    pub fn refused(number: impl Into<u32>) -> Reduced {
        let ran = Ran::refused(number);
        Reduced { ran, replaced: 0 }
    }
}

impl Counted {
    pub fn refused(number: impl Into<u32>) -> Counted {
        Counted {
            number: number.into(),
            outcome: Outcome::Refused.number(),
            ..Counted::default()
        }
    }
}

impl Forecast {
    pub fn refused(number: impl Into<u32>) -> Forecast {
        Forecast {
            number: number.into(),
            ..Forecast::default()
        }
    }
}

// Rows 1–5, 15.

pub fn check_program(buf: &[u8], used: usize) -> Checked {
    checked(check::lent_within::<Program>(buf, used))
}

pub fn check_term(buf: &[u8], used: usize) -> Checked {
    checked(check::lent_within::<TermRecord>(buf, used))
}

fn checked<R: Record>(answer: Result<R, Refusal>) -> Checked {
    match answer {
        Ok(tree) => Checked {
            number: 0,
            k: tree.header().k,
        },
        Err(refusal) => Checked::refused(refusal),
    }
}

// Rows 1–5, 15, 10.

pub fn translate(src: &[u8], used: usize, out: &mut [u8]) -> Written {
    written(translation(src, used, out.len()), out)
}

fn translation(src: &[u8], used: usize, room: usize) -> Result<Vec<u8>, Refusal> {
    let program: Program = source(src, used, room)?;
    fitting(&translate::translate(&program), room)
}

// Rows 1–5, 15, 9, 10.

pub fn read_back(src: &[u8], used: usize, out: &mut [u8]) -> Written {
    written(program_of(src, used, out.len()), out)
}

fn program_of(src: &[u8], used: usize, room: usize) -> Result<Vec<u8>, Refusal> {
    let term: TermRecord = source(src, used, room)?;
    let program = read_back::read_back(&term).ok_or(Refusal::NoProgram)?;
    fitting(&program, room)
}

// Rows 1–5, 15, 10; to edition 1 also 17, behind 15. With the kind of the edition asked for it is row 2.

/// Under the largest ceiling (02, C-18).
pub fn program_to_edition_2(src: &[u8], used: usize, out: &mut [u8]) -> Written {
    written(in_edition_2::<Program>(src, used, out.len()), out)
}

pub fn program_to_edition_1(src: &[u8], used: usize, out: &mut [u8]) -> Written {
    written(in_edition_1::<Program>(src, used, out.len()), out)
}

pub fn term_to_edition_2(src: &[u8], used: usize, out: &mut [u8]) -> Written {
    written(in_edition_2::<TermRecord>(src, used, out.len()), out)
}

pub fn term_to_edition_1(src: &[u8], used: usize, out: &mut [u8]) -> Written {
    written(in_edition_1::<TermRecord>(src, used, out.len()), out)
}

fn in_edition_2<R: Record>(src: &[u8], used: usize, room: usize) -> Result<Vec<u8>, Refusal> {
    check::buffer(room, 0)?;
    let record: R = check::lent_to_move(src, used, 1)?;
    fitting(&record.in_edition(Edition::Second(Value::MAX)), room)
}

fn in_edition_1<R: Record>(src: &[u8], used: usize, room: usize) -> Result<Vec<u8>, Refusal> {
    check::buffer(room, 0)?;
    let record: R = check::lent_to_move(src, used, 2)?;
    check::largest_ceiling(record.header())?;
    fitting(&record.in_edition(Edition::First), room)
}

/// Row 1 for both buffers, the output too, comes before row 2 for the source.
fn source<R: Record>(src: &[u8], used: usize, room: usize) -> Result<R, Refusal> {
    check::buffer(room, 0)?;
    check::lent_within(src, used)
}

/// Row 10. The length is measured before anything is encoded: it may not fit in 16 bits.
fn fitting<R: Record>(answer: &R, room: usize) -> Result<Vec<u8>, Refusal> {
    if answer.encoded_len() > room {
        return Err(Refusal::OutputTooShort);
    }
    Ok(answer.encode())
}

// Rows 1–5, 15, 6, 16.

pub fn substitute(buf: &mut [u8], used: usize, store: &[u32]) -> Substituted {
    match substituted(buf, used, store) {
        Ok((record, replaced)) => Substituted {
            number: 0,
            used: put(buf, &record),
            replaced,
        },
        Err(refusal) => Substituted::refused(refusal),
    }
}

fn substituted(buf: &[u8], used: usize, store: &[u32]) -> Result<(Vec<u8>, u32), Refusal> {
    let mut record: TermRecord = check::lent_within(buf, used)?;
    values_for(record.header, store)?;
    check::values(record.header, store)?;
    let replaced = substitute_in(&mut record.term, &values_of(store));
    Ok((record.encode(), replaced))
}

// Rows 1–5, 15, 6, 16.

pub fn run_stepper(buf: &mut [u8], used: usize, store: &mut [u32], budget: u32) -> Ran {
    let mut config = match configuration(buf, used, store) {
        Ok(config) => config,
        Err(refusal) => return Ran::refused(refusal),
    };
    let end = run::run(&mut config, buf.len(), budget);
    store.copy_from_slice(&config.store);
    ran(end, budget, put(buf, &config.program.encode()))
}

fn configuration(buf: &[u8], used: usize, store: &[u32]) -> Result<Config, Refusal> {
    let program: Program = check::lent_within(buf, used)?;
    values_for(program.header, store)?;
    check::values(program.header, store)?;
    let store = store.to_vec();
    Ok(Config { program, store })
}

// Rows 1–5, 15, 6, 16, 18, 19.

/// Nothing is run, and nothing is written (02, C-19).
pub fn forecast_run(buf: &[u8], used: usize, store: &[u32]) -> Forecast {
    foretold(buf, used, store).unwrap_or_else(Forecast::refused)
}

fn foretold(buf: &[u8], used: usize, store: &[u32]) -> Result<Forecast, Refusal> {
    let start = configuration(buf, used, store)?;
    check::bounds(&start.program)?;
    let figures = forecast::figures(&start);
    let in_64_bits = |figure| u64::try_from(figure).map_err(|_| Refusal::FigureTooLarge);
    Ok(Forecast {
        number: 0,
        steps: in_64_bits(figures.steps)?,
        program_bytes: in_64_bits(figures.program_bytes)?,
        term_bytes: in_64_bits(figures.term_bytes)?,
    })
}

// Rows 1–5, 12, 15, 6, 13, 16.

/// The program is lent unchanged with every order; the state and the store are written.
pub fn run_counting(
    program: &[u8],
    used: usize,
    state: &mut Words,
    store: &mut [u32],
    budget: u32,
) -> Counted {
    let mut counting = match counting(program, used, state, store) {
        Ok(counting) => counting,
        Err(refusal) => return Counted::refused(refusal),
    };
    let (outcome, steps) = counting.run(budget);
    *state = words::write(&counting.spot, &counting.program);
    store.copy_from_slice(&counting.store);
    Counted {
        number: 0,
        outcome: outcome.number(),
        steps,
        left: budget - steps,
    }
}

fn counting(
    program: &[u8],
    used: usize,
    state: &Words,
    store: &[u32],
) -> Result<Counting, Refusal> {
    let program: Program = check::lent(program, used)?;
    check::depth(&program)?;
    check::literals(&program)?;
    values_for(program.header, store)?;
    let spot = words::read(state, &program).ok_or(Refusal::BadState)?;
    check::values(program.header, store)?;
    check::values(program.header, &spot.values())?;
    let store = store.to_vec();
    Ok(Counting {
        program,
        spot,
        store,
    })
}

// Rows 1 (both buffers), 2–5, 12, 15, 6, 13, 16, 10.

pub fn expand(
    program: &[u8],
    used: usize,
    state: &Words,
    store: &[u32],
    out: &mut [u8],
) -> Written {
    written(expanded(program, used, state, store, out.len()), out)
}

/// The length is worked out before anything is built: it may be more than any memory holds.
fn expanded(
    program: &[u8],
    used: usize,
    state: &Words,
    store: &[u32],
    room: usize,
) -> Result<Vec<u8>, Refusal> {
    check::buffer(room, 0)?;
    let counting = counting(program, used, state, store)?;
    if expansion::record_len(&counting.program, &counting.spot) > room as u64 {
        return Err(Refusal::OutputTooShort);
    }
    Ok(counting.expansion().program.encode())
}

// Rows 1–5, 15, 7.

pub fn run_reducer(buf: &mut [u8], used: usize, budget: u32) -> Reduced {
    let mut record = match closed_term(buf, used) {
        Ok(record) => record,
        Err(refusal) => return Reduced::refused(refusal),
    };
    let mut replaced = 0;
    let end = run::run_noting(&mut record, buf.len(), budget, |reduction| {
        replaced += u64::from(reduction.replaced);
    });
    let ran = ran(end, budget, put(buf, &record.encode()));
    Reduced { ran, replaced }
}

fn closed_term(buf: &[u8], used: usize) -> Result<TermRecord, Refusal> {
    let record: TermRecord = check::lent_within(buf, used)?;
    without_free_variable(&record.term)?;
    Ok(record)
}

// Rows 1 (all three buffers), 14, 2–5, 15, 6, 16, 10.

/// One job for each budget: the reducer's run from its start store (02, C-16). `term` is left holding the
/// program's term, and `work`, in which the reducer runs, all zero.
pub fn run_batch(
    program: &[u8],
    used: usize,
    term: &mut [u8],
    work: &mut [u8],
    budgets: &[u32],
    values: &[u32],
    answers: &mut [u32],
) -> Written {
    let rooms = [term.len(), work.len()];
    let lengths = [budgets.len(), answers.len()];
    let record = match term_of_all(program, used, rooms, values, lengths) {
        Ok(record) => record,
        Err(refusal) => return Written::refused(refusal),
    };
    let k = record.header.k as usize;
    let jobs = budgets.iter().zip(values.chunks_exact(k));
    for ((budget, store), answer) in jobs.zip(answers.chunks_exact_mut(k + 2)) {
        answer.copy_from_slice(&answer_to(&record, store, work.len(), *budget));
    }
    work.fill(0);
    Written {
        number: 0,
        used: put(term, &record.encode()),
    }
}

/// The term that all jobs start from. The two lengths are those of the budgets and the answers.
fn term_of_all(
    program: &[u8],
    used: usize,
    rooms: [usize; 2],
    values: &[u32],
    [jobs, answers]: [usize; 2],
) -> Result<TermRecord, Refusal> {
    check::buffer(program.len(), used)?;
    for room in rooms {
        check::buffer(room, 0)?;
    }
    check::batch(jobs)?;
    let program: Program = check::record(&program[..used])?;
    check::literals(&program)?;
    let k = program.header.k as usize;
    if values.len() != jobs * k || answers != jobs * (k + 2) {
        return Err(Refusal::BadStore);
    }
    check::values(program.header, values)?;
    let record = translate::translate(&program);
    if rooms.iter().any(|room| record.encoded_len() > *room) {
        return Err(Refusal::OutputTooShort);
    }
    Ok(record)
}

/// The k + 2 values of one job: outcome, steps, and the end values, or zeros where it is not finished.
fn answer_to(term: &TermRecord, store: &[u32], room: usize, budget: u32) -> Vec<u32> {
    let mut record = term.clone();
    substitute_in(&mut record.term, &values_of(store));
    let (outcome, steps) = run::run(&mut record, room, budget);
    let end = finished_values(&record.term).unwrap_or_else(|| vec![0; store.len()]);
    [vec![outcome.number(), steps], end].concat()
}

// Rows 1–5, 15, 6–8: the store before the free variable, and that before "not finished". The store is only
// written, so row 16 does not look at it.

pub fn result(buf: &[u8], used: usize, store: &mut [u32]) -> u32 {
    match numerals(buf, used, store.len()) {
        Ok(values) => {
            store.copy_from_slice(&values);
            0
        }
        Err(refusal) => refusal.number(),
    }
}

fn numerals(buf: &[u8], used: usize, places: usize) -> Result<Vec<u32>, Refusal> {
    let record: TermRecord = check::lent_within(buf, used)?;
    if places != record.header.k as usize {
        return Err(Refusal::BadStore);
    }
    without_free_variable(&record.term)?;
    finished_values(&record.term).ok_or(Refusal::Unfinished)
}

// Rows 6, 11.

/// Variable 1 gets the difference, whichever is larger, in units of 20 kg, rounded by the rule;
/// variable 2 gets 1 when tare is larger and otherwise 0, unless the store has one value alone; every
/// other variable 0 (01, "Result and weighing"; 02, C-11 and C-15).
pub fn weigh(rule: u32, gross: u32, tare: u32, store: &mut [u32]) -> u32 {
    if !(1..=16).contains(&store.len()) {
        return Refusal::BadStore.number();
    }
    let Some(count) = rounded(rule, gross.abs_diff(tare)) else {
        return Refusal::BadRule.number();
    };
    store.fill(0);
    store[0] = count;
    if store.len() > 1 {
        store[1] = u32::from(tare > gross);
    }
    0
}

/// Rule 1 rounds down; rule 2 rounds to the nearest 20 kg, and 10 kg over goes up. There is no
/// other.
fn rounded(rule: u32, net: u32) -> Option<u32> {
    let (down, over) = (net / 20, net % 20);
    match rule {
        1 => Some(down),
        2 if over < 10 => Some(down),
        2 => Some(down + 1),
        _ => None,
    }
}

// Shared.

fn values_for(header: Header, store: &[u32]) -> Result<(), Refusal> {
    if store.len() != header.k as usize {
        return Err(Refusal::BadStore);
    }
    Ok(())
}

fn without_free_variable(term: &Term) -> Result<(), Refusal> {
    if !closed(term) {
        return Err(Refusal::FreeVariable);
    }
    Ok(())
}

/// The record at the front, zeros behind it to the end of the lent buffer; gives the used length.
fn put(buf: &mut [u8], record: &[u8]) -> u32 {
    let (front, behind) = buf.split_at_mut(record.len());
    front.copy_from_slice(record);
    behind.fill(0);
    // A lent buffer is at most 16,384 bytes, so no length is cut here.
    debug_assert!(record.len() <= BUFFER_LIMIT);
    record.len() as u32
}

fn written(answer: Result<Vec<u8>, Refusal>, out: &mut [u8]) -> Written {
    match answer {
        Ok(record) => Written {
            number: 0,
            used: put(out, &record),
        },
        Err(refusal) => Written::refused(refusal),
    }
}

fn ran((outcome, steps): (Outcome, u32), budget: u32, used: u32) -> Ran {
    Ran {
        number: 0,
        outcome: outcome.number(),
        steps,
        left: budget - steps,
        used,
    }
}
