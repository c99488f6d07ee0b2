//! The calls as they would be written on bytes in plain Rust: in place, with no tree and no heap,
//! with recursion where the grammar has it, and with no proof. What the library is to be held to.

pub mod batch;
pub mod check;
pub mod counting;
pub mod editions;
pub mod expand;
pub mod forecast;
pub mod read_back;
pub mod reducer;
pub mod stepper;
pub mod store;
pub mod substitute;
pub mod translate;

use other::calls::{self, Ran, Written};
use other::check::{depth, Refusal};
use other::codec::Record;
use other::generate::batches::any_batch;
use other::generate::editions::to_move;
use other::generate::forecasts::{limit, nearly_steady_program, taking};
use other::generate::lending::{
    closed, lent_store, output_room, perhaps_damaged, sound_term, translatable_program, Lending,
};
use other::generate::programs::store as generated_store;
use other::generate::states::{any_spot, damaged};
use other::random::Random;
use other::run::counting::words::{write, STATE_WORDS};
use other::run::Outcome;
use other::substitute::{substitute as substitute_in, values_of};
use other::tree::{Program, TermRecord};

fn half(bytes: &[u8], at: usize) -> usize {
    usize::from(u16::from_le_bytes([bytes[at], bytes[at + 1]]))
}

fn word(bytes: &[u8], at: usize) -> u32 {
    u32::from_le_bytes([bytes[at], bytes[at + 1], bytes[at + 2], bytes[at + 3]])
}

fn put_half(bytes: &mut [u8], at: usize, value: usize) {
    bytes[at..at + 2].copy_from_slice(&(value as u16).to_le_bytes());
}

fn put_word(bytes: &mut [u8], at: usize, value: u32) {
    bytes[at..at + 4].copy_from_slice(&value.to_le_bytes());
}

fn put_head(bytes: &mut [u8], at: usize, length: usize, kind: usize) {
    put_half(bytes, at, length);
    put_half(bytes, at + 2, kind);
}

/// A record of one word.
fn put_leaf(bytes: &mut [u8], at: usize, kind: usize, value: u32) {
    put_head(bytes, at, 8, kind);
    put_word(bytes, at + 4, value);
}

/// The tuple of all variables.
fn put_all(bytes: &mut [u8], at: usize, k: u32) {
    put_head(bytes, at, 4 + 8 * k as usize, 36);
    for x in 1..=k {
        put_leaf(bytes, at + 8 * x as usize - 4, 33, x);
    }
}

/// What the header of a checked record says: k, the ceiling, and where its contents start.
#[derive(Clone, Copy)]
pub struct Header {
    k: u32,
    ceiling: u32,
    contents: usize,
}

impl Header {
    /// Edition 1 counts as the largest value.
    fn of(buf: &[u8]) -> Header {
        let k = word(buf, 4);
        let (ceiling, contents) = match half(buf, 2) {
            7 | 40 => (u32::MAX, 8),
            _ => (word(buf, 8), 12),
        };
        Header {
            k,
            ceiling,
            contents,
        }
    }

    /// Row 6, then row 16.
    fn takes(self, store: &[u32]) -> Result<(), Refusal> {
        if store.len() != self.k as usize {
            return Err(Refusal::BadStore);
        }
        self.takes_values(store)
    }

    /// Row 16.
    fn takes_values(self, values: &[u32]) -> Result<(), Refusal> {
        if values.iter().any(|value| *value > self.ceiling) {
            return Err(Refusal::ValueAboveCeiling);
        }
        Ok(())
    }
}

/// A record that is reduced or stepped in place, what its header says, and the length it has by now.
struct State<'a> {
    buf: &'a mut [u8],
    header: Header,
    used: usize,
}

impl State<'_> {
    /// Makes room for `wide` bytes where there are `narrow` at `at`, and tells all records around:
    /// the header, and the heads that follow each other from its contents to `at`.
    fn resize(&mut self, at: usize, narrow: usize, wide: usize) {
        self.buf.copy_within(at + narrow..self.used, at + wide);
        self.tell(0, narrow, wide);
        for head in (self.header.contents..at).step_by(4) {
            self.tell(head, narrow, wide);
        }
        self.used = self.used - narrow + wide;
    }

    fn tell(&mut self, head: usize, narrow: usize, wide: usize) {
        let length = half(self.buf, head) - narrow + wide;
        put_half(self.buf, head, length);
    }

    fn fits(&self, narrow: usize, wide: usize) -> bool {
        self.used - narrow + wide <= self.buf.len()
    }

    fn end(self, (outcome, steps): (Outcome, u32), budget: u32) -> Ran {
        self.buf[self.used..].fill(0);
        Ran {
            number: 0,
            outcome: outcome.number(),
            steps,
            left: budget - steps,
            used: self.used as u32,
        }
    }
}

/// What stands before a state, and the step that it leads to: the bytes it takes at its place, and
/// those that it puts there.
enum Ahead {
    Finished,
    Over,
    Step {
        at: usize,
        narrow: usize,
        wide: usize,
    },
}

/// The run that both engines share: what a step needs is looked at before it is made.
fn run(
    state: &mut State,
    budget: u32,
    ahead: impl Fn(&State) -> Ahead,
    mut perform: impl FnMut(&mut State, usize, usize, usize),
) -> (Outcome, u32) {
    let mut steps = 0;
    loop {
        let (at, narrow, wide) = match ahead(state) {
            Ahead::Finished => return (Outcome::Finished, steps),
            Ahead::Over => return (Outcome::Over, steps),
            Ahead::Step { at, narrow, wide } => (at, narrow, wide),
        };
        if !state.fits(narrow, wide) {
            return (Outcome::NoRoom, steps);
        }
        if steps == budget {
            return (Outcome::Spent, steps);
        }
        perform(state, at, narrow, wide);
        steps += 1;
    }
}

/// Fails unless the plain calls do what the other program does: the time of anything else says
/// nothing. Records and buffers are generated as for the tests.
pub fn agree() {
    for seed in 0..3_000 {
        let random = &mut Random::new(seed);
        let program = translatable_program(random);
        let mut term = if random.one_in(2) {
            closed(random)
        } else {
            sound_term(random)
        };
        let (budget, values) = (random.below(100) as u32, lent_store(random, program.header));
        let lending = perhaps_damaged(random, &program.encode());
        agree_on_program(&lending, &values, budget);
        agree_on_counting(random, &program, &lending, &values, budget);
        let out = translated(&lending, output_room(random, 3 * lending.buffer.len()));
        agree_on_term(&out, &values, budget);
        agree_on_source(&out, output_room(random, lending.buffer.len()));
        let lending = perhaps_damaged(random, &term.encode());
        agree_on_source(&lending, 16_384);
        agree_on_term(&lending, &values, budget);
        let values = lent_store(random, term.header);
        agree_on_term(&perhaps_damaged(random, &term.encode()), &values, budget);
        let values = generated_store(random, term.header);
        substitute_in(&mut term.term, &values_of(&values));
        agree_on_term(&perhaps_damaged(random, &term.encode()), &values, budget);
        agree_on_batch(random);
        agree_on_moves(random, program, term);
        agree_on_forecast(random);
    }
}

fn agree_on_program(Lending { buffer, used }: &Lending, values: &[u32], budget: u32) {
    let checked = check::check_program(buffer, *used);
    assert_eq!(checked, calls::check_program(buffer, *used));
    let (mut buf, mut store) = (buffer.clone(), values.to_vec());
    let ran = stepper::run_stepper(&mut buf, *used, &mut store, budget);
    let (mut other_buf, mut other_store) = (buffer.clone(), values.to_vec());
    let other = calls::run_stepper(&mut other_buf, *used, &mut other_store, budget);
    assert_eq!((ran, buf, store), (other, other_buf, other_store));
}

/// On a state of the program, or one that is damaged.
fn agree_on_counting(
    random: &mut Random,
    program: &Program,
    Lending { buffer, used }: &Lending,
    values: &[u32],
    budget: u32,
) {
    let mut state = [0; STATE_WORDS];
    if depth(program).is_ok() && !random.one_in(4) {
        state = write(&any_spot(random, program), program);
    }
    if random.one_in(4) {
        state = damaged(random, &state);
    }
    let (mut out, mut other_out) = (vec![0xA5; 2_000], vec![0xA5; 2_000]);
    let written = expand::expand(buffer, *used, &state, values, &mut out);
    let other = calls::expand(buffer, *used, &state, values, &mut other_out);
    assert_eq!((written, out), (other, other_out));
    let (mut other_state, mut other_store) = (state, values.to_vec());
    let mut store = values.to_vec();
    let counted = counting::run_counting(buffer, *used, &mut state, &mut store, budget);
    let other = calls::run_counting(buffer, *used, &mut other_state, &mut other_store, budget);
    assert_eq!((counted, state, store), (other, other_state, other_store));
}

/// The translation by both, into a buffer of this length.
fn translated(Lending { buffer, used }: &Lending, room: usize) -> Lending {
    let (mut out, mut other_out) = (vec![0xA5; room], vec![0xA5; room]);
    let written = translate::translate(buffer, *used, &mut out);
    assert_eq!(written, calls::translate(buffer, *used, &mut other_out));
    assert_eq!(out, other_out);
    Lending {
        buffer: out,
        used: written.used as usize,
    }
}

fn agree_on_source(Lending { buffer, used }: &Lending, room: usize) {
    let (mut out, mut other_out) = (vec![0xA5; room], vec![0xA5; room]);
    let written = read_back::read_back(buffer, *used, &mut out);
    assert_eq!(written, calls::read_back(buffer, *used, &mut other_out));
    assert_eq!(out, other_out);
}

fn agree_on_term(Lending { buffer, used }: &Lending, values: &[u32], budget: u32) {
    let checked = check::check_term(buffer, *used);
    assert_eq!(checked, calls::check_term(buffer, *used));
    let (mut buf, mut other_buf) = (buffer.clone(), buffer.clone());
    let written = substitute::substitute(&mut buf, *used, values);
    assert_eq!(written, calls::substitute(&mut other_buf, *used, values));
    assert_eq!(buf, other_buf);
    let (mut shown, mut other_shown) = (values.to_vec(), values.to_vec());
    let number = store::result(buffer, *used, &mut shown);
    assert_eq!(number, calls::result(buffer, *used, &mut other_shown));
    assert_eq!(shown, other_shown);
    for (rule, gross, tare) in (0..4).flat_map(|rule| [(rule, budget, 20), (rule, 20, budget)]) {
        let number = store::weigh(rule, gross, tare, &mut shown);
        assert_eq!(number, calls::weigh(rule, gross, tare, &mut other_shown));
        assert_eq!(shown, other_shown);
    }
    let (mut buf, mut other_buf) = (buffer.clone(), buffer.clone());
    let ran = reducer::run_reducer(&mut buf, *used, budget);
    assert_eq!(ran, calls::run_reducer(&mut other_buf, *used, budget));
    assert_eq!(buf, other_buf);
}

/// Both ways, of records in the edition moved from or not.
fn agree_on_moves(random: &mut Random, program: Program, term: TermRecord) {
    let program = to_move(random, program).encode();
    agree_on_move(
        random,
        &program,
        editions::program_to_edition_2,
        calls::program_to_edition_2,
    );
    agree_on_move(
        random,
        &program,
        editions::program_to_edition_1,
        calls::program_to_edition_1,
    );
    let term = to_move(random, term).encode();
    agree_on_move(
        random,
        &term,
        editions::term_to_edition_2,
        calls::term_to_edition_2,
    );
    agree_on_move(
        random,
        &term,
        editions::term_to_edition_1,
        calls::term_to_edition_1,
    );
}

type Move = fn(&[u8], usize, &mut [u8]) -> Written;

fn agree_on_move(random: &mut Random, record: &[u8], plain: Move, other: Move) {
    let Lending { buffer, used } = perhaps_damaged(random, record);
    let room = output_room(random, record.len());
    let (mut out, mut other_out) = (vec![0xA5; room], vec![0xA5; room]);
    let written = plain(&buffer, used, &mut out);
    assert_eq!(written, other(&buffer, used, &mut other_out));
    assert_eq!(out, other_out);
}

fn agree_on_batch(random: &mut Random) {
    let mut lent = any_batch(random);
    let mut other_lent = lent.clone();
    let written = lent.run(batch::run_batch);
    assert_eq!(written, other_lent.run(calls::run_batch));
    assert!(lent == other_lent);
}

/// On programs that mostly assign no bound, and on steps about 2^64.
fn agree_on_forecast(random: &mut Random) {
    let about = (1 << 64) - 4 + random.below(8) as u128;
    let limit = limit(random);
    for program in [nearly_steady_program(random, limit), taking(random, about)] {
        let Lending { buffer, used } = perhaps_damaged(random, &program.encode());
        let values = lent_store(random, program.header);
        let plain = forecast::forecast_run(&buffer, used, &values);
        assert_eq!(plain, calls::forecast_run(&buffer, used, &values));
    }
}
