//! The program's printed line (01, "Bench loads", last part).

use crate::calls::{run_reducer, run_stepper, substitute, translate, Ran};
use crate::check::{self, Refusal, BUFFER_LIMIT};
use crate::run::Outcome;
use crate::tree::Program;

/// Each engine's budget.
const BUDGET: u32 = 1_000_000;

/// The line for an entire standard input, without the newline at its end.
pub fn line(input: &[u8]) -> String {
    match report(input) {
        Ok(text) => text,
        Err(number) => format!("refused {number}"),
    }
}

/// A buffer of 16,384 bytes with a record in it.
struct Lent {
    bytes: Vec<u8>,
    used: usize,
}

fn report(input: &[u8]) -> Result<String, u32> {
    let (mut config, mut store) = load(input).map_err(Refusal::number)?;
    let mut term = start_term(&config, &store)?;
    let stepper = run_stepper(&mut config.bytes, config.used, &mut store, BUDGET);
    accepted(stepper.number)?;
    let reducer = run_reducer(&mut term.bytes, term.used, BUDGET);
    accepted(reducer.ran.number)?;
    Ok(shown(&stepper, &reducer.ran, &store))
}

/// The program in its buffer, and its start store: the rows of the input, of the record, and of the store.
fn load(input: &[u8]) -> Result<(Lent, Vec<u32>), Refusal> {
    let (record, remainder) = split(input)?;
    let config = Lent::holding(record);
    let program: Program = check::lent_within(&config.bytes, config.used)?;
    let store = values(remainder, program.header.k)?;
    check::values(program.header, &store)?;
    Ok((config, store))
}

impl Lent {
    fn holding(record: &[u8]) -> Lent {
        let mut bytes = vec![0; BUFFER_LIMIT];
        bytes[..record.len()].copy_from_slice(record);
        let used = record.len();
        Lent { bytes, used }
    }
}

/// The record and the remainder. The order of the tests: fewer than 2 bytes, a first length above
/// 16,384, and only then an input shorter than that length.
fn split(input: &[u8]) -> Result<(&[u8], &[u8]), Refusal> {
    let first: &[u8; 2] = input.first_chunk().ok_or(Refusal::BadHeader)?;
    let len = usize::from(u16::from_le_bytes(*first));
    if len > BUFFER_LIMIT {
        return Err(Refusal::BadBuffer);
    }
    input.split_at_checked(len).ok_or(Refusal::BadHeader)
}

/// The k values after the record, 4 bytes each; a remainder of other length is refusal 6.
fn values(remainder: &[u8], k: u32) -> Result<Vec<u32>, Refusal> {
    let words = remainder.chunks_exact(4);
    if !words.remainder().is_empty() || words.len() != k as usize {
        return Err(Refusal::BadStore);
    }
    let word = |bytes: &[u8]| u32::from_le_bytes([bytes[0], bytes[1], bytes[2], bytes[3]]);
    Ok(words.map(word).collect())
}

/// At the start the reducer has the program's translation with the store substituted.
fn start_term(config: &Lent, store: &[u32]) -> Result<Lent, u32> {
    let mut bytes = vec![0; BUFFER_LIMIT];
    let term = translate(&config.bytes, config.used, &mut bytes);
    accepted(term.number)?;
    let used = term.used as usize;
    accepted(substitute(&mut bytes, used, store).number)?;
    Ok(Lent { bytes, used })
}

fn accepted(number: u32) -> Result<(), u32> {
    if number != 0 {
        return Err(number);
    }
    Ok(())
}

/// Stepper outcome, its steps, reducer outcome, its steps, the stepper's store.
fn shown(stepper: &Ran, reducer: &Ran, store: &[u32]) -> String {
    let mut text = format!(
        "{} {} {} {}",
        word(stepper.outcome),
        stepper.steps,
        word(reducer.outcome),
        reducer.steps
    );
    for value in store {
        text.push_str(&format!(" {value}"));
    }
    text
}

fn word(outcome: u32) -> &'static str {
    const WORDS: [(Outcome, &str); 4] = [
        (Outcome::Finished, "finished"),
        (Outcome::Over, "over"),
        (Outcome::NoRoom, "noroom"),
        (Outcome::Spent, "spent"),
    ];
    let found = WORDS.iter().find(|(case, _)| case.number() == outcome);
    found.expect("an accepted run is not refused").1
}
