//! A batch: one check, one translation, and for each job a copy of the term, in which it runs. What a
//! run leaves is not cleared before the next, only at the end.

use super::reducer::reduce;
use super::substitute::{fill, values_of};
use super::{check, translate, word, Header, State};
use other::calls::Written;
use other::check::Refusal;
use other::run::Outcome;

pub fn run_batch(
    program: &[u8],
    used: usize,
    term: &mut [u8],
    work: &mut [u8],
    budgets: &[u32],
    values: &[u32],
    answers: &mut [u32],
) -> Written {
    let longest = program.len().max(term.len()).max(work.len());
    if longest > 16_384 || used > program.len() {
        return Written::refused(Refusal::BadBuffer);
    }
    let jobs = budgets.len();
    if !(1..=64).contains(&jobs) {
        return Written::refused(Refusal::BadBatch);
    }
    let checked = check::check_program(program, used);
    if checked.number != 0 {
        return Written::refused(checked.number);
    }
    let k = checked.k as usize;
    if values.len() != jobs * k || answers.len() != jobs * (k + 2) {
        return Written::refused(Refusal::BadStore);
    }
    let header = Header::of(program);
    if let Err(refusal) = header.takes_values(values) {
        return Written::refused(refusal);
    }
    let size = translate::size(&program[..used], header);
    if size > term.len().min(work.len()) {
        return Written::refused(Refusal::OutputTooShort);
    }
    translate::write(&program[..used], header, size, term);
    let jobs = budgets.iter().zip(values.chunks_exact(k));
    for ((budget, store), answer) in jobs.zip(answers.chunks_exact_mut(k + 2)) {
        work[..size].copy_from_slice(&term[..size]);
        let buf = &mut *work;
        let mut state = State {
            buf,
            header,
            used: size,
        };
        run_job(&mut state, store, *budget, answer);
    }
    work.fill(0);
    Written {
        number: 0,
        used: size as u32,
    }
}

fn run_job(state: &mut State, store: &[u32], budget: u32, answer: &mut [u32]) {
    let term = state.header.contents;
    fill(state.buf, term, values_of(store));
    let ((outcome, steps), _) = reduce(state, budget);
    (answer[0], answer[1]) = (outcome.number(), steps);
    let end = &mut answer[2..];
    if outcome != Outcome::Finished {
        return end.fill(0);
    }
    for (i, value) in end.iter_mut().enumerate() {
        *value = word(state.buf, term + 8 + 8 * i);
    }
}
