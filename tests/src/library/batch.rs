//! Run batch.

use super::terms::Written;
use super::{start, start_mut};
use crate::calls;

extern "C" {
    fn vistrokk_run_batch(
        program: *const u8,
        program_len: usize,
        used: usize,
        term: *mut u8,
        term_len: usize,
        work: *mut u8,
        work_len: usize,
        budgets: *const u32,
        budgets_len: usize,
        values: *const u32,
        values_len: usize,
        answers: *mut u32,
        answers_len: usize,
    ) -> Written;
}

/// Inlined, as a caller in C has no such function between: its 13 words would lie on the stack twice.
#[inline]
pub fn run_batch(
    program: &[u8],
    used: usize,
    term: &mut [u8],
    work: &mut [u8],
    budgets: &[u32],
    values: &[u32],
    answers: &mut [u32],
) -> calls::Written {
    let written = unsafe {
        vistrokk_run_batch(
            start(program),
            program.len(),
            used,
            start_mut(term),
            term.len(),
            start_mut(work),
            work.len(),
            start(budgets),
            budgets.len(),
            start(values),
            values.len(),
            start_mut(answers),
            answers.len(),
        )
    };
    written.into()
}
