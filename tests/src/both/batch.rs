//! Run batch.

use super::same;
use crate::calls::{self, Written};
use crate::codec::hex;
use crate::lent::Lent;
use crate::library;

pub fn run_batch(
    program: &[u8],
    used: usize,
    term: &mut [u8],
    work: &mut [u8],
    budgets: &[u32],
    values: &[u32],
    answers: &mut [u32],
) -> Written {
    let (rooms, places) = ([term.len(), work.len()], answers.len());
    let case = || {
        let program = hex(program);
        format!("run_batch, used {used} of {program}, rooms {rooms:?}, budgets {budgets:?}, values {values:?}, {places} places")
    };
    let from = Lent::bytes(program);
    let (mut to, mut at) = (Lent::bytes(term), Lent::bytes(work));
    let (steps, stores) = (Lent::values(budgets), Lent::values(values));
    let mut out = Lent::values(answers);
    let answer = calls::run_batch(program, used, term, work, budgets, values, answers);
    let got = library::run_batch(
        from.slice(),
        used,
        to.slice_mut(),
        at.slice_mut(),
        steps.slice(),
        stores.slice(),
        out.slice_mut(),
    );
    same(got, answer, case);
    from.assert_holds(program, case);
    to.assert_holds(term, case);
    at.assert_holds(work, case);
    steps.assert_holds(budgets, case);
    stores.assert_holds(values, case);
    out.assert_holds(answers, case);
    answer
}
