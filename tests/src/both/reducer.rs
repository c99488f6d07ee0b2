//! Run reducer.

use super::same;
use crate::calls::{self, Reduced};
use crate::codec::hex;
use crate::lent::Lent;
use crate::library;

pub fn run_reducer(buf: &mut [u8], used: usize, budget: u32) -> Reduced {
    let before = buf.to_vec();
    let case = || {
        let buf = hex(&before);
        format!("run_reducer, used {used} of {buf}, budget {budget}")
    };
    let mut at = Lent::bytes(buf);
    let answer = calls::run_reducer(buf, used, budget);
    same(
        library::run_reducer(at.slice_mut(), used, budget),
        answer,
        case,
    );
    at.assert_holds(buf, case);
    answer
}
