//! Run stepper.

use super::same;
use crate::calls::{self, Ran};
use crate::codec::hex;
use crate::lent::Lent;
use crate::library;

pub fn run_stepper(buf: &mut [u8], used: usize, store: &mut [u32], budget: u32) -> Ran {
    let before = (buf.to_vec(), store.to_vec());
    let case = || {
        let (buf, store) = (hex(&before.0), &before.1);
        format!("run_stepper, used {used} of {buf}, store {store:?}, budget {budget}")
    };
    let (mut at, mut values) = (Lent::bytes(buf), Lent::values(store));
    let answer = calls::run_stepper(buf, used, store, budget);
    let got = library::run_stepper(at.slice_mut(), used, values.slice_mut(), budget);
    same(got, answer, case);
    at.assert_holds(buf, case);
    values.assert_holds(store, case);
    answer
}
