//! Weigh.

use super::same;
use crate::calls;
use crate::lent::Lent;
use crate::library;

pub fn weigh(rule: u32, gross: u32, tare: u32, store: &mut [u32]) -> u32 {
    let places = store.len();
    let case = || format!("weigh by rule {rule}, gross {gross}, tare {tare}, {places} values");
    let mut values = Lent::values(store);
    let answer = calls::weigh(rule, gross, tare, store);
    same(
        library::weigh(rule, gross, tare, values.slice_mut()),
        answer,
        case,
    );
    values.assert_holds(store, case);
    answer
}
