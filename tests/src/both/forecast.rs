//! Forecast. It writes nothing: buffer and store must be as they came.

use super::same;
use crate::calls::{self, Forecast};
use crate::codec::hex;
use crate::lent::Lent;
use crate::library;

pub fn forecast_run(buf: &[u8], used: usize, store: &[u32]) -> Forecast {
    let case = || format!("forecast_run, used {used} of {}, store {store:?}", hex(buf));
    let (from, values) = (Lent::bytes(buf), Lent::values(store));
    let answer = calls::forecast_run(buf, used, store);
    same(
        library::forecast_run(from.slice(), used, values.slice()),
        answer,
        case,
    );
    from.assert_holds(buf, case);
    values.assert_holds(store, case);
    answer
}
