use std::hint::black_box;

use super::row;
use crate::plain;
use other::{calls, library};

/// Each is handed what it cannot know: were the rule or the number of values seen through, the plain
/// version would be made for just these.
pub fn print() {
    let loads = [
        (1, 40_000, 15_000, "rule 1, 16 values"),
        (2, 40_000, 15_000, "rule 2, 16 values"),
        (2, 15_000, 40_000, "rule 2, tare larger"),
    ];
    for (rule, gross, tare, on) in loads {
        let [mut store, mut other_store, mut plain_store] = [[7; 16]; 3];
        let weights = || black_box((rule, gross, tare));
        let mut library = || {
            let (rule, gross, tare) = weights();
            black_box(library::weigh(rule, gross, tare, black_box(&mut store)));
        };
        let mut other = || {
            let (rule, gross, tare) = weights();
            black_box(calls::weigh(rule, gross, tare, black_box(&mut other_store)));
        };
        let mut plain = || {
            let (rule, gross, tare) = weights();
            let store: &mut [u32] = &mut plain_store;
            black_box(plain::store::weigh(rule, gross, tare, black_box(store)));
        };
        row("weigh", on, &mut [&mut library, &mut other, &mut plain]);
    }
}
