//! Every call by both programs at once.
//!
//! A function here has the signature and the effect of the one in [`crate::calls`]. It also lends
//! copies of the same slices, guarded on both sides, to the proved library, and fails unless the
//! answers are equal and every byte and value of every slice is. So a test that calls these and
//! states what 01 says is a test of both.

mod batch;
mod check;
mod counting;
mod editions;
mod forecast;
mod reducer;
mod stepper;
mod terms;
mod weigh;

pub use batch::run_batch;
pub use check::{check_program, check_term};
pub use counting::{expand, run_counting};
pub use editions::{
    program_to_edition_1, program_to_edition_2, term_to_edition_1, term_to_edition_2,
};
pub use forecast::forecast_run;
pub use reducer::run_reducer;
pub use stepper::run_stepper;
pub use terms::{read_back, result, substitute, translate};
pub use weigh::weigh;

/// Fails unless the library's answer is the other program's.
fn same<A: PartialEq + std::fmt::Debug>(library: A, other: A, case: impl Fn() -> String) {
    assert!(
        library == other,
        "the library answers {library:?}, the other program {other:?}: {}",
        case()
    );
}
