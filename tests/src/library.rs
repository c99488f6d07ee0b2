//! The proved library, through the C functions of `include/vistrokk.h`.
//!
//! Each wrapper has the signature of the function of the same name in [`crate::calls`]; a slice
//! goes over as pointer and length.
//!
//! Safety, for every call in here: each pointer goes with the length of the slice that it is taken
//! from, the slice lives until the call returns, and Rust's own rules keep a written slice apart
//! from every other. A state's length does not go over: its type has it. That is what the header asks
//! of a caller.

mod batch;
mod check;
mod counting;
mod editions;
mod forecast;
mod ran;
mod reducer;
mod stepper;
mod terms;
mod weigh;

pub use batch::run_batch;
pub use check::{check_program, check_term};
pub use counting::{expand, run_counting};
pub use editions::{
    program_to_edition_1, program_to_edition_2, term_to_edition_1, term_to_edition_2,
};
pub use forecast::forecast_run;
pub use reducer::run_reducer;
pub use stepper::run_stepper;
pub use terms::{read_back, result, substitute, translate};
pub use weigh::weigh;

/// Where a slice starts. An empty one goes over as NULL, which the header allows there and nowhere
/// else, and which the address of a Rust slice never is.
fn start<T>(slice: &[T]) -> *const T {
    if slice.is_empty() {
        return std::ptr::null();
    }
    slice.as_ptr()
}

/// The same of a slice that the call may write.
fn start_mut<T>(slice: &mut [T]) -> *mut T {
    if slice.is_empty() {
        return std::ptr::null_mut();
    }
    slice.as_mut_ptr()
}
