//! Seeded generators: sound programs and terms in both editions, damaged records, stores, budgets, lists of
//! runs, states of the counting stepper, batches.

pub mod batches;
pub mod ceilings;
pub mod damage;
pub mod editions;
pub mod forecasts;
pub mod lending;
pub mod programs;
pub mod raw;
pub mod runs;
pub mod states;
pub mod terms;

/// A buffer of `len` bytes with the record in front. What is behind it is not zero: it must not
/// matter on entry, and an accepted call that writes the buffer must have made it so.
pub fn lend(record: &[u8], len: usize) -> Vec<u8> {
    let mut buffer = vec![0xA5; len];
    buffer[..record.len()].copy_from_slice(record);
    buffer
}
