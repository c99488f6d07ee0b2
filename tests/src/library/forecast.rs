//! Forecast.

use super::start;
use crate::calls;

/// Field by field as the header has it: four bytes that belong to no field stand behind the number.
#[repr(C)]
struct Forecast {
    number: u32,
    steps: u64,
    program_bytes: u64,
    term_bytes: u64,
}

extern "C" {
    fn vistrokk_forecast_run(
        buf: *const u8,
        buf_len: usize,
        used: usize,
        store: *const u32,
        store_len: usize,
    ) -> Forecast;
}

impl From<Forecast> for calls::Forecast {
    fn from(forecast: Forecast) -> calls::Forecast {
        calls::Forecast {
            number: forecast.number,
            steps: forecast.steps,
            program_bytes: forecast.program_bytes,
            term_bytes: forecast.term_bytes,
        }
    }
}

pub fn forecast_run(buf: &[u8], used: usize, store: &[u32]) -> calls::Forecast {
    let (at, values) = (start(buf), start(store));
    unsafe { vistrokk_forecast_run(at, buf.len(), used, values, store.len()) }.into()
}
