//! What a run of either engine returns; the reducer's has a count behind it.

use crate::calls;

#[repr(C)]
pub struct Ran {
    number: u32,
    outcome: u32,
    steps: u32,
    left: u32,
    used: u32,
}

impl From<Ran> for calls::Ran {
    fn from(ran: Ran) -> calls::Ran {
        calls::Ran {
            number: ran.number,
            outcome: ran.outcome,
            steps: ran.steps,
            left: ran.left,
            used: ran.used,
        }
    }
}
