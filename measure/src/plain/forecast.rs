//! A forecast: the check, then one pass over the bytes, with recursion for the rows inside.

use super::{check, half, word, Header};
use other::calls::Forecast;
use other::check::Refusal;

pub fn forecast_run(buf: &[u8], used: usize, store: &[u32]) -> Forecast {
    let checked = check::check_program(buf, used);
    if checked.number != 0 {
        return Forecast::refused(checked.number);
    }
    let header = Header::of(buf);
    if let Err(refusal) = header.takes(store) {
        return Forecast::refused(refusal);
    }
    let mut pass = Pass {
        store,
        tuple: 4 + 8 * u64::from(header.k),
        assigned: 0,
        bounds: 0,
    };
    let all = pass.row(&buf[header.contents + 4..used]);
    if pass.assigned & pass.bounds != 0 {
        return Forecast::refused(Refusal::BoundAssigned);
    }
    let Some(steps) = all.steps else {
        return Forecast::refused(Refusal::FigureTooLarge);
    };
    let contents = header.contents as u64;
    Forecast {
        number: 0,
        steps,
        program_bytes: contents + 4 + all.program.most,
        term_bytes: contents + pass.tuple + all.term.most,
    }
}

/// How long something is at first and at most. No program of 16,384 bytes has a length beyond 64 bits.
#[derive(Clone, Copy)]
struct Length {
    first: u64,
    most: u64,
}

impl Length {
    fn of(length: u64) -> Length {
        let (first, most) = (length, length);
        Length { first, most }
    }

    fn then(self, last: Length) -> Length {
        Length {
            first: self.first + last.first,
            most: last.most.max(self.most + last.first),
        }
    }

    fn within(self, around: u64) -> Length {
        Length {
            first: around + self.first,
            most: around + self.most,
        }
    }

    fn repeated(self, turns: u64, own: u64, block: u64) -> Length {
        let first = own + self.first;
        let turn = block + 16 + self.first;
        let mut most = first + turns * turn;
        if turns > 0 {
            most = most.max(block + self.most + (turns - 1) * turn);
        }
        Length { first, most }
    }
}

/// A row of commands; steps that 64 bits do not hold are none.
struct Row {
    steps: Option<u64>,
    program: Length,
    term: Length,
}

/// The store, the length of a tuple, and which variables are assigned so far and which are bounds, a bit each.
struct Pass<'a> {
    store: &'a [u32],
    tuple: u64,
    assigned: u32,
    bounds: u32,
}

impl Pass<'_> {
    fn row(&mut self, bytes: &[u8]) -> Row {
        let mut row = Row {
            steps: Some(0),
            program: Length::of(0),
            term: Length::of(0),
        };
        let mut at = 0;
        while at < bytes.len() {
            let next = at + half(bytes, at);
            let command = self.command(&bytes[at..next]);
            row.steps = row
                .steps
                .and_then(|steps| steps.checked_add(command.steps?));
            row.program = row.program.then(command.program);
            row.term = row.term.then(command.term);
            at = next;
        }
        row
    }

    fn command(&mut self, bytes: &[u8]) -> Row {
        match half(bytes, 2) {
            2 => {
                self.assigned |= 1 << word(bytes, 4);
                let sum = half(bytes, 10) >= 18;
                Row {
                    steps: Some(1 + u64::from(sum)),
                    program: Length::of(16),
                    term: Length::of(16 + 4 * u64::from(sum)),
                }
            }
            3 => self.repeated(bytes),
            _ => {
                let inner = self.row(&bytes[4..]);
                Row {
                    steps: inner.steps.and_then(|steps| steps.checked_add(1)),
                    program: inner.program.within(4),
                    term: inner.term.within(4 + self.tuple),
                }
            }
        }
    }

    fn repeated(&mut self, bytes: &[u8]) -> Row {
        self.assigned |= 1 << word(bytes, 4);
        let bound = word(bytes, 12);
        let turns = if half(bytes, 10) == 17 {
            self.bounds |= 1 << bound;
            self.store[bound as usize - 1]
        } else {
            bound
        };
        let (turns, body) = (u64::from(turns), self.row(&bytes[20..]));
        Row {
            steps: steps(turns, body.steps),
            program: body.program.repeated(turns, 20, 4),
            term: body
                .term
                .repeated(turns, 20 + 2 * self.tuple, 4 + self.tuple),
        }
    }
}

/// Of no turns there are two, whatever the body takes.
fn steps(turns: u64, body: Option<u64>) -> Option<u64> {
    if turns == 0 {
        return Some(2);
    }
    let turn = body?.checked_add(3)?;
    turns.checked_mul(turn)?.checked_add(2)
}
