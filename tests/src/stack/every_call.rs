//! The seventeen calls, as the stack is measured of them, on records of both editions.

use super::Call;

pub fn every_call() -> Vec<Call> {
    let mut calls: Vec<Call> = Vec::new();
    calls.extend(check::calls());
    calls.extend(terms::calls());
    calls.extend(editions::calls());
    calls.extend(weigh::calls());
    calls.extend(stepper::calls());
    calls.extend(forecast::calls());
    calls.extend(counting::calls());
    calls.extend(reducer::calls());
    calls.extend(batch::calls());
    calls
}

mod check {
    use super::Call;
    use crate::extremes::{program_records, term_records};
    use crate::{calls, library};

    pub fn calls() -> [Call; 2] {
        let program = Call {
            name: "check_program",
            limit: 2_048,
            records: program_records,
            library: |s| library::check_program(&s.buffer, s.used).number,
            other: |s| calls::check_program(&s.buffer, s.used).number,
        };
        let term = Call {
            name: "check_term",
            limit: 2_048,
            records: term_records,
            library: |s| library::check_term(&s.buffer, s.used).number,
            other: |s| calls::check_term(&s.buffer, s.used).number,
        };
        [program, term]
    }
}

mod terms {
    use super::Call;
    use crate::extremes::{program_records, result_records, term_records};
    use crate::{calls, library};

    pub fn calls() -> [Call; 4] {
        let translate = Call {
            name: "translate",
            limit: 2_048,
            records: program_records,
            library: |s| library::translate(&s.buffer, s.used, &mut s.out).number,
            other: |s| calls::translate(&s.buffer, s.used, &mut s.out).number,
        };
        let read_back = Call {
            name: "read_back",
            limit: 2_048,
            records: term_records,
            library: |s| library::read_back(&s.buffer, s.used, &mut s.out).number,
            other: |s| calls::read_back(&s.buffer, s.used, &mut s.out).number,
        };
        let substitute = Call {
            name: "substitute",
            limit: 2_048,
            records: term_records,
            library: |s| library::substitute(&mut s.buffer, s.used, &s.store).number,
            other: |s| calls::substitute(&mut s.buffer, s.used, &s.store).number,
        };
        let result = Call {
            name: "result",
            limit: 2_048,
            records: result_records,
            library: |s| library::result(&s.buffer, s.used, &mut s.store),
            other: |s| calls::result(&s.buffer, s.used, &mut s.store),
        };
        [translate, read_back, substitute, result]
    }
}

mod editions {
    use super::Call;
    use crate::extremes::{programs_to_move, terms_to_move};
    use crate::{calls, library};

    pub fn calls() -> [Call; 4] {
        let program_to_edition_2 = Call {
            name: "program_to_edition_2",
            limit: 2_048,
            records: programs_to_move,
            library: |s| library::program_to_edition_2(&s.buffer, s.used, &mut s.out).number,
            other: |s| calls::program_to_edition_2(&s.buffer, s.used, &mut s.out).number,
        };
        let program_to_edition_1 = Call {
            name: "program_to_edition_1",
            limit: 2_048,
            records: programs_to_move,
            library: |s| library::program_to_edition_1(&s.buffer, s.used, &mut s.out).number,
            other: |s| calls::program_to_edition_1(&s.buffer, s.used, &mut s.out).number,
        };
        let term_to_edition_2 = Call {
            name: "term_to_edition_2",
            limit: 2_048,
            records: terms_to_move,
            library: |s| library::term_to_edition_2(&s.buffer, s.used, &mut s.out).number,
            other: |s| calls::term_to_edition_2(&s.buffer, s.used, &mut s.out).number,
        };
        let term_to_edition_1 = Call {
            name: "term_to_edition_1",
            limit: 2_048,
            records: terms_to_move,
            library: |s| library::term_to_edition_1(&s.buffer, s.used, &mut s.out).number,
            other: |s| calls::term_to_edition_1(&s.buffer, s.used, &mut s.out).number,
        };
        [
            program_to_edition_2,
            program_to_edition_1,
            term_to_edition_2,
            term_to_edition_1,
        ]
    }
}

mod weigh {
    use super::Call;
    use crate::extremes::finished_record;
    use crate::{calls, library};

    /// It is lent a store alone; the record is only there to say how many values.
    pub fn calls() -> [Call; 1] {
        [Call {
            name: "weigh",
            limit: 2_048,
            records: finished_record,
            library: |s| library::weigh(2, 40_000, 15_000, &mut s.store),
            other: |s| calls::weigh(2, 40_000, 15_000, &mut s.store),
        }]
    }
}

mod stepper {
    use super::Call;
    use crate::extremes::program_records;
    use crate::{calls, library};

    const BUDGET: u32 = 10_000;

    pub fn calls() -> [Call; 1] {
        [Call {
            name: "run_stepper",
            limit: 2_048,
            records: program_records,
            library: |s| library::run_stepper(&mut s.buffer, s.used, &mut s.store, BUDGET).number,
            other: |s| calls::run_stepper(&mut s.buffer, s.used, &mut s.store, BUDGET).number,
        }]
    }
}

mod forecast {
    use super::Call;
    use crate::extremes::forecast_records;
    use crate::{calls, library};

    /// Of loops and blocks it has those that branch most, and those that are nested deepest.
    pub fn calls() -> [Call; 1] {
        [Call {
            name: "forecast_run",
            limit: 2_048,
            records: forecast_records,
            library: |s| library::forecast_run(&s.buffer, s.used, &s.store).number,
            other: |s| calls::forecast_run(&s.buffer, s.used, &s.store).number,
        }]
    }
}

mod counting {
    use super::Call;
    use crate::calls::{self, Counted, Written};
    use crate::extremes::counting_records;
    use crate::library;
    use crate::run::counting::words::Words;
    use crate::stack::Slices;

    const BUDGET: u32 = 10_000;

    pub fn calls() -> [Call; 2] {
        let run_counting = Call {
            name: "run_counting",
            limit: 2_048,
            records: counting_records,
            library: |s| run(s, library::run_counting),
            other: |s| run(s, calls::run_counting),
        };
        let expand = Call {
            name: "expand",
            limit: 2_048,
            records: counting_records,
            library: |s| write_out(s, library::expand),
            other: |s| write_out(s, calls::expand),
        };
        [run_counting, expand]
    }

    type Run = fn(&[u8], usize, &mut Words, &mut [u32], u32) -> Counted;
    type Expand = fn(&[u8], usize, &Words, &[u32], &mut [u8]) -> Written;

    /// From the fullest state, and then from the start.
    fn run(s: &mut Slices, call: Run) -> u32 {
        call(&s.buffer, s.used, &mut s.state, &mut s.store, BUDGET);
        s.state.fill(0);
        call(&s.buffer, s.used, &mut s.state, &mut s.store, BUDGET).number
    }

    fn write_out(s: &mut Slices, call: Expand) -> u32 {
        call(&s.buffer, s.used, &s.state, &s.store, &mut s.out).number
    }
}

mod reducer {
    use super::Call;
    use crate::extremes::closed_records;
    use crate::{calls, library};

    const BUDGET: u32 = 10_000;

    pub fn calls() -> [Call; 1] {
        [Call {
            name: "run_reducer",
            limit: 2_048,
            records: closed_records,
            library: |s| {
                library::run_reducer(&mut s.buffer, s.used, BUDGET)
                    .ran
                    .number
            },
            other: |s| calls::run_reducer(&mut s.buffer, s.used, BUDGET).ran.number,
        }]
    }
}

mod batch {
    use super::Call;
    use crate::extremes::program_records;
    use crate::{calls, library};

    /// Its own frame, and the 13 words that it is handed, lie beneath the translator's.
    pub fn calls() -> [Call; 1] {
        [Call {
            name: "run_batch",
            limit: 2_240,
            records: program_records,
            library: |s| s.batch.run(library::run_batch).number,
            other: |s| s.batch.run(calls::run_batch).number,
        }]
    }
}
