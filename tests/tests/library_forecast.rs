//! The library's forecast against the other program's, in bulk. Every call goes through `both`, which compares the
//! answers, every byte of the buffer and every value of the store: nothing may change. Then the library's own
//! runs against its forecast. `forecast.rs` and `forecast_rows.rs` state what 02 says.

use other::both::forecast_run;
use other::calls::Forecast;
use other::check::BUFFER_LIMIT;
use other::codec::Record;
use other::examples::{add, all_examples, sample_programs};
use other::extremes::forecast_records;
use other::generate::damage::{damaged, Damaged};
use other::generate::forecasts::{limit, nearly_steady_program, steady_program, taking};
use other::generate::lend;
use other::generate::lending::{
    lending, lent_store, perhaps_damaged, sound_program, sound_term, Lending,
};
use other::generate::programs::store;
use other::library;
use other::random::{cases, Counts, Random, Rows};
use other::run::counting::words::STATE_WORDS;
use other::run::Outcome;
use other::translate::translate;
use other::tree::{with_big_stack, Program, Value};

/// One call on a program that may be damaged, with a store that may be wrong.
fn one_call(random: &mut Random, program: &Program, seen: &Rows) {
    let Lending { buffer, used } = perhaps_damaged(random, &program.encode());
    let store = lent_store(random, program.header);
    seen.one(forecast_run(&buffer, used, &store).number);
}

/// Programs that are made to be foretold, or nearly, sound and damaged.
#[test]
fn generated_programs() {
    let seen = Rows::default();
    cases(60_000, |random| {
        let limit = limit(random);
        let program = nearly_steady_program(random, limit);
        one_call(random, &program, &seen);
    });
    seen.assert_at_least(&[(0, 20_000), (1, 1_000), (2, 2_000), (3, 100), (4, 1_000)]);
    seen.assert_at_least(&[(5, 100), (15, 500), (6, 4_000), (16, 1_000)]);
    seen.assert_at_least(&[(18, 4_000), (19, 500)]);
}

/// Programs of every shape, most of which assign their bounds.
#[test]
fn programs_of_every_shape() {
    let seen = Rows::default();
    cases(20_000, |random| {
        let program = sound_program(random);
        one_call(random, &program, &seen);
    });
    seen.assert_at_least(&[(0, 5_000), (18, 1_000)]);
}

/// Terms are no programs: they have the wrong kind.
#[test]
fn terms_are_refused() {
    cases(3_000, |random| {
        let term = sound_term(random);
        let Lending { buffer, used } = lending(random, &term.encode());
        let store = store(random, term.header);
        let number = forecast_run(&buffer, used, &store).number;
        assert!([1, 2].contains(&number));
    });
}

/// Programs that were damaged for a row, which is known from what was done, with any store.
#[test]
fn damaged_programs() {
    let seen = Rows::default();
    cases(20_000, |random| {
        // With what the damage may put within it and behind it, the record can still be lent.
        let limit = limit(random).min(BUFFER_LIMIT - 100);
        let program = nearly_steady_program(random, limit);
        let Damaged {
            buffer,
            used,
            number,
        } = damaged(random, &program.encode());
        let wanted = number.expect("the row that it was damaged for");
        let store = lent_store(random, program.header);
        let answer = forecast_run(&buffer, used, &store);
        assert_eq!(answer, Forecast::refused(wanted));
        seen.one(wanted);
    });
    seen.assert_at_least(&[1, 2, 3, 4, 5, 15].map(|number| (number, 1_000)));
}

/// Each byte of each sample and of ADD under a ceiling at each of its 256 values. A changed bound or index may be
/// an assigned bound, and a changed literal many turns.
#[test]
fn every_byte_at_every_value() {
    let seen = Rows::default();
    let records = sample_programs().into_iter().chain([
        add().under(1_000_000).encode(),
        taking(&mut Random::new(1), 1 << 60).encode(),
    ]);
    for bytes in records {
        let k = usize::from(bytes[4]);
        let mut changed = bytes.clone();
        for place in 0..bytes.len() {
            for value in 0..=255 {
                changed[place] = value;
                let answer = forecast_run(&changed, bytes.len(), &[3, 2, 1, 5][..k]);
                seen.one(answer.number);
            }
            changed[place] = bytes[place];
        }
    }
    seen.assert_at_least(&[(0, 5_000), (2, 2_000), (3, 1_000), (4, 20_000), (5, 5_000)]);
    seen.assert_at_least(&[(15, 500), (6, 10), (18, 10), (19, 500)]);
}

/// Every used length of a sample, and stores of every length, of values about the ceiling.
#[test]
fn every_used_length_and_every_store() {
    let seen = Rows::default();
    for example in all_examples() {
        let record = example.program.encode();
        for used in 0..=record.len() + 2 {
            let mut said = record.clone();
            said[..2].copy_from_slice(&(used as u16).to_le_bytes());
            for source in [&record, &said] {
                seen.one(forecast_run(source, used, &example.store).number);
            }
        }
        let ceiling = example.program.header.ceiling();
        for len in 0..=20 {
            for value in [0, 1, ceiling, ceiling.saturating_add(1), Value::MAX] {
                let store = vec![value; len];
                seen.one(forecast_run(&record, record.len(), &store).number);
            }
        }
    }
    seen.assert_at_least(&[(0, 80), (1, 50), (2, 1_000), (4, 500), (6, 2_000)]);
    seen.assert_at_least(&[(16, 20), (18, 5)]);
}

/// Steps about 2^64, in programs of every shape, in either edition.
#[test]
fn steps_about_the_boundary() {
    let seen = Rows::default();
    cases(5_000, |random| {
        let steps = (1u128 << 64) - 8 + random.below(16) as u128;
        let program = taking(random, steps);
        let number = |program: &Program| {
            let record = program.encode();
            forecast_run(&record, record.len(), &[0, 0]).number
        };
        let wanted = u32::from(steps >> 64 != 0) * 19;
        assert_eq!(number(&program), wanted);
        if program.encoded_len() <= BUFFER_LIMIT - 4 {
            assert_eq!(number(&program.under(Value::MAX)), wanted);
        }
        seen.one(wanted);
    });
    seen.assert_at_least(&[(0, 2_000), (19, 2_000)]);
}

/// The longest, deepest and most branching programs, with turns from none to the most.
#[test]
fn the_longest_programs() {
    let seen = Rows::default();
    with_big_stack(|| {
        for (_, record) in forecast_records() {
            let buffer = lend(&record, BUFFER_LIMIT);
            for value in [0, 1, 2, 3, 1_000, Value::MAX] {
                let store = vec![value; usize::from(record[4])];
                seen.one(forecast_run(&buffer, record.len(), &store).number);
            }
        }
    });
    seen.assert_at_least(&[(0, 80), (16, 10), (19, 5)]);
}

// The library's own runs, as it foretells them.

/// How a run of the library ended.
type Ended = (u32, u64);

fn stepped(record: &[u8], store: &[Value], room: usize) -> Ended {
    let (mut buffer, mut store) = (lend(record, room), store.to_vec());
    let ran = library::run_stepper(&mut buffer, record.len(), &mut store, u32::MAX);
    assert_eq!(ran.number, 0);
    (ran.outcome, ran.steps.into())
}

/// From the translation with the store substituted.
fn reduced(record: &[u8], store: &[Value], room: usize) -> Ended {
    let mut buffer = vec![0x5A; room];
    let written = library::translate(record, record.len(), &mut buffer);
    let used = written.used as usize;
    let substituted = library::substitute(&mut buffer, used, store);
    let ran = library::run_reducer(&mut buffer, used, u32::MAX).ran;
    assert_eq!([written.number, substituted.number, ran.number], [0; 3]);
    (ran.outcome, ran.steps.into())
}

/// Without an answer where it is nested too deep.
fn counted(record: &[u8], store: &[Value]) -> Option<Ended> {
    let (mut state, mut store) = ([0; STATE_WORDS], store.to_vec());
    let counted = library::run_counting(record, record.len(), &mut state, &mut store, u32::MAX);
    (counted.number == 0).then_some((counted.outcome, counted.steps.into()))
}

/// Finished after the steps foretold, or over after fewer.
fn is_as_foretold((outcome, steps): Ended, forecast: &Forecast) -> bool {
    match outcome {
        _ if outcome == Outcome::Finished.number() => steps == forecast.steps,
        _ if outcome == Outcome::Over.number() => steps < forecast.steps,
        _ => false,
    }
}

/// In a buffer of just the length foretold a run is as foretold. If that is longer than the start, one byte less is
/// no room, unless the run is over before. Gives whether it finished, and whether it lacked room then.
fn in_just_enough(
    [start, room]: [u64; 2],
    forecast: &Forecast,
    ended: impl Fn(usize) -> Ended,
) -> [bool; 2] {
    if room > BUFFER_LIMIT as u64 {
        return [false; 2];
    }
    let end = ended(room as usize);
    assert!(is_as_foretold(end, forecast), "{end:?} of {forecast:?}");
    let finished = end.0 == Outcome::Finished.number();
    let grows = room > start;
    if finished && grows {
        let (outcome, _) = ended(room as usize - 1);
        assert_eq!(outcome, Outcome::NoRoom.number(), "{forecast:?}");
    }
    [finished, finished && grows]
}

/// The library's runs in the bytes that it foretells, and in one byte less: the stepper, the reducer; and the
/// counting stepper, which needs none.
#[test]
fn the_librarys_runs() {
    let seen = Counts::<5>::default();
    cases(6_000, |random| {
        let limit = limit(random).min(600);
        let program = steady_program(random, limit);
        let store = store(random, program.header);
        let record = program.encode();
        let forecast = library::forecast_run(&record, record.len(), &store);
        if forecast.number != 0 || forecast.steps > 3_000 {
            return;
        }
        let lengths = [record.len() as u64, forecast.program_bytes];
        let stepper = in_just_enough(lengths, &forecast, |room| stepped(&record, &store, room));
        let lengths = [
            translate(&program).encoded_len() as u64,
            forecast.term_bytes,
        ];
        let reducer = in_just_enough(lengths, &forecast, |room| reduced(&record, &store, room));
        let counting = counted(&record, &store);
        assert!(counting.is_none_or(|end| is_as_foretold(end, &forecast)));
        let all = [&stepper[..], &reducer, &[counting.is_some()]].concat();
        for (sort, _) in all.into_iter().enumerate().filter(|it| it.1) {
            seen.one(sort);
        }
    });
    seen.assert_at_least([3_000, 700, 3_000, 700, 3_000]);
}
