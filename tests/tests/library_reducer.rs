//! The library's reducer against the other program's, in bulk. Every call goes through `both`,
//! which compares; `figures.rs`, `mistakes.rs` and `runs.rs` state what 01 says.

use other::both::run_reducer;
use other::calls::Reduced;
use other::check::lent_within;
use other::codec::Record;
use other::examples::{all_examples, nest_of_loops, sample_terms, Example};
use other::extremes::{terms, EDITIONS};
use other::generate::lend;
use other::generate::lending::{
    closed, lent_budget, perhaps_damaged, room, sound_term, translatable_program, Lending,
};
use other::generate::programs::store;
use other::generate::runs::{any_used, ends_within};
use other::random::{cases, Counts, Random, Rows};
use other::run::stepper::Config;
use other::run::Machine;
use other::substitute::{closed as is_closed, substitute, values_of};
use other::tree::{with_big_stack, TermRecord};

/// 01's examples, also under ceilings, with every budget from nothing to beyond their end, in every
/// room from one byte less than the record to more than any of their states.
#[test]
fn the_examples_in_every_room_with_every_budget() {
    let (seen, replaced) = (Counts::<5>::default(), Counts::<3>::default());
    for Example {
        program,
        store,
        steps,
        ..
    } in all_examples()
    {
        let record = Config { program, store }.term().encode();
        for room in record.len() - 1..record.len() + 230 {
            for budget in (0..steps + 3).chain([u32::MAX]) {
                let mut buffer = lend(&record, record.len().max(room));
                buffer.truncate(room);
                let reduced = run_reducer(&mut buffer, record.len(), budget);
                seen.one(reduced.ran.outcome as usize);
                replaced.one(sort(&reduced));
            }
        }
    }
    seen.assert_at_least([100, 4_000, 2_000, 4_000, 4_000]);
    replaced.assert_at_least([100, 4_000, 4_000]);
}

/// 0: refused, so with a count of 0. 1: accepted, and nothing was replaced. 2: something was.
fn sort(reduced: &Reduced) -> usize {
    usize::from(reduced.ran.number == 0) + usize::from(reduced.replaced > 0)
}

/// A translation with its store, or a closed term that is none.
fn closed_term(random: &mut Random) -> TermRecord {
    if random.one_in(2) {
        return closed(random);
    }
    let program = translatable_program(random);
    let store = store(random, program.header);
    Config { program, store }.term()
}

/// Terms, closed and open, buffers, used lengths and budgets of every sort.
#[test]
fn generated_runs() {
    let (rows, outcomes) = (Rows::default(), Counts::<5>::default());
    let replaced = Counts::<3>::default();
    cases(60_000, |random| {
        let term = if random.one_in(6) {
            sound_term(random)
        } else {
            closed_term(random)
        };
        let Lending { mut buffer, used } = perhaps_damaged(random, &term.encode());
        let ends = match lent_within::<TermRecord>(&buffer, used) {
            Ok(term) if is_closed(&term.term) => ends_within(&term, buffer.len(), 2_000),
            // Refused, so any budget ends.
            _ => true,
        };
        let budget = lent_budget(random, ends);
        let reduced = run_reducer(&mut buffer, used, budget);
        rows.one(reduced.ran.number);
        outcomes.one(reduced.ran.outcome as usize);
        replaced.one(sort(&reduced));
    });
    rows.assert_at_least(&[
        (0, 10_000),
        (1, 1_000),
        (2, 1_000),
        (3, 100),
        (4, 500),
        (5, 50),
        (15, 50),
    ]);
    rows.assert_at_least(&[(7, 2_000)]);
    outcomes.assert_at_least([5_000, 5_000, 1_000, 5_000, 5_000]);
    replaced.assert_at_least([5_000, 5_000, 5_000]);
}

/// Lists of runs, each on what the last one left, refused ones among them. The room for most is
/// tight, so that the steps made before it gives out are looked at as well.
#[test]
fn lists_of_runs() {
    let (seen, replaced) = (Counts::<5>::default(), Counts::<3>::default());
    cases(12_000, |random| {
        let term = closed_term(random);
        let room = room(random, term.state_len());
        let ends = ends_within(&term, room, 2_000);
        play(random, &term.encode(), room, ends, |reduced| {
            seen.one(reduced.ran.outcome as usize);
            replaced.one(sort(reduced));
        });
    });
    seen.assert_at_least([5_000, 5_000, 500, 5_000, 3_000]);
    replaced.assert_at_least([5_000, 5_000, 3_000]);
}

fn play(random: &mut Random, record: &[u8], room: usize, ends: bool, see: impl Fn(&Reduced)) {
    let (mut buffer, mut used) = (lend(record, room), record.len());
    for _ in 0..random.below(10) {
        let budget = lent_budget(random, ends);
        let other = any_used(random);
        let given = if random.one_in(8) { other } else { used };
        let reduced = run_reducer(&mut buffer, given, budget);
        if reduced.ran.number == 0 {
            used = reduced.ran.used as usize;
        }
        see(&reduced);
    }
}

/// Each byte of four terms at each of its 256 values; the open ones with a store first.
#[test]
fn every_byte_at_every_value() {
    let (seen, replaced) = (Rows::default(), Counts::<3>::default());
    for bytes in sample_terms() {
        let mut term = TermRecord::decode(&bytes).expect("a term");
        let values = [3, 2, 1, u32::MAX];
        substitute(
            &mut term.term,
            &values_of(&values[..term.header.k as usize]),
        );
        let bytes = term.encode();
        for place in 0..bytes.len() {
            for value in 0..=255 {
                let mut buffer = lend(&bytes, 400);
                buffer[place] = value;
                let reduced = run_reducer(&mut buffer, bytes.len(), 25);
                seen.one(reduced.ran.number);
                replaced.one(sort(&reduced));
            }
        }
    }
    seen.assert_at_least(&[
        (0, 5_000),
        (2, 1_000),
        (3, 500),
        (4, 10_000),
        (5, 5_000),
        (15, 200),
    ]);
    seen.assert_at_least(&[(7, 10)]);
    replaced.assert_at_least([10_000, 100, 5_000]);
}

/// The run of library_stepper.rs, with its numbers. What is replaced, by hand: a loop of 9 is let-all
/// of a rec in (x1). A turn's let-all replaces nothing, because the turn's let-one binds x1 again;
/// that let-one replaces one x1 of the body, the tuple's or that of the inner rec's start; and when
/// all turns are made the let-all replaces the x1 of its tuple. So a loop replaces 9 for its turns, 9
/// times what its body does, and 1: from the innermost outwards 10, 100, 910 and 8,200.
#[test]
fn a_long_run_in_pieces() {
    let (program, store) = (nest_of_loops(1, 9, 4), vec![5]);
    let record = Config { program, store }.term().encode();
    cases(4, |random| {
        let (mut buffer, mut used, mut total) = (lend(&record, 6_000), record.len(), 0);
        let mut replaced = 0;
        while total < 23_780 {
            let budget = *random.pick(&[7, 100, 3_000, 23_780]);
            let reduced = run_reducer(&mut buffer, used, budget);
            let ran = reduced.ran;
            (used, total) = (ran.used as usize, total + ran.steps);
            replaced += reduced.replaced;
        }
        let Reduced {
            ran,
            replaced: none,
        } = run_reducer(&mut buffer, used, 1);
        assert_eq!((ran.outcome, ran.steps, total), (1, 0, 23_780));
        assert_eq!((replaced, none), (8_200, 0));
        // The tuple's one numeral: the last turn's index.
        assert_eq!(buffer[16..20], [9, 0, 0, 0]);
    });
}

/// The longest closed terms: a step of the deepest one changes the length of every let-all around.
#[test]
fn the_longest_terms() {
    with_big_stack(|| {
        for (_, mut term) in EDITIONS.into_iter().flat_map(terms) {
            substitute(
                &mut term.term,
                &values_of(&[2; 16][..term.header.k as usize]),
            );
            let record = term.encode();
            for (room, budget) in [(16_384, 0), (16_384, 3), (16_384, 5_000), (16_385, 1)] {
                let mut buffer = lend(&record, room);
                run_reducer(&mut buffer, record.len(), budget);
            }
        }
    });
}
