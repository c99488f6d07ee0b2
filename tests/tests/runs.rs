//! Runs: outcomes read from the state left, room, budgets, refusals, and the other two calls.

use other::both::{result, run_reducer, run_stepper, substitute, weigh};
use other::calls::{Ran, Reduced};
use other::check::Refusal;
use other::codec::{hex, Record};
use other::examples::{add, examples};
use other::generate::lend;
use other::generate::programs::{program, store, wrong_store};
use other::generate::terms::{any_term, closed_term, translation, SHORTEST};
use other::random::{cases, Counts, Random};
use other::run::reducer::finished_values;
use other::run::stepper::Config;
use other::run::{next_state, run, Answer, Machine, Outcome};
use other::substitute::closed;
use other::translate::translate;
use other::tree::{Atom, Bound, Command, Program, Simple, Term, TermRecord};

fn end(outcome: Outcome, steps: u32, left: u32, used: u32) -> Ran {
    Ran {
        number: 0,
        outcome: outcome.number(),
        steps,
        left,
        used,
    }
}

/// The end of a run of the reducer: the same, and how many variables it replaced.
fn reduced(ran: Ran, replaced: u64) -> Reduced {
    Reduced { ran, replaced }
}

fn step(program: &Program, store: &[u32], room: usize, budget: u32) -> Ran {
    let record = program.encode();
    let mut store = store.to_vec();
    run_stepper(&mut lend(&record, room), record.len(), &mut store, budget)
}

fn reduce(program: &Program, store: &[u32], room: usize, budget: u32) -> Reduced {
    let (program, store) = (program.clone(), store.to_vec());
    let record = Config { program, store }.term().encode();
    run_reducer(&mut lend(&record, room), record.len(), budget)
}

/// Finished is looked at first, whatever the budget; the bytes behind are cleared all the same.
#[test]
fn no_budget_on_a_finished_state_is_finished() {
    let record = Program::new(1, vec![]).encode();
    let mut buffer = lend(&record, 20);
    let ran = run_stepper(&mut buffer, 12, &mut [7], 0);
    assert_eq!(ran, end(Outcome::Finished, 0, 0, 12));
    assert_eq!(buffer[..12], record);
    assert_eq!(buffer[12..], [0; 8]);
    let ran = run_stepper(&mut buffer, 12, &mut [7], u32::MAX);
    assert_eq!(ran, end(Outcome::Finished, 0, u32::MAX, 12));

    let term = Term::Tuple(vec![Atom::Numeral(7)]);
    let record = TermRecord::new(1, term).encode();
    let mut buffer = lend(&record, 23);
    let ran = run_reducer(&mut buffer, 20, 0);
    assert_eq!(ran, reduced(end(Outcome::Finished, 0, 0, 20), 0));
    assert_eq!(buffer[..20], record);
    assert_eq!(buffer[20..], [0; 3]);
}

/// Steps left to make and no budget for them is spent, only where nothing else stands before it. The
/// reducer's first reduction, x3 = 7, replaces the x3 of the rec's start; unrolling replaces nothing.
#[test]
fn a_budget_that_ends_before_no_room_is_no_room() {
    let p1 = [7, 3, 0, 0];
    // The stepper's fourth step gives 156 bytes, the reducer's 384 (01, "Bench loads").
    assert_eq!(step(&add(), &p1, 155, 3), end(Outcome::NoRoom, 3, 0, 120));
    assert_eq!(step(&add(), &p1, 155, 2), end(Outcome::Spent, 2, 0, 84));
    assert_eq!(step(&add(), &p1, 156, 3), end(Outcome::Spent, 3, 0, 120));
    let no_room = reduced(end(Outcome::NoRoom, 3, 0, 308), 1);
    let spent = |steps, used| reduced(end(Outcome::Spent, steps, 0, used), 1);
    assert_eq!(reduce(&add(), &p1, 383, 3), no_room);
    assert_eq!(reduce(&add(), &p1, 383, 2), spent(2, 232));
    assert_eq!(reduce(&add(), &p1, 384, 3), spent(3, 308));
}

/// P3 stands before 4,294,967,296 after 5 steps. By then its reductions have replaced 1 (x3 = x1), 0
/// and 0 (rec of 1 and of 0), 3 (let-all: succ's x3, and x1 and x2 of the tuple) and 1 (x4 = 1).
#[test]
fn a_budget_that_ends_before_over_is_over() {
    let p3 = [u32::MAX, 1, 0, 0];
    let outcome = |ran: Ran| (ran.outcome, ran.steps, ran.left);
    let (over, spent) = (Outcome::Over.number(), Outcome::Spent.number());
    for (budget, wanted, replaced) in [
        (4, (spent, 4, 0), 4),
        (5, (over, 5, 0), 5),
        (6, (over, 5, 1), 5),
    ] {
        assert_eq!(outcome(step(&add(), &p3, 400, budget)), wanted);
        let ended = reduce(&add(), &p3, 400, budget);
        assert_eq!((outcome(ended.ran), ended.replaced), (wanted, replaced));
    }
}

/// Over and no room are looked at before spent, so also at budget 0; over in a buffer without a
/// byte to spare.
#[test]
fn the_order_of_the_outcomes() {
    let plus_one = &examples()[5];
    assert_eq!(plus_one.name, "P5, too large");
    let ran = step(&plus_one.program, &[u32::MAX], 28, 0);
    assert_eq!(ran, end(Outcome::Over, 0, 0, 28));
    let block = vec![Command::Loop(1, Bound::Literal(1), vec![])];
    let program = Program::new(1, block);
    // 32 bytes; unrolled a block's head of 4 and an assignment of 16 more.
    assert_eq!(step(&program, &[9], 51, 0), end(Outcome::NoRoom, 0, 0, 32));
    assert_eq!(step(&program, &[9], 52, 0), end(Outcome::Spent, 0, 0, 32));
    assert_eq!(step(&program, &[9], 52, 1), end(Outcome::Spent, 1, 0, 52));
}

/// What 01 says of a run, one state after the other and each measured whole: i steps are made as
/// long as i is below the budget and state i is not finished, not over and its next one fits.
fn step_by_step<M: Machine>(start: &M, room: usize, budget: u32) -> (M, Outcome, u32) {
    let mut state = start.clone();
    for steps in 0..=budget {
        let outcome = match next_state(&state) {
            Answer::Finished => Outcome::Finished,
            Answer::Over => Outcome::Over,
            Answer::Next(next) if next.state_len() > room => Outcome::NoRoom,
            Answer::Next(_) if steps == budget => Outcome::Spent,
            Answer::Next(next) => {
                state = next;
                continue;
            }
        };
        return (state, outcome, steps);
    }
    unreachable!("a run ends at its budget")
}

fn agrees<M: Machine + PartialEq + std::fmt::Debug>(
    start: &M,
    random: &mut Random,
    seen: &Counts<5>,
) {
    let extra = *random.pick(&[1, 50, 300, 2_000]);
    let room = start.state_len() + random.below(extra);
    let budget = *random.pick(&[0, 1, 2, 5, 30, 200]);
    let (state, outcome, steps) = step_by_step(start, room, budget);
    let mut machine = start.clone();
    assert_eq!(run(&mut machine, room, budget), (outcome, steps));
    assert_eq!(machine, state);
    seen.one(outcome.number() as usize);
}

#[test]
fn runs_go_by_01() {
    let seen = Counts::default();
    cases(6_000, |random| {
        let limit = 12 + random.below(300);
        let program = program(random, limit);
        let store = store(random, program.header);
        agrees(&Config { program, store }, random, &seen);
        agrees(&closed_term(random, SHORTEST + 200), random, &seen);
    });
    seen.assert_at_least([0, 100, 100, 100, 100]);
}

/// Over bytes: what a run returns and leaves, in every byte and value, from the run on trees.
#[test]
fn runs_over_bytes_leave_what_they_should() {
    cases(6_000, |random| {
        let (program, _) = translation(random, SHORTEST + 200);
        let store = store(random, program.header);
        let config = Config { program, store };
        let budget = *random.pick(&[0, 1, 3, 40]);
        let record = config.program.encode();
        let room = record.len() + random.below(200);
        let (state, outcome, steps) = step_by_step(&config, room, budget);
        let mut buffer = lend(&record, room);
        let mut values = config.store.clone();
        let ran = run_stepper(&mut buffer, record.len(), &mut values, budget);
        let left = state.program.encode();
        let wanted = end(outcome, steps, budget - steps, left.len() as u32);
        assert_eq!((ran, &values), (wanted, &state.store), "{}", hex(&record));
        assert_eq!(buffer, padded(&left, room));

        let term = if random.one_in(2) {
            config.term()
        } else {
            closed_term(random, SHORTEST + 200)
        };
        let record = term.encode();
        let room = record.len() + random.below(300);
        let (state, outcome, steps) = step_by_step(&term, room, budget);
        let mut buffer = lend(&record, room);
        let ran = run_reducer(&mut buffer, record.len(), budget).ran;
        let left = state.encode();
        let wanted = end(outcome, steps, budget - steps, left.len() as u32);
        assert_eq!(ran, wanted, "{}", hex(&record));
        assert_eq!(buffer, padded(&left, room));
        assert!(closed(&state.term));
    });
}

fn padded(record: &[u8], len: usize) -> Vec<u8> {
    let mut bytes = record.to_vec();
    bytes.resize(len, 0);
    bytes
}

/// The stepper: row 6 after 5; a refusal hands back no budget and changes nothing.
#[test]
fn the_stepper_wants_k_values() {
    cases(1_000, |random| {
        let program = program(random, 200);
        let record = program.encode();
        let mut values = wrong_store(random, program.header.k);
        let (before, mut buffer) = (values.clone(), lend(&record, 210));
        let ran = run_stepper(&mut buffer, record.len(), &mut values, 9);
        assert_eq!(ran, Ran::refused(Refusal::BadStore));
        assert_eq!((&buffer, &values), (&lend(&record, 210), &before));
        let ran = run_stepper(&mut buffer, record.len() - 1, &mut values, 9);
        assert_eq!(ran, Ran::refused(Refusal::BadHeader));
    });
}

/// The reducer: row 7 for a free variable, also where a tuple is finished but for it.
#[test]
fn the_reducer_wants_a_closed_term() {
    let open = [
        translate(&add()),
        TermRecord::new(1, Term::Tuple(vec![Atom::Variable(1)])),
    ];
    for record in open {
        let bytes = record.encode();
        let mut buffer = lend(&bytes, 400);
        let ran = run_reducer(&mut buffer, bytes.len(), 9);
        assert_eq!(ran, Reduced::refused(Refusal::FreeVariable));
        assert_eq!(buffer, lend(&bytes, 400));
    }
    cases(2_000, |random| {
        let record = any_term(random, SHORTEST + 200);
        let bytes = record.encode();
        let mut buffer = bytes.clone();
        let number = run_reducer(&mut buffer, bytes.len(), 0).ran.number;
        let open = Refusal::FreeVariable.number();
        assert_eq!(number, if closed(&record.term) { 0 } else { open });
        let values = store(random, record.header);
        substitute(&mut buffer, bytes.len(), &values);
        assert_eq!(run_reducer(&mut buffer, bytes.len(), 5).ran.number, 0);
    });
}

/// Closed terms that are no translation, by hand, at k = 1.
///
/// rec of 2 on top, start 7, body let x1 = succ x1: three levels as in a loop, without the let-all
/// around it. Reductions: rec of 2, of 1, of 0 (3); then for turn 1: let-all of (7) (4), let-one
/// x1 = 1 (5), succ 1 becomes 2 (6), let-one (7), which leaves the tuple (2); turn 2 the same with
/// 2, 3: 4 more, so 11, and the result is 3.
#[test]
fn a_rec_on_top_by_hand() {
    let numeral = |value| Term::Tuple(vec![Atom::Numeral(value)]);
    let end_of_body = Term::Tuple(vec![Atom::Variable(1)]);
    let body = Term::LetOne(1, Simple::Succ(Atom::Variable(1)), Box::new(end_of_body));
    let rec = Term::Rec(1, Atom::Numeral(2), vec![Atom::Numeral(7)], Box::new(body));
    let mut record = TermRecord::new(1, rec);
    assert_eq!(run(&mut record, 9_999, 99), (Outcome::Finished, 11));
    assert_eq!(record.term, numeral(3));
}

/// succ of a numeral: 4,294,967,294 becomes 4,294,967,295, and that goes over; pred of 0 is 0.
#[test]
fn succ_and_pred_of_numerals() {
    let simples = [
        (Simple::Succ(Atom::Numeral(u32::MAX - 1)), Some(u32::MAX)),
        (Simple::Succ(Atom::Numeral(u32::MAX)), None),
        (Simple::Pred(Atom::Numeral(0)), Some(0)),
        (Simple::Pred(Atom::Numeral(1)), Some(0)),
        (Simple::Pred(Atom::Numeral(u32::MAX)), Some(u32::MAX - 1)),
    ];
    for (simple, value) in simples {
        let last = Box::new(Term::Tuple(vec![Atom::Variable(1)]));
        let term = Term::LetOne(1, simple, last);
        let mut record = TermRecord::new(1, term);
        let wanted = match value {
            Some(_) => (Outcome::Finished, 2),
            None => (Outcome::Over, 0),
        };
        assert_eq!(run(&mut record, 99, 9), wanted);
        let shown = finished_values(&record.term);
        assert_eq!(shown, value.map(|value| vec![value]));
    }
}

/// The rows of result in order: 6 before 7 before 8; accepted, it writes the store alone.
#[test]
fn result_and_its_rows() {
    let tuple = |atoms: [Atom; 2]| Term::Tuple(atoms.to_vec());
    let done = tuple([Atom::Numeral(8), Atom::Numeral(u32::MAX)]);
    let open = tuple([Atom::Numeral(8), Atom::Variable(2)]);
    let let_one = |simple, last: &Term| Term::LetOne(1, simple, Box::new(last.clone()));
    let unfinished = let_one(Simple::Atom(Atom::Numeral(1)), &done);
    let open_too = let_one(Simple::Succ(Atom::Variable(2)), &done);
    let terms = [
        (&done, 0),
        (&open, Refusal::FreeVariable.number()),
        (&unfinished, Refusal::Unfinished.number()),
        (&open_too, Refusal::FreeVariable.number()),
    ];
    for (term, number) in terms {
        let term = term.clone();
        let record = TermRecord::new(2, term).encode();
        let mut store = [5, 6];
        assert_eq!(result(&record, record.len(), &mut store), number);
        let wanted = if number == 0 { [8, u32::MAX] } else { [5, 6] };
        assert_eq!(store, wanted);
        for len in [0, 1, 3, 16, 17] {
            let mut store = vec![5; len];
            let refused = result(&record, record.len(), &mut store);
            assert_eq!(refused, Refusal::BadStore.number());
            assert!(store.iter().all(|value| *value == 5));
            let refused = result(&record, record.len() - 1, &mut store);
            assert_eq!(refused, Refusal::BadHeader.number());
        }
    }
}

/// What an accepted weighing leaves in stores of 1, 2, 3 and 16 values: the count in variable 1, 1 or
/// 0 in variable 2, where there is one, and 0 in every other.
fn weighs(rule: u32, gross: u32, tare: u32, count: u32, larger: u32) {
    for len in [1, 2, 3, 16] {
        let mut wanted = vec![count, larger];
        wanted.resize(len, 0);
        let mut store = vec![77; len];
        assert_eq!(weigh(rule, gross, tare, &mut store), 0);
        assert_eq!(store, wanted, "{gross} and {tare} by rule {rule}");
    }
}

/// Rule 1: the difference / 20 rounded down (01, "Result and weighing"); whichever is larger, and 1 in
/// variable 2 when tare is (02, C-15).
#[test]
fn weighing_rounded_down() {
    let weights = [
        (0, 0, 0, 0),
        (19, 0, 0, 0),
        (20, 0, 1, 0),
        (39, 0, 1, 0),
        (40, 0, 2, 0),
        (0, 1, 0, 1),
        (0, 19, 0, 1),
        (0, 20, 1, 1),
        (0, 39, 1, 1),
        (0, 40, 2, 1),
        (1_519, 1_500, 0, 0),
        (1_520, 1_500, 1, 0),
        (1_530, 1_500, 1, 0),
        (1_501, 1_500, 0, 0),
        (1_500, 1_500, 0, 0),
        (1_500, 1_501, 0, 1),
        (1_500, 1_519, 0, 1),
        (1_500, 1_520, 1, 1),
        (1_500, 1_530, 1, 1),
        (0, u32::MAX, 214_748_364, 1),
        (u32::MAX, 0, 214_748_364, 0),
        (u32::MAX, u32::MAX, 0, 0),
        (u32::MAX, u32::MAX - 20, 1, 0),
        (u32::MAX - 19, u32::MAX, 0, 1),
        (u32::MAX - 20, u32::MAX, 1, 1),
    ];
    for (gross, tare, count, larger) in weights {
        weighs(1, gross, tare, count, larger);
    }
}

/// Rule 2 (02, C-11): to the nearest 20 kg, and 10 kg over goes up; of the same difference (02, C-15).
/// 4,294,967,295 is 214,748,364 · 20 + 15; less 5 it is 10 over and less 6 it is 9 over.
#[test]
fn weighing_to_the_nearest() {
    let weights = [
        (0, 0, 0, 0),
        (9, 0, 0, 0),
        (10, 0, 1, 0),
        (20, 0, 1, 0),
        (29, 0, 1, 0),
        (30, 0, 2, 0),
        (0, 9, 0, 1),
        (0, 10, 1, 1),
        (0, 20, 1, 1),
        (0, 29, 1, 1),
        (0, 30, 2, 1),
        (1_509, 1_500, 0, 0),
        (1_510, 1_500, 1, 0),
        (1_530, 1_500, 2, 0),
        (1_501, 1_500, 0, 0),
        (1_500, 1_500, 0, 0),
        (1_500, 1_501, 0, 1),
        (1_500, 1_509, 0, 1),
        (1_500, 1_510, 1, 1),
        (1_500, 1_530, 2, 1),
        (0, u32::MAX, 214_748_365, 1),
        (0, u32::MAX - 6, 214_748_364, 1),
        (u32::MAX, 0, 214_748_365, 0),
        (u32::MAX - 5, 0, 214_748_365, 0),
        (u32::MAX - 6, 0, 214_748_364, 0),
        (u32::MAX, 6, 214_748_364, 0),
        (u32::MAX, u32::MAX - 10, 1, 0),
        (u32::MAX, u32::MAX - 9, 0, 0),
        (u32::MAX, u32::MAX, 0, 0),
        (u32::MAX - 9, u32::MAX, 0, 1),
        (u32::MAX - 10, u32::MAX, 1, 1),
    ];
    for (gross, tare, count, larger) in weights {
        weighs(2, gross, tare, count, larger);
    }
}

/// Row 6, then row 11: not 1 to 16 values is 6 whatever the rule, and else a rule other than 1 or 2
/// is 11. A refusal leaves the store as it came.
#[test]
fn weighing_and_its_rows() {
    for len in [0, 1, 2, 15, 16, 17, 18, 300] {
        for rule in [0, 1, 2, 3, 11, 1 << 8 | 1, 1 << 31 | 2, u32::MAX] {
            let wanted = match (len, rule) {
                (1..=16, 1 | 2) => 0,
                (1..=16, _) => 11,
                _ => 6,
            };
            for (gross, tare) in [(1_540, 1_500), (1_500, 1_500), (1_500, 1_540)] {
                let mut store = vec![77; len];
                assert_eq!(weigh(rule, gross, tare, &mut store), wanted);
                if wanted != 0 {
                    assert_eq!(store, vec![77; len], "rule {rule}");
                }
            }
        }
    }
}
