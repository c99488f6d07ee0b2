//! 01's "Mistakes that pass a quick trial", and those that 02's count of replaced variables (C-13), its
//! loops carried as counts (C-14), its batches (C-16), its ceilings (C-17), its moved records (C-18) and its
//! forecasts (C-19) leave room for, each with the value that the rules give.

use other::both::{
    check_program, check_term, expand, forecast_run, program_to_edition_1, program_to_edition_2,
    read_back as read_back_over_bytes, result, run_batch, run_counting, run_reducer, run_stepper,
    substitute as substitute_over_bytes, term_to_edition_1, term_to_edition_2,
    translate as translate_over_bytes,
};
use other::calls::{Forecast, Written};
use other::codec::Record;
use other::examples::{add, nest_of_blocks, nest_of_loops, plus_one, program};
use other::generate::batches::{job, Batch, Job};
use other::generate::lend;
use other::generate::states::{
    at_zero, block as open_block, body, index, unrolling, waiting, words,
};
use other::run::counting::words::{Words, STATE_WORDS};
use other::run::stepper::Config;
use other::run::{run, Outcome};
use other::substitute::{substitute, values_of};
use other::translate::translate;
use other::tree::{Atom, Block, Bound, Command, Expr, Program, Simple, Term, TermRecord};

const ROOM: usize = 16_384;

fn assign(variable: u32, expr: Expr) -> Command {
    Command::Assign(variable, expr)
}

/// Runs a program in both engines; they must agree. Gives outcome, steps and the values shown.
fn both(block: Block, store: &[u32], budget: u32) -> (Outcome, u32, Config) {
    let program = program(store.len() as u32, block);
    let store = store.to_vec();
    let start = Config { program, store };
    let (mut config, mut term) = (start.clone(), start.term());
    let ended = run(&mut config, ROOM, budget);
    assert_eq!(run(&mut term, ROOM, budget), ended);
    assert_eq!(term, config.term());
    over_bytes(&start, budget, ended, &config);
    (ended.0, ended.1, config)
}

/// The same over bytes, by the two calls.
fn over_bytes(start: &Config, budget: u32, ended: (Outcome, u32), end: &Config) {
    let wanted = (0, ended.0.number(), ended.1);
    let record = start.program.encode();
    let (mut buffer, mut store) = (lend(&record, ROOM), start.store.clone());
    let ran = run_stepper(&mut buffer, record.len(), &mut store, budget);
    assert_eq!((ran.number, ran.outcome, ran.steps), wanted);
    assert_eq!(buffer[..ran.used as usize], end.program.encode());
    assert_eq!(store, end.store);
    let record = start.term().encode();
    let mut buffer = lend(&record, ROOM);
    let ran = run_reducer(&mut buffer, record.len(), budget).ran;
    assert_eq!((ran.number, ran.outcome, ran.steps), wanted);
    assert_eq!(buffer[..ran.used as usize], end.term().encode());
}

fn finished(block: Block, store: &[u32]) -> (u32, Vec<u32>) {
    let (outcome, steps, config) = both(block, store, 100_000);
    assert_eq!(outcome, Outcome::Finished);
    (steps, config.store)
}

/// Body given q in place of q + 1. {for x1 := 1 to 3 {x2 := x1}} on 0,0: the loop unrolls in steps
/// 1 to 3, the loop of 0 becomes an empty block (4) that goes (5). Turn 1: x1 := 1 (6), x2 := x1
/// (7), the block goes (8); turns 2 and 3 the same: 14 steps, 3,3. With q it would be 2,2. After 7
/// steps the first turn has stored 1,1; with q, 0,0.
#[test]
fn the_body_is_given_q_plus_one() {
    let block = || {
        let body = vec![assign(2, Expr::Variable(1))];
        vec![Command::Loop(1, Bound::Literal(3), body)]
    };
    assert_eq!(finished(block(), &[0, 0]), (14, vec![3, 3]));
    let (outcome, steps, config) = both(block(), &[0, 0], 7);
    assert_eq!((outcome, steps), (Outcome::Spent, 7));
    assert_eq!(config.store, [1, 1]);
}

/// The same by a sum: {for x1 := 1 to 4 {for x2 := 1 to x1 {x3 := x3 + 1}}} adds 1 + 2 + 3 + 4,
/// which is 10; with q it would add 0 + 1 + 2 + 3. An inner loop of n turns takes 5·n + 2 steps
/// (unroll, index, two for plus one, block goes; and two at 0), so an outer turn n takes
/// 3 + 5·n + 2, and all take 4·5 + 5·10 + 2 = 72.
#[test]
fn turns_count_from_one() {
    let inner = vec![assign(3, Expr::PlusOne(3))];
    let outer = vec![Command::Loop(2, Bound::Variable(1), inner)];
    let block = vec![Command::Loop(1, Bound::Literal(4), outer)];
    assert_eq!(finished(block, &[0, 0, 0]), (72, vec![4, 4, 10]));
}

/// Bound read again each turn (P8): {for x2 := 1 to x1 {x1 := x1 + 1}} on 2,0. The bound is 2 when
/// the loop is met and stays so: the loop left by step 1 has literal 1. Two turns of 5 and two
/// steps at 0: 12 steps, 4,2. Read again, it would go on until x1 is over.
#[test]
fn the_bound_is_read_once() {
    let body = || vec![assign(1, Expr::PlusOne(1))];
    let block = || vec![Command::Loop(2, Bound::Variable(1), body())];
    assert_eq!(finished(block(), &[2, 0]), (12, vec![4, 2]));
    let (_, _, config) = both(block(), &[2, 0], 1);
    let unrolled = vec![
        Command::Loop(2, Bound::Literal(1), body()),
        assign(2, Expr::Literal(2)),
        assign(1, Expr::PlusOne(1)),
    ];
    assert_eq!(config.program.block, vec![Command::Block(unrolled)]);
}

/// A bound that its own body sets to 0 still has its turns: {for x2 := 1 to x1 {x1 := 0; x3 := x3 +
/// 1}} on 3,0,0. A turn takes unroll, index, 1, 2 and the block's going, 6; 3·6 + 2 = 20.
#[test]
fn a_bound_set_to_zero_inside_keeps_its_turns() {
    let body = vec![assign(1, Expr::Literal(0)), assign(3, Expr::PlusOne(3))];
    let block = vec![Command::Loop(2, Bound::Variable(1), body)];
    assert_eq!(finished(block, &[3, 0, 0]), (20, vec![0, 3, 3]));
}

/// Index changes inside a body steering the next turn (P7): {for x1 := 1 to 3 {x1 := 0}} on 9 has
/// three turns of 4 steps and two at 0: 14, and x1 is 0.
#[test]
fn the_index_does_not_steer() {
    let body = vec![assign(1, Expr::Literal(0))];
    let block = vec![Command::Loop(1, Bound::Literal(3), body)];
    assert_eq!(finished(block, &[9]), (14, vec![0]));
}

/// The index may also be raised or be the bound itself: {for x1 := 1 to x1 {x1 := x1 + 1;
/// x2 := x2 + 1}} on 3,0 has three turns of 3 + 2 + 2 and two steps at 0: 23. The last turn sets x1
/// to 3, then to 4.
#[test]
fn the_index_as_its_own_bound() {
    let body = vec![assign(1, Expr::PlusOne(1)), assign(2, Expr::PlusOne(2))];
    let block = vec![Command::Loop(1, Bound::Variable(1), body)];
    assert_eq!(finished(block, &[3, 0]), (23, vec![4, 3]));
}

/// A loop of no turns leaves its index untouched (P6), as a literal and as a variable.
#[test]
fn no_turns_leave_the_index() {
    let block = |bound| vec![Command::Loop(1, bound, vec![assign(2, Expr::Literal(5))])];
    assert_eq!(finished(block(Bound::Literal(0)), &[9, 0]), (2, vec![9, 0]));
    let none = block(Bound::Variable(2));
    assert_eq!(finished(none, &[9, 0]), (2, vec![9, 0]));
}

/// Plus one counted as one step: {x1 := x1 + 1} on 5 is first {x1 := 6} with the store unchanged,
/// and only the second step stores. Minus one likewise, and 0 minus one is 0.
#[test]
fn plus_one_takes_two_steps() {
    for (expr, from, to) in [
        (Expr::PlusOne(1), 5, 6),
        (Expr::MinusOne(1), 5, 4),
        (Expr::MinusOne(1), 0, 0),
    ] {
        let block = vec![assign(1, expr)];
        let (outcome, steps, config) = both(block.clone(), &[from], 1);
        assert_eq!((outcome, steps), (Outcome::Spent, 1));
        assert_eq!(config.store, [from]);
        assert_eq!(config.program.block, vec![assign(1, Expr::Literal(to))]);
        // No length changes in the configuration; the term loses the 4 bytes of succ's head.
        assert_eq!(config.program.encoded_len(), 28);
        assert_eq!(config.term().encoded_len(), 36);
        assert_eq!(finished(block, &[from]), (2, vec![to]));
    }
}

/// Substitution under a let-one that rebinds the variable: {x1 := 3; x1 := x1 + 1} on 9 gives 4, in
/// one step and two. Substituted under the first let-one, its x1 + 1 would be succ 9, and give 10.
#[test]
fn a_let_one_rebinds() {
    let block = vec![assign(1, Expr::Literal(3)), assign(1, Expr::PlusOne(1))];
    assert_eq!(finished(block, &[9]), (3, vec![4]));

    let all = Box::new(Term::Tuple(vec![Atom::Variable(1), Atom::Variable(2)]));
    let mut term = Term::LetOne(1, Simple::Atom(Atom::Variable(1)), all);
    substitute(&mut term, &values_of(&[5, 6]));
    let last = Box::new(Term::Tuple(vec![Atom::Variable(1), Atom::Numeral(6)]));
    let wanted = Term::LetOne(1, Simple::Atom(Atom::Numeral(5)), last);
    assert_eq!(term, wanted);
}

/// Substitution into let-all's last term or rec's body: {for x1 := 1 to 2 {}; x2 := x1} on 9,0. The
/// loop leaves x1 = 2, so x2 is 2 (3·2 + 2 steps and one more); substituted from the start it would
/// be 9. And {for x1 := 1 to 2 {x2 := x2 + 1}} on 0,5 gives 7, not 6.
#[test]
fn a_let_all_and_a_rec_bind_everything() {
    let empty = Command::Loop(1, Bound::Literal(2), vec![]);
    let block = vec![empty, assign(2, Expr::Variable(1))];
    assert_eq!(finished(block, &[9, 0]), (9, vec![2, 2]));
    let body = vec![assign(2, Expr::PlusOne(2))];
    let block = vec![Command::Loop(1, Bound::Literal(2), body)];
    assert_eq!(finished(block, &[0, 5]), (12, vec![2, 7]));
}

/// Only the outermost block tells that the end is reached: {{}; x1 := 1} is not finished, and a
/// block that becomes empty inside goes in a step of its own: {{x1 := 1}} takes two.
#[test]
fn an_empty_block_inside_is_not_the_end() {
    let block = vec![Command::Block(vec![]), assign(1, Expr::Literal(1))];
    assert_eq!(finished(block, &[0]), (2, vec![1]));
    let block = vec![Command::Block(vec![assign(1, Expr::Literal(1))])];
    assert_eq!(finished(block, &[0]), (2, vec![1]));
    assert_eq!(finished(vec![], &[4]), (0, vec![4]));
}

/// How many variables become numerals: where the store is substituted in the program's term, and then
/// in runs of the reducer with these budgets, one after the other.
fn replaced(block: Block, store: &[u32], budgets: &[u32]) -> (u32, Vec<u64>) {
    let term = translate(&program(store.len() as u32, block)).encode();
    let mut buffer = lend(&term, ROOM);
    let start = substitute_over_bytes(&mut buffer, term.len(), store);
    assert_eq!(start.number, 0);
    let mut used = term.len();
    let run = |budget: &u32| {
        let reduced = run_reducer(&mut buffer, used, *budget);
        assert_eq!((reduced.ran.number, reduced.ran.steps), (0, *budget));
        used = reduced.ran.used as usize;
        reduced.replaced
    };
    (start.replaced, budgets.iter().map(run).collect())
}

/// A variable counted where a let-one binds it again: the term of {x1 := 3; x1 := x1 + 1} is x1 = 3 in
/// x1 = succ x1 in (x1). Nothing is free in it, so the start replaces 0. The first let-one replaces
/// succ's x1, but not the tuple's; succ replaces nothing; the second let-one the tuple's.
#[test]
fn a_variable_bound_again_is_not_counted() {
    let block = vec![assign(1, Expr::Literal(3)), assign(1, Expr::PlusOne(1))];
    assert_eq!(replaced(block, &[9], &[1, 1, 1]), (0, vec![1, 0, 1]));
}

/// A rec's reductions counting its start tuple or count, or the start counting a rec's body or a
/// let-all's last term: {for x1 := 1 to x1 {}; x2 := x1} on 0,5 has let-all rec(x1, x1, (x1, x2), (x1, x2))
/// in x2 = x1 in (x1, x2). The start replaces the count and the start tuple: 3. The rec of 0 replaces
/// nothing; the let-all the x1 that x2 gets and that of the tuple, 2; the let-one the tuple's x2.
#[test]
fn a_rec_counts_at_the_start_alone() {
    let block = vec![
        Command::Loop(1, Bound::Variable(1), vec![]),
        assign(2, Expr::Variable(1)),
    ];
    assert_eq!(replaced(block, &[0, 5], &[1, 1, 1]), (3, vec![0, 2, 1]));
}

/// The count of the last reduction, or of all runs so far, or with the start's own: the term of
/// {for x1 := 1 to 1 {}} is let-all rec(x1, 1, (x1), (x1)) in (x1). The start replaces one. Of the
/// five reductions rec of 1 and of 0 replace nothing, nor does the turn's let-all, whose last term
/// binds x1 at once; the turn's let-one replaces one and the last let-all one.
#[test]
fn a_run_counts_its_own_reductions_all_of_them() {
    let count = |budgets: &[u32]| {
        let block = vec![Command::Loop(1, Bound::Literal(1), vec![])];
        replaced(block, &[9], budgets)
    };
    assert_eq!(count(&[1, 1, 1, 1, 1]), (1, vec![0, 0, 0, 1, 1]));
    assert_eq!(count(&[5]), (1, vec![2]));
    assert_eq!(count(&[0, 4, 0, 1, 0]), (1, vec![0, 1, 0, 1, 0]));
    assert_eq!(count(&[3, 2]), (1, vec![0, 2]));
}

/// What is left of a state and a store after so many steps of the counting stepper.
fn counted(block: Block, state: Words, store: &[u32], budget: u32) -> (u32, Words, Vec<u32>) {
    let record = program(store.len() as u32, block).encode();
    let (mut state, mut store) = (state, store.to_vec());
    let counted = run_counting(&record, record.len(), &mut state, &mut store, budget);
    (counted.number, state, store)
}

/// The block that is written out for a state.
fn expanded(block: Block, state: Words, store: &[u32]) -> Block {
    let record = program(store.len() as u32, block).encode();
    let mut out = vec![0xA5; ROOM];
    let written = expand(&record, record.len(), &state, store, &mut out);
    assert_eq!(written.number, 0);
    let out = Program::decode(&out[..written.used as usize]);
    out.expect("a program").block
}

const START: Words = [0; STATE_WORDS];

fn empty_loop(turns: u32) -> Block {
    vec![Command::Loop(1, Bound::Literal(turns), vec![])]
}

/// Reached one off in the expansion: {for x1 := 1 to 2 {}} has literal 1 left in it after one step,
/// before x1 := 2. In its first turn only x1 := 2 is to come, and in its last nothing is.
#[test]
fn the_expansion_has_the_count_reached() {
    let state = words(0, &[unrolling(0, 2, 1)]);
    assert_eq!(counted(empty_loop(2), START, &[9], 1), (0, state, vec![9]));
    let one_left = Command::Loop(1, Bound::Literal(1), vec![]);
    let last = || assign(1, Expr::Literal(2));
    let unrolled = vec![Command::Block(vec![one_left, last()])];
    assert_eq!(expanded(empty_loop(2), state, &[9]), unrolled);
    let first = Command::Block(vec![assign(1, Expr::Literal(1))]);
    let state = words(0, &[index(0, 2, 1)]);
    let in_first = vec![Command::Block(vec![first, last()])];
    assert_eq!(expanded(empty_loop(2), state, &[9]), in_first);
    let state = words(0, &[index(0, 2, 2)]);
    let in_last = vec![Command::Block(vec![last()])];
    assert_eq!(expanded(empty_loop(2), state, &[9]), in_last);
}

/// The index stored before its turn counts: {for x1 := 1 to 2 {}} on 9. The loop of 0 becomes an
/// empty block, that goes, and only the next step stores 1. So it is between the turns: the empty
/// block goes, and 2 is stored by the next.
#[test]
fn the_index_is_stored_in_its_own_step() {
    let step = |state, store: u32| counted(empty_loop(2), state, &[store], 1);
    let first = words(0, &[index(0, 2, 1)]);
    assert_eq!(step(words(0, &[at_zero(0, 2)]), 9), (0, first, vec![9]));
    let in_first = words(0, &[body(0, 2, 1, 20)]);
    assert_eq!(step(first, 9), (0, in_first, vec![1]));
    let second = words(0, &[index(0, 2, 2)]);
    assert_eq!(step(in_first, 1), (0, second, vec![1]));
    let in_second = words(0, &[body(0, 2, 2, 20)]);
    assert_eq!(step(second, 1), (0, in_second, vec![2]));
}

/// An entry gone one turn early, or one late: at the end of the last turn but one the loop stays, at
/// the end of the last it goes, and with no turns it goes at 0.
#[test]
fn a_loop_goes_after_its_last_turn() {
    let step = |entry| counted(empty_loop(2), words(0, &[entry]), &[9], 1).1;
    assert_eq!(step(body(0, 2, 1, 20)), words(0, &[index(0, 2, 2)]));
    assert_eq!(step(body(0, 2, 2, 20)), words(20, &[]));
    assert_eq!(step(at_zero(0, 1)), words(0, &[index(0, 1, 1)]));
    assert_eq!(step(at_zero(0, 0)), words(20, &[]));
    // Two turns of two steps behind two unrollings and two steps at 0.
    let (_, state, store) = counted(empty_loop(2), START, &[9], 7);
    assert_eq!((state, store), (words(0, &[body(0, 2, 2, 20)]), vec![2]));
}

/// 13 before 6: with a store too short and a state that is none it is 6.
#[test]
fn the_store_is_looked_at_before_the_state() {
    let number = |store: &[u32], state| {
        let record = program(1, empty_loop(2)).encode();
        let (mut state, mut store) = (state, store.to_vec());
        run_counting(&record, record.len(), &mut state, &mut store, 1).number
    };
    let none = words(1, &[]);
    assert_eq!(number(&[9], none), 13);
    assert_eq!(number(&[], none), 6);
    assert_eq!(number(&[9, 9], none), 6);
}

/// 33 deep taken, or 32 refused: the outermost block is 1.
#[test]
fn the_deepest_is_32() {
    for (within, number) in [(31, 0), (32, 12)] {
        let nested = [nest_of_blocks(1, within), nest_of_loops(1, 1, within)];
        for nested in nested {
            assert_eq!(counted(nested.block, START, &[9], 0).0, number);
        }
    }
}

/// An unrolling loop with something open taken: {for x1 := 1 to 2 {{x1 := 5}}}, whose body's block
/// stands at 20. In a turn it may be open.
#[test]
fn nothing_is_open_in_an_unrolling_loop() {
    let number = |entry| {
        let inner = Command::Block(vec![assign(1, Expr::Literal(5))]);
        let block = vec![Command::Loop(1, Bound::Literal(2), vec![inner])];
        let state = words(0, &[entry, open_block(20, 24)]);
        counted(block, state, &[9], 0).0
    };
    assert_eq!(number(body(0, 2, 1, 20)), 0);
    assert_eq!(number(unrolling(0, 2, 1)), 13);
    assert_eq!(number(at_zero(0, 2)), 13);
    assert_eq!(number(index(0, 2, 1)), 13);
}

/// The sum stored at once, or worked out again when it is stored: {x1 := x1 + 1} on 5 waits with 6,
/// and the store is unchanged. Lent with another value of x1 by then, it is 6 all the same.
#[test]
fn a_sum_waits_for_its_own_step() {
    for (expr, sum) in [(Expr::PlusOne(1), 6), (Expr::MinusOne(1), 4)] {
        let block = || vec![assign(1, expr)];
        let waits = waiting(START, sum);
        assert_eq!(counted(block(), START, &[5], 1), (0, waits, vec![5]));
        assert_eq!(
            counted(block(), waits, &[5], 1),
            (0, words(16, &[]), vec![sum])
        );
        assert_eq!(
            counted(block(), waits, &[70], 1),
            (0, words(16, &[]), vec![sum])
        );
    }
}

/// A word that the state does not hold handed out as it came: the sum where none waits, a block's
/// counts, and all behind the last entry, also in 0 steps. Of a waiting sum and of running it only
/// matters that they are not 0.
#[test]
fn what_is_not_held_is_0() {
    let block = || vec![Command::Block(vec![assign(1, Expr::PlusOne(1))])];
    let tidy = words(0, &[open_block(0, 4)]);
    let mut lent = tidy;
    lent[2] = 7; // No sum waits.
    lent[5..8].fill(8); // A block has no counts.
    lent[10..].fill(9); // The entry at 9 is none.
    assert_eq!(counted(block(), lent, &[5], 0), (0, tidy, vec![5]));
    (lent[1], lent[2]) = (300, 0);
    let waits = waiting(tidy, 0);
    assert_eq!(counted(block(), lent, &[5], 0), (0, waits, vec![5]));
    let tidy = words(0, &[at_zero(0, 2)]);
    let mut lent = tidy;
    lent[7] = u32::MAX;
    assert_eq!(counted(empty_loop(2), lent, &[9], 0), (0, tidy, vec![9]));
}

/// What an accepted batch answers, all in a row.
fn batch_answers(program: &Program, jobs: &[Job]) -> Vec<u32> {
    let mut batch = Batch::of(&program.encode(), jobs);
    assert_eq!(batch.run(run_batch).number, 0);
    batch.answers
}

/// A job starts from what the last one left, or all from the first store: {x1 := x1 + 1} on 5 behind a
/// job that is finished, spent after 1 or over, and then on 9. From the term left the second would be
/// finished after 0, finished after 1, or over; from the values left by the first it would show 7.
#[test]
fn each_job_starts_from_its_own_store() {
    let nine = job(&[9], 2);
    for (first, answer) in [
        (job(&[5], 2), [1, 2, 6]),
        (job(&[5], 1), [4, 1, 0]),
        (job(&[u32::MAX], 2), [2, 0, 0]),
    ] {
        let jobs = [first, job(&[5], 2), nine.clone()];
        let wanted = [answer, [1, 2, 6], [1, 2, 10]].concat();
        assert_eq!(batch_answers(&plus_one(), &jobs), wanted);
    }
}

/// The store substituted in the term that all jobs share: the buffer is left with variables in it, and the
/// term of {x1 := x1 + 1} is x1 = succ x1 in (x1), whose two atoms stand at 20 and 32.
#[test]
fn the_shared_term_keeps_its_variables() {
    let mut batch = Batch::of(&plus_one().encode(), &[job(&[5], 2), job(&[6], 2)]);
    assert_eq!(batch.run(run_batch).used, 40);
    for atom in [20, 32] {
        assert_eq!(batch.term[atom..atom + 8], [8, 0, 33, 0, 1, 0, 0, 0]);
    }
}

/// Zeros for a finished job, or values for one that is not; outcome and count exchanged. {x1 := x1 + 1} on
/// 5 has worked out its 6 after one step; P3 of ADD has stored three values when it goes over.
#[test]
fn values_are_shown_of_a_finished_job_alone() {
    let jobs = [job(&[5], 0), job(&[5], 1), job(&[5], 2), job(&[5], 3)];
    let wanted = [4, 0, 0, 4, 1, 0, 1, 2, 6, 1, 2, 6];
    assert_eq!(batch_answers(&plus_one(), &jobs), wanted);
    let jobs = [job(&[u32::MAX, 1, 0, 0], 9), job(&[7, 3, 0, 0], 18)];
    let wanted = [2, 5, 0, 0, 0, 0, 1, 18, 7, 3, 10, 3];
    assert_eq!(batch_answers(&add(), &jobs), wanted);
}

/// The count as the budget left, or a budget for all jobs together: each has its own, in its place.
#[test]
fn each_job_has_its_own_budget() {
    let jobs = [job(&[5], 7), job(&[5], 1), job(&[5], 0), job(&[5], 2)];
    let wanted = [1, 2, 6, 4, 1, 0, 4, 0, 0, 1, 2, 6];
    assert_eq!(batch_answers(&plus_one(), &jobs), wanted);
}

/// 65 stores taken, 64 refused, or none taken.
#[test]
fn a_batch_has_1_to_64_stores() {
    for (stores, number) in [(0, 14), (1, 0), (64, 0), (65, 14)] {
        let mut batch = Batch::of(&plus_one().encode(), &vec![job(&[5], 2); stores]);
        assert_eq!(batch.run(run_batch).number, number);
    }
}

/// 14 after 2, or before 1: a term where a program should be, and no store; and then a used length above
/// its buffer.
#[test]
fn the_number_of_stores_is_looked_at_before_the_header() {
    let mut batch = Batch::of(&translate(&plus_one()).encode(), &[]);
    assert_eq!(batch.run(run_batch).number, 14);
    batch.used += 1;
    assert_eq!(batch.run(run_batch).number, 1);
    let mut batch = Batch::of(&translate(&plus_one()).encode(), &[job(&[5], 2)]);
    assert_eq!(batch.run(run_batch).number, 2);
}

/// What all engines make of {x1 := x1 + 1} on a value under a ceiling: outcome and steps, which must be
/// the same.
fn one_more(ceiling: u32, value: u32) -> (u32, u32) {
    let program = plus_one().under(ceiling);
    let record = program.encode();
    let ran = run_stepper(&mut lend(&record, 40), record.len(), &mut [value], 9);
    let counted = run_counting(&record, record.len(), &mut START.clone(), &mut [value], 9);
    let store = vec![value];
    let term = Config { program, store }.term().encode();
    let reduced = run_reducer(&mut lend(&term, 60), term.len(), 9).ran;
    let mut batch = Batch::of(&record, &[job(&[value], 9)]);
    batch.run(run_batch);
    assert_eq!([ran.number, counted.number, reduced.number], [0; 3]);
    assert_eq!((counted.outcome, counted.steps), (ran.outcome, ran.steps));
    assert_eq!((reduced.outcome, reduced.steps), (ran.outcome, ran.steps));
    assert_eq!(batch.answers[..2], [ran.outcome, ran.steps]);
    (ran.outcome, ran.steps)
}

/// Over at the ceiling, where it is a next value above it; or the old limit kept: 4 + 1 is 5, and 5 + 1
/// is above it.
#[test]
fn over_is_a_value_above_the_ceiling() {
    let (finished, over) = (Outcome::Finished.number(), Outcome::Over.number());
    assert_eq!(one_more(5, 4), (finished, 2));
    assert_eq!(one_more(5, 5), (over, 0));
    assert_eq!(one_more(0, 0), (over, 0));
    assert_eq!(one_more(u32::MAX, u32::MAX - 1), (finished, 2));
    assert_eq!(one_more(u32::MAX, u32::MAX), (over, 0));
}

/// The ceiling not copied by the translator, or by the read-back, or the kind of edition 1 given: the
/// header of the term of {x1 := x1 + 1} under 258, which has 44 bytes, and back again. With another
/// ceiling than the program's the reducer would be over elsewhere than the stepper.
#[test]
fn the_translator_copies_the_ceiling() {
    let record = plus_one().under(258).encode();
    let mut term = [0xA5; 44];
    let written = translate_over_bytes(&record, record.len(), &mut term);
    assert_eq!((written.number, written.used), (0, 44));
    assert_eq!(term[..12], [44, 0, 41, 0, 1, 0, 0, 0, 2, 1, 0, 0]);
    let mut back = [0xA5; 32];
    let written = read_back_over_bytes(&term, 44, &mut back);
    assert_eq!((written.number, written.used), (0, 32));
    assert_eq!(back[..12], [32, 0, 9, 0, 1, 0, 0, 0, 2, 1, 0, 0]);
    assert_eq!(back[..], record);
}

/// 15 before 5, or before 4 or 12: {x1 := 6; x2 := x1} with k = 1 under a ceiling of 5 has a literal
/// above it first and a wrong variable behind that.
#[test]
fn a_wrong_variable_before_a_literal_above_the_ceiling() {
    let number = |variable, ceiling| {
        let block = vec![
            assign(1, Expr::Literal(6)),
            assign(variable, Expr::Variable(1)),
        ];
        let record = program(1, block).under(ceiling).encode();
        check_program(&record, record.len()).number
    };
    assert_eq!(number(1, 6), 0);
    assert_eq!(number(1, 5), 15);
    assert_eq!(number(2, 5), 5);
    assert_eq!(number(2, 6), 5);
    let number = |atom, ceiling| {
        let tuple = Term::Tuple(vec![Atom::Numeral(6), atom]);
        let record = TermRecord::new(2, tuple).under(ceiling).encode();
        check_term(&record, record.len()).number
    };
    assert_eq!(number(Atom::Variable(2), 6), 0);
    assert_eq!(number(Atom::Variable(2), 5), 15);
    assert_eq!(number(Atom::Variable(3), 5), 5);
    // 33 deep, which only the counting stepper asks.
    let mut deep = nest_of_blocks(1, 32);
    deep.block.push(assign(1, Expr::Literal(6)));
    let record = deep.under(5).encode();
    let number = run_counting(&record, record.len(), &mut START.clone(), &mut [0], 1).number;
    assert_eq!(
        (number, check_program(&record, record.len()).number),
        (12, 15)
    );
}

/// 16 tested on the result's store, which is only written: it holds 6 under a ceiling of 5, and takes
/// the term's 5.
#[test]
fn the_results_store_is_not_held_to_the_ceiling() {
    let tuple = Term::Tuple(vec![Atom::Numeral(5)]);
    let mut record = TermRecord::new(1, tuple).under(5).encode();
    let mut store = [6];
    assert_eq!(result(&record, record.len(), &mut store), 0);
    assert_eq!(store, [5]);
    // Where the store is read, it is.
    let number = substitute_over_bytes(&mut record, 24, &[6]).number;
    assert_eq!(number, 16);
}

/// Kind 8 taken for a program's, which stands between 7 and 9: it is no kind, at the front or within.
#[test]
fn kind_8_is_none() {
    for (kind, number) in [(7, 4), (8, 2), (9, 0), (10, 2)] {
        let mut record = plus_one().under(5).encode();
        record[2] = kind;
        assert_eq!(
            check_program(&record, record.len()).number,
            number,
            "{kind}"
        );
        // The block's kind.
        let mut record = plus_one().under(5).encode();
        record[14] = kind;
        assert_eq!(check_program(&record, record.len()).number, 4, "{kind}");
    }
}

/// A header of 12 bytes cut to 8: with 8 to 11 bytes edition 2 has no header, whatever k is; and a run,
/// a translation or a writing out that took 8 for its length would leave the ceiling in the place of
/// the block.
#[test]
fn a_header_of_edition_2_has_12_bytes() {
    for used in 8..=12 {
        let mut record = plus_one().under(5).encode();
        record[0] = used;
        let number = |record: &[u8]| check_program(record, usize::from(used)).number;
        assert_eq!(number(&record), if used < 12 { 2 } else { 4 });
        record[4] = 17;
        assert_eq!(number(&record), if used < 12 { 2 } else { 3 });
    }
    let record = plus_one().under(5).encode();
    let mut buffer = lend(&record, 40);
    let ran = run_stepper(&mut buffer, record.len(), &mut [4], 9);
    assert_eq!(
        buffer[..16],
        [16, 0, 9, 0, 1, 0, 0, 0, 5, 0, 0, 0, 4, 0, 1, 0]
    );
    assert_eq!(ran.used, 16);
    let mut out = [0xA5; 40];
    let written = expand(&record, record.len(), &waiting(START, 5), &[4], &mut out);
    assert_eq!(written.used as usize, record.len());
    assert_eq!(out[..16], record[..16]);
}

/// A ceiling one below the largest, or none copied: {x1 := x1 + 1} in edition 2 has 255 in all four bytes
/// behind k, takes the largest value as a literal, and comes to it in a run. So does its term.
#[test]
fn a_moved_record_has_the_largest_ceiling() {
    let mut second = [0xA5; 40];
    let written = program_to_edition_2(&plus_one().encode(), 28, &mut second);
    assert_eq!((written.number, written.used), (0, 32));
    assert_eq!(second[4..12], [1, 0, 0, 0, 255, 255, 255, 255]);
    let mut store = [u32::MAX - 1];
    let ran = run_stepper(&mut second, 32, &mut store, 9);
    assert_eq!((ran.outcome, ran.steps, store), (1, 2, [u32::MAX]));
    let literal = program(1, vec![assign(1, Expr::Literal(u32::MAX))]).encode();
    let written = program_to_edition_2(&literal, 28, &mut second);
    assert_eq!((written.number, check_program(&second, 32).number), (0, 0));
    let mut term = translate(&plus_one()).encode();
    substitute_over_bytes(&mut term, 40, &[u32::MAX - 1]);
    let mut second = [0xA5; 44];
    assert_eq!(term_to_edition_2(&term, 40, &mut second).used, 44);
    assert_eq!(second[8..12], [255; 4]);
    assert_eq!(run_reducer(&mut second, 44, 9).ran.outcome, 1);
    let mut shown = [0];
    assert_eq!(result(&second, 24, &mut shown), 0);
    assert_eq!(shown, [u32::MAX]);
}

/// Moved back with a smaller ceiling, which edition 1 cannot say: a program that stops before 11 would then
/// stop before 4,294,967,296. Smaller is one less too.
#[test]
fn a_smaller_ceiling_is_not_lost() {
    for (ceiling, number) in [(10, 17), (0, 17), (u32::MAX - 1, 17), (u32::MAX, 0)] {
        let record = plus_one().under(ceiling).encode();
        let mut out = [0xA5; 28];
        let written = program_to_edition_1(&record, record.len(), &mut out);
        assert_eq!(written.number, number, "{ceiling}");
        let record = translate(&plus_one()).under(ceiling).encode();
        let mut out = [0xA5; 40];
        let written = term_to_edition_1(&record, record.len(), &mut out);
        assert_eq!(written.number, number, "{ceiling}");
    }
}

/// The header's length not raised, or not lowered, or raised in the answer alone: the moved record is one
/// that the check takes with the length that was answered. {x1 := x1 + 1} has 28 bytes and its term 40.
#[test]
fn the_headers_length_is_moved_too() {
    let mut second = [0xA5; 60];
    let written = program_to_edition_2(&plus_one().encode(), 28, &mut second);
    assert_eq!((written.used, &second[..4]), (32, &[32, 0, 9, 0][..]));
    assert_eq!(check_program(&second, 32).number, 0);
    let mut first = [0xA5; 60];
    let written = program_to_edition_1(&second, 32, &mut first);
    assert_eq!((written.used, &first[..4]), (28, &[28, 0, 7, 0][..]));
    assert_eq!(check_program(&first, 28).number, 0);
    let written = term_to_edition_2(&translate(&plus_one()).encode(), 40, &mut second);
    assert_eq!((written.used, &second[..4]), (44, &[44, 0, 41, 0][..]));
    assert_eq!(check_term(&second, 44).number, 0);
    let written = term_to_edition_1(&second, 44, &mut first);
    assert_eq!((written.used, &first[..4]), (40, &[40, 0, 40, 0][..]));
    assert_eq!(check_term(&first, 40).number, 0);
}

/// 17 before 15, or behind 10: {x1 := 6} under a ceiling of 5 has a literal above it, and under one of 6 a
/// ceiling that is too small, both also where there is no room.
#[test]
fn a_literal_above_the_ceiling_before_a_small_ceiling() {
    for room in [0, 28, 60] {
        let number = |ceiling| {
            let record = program(1, vec![assign(1, Expr::Literal(6))]);
            let record = record.under(ceiling).encode();
            program_to_edition_1(&record, record.len(), &mut vec![0xA5; room]).number
        };
        let fits = if room == 0 { 10 } else { 0 };
        assert_eq!([number(5), number(6), number(u32::MAX)], [15, 17, fits]);
        let number = |ceiling| {
            let record = TermRecord::new(1, Term::Tuple(vec![Atom::Numeral(6)]));
            let record = record.under(ceiling).encode();
            term_to_edition_1(&record, record.len(), &mut vec![0xA5; room]).number
        };
        assert_eq!([number(5), number(6), number(u32::MAX)], [15, 17, fits]);
    }
}

/// What is already in the edition asked for copied as it is, or k or the grammar looked at before: it is a
/// wrong kind.
#[test]
fn nothing_is_moved_to_its_own_edition() {
    let first = plus_one().encode();
    let second = plus_one().under(u32::MAX).encode();
    let small = plus_one().under(5).encode();
    let mut broken = second.clone();
    (broken[4], broken[14]) = (17, 8);
    for record in [&second, &small, &broken] {
        let mut out = [0xA5; 60];
        let written = program_to_edition_2(record, record.len(), &mut out);
        assert_eq!((written, out), (Written::refused(2u32), [0xA5; 60]));
    }
    let mut out = [0xA5; 60];
    let written = program_to_edition_1(&first, first.len(), &mut out);
    assert_eq!((written, out), (Written::refused(2u32), [0xA5; 60]));
}

/// The block not moved by the 4 bytes of the ceiling, or the old bytes left behind a shorter record: the whole
/// of an output that was full, for {} at k = 1.
#[test]
fn the_contents_are_moved_with_the_header() {
    let mut out = [0xA5; 20];
    program_to_edition_2(&program(1, vec![]).encode(), 12, &mut out);
    let second = [16, 0, 9, 0, 1, 0, 0, 0, 255, 255, 255, 255, 4, 0, 1, 0];
    assert_eq!(out, [&second[..], &[0; 4]].concat()[..]);
    let mut out = [0xA5; 20];
    program_to_edition_1(&second, 16, &mut out);
    let first = [12, 0, 7, 0, 1, 0, 0, 0, 4, 0, 1, 0];
    assert_eq!(out, [&first[..], &[0; 8]].concat()[..]);
}

/// The forecast of a block, in edition 1.
fn foretold(block: Block, store: &[u32]) -> Forecast {
    let record = program(store.len() as u32, block).encode();
    forecast_run(&record, record.len(), store)
}

/// Steps, longest program and longest term of a forecast that is accepted.
fn figures(block: Block, store: &[u32]) -> [u64; 3] {
    let forecast = foretold(block, store);
    assert_eq!(forecast.number, 0);
    [forecast.steps, forecast.program_bytes, forecast.term_bytes]
}

fn repeat(turns: u32, body: Block) -> Command {
    Command::Loop(1, Bound::Literal(turns), body)
}

/// n for n + 1 loops: unrolled n times, {for x1 := 1 to n {}} has the n turns and the loop of 0 as well, 20
/// bytes each behind 12. Its term has 44 for the loop and 32 for each turn, behind 20. The steps at 0, two of
/// them, left out, or the one in which a turn's block goes: 3·n + 2.
#[test]
fn the_loop_of_0_is_foretold_beside_its_turns() {
    assert_eq!(figures(vec![repeat(0, vec![])], &[9]), [2, 32, 64]);
    assert_eq!(figures(vec![repeat(1, vec![])], &[9]), [5, 52, 96]);
    assert_eq!(figures(vec![repeat(3, vec![])], &[9]), [11, 92, 160]);
}

/// The start not counted: where nothing grows it is the longest, also of a program that is finished.
#[test]
fn the_start_is_on_the_way() {
    assert_eq!(figures(vec![], &[9]), [0, 12, 20]);
    let block = vec![assign(1, Expr::Literal(5))];
    assert_eq!(figures(block, &[9]), [1, 28, 36]);
    // x1 + 1 is longer in the term before its first step, by succ's head.
    let block = vec![assign(1, Expr::PlusOne(1))];
    assert_eq!(figures(block, &[9]), [2, 28, 40]);
    // ADD without a turn (P2).
    assert_eq!(figures(add().block, &[7, 0, 0, 0]), [3, 64, 172]);
}

/// Only the start and what is all unrolled looked at, or only the outer loop: {for x1 := 1 to 1 {for x1 := 1 to
/// 9 {}}} has 40 bytes and unrolled 80, but in its turn a block's 4 and 10 times 20; its term 88 and 164, but
/// in its turn 16 and 44 + 9·32.
#[test]
fn the_longest_may_be_within_a_turn() {
    let block = vec![repeat(1, vec![repeat(9, vec![])])];
    assert_eq!(figures(block, &[9]), [3 + 29 + 2, 12 + 204, 20 + 348]);
}

/// All turns taken as if each stood there while the body grows, or none: with 3 turns the first has two others
/// behind it, of 40 bytes and 76.
#[test]
fn the_first_turn_has_the_others_behind_it() {
    let block = vec![repeat(3, vec![repeat(9, vec![])])];
    let wanted = [3 * 32 + 2, 12 + 204 + 80, 20 + 348 + 152];
    assert_eq!(figures(block, &[9]), wanted);
}

/// What stands behind a loop left out, or what stood before it counted: 16 bytes on either side, of which the
/// one before is gone when the loop grows to 60 bytes, and in the term to 108.
#[test]
fn what_is_behind_is_there_and_what_was_before_is_gone() {
    let set = || assign(1, Expr::Literal(6));
    let block = vec![set(), repeat(2, vec![]), set()];
    assert_eq!(figures(block, &[9]), [2 + 8, 12 + 76, 20 + 124]);
}

/// An index that is a bound let through, its own loop's or another's; so that only assignments were looked at,
/// or only what is within the loop, or only what a run comes to. A bound that is only read is none.
#[test]
fn an_index_that_is_a_bound_is_assigned() {
    let use_x2 = |index| Command::Loop(index, Bound::Variable(2), vec![]);
    let number = |block| foretold(block, &[3, 3]).number;
    assert_eq!(number(vec![use_x2(1)]), 0);
    assert_eq!(number(vec![use_x2(2)]), 18);
    let by_index = Command::Loop(2, Bound::Literal(3), vec![]);
    assert_eq!(number(vec![use_x2(1), by_index.clone()]), 18);
    assert_eq!(number(vec![repeat(0, vec![by_index]), use_x2(1)]), 18);
    assert_eq!(number(vec![repeat(0, vec![use_x2(2)])]), 18);
    assert_eq!(number(vec![use_x2(1), assign(2, Expr::Variable(2))]), 18);
    assert_eq!(number(vec![use_x2(1), assign(1, Expr::PlusOne(2))]), 0);
}

/// 19 at 2^64 - 1, or only from some way beyond it; or a number that is cut to 64 bits. 4,294,967,295 turns of
/// 4,294,967,294 steps and two, then 3·4,294,967,293 and two, are 2^64 - 3.
#[test]
fn the_most_steps_are_foretold() {
    let with = |more: usize| {
        let inner = repeat(1_431_655_763, vec![]);
        let mut block = vec![repeat(u32::MAX, vec![inner]), repeat(4_294_967_293, vec![])];
        block.extend(vec![Command::Block(vec![]); more]);
        let forecast = foretold(block, &[9]);
        (forecast.number, forecast.steps)
    };
    assert_eq!(with(0), (0, u64::MAX - 2));
    assert_eq!(with(2), (0, u64::MAX));
    assert_eq!([with(3), with(4), with(9)], [(19, 0); 3]);
}

/// A huge body counted that has no turn, or one that is too much forgotten beside it.
#[test]
fn no_turn_of_a_huge_body() {
    let huge = || nest_of_loops(1, u32::MAX, 5).block;
    assert_eq!(figures(vec![repeat(0, huge())], &[9])[0], 2);
    assert_eq!(foretold(huge(), &[9]), Forecast::refused(19u32));
    let beside = [huge(), vec![repeat(0, huge())]].concat();
    assert_eq!(foretold(beside, &[9]), Forecast::refused(19u32));
}

/// A length cut to 16 bits, as a record's own is: ADD on 7, 2000 has 48 + 36·2,000 and 156 + 76·2,000 bytes.
#[test]
fn lengths_beyond_16_bits_are_foretold() {
    let wanted = [10_003, 72_048, 152_156];
    assert_eq!(figures(add().block, &[7, 2_000, 0, 0]), wanted);
}

/// Edition 2's ceiling left out of the lengths, or taken for a limit: ADD on P1's store goes over under 9, after
/// 15 steps, but of a run with no ceiling all is foretold.
#[test]
fn the_ceiling_takes_4_bytes_and_stops_nothing() {
    for ceiling in [7, 9, 10, u32::MAX] {
        let record = add().under(ceiling).encode();
        let forecast = forecast_run(&record, record.len(), &[7, 3, 0, 0]);
        let wanted = Forecast {
            number: 0,
            steps: 18,
            program_bytes: 160,
            term_bytes: 388,
        };
        assert_eq!(forecast, wanted);
    }
}
