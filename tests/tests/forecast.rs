//! The forecast of a run (02, C-19): 01's examples and programs by hand, that what is worked out is what a run
//! comes to, and that real runs that finish are as foretold. `forecast_rows.rs` has the refusals.

use other::both::{forecast_run, run_counting, run_reducer, run_stepper, substitute, translate};
use other::calls::Forecast;
use other::codec::Record;
use other::examples::{
    add, all_examples, examples, nest_of_blocks, nest_of_loops, program, row_of_blocks, subtract,
};
use other::forecast::unlimited::figures_within;
use other::forecast::{figures, Figures};
use other::generate::forecasts::{limit, steady_program, taking};
use other::generate::lend;
use other::generate::programs::{store, value};
use other::random::{cases, Counts, Random};
use other::run::counting::words::STATE_WORDS;
use other::run::stepper::Config;
use other::run::{run, Machine, Outcome};
use other::tree::{
    bound_variables, with_big_stack, Block, Bound, Command, Edition, Expr, Program, Value,
};

const MAX: Value = Value::MAX;

fn assign(variable: u32, expr: Expr) -> Command {
    Command::Assign(variable, expr)
}

/// for x(index) := 1 to (literal) {body}
fn repeat(index: u32, turns: Value, body: Block) -> Command {
    Command::Loop(index, Bound::Literal(turns), body)
}

/// for x(index) := 1 to x(bound) {body}
fn repeat_to(index: u32, bound: u32, body: Block) -> Command {
    Command::Loop(index, Bound::Variable(bound), body)
}

fn accepted(steps: u64, program_bytes: u64, term_bytes: u64) -> Forecast {
    Forecast {
        number: 0,
        steps,
        program_bytes,
        term_bytes,
    }
}

/// The call, on a buffer just as long as the record.
fn foretold(program: &Program, store: &[Value]) -> Forecast {
    let record = program.encode();
    let forecast = forecast_run(&record, record.len(), store);
    // What is behind the record is not looked at.
    let longer = lend(&record, (record.len() + 50).min(16_384));
    assert_eq!(forecast_run(&longer, record.len(), store), forecast);
    forecast
}

/// In edition 1, and in edition 2, where the two lengths are 4 more: its header has 12 bytes.
fn assert_foretold(block: Block, store: &[Value], [steps, program_bytes, term_bytes]: [u64; 3]) {
    let program = program(store.len() as u32, block);
    let first = accepted(steps, program_bytes, term_bytes);
    assert_eq!(foretold(&program, store), first);
    let second = accepted(steps, program_bytes + 4, term_bytes + 4);
    assert_eq!(foretold(&program.under(MAX), store), second);
}

// 01's examples.

/// "The start counts as on the way: ADD on P1's store gives 18, 156 and 384."
#[test]
fn add_on_p1s_store() {
    assert_eq!(foretold(&add(), &[7, 3, 0, 0]), accepted(18, 156, 384));
    assert_foretold(add().block, &[7, 3, 0, 0], [18, 156, 384]);
    let ceiling = add().under(10);
    assert_eq!(foretold(&ceiling, &[7, 3, 0, 0]), accepted(18, 160, 388));
}

/// P1 to P9, by hand. An assignment and its let-one take 16 bytes, with succ or pred 20; a tuple of k takes
/// 4 + 8·k.
#[test]
fn examples_p1_to_p9() {
    let wanted = [
        ("P1", accepted(18, 156, 384)),
        // Nothing is unrolled, so that the start is the longest.
        ("P2", accepted(3, 64, 172)),
        // 3 + 5·1 steps. After the first 48 and 156 bytes, and one turn adds 36 and 76. The real run is over
        // after 5.
        ("P3", accepted(8, 84, 232)),
        // 8 + 4 + 16, and 8 + 20 + 12.
        ("P4", accepted(2, 28, 40)),
        ("P5", accepted(2, 28, 40)),
        // With no largest value it takes 2 steps as well.
        ("P5, too large", accepted(2, 28, 40)),
        // 8 + 4 + 20. A let-all's head, the rec's own 16 and its two tuples of 12 are 44: 8 + 44 + 12.
        ("P6", accepted(2, 32, 64)),
        // Three turns of 3 + 1 and two. The loop has 36, and a turn adds 4 + 16 + 16: 12 + 36 + 108. Its term has
        // 44 + 16, and a turn adds the let-all and its tuple, 16, and two let-ones: 20 + 60 + 144.
        ("P7", accepted(14, 156, 224)),
        // x1 is its bound and is assigned.
        ("P8", Forecast::refused(18u32)),
        ("P9", accepted(0, 12, 20)),
    ];
    let all = examples();
    assert_eq!(all.len(), wanted.len());
    for (example, (name, forecast)) in all.into_iter().zip(wanted) {
        assert_eq!(example.name, name);
        assert_eq!(
            foretold(&example.program, &example.store),
            forecast,
            "{name}"
        );
        if forecast.number == 0 {
            let Forecast {
                steps,
                program_bytes,
                term_bytes,
                ..
            } = forecast;
            let figures = [steps, program_bytes, term_bytes];
            assert_foretold(example.program.block, &example.store, figures);
        }
    }
}

/// The examples under their ceilings: as far as a run finishes, its steps are 01's; where one is over before
/// its end, it has made fewer.
#[test]
fn the_examples_of_both_editions_take_the_steps_foretold() {
    for example in all_examples() {
        let forecast = foretold(&example.program, &example.store);
        if example.name.starts_with("P8") {
            assert_eq!(forecast, Forecast::refused(18u32));
        } else if example.outcome == Outcome::Finished {
            assert_eq!(forecast.steps, u64::from(example.steps), "{}", example.name);
        } else {
            assert!(
                forecast.steps > u64::from(example.steps),
                "{}",
                example.name
            );
        }
    }
}

/// ADD's steps are 3 + 5·x2. Its configuration is 64 bytes at the start and then 48 + 36·x2 when all turns are
/// unrolled, its term 172 and then 156 + 76·x2. With minus one it is the same. No length is cut to 16 bits, nor
/// to 32.
#[test]
fn add_of_any_number_of_turns() {
    for x2 in [
        0,
        1,
        2,
        3,
        400,
        453,
        1_000,
        1_818,
        1_819,
        65_535,
        65_536,
        MAX - 1,
        MAX,
    ] {
        let n = u64::from(x2);
        let wanted = accepted(3 + 5 * n, 64.max(48 + 36 * n), 172.max(156 + 76 * n));
        for x1 in [0, 7, MAX] {
            assert_eq!(foretold(&add(), &[x1, x2, 5, 6]), wanted);
            assert_eq!(foretold(&subtract(), &[x1, x2, MAX, 0]), wanted);
        }
    }
    let largest = accepted(21_474_836_478, 154_618_822_668, 326_417_514_576);
    assert_eq!(foretold(&add(), &[0, MAX, 0, 0]), largest);
    assert_eq!(
        foretold(&add(), &[0, 1_000, 0, 0]),
        accepted(5_003, 36_048, 76_156)
    );
}

// By hand. At k = 1 a tuple has 12 bytes, so that an empty block has 4 and in the term, as a let-all and its
// tuple, 16; a loop 20 and 44; a turn 20 and the body, in the term 32 and the body.

/// The longest is at the start where nothing grows: assignments, of which plus one and minus one take two
/// steps and 20 bytes of the term; blocks, nested and in a row, which go in a step of their own.
#[test]
fn what_never_grows() {
    assert_foretold(vec![], &[9], [0, 12, 20]);
    for (expr, steps, term) in [
        (Expr::Literal(5), 1, 16),
        (Expr::Variable(1), 1, 16),
        (Expr::PlusOne(1), 2, 20),
        (Expr::MinusOne(1), 2, 20),
    ] {
        assert_foretold(vec![assign(1, expr)], &[9], [steps, 28, 20 + term]);
        let block = vec![Command::Block(vec![assign(1, expr)]), assign(1, expr)];
        let wanted = [2 * steps + 1, 12 + 4 + 32, 20 + 16 + 2 * term];
        assert_foretold(block, &[9], wanted);
    }
    let empty = || Command::Block(vec![]);
    assert_foretold(vec![empty()], &[9], [1, 16, 36]);
    assert_foretold(vec![empty(), empty()], &[9], [2, 20, 52]);
    assert_foretold(vec![Command::Block(vec![empty()])], &[9], [2, 20, 52]);
    // A loop of no turns is only looked at: its body may be as long as it likes.
    let body = vec![repeat(1, MAX, vec![repeat(1, MAX, vec![])]), empty()];
    assert_foretold(vec![repeat(1, 0, body)], &[9], [2, 76, 20 + 44 + 104]);
}

/// A loop of an empty body: n unrollings, 2 steps at 0, and turns of 2. It is longest when all is unrolled, and
/// has n + 1 times its 20 bytes then, and the term 44 and n times 32.
#[test]
fn an_empty_loop() {
    for n in [0, 1, 2, 3, 100, 4_294_967_294, 4_294_967_295] {
        let wanted = [3 * n + 2, 12 + 20 * (n + 1), 20 + 44 + 32 * n];
        assert_foretold(vec![repeat(1, n as Value, vec![])], &[9], wanted);
        // The same with a bound from the store: at k = 2 a tuple has 20 bytes.
        let wanted = [3 * n + 2, 12 + 20 * (n + 1), 28 + 60 + 40 * n];
        assert_foretold(vec![repeat_to(1, 2, vec![])], &[9, n as Value], wanted);
    }
}

/// Where the inner loop grows longer than the outer one: {for x1 := 1 to 2 {for x2 := 1 to 5 {}}}, k = 2. The inner
/// one takes 5·3 + 2 = 17 steps, the outer one 2·(3 + 17) + 2. The inner one grows from 20 to 120 bytes, the outer
/// one from 40 to 40 + 80 = 120; in its first turn there are a block's 4, the inner one's 120, and the second
/// turn's 40. In the term the inner one grows from 60 by 5·40 to 260; the outer one, of 60 + 60, by 2·100 to 320;
/// in its first turn there are 24, 260 and 100.
#[test]
fn the_longest_within_the_first_turn() {
    let block = vec![repeat(1, 2, vec![repeat(2, 5, vec![])])];
    assert_foretold(block, &[0, 0], [42, 12 + 164, 28 + 384]);
}

/// One turn, and then the inner loop is longer only by little: {for x1 := 1 to 1 {for x1 := 1 to n {}}}, k = 1. The
/// outer one has 40 bytes and unrolled 80; in its turn 4 and the inner one's 20·(n + 1). That is longer from
/// n = 3 on: 84. In the term it has 88 and unrolled 88 + 76 = 164; in its turn 16 and 44 + 32·n, which is longer
/// from n = 4 on: 188; with 3 it is 156.
#[test]
fn one_turn_and_the_inner_loop_in_it() {
    let wanted = [
        (0, [3 + 2 + 2, 80, 164]),
        (1, [3 + 5 + 2, 80, 164]),
        (2, [3 + 8 + 2, 80, 164]),
        (3, [3 + 11 + 2, 84, 164]),
        (4, [3 + 14 + 2, 104, 188]),
        (5, [3 + 17 + 2, 124, 220]),
    ];
    for (n, [steps, bytes, term]) in wanted {
        let block = vec![repeat(1, 1, vec![repeat(1, n, vec![])])];
        assert_foretold(block, &[9], [steps, 12 + bytes, 20 + term]);
    }
}

/// What stands behind counts, and what stood before is gone: two loops of 2 and 4 turns in a row, k = 1, with
/// an assignment of 16 bytes before, between and behind. The first grows to 60 with 16 + 20 + 16 behind it, the
/// second to 100 with 16 behind it; exchanged, 100 with 52 behind it. In the term 44 + 64 with 16 + 44 + 16
/// behind, and 44 + 128 with 16 behind; exchanged, 44 + 128 with 76 behind.
#[test]
fn what_stands_behind_counts() {
    let around = |first, last| {
        let set = || assign(1, Expr::Literal(6));
        let (first, last) = (repeat(1, first, vec![]), repeat(1, last, vec![]));
        vec![set(), first, set(), last, set()]
    };
    assert_foretold(around(2, 4), &[9], [3 + 8 + 14, 12 + 116, 20 + 188]);
    assert_foretold(around(4, 2), &[9], [3 + 14 + 8, 12 + 152, 20 + 248]);
    // With a long row before it, the start is the longest of all.
    let mut block = vec![Command::Block(vec![]); 50];
    block.extend(around(2, 4));
    assert_foretold(block, &[9], [50 + 25, 12 + 200 + 88, 20 + 800 + 136]);
}

/// The longest program and the longest term need not be at the same time: {x1 := 6, 8 times; for x1 := 1 to 5 {}},
/// k = 16, where a tuple has 132 bytes. The program has 8·16 + 20 at the start, and 6·20 when all is unrolled. Its
/// term has 8·16 + 284, and then 284 + 5·152.
#[test]
fn the_two_longest_at_different_times() {
    let mut block = vec![assign(1, Expr::Literal(6)); 8];
    block.push(repeat(1, 5, vec![]));
    let wanted = [8 + 17, 12 + 148, 140 + 284 + 760];
    assert_foretold(block, &[0; 16], wanted);
}

/// A body that is long when its turn comes, and a bound that several loops share: k = 3, {for x1 := 1 to x3 {for x2
/// := 1 to x3 {x1 := x2 - 1}; x2 := x3}} on 0, 0, 2. The inner loop takes 2·(3 + 2) + 2 = 12 steps, the body 13, all
/// 2·16 + 2. The inner one has 36 bytes and grows to 108; the body 52, in its turn at most 108 + 16; the loop 72
/// grows to 216, and in its first turn has 4 + 124 + 72. At k = 3 a tuple has 28 bytes. The inner one's term has
/// 76 + 20 and grows by 48 + 20 to 232; the body 112, in its turn at most 248; the loop's 76 + 112 grows by
/// 48 + 112 to 508, and in its first turn it has 32 + 248 + 160.
#[test]
fn a_bound_that_loops_share() {
    let inner = repeat_to(2, 3, vec![assign(1, Expr::MinusOne(2))]);
    let block = vec![repeat_to(1, 3, vec![inner, assign(2, Expr::Variable(3))])];
    assert_foretold(block, &[0, 0, 2], [34, 12 + 216, 36 + 508]);
}

// The largest.

/// 4,093 nested blocks, and as many in a row: the start is the longest. Nested loops of no turns take two steps;
/// of one turn each takes 5 more than the one within, and the program of n loops has 20·n bytes and then twice
/// as many. Its term has 44·n, and unrolled 32 and 44·(n - 1) more.
#[test]
fn the_deepest_and_the_longest() {
    with_big_stack(|| {
        let blocks = foretold(&nest_of_blocks(1, 4_093), &[9]);
        assert_eq!(blocks, accepted(4_093, 16_384, 65_508));
        let blocks = foretold(&row_of_blocks(16, 4_093), &[9; 16]);
        assert_eq!(blocks, accepted(4_093, 16_384, 556_788));
        let loops = |turns| foretold(&nest_of_loops(1, turns, 818), &[9]);
        assert_eq!(loops(0), accepted(2, 12 + 20 * 818, 20 + 44 * 818));
        let unrolled = 44 * 818 + 32 + 44 * 817;
        assert_eq!(loops(1), accepted(5 * 818, 12 + 40 * 818, 20 + unrolled));
        assert_eq!(loops(2), Forecast::refused(19u32));
        assert_eq!(loops(MAX), Forecast::refused(19u32));
    });
}

/// The lengths that are largest of all: a loop of 4,294,967,295 turns around 4,088 empty blocks at k = 16, in
/// 16,384 bytes. A turn takes 3 + 4,088 steps. The loop has 20 + 16,352 bytes and grows to 4,294,967,296 times
/// that. In the term an empty block has 4 + 132, so that the loop has 20 + 264 + 555,968, and a turn of
/// 4 + 132 + 16 + 555,968.
#[test]
fn the_most_turns_of_the_longest_body() {
    let turns = u64::from(MAX);
    let block = vec![repeat(1, MAX, vec![Command::Block(vec![]); 4_088])];
    let program = program(16, block);
    assert_eq!(program.encoded_len(), 16_384);
    let wanted = accepted(
        4_091 * turns + 2,
        12 + 16_372 * (turns + 1),
        140 + 556_252 + 556_120 * turns,
    );
    assert_eq!(foretold(&program, &[0; 16]), wanted);
}

/// A loop of the most turns around one of a third of them: (2^32 - 1)·(2^32 - 2) + 2 steps, and around one of
/// as many it is too much. Lengths add up where steps are multiplied, so they stay far below: the inner loop
/// grows to 20 bytes for each of its turns and one, with 4 around it and all turns but one behind it, of 40 bytes
/// each; in the term to 44 and 32 for each turn, with 16 around it and 76 for each turn behind it.
#[test]
fn two_loops_of_many_turns() {
    assert_eq!(
        foretold(&nest_of_loops(1, MAX, 2), &[9]),
        Forecast::refused(19u32)
    );
    let (turns, third) = (u64::from(MAX), u64::from(MAX) / 3 - 2);
    let block = vec![repeat(1, MAX, vec![repeat(1, third as Value, vec![])])];
    let steps = 4_294_967_295 * 4_294_967_294 + 2;
    let bytes = 4 + 20 * (third + 1) + 40 * (turns - 1);
    let term = 16 + 44 + 32 * third + 76 * (turns - 1);
    assert_foretold(block, &[9], [steps, 12 + bytes, 20 + term]);
}

// What is worked out is what a run comes to.

/// A start of a program that assigns no bound, of at most so many bytes.
fn steady_start(random: &mut Random, limit: usize) -> Config {
    let program = steady_program(random, limit);
    let store = store(random, program.header);
    Config { program, store }
}

/// The run that has no limits, step by step, on small programs of every shape: wherever it ends in so many
/// steps and bytes, its figures are those worked out, and elsewhere more are foretold. Many of them grow, and
/// many a real run would be over.
#[test]
fn worked_out_as_run() {
    const STEPS: u128 = 600;
    const BYTES: u128 = 3_000;
    let seen = Counts::<5>::default();
    cases(5_000, |random| {
        let limit = 12 + random.below(250);
        let start = steady_start(random, limit);
        let worked_out = figures(&start);
        let Some(run_out) = figures_within(&start, STEPS, BYTES) else {
            assert!(worked_out.steps > STEPS || worked_out.program_bytes > BYTES);
            return seen.one(1);
        };
        assert_eq!(worked_out, run_out, "{start:?}");
        seen.one(0);
        if run_out.program_bytes > start.state_len() as u128 {
            seen.one(2);
        }
        if run_out.steps > 100 {
            seen.one(3);
        }
        if run(&mut start.clone(), usize::MAX, STEPS as u32).0 == Outcome::Over {
            seen.one(4);
        }
    });
    seen.assert_at_least([3_000, 800, 800, 80, 150]);
}

/// So many steps as a program was made to take, up to 2^64 - 1, are foretold.
#[test]
fn steps_as_many_as_wanted() {
    cases(2_000, |random| {
        let steps = random.next_u64() >> random.below(64);
        let program = taking(random, u128::from(steps));
        let forecast = foretold(&program, &[value(random), value(random)]);
        assert_eq!((forecast.number, forecast.steps), (0, steps));
    });
}

/// What a variable holds that is no bound does not matter, nor does the ceiling, as long as it is accepted; of
/// edition 1 the lengths are 4 less.
#[test]
fn only_bounds_matter() {
    let seen = Counts::<2>::default();
    cases(3_000, |random| {
        let limit = limit(random).min(16_380);
        let Config { program, store } = steady_start(random, limit);
        let second = foretold(&program.clone().under(MAX), &store);
        let first = foretold(&program.clone().in_edition(Edition::First), &store);
        if second.number == 0 {
            assert_eq!(shorter_by_4(second), first);
        }
        assert_eq!(first.number, second.number);
        seen.one(usize::from(first.number != 0));
        let bounds = bound_variables(&program);
        let mut other = store.clone();
        for (variable, value_there) in (1..).zip(&mut other) {
            if !bounds.contains(&variable) {
                *value_there = value(random);
            }
        }
        assert_eq!(foretold(&program.clone().under(MAX), &other), second);
        let values = program.literals().into_iter().chain(store.clone());
        let lowest = values.max().unwrap_or(0);
        assert_eq!(foretold(&program.under(lowest), &store), second);
    });
    seen.assert_at_least([2_000, 80]);
}

fn shorter_by_4(forecast: Forecast) -> Forecast {
    Forecast {
        program_bytes: forecast.program_bytes - 4,
        term_bytes: forecast.term_bytes - 4,
        ..forecast
    }
}

// Real runs.

/// How a real run goes in this room, with steps enough.
fn ends<M: Machine>(start: &M, room: u64) -> (Outcome, u32) {
    run(&mut start.clone(), room as usize, u32::MAX)
}

/// A machine whose run finishes after so many steps: in the longest state's length it does, and in one byte
/// less it has no room, unless that is the start's.
fn needs_just<M: Machine>(start: &M, longest: u64, steps: u32) -> bool {
    assert_eq!(ends(start, longest), (Outcome::Finished, steps));
    let grows = longest > start.state_len() as u64;
    if grows {
        let (outcome, before) = ends(start, longest - 1);
        assert_eq!(outcome, Outcome::NoRoom);
        assert!(before < steps);
    }
    grows
}

/// Wherever the stepper and the reducer finish, with room enough, they do so after the steps foretold, in the
/// bytes foretold, and in no fewer. A run that is over has made fewer steps, and had room.
#[test]
fn real_runs_that_finish() {
    const MOST: u32 = 600;
    let seen = Counts::<5>::default();
    cases(4_000, |random| {
        let limit = 12 + random.below(200);
        let start = steady_start(random, limit);
        let forecast = foretold(&start.program, &start.store);
        let Figures { steps, .. } = figures(&start);
        let (outcome, made) = run(&mut start.clone(), usize::MAX, MOST);
        seen.one(outcome.number() as usize);
        if outcome == Outcome::Spent {
            return assert!(steps > u128::from(MOST));
        }
        assert_eq!(
            forecast.number,
            u32::from(steps > u128::from(u64::MAX)) * 19
        );
        if forecast.number != 0 {
            return assert_eq!(outcome, Outcome::Over);
        }
        let (bytes, term) = (forecast.program_bytes, forecast.term_bytes);
        if outcome == Outcome::Over {
            assert!(u64::from(made) < forecast.steps);
            assert_eq!(ends(&start, bytes), (Outcome::Over, made));
            return assert_eq!(ends(&start.term(), term), (Outcome::Over, made));
        }
        assert_eq!(u64::from(made), forecast.steps);
        if needs_just(&start, bytes, made) & needs_just(&start.term(), term, made) {
            seen.one(0);
        }
    });
    seen.assert_at_least([700, 2_000, 120, 0, 300]);
}

/// The same by the calls, over bytes, in buffers of just the lengths foretold, as far as they can be lent: the
/// stepper, the reducer from the translation with the store substituted, and the counting stepper, which needs no
/// room.
#[test]
fn real_runs_over_bytes() {
    let seen = Counts::<3>::default();
    cases(2_500, |random| {
        let limit = 12 + random.below(300);
        let start = steady_start(random, limit);
        let forecast = foretold(&start.program, &start.store);
        if forecast.number != 0 || forecast.steps > 1_500 {
            return;
        }
        let over = run(&mut start.clone(), usize::MAX, u32::MAX).0 == Outcome::Over;
        let outcome = if over {
            Outcome::Over
        } else {
            Outcome::Finished
        };
        for (engine, call) in [stepped, reduced, counted].into_iter().enumerate() {
            if let Some((number, steps)) = call(&start, &forecast) {
                assert_eq!(number, outcome.number());
                assert!(over || steps == forecast.steps);
                seen.one(engine);
            }
        }
    });
    seen.assert_at_least([1_200; 3]);
}

/// The outcome and the steps of a call that is accepted.
type Ended = Option<(u32, u64)>;

fn stepped(start: &Config, forecast: &Forecast) -> Ended {
    let (room, record) = (forecast.program_bytes as usize, start.program.encode());
    let mut buffer = (room <= 16_384).then(|| lend(&record, room))?;
    let mut store = start.store.clone();
    let ran = run_stepper(&mut buffer, record.len(), &mut store, u32::MAX);
    assert_eq!(ran.number, 0);
    Some((ran.outcome, ran.steps.into()))
}

fn reduced(start: &Config, forecast: &Forecast) -> Ended {
    let (room, record) = (forecast.term_bytes as usize, start.program.encode());
    let mut buffer = (room <= 16_384).then(|| vec![0xA5; room])?;
    let written = translate(&record, record.len(), &mut buffer);
    let used = written.used as usize;
    assert_eq!(substitute(&mut buffer, used, &start.store).number, 0);
    let ran = run_reducer(&mut buffer, used, u32::MAX).ran;
    assert_eq!(ran.number, 0);
    Some((ran.outcome, ran.steps.into()))
}

fn counted(start: &Config, _: &Forecast) -> Ended {
    let (record, mut store) = (start.program.encode(), start.store.clone());
    let mut state = [0; STATE_WORDS];
    let counted = run_counting(&record, record.len(), &mut state, &mut store, u32::MAX);
    (counted.number != 12).then_some((counted.outcome, counted.steps.into()))
}

/// P1 by the calls: 156 and 384 bytes are enough, and 155 and 383 are not (01, "Bench loads").
#[test]
fn p1_in_one_byte_less() {
    let (program, store) = (add(), vec![7, 3, 0, 0]);
    let start = Config { program, store };
    let forecast = foretold(&start.program, &start.store);
    let short = accepted(18, forecast.program_bytes - 1, forecast.term_bytes - 1);
    let ended = |forecast| [stepped(&start, forecast), reduced(&start, forecast)];
    let finished = Some((Outcome::Finished.number(), 18));
    assert_eq!(ended(&forecast), [finished; 2]);
    let no_room = Some((Outcome::NoRoom.number(), 3));
    assert_eq!(ended(&short), [no_room; 2]);
}
