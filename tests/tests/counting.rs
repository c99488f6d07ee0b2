//! The stepper that carries loops as counts (02, C-14): its states word by word, their expansions, and
//! that it goes as the old stepper and the reducer do. `counting_rows.rs` has its refusals.
//!
//! A place is the distance from the outermost block's first command. ADD, {x3 := x1; for x4 := 1 to
//! x2 {x3 := x3 + 1}}, has the assignment at 0 and the loop at 16, whose body's one command stands at
//! 16 + 20 = 36 and ends at 52, where the loop and the outermost block end too.

use other::both::{expand, run_counting, run_reducer, run_stepper};
use other::calls::{Counted, Ran, Written};
use other::codec::Record;
use other::examples::{add, examples, nest_of_loops, program, Example};
use other::generate::lend;
use other::generate::programs::store;
use other::generate::states::{
    any_spot, at_zero, block, body, index, shallow_program, unrolling, waiting, words,
};
use other::random::{cases, Counts};
use other::run::counting::expand::record_len;
use other::run::counting::words::{write, Words, STATE_WORDS};
use other::run::stepper::Config;
use other::run::Outcome;
use other::tree::{Bound, Command, Expr, Program, Value};

const MAX: Value = Value::MAX;
const ROOM: usize = 16_384;
const START: Words = [0; STATE_WORDS];

const FINISHED: u32 = Outcome::Finished as u32;
const OVER: u32 = Outcome::Over as u32;
const NO_ROOM: u32 = Outcome::NoRoom as u32;
const SPENT: u32 = Outcome::Spent as u32;

fn assign(variable: u32, expr: Expr) -> Command {
    Command::Assign(variable, expr)
}

/// A program's record, lent unchanged with every order, and what the orders leave.
struct Counting {
    record: Vec<u8>,
    state: Words,
    store: Vec<Value>,
}

impl Counting {
    fn start(program: &Program, store: &[Value]) -> Counting {
        Counting {
            record: program.encode(),
            state: START,
            store: store.to_vec(),
        }
    }

    /// An accepted order. What it left is taken again, and does not change in 0 steps.
    fn run(&mut self, budget: u32) -> Counted {
        let used = self.record.len();
        let counted = run_counting(&self.record, used, &mut self.state, &mut self.store, budget);
        assert_eq!(counted.number, 0);
        assert_eq!(counted.steps + counted.left, budget);
        let (mut state, mut store) = (self.state, self.store.clone());
        let again = run_counting(&self.record, used, &mut state, &mut store, 0);
        let wanted = Counted {
            number: 0,
            outcome: counted.outcome,
            steps: 0,
            left: 0,
        };
        assert_eq!((again, state, &store), (wanted, self.state, &self.store));
        counted
    }

    /// The expansion in a buffer of 16,384 bytes, and its length.
    fn expand(&self) -> (Vec<u8>, usize) {
        let mut out = vec![0xA5; ROOM];
        let used = self.record.len();
        let written = expand(&self.record, used, &self.state, &self.store, &mut out);
        assert_eq!(written.number, 0);
        (out, written.used as usize)
    }

    fn expanded(&self) -> Program {
        let (out, used) = self.expand();
        Program::decode(&out[..used]).expect("a program")
    }
}

/// The old stepper: its buffer, used length and store.
struct Stepper {
    buffer: Vec<u8>,
    used: usize,
    store: Vec<Value>,
}

impl Stepper {
    fn start(program: &Program, store: &[Value]) -> Stepper {
        let record = program.encode();
        Stepper {
            buffer: lend(&record, ROOM),
            used: record.len(),
            store: store.to_vec(),
        }
    }

    fn run(&mut self, budget: u32) -> Ran {
        let ran = run_stepper(&mut self.buffer, self.used, &mut self.store, budget);
        assert_eq!(ran.number, 0);
        self.used = ran.used as usize;
        ran
    }
}

/// The states are the same: the expansion with the zeros behind it is the old stepper's buffer, byte
/// for byte, and the stores are equal.
fn assert_level(counting: &Counting, stepper: &Stepper) {
    assert_eq!(counting.expand(), (stepper.buffer.clone(), stepper.used));
    assert_eq!(counting.store, stepper.store);
}

/// P1, step by step: the assignment; three unrollings, of which each leaves one less; the loop of 0
/// becomes an empty block, and that goes. Then each of the three turns: its index is stored, the sum
/// is worked out, the sum is stored, and the empty block goes, which is where the next turn begins. 1
/// + 3 + 2 + 3·4 = 18.
#[test]
fn add_word_by_word() {
    let states = [
        (words(0, &[]), [7, 3, 0, 0]),
        (words(16, &[]), [7, 3, 7, 0]),
        (words(16, &[unrolling(16, 3, 2)]), [7, 3, 7, 0]),
        (words(16, &[unrolling(16, 3, 1)]), [7, 3, 7, 0]),
        (words(16, &[unrolling(16, 3, 0)]), [7, 3, 7, 0]),
        (words(16, &[at_zero(16, 3)]), [7, 3, 7, 0]),
        (words(16, &[index(16, 3, 1)]), [7, 3, 7, 0]),
        (words(16, &[body(16, 3, 1, 36)]), [7, 3, 7, 1]),
        (waiting(words(16, &[body(16, 3, 1, 36)]), 8), [7, 3, 7, 1]),
        (words(16, &[body(16, 3, 1, 52)]), [7, 3, 8, 1]),
        (words(16, &[index(16, 3, 2)]), [7, 3, 8, 1]),
        (words(16, &[body(16, 3, 2, 36)]), [7, 3, 8, 2]),
        (waiting(words(16, &[body(16, 3, 2, 36)]), 9), [7, 3, 8, 2]),
        (words(16, &[body(16, 3, 2, 52)]), [7, 3, 9, 2]),
        (words(16, &[index(16, 3, 3)]), [7, 3, 9, 2]),
        (words(16, &[body(16, 3, 3, 36)]), [7, 3, 9, 3]),
        (waiting(words(16, &[body(16, 3, 3, 36)]), 10), [7, 3, 9, 3]),
        (words(16, &[body(16, 3, 3, 52)]), [7, 3, 10, 3]),
        (words(52, &[]), [7, 3, 10, 3]),
    ];
    let mut counting = Counting::start(&add(), &[7, 3, 0, 0]);
    for (steps, (state, store)) in states.iter().enumerate() {
        assert_eq!(counting.state, *state, "after {steps}");
        assert_eq!(counting.store, store, "after {steps}");
        let counted = counting.run(1);
        let (outcome, made) = match steps {
            18 => (FINISHED, 0),
            17 => (FINISHED, 1),
            _ => (SPENT, 1),
        };
        let left = 1 - made;
        assert_eq!((counted.outcome, counted.steps), (outcome, made));
        assert_eq!(counted.left, left);
    }
    assert_eq!(counting.state, words(52, &[]));
}

/// The number of each word: what [`words`] and the entries of the table above are made of, once by
/// hand.
#[test]
fn the_words_have_their_places() {
    let mut counting = Counting::start(&add(), &[7, 3, 0, 0]);
    counting.run(8);
    let mut wanted = START;
    wanted[0] = 16; // The place in the outermost block.
    wanted[1] = 1; // A sum waits,
    wanted[2] = 8; // 7 + 1.
    wanted[3] = 2; // A loop is open,
    wanted[4] = 16; // whose record stands there;
    wanted[5] = 3; // its top,
    wanted[6] = 1; // the turn it is in,
    wanted[7] = 1; // running,
    wanted[8] = 36 + 2; // and its body's place.
    assert_eq!(counting.state, wanted);
}

/// 01's outcomes, steps and end values, from all zeros in one order.
#[test]
fn the_examples_have_01s_values() {
    for example in examples() {
        let mut counting = Counting::start(&example.program, &example.store);
        let counted = counting.run(1_000_000);
        let wanted = (example.outcome.number(), example.steps);
        assert_eq!((counted.outcome, counted.steps), wanted, "{}", example.name);
        assert_eq!(counting.store, example.end, "{}", example.name);
    }
}

/// After every number of steps the expansion is what the old stepper has, and so is the outcome. From
/// there every further budget leads to where one order of both together does.
#[test]
fn every_state_of_the_examples_expands_to_the_old_steppers() {
    for Example {
        program,
        store,
        steps,
        ..
    } in examples()
    {
        for first in 0..=steps + 1 {
            let mut counting = Counting::start(&program, &store);
            let mut stepper = Stepper::start(&program, &store);
            let (counted, ran) = (counting.run(first), stepper.run(first));
            assert_eq!((counted.outcome, counted.steps), (ran.outcome, ran.steps));
            assert_level(&counting, &stepper);
            for second in 0..=steps + 1 - first {
                let mut further = Counting {
                    record: counting.record.clone(),
                    state: counting.state,
                    store: counting.store.clone(),
                };
                let mut at_once = Counting::start(&program, &store);
                let (further_on, in_one) = (further.run(second), at_once.run(first + second));
                assert_eq!(further_on.outcome, in_one.outcome);
                assert_eq!(counted.steps + further_on.steps, in_one.steps);
                assert_eq!(further.state, at_once.state);
                assert_eq!(further.store, at_once.store);
            }
        }
    }
}

/// A skip lorry at 3,500 kg: 3 + 5·3,500 = 17,503 steps. The old stepper has 48 bytes behind the
/// assignment and 36 more for each turn that it unrolls, so 453 of them fit, and it stops after 454
/// steps.
#[test]
fn add_of_3500_needs_no_room() {
    let store = [7, 3_500, 0, 0];
    let ran = Stepper::start(&add(), &store).run(1_000_000);
    assert_eq!((ran.outcome, ran.steps), (NO_ROOM, 454));
    let mut counting = Counting::start(&add(), &store);
    let counted = counting.run(1_000_000);
    assert_eq!((counted.outcome, counted.steps), (FINISHED, 17_503));
    assert_eq!(counting.store, [7, 3_500, 3_507, 3_500]);
    // In orders of 1,000, of which the last makes 503.
    let mut counting = Counting::start(&add(), &store);
    for order in 0..18 {
        let counted = counting.run(1_000);
        let wanted = match order {
            17 => (FINISHED, 503),
            _ => (SPENT, 1_000),
        };
        assert_eq!((counted.outcome, counted.steps), wanted);
    }
    assert_eq!(counting.store, [7, 3_500, 3_507, 3_500]);
}

/// The largest count: after the assignment each of 99,999 steps leaves one less. It expands to 52 +
/// 36 bytes for each, which no buffer holds, and steps all the same.
#[test]
fn the_largest_count() {
    let mut counting = Counting::start(&add(), &[7, MAX, 0, 0]);
    let counted = counting.run(100_000);
    assert_eq!((counted.outcome, counted.steps), (SPENT, 100_000));
    let state = words(16, &[unrolling(16, MAX, MAX - 99_999)]);
    assert_eq!(counting.state, state);
    // In the last turn, whose number is the largest value: what is left is as before.
    counting.state = words(16, &[index(16, MAX, MAX)]);
    let counted = counting.run(5);
    assert_eq!((counted.outcome, counted.steps), (FINISHED, 4));
    assert_eq!(counting.store, [7, MAX, 8, MAX]);
    // In the last but one.
    counting.state = words(16, &[body(16, MAX, MAX - 1, 52)]);
    assert_eq!(counting.run(1).outcome, SPENT);
    assert_eq!(counting.state, words(16, &[index(16, MAX, MAX)]));
}

/// P3 is over with its body at the plus one and no sum, and stays there.
#[test]
fn over_keeps_the_steps_and_the_state() {
    let mut counting = Counting::start(&add(), &[MAX, 1, 0, 0]);
    let counted = counting.run(100);
    assert_eq!(
        (counted.outcome, counted.steps, counted.left),
        (OVER, 5, 95)
    );
    let state = words(16, &[body(16, 1, 1, 36)]);
    assert_eq!(counting.state, state);
    let counted = counting.run(100);
    assert_eq!((counted.outcome, counted.steps), (OVER, 0));
    assert_eq!(counting.state, state);
    assert_eq!(counting.store, [MAX, 1, MAX, 1]);
    // A budget that is used up just there is over as well: the outcome is read from the state left.
    let counted = Counting::start(&add(), &[MAX, 1, 0, 0]).run(5);
    assert_eq!((counted.outcome, counted.steps, counted.left), (OVER, 5, 0));
}

/// One step opens all blocks on its way. {{{x1 := 1; x1 := 2}}}: blocks at 0 and 4, assignments at 8
/// and 24, and everything ends at 40.
#[test]
fn a_step_inside_opens_the_blocks_around() {
    let inner = vec![assign(1, Expr::Literal(1)), assign(1, Expr::Literal(2))];
    let nested = vec![Command::Block(vec![Command::Block(inner)])];
    let mut counting = Counting::start(&program(1, nested), &[9]);
    let states = [
        words(0, &[block(0, 4), block(4, 24)]),
        words(0, &[block(0, 4), block(4, 40)]),
        words(0, &[block(0, 40)]),
        words(40, &[]),
    ];
    for (state, store) in states.iter().zip([1, 2, 2, 2]) {
        counting.run(1);
        assert_eq!(
            (counting.state, &counting.store[..]),
            (*state, &[store][..])
        );
    }
}

/// An empty block goes without being opened; the one around it is opened by that. {{{}}; {}}: blocks
/// at 0, 4 and 8, all ends at 12.
#[test]
fn an_empty_block_is_not_opened() {
    let nested = vec![Command::Block(vec![Command::Block(vec![])])];
    let blocks = [nested, vec![Command::Block(vec![])]].concat();
    let mut counting = Counting::start(&program(1, blocks), &[9]);
    for state in [words(0, &[block(0, 8)]), words(8, &[]), words(12, &[])] {
        counting.run(1);
        assert_eq!(counting.state, state);
    }
    assert_eq!(counting.run(1).outcome, FINISHED);
}

/// A loop in a block that is not open: the step that unrolls it, or makes it an empty block, opens
/// both.
#[test]
fn a_loop_opens_the_block_around() {
    let nested = |turns| vec![Command::Block(nest_of_loops(1, turns, 1).block)];
    let mut counting = Counting::start(&program(1, nested(2)), &[9]);
    counting.run(1);
    assert_eq!(counting.state, words(0, &[block(0, 4), unrolling(4, 2, 1)]));
    let mut counting = Counting::start(&program(1, nested(0)), &[9]);
    counting.run(1);
    assert_eq!(counting.state, words(0, &[block(0, 4), at_zero(4, 0)]));
    // The empty block that it became goes, and then the block around: places 24 and 24.
    for state in [words(0, &[block(0, 24)]), words(24, &[])] {
        counting.run(1);
        assert_eq!(counting.state, state);
    }
}

/// Where the next step would be over inside a block that is not open, it stays so. {{x2 := 1; {x1 :=
/// x1 + 1}}} on the largest value: blocks at 0 and 20, the plus one at 24. After one step the outer
/// block is open, and the inner one is not.
#[test]
fn over_in_a_block_that_is_not_open_leaves_it_so() {
    let plus_one = || Command::Block(vec![assign(1, Expr::PlusOne(1))]);
    for depth in 1..4 {
        let wrap = |inner, _| Command::Block(vec![inner]);
        let nested = (1..depth).fold(plus_one(), wrap);
        let mut counting = Counting::start(&program(1, vec![nested]), &[MAX]);
        let counted = counting.run(3);
        assert_eq!((counted.outcome, counted.steps), (OVER, 0));
        assert_eq!(counting.state, START);
    }
    let inner = vec![assign(2, Expr::Literal(1)), plus_one()];
    let mut counting = Counting::start(&program(2, vec![Command::Block(inner)]), &[MAX, 0]);
    for steps in [1, 0] {
        let counted = counting.run(3);
        assert_eq!((counted.outcome, counted.steps), (OVER, steps));
        assert_eq!(counting.state, words(0, &[block(0, 20)]));
    }
}

/// Where it is lent open, it stays open.
#[test]
fn over_in_an_open_block_leaves_it_open() {
    let plus_one = vec![Command::Block(vec![assign(1, Expr::PlusOne(1))])];
    let mut counting = Counting::start(&program(1, plus_one), &[MAX]);
    counting.state = words(0, &[block(0, 4)]);
    let counted = counting.run(3);
    assert_eq!((counted.outcome, counted.steps), (OVER, 0));
    assert_eq!(counting.state, words(0, &[block(0, 4)]));
}

/// Two states with one expansion go on alike. Blocks lent open: {{}} and {{x1 := 1}}. A loop of
/// literal 3 that is not in play, and one unrolling with all of its top still left in it. A plus
/// one's sum is a literal, so no other state has its expansion.
#[test]
fn two_states_may_have_one_expansion() {
    let empty = program(1, vec![Command::Block(vec![])]);
    let one = program(1, vec![Command::Block(vec![assign(1, Expr::Literal(1))])]);
    let counted_loop = nest_of_loops(1, 3, 1);
    // Steps to the end: 1; 2; and 3·3 + 2 for a loop of three turns with no commands.
    let pairs = [
        (empty, words(0, &[block(0, 4)]), 1, 9),
        (one, words(0, &[block(0, 4)]), 2, 1),
        (counted_loop, words(0, &[unrolling(0, 3, 3)]), 11, 3),
    ];
    for (program, state, steps, end) in pairs {
        let mut shut = Counting::start(&program, &[9]);
        let mut open = Counting::start(&program, &[9]);
        open.state = state;
        assert_eq!(open.expanded(), program);
        // What is lent open stays open, also in 0 steps.
        open.run(0);
        assert_eq!(open.state, state);
        for made in 1..=steps {
            let outcome = if made == steps { FINISHED } else { SPENT };
            assert_eq!(shut.run(1).outcome, outcome);
            assert_eq!(open.run(1).outcome, outcome);
            assert_eq!(open.expand(), shut.expand());
            assert_eq!(open.store, shut.store);
        }
        assert_eq!(open.store, [end]);
    }
}

/// A top need not be the program's literal. {for x1 := 1 to 3 {}} with top 5 and 2 left in it: three
/// turns were unrolled, so the loop of 2 stands innermost before x1 := 3, and that before x1 := 4 and
/// 5. To the end: 2 more unrollings, two steps at 0, and 5·2 for the turns.
#[test]
fn a_top_need_not_be_the_literal() {
    let mut counting = Counting::start(&nest_of_loops(1, 3, 1), &[9]);
    counting.state = words(0, &[unrolling(0, 5, 2)]);
    let turn = |before, count| {
        let block = vec![before, assign(1, Expr::Literal(count))];
        Command::Block(block)
    };
    let innermost = Command::Loop(1, Bound::Literal(2), vec![]);
    let wanted = turn(turn(turn(innermost, 3), 4), 5);
    assert_eq!(counting.expanded().block, [wanted]);
    let counted = counting.run(100);
    assert_eq!((counted.outcome, counted.steps), (FINISHED, 14));
    assert_eq!(counting.store, [5]);
}

/// The expansions of a loop {for x2 := 1 to x1 {x1 := 6; x1 := 7}} with top 3, each by hand. The
/// body's commands stand at 20 and 36, and end at 52.
#[test]
fn expansions_by_hand() {
    let (six, seven) = (
        || assign(1, Expr::Literal(6)),
        || assign(1, Expr::Literal(7)),
    );
    let over_x1 = Command::Loop(2, Bound::Variable(1), vec![six(), seven()]);
    let last = || assign(1, Expr::Literal(8));
    let program = program(2, vec![over_x1, last()]);
    let turn = |before: Vec<Command>, count| {
        let own = vec![assign(2, Expr::Literal(count)), six(), seven()];
        Command::Block([before, own].concat())
    };
    let looped = |left| Command::Loop(2, Bound::Literal(left), vec![six(), seven()]);
    let cases = [
        (unrolling(0, 3, 3), looped(3)),
        (unrolling(0, 3, 2), turn(vec![looped(2)], 3)),
        (
            unrolling(0, 3, 0),
            turn(vec![turn(vec![turn(vec![looped(0)], 1)], 2)], 3),
        ),
        (
            at_zero(0, 3),
            turn(
                vec![turn(vec![turn(vec![Command::Block(vec![])], 1)], 2)],
                3,
            ),
        ),
        (at_zero(0, 0), Command::Block(vec![])),
        (
            index(0, 3, 1),
            turn(vec![turn(vec![turn(vec![], 1)], 2)], 3),
        ),
        (index(0, 3, 3), turn(vec![], 3)),
        (
            body(0, 3, 2, 20),
            turn(vec![Command::Block(vec![six(), seven()])], 3),
        ),
        (
            body(0, 3, 2, 36),
            turn(vec![Command::Block(vec![seven()])], 3),
        ),
        (body(0, 3, 2, 52), turn(vec![Command::Block(vec![])], 3)),
        (body(0, 3, 3, 52), Command::Block(vec![])),
    ];
    for (entry, first) in cases {
        let mut counting = Counting::start(&program, &[1, 2]);
        counting.state = words(0, &[entry]);
        assert_eq!(counting.expanded().block, [first, last()], "{entry:?}");
    }
}

/// P5 between its two steps: the sum waits, the store is unchanged, and the expansion has it as the
/// literal. A sum may be any value: it is stored as it came.
#[test]
fn a_sum_waits() {
    let plus_one = program(1, vec![assign(1, Expr::PlusOne(1))]);
    let mut counting = Counting::start(&plus_one, &[MAX - 1]);
    assert_eq!(counting.run(1).outcome, SPENT);
    assert_eq!(counting.state, waiting(words(0, &[]), MAX));
    assert_eq!(counting.store, [MAX - 1]);
    let stored = |sum| [assign(1, Expr::Literal(sum))];
    assert_eq!(counting.expanded().block, stored(MAX));
    counting.run(1);
    assert_eq!(
        (counting.state, counting.store),
        (words(16, &[]), vec![MAX])
    );

    let mut counting = Counting::start(&plus_one, &[MAX]);
    counting.state = waiting(START, 77);
    assert_eq!(counting.expanded().block, stored(77));
    let counted = counting.run(2);
    assert_eq!((counted.outcome, counted.steps), (FINISHED, 1));
    assert_eq!(counting.store, [77]);
    // 0 waits as well as any other.
    let mut counting = Counting::start(&plus_one, &[MAX]);
    counting.state = waiting(START, 0);
    assert_eq!(counting.run(2).steps, 1);
    assert_eq!(counting.store, [0]);
}

/// A sum worked out deep inside: {{for x1 := 1 to 1 {{x2 := x2 - 1}}}}. Blocks and loops at 0
/// (block), 4 (loop), 24 (block), and the minus one at 28. The loop unrolls, becomes empty, goes,
/// stores its index (4 steps), and the fifth works out 4 and opens the inner block.
#[test]
fn a_sum_within_a_loop() {
    let minus_one = Command::Block(vec![assign(2, Expr::MinusOne(2))]);
    let counted_loop = Command::Loop(1, Bound::Literal(1), vec![minus_one]);
    let nested = program(2, vec![Command::Block(vec![counted_loop])]);
    let mut counting = Counting::start(&nested, &[9, 5]);
    counting.run(5);
    let entries = [block(0, 4), body(4, 1, 1, 24), block(24, 28)];
    assert_eq!(counting.state, waiting(words(0, &entries), 4));
    assert_eq!(counting.store, [1, 5]);
    counting.run(1);
    let entries = [block(0, 4), body(4, 1, 1, 24), block(24, 44)];
    assert_eq!(
        (counting.state, counting.store),
        (words(0, &entries), vec![1, 4])
    );
}

/// The deepest nesting: 31 loops of one turn in the outermost block, and all of them in a turn at
/// once. A loop of one turn with a body of b steps takes 1 + 2 + b + 2, and one without commands 5:
/// 31·5 in all. Loop n, counted from 0, stands at 20·n; each is met with 4 steps more (its own
/// unrolling, two at 0, its index).
#[test]
fn all_entries_are_held() {
    let nested = nest_of_loops(1, 1, 31);
    let mut counting = Counting::start(&nested, &[9]);
    counting.run(31 * 4);
    let entries: Vec<_> = (0..31).map(|n| body(20 * n, 1, 1, 20 * (n + 1))).collect();
    assert_eq!(counting.state, words(0, &entries));
    assert_ne!(counting.state[STATE_WORDS - 1], 0);
    let counted = counting.run(100);
    assert_eq!((counted.outcome, counted.steps), (FINISHED, 31));
    assert_eq!(counting.state, words(20 * 31, &[]));
}

/// From states of any sort, also such as no run comes upon: each step leads to the state whose
/// expansion is one step of the old stepper on, and both stop alike. The length that decides refusal
/// 10 is the expansion's own. A program has at most 440 bytes, and a step adds a loop's at most, so
/// the old stepper has room for 12 of them.
#[test]
fn a_step_is_a_step_of_the_expansion() {
    let seen = Counts::<5>::default();
    cases(20_000, |random| {
        let program = shallow_program(random);
        let spot = any_spot(random, &program);
        let length = record_len(&program, &spot);
        if length > (ROOM - 12 * 440) as u64 {
            return;
        }
        let mut counting = Counting::start(&program, &store(random, program.header));
        counting.state = write(&spot, &program);
        let (buffer, used) = counting.expand();
        assert_eq!(used as u64, length);
        let store = counting.store.clone();
        let mut stepper = Stepper {
            buffer,
            used,
            store,
        };
        for _ in 0..12 {
            let (counted, ran) = (counting.run(1), stepper.run(1));
            assert_eq!((counted.outcome, counted.steps), (ran.outcome, ran.steps));
            assert_level(&counting, &stepper);
            seen.one(counted.outcome as usize);
        }
    });
    seen.assert_at_least([0, 50_000, 1_000, 0, 50_000]);
}

/// A user who goes back to the old stepper after any number of steps loses none: it goes on from the
/// record written out to the same end and total, and stands where the reducer does.
#[test]
fn going_back_to_the_old_stepper() {
    for Example {
        program,
        store,
        outcome,
        steps,
        end,
        ..
    } in examples()
    {
        let term = Config {
            program: program.clone(),
            store: store.clone(),
        }
        .term()
        .encode();
        for made in 0..=steps {
            let mut counting = Counting::start(&program, &store);
            counting.run(made);
            let (buffer, used) = counting.expand();
            let store = counting.store;
            let mut stepper = Stepper {
                buffer,
                used,
                store,
            };
            let mut reducer = lend(&term, ROOM);
            let reduced = run_reducer(&mut reducer, term.len(), made).ran;
            assert_stands(&stepper, &reducer[..reduced.used as usize]);
            let (ran, reduced) = (
                stepper.run(1_000_000),
                run_reducer(&mut reducer, reduced.used as usize, 1_000_000).ran,
            );
            let wanted = (outcome.number(), steps - made);
            assert_eq!((ran.outcome, ran.steps), wanted);
            assert_eq!((reduced.outcome, reduced.steps), wanted);
            assert_eq!(stepper.store, end);
            assert_stands(&stepper, &reducer[..reduced.used as usize]);
        }
    }
}

/// The reducer's term is the translation of the stepper's program with its store substituted.
fn assert_stands(stepper: &Stepper, term: &[u8]) {
    let program = Program::decode(&stepper.buffer[..stepper.used]).expect("a program");
    let store = stepper.store.clone();
    assert_eq!(Config { program, store }.term().encode(), term);
}

/// Where the old stepper has no room, the new one goes on until the expansion fits again. ADD on 7,
/// 600: the assignment, 600 unrollings and two steps at 0, then turns of four steps. In turn c the
/// expansion has a header and a head, 12 bytes, the turn's block, 36 bytes and 20 once its index is
/// stored, and 36 for each of the 600 - c turns behind it. With c = 146 that is 48 + 36·454 = 16,392,
/// and 16,376 once the index is stored. The old stepper then makes the 3 steps that are left of this
/// turn, and the other 454 turns.
#[test]
fn back_to_the_old_stepper_once_it_fits() {
    let mut counting = Counting::start(&add(), &[7, 600, 0, 0]);
    let mut out = vec![0xA5; ROOM];
    counting.run(1 + 600 + 2 + 4 * 145);
    assert_eq!(counting.state, words(16, &[index(16, 600, 146)]));
    let (used, state) = (counting.record.len(), &counting.state);
    let refused = expand(&counting.record, used, state, &counting.store, &mut out);
    assert_eq!(refused, Written::refused(10_u32));
    assert!(out.iter().all(|byte| *byte == 0xA5));
    counting.run(1);
    let (buffer, used) = counting.expand();
    assert_eq!(used, 16_376);
    let store = counting.store;
    let mut stepper = Stepper {
        buffer,
        used,
        store,
    };
    let ran = stepper.run(1_000_000);
    assert_eq!((ran.outcome, ran.steps), (FINISHED, 3 + 4 * 454));
    assert_eq!(stepper.store, [7, 600, 607, 600]);
}
