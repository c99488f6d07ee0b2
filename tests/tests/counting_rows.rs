//! The refusals of the counting stepper and of the writing out (02, C-14): rows 1 to 5, 12, 6, 13,
//! and of the writing out 10 behind them. A refusal changes no word, value or byte.

use other::both::{expand, run_counting};
use other::calls::{Counted, Written};
use other::check::Refusal;
use other::codec::Record;
use other::examples::{
    add, nest_of_blocks, nest_of_loops, program, row_of_assignments, row_of_blocks,
};
use other::generate::lend;
use other::generate::states::{
    at_zero, block, body, index, other_words, unrolling, waiting, words, Entry,
};
use other::random::cases;
use other::run::counting::words::{Words, STATE_WORDS};
use other::tree::{with_big_stack, Block, Bound, Command, Expr, Program};

const START: Words = [0; STATE_WORDS];
const MAX: u32 = u32::MAX;

/// What is lent to either call: a program's buffer and its used length, the state, the store.
#[derive(Clone)]
struct Order {
    buffer: Vec<u8>,
    used: usize,
    state: Words,
    store: Vec<u32>,
}

impl Order {
    /// The program at its start, with 3 for every variable.
    fn of(program: &Program) -> Order {
        let record = program.encode();
        Order {
            used: record.len(),
            buffer: record,
            state: START,
            store: vec![3; program.header.k as usize],
        }
    }

    fn in_state(program: &Program, state: Words) -> Order {
        Order {
            state,
            ..Order::of(program)
        }
    }

    /// The number that both calls give, with budget 0 and all the room there is. Refused, they give 0
    /// for the rest and leave all as it came.
    fn number(&self) -> u32 {
        let mut lent = self.clone();
        let counted = run_counting(&lent.buffer, lent.used, &mut lent.state, &mut lent.store, 0);
        if counted.number != 0 {
            assert_eq!(counted, Counted::refused(counted.number));
            assert_eq!((lent.state, lent.store), (self.state, self.store.clone()));
        }
        let written = self.written(16_384);
        assert_eq!(written.number, counted.number);
        counted.number
    }

    /// The writing out into a buffer of this length.
    fn written(&self, room: usize) -> Written {
        let mut out = vec![0xA5; room];
        let Order {
            buffer,
            used,
            state,
            store,
        } = self;
        let written = expand(buffer, *used, state, store, &mut out);
        if written.number != 0 {
            assert_eq!(written, Written::refused(written.number));
            assert!(out.iter().all(|byte| *byte == 0xA5));
        }
        written
    }
}

fn number(program: &Program, state: Words) -> u32 {
    Order::in_state(program, state).number()
}

const TAKEN: u32 = 0;
const BAD_STATE: u32 = Refusal::BadState as u32;

fn assign(expr: Expr) -> Command {
    Command::Assign(1, expr)
}

// Row 1.

#[test]
fn a_buffer_above_16_384_bytes() {
    let mut order = Order::of(&add());
    order.buffer = lend(&add().encode(), 16_384);
    assert_eq!(order.number(), TAKEN);
    order.buffer.push(0);
    assert_eq!(order.number(), 1);
    // The output buffer: as long, and one more.
    let order = Order::of(&add());
    assert_eq!(order.written(16_384).number, TAKEN);
    assert_eq!(order.written(16_385).number, 1);
}

#[test]
fn a_used_length_above_the_buffer() {
    let mut order = Order::of(&add());
    assert_eq!(order.number(), TAKEN);
    order.used += 1;
    assert_eq!(order.number(), 1);
    order.used = usize::MAX;
    assert_eq!(order.number(), 1);
}

/// The longest program: 1,023 assignments of 16 bytes behind 12 are 16,380, and one block more is all.
#[test]
fn the_longest_program() {
    let mut longest = row_of_assignments(1, 1_023);
    longest.block.push(Command::Block(vec![]));
    let order = Order::of(&longest);
    assert_eq!(order.used, 16_384);
    assert_eq!(order.number(), TAKEN);
    assert_eq!(order.written(16_384).used, 16_384);
    assert_eq!(order.written(16_383).number, 10);
    // At its last place, the block's end, nothing is left but an empty program.
    let end = Order::in_state(&longest, words(16_372, &[]));
    assert_eq!(end.number(), TAKEN);
    assert_eq!(end.written(12).used, 12);
}

// Rows 2 to 5.

#[test]
fn the_rows_of_a_program() {
    let change = |place: usize, value: u8| {
        let mut order = Order::of(&add());
        order.buffer[place] = value;
        order.number()
    };
    // The kind, a term's among them; the length; k; a command's kind; its variable.
    assert_eq!(change(2, 1), 2);
    assert_eq!(change(2, 40), 2);
    assert_eq!(change(0, 63), 2);
    assert_eq!(change(4, 0), 3);
    assert_eq!(change(4, 17), 3);
    assert_eq!(change(14, 4), 4);
    assert_eq!(change(16, 0), 5);
    assert_eq!(change(16, 5), 5);
    assert_eq!(change(16, 4), TAKEN);
    let mut short = Order::of(&add());
    short.used = 7;
    assert_eq!(short.number(), 2);
}

// Row 12.

/// The outermost block is 1, and each loop or block command within adds 1: so 31 within it are taken.
#[test]
fn nested_over_32_deep() {
    for (within, wanted) in [(30, TAKEN), (31, TAKEN), (32, 12), (33, 12), (500, 12)] {
        assert_eq!(number(&nest_of_blocks(1, within), START), wanted);
        assert_eq!(number(&nest_of_loops(1, 1, within), START), wanted);
    }
    with_big_stack(|| assert_eq!(number(&nest_of_blocks(1, 4_093), START), 12));
}

/// Assignments add nothing, nor does a loop's own block; a block in it does. The deepest branch
/// counts, wherever it stands.
#[test]
fn what_adds_to_the_depth() {
    let deepest = |within: usize, innermost: Block| {
        let wrap = |inner, n| match n % 2 {
            0 => vec![Command::Block(inner)],
            _ => vec![Command::Loop(1, Bound::Literal(0), inner)],
        };
        (0..within).fold(innermost, wrap)
    };
    let wanted = |block: Block| number(&program(1, block), START);
    let one = || assign(Expr::Literal(5));
    assert_eq!(wanted(deepest(31, vec![one()])), TAKEN);
    assert_eq!(wanted(deepest(31, vec![Command::Block(vec![])])), 12);
    let empty_loop = || Command::Loop(1, Bound::Literal(0), vec![]);
    assert_eq!(wanted(deepest(31, vec![empty_loop()])), 12);
    assert_eq!(wanted(deepest(30, vec![empty_loop()])), TAKEN);
    // A row of blocks is not deep.
    assert_eq!(number(&row_of_blocks(1, 100), START), TAKEN);
    // In front, in the middle, at the end of its block.
    for (within, number) in [(31, TAKEN), (32, 12)] {
        for place in 0..3 {
            let mut row = vec![one(), Command::Block(vec![]), one()];
            row.splice(place..place, deepest(within, vec![]));
            assert_eq!(wanted(row), number);
        }
    }
}

// Row 6.

#[test]
fn a_store_of_other_than_k_values() {
    for (values, wanted) in [(4, TAKEN), (3, 6), (5, 6), (0, 6), (16, 6)] {
        let mut order = Order::of(&add());
        order.store = vec![3; values];
        assert_eq!(order.number(), wanted);
    }
}

// Row 13, condition by condition. Below stands the program that most of them are tried on:
//
//   0  {                            a block, with its first command at 4
//   4    x1 := x1 + 1
//  20    for x1 := 1 to 2 {         a loop, with its body's first command at 40
//  40      x1 := x1 - 1
//  56      { x1 := 7 }              a block, with its one command at 60
//  76    }                          the loop's end, and the outer block's
//  76  x1 := x1                     no sum
//  92                               the outermost block's end

fn sample() -> Program {
    let inner = Command::Block(vec![assign(Expr::Literal(7))]);
    let body = vec![assign(Expr::MinusOne(1)), inner];
    let outer = vec![
        assign(Expr::PlusOne(1)),
        Command::Loop(1, Bound::Literal(2), body),
    ];
    let last = assign(Expr::Variable(1));
    let sample = program(1, vec![Command::Block(outer), last]);
    assert_eq!(sample.encoded_len(), 12 + 92);
    sample
}

/// The number for these entries in the sample's outer block, which is at its loop.
fn in_loop(entries: &[Entry]) -> u32 {
    let all = [&[block(0, 20)], entries].concat();
    number(&sample(), words(0, &all))
}

/// The same with a sum that waits.
fn in_loop_with_sum(entries: &[Entry]) -> u32 {
    let all = [&[block(0, 20)], entries].concat();
    number(&sample(), waiting(words(0, &all), 5))
}

/// Every place from 0 to behind the end, for each block: the outermost one; the outer one, within it;
/// the loop's body; the block in that.
#[test]
fn a_place_is_a_command_start_or_the_blocks_end() {
    for place in (0..130).chain([1 << 16, 1 << 31, MAX - 1, MAX]) {
        let wanted = |places: &[u32]| match places.contains(&place) {
            true => TAKEN,
            false => BAD_STATE,
        };
        assert_eq!(
            number(&sample(), words(place, &[])),
            wanted(&[0, 76, 92]),
            "{place}"
        );
        let outer = number(&sample(), words(0, &[block(0, place)]));
        assert_eq!(outer, wanted(&[4, 20, 76]), "{place}");
        // A body's place is kept with 2 added.
        if place < MAX - 1 {
            let of_body = in_loop(&[body(20, 2, 1, place)]);
            assert_eq!(of_body, wanted(&[40, 56, 76]), "{place}");
        }
        let inner = in_loop(&[body(20, 2, 1, 56), block(56, place)]);
        assert_eq!(inner, wanted(&[60, 76]), "{place}");
    }
}

/// The outermost block may be the only one, and empty.
#[test]
fn places_in_an_empty_program() {
    for (place, wanted) in [(0, TAKEN), (1, BAD_STATE), (4, BAD_STATE), (MAX, BAD_STATE)] {
        assert_eq!(number(&program(1, vec![]), words(place, &[])), wanted);
    }
}

/// Held open as a loop or block: where an assignment stands, where nothing is left, as the other of
/// the two, or as what there is not.
#[test]
fn what_is_held_open_is_one() {
    let outermost = |place, entry: Entry| number(&sample(), words(place, &[entry]));
    assert_eq!(outermost(0, block(0, 20)), TAKEN);
    for what in [2, 3, 4, 257, MAX] {
        assert_eq!(outermost(0, [what, 0, 0, 0, 0, 20]), BAD_STATE, "{what}");
    }
    // 0 is no entry: nothing of it is looked at.
    assert_eq!(outermost(0, [0, 9, 9, 9, 9, 9]), TAKEN);
    assert_eq!(outermost(0, unrolling(0, 2, 1)), BAD_STATE);
    for place in [76, 92] {
        assert_eq!(outermost(place, block(place, place + 4)), BAD_STATE);
        assert_eq!(outermost(place, unrolling(place, 2, 1)), BAD_STATE);
        assert_eq!(outermost(place, block(place, place)), BAD_STATE);
    }
    assert_eq!(in_loop(&[unrolling(20, 2, 1)]), TAKEN);
    for what in [1, 3, MAX] {
        assert_eq!(in_loop(&[[what, 20, 2, 1, 0, 0]]), BAD_STATE, "{what}");
        assert_eq!(in_loop(&[[what, 20, 2, 1, 1, 42]]), BAD_STATE, "{what}");
    }
    // A block whose place is one, held where a loop stands.
    assert_eq!(in_loop(&[block(20, 40)]), BAD_STATE);
}

/// Held open, but not at its holder's place: the loop is there, and the outer block has not come to
/// it, or is behind it. The record's own place is asked as well.
#[test]
fn what_is_held_open_is_at_its_holders_place() {
    let at = |place, entry| number(&sample(), words(0, &[block(0, place), entry]));
    assert_eq!(at(20, unrolling(20, 2, 1)), TAKEN);
    assert_eq!(at(4, unrolling(20, 2, 1)), BAD_STATE);
    assert_eq!(at(76, unrolling(20, 2, 1)), BAD_STATE);
    for place in [0, 4, 19, 21, 40, 76, MAX] {
        assert_eq!(at(20, unrolling(place, 2, 1)), BAD_STATE, "{place}");
    }
    let outermost = |entry| number(&sample(), words(0, &[entry]));
    assert_eq!(outermost(block(0, 4)), TAKEN);
    assert_eq!(outermost(block(4, 4)), BAD_STATE);
    assert_eq!(outermost(block(76, 4)), BAD_STATE);
}

/// Within a loop that is unrolling, running at 0 or with its index still to be stored nothing is open.
#[test]
fn nothing_is_open_within_a_loop_that_is_at_no_place() {
    let inner = block(56, 60);
    assert_eq!(in_loop(&[body(20, 2, 1, 56), inner]), TAKEN);
    for loop_at_no_place in [unrolling(20, 2, 1), at_zero(20, 2), index(20, 2, 1)] {
        assert_eq!(in_loop(&[loop_at_no_place]), TAKEN);
        for within in [
            inner,
            block(20, 24),
            unrolling(20, 2, 1),
            [3, 0, 0, 0, 0, 0],
        ] {
            assert_eq!(in_loop(&[loop_at_no_place, within]), BAD_STATE);
        }
    }
}

/// Body progress where there is none: unrolling, and at 0. The numbers of it: the index, and places.
#[test]
fn no_body_progress_while_unrolling_or_at_0() {
    for progress in [1, 2, 42, 58, 78, MAX] {
        assert_eq!(in_loop(&[[2, 20, 2, 1, 0, progress]]), BAD_STATE);
        assert_eq!(in_loop(&[[2, 20, 2, 0, 0, progress]]), BAD_STATE);
        assert_eq!(in_loop(&[[2, 20, 2, 0, 1, progress]]), BAD_STATE);
    }
    assert_eq!(in_loop(&[[2, 20, 2, 1, 0, 0]]), TAKEN);
    assert_eq!(in_loop(&[[2, 20, 2, 0, 0, 0]]), TAKEN);
    assert_eq!(in_loop(&[[2, 20, 2, 0, 1, 0]]), TAKEN);
}

/// Body progress missing: in a turn there is some.
#[test]
fn body_progress_in_a_turn() {
    for reached in [1, 2] {
        for (progress, wanted) in [(0, BAD_STATE), (1, TAKEN), (42, TAKEN), (78, TAKEN)] {
            assert_eq!(in_loop(&[[2, 20, 2, reached, 1, progress]]), wanted);
        }
    }
}

/// A reached count above its top; equal to it is taken. There is no top that the program asks for.
#[test]
fn a_reached_count_is_not_above_its_top() {
    for (top, reached, wanted) in [
        (2, 1, TAKEN),
        (2, 2, TAKEN),
        (2, 3, BAD_STATE),
        (1_000, 1_000, TAKEN),
        (1_000, 1_001, BAD_STATE),
        (MAX - 1, MAX, BAD_STATE),
        (0, MAX, BAD_STATE),
    ] {
        assert_eq!(in_loop(&[unrolling(20, top, reached)]), wanted);
        assert_eq!(in_loop(&[index(20, top, reached)]), wanted);
        assert_eq!(in_loop(&[body(20, top, reached, 40)]), wanted);
    }
    assert_eq!(in_loop(&[unrolling(20, 0, 0)]), TAKEN);
    assert_eq!(in_loop(&[at_zero(20, 0)]), TAKEN);
    // An outer loop's counts are asked as the innermost one's are.
    let nested = nest_of_loops(1, 2, 2);
    for (reached, wanted) in [(2, TAKEN), (3, BAD_STATE)] {
        let entries = [body(0, 2, reached, 20), unrolling(20, 2, 1)];
        assert_eq!(number(&nested, words(0, &entries)), wanted);
    }
}

/// A sum waits only before a plus one or minus one: not before a block, a loop, another assignment,
/// or the end.
#[test]
fn a_sum_waits_where_one_stands() {
    let with_sum = |place, entries: &[Entry]| number(&sample(), waiting(words(place, entries), 5));
    assert_eq!(with_sum(0, &[block(0, 4)]), TAKEN);
    assert_eq!(in_loop_with_sum(&[body(20, 2, 1, 40)]), TAKEN);
    // Before a block, before x1 := x1, at the end; before the loop; before the block in the body,
    // before x1 := 7, at that block's end and at the body's.
    for place in [0, 76, 92] {
        assert_eq!(with_sum(place, &[]), BAD_STATE);
    }
    for place in [20, 76] {
        assert_eq!(with_sum(0, &[block(0, place)]), BAD_STATE);
    }
    for place in [56, 76] {
        assert_eq!(in_loop_with_sum(&[body(20, 2, 1, place)]), BAD_STATE);
    }
    for place in [60, 76] {
        let entries = [body(20, 2, 1, 56), block(56, place)];
        assert_eq!(in_loop_with_sum(&entries), BAD_STATE);
    }
}

/// Under a loop that is at no place no plus one stands, whatever its body begins with.
#[test]
fn no_sum_waits_under_a_loop_with_no_place() {
    for entry in [
        unrolling(20, 2, 1),
        unrolling(20, 2, 0),
        at_zero(20, 2),
        index(20, 2, 1),
    ] {
        assert_eq!(in_loop(&[entry]), TAKEN);
        assert_eq!(in_loop_with_sum(&[entry]), BAD_STATE);
    }
}

/// All 31 entries are looked at, the last as the first: with 31 blocks in the outermost one no 0 ends
/// the list.
#[test]
fn the_last_entry_is_looked_at() {
    let nested = nest_of_blocks(1, 31);
    // Block n stands at 4·n, and its only command, or its end, at 4·n + 4.
    let mut entries: Vec<Entry> = (0..31).map(|n| block(4 * n, 4 * n + 4)).collect();
    assert_eq!(number(&nested, words(0, &entries)), TAKEN);
    for (word, value) in [(0, 2), (0, 3), (1, 119), (5, 120), (5, 125)] {
        let mut wrong = entries.clone();
        wrong[30][word] = value;
        assert_eq!(number(&nested, words(0, &wrong)), BAD_STATE);
    }
    entries[30][0] = 0;
    assert_eq!(number(&nested, words(0, &entries)), TAKEN);
}

// What a state does not hold.

/// Words that the state does not hold are not looked at, and are 0 in what is handed out, also after
/// 0 steps; of `[1]` and `+4` it matters only whether they are 0, and they are handed out as 0 or 1.
#[test]
fn words_that_are_not_held() {
    let sample = sample();
    let states = [
        START,
        words(92, &[]),
        words(0, &[block(0, 20)]),
        waiting(words(0, &[block(0, 4)]), 0),
        words(0, &[block(0, 20), unrolling(20, 2, 1)]),
        words(0, &[block(0, 20), at_zero(20, 2)]),
        words(0, &[block(0, 20), index(20, 2, 1)]),
        waiting(words(0, &[block(0, 20), body(20, 2, 1, 40)]), MAX),
        words(0, &[block(0, 20), body(20, 2, 1, 56), block(56, 60)]),
    ];
    cases(300, |random| {
        for tidy in states {
            for budget in [0, 1, 5] {
                let mut wanted = Order::in_state(&sample, tidy);
                let mut order = Order::in_state(&sample, other_words(random, &tidy));
                assert_ne!(order.state, tidy);
                assert_eq!(order.written(16_384), wanted.written(16_384));
                let counted = order.run(budget);
                assert_eq!(counted, wanted.run(budget));
                assert_eq!((order.state, order.store), (wanted.state, wanted.store));
                if budget == 0 {
                    assert_eq!(order.state, tidy);
                }
            }
        }
    });
}

impl Order {
    fn run(&mut self, budget: u32) -> Counted {
        let Order {
            buffer,
            used,
            state,
            store,
        } = self;
        let counted = run_counting(buffer, *used, state, store, budget);
        assert_eq!(counted.number, 0);
        counted
    }
}

/// A refusal hands back what is not held as it came, and any other word.
#[test]
fn a_refusal_changes_no_word() {
    cases(300, |random| {
        let mut state = other_words(random, &words(0, &[block(0, 20), unrolling(20, 2, 1)]));
        state[4] = 4; // The block is not at its holder's place.
        let order = Order::in_state(&sample(), state);
        assert_eq!(order.number(), BAD_STATE);
        let deep = nest_of_blocks(1, 32);
        assert_eq!(Order::in_state(&deep, state).number(), 12);
    });
}

// Row 10.

/// Just long enough, and one byte less. ADD unrolled down to the literal `left`, from 20: the loop,
/// 36 bytes, and 36 for each turn, behind 12.
#[test]
fn an_expansion_longer_than_the_output_buffer() {
    for left in [20, 19, 3, 0] {
        let order = Order::in_state(&add(), words(16, &[unrolling(16, 20, left)]));
        let length = 48 + 36 * (20 - left as usize);
        assert_eq!(order.written(length).used as usize, length);
        assert_eq!(order.written(length + 1).used as usize, length);
        assert_eq!(order.written(length - 1).number, 10);
        assert_eq!(order.written(0).number, 10);
    }
}

/// Longer than any buffer, and than 16 and 32 bits tell: the length is worked out without wrapping.
/// 48 + 36·n bytes are 16,356 with 453 turns and 16,392 with 454; they are 65,532 with 1,819 and
/// 65,568 with 1,820, of which 16 bits would keep 32.
#[test]
fn an_expansion_longer_than_any_buffer() {
    let unrolled = |turns| Order::in_state(&add(), words(16, &[unrolling(16, turns, 0)]));
    assert_eq!(unrolled(453).written(16_384).used, 16_356);
    let around_2_to_the_16 = [1_818, 1_819, 1_820, 1_821, 2_000];
    // 36·n is a multiple of 2^32 where n is one of 2^30, and then the length seems to be 48.
    let around_2_to_the_32 = [1 << 30, (1 << 30) + 1, 3 << 30, MAX - 1, MAX];
    for turns in [&[454, 455][..], &around_2_to_the_16, &around_2_to_the_32].concat() {
        assert_eq!(unrolled(turns).written(16_384).number, 10, "{turns}");
        // The run takes it all the same.
        assert_eq!(unrolled(turns).run(100).steps, 100);
    }
    // 31 loops within each other, all with the largest top.
    let nested = nest_of_loops(1, 1, 31);
    let entries: Vec<Entry> = (0..31)
        .map(|n| body(20 * n, MAX, 1, 20 * (n + 1)))
        .collect();
    let order = Order::in_state(&nested, words(0, &entries));
    assert_eq!(order.written(16_384).number, 10);
}

/// The record written out has the program's k, and zeros behind it: 16 variables, and an order that
/// finishes.
#[test]
fn what_is_written_out() {
    let empty = Order::of(&program(16, vec![]));
    let mut out = [0xA5; 20];
    let written = expand(&empty.buffer, 12, &START, &empty.store, &mut out);
    let record = [12, 0, 7, 0, 16, 0, 0, 0, 4, 0, 1, 0];
    assert_eq!((written.number, written.used), (0, 12));
    assert_eq!(out[..12], record);
    assert_eq!(out[12..], [0; 8]);
}

// The order of the rows: of each two the first is given.

#[test]
fn the_order_of_the_rows() {
    let wrong_state = words(1, &[]);
    // 1 for the output buffer before 2 for the program, and 1 for the program as well.
    let mut order = Order::in_state(&add(), wrong_state);
    order.store.clear();
    order.buffer[2] = 1;
    assert_eq!(order.written(16_385).number, 1);
    assert_eq!(order.number(), 2);
    // 3 before 4, 4 before 5, 5 before 12, all before 6 and 13.
    let mut order = Order::in_state(&nest_of_loops(1, 1, 32), wrong_state);
    order.store.clear();
    let index = 12 + 4; // The variable of the outermost loop.
    order.buffer[index] = 2;
    assert_eq!(order.number(), 5);
    order.buffer[12 + 2] = 4;
    assert_eq!(order.number(), 4);
    order.buffer[4] = 0;
    assert_eq!(order.number(), 3);
    // 12 before 6, and before 13 alone.
    let mut order = Order::in_state(&nest_of_loops(1, 1, 32), wrong_state);
    assert_eq!(order.number(), 12);
    order.store.clear();
    assert_eq!(order.number(), 12);
    // 6 before 13.
    let mut order = Order::in_state(&add(), wrong_state);
    assert_eq!(order.number(), 13);
    order.store.clear();
    assert_eq!(order.number(), 6);
    // 12, 6 and 13 before 10.
    let mut order = Order::in_state(&add(), wrong_state);
    assert_eq!(order.written(0).number, 13);
    order.store.clear();
    assert_eq!(order.written(0).number, 6);
    order.buffer = nest_of_loops(1, 1, 32).encode();
    order.used = order.buffer.len();
    assert_eq!(order.written(0).number, 12);
    assert_eq!(Order::of(&add()).written(0).number, 10);
}
