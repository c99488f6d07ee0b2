//! The figures that 01 states, each as it stands there or worked out by hand from its rules.

use other::both::{run_reducer, run_stepper, translate};
use other::calls::{Ran, Reduced, Written};
use other::check::Refusal;
use other::codec::Record;
use other::examples::{add, examples, nest_of_blocks, row_of_blocks, Example};
use other::generate::lend;
use other::line::line;
use other::run::stepper::Config;
use other::run::Outcome;
use other::translate::translate as translation;
use other::tree::{with_big_stack, Atom, Program, Term, TermRecord};

const ROOM: usize = 16_384;

/// ADD, byte by byte from 01's table of records.
const ADD: [u8; 64] = [
    0x40, 0, 7, 0, 4, 0, 0, 0, // program of 64 bytes, k = 4
    0x38, 0, 1, 0, // block of 56
    0x10, 0, 2, 0, 3, 0, 0, 0, // assignment of 16, to x3
    0x08, 0, 0x11, 0, 1, 0, 0, 0, // variable x1
    0x24, 0, 3, 0, 4, 0, 0, 0, // loop of 36, index x4
    0x08, 0, 0x11, 0, 2, 0, 0, 0, // variable x2
    0x14, 0, 1, 0, // block of 20
    0x10, 0, 2, 0, 3, 0, 0, 0, // assignment of 16, to x3
    0x08, 0, 0x12, 0, 3, 0, 0, 0, // x3 plus one
];

fn add_on(x1: u32, x2: u32) -> Config {
    let (program, store) = (add(), vec![x1, x2, 0, 0]);
    Config { program, store }
}

fn step(config: &Config, room: usize, budget: u32) -> (Ran, Vec<u32>) {
    let record = config.program.encode();
    let mut store = config.store.clone();
    let mut buffer = lend(&record, room);
    let ran = run_stepper(&mut buffer, record.len(), &mut store, budget);
    (ran, store)
}

fn reduce(config: &Config, room: usize, budget: u32) -> Reduced {
    let record = config.term().encode();
    run_reducer(&mut lend(&record, room), record.len(), budget)
}

fn end(outcome: Outcome, steps: u32, budget: u32, used: u32) -> Ran {
    Ran {
        number: 0,
        outcome: outcome.number(),
        steps,
        left: budget - steps,
        used,
    }
}

/// The end of a run of the reducer: the same, and how many variables it replaced.
fn reduced(ran: Ran, replaced: u64) -> Reduced {
    Reduced { ran, replaced }
}

#[test]
fn add_is_64_bytes_and_its_term_172() {
    assert_eq!(add().encode(), ADD);
    assert_eq!(add().encoded_len(), 64);
    assert_eq!(translation(&add()).encoded_len(), 172);
    assert_eq!(translation(&add()).encode().len(), 172);
}

/// The steps of ADD are 3 + 5·x2. Finished, the configuration is 12 bytes and the term 44. The
/// reducer replaces 5 + 5·x2 variables, as `replaced.rs` has it, reduction by reduction.
#[test]
fn add_takes_3_and_5_for_each_turn() {
    with_big_stack(|| {
        for x2 in [0, 1, 2, 3, 10, 100, 213] {
            let steps = 3 + 5 * x2;
            let (ran, store) = step(&add_on(7, x2), ROOM, 9_999);
            assert_eq!(ran, end(Outcome::Finished, steps, 9_999, 12));
            assert_eq!(store, [7, x2, 7 + x2, x2]);
            let ran = reduce(&add_on(7, x2), ROOM, 9_999);
            let ended = end(Outcome::Finished, steps, 9_999, 44);
            assert_eq!(ran, reduced(ended, u64::from(5 + 5 * x2)));
        }
    });
}

/// After the first step and j turns unrolled the configuration is 48 + 36·j bytes: a turn adds a
/// block's head of 4, an assignment of 16 and the body of 16. So 453 turns fit 16,384 bytes
/// (16,356) and 454 do not (16,392). The term is 156 + 76·j: a let-all's head of 4, a let-one of
/// 16 and the body of 56. So 213 turns fit (16,344) and 214 do not (16,420). Up to there the reducer
/// has replaced the start's x3 alone: unrolling replaces nothing.
#[test]
fn add_of_400_has_room_in_the_stepper_only() {
    with_big_stack(|| {
        let (ran, store) = step(&add_on(7, 400), ROOM, 1_000_000);
        assert_eq!(ran, end(Outcome::Finished, 2_003, 1_000_000, 12));
        assert_eq!(store, [7, 400, 407, 400]);
        let ran = reduce(&add_on(7, 400), ROOM, 1_000_000);
        let ended = end(Outcome::NoRoom, 1 + 213, 1_000_000, 16_344);
        assert_eq!(ran, reduced(ended, 1));

        let (ran, _) = step(&add_on(7, 453), ROOM, 1_000_000);
        assert_eq!(ran, end(Outcome::Finished, 3 + 5 * 453, 1_000_000, 12));
        let (ran, _) = step(&add_on(7, 454), ROOM, 1_000_000);
        assert_eq!(ran, end(Outcome::NoRoom, 1 + 453, 1_000_000, 16_356));
    });
}

#[test]
fn examples_p1_to_p9_in_both_engines() {
    for example in examples() {
        let Example { program, store, .. } = example;
        let config = Config { program, store };
        let (ran, values) = step(&config, ROOM, 1_000_000);
        let got = (ran.number, ran.outcome, ran.steps, ran.left);
        let want = (
            0,
            example.outcome.number(),
            example.steps,
            1_000_000 - example.steps,
        );
        assert_eq!(got, want, "{} in the stepper", example.name);
        assert_eq!(values, example.end, "{}", example.name);
        let ran = reduce(&config, ROOM, 1_000_000).ran;
        let got = (ran.number, ran.outcome, ran.steps, ran.left);
        assert_eq!(got, want, "{} in the reducer", example.name);
    }
}

/// The two states of P1 when it is finished, in every byte of the two buffers.
#[test]
fn p1_ends_with_an_empty_block_and_a_tuple_of_the_values() {
    let config = add_on(7, 3);
    let mut buffer = lend(&ADD, 300);
    run_stepper(&mut buffer, 64, &mut [7, 3, 0, 0], 18);
    let mut expected = vec![0; 300];
    expected[..12].copy_from_slice(&[0x0C, 0, 7, 0, 4, 0, 0, 0, 4, 0, 1, 0]);
    assert_eq!(buffer, expected);

    let mut buffer = lend(&config.term().encode(), 400);
    run_reducer(&mut buffer, 172, 18);
    let tuple = Term::Tuple([7, 3, 10, 3].map(Atom::Numeral).to_vec());
    let record = TermRecord::new(4, tuple).encode();
    assert_eq!(buffer[..44], record);
    assert_eq!(buffer[44..], [0; 356]);
}

#[test]
fn p9_has_01s_bytes() {
    let program = [0x0C, 0, 7, 0, 1, 0, 0, 0, 4, 0, 1, 0];
    let term = [
        0x14, 0, 0x28, 0, 1, 0, 0, 0, 0x0C, 0, 0x24, 0, 8, 0, 0x21, 0, 1, 0, 0, 0,
    ];
    let block = vec![];
    assert_eq!(Program::new(1, block).encode(), program);
    let mut out = [0xA5; 24];
    let written = translate(&program, 12, &mut out);
    assert_eq!((written.number, written.used), (0, 20));
    assert_eq!(out[..20], term);
    assert_eq!(out[20..], [0; 4]);
}

/// "On P1's store, ADD's term needs 384 bytes: with 383 the reducer stops at 3 steps with no room."
/// By hand: 172, after the let-one 156, then 76 more for each turn: 232, 308, 384. Replaced by the
/// let-one: 1; by unrolling: nothing; in all: 5 + 5·3.
#[test]
fn the_reducer_needs_384_bytes() {
    let p1 = add_on(7, 3);
    let no_room = reduced(end(Outcome::NoRoom, 3, 100, 308), 1);
    let finished = reduced(end(Outcome::Finished, 18, 100, 44), 20);
    let spent = reduced(end(Outcome::Spent, 4, 4, 384), 1);
    assert_eq!(reduce(&p1, 383, 100), no_room);
    assert_eq!(reduce(&p1, 384, 100), finished);
    assert_eq!(reduce(&p1, 384, 4), spent);
}

/// "The configuration needs 156: with 155 the stepper stops at 3."
/// By hand: 64, after the assignment 48, then 36 more for each turn: 84, 120, 156.
#[test]
fn the_stepper_needs_156_bytes() {
    let p1 = add_on(7, 3);
    let (ran, store) = step(&p1, 155, 100);
    assert_eq!(ran, end(Outcome::NoRoom, 3, 100, 120));
    assert_eq!(store, [7, 3, 7, 0]);
    assert_eq!(step(&p1, 156, 100).0, end(Outcome::Finished, 18, 100, 12));
    assert_eq!(step(&p1, 156, 4).0, end(Outcome::Spent, 4, 4, 156));
}

/// At k = 16 a tuple is 4 + 8·16 = 132 bytes, so an empty block in a row becomes a
/// let-all of 4 + 132 bytes before the rest, and the row ends with one tuple after the header of 8:
/// 8 + 136·n + 132. For 481 that is 65,556, more than 16 bits hold; for 480 it is 65,420. A program
/// of 16,384 bytes holds (16,384 − 12) / 4 = 4,093 empty blocks: 556,788.
#[test]
fn lengths_do_not_wrap_at_16_bits() {
    with_big_stack(|| {
        let mut out = vec![0xA5; ROOM];
        for (blocks, program, term) in [
            (480, 1_932, 65_420),
            (481, 1_936, 65_556),
            (4_093, 16_384, 556_788),
        ] {
            let record = row_of_blocks(16, blocks);
            assert_eq!(record.encoded_len(), program);
            assert_eq!(translation(&record).encoded_len(), term);
            let written = translate(&record.encode(), program, &mut out);
            assert_eq!(written, Written::refused(Refusal::OutputTooShort));
        }
        assert_eq!(out, [0xA5; ROOM]);
    });
}

/// 12 + 4·4,093 bytes are 4,094 blocks deep, the outermost counted. Each goes in one step, the
/// innermost first. The translation at k = 1 is 8 + 16·4,093 + 12 bytes.
#[test]
fn the_deepest_nest_runs_to_its_end() {
    with_big_stack(|| {
        let program = nest_of_blocks(1, 4_093);
        assert_eq!(program.encoded_len(), ROOM);
        assert_eq!(translation(&program).encoded_len(), 65_508);
        let store = vec![9];
        let (ran, store) = step(&Config { program, store }, ROOM, 5_000);
        assert_eq!(ran, end(Outcome::Finished, 4_093, 5_000, 12));
        assert_eq!(store, [9]);
    });
}

/// What the program prints for P1 to P9; P1's line is 01's own.
#[test]
fn lines_of_the_examples() {
    let printed: Vec<String> = examples()
        .iter()
        .map(|example| line(&input(example)))
        .collect();
    let expected = [
        "finished 18 finished 18 7 3 10 3",
        "finished 3 finished 3 7 0 7 0",
        "over 5 over 5 4294967295 1 4294967295 1",
        "finished 2 finished 2 0",
        "finished 2 finished 2 4294967295",
        "over 0 over 0 4294967295",
        "finished 2 finished 2 9",
        "finished 14 finished 14 0",
        "finished 12 finished 12 4 2",
        "finished 0 finished 0 5",
    ];
    assert_eq!(printed, expected);
}

fn input(example: &Example) -> Vec<u8> {
    let mut input = example.program.encode();
    input.extend(example.store.iter().flat_map(|value| value.to_le_bytes()));
    input
}
