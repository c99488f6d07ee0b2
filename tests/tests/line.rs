//! The program's line on bad input, and its other outcomes (01, "Bench loads").

use other::codec::Record;
use other::examples::{add, program, row_of_blocks};
use other::generate::programs::program as generated_program;
use other::line::line;
use other::random::cases;
use other::tree::{with_big_stack, Bound, Command, Expr, Program};

fn input(program: &Program, store: &[u32]) -> Vec<u8> {
    let mut input = program.encode();
    input.extend(store.iter().flat_map(|value| value.to_le_bytes()));
    input
}

fn add_on(x1: u32, x2: u32) -> Vec<u8> {
    input(&add(), &[x1, x2, 0, 0])
}

/// Under 2 bytes is 2, whatever they say.
#[test]
fn an_empty_input_and_one_byte() {
    assert_eq!(line(&[]), "refused 2");
    for byte in 0..=255 {
        assert_eq!(line(&[byte]), "refused 2");
    }
}

/// A first length above 16,384 is 1, and is looked at before the input's own length.
#[test]
fn a_first_length_above_16384() {
    assert_eq!(line(&[0x01, 0x40]), "refused 1");
    assert_eq!(line(&[0xFF, 0xFF]), "refused 1");
    assert_eq!(line(&[0x00, 0x40]), "refused 2");
    let mut long = vec![0; 40_000];
    long[..2].copy_from_slice(&16_385u16.to_le_bytes());
    assert_eq!(line(&long), "refused 1");
}

/// An input shorter than its first length is 2, at every length from 2 bytes on.
#[test]
fn an_input_shorter_than_its_first_length() {
    let whole = add_on(7, 3);
    for len in 0..64 {
        assert_eq!(line(&whole[..len]), "refused 2", "{len} bytes");
    }
    // From there on the record is whole and the values are not.
    for len in 64..80 {
        assert_eq!(line(&whole[..len]), "refused 6", "{len} bytes");
    }
    assert_eq!(line(&whole), "finished 18 finished 18 7 3 10 3");
}

/// A first length below 8 leaves a record of that length: under 8 bytes used, row 2.
#[test]
fn a_first_length_below_8() {
    for len in 0..8 {
        let mut bytes = vec![0; 30];
        bytes[0] = len;
        bytes[2] = 7;
        assert_eq!(line(&bytes), "refused 2");
    }
}

/// A remainder of other than 4·k bytes is 6, however long the input is.
#[test]
fn a_remainder_of_other_length() {
    let whole = add_on(7, 3);
    for extra in [1, 2, 3, 4, 16, 65_536, 1 << 22] {
        let mut longer = whole.clone();
        longer.resize(whole.len() + extra, 0);
        assert_eq!(line(&longer), "refused 6", "{extra} bytes more");
    }
}

/// Rows 2 to 5 and 15 of the record come before the remainder is looked at.
#[test]
fn rows_of_the_record() {
    let sound = add_on(7, 3);
    let with = |place: usize, byte: u8| {
        let mut bytes = sound.clone();
        bytes[place] = byte;
        let with_remainder = line(&bytes);
        assert_eq!(line(&bytes[..70]), with_remainder);
        with_remainder
    };
    assert_eq!(with(2, 8), "refused 2");
    assert_eq!(with(2, 40), "refused 2");
    assert_eq!(with(3, 1), "refused 2");
    assert_eq!(with(4, 0), "refused 3");
    assert_eq!(with(4, 17), "refused 3");
    assert_eq!(with(7, 1), "refused 3");
    assert_eq!(with(8, 57), "refused 4");
    assert_eq!(with(38, 18), "refused 4");
    assert_eq!(with(16, 0), "refused 5");
    assert_eq!(with(60, 5), "refused 5");
    // The first length names the record, so a shorter one cuts the block short.
    assert_eq!(with(0, 63), "refused 4");
    // Of edition 2, whose ceiling would be the block's head, 65,592; then no block is left.
    assert_eq!(with(2, 9), "refused 4");
}

/// k = 2, {x1 := 6; x1 := x1 + 1} under a ceiling: 48 bytes, the literal at 28 and the second
/// assignment's variable at 36.
fn six_and_one(ceiling: u32, store: &[u32]) -> Vec<u8> {
    let six = Command::Assign(1, Expr::Literal(6));
    let block = vec![six, Command::Assign(1, Expr::PlusOne(1))];
    input(&program(2, block).under(ceiling), store)
}

/// Edition 2 (02, C-17). A ceiling of 7 is just enough; 6 is for the literal, but not for its sum; 5 is
/// not for the literal, which is 15. Then the values: one above the ceiling is 16.
#[test]
fn a_program_under_a_ceiling() {
    assert_eq!(line(&six_and_one(7, &[7, 0])), "finished 3 finished 3 7 0");
    assert_eq!(line(&six_and_one(6, &[6, 6])), "over 1 over 1 6 6");
    assert_eq!(line(&six_and_one(5, &[5, 5])), "refused 15");
    assert_eq!(line(&six_and_one(7, &[8, 0])), "refused 16");
    assert_eq!(line(&six_and_one(7, &[0, 8])), "refused 16");
    assert_eq!(
        line(&six_and_one(u32::MAX, &[0, u32::MAX])),
        "finished 3 finished 3 7 4294967295"
    );
}

/// 2 for a header of 8 to 11 bytes, whatever k is; then 3, 4 and 5; 15 before 6, and 6 before 16.
#[test]
fn the_rows_of_edition_2_in_order() {
    for used in 8..12 {
        for k in [2, 0, 17] {
            let mut bytes = six_and_one(5, &[9, 9]);
            (bytes[0], bytes[4]) = (used, k);
            bytes.truncate(usize::from(used));
            assert_eq!(line(&bytes), "refused 2", "{used} bytes");
            // What follows is the remainder, and not looked at.
            bytes.extend([0; 8]);
            assert_eq!(line(&bytes), "refused 2", "{used} bytes");
        }
    }
    // With the ceiling there and no block, 4; and k before that.
    let mut bytes = six_and_one(5, &[9, 9]);
    bytes[0] = 12;
    assert_eq!(line(&bytes), "refused 4");
    bytes[4] = 17;
    assert_eq!(line(&bytes), "refused 3");
    let mut bytes = six_and_one(5, &[9, 9]);
    let short = bytes.len() - 1;
    assert_eq!(line(&bytes[..short]), "refused 15");
    bytes[36] = 3;
    assert_eq!(line(&bytes[..short]), "refused 5");
    bytes[42] = 20; // The kind of the last expression.
    assert_eq!(line(&bytes[..short]), "refused 4");
    let bytes = six_and_one(6, &[9, 9]);
    assert_eq!(line(&bytes[..short]), "refused 6");
    assert_eq!(line(&bytes), "refused 16");
}

/// 16 before 10: 120 blocks at k = 16 have a term that is too long. In edition 2 it has 4 bytes more:
/// 119 blocks have 16,328, which fit.
#[test]
fn a_value_above_before_a_term_that_does_not_fit() {
    with_big_stack(|| {
        let blocks = |count| row_of_blocks(16, count).under(4);
        let (mut values, zeros) = ([0; 16], " 0".repeat(15));
        values[15] = 4;
        assert_eq!(line(&input(&blocks(120), &values)), "refused 10");
        let wanted = format!("finished 119 finished 119{zeros} 4");
        assert_eq!(line(&input(&blocks(119), &values)), wanted);
        values[15] = 5;
        assert_eq!(line(&input(&blocks(120), &values)), "refused 16");
        assert_eq!(line(&input(&blocks(119), &values)), "refused 16");
        assert_eq!(line(&input(&blocks(120), &values[1..])), "refused 6");
    });
}

/// 119 empty blocks at k = 16 have a term of 16,324 bytes; 120 have one of 16,460. Refusal 6 comes
/// before 10.
#[test]
fn a_term_that_does_not_fit() {
    with_big_stack(|| {
        let zeros = " 0".repeat(16);
        let fits = input(&row_of_blocks(16, 119), &[0; 16]);
        assert_eq!(line(&fits), format!("finished 119 finished 119{zeros}"));
        for blocks in [120, 481, 4_093] {
            let program = row_of_blocks(16, blocks);
            assert_eq!(line(&input(&program, &[0; 16])), "refused 10");
            assert_eq!(line(&input(&program, &[0; 15])), "refused 6");
            assert_eq!(line(&input(&program, &[0; 17])), "refused 6");
        }
    });
}

/// Over, with the store as it was left (the steps are those of P3).
#[test]
fn over_prints_the_store_as_left() {
    let printed = line(&add_on(u32::MAX, 1));
    assert_eq!(printed, "over 5 over 5 4294967295 1 4294967295 1");
}

/// The term of ADD is 156 + 76·j bytes after j turns unrolled and the configuration 48 + 36·j, so
/// the reducer's room gives out after step 1 + 213 and the stepper's after 1 + 453 (see
/// figures.rs). Only the first assignment has stored by then.
#[test]
fn no_room_prints_the_store_as_left() {
    with_big_stack(|| {
        let printed = line(&add_on(7, 400));
        assert_eq!(printed, "finished 2003 noroom 214 7 400 407 400");
        let printed = line(&add_on(7, 454));
        assert_eq!(printed, "noroom 454 noroom 214 7 454 7 0");
        let printed = line(&add_on(7, u32::MAX));
        assert_eq!(printed, "noroom 454 noroom 214 7 4294967295 7 0");
    });
}

/// Four loops of 25 turns within each other, all with index x1, at k = 1.
///
/// A loop of n turns with a body of b steps takes n + 2 steps to unroll to 0 and lose the empty
/// block, then b + 2 for each turn (the index, the body, the block's going). From the inside out
/// that is 77, 2,002, 50,127 and 1,253,252, so the budget of 1,000,000 is spent. Then: 27 to
/// unroll; 19 turns of 50,129 leave 47,522. In turn 20: index and unrolling, 28; 23 turns of 2,004
/// leave 1,402. In turn 24: 28; 17 turns of 79 leave 31. In turn 18: 28; one turn of 2 leaves 1,
/// the index of turn 2. So x1 is 2. The room is enough: a turn unrolled adds 20 bytes and the
/// body's term, at most 25·(32 + 76 + 120 + 164) = 9,800.
#[test]
fn a_spent_budget_prints_the_store_as_left() {
    let wrap = |body, _| vec![Command::Loop(1, Bound::Literal(25), body)];
    let block = (0..4).fold(vec![], wrap);
    let printed = line(&input(&program(1, block), &[9]));
    assert_eq!(printed, "spent 1000000 spent 1000000 2");
}

/// Exactly 1,000,000 steps end finished: the budget is spent and the state is finished. Four loops
/// as above with 25, 25, 25 and 19 turns take 21 + 19·50,129 = 952,472 steps; the 47,528 that are
/// left: a loop of 23 turns with body 2,002 takes 25 + 23·2,004 = 46,117, leaves 1,411; one of 17
/// with body 77 takes 19 + 17·79 = 1,362, leaves 49; one of 15 with no body 17 + 30 = 47, leaves 2:
/// x1 := x1 + 1. One more plain assignment makes it 1,000,001, which is spent.
#[test]
fn a_budget_that_is_just_enough_is_finished() {
    let repeat = |turns, body| vec![Command::Loop(1, Bound::Literal(turns), body)];
    let third = || repeat(25, repeat(25, vec![]));
    let mut block = repeat(19, repeat(25, third()));
    block.extend(repeat(23, third()));
    block.extend(repeat(17, repeat(25, vec![])));
    block.extend(repeat(15, vec![]));
    block.push(Command::Assign(1, Expr::PlusOne(1)));
    let printed = line(&input(&program(1, block.clone()), &[9]));
    assert_eq!(printed, "finished 1000000 finished 1000000 16");
    block.push(Command::Assign(1, Expr::Literal(5)));
    let printed = line(&input(&program(1, block), &[9]));
    assert_eq!(printed, "spent 1000000 spent 1000000 16");
}

/// Every line is a refusal with one of the numbers that can occur here, or a whole report.
#[test]
fn any_input_has_its_line() {
    cases(2_000, |random| {
        let limit = 12 + random.below(200);
        let program = generated_program(random, limit);
        let small = program.header.ceiling().min(1);
        let mut bytes = input(&program, &vec![small; program.header.k as usize]);
        for _ in 0..random.below(3) {
            let place = random.below(bytes.len());
            bytes[place] ^= 1 << random.below(8);
        }
        let printed = line(&bytes);
        let words: Vec<&str> = printed.split(' ').collect();
        if words[0] == "refused" {
            assert!(["1", "2", "3", "4", "5", "15", "6", "16", "10"].contains(&words[1]));
            assert_eq!(words.len(), 2);
        } else {
            assert_eq!(words.len(), 4 + usize::from(bytes[4]), "{printed}");
        }
    });
}
