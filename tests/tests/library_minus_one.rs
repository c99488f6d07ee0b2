//! 02, C-12: minus one by both engines. Every call goes through `both`, which holds the library to the
//! other program, where minus one is 01's; the values here are held to 02's expression.

use other::both::{result, run_reducer, run_stepper};
use other::codec::Record;
use other::examples::subtract;
use other::generate::lend;
use other::random::{cases, Counts};
use other::run::stepper::Config;
use other::run::Outcome;
use other::tree::{Command, Expr, Program, Value};

/// 02's expression: the value less ((value + 4,294,967,295) divided by 4,294,967,296, rounded down).
fn less_quotient(value: Value) -> Value {
    let value = u64::from(value);
    let left = value - (value + 4_294_967_295) / 4_294_967_296;
    Value::try_from(left).expect("a value")
}

/// {x2 := x1 - 1} on a value and 9: one step works minus one out, a second stores it, and x1 stays.
/// After each of them the reducer's term is the translation of what the stepper has.
fn minus_one(value: Value) -> Value {
    let block = vec![Command::Assign(2, Expr::MinusOne(1))];
    let program = Program::new(2, block);
    let mut store = [value, 9];
    let record = program.encode();
    let (mut steps, mut used) = (lend(&record, 40), record.len());
    let start = Config {
        program,
        store: store.to_vec(),
    };
    let term = start.term().encode();
    let (mut reductions, mut term_used) = (lend(&term, 64), term.len());
    for outcome in [Outcome::Spent, Outcome::Finished] {
        let stepped = run_stepper(&mut steps, used, &mut store, 1);
        let reduced = run_reducer(&mut reductions, term_used, 1).ran;
        assert_eq!((stepped.outcome, stepped.steps), (outcome.number(), 1));
        assert_eq!((reduced.outcome, reduced.steps), (outcome.number(), 1));
        (used, term_used) = (stepped.used as usize, reduced.used as usize);
        let config = Config {
            program: Program::decode(&steps[..used]).expect("a program"),
            store: store.to_vec(),
        };
        assert_eq!(config.term().encode(), reductions[..term_used]);
    }
    assert_eq!(store[0], value);
    store[1]
}

/// By hand: 0 included, the largest value, and about the numbers that fill one, two, three bytes.
#[test]
fn values_by_hand() {
    let values = [
        (0, 0),
        (1, 0),
        (2, 1),
        (3, 2),
        (255, 254),
        (256, 255),
        (257, 256),
        (65_535, 65_534),
        (65_536, 65_535),
        (65_537, 65_536),
        (16_777_215, 16_777_214),
        (16_777_216, 16_777_215),
        (2_147_483_647, 2_147_483_646),
        (2_147_483_648, 2_147_483_647),
        (2_147_483_649, 2_147_483_648),
        (4_294_967_293, 4_294_967_292),
        (4_294_967_294, 4_294_967_293),
        (4_294_967_295, 4_294_967_294),
    ];
    for (value, wanted) in values {
        assert_eq!((minus_one(value), less_quotient(value)), (wanted, wanted));
    }
}

/// Each power of two, one below and one above.
#[test]
fn about_every_power_of_two() {
    for power in (0..32).map(|exponent| 1 << exponent) {
        for value in [power - 1, power, power + 1] {
            assert_eq!(minus_one(value), less_quotient(value));
        }
    }
}

/// Values of every length in bits, 0 among them: four calls each.
#[test]
fn generated_values() {
    let seen = Counts::<2>::default();
    cases(30_000, |random| {
        let value = random.word().checked_shr(random.below(33) as u32);
        let value = value.unwrap_or(0);
        assert_eq!(minus_one(value), less_quotient(value));
        seen.one(usize::from(value > 0));
    });
    seen.assert_at_least([1_000, 20_000]);
}

/// SUBTRACT on 3, 5: down to 0 and no further, in ADD's 3 + 5·5 steps.
#[test]
fn a_count_down_stays_at_0() {
    let (program, mut store) = (subtract(), [3, 5, 0, 0]);
    let start = Config {
        program: program.clone(),
        store: store.to_vec(),
    };
    let (record, term) = (program.encode(), start.term().encode());
    let ran = run_stepper(&mut lend(&record, 400), record.len(), &mut store, 99);
    assert_eq!((ran.outcome, ran.steps), (Outcome::Finished.number(), 28));
    assert_eq!(store, [3, 5, 0, 5]);
    let mut buffer = lend(&term, 1_000);
    let ran = run_reducer(&mut buffer, term.len(), 99).ran;
    assert_eq!((ran.outcome, ran.steps), (Outcome::Finished.number(), 28));
    let mut shown = [9; 4];
    result(&buffer, ran.used as usize, &mut shown);
    assert_eq!(shown, [3, 5, 0, 5]);
}
