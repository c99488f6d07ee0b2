//! The library's weighing against the other program's. Every call goes through `both`, which
//! compares; `runs.rs` states values of 01 and 02.

use std::cmp::Ordering;

use other::both::{
    run_batch, run_counting, run_reducer, run_stepper, substitute, translate, weigh,
};
use other::check::{self, Refusal};
use other::codec::Record;
use other::examples::program as program_of;
use other::generate::batches::{job, Batch};
use other::generate::lend;
use other::generate::programs::program;
use other::random::{cases, Counts, Random};
use other::run::counting::words::STATE_WORDS;

/// The two rules, and numbers that are none: one below, one above, the largest.
const RULES: [u32; 5] = [0, 1, 2, 3, u32::MAX];

/// Weights at which something changes: 20 kg and its multiples, 9 and 10 over them, and the ends of
/// the range, where 10 more is no value.
const WEIGHTS: [u32; 25] = [
    0,
    1,
    9,
    10,
    11,
    19,
    20,
    21,
    29,
    30,
    31,
    39,
    40,
    1_500,
    1_509,
    1_510,
    1_519,
    1_520,
    1 << 31,
    u32::MAX - 20,
    u32::MAX - 19,
    u32::MAX - 10,
    u32::MAX - 9,
    u32::MAX - 5,
    u32::MAX,
];

/// What a weighing was answered: accepted by rule 1 of a gross that is larger, with a count of 0 and
/// with another, of equal weights, of a tare that is larger, again with both; the same by rule 2;
/// refused for the store, for the rule.
fn kind(rule: u32, gross: u32, tare: u32, number: u32, store: &[u32]) -> usize {
    match number {
        0 => {
            let counts = usize::from(store[0] > 0);
            let which = match gross.cmp(&tare) {
                Ordering::Greater => counts,
                Ordering::Equal => 2,
                Ordering::Less => 3 + counts,
            };
            5 * (rule as usize - 1) + which
        }
        _ if number == Refusal::BadStore.number() => 10,
        _ => 11,
    }
}

/// Each pair of them by each rule, in stores of every length to beyond 16: 625 pairs, 16 lengths
/// that are taken and 25 that are not. Of the pairs 25 are equal and 300 have a larger gross; of these
/// 73 are less than 20 apart, 34 less than 10. The other 300 are the same, exchanged.
#[test]
fn every_pair_of_weights_in_every_store() {
    let seen = Counts::<12>::default();
    for (rule, gross) in RULES.iter().flat_map(|rule| WEIGHTS.map(|w| (*rule, w))) {
        for (tare, len) in WEIGHTS
            .iter()
            .flat_map(|w| (0..=40).map(move |len| (*w, len)))
        {
            let mut store: Vec<u32> = (1..=len).collect();
            let number = weigh(rule, gross, tare, &mut store);
            seen.one(kind(rule, gross, tare, number, &store));
        }
    }
    let pairs = [73, 227, 25, 73, 227, 34, 266, 25, 34, 266, 0, 0];
    let mut least = pairs.map(|count| 16 * count);
    [least[10], least[11]] = [625 * 25 * 5, 625 * 16 * 3];
    seen.assert_at_least(least);
}

/// A weight: any, a small one, the other, or a few kilograms from it.
fn weight(random: &mut Random, other: u32) -> u32 {
    match random.below(4) {
        0 => random.word(),
        1 => random.below(200) as u32,
        2 => other,
        _ => other.wrapping_add(random.below(80) as u32).wrapping_sub(40),
    }
}

/// A rule: mostly one of the two.
fn rule(random: &mut Random) -> u32 {
    match random.below(8) {
        0 => random.word(),
        1 => *random.pick(&RULES),
        n => 1 + n as u32 % 2,
    }
}

#[test]
fn generated_weights() {
    let seen = Counts::<12>::default();
    cases(100_000, |random| {
        let gross = random.word() >> random.below(32);
        let tare = weight(random, gross);
        let rule = rule(random);
        let mut store: Vec<u32> = (0..random.below(20)).map(|_| random.word()).collect();
        let number = weigh(rule, gross, tare, &mut store);
        seen.one(kind(rule, gross, tare, number, &store));
        if number == 0 {
            // 02, C-11, of C-15's net load: the count times 20 is less than 20 kg from it.
            let signed = i64::from(gross) - i64::from(tare);
            assert!((20 * i64::from(store[0]) - signed.abs()).abs() < 20);
            // 02, C-15: variable 2, where there is one; and 0 in every other.
            let mut others = store.iter().skip(1);
            let larger = if signed < 0 { 1 } else { 0 };
            assert!(others.next().is_none_or(|value| *value == larger));
            assert!(others.all(|value| *value == 0));
        }
    });
    // Weights that are not equal and yet count 0 are less than 20 or 10 apart: rarer than the rest.
    let (few, many) = (500, 5_000);
    seen.assert_at_least([
        few, many, many, few, many, few, many, many, few, many, many, many,
    ]);
}

/// 02, C-11 and C-17: the engines take the store either rule gives, where it has k values and these are
/// within the ceiling; also that of a load whose tare is larger (02, C-15). Else it is 16. The counting
/// stepper takes no program that is nested too deep.
#[test]
fn the_engines_take_a_weighed_store_within_the_ceiling() {
    // Taken: by rule 1 and 2, tare larger or not; above the ceiling, likewise; with a term; counted.
    let seen = Counts::<10>::default();
    cases(4_000, |random| {
        let program = program(random, 300);
        let record = program.encode();
        let mut store = vec![random.word(); program.header.k as usize];
        let rule = 1 + random.below(2) as u32;
        let gross = random.word() >> random.below(32);
        let tare = weight(random, gross);
        // The weighing itself knows no ceiling.
        assert_eq!(weigh(rule, gross, tare, &mut store), 0);
        let above = store.iter().any(|value| *value > program.header.ceiling());
        let wanted = if above { 16 } else { 0 };
        let sort = 2 * (rule as usize - 1) + usize::from(tare > gross);
        seen.one(sort + if above { 4 } else { 0 });

        let mut term = vec![0; 16_384];
        let written = translate(&record, record.len(), &mut term);
        if written.number == 0 {
            seen.one(8);
            let used = written.used as usize;
            assert_eq!(substitute(&mut term, used, &store).number, wanted);
            if !above {
                assert_eq!(run_reducer(&mut term, used, 50).ran.number, 0);
            }
            let mut batch = Batch::of(&record, &[job(&store, 50)]);
            assert_eq!(batch.run(run_batch).number, wanted);
        }
        if check::depth(&program).is_ok() {
            seen.one(9);
            let (mut state, mut store) = ([0; STATE_WORDS], store.clone());
            let counted = run_counting(&record, record.len(), &mut state, &mut store, 50);
            assert_eq!(counted.number, wanted);
        }
        let mut buffer = lend(&record, record.len() + 500);
        let ran = run_stepper(&mut buffer, record.len(), &mut store, 50);
        assert_eq!(ran.number, wanted);
    });
    seen.assert_at_least([500, 500, 500, 500, 50, 90, 50, 90, 3_000, 3_000]);
}

/// The count at the ceiling and one above it, by both rules; and variable 2's 1, which is above a
/// ceiling of 0 also where the count is 0, unless there is no variable 2.
#[test]
fn a_weighed_value_at_the_ceiling_and_one_above_it() {
    let number = |k: u32, ceiling, rule, gross, tare| {
        let record = program_of(k, vec![]).under(ceiling).encode();
        let mut store = vec![77; k as usize];
        assert_eq!(weigh(rule, gross, tare, &mut store), 0);
        let mut buffer = lend(&record, 40);
        run_stepper(&mut buffer, record.len(), &mut store, 5).number
    };
    // 130 kg are 6 by rule 1 and 7 by rule 2.
    for (ceiling, by_1, by_2) in [(7, 0, 0), (6, 0, 16), (5, 16, 16)] {
        for k in [1, 2, 16] {
            assert_eq!(number(k, ceiling, 1, 1_500, 1_370), by_1);
            assert_eq!(number(k, ceiling, 2, 1_500, 1_370), by_2);
            assert_eq!(number(k, ceiling, 1, 1_370, 1_500), by_1);
            assert_eq!(number(k, ceiling, 2, 1_370, 1_500), by_2);
        }
    }
    for k in [2, 3, 16] {
        assert_eq!(number(k, 0, 1, 1_500, 1_500), 0);
        assert_eq!(number(k, 0, 1, 1_501, 1_500), 0);
        assert_eq!(number(k, 0, 1, 1_500, 1_501), 16);
        assert_eq!(number(k, 1, 1, 1_500, 1_501), 0);
    }
    assert_eq!(number(1, 0, 1, 1_500, 1_501), 0);
}
