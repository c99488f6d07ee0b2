//! 02, C-13: how many variable records become numerals, in a substitution and in the reductions of a
//! run. The numbers are worked out by hand from 01's "Filling" and "Reducer", or counted in the records
//! before and after.

use std::collections::BTreeMap;

use other::both::{run_reducer, substitute};
use other::calls::{Reduced, Substituted};
use other::check::Refusal;
use other::codec::{kind, Record};
use other::examples::{examples, Example};
use other::generate::lend;
use other::generate::programs::store;
use other::generate::raw::Raw;
use other::generate::runs::any_used;
use other::generate::terms::{closed_term, translation, SHORTEST};
use other::random::{cases, Counts, Random};
use other::run::stepper::Config;
use other::run::{next_state, Answer, Machine, Outcome};
use other::translate::translate;
use other::tree::Atom::{self, Numeral, Variable};
use other::tree::{with_big_stack, Simple, Term, TermRecord};

const ROOM: usize = 16_384;

fn tuple(atoms: &[Atom]) -> Term {
    Term::Tuple(atoms.to_vec())
}

fn let_one(variable: u32, simple: Simple, last: Term) -> Term {
    Term::LetOne(variable, simple, Box::new(last))
}

fn let_all(first: Term, last: Term) -> Term {
    Term::LetAll(Box::new(first), Box::new(last))
}

fn rec(index: u32, count: Atom, start: [Atom; 2], body: Term) -> Term {
    Term::Rec(index, count, start.to_vec(), Box::new(body))
}

/// (x1, x2)
fn all() -> Term {
    tuple(&[Variable(1), Variable(2)])
}

fn record(k: u32, term: Term) -> Vec<u8> {
    TermRecord::new(k, term).encode()
}

fn example(name: &str) -> Example {
    let found = examples().into_iter().find(|each| each.name == name);
    found.expect("an example of this name")
}

/// A buffer with a term, as the last accepted call left it, and its used length.
struct Held {
    buffer: Vec<u8>,
    used: usize,
}

impl Held {
    fn new(record: &[u8], room: usize) -> Held {
        Held {
            buffer: lend(record, room),
            used: record.len(),
        }
    }

    /// What an accepted substitution of this store replaces.
    fn substitute(&mut self, store: &[u32]) -> u32 {
        let answer = substitute(&mut self.buffer, self.used, store);
        assert_eq!((answer.number, answer.used as usize), (0, self.used));
        answer.replaced
    }

    /// An accepted run.
    fn run(&mut self, budget: u32) -> Reduced {
        let reduced = run_reducer(&mut self.buffer, self.used, budget);
        assert_eq!(reduced.ran.number, 0);
        self.used = reduced.ran.used as usize;
        reduced
    }
}

/// ADD's term is x3 = x1 in let-all rec(x4, x2, all, x3 = succ x3 in all) in all, all being (x1, x2, x3,
/// x4). P1's store replaces the x1 that x3 gets, the count x2, and x1, x2 and x4 of the start: 5. The
/// start's x3 is bound by the let-one; the body and the last term are bound by rec and let-all.
///
/// The 18 reductions: x3 = 7 replaces the start's x3, 1; rec of 3, 2, 1 and 0 replace nothing. A turn's
/// let-all has x4 = n in x3 = succ x3 in all: it replaces succ's x3 and the tuple's x1 and x2, 3, while
/// x3 and x4 of the tuple are bound again; x4 = n replaces 1; succ nothing; x3 = its value 1. The last
/// let-all replaces its whole tuple, 4. So 1 + 3·(3 + 1 + 0 + 1) + 4 = 20.
#[test]
fn p1_reduction_by_reduction() {
    let p1 = example("P1");
    let start = translate(&p1.program).encode();
    let mut single = Held::new(&start, 384);
    assert_eq!(single.substitute(&p1.store), 5);
    let mut whole = Held::new(&single.buffer[..start.len()], 400);
    let counts = [1, 0, 0, 0, 0, 3, 1, 0, 1, 3, 1, 0, 1, 3, 1, 0, 1, 4];
    for (n, count) in counts.into_iter().enumerate() {
        let reduced = single.run(1);
        assert_eq!((reduced.ran.steps, reduced.replaced), (1, count), "{n}");
    }
    assert_eq!(single.run(1).replaced, 0);
    let reduced = whole.run(18);
    assert_eq!((reduced.ran.steps, reduced.replaced), (18, 20));
}

/// What P1 to P9 replace where the store is substituted, and in the run to their end.
///
/// P2: as P1 without a turn, 1 + 4. P3: 1, one turn's 3 and 1, and then succ goes over. P4 and P5 are x1 =
/// pred or succ x1 in (x1): that x1, and in the run the tuple's; too large, no reduction. P6 is let-all
/// rec(x1, 0, (x1), (x1)) in (x1): the start's x1; and the last tuple's. P7 has rec(x1, 3, (x1), x1 = 0 in
/// (x1)): a turn's let-all has x1 = n in x1 = 0 in (x1), in which nothing is free, nor has x1 = n anything
/// to replace, and x1 = 0 replaces 1; three turns and the last tuple, 4. P8 has rec(x2, x1, (x1, x2),
/// x1 = succ x1 in (x1, x2)): count and start, 3; a turn's let-all replaces succ's x1 alone, x2 = n the
/// tuple's x2, and x1 its x1, 3; two turns and the last tuple, 2·3 + 2. P9 is (x1), and is finished.
#[test]
fn the_examples() {
    let wanted = [
        ("P1", 5, 20),
        ("P2", 5, 5),
        ("P3", 5, 5),
        ("P4", 1, 1),
        ("P5", 1, 1),
        ("P5, too large", 1, 0),
        ("P6", 1, 1),
        ("P7", 1, 4),
        ("P8", 3, 8),
        ("P9", 1, 0),
    ];
    let replaced = examples().into_iter().map(|example| {
        let mut term = Held::new(&translate(&example.program).encode(), ROOM);
        let start = term.substitute(&example.store);
        let reduced = term.run(100);
        assert_eq!(reduced.ran.steps, example.steps, "{}", example.name);
        (example.name, start, reduced.replaced)
    });
    assert_eq!(replaced.collect::<Vec<_>>(), wanted);
}

/// Every place of a term at k = 2, with a store of two values: only what is free counts, and a numeral
/// that stood there before does not.
#[test]
fn what_a_substitution_replaces() {
    let (x1, x2) = (Variable(1), Variable(2));
    let atom = Simple::Atom;
    let terms = [
        (all(), 2),
        (tuple(&[x2, x2]), 2),
        (tuple(&[Numeral(1), x2]), 1),
        (tuple(&[Numeral(1), Numeral(2)]), 0),
        // The part that a let-one is given is open; its last term is for the other variable alone.
        (let_one(1, atom(x1), all()), 2),
        (let_one(1, Simple::Succ(x1), tuple(&[x1, x1])), 1),
        (let_one(1, Simple::Pred(x2), tuple(&[x1, x1])), 1),
        (let_one(1, atom(Numeral(3)), tuple(&[x1, x1])), 0),
        (
            let_one(1, atom(x2), let_one(2, atom(x1), tuple(&[x1, x2]))),
            1,
        ),
        (
            let_one(1, atom(x2), let_one(1, atom(x2), tuple(&[x1, x2]))),
            3,
        ),
        // Let-all's first term is open, its last is not.
        (let_all(all(), all()), 2),
        (let_all(tuple(&[Numeral(1), Numeral(2)]), all()), 0),
        (let_all(let_all(all(), all()), let_all(all(), all())), 2),
        (let_one(2, atom(x2), let_all(all(), all())), 2),
        // Rec's count and start tuple are open, its body is not, whichever its index.
        (rec(1, x2, [x1, x2], all()), 3),
        (rec(2, x1, [x1, x1], all()), 3),
        (rec(1, Numeral(4), [Numeral(5), x1], all()), 1),
        (rec(1, Numeral(4), [Numeral(5), Numeral(6)], all()), 0),
        (let_one(1, atom(x1), rec(1, x1, [x1, x2], all())), 2),
    ];
    for (term, count) in terms {
        let mut held = Held::new(&record(2, term.clone()), 300);
        assert_eq!(held.substitute(&[8, 9]), count, "{term:?}");
        assert_eq!(held.substitute(&[8, 9]), 0, "{term:?} again");
    }
}

/// One reduction of each rule, at k = 2.
#[test]
fn what_one_reduction_replaces() {
    let (x1, x2) = (Variable(1), Variable(2));
    let five = || Simple::Atom(Numeral(5));
    let values = || tuple(&[Numeral(5), Numeral(6)]);
    let terms = [
        // Let-one of a numeral: the free places of its own variable in its last term.
        (let_one(1, five(), tuple(&[x1, Numeral(6)])), 1),
        (let_one(1, five(), tuple(&[x1, x1])), 2),
        (let_one(1, five(), values()), 0),
        (
            let_one(1, five(), let_one(2, Simple::Succ(x1), all())),
            2, // succ's and the tuple's first
        ),
        (
            let_one(1, five(), let_one(1, Simple::Pred(x1), tuple(&[x1, x1]))),
            1, // pred's
        ),
        (
            let_one(1, five(), let_all(tuple(&[x1, Numeral(6)]), all())),
            1, // the first term's
        ),
        (
            let_one(1, five(), rec(2, x1, [x1, Numeral(6)], all())),
            2, // the count and the start's
        ),
        // Let-all of a tuple: every free place of its last term.
        (let_all(values(), all()), 2),
        (let_all(values(), tuple(&[x1, x1])), 2),
        (let_all(values(), values()), 0),
        (
            let_all(values(), let_one(1, Simple::Atom(x2), all())),
            2, // what x1 gets, and the tuple's x2
        ),
        (let_all(values(), let_all(tuple(&[x2, x2]), all())), 2),
        (let_all(values(), rec(1, x2, [x1, x2], all())), 3),
        // Succ, pred and rec: none, though their variables stand there to be replaced later.
        (let_one(1, Simple::Succ(Numeral(5)), tuple(&[x1, x1])), 0),
        (let_one(1, Simple::Pred(Numeral(5)), tuple(&[x1, x1])), 0),
        (let_one(1, Simple::Pred(Numeral(0)), tuple(&[x1, x1])), 0),
        (rec(1, Numeral(0), [Numeral(5), Numeral(6)], all()), 0),
        (rec(1, Numeral(1), [Numeral(5), Numeral(6)], all()), 0),
        (
            rec(2, Numeral(u32::MAX), [Numeral(5), Numeral(6)], all()),
            0,
        ),
    ];
    for (term, count) in terms {
        // The same, and the same inside the first terms of let-alls, whose last terms stay.
        for depth in 0..3 {
            let around = |first, _| let_all(first, all());
            let whole = (0..depth).fold(term.clone(), around);
            let reduced = Held::new(&record(2, whole), 300).run(1);
            assert_eq!(
                (reduced.ran.steps, reduced.replaced),
                (1, count),
                "{term:?}"
            );
        }
    }
}

/// A record's rows 1 to 5, in buffers with used lengths: what is wrong stands behind what could have
/// been replaced. The record ends with a variable.
fn wrong(sound: &[u8]) -> Vec<(Refusal, Vec<u8>, usize)> {
    let used = sound.len();
    let with = |place: usize, byte| {
        let mut bytes = sound.to_vec();
        bytes[place] = byte;
        bytes
    };
    vec![
        (Refusal::BadBuffer, sound[..used - 1].to_vec(), used),
        (Refusal::BadBuffer, lend(sound, ROOM + 1), used),
        (Refusal::BadHeader, sound.to_vec(), used - 1),
        (Refusal::BadHeader, sound.to_vec(), 7),
        (Refusal::BadHeader, with(2, 7), used),
        (Refusal::BadK, with(4, 0), used),
        (Refusal::BadK, with(4, 17), used),
        (Refusal::Malformed, with(used - 6, 34), used),
        (Refusal::BadVariable, with(used - 4, 0), used),
        (Refusal::BadVariable, with(used - 4, 3), used),
    ]
}

/// A refusal gives 0 and changes nothing. x1 = x1 in (x1, x2) has two free places.
#[test]
fn a_refused_substitution_counts_nothing() {
    let sound = record(2, let_one(1, Simple::Atom(Variable(1)), all()));
    let mut cases: Vec<(Refusal, Vec<u8>, usize, &[u32])> = wrong(&sound)
        .into_iter()
        .map(|(refusal, buffer, used)| (refusal, buffer, used, &[8, 9][..]))
        .collect();
    for store in [&[][..], &[8], &[8, 9, 10]] {
        cases.push((Refusal::BadStore, lend(&sound, 60), sound.len(), store));
    }
    for (refusal, buffer, used, store) in cases {
        let mut lent = buffer.clone();
        let answer = substitute(&mut lent, used, store);
        assert_eq!(answer, Substituted::refused(refusal));
        assert_eq!((answer.replaced, lent), (0, buffer));
    }
    assert_eq!(Held::new(&sound, 60).substitute(&[8, 9]), 2);
}

/// The same of the reducer: x1 = 5 in (x1, x1) replaces two; with x2 at its end it is open.
#[test]
fn a_refused_run_counts_nothing() {
    let twice = tuple(&[Variable(1), Variable(1)]);
    let sound = record(2, let_one(1, Simple::Atom(Numeral(5)), twice));
    let mut cases = wrong(&sound);
    let mut open = lend(&sound, 60);
    open[sound.len() - 4] = 2;
    cases.push((Refusal::FreeVariable, open, sound.len()));
    for (refusal, buffer, used) in cases {
        let mut lent = buffer.clone();
        let answer = run_reducer(&mut lent, used, 9);
        assert_eq!(answer, Reduced::refused(refusal));
        assert_eq!((answer.replaced, lent), (0, buffer));
    }
    assert_eq!(Held::new(&sound, 60).run(9).replaced, 2);
}

/// A run that makes no reduction counts nothing, whatever stands before it: spent with no budget,
/// finished, over, no room. What came before is not told again.
#[test]
fn a_run_without_a_reduction_counts_nothing() {
    let started = |name, room| {
        let Example { program, store, .. } = example(name);
        Held::new(&Config { program, store }.term().encode(), room)
    };
    let ends = |held: &mut Held, budget, outcome: Outcome, steps, replaced| {
        let reduced = held.run(budget);
        let got = (reduced.ran.outcome, reduced.ran.steps, reduced.replaced);
        assert_eq!(got, (outcome.number(), steps, replaced));
    };
    // With 383 bytes P1 stops after x3 = 7 and two turns unrolled.
    let mut p1 = started("P1", 383);
    ends(&mut p1, 0, Outcome::Spent, 0, 0);
    ends(&mut p1, 9, Outcome::NoRoom, 3, 1);
    ends(&mut p1, 9, Outcome::NoRoom, 0, 0);
    let mut p2 = started("P2", ROOM);
    ends(&mut p2, 9, Outcome::Finished, 3, 5);
    ends(&mut p2, 9, Outcome::Finished, 0, 0);
    let mut p3 = started("P3", ROOM);
    ends(&mut p3, 9, Outcome::Over, 5, 5);
    ends(&mut p3, 9, Outcome::Over, 0, 0);
    let mut p5 = started("P5, too large", ROOM);
    ends(&mut p5, u32::MAX, Outcome::Over, 0, 0);
}

/// x1 = x2, so many times, in (x2, .., x2) at k = 16: each x2 is free.
fn many_places(let_ones: usize) -> Term {
    let wrap = |last, _| let_one(1, Simple::Atom(Variable(2)), last);
    (0..let_ones).fold(tuple(&[Variable(2); 16]), wrap)
}

/// The most that 16,384 bytes have room for. On the one path on which a variable can be free a place
/// takes a let-one of 16 bytes, and at its end a tuple of 4 + 8·k bytes has k places, each for half as
/// much: so k is 16 and the tuple 132 bytes. A rec there has one place more, for 16 bytes and a body of
/// 132 bytes or more; a let-all has a last term and no place.
///
/// Substituted: the header's 8, n let-ones and the tuple are 8 + 16·n + 132, which is 16,380 at n = 1,015
/// and 16,396 at 1,016: 1,015 + 16 = 1,031 places. By one reduction: its let-one takes 16 more (a let-all
/// and its tuple 136), so n = 1,014: 1,030.
#[test]
fn the_most_places() {
    with_big_stack(|| {
        let open = record(16, many_places(1_015));
        assert_eq!(open.len(), 16_380);
        assert_eq!(Held::new(&open, ROOM).substitute(&[9; 16]), 1_031);

        let closed = let_one(2, Simple::Atom(Numeral(7)), many_places(1_014));
        let closed = record(16, closed);
        assert_eq!(closed.len(), 16_380);
        let mut held = Held::new(&closed, ROOM);
        assert_eq!(held.run(1).replaced, 1_030);
        // What is left has numerals alone, which no let-one of x1 replaces.
        let reduced = held.run(2_000);
        assert_eq!((reduced.ran.steps, reduced.replaced), (1_014, 0));
    });
}

/// How many variable records there are.
fn variables(record: &Raw) -> u64 {
    let inside: u64 = record.children.iter().map(variables).sum();
    inside + u64::from(record.kind == kind::TERM_VARIABLE)
}

/// How many variables the reduction from one state to the next replaced, by the records alone. It is
/// made at the first term of the let-alls whose first term is no tuple. A let of a numeral or a tuple
/// leaves its last term there, with as many variable records less as became numerals.
fn replaced_between(before: &Raw, after: &Raw) -> u64 {
    let (mut before, mut after) = (&before.children[0], &after.children[0]);
    while before.kind == kind::LET_ALL && before.children[0].kind != kind::TUPLE {
        (before, after) = (&before.children[0], &after.children[0]);
    }
    match (before.kind, before.children[0].kind) {
        (kind::LET_ALL, _) | (kind::LET_ONE, kind::NUMERAL) => {
            variables(&before.children[1]) - variables(after)
        }
        _ => 0,
    }
}

/// What is replaced in all after 0, 1, 2 and so on reductions of a term, up to `most`.
fn totals(start: &TermRecord, most: u32) -> Vec<u64> {
    let (mut state, mut totals) = (start.clone(), vec![0]);
    for step in 0..most as usize {
        let Answer::Next(next) = next_state(&state) else {
            break;
        };
        let [before, after] = [&state, &next].map(|state| Raw::read(&state.encode()));
        totals.push(totals[step] + replaced_between(&before, &after));
        state = next;
    }
    totals
}

/// A closed term, a translation with its store or not.
fn start(random: &mut Random) -> TermRecord {
    let limit = SHORTEST + random.below(300);
    if random.one_in(2) {
        return closed_term(random, limit);
    }
    let (program, _) = translation(random, limit);
    let store = store(random, program.header);
    Config { program, store }.term()
}

/// The same term under another header that it may have: of edition 1, or with a ceiling of its largest
/// numeral, a few more, or the largest value.
fn under_another_header(random: &mut Random, start: &TermRecord) -> TermRecord {
    let largest = start.literals().into_iter().max().unwrap_or(0);
    let few = random.below(5) as u32;
    let again = TermRecord::new(start.header.k, start.term.clone());
    match random.below(4) {
        0 => again,
        1 => again.under(u32::MAX),
        2 => again.under(largest),
        _ => again.under(largest.saturating_add(few)),
    }
}

/// Total steps, and total of replaced variables.
type Total = (u32, u64);

/// A list of runs in a buffer of its own, refused ones among them; gives the totals before the first
/// run and after each.
fn list(random: &mut Random, start: &TermRecord, refused: impl Fn()) -> (usize, Vec<Total>) {
    let extra = *random.pick(&[1, 100, 1_500, 6_000]);
    let room = start.state_len() + random.below(extra);
    let mut held = Held::new(&start.encode(), room);
    let (mut total, mut all) = ((0, 0), vec![(0, 0)]);
    for _ in 0..random.below(12) {
        if random.one_in(5) {
            refused_run(random, &mut held);
            refused();
        } else {
            let reduced = held.run(*random.pick(&[0, 1, 1, 2, 3, 5, 8, 20]));
            total = (total.0 + reduced.ran.steps, total.1 + reduced.replaced);
        }
        all.push(total);
    }
    (room, all)
}

/// A run with another used length than the term's is refused, and counts nothing.
fn refused_run(random: &mut Random, held: &mut Held) {
    let used = match any_used(random) {
        used if used == held.used => used + 1,
        used => used,
    };
    let before = held.buffer.clone();
    let reduced = run_reducer(&mut held.buffer, used, random.word());
    assert_ne!(reduced.ran.number, 0);
    assert_eq!(reduced, Reduced::refused(reduced.ran.number));
    assert_eq!(held.buffer, before);
}

/// "Runs from one term with the same total steps, however many orders they are spread over, have the
/// same total of filled places": two lists in two buffers, under any two headers, one run of so many
/// steps, and the count made in the records, where no ceiling stops it.
#[test]
fn equal_totals_of_steps_have_equal_totals_of_replaced() {
    // Refused runs; two lists at the same total, with something replaced, in buffers of different
    // lengths, under different headers.
    let seen = Counts::<5>::default();
    cases(6_000, |random| {
        let start = start(random);
        let again = under_another_header(random, &start);
        let (room, one) = list(random, &start, || seen.one(0));
        let (other_room, other) = list(random, &again, || seen.one(0));

        let most = one.iter().chain(&other).map(|total| total.0).max();
        let free = TermRecord::new(start.header.k, start.term.clone());
        let counted = totals(&free, most.expect("both start with a total"));
        for (steps, replaced) in one.iter().chain(&other) {
            assert_eq!(*replaced, counted[*steps as usize], "after {steps}");
        }
        let known: BTreeMap<u32, u64> = one.iter().copied().collect();
        for (steps, replaced) in &other {
            let Some(met) = known.get(steps) else {
                continue;
            };
            assert_eq!(met, replaced, "after {steps}");
            seen.one(1);
            seen.add(2, u32::from(*replaced > 0));
            seen.add(3, u32::from(*replaced > 0 && room != other_room));
            let headers = start.header != again.header;
            seen.add(4, u32::from(*replaced > 0 && headers));
        }

        let (steps, replaced) = *other.last().expect("a total");
        let whole = Held::new(&again.encode(), ROOM).run(steps);
        assert_eq!((whole.ran.steps, whole.replaced), (steps, replaced));
    });
    seen.assert_at_least([6_000, 12_000, 3_000, 3_000, 2_000]);
}
