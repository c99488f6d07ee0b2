//! The refusals of the forecast (02, C-19): each row at its boundary and one past it, and the order of all of
//! them. A refusal gives 0 for the three figures. Nothing is written: `both` looks at every byte of the buffer
//! and at every value of the store.

use other::both::forecast_run;
use other::calls::Forecast;
use other::codec::{kind, Record};
use other::examples::{nest_of_loops, program};
use other::generate::damage::{wrong_variables, STRANGE_KINDS, WRONG_K};
use other::generate::forecasts::{limit, nearly_steady_program, steady_program, taking};
use other::generate::lend;
use other::generate::programs::store;
use other::generate::raw::Raw;
use other::random::{cases, Rows};
use other::tree::{with_big_stack, Block, Bound, Command, Expr, Program, Value};

const MAX: Value = Value::MAX;

fn assign(variable: u32, expr: Expr) -> Command {
    Command::Assign(variable, expr)
}

fn set(variable: u32) -> Command {
    assign(variable, Expr::Literal(1))
}

/// for x(index) := 1 to (literal) {body}
fn repeat(index: u32, turns: Value, body: Block) -> Command {
    Command::Loop(index, Bound::Literal(turns), body)
}

/// for x(index) := 1 to x(bound) {body}
fn repeat_to(index: u32, bound: u32, body: Block) -> Command {
    Command::Loop(index, Bound::Variable(bound), body)
}

/// What is lent to the call.
#[derive(Clone)]
struct Lent {
    buffer: Vec<u8>,
    used: usize,
    store: Vec<Value>,
}

impl Lent {
    fn holding(program: &Program, store: &[Value]) -> Lent {
        let buffer = program.encode();
        Lent {
            used: buffer.len(),
            buffer,
            store: store.to_vec(),
        }
    }

    /// The call's answer. Refused, it must give 0 for every figure.
    fn answer(&self) -> Forecast {
        let forecast = forecast_run(&self.buffer, self.used, &self.store);
        if forecast.number != 0 {
            assert_eq!(forecast, Forecast::refused(forecast.number));
        }
        forecast
    }

    fn number(&self) -> u32 {
        self.answer().number
    }
}

fn number(program: &Program, store: &[Value]) -> u32 {
    Lent::holding(program, store).number()
}

/// The number for a block, which must be the same in both editions.
fn number_of(block: Block, store: &[Value]) -> u32 {
    let first = program(store.len() as u32, block);
    let number = number(&first, store);
    assert_eq!(self::number(&first.under(MAX), store), number);
    number
}

// The order of the rows.

/// The rows in their order. Rows 15 and 16 are none of edition 1, whose ceiling no value is above.
const ROWS: [u32; 10] = [1, 2, 3, 4, 5, 15, 6, 16, 18, 19];

const CEILING: Value = 4_000_000_000;

/// {x1 := 5; x2 := x1; for x1 := 1 to x3 {for x1 := 1 to x3 {for x1 := 1 to x3 {}}}; x2 := 1} on 0, 0, 2, or with
/// these flaws: the 5 is above the ceiling (15), the first x2 is x4 (5), the last one is x3 (18).
fn sample(has: impl Fn(u32) -> bool) -> Program {
    let value = if has(15) { CEILING + 1 } else { 5 };
    let inner = repeat_to(1, 3, vec![repeat_to(1, 3, vec![])]);
    let block = vec![
        assign(1, Expr::Literal(value)),
        assign(if has(5) { 4 } else { 2 }, Expr::Variable(1)),
        repeat_to(1, 3, vec![inner]),
        set(if has(18) { 3 } else { 2 }),
    ];
    program(3, block)
}

/// Ways in which rows 1, 2 and 6 apply.
const WAYS: [usize; 3] = [3, 6, 3];

/// Something lent to which just these rows apply, 1, 2 and 6 in one of their ways. With x3 = 3,000,000,000 the
/// three loops take more than that cubed.
fn flawed(flaws: &[u32], second: bool, [one, two, six]: [usize; 3]) -> Lent {
    let has = |number| flaws.contains(&number);
    let first = sample(has);
    let program = if second { first.under(CEILING) } else { first };
    let above = if has(16) { CEILING + 1 } else { 0 };
    let bound = if has(19) { 3_000_000_000 } else { 2 };
    let mut lent = Lent::holding(&program, &[above, 0, bound]);
    if has(6) {
        wrong_store(&mut lent.store, six);
    }
    if has(4) {
        // The kind of the block.
        lent.buffer[if second { 14 } else { 10 }] = 4;
    }
    if has(3) {
        lent.buffer[4] = 17;
    }
    if has(2) {
        wrong_header(&mut lent, two);
    }
    if has(1) {
        wrong_buffer(&mut lent, one);
    }
    lent
}

fn wrong_store(store: &mut Vec<Value>, way: usize) {
    match way {
        0 => store.truncate(2),
        1 => store.push(0),
        _ => store.clear(),
    }
}

fn wrong_header(lent: &mut Lent, way: usize) {
    match way {
        0 => lent.buffer[2] = 8,
        1 => lent.buffer[2] = 40,
        2 => lent.buffer[2] = 41,
        3 => lent.buffer[0] += 1,
        4 => lent.used = 7,
        _ => {
            // Edition 2 in 11 bytes, and the header says so.
            lent.buffer[..4].copy_from_slice(&[11, 0, 9, 0]);
            lent.used = 11;
        }
    }
}

fn wrong_buffer(lent: &mut Lent, way: usize) {
    match way {
        0 => lent.used = lent.buffer.len() + 1,
        1 => lent.buffer.resize(16_385, 0),
        _ => lent.used = usize::MAX,
    }
}

/// Of any rows that apply together the first is given; with none, the call accepts. Every set of them is tried, in
/// both editions, with each way of rows 1, 2 and 6.
#[test]
fn the_first_of_any_rows_is_given() {
    for second in [false, true] {
        let is_row = |number: &u32| second || ![15, 16].contains(number);
        let rows: Vec<u32> = ROWS.into_iter().filter(is_row).collect();
        for set in 0..1 << rows.len() {
            let applies = |n: &usize| set >> n & 1 == 1;
            let flaws: Vec<u32> = (0..rows.len()).filter(applies).map(|n| rows[n]).collect();
            let wanted = flaws.first().copied().unwrap_or(0);
            for ways in each_way(&flaws) {
                let number = flawed(&flaws, second, ways).number();
                assert_eq!(number, wanted, "{flaws:?}, {ways:?}, edition 2: {second}");
            }
        }
    }
}

/// Every combination of ways, for those of the three rows that are among the flaws.
fn each_way(flaws: &[u32]) -> Vec<[usize; 3]> {
    let ways = |row: usize| {
        let applies = flaws.contains(&[1, 2, 6][row]);
        0..if applies { WAYS[row] } else { 1 }
    };
    let pairs = ways(0).flat_map(|one| ways(1).map(move |two| (one, two)));
    pairs
        .flat_map(|(one, two)| ways(2).map(move |six| [one, two, six]))
        .collect()
}

// Row 1.

/// 16,384 bytes may be lent and one more may not, nor a used length above the buffer; also of an empty one.
#[test]
fn buffers_above_their_length() {
    let sound = Lent::holding(&sample(|_| false), &[0, 0, 2]);
    let lent = |len: usize, used| Lent {
        buffer: lend(&sound.buffer, len),
        used,
        store: sound.store.clone(),
    };
    let used = sound.used;
    assert_eq!(lent(used, used).number(), 0);
    assert_eq!(lent(16_384, used).number(), 0);
    assert_eq!(lent(16_385, used).number(), 1);
    assert_eq!(lent(70_000, used).number(), 1);
    for wrong in [used + 1, used + 65_536, used + (1 << 32), usize::MAX] {
        assert_eq!(lent(used, wrong).number(), 1);
    }
    assert_eq!(lent(16_384, 16_385).number(), 1);
    // A used length within the buffer is not row 1's.
    assert_eq!(lent(used + 1, used + 1).number(), 2);
    for (used, wanted) in [(0, 2), (1, 1)] {
        let (buffer, store) = (vec![], vec![]);
        let nothing = Lent {
            buffer,
            used,
            store,
        };
        assert_eq!(nothing.number(), wanted);
    }
}

// Rows 2 to 5.

/// Programs of both editions are taken and nothing else: no term, and not kind 8, which is none.
#[test]
fn every_kind_of_a_header() {
    for (program, own) in [(sample(|_| false), 7), (sample(|_| false).under(9), 9)] {
        for kind in (0..=300).chain([0x0700, 0x0900, 65_535]) {
            let mut lent = Lent::holding(&program, &[0, 0, 2]);
            lent.buffer[2..4].copy_from_slice(&u16::to_le_bytes(kind));
            let wanted = match kind {
                _ if kind == own => 0,
                // The other edition's: a ceiling too many, or one that is missing.
                7 | 9 => 4,
                _ => 2,
            };
            assert_eq!(lent.number(), wanted, "kind {kind} for {own}");
        }
    }
}

/// A header needs 8 bytes in edition 1 and 12 in edition 2, whatever k is. With just a header k is looked at (3),
/// and then the block is missing (4).
#[test]
fn the_bytes_that_a_header_needs() {
    for (program, needed) in [(sample(|_| false), 8), (sample(|_| false).under(9), 12)] {
        for used in 0..=15 {
            for (k, otherwise) in [(0, 3), (3, 4), (17, 3)] {
                let mut lent = Lent::holding(&program, &[0, 0, 2]);
                (lent.buffer[0], lent.buffer[4], lent.used) = (used as u8, k, used);
                let wanted = if used < needed { 2 } else { otherwise };
                assert_eq!(lent.number(), wanted, "{used} bytes, k = {k}");
                lent.buffer.truncate(used);
                assert_eq!(lent.number(), wanted, "{used} bytes, k = {k}");
            }
        }
    }
}

/// The header's length is the used length, neither one less nor one more, nor with 256 more.
#[test]
fn the_length_is_the_used_length() {
    let sound = Lent::holding(&sample(|_| false), &[0, 0, 2]);
    let len = sound.used;
    for said in [0, len - 4, len - 1, len + 1, len + 4, len + 256] {
        let mut lent = sound.clone();
        lent.buffer[..2].copy_from_slice(&(said as u16).to_le_bytes());
        assert_eq!(lent.number(), 2, "{said} of {len}");
    }
    for used in (0..len).chain(len + 1..len + 9) {
        let mut lent = sound.clone();
        lent.buffer.resize(len + 20, 0);
        lent.used = used;
        assert_eq!(lent.number(), 2, "{used} used of {len}");
    }
}

#[test]
fn k_is_1_to_16() {
    for second in [false, true] {
        for k in WRONG_K {
            let mut lent = flawed(&[], second, [0; 3]);
            lent.buffer[4..8].copy_from_slice(&k.to_le_bytes());
            assert_eq!(lent.number(), 3, "k = {k}");
        }
    }
    for k in [1, 2, 15, 16] {
        assert_eq!(number_of(vec![set(k)], &vec![0; k as usize]), 0);
    }
}

/// A kind that belongs nowhere, a length that is not true, and bytes left over, at each record of the sample; and
/// a bound that is plus one or minus one.
#[test]
fn bytes_outside_the_grammar() {
    let with = |change: &dyn Fn(&mut Raw)| {
        let mut raw = Raw::read(&sample(|_| false).encode());
        change(&mut raw);
        let buffer = raw.write();
        let (used, store) = (buffer.len(), vec![0, 0, 2]);
        Lent {
            buffer,
            used,
            store,
        }
        .number()
    };
    let count = Raw::read(&sample(|_| false).encode()).count();
    for place in 0..count {
        assert_eq!(with(&|raw| raw.node_mut(place).tail = vec![0]), 4);
        if place > 0 {
            for by in [-1, 1, 4] {
                assert_eq!(with(&|raw| raw.node_mut(place).skew = by), 4);
            }
            for kind in STRANGE_KINDS {
                assert_eq!(with(&|raw| raw.node_mut(place).kind = kind), 4);
            }
        }
    }
    let wrong_bound = |bound| {
        with(&|raw| {
            let mut places = 0..count;
            let place = places.find(|n| raw.node_mut(*n).kind == kind::LOOP);
            raw.node_mut(place.expect("a loop")).children[0].kind = bound;
        })
    };
    assert_eq!([16, 17, 18, 19].map(wrong_bound), [0, 0, 4, 4]);
}

/// Variable numbers at each place that names one: assigned, read, index and bound, also where it is never come
/// to. Row 18 is behind: the bound is assigned as well.
#[test]
fn a_variable_is_1_to_k() {
    let places: [fn(u32) -> Command; 5] = [
        |x| set(x),
        |x| assign(1, Expr::Variable(x)),
        |x| assign(1, Expr::PlusOne(x)),
        |x| repeat(x, 2, vec![]),
        |x| repeat_to(1, x, vec![]),
    ];
    for place in places {
        for wrong in wrong_variables(2) {
            let own_bound = repeat_to(2, 2, vec![]);
            assert_eq!(number_of(vec![place(wrong)], &[0, 0]), 5);
            assert_eq!(
                number_of(vec![repeat(1, 0, vec![place(wrong)])], &[0, 0]),
                5
            );
            assert_eq!(number_of(vec![own_bound, place(wrong)], &[0, 0]), 5);
        }
        for right in [1, 2] {
            assert!([0, 18].contains(&number_of(vec![place(right)], &[0, 0])));
        }
    }
}

// Rows 15, 6 and 16.

/// A literal at the ceiling passes and one above it does not, in an expression and in a bound, also where it is
/// never come to.
#[test]
fn literals_about_the_ceiling() {
    for ceiling in [0, 1, 5, MAX - 1] {
        for (literal, wanted) in [(ceiling, 0), (ceiling + 1, 15), (MAX, 15)] {
            let blocks = [
                vec![assign(1, Expr::Literal(literal))],
                vec![repeat(1, literal, vec![])],
                vec![repeat(1, 0, vec![repeat(1, literal, vec![])])],
                vec![repeat_to(1, 2, vec![assign(1, Expr::Literal(literal))])],
            ];
            for block in blocks {
                let program = program(2, block).under(ceiling);
                assert_eq!(number(&program, &[0, 0]), wanted, "{literal} of {ceiling}");
                // A store that is wrong, a bound that is assigned: both are looked at later.
                let mut assigned = program.clone();
                assigned.block.push(repeat_to(2, 2, vec![]));
                let later = if wanted == 0 { 18 } else { 15 };
                assert_eq!(number(&assigned, &[0, 0]), later);
                let later = if wanted == 0 { 6 } else { 15 };
                assert_eq!(number(&assigned, &[MAX]), later);
            }
        }
    }
}

/// The number of values is looked at before what they are.
#[test]
fn a_store_has_k_values() {
    for k in 1..=16 {
        let program = program(k, vec![set(1)]).under(1);
        for len in 0..=20 {
            let right = len == k as usize;
            let wanted = if right { [0, 16] } else { [6, 6] };
            let numbers = [0, 2].map(|value| number(&program, &vec![value; len]));
            assert_eq!(numbers, wanted, "{len} of {k}");
        }
    }
}

/// Each value of the store at the ceiling and one above it, whether the variable is a bound, assigned, or in
/// no command.
#[test]
fn values_about_the_ceiling() {
    let program = program(4, vec![repeat_to(1, 2, vec![set(3)])]);
    for ceiling in [1, 5, MAX - 1] {
        let program = program.clone().under(ceiling);
        for place in 0..4 {
            for (value, wanted) in [(ceiling, 0), (ceiling + 1, 16), (MAX, 16)] {
                let mut store = [0; 4];
                store[place] = value;
                assert_eq!(number(&program, &store), wanted, "x{}", place + 1);
                // Looked at before 18 and 19.
                let mut assigned = program.clone();
                assigned.block.push(set(2));
                let later = if wanted == 0 { 18 } else { 16 };
                assert_eq!(number(&assigned, &store), later);
            }
        }
    }
    // Under the largest ceiling, and in edition 1, none is above it.
    assert_eq!(number_of(program.block, &[MAX; 4]), 0);
}

// Row 18.

fn block(inner: Block) -> Command {
    Command::Block(inner)
}

/// x2 is a bound, and some command assigns it: before its loop, behind it, within it or in some other; by a loop's
/// index too, and by one that is its own loop's bound; also where no run comes to the one or to the other.
#[test]
fn an_assigned_bound() {
    let use_x2 = || repeat_to(1, 2, vec![]);
    let never = |inner: Command| repeat(1, 0, vec![inner]);
    let deep = |inner: Command| (0..40).fold(inner, |inner, _| block(vec![inner]));
    let refused = [
        vec![set(2), use_x2()],
        vec![use_x2(), set(2)],
        vec![repeat_to(1, 2, vec![set(2)])],
        vec![repeat(1, 3, vec![set(2), use_x2()])],
        vec![repeat(1, 3, vec![set(2)]), use_x2()],
        // In whichever way it is assigned, its own value too.
        vec![use_x2(), assign(2, Expr::Variable(2))],
        vec![use_x2(), assign(2, Expr::Variable(1))],
        vec![assign(2, Expr::PlusOne(1)), use_x2()],
        vec![assign(2, Expr::MinusOne(2)), use_x2()],
        // As an index.
        vec![repeat(2, 3, vec![]), use_x2()],
        vec![use_x2(), repeat(2, 3, vec![])],
        vec![repeat_to(1, 2, vec![repeat(2, 3, vec![])])],
        vec![repeat(2, 3, vec![use_x2()])],
        vec![use_x2(), repeat(2, 0, vec![])],
        vec![repeat_to(2, 1, vec![]), use_x2()],
        // As the index of its own loop.
        vec![repeat_to(2, 2, vec![])],
        vec![repeat_to(1, 1, vec![])],
        vec![repeat(1, 3, vec![repeat_to(2, 2, vec![])])],
        // Where no run comes to.
        vec![never(set(2)), use_x2()],
        vec![use_x2(), never(set(2))],
        vec![never(use_x2()), set(2)],
        vec![set(2), never(use_x2())],
        vec![never(repeat_to(2, 2, vec![]))],
        vec![never(repeat_to(1, 2, vec![set(2)]))],
        vec![never(never(set(2))), never(never(use_x2()))],
        // However deep it stands.
        vec![deep(set(2)), use_x2()],
        vec![deep(use_x2()), set(2)],
        vec![deep(set(2)), deep(use_x2())],
        vec![block(vec![block(vec![]), set(2)]), block(vec![use_x2()])],
    ];
    for block in refused {
        for store in [[0, 0], [1, 1], [5, 2], [MAX, MAX]] {
            assert_eq!(number_of(block.clone(), &store), 18, "{block:?}");
        }
    }
}

/// A variable that is only read, a bound of several loops, an index with a literal bound that its own body
/// assigns (P7), variables that are assigned where no loop has them as its bound.
#[test]
fn no_bound_is_assigned() {
    let use_x2 = |body| repeat_to(1, 2, body);
    let taken = [
        vec![],
        vec![set(1), set(2), assign(2, Expr::PlusOne(1))],
        vec![assign(1, Expr::Variable(2)), use_x2(vec![])],
        vec![use_x2(vec![assign(1, Expr::PlusOne(2))])],
        vec![use_x2(vec![assign(1, Expr::MinusOne(2)), set(1)])],
        vec![use_x2(vec![use_x2(vec![])]), use_x2(vec![])],
        vec![repeat(1, 3, vec![set(1)])],
        vec![repeat(1, 3, vec![repeat(1, 2, vec![set(2)]), set(2)])],
        vec![repeat(2, 3, vec![repeat(1, 2, vec![])]), set(1)],
        // x1 is a bound here, and x2 is assigned.
        vec![repeat_to(2, 1, vec![set(2)]), set(2)],
        // A literal is no variable, whatever its number.
        vec![repeat(2, 2, vec![set(2)]), repeat(1, 1, vec![])],
    ];
    for block in taken {
        for store in [[0, 0], [1, 1], [5, 2], [3, 7]] {
            assert_eq!(number_of(block.clone(), &store), 0, "{block:?}");
        }
    }
}

/// All variables of k = 16: {x(a) := 1; for x(i) := 1 to x(b) {}} is refused where a or i is b, and nowhere else.
#[test]
fn every_variable_as_a_bound() {
    for (a, i, b) in (0..4_096).map(|n| (1 + n % 16, 1 + n / 16 % 16, 1 + n / 256)) {
        let program = program(16, vec![set(a), repeat_to(i, b, vec![])]);
        let wanted = if a == b || i == b { 18 } else { 0 };
        assert_eq!(number(&program, &[3; 16]), wanted, "{a}, {i}, {b}");
    }
}

/// The same of generated programs, against a look at their bytes: a bound's record is the first within a loop's,
/// and an assignment and a loop have their variable in front.
#[test]
fn assigned_bounds_in_the_bytes() {
    let seen = Rows::default();
    cases(10_000, |random| {
        let limit = limit(random);
        let program = nearly_steady_program(random, limit);
        let store = store(random, program.header);
        let (mut assigned, mut bounds) = (vec![], vec![]);
        collect(&Raw::read(&program.encode()), &mut assigned, &mut bounds);
        let number = number(&program, &store);
        let refused = bounds.iter().any(|bound| assigned.contains(bound));
        assert_eq!(number == 18, refused);
        seen.one(number);
    });
    seen.assert_at_least(&[(0, 4_000), (18, 1_500), (19, 100)]);
}

fn collect(raw: &Raw, assigned: &mut Vec<u32>, bounds: &mut Vec<u32>) {
    if matches!(raw.kind, kind::ASSIGNMENT | kind::LOOP) {
        assigned.push(raw.words[0]);
    }
    if raw.kind == kind::LOOP && raw.children[0].kind == kind::VARIABLE {
        bounds.push(raw.children[0].words[0]);
    }
    for child in &raw.children {
        collect(child, assigned, bounds);
    }
}

/// A generated program that assigns no bound is never 18.
#[test]
fn steady_programs_are_not_refused() {
    cases(5_000, |random| {
        let limit = limit(random);
        let program = steady_program(random, limit);
        let store = store(random, program.header);
        assert!([0, 19].contains(&number(&program, &store)));
    });
}

// Row 19. A loop of n turns whose body takes s steps takes n·(3 + s) + 2.

const MOST: u64 = u64::MAX;

/// {for x1 := 1 to 4294967295 {for x1 := 1 to n {}}; for x1 := 1 to 4294967293 {}; x1 := x1 + 1} with n =
/// 1431655763: the inner loop takes 3·n + 2 = 4,294,967,291, so the first (2^32 - 1)·(2^32 - 2) + 2 = 2^64 -
/// 3·2^32 + 4. The second takes 3·2^32 - 9 + 2, and the last command 2: all together 2^64 - 1.
fn just_most() -> Block {
    let inner = repeat(1, 1_431_655_763, vec![]);
    vec![
        repeat(1, 4_294_967_295, vec![inner]),
        repeat(1, 4_294_967_293, vec![]),
        assign(1, Expr::PlusOne(1)),
    ]
}

/// 18,446,744,073,709,551,615 steps are foretold and one more is refused, wherever that one stands: before,
/// behind, or as a block around everything. In the body it is 4,294,967,295 more.
#[test]
fn the_most_steps_and_one_more() {
    let program = program(1, just_most());
    let answer = Lent::holding(&program, &[0]).answer();
    assert_eq!((answer.number, answer.steps), (0, MOST));
    assert_eq!(MOST, 18_446_744_073_709_551_615);
    let empty = || block(vec![]);
    let more = [
        [just_most(), vec![empty()]].concat(),
        [vec![empty()], just_most()].concat(),
        [vec![set(1)], just_most()].concat(),
        vec![block(just_most())],
    ];
    for block in more {
        assert_eq!(number_of(block, &[0]), 19);
    }
    // One step less, with one command or another in the place of the last.
    for (last, steps) in [(set(1), MOST - 1), (block(vec![empty()]), MOST)] {
        let mut block = just_most();
        block[2] = last;
        let program = self::program(1, block);
        assert_eq!(Lent::holding(&program, &[0]).answer().steps, steps);
    }
}

/// The same with the bounds in the store.
#[test]
fn the_most_steps_by_the_store() {
    let block = vec![
        repeat_to(1, 2, vec![repeat_to(1, 3, vec![])]),
        repeat_to(1, 4, vec![]),
        assign(1, Expr::PlusOne(1)),
    ];
    let store = [9, 4_294_967_295, 1_431_655_763, 4_294_967_293];
    let program = program(4, block);
    let lent = Lent::holding(&program, &store);
    assert_eq!((lent.number(), lent.answer().steps), (0, MOST));
    // One turn more of the last loop is 3 steps, of the inner one far more.
    for (place, value) in [(3, 4_294_967_294), (2, 1_431_655_764)] {
        let mut lent = lent.clone();
        lent.store[place] = value;
        assert_eq!(lent.number(), 19);
    }
    for (place, value, fewer) in [(3, 4_294_967_292, 3), (2, 1_431_655_762, 3 * 4_294_967_295)] {
        let mut lent = lent.clone();
        lent.store[place] = value;
        assert_eq!(lent.answer().steps, MOST - fewer);
    }
}

/// Programs made to take just so many steps, of all shapes: up to 2^64 - 1 they are foretold, and from 2^64 on
/// refused, also where 64 bits, or 128, would have wrapped to a small number.
#[test]
fn steps_about_the_boundary() {
    cases(3_000, |random| {
        let by = random.below(20) as u64 * u64::from(random.one_in(2));
        let program = taking(random, u128::from(MOST - by));
        let answer = Lent::holding(&program, &[0, 0]).answer();
        assert_eq!((answer.number, answer.steps), (0, MOST - by));
        let by = u128::from(by) << random.below(60);
        for multiple in [1 << 64, 1 << 65, 1 << 66, 3 << 64, 1 << 96] {
            let program = taking(random, multiple + by);
            assert_eq!(number(&program, &[0, 0]), 19, "{multiple} + {by}");
        }
    });
}

/// A turn of 2^33 steps, 2^31 times: the product is 2^64 exactly, and 2 more steps. One turn fewer is taken. Of
/// 2^97 steps the product is 2^128, which 128 bits would have for 0, and one turn fewer is too much as well.
#[test]
fn a_product_of_just_2_to_the_64() {
    cases(50, |random| {
        for (exponent, fewer) in [(33, 0), (97, 19)] {
            let body = taking(random, (1 << exponent) - 3).block;
            for (turns, wanted) in [(1 << 31, 19), ((1 << 31) - 1, fewer)] {
                let block = vec![repeat(1, turns, body.clone())];
                assert_eq!(number_of(block, &[0, 0]), wanted);
            }
        }
    });
}

/// Sums: two rows whose steps are each foretold, and together too many or just not.
#[test]
fn sums_about_the_boundary() {
    cases(300, |random| {
        let first = random.next_u64() >> random.below(3);
        let last = MOST - first;
        let row = |random: &mut _, steps: u64| taking(random, steps.into()).block;
        let block = [row(random, first), row(random, last)].concat();
        let program = program(2, block);
        if program.encoded_len() >= 16_384 {
            return;
        }
        assert_eq!(Lent::holding(&program, &[0, 0]).answer().steps, MOST);
        let mut more = program.block;
        more.push(block_of_nothing());
        assert_eq!(number_of(more, &[0, 0]), 19);
    });
}

fn block_of_nothing() -> Command {
    block(vec![])
}

/// However many steps a body takes, a loop of 0 turns does not take them: with a literal, with a bound from the
/// store, with several of them around each other and beside it. With one turn it does.
#[test]
fn a_huge_body_in_a_loop_of_no_turns() {
    let huge = || nest_of_loops(1, MAX, 10).block;
    assert_eq!(number_of(huge(), &[0]), 19);
    let steps = |block: Block, store: &[Value]| {
        let program = program(store.len() as u32, block);
        let answer = Lent::holding(&program, store).answer();
        (answer.number, answer.steps)
    };
    let zero = || repeat(1, 0, huge());
    assert_eq!(steps(vec![zero()], &[0]), (0, 2));
    assert_eq!(steps(vec![repeat(1, 1, huge())], &[0]), (19, 0));
    let by_store = || vec![repeat_to(1, 2, huge())];
    assert_eq!(steps(by_store(), &[9, 0]), (0, 2));
    assert_eq!(steps(by_store(), &[9, 1]), (19, 0));
    assert_eq!(
        steps(vec![zero(), zero(), block(vec![zero()])], &[0]),
        (0, 7)
    );
    // 4,294,967,295·(3 + 2) + 2.
    assert_eq!(
        steps(vec![repeat(1, MAX, vec![zero()])], &[0]),
        (0, 21_474_836_477)
    );
    assert_eq!(
        steps(vec![repeat(1, 0, vec![repeat(1, MAX, vec![zero()])])], &[0]),
        (0, 2)
    );
    // A 0 inside stops nothing of what is around it: 5·n twice is above 2^64.
    let within = vec![repeat(
        1,
        MAX,
        vec![repeat(1, MAX, vec![repeat(1, 0, vec![])])],
    )];
    assert_eq!(steps(within, &[0]), (19, 0));
    // What is too much stays too much, whatever stands beside it.
    assert_eq!(
        number_of([vec![zero()], huge(), vec![zero()]].concat(), &[0]),
        19
    );
}

/// As deep as can be, where steps go far beyond every number that a machine has.
#[test]
fn as_many_steps_as_can_be() {
    with_big_stack(|| {
        for turns in [2, 3, MAX] {
            let nest = nest_of_loops(1, turns, 818);
            assert_eq!(number(&nest, &[0]), 19);
            let dead = vec![repeat(1, 0, nest_of_loops(1, turns, 816).block)];
            assert_eq!(number_of(dead, &[0]), 0);
        }
    });
}

/// An assigned bound before a figure that is too large, also where the one is in a loop of no turns.
#[test]
fn an_assigned_bound_before_a_large_figure() {
    let huge = nest_of_loops(1, MAX, 3).block;
    let assigned = [
        vec![repeat_to(2, 2, vec![])],
        vec![repeat(1, 0, vec![repeat_to(2, 2, vec![])])],
    ];
    for block in assigned {
        assert_eq!(
            number_of([block.clone(), huge.clone()].concat(), &[0, 0]),
            18
        );
        assert_eq!(number_of([huge.clone(), block].concat(), &[0, 0]), 18);
    }
    assert_eq!(number_of(huge, &[0, 0]), 19);
}
