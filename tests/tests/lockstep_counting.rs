//! Lock step by trial for either stepper (02, C-14): lists of runs in any mixture of the old stepper,
//! the counting stepper and the reducer, refused ones among them. The counting stepper's
//! configuration is the expansion of its state, and each of its orders is lent the start's program.
//! At some place in each list the old stepper may be given up and begun anew with what the counting
//! one writes out, and its total with that one's.

use other::both::{expand, run_counting, run_reducer, run_stepper, substitute, translate};
use other::calls::{Counted, Ran};
use other::check::depth;
use other::codec::Record;
use other::generate::lend;
use other::generate::programs::{refused_store, store};
use other::generate::runs::any_used;
use other::generate::terms::{translation, SHORTEST};
use other::random::{cases, Counts, Random};
use other::run::counting::words::{Words, STATE_WORDS};
use other::run::reducer::finished_values;
use other::run::stepper::Config;
use other::run::{next_state, Answer, Machine, Outcome};
use other::tree::{Edition, Header, Program, TermRecord};

/// An engine that writes a buffer: that, its used length, and the steps that its runs returned.
struct Side {
    buffer: Vec<u8>,
    used: usize,
    total: u32,
}

impl Side {
    fn take(&mut self, ran: &Ran) {
        self.total += ran.steps;
        if ran.number == 0 {
            self.used = ran.used as usize;
        }
    }
}

struct World {
    header: Header,
    program: Vec<u8>,
    old: Side,
    old_store: Vec<u32>,
    state: Words,
    store: Vec<u32>,
    total: u32,
    reducer: Side,
}

/// What the comparisons came upon.
const MET: usize = 0;
const MET_LATER: usize = 1;
const FINISHED: usize = 2;
const OVER: usize = 3;
const REFUSED: usize = 4;
const STEPPERS_MET: usize = 5;
const WENT_BACK: usize = 6;
const BACK_AND_MET: usize = 7;
const OVER_IN_EDITION_2: usize = 8;
type Seen = Counts<9>;

impl World {
    fn start(config: &Config, rooms: [usize; 2]) -> World {
        let program = config.program.encode();
        let mut term = vec![0; rooms[1]];
        let used = translate(&program, program.len(), &mut term).used as usize;
        assert_eq!(substitute(&mut term, used, &config.store).number, 0);
        World {
            header: config.program.header,
            old: Side {
                buffer: lend(&program, rooms[0]),
                used: program.len(),
                total: 0,
            },
            old_store: config.store.clone(),
            state: [0; STATE_WORDS],
            store: config.store.clone(),
            total: 0,
            reducer: Side {
                buffer: term,
                used,
                total: 0,
            },
            program,
        }
    }

    /// One order to an engine, now and then one that is refused; mostly as many steps as another is
    /// ahead by.
    fn order(&mut self, random: &mut Random, seen: &Seen) {
        let totals = [self.old.total, self.total, self.reducer.total];
        let engine = random.below(3);
        let ahead = random.pick(&totals).saturating_sub(totals[engine]);
        let budget = match random.below(4) {
            0 => random.below(40) as u32,
            1 => random.below(4) as u32,
            _ => ahead,
        };
        let wrong = random.one_in(8);
        if wrong {
            seen.one(REFUSED);
        }
        match engine {
            0 => self.order_old(random, budget, wrong),
            1 => self.order_counting(random, budget, wrong),
            _ => self.order_reducer(random, budget, wrong),
        }
    }

    fn order_old(&mut self, random: &mut Random, budget: u32, wrong: bool) {
        let Side { buffer, used, .. } = &mut self.old;
        let ran = if wrong {
            let mut values = refused_store(random, self.header);
            run_stepper(buffer, *used, &mut values, budget)
        } else {
            run_stepper(buffer, *used, &mut self.old_store, budget)
        };
        assert_eq!(ran.number != 0, wrong);
        self.old.take(&ran);
    }

    fn order_counting(&mut self, random: &mut Random, budget: u32, wrong: bool) {
        let own = self.program.len();
        let (before, values) = (self.state, self.store.clone());
        let (program, state) = (&self.program, &mut self.state);
        let counted = match (wrong, random.one_in(2)) {
            (false, _) => run_counting(program, own, state, &mut self.store, budget),
            (true, false) => {
                let used = other_used(random, own);
                run_counting(program, used, state, &mut self.store, budget)
            }
            (true, true) => {
                let mut values = refused_store(random, self.header);
                run_counting(program, own, state, &mut values, budget)
            }
        };
        assert_eq!(counted.number != 0, wrong);
        if wrong {
            assert_eq!(counted, Counted::refused(counted.number));
            assert_eq!((self.state, &self.store), (before, &values));
        }
        self.total += counted.steps;
    }

    fn order_reducer(&mut self, random: &mut Random, budget: u32, wrong: bool) {
        let Side { buffer, used, .. } = &mut self.reducer;
        let used = if wrong {
            other_used(random, *used)
        } else {
            *used
        };
        let ran = run_reducer(buffer, used, budget).ran;
        assert_eq!(ran.number != 0, wrong);
        self.reducer.take(&ran);
    }

    /// The old stepper begun anew with the counting one's expansion and store, if that can be written
    /// out.
    fn go_back(&mut self) -> bool {
        let mut buffer = vec![0xA5; self.old.buffer.len()];
        let (program, state) = (&self.program, &self.state);
        let written = expand(program, program.len(), state, &self.store, &mut buffer);
        if written.number != 0 {
            assert_eq!(written.number, 10);
            return false;
        }
        self.old = Side {
            buffer,
            used: written.used as usize,
            total: self.total,
        };
        self.old_store = self.store.clone();
        true
    }

    /// Where a stepper's total is the reducer's: the term is the translation of its configuration
    /// with its store; both are finished or neither, and then show the same values; both stand before
    /// too large a value or neither. And where the steppers' totals are equal, so are their
    /// configurations, byte for byte.
    fn compare(&self, seen: &Seen) -> bool {
        let counting = self.expansion();
        if self.old.total == self.reducer.total {
            let record = &self.old.buffer[..self.old.used];
            self.compare_with_term(record, &self.old_store, seen);
        }
        if self.total == self.reducer.total {
            // A term is longer than its program, so the expansion has room as well.
            let record = counting.as_ref().expect("the expansion written out");
            self.compare_with_term(record, &self.store, seen);
        }
        let level = self.old.total == self.total;
        if level {
            let record = counting.expect("the expansion written out");
            assert_eq!(record, self.old.buffer[..self.old.used]);
            assert_eq!(self.store, self.old_store);
            seen.one(STEPPERS_MET);
        }
        level && self.total == self.reducer.total
    }

    /// The expansion's record, where 16,384 bytes hold it.
    fn expansion(&self) -> Option<Vec<u8>> {
        let mut out = vec![0xA5; 16_384];
        let (program, state) = (&self.program, &self.state);
        let written = expand(program, program.len(), state, &self.store, &mut out);
        out.truncate(written.used as usize);
        (written.number == 0).then_some(out)
    }

    fn compare_with_term(&self, record: &[u8], store: &[u32], seen: &Seen) {
        let config = Config {
            program: Program::decode(record).expect("the configuration is a program"),
            store: store.to_vec(),
        };
        let bytes = &self.reducer.buffer[..self.reducer.used];
        assert_eq!(config.term().encode(), bytes);
        let term = TermRecord::decode(bytes).expect("the reducer's state is a term");
        let stands = standing(&config);
        assert_eq!(stands, standing(&term));
        if stands == Answer::Finished {
            assert_eq!(finished_values(&term.term), Some(store.to_vec()));
            seen.one(FINISHED);
        }
        seen.one(MET);
        seen.add(MET_LATER, u32::from(self.reducer.total > 0));
        let (over, second) = (
            stands == Answer::Over,
            self.header.edition != Edition::First,
        );
        seen.add(OVER, u32::from(over));
        seen.add(OVER_IN_EDITION_2, u32::from(over && second));
    }

    /// What the state of either stepper and of the reducer says, without a step, and the totals.
    fn stands(&mut self) -> [(u32, u32); 3] {
        let Side {
            buffer,
            used,
            total,
        } = &mut self.old;
        let old = run_stepper(buffer, *used, &mut self.old_store, 0).outcome;
        let (program, state) = (&self.program, &mut self.state);
        let counting = run_counting(program, program.len(), state, &mut self.store, 0).outcome;
        let Side { buffer, used, .. } = &mut self.reducer;
        let reducer = run_reducer(buffer, *used, 0).ran.outcome;
        [
            (old, *total),
            (counting, self.total),
            (reducer, self.reducer.total),
        ]
    }
}

/// A used length that is not the record's own.
fn other_used(random: &mut Random, own: usize) -> usize {
    match any_used(random) {
        used if used == own => own - 1,
        used => used,
    }
}

fn standing<M: Machine>(machine: &M) -> Answer<()> {
    match next_state(machine) {
        Answer::Finished => Answer::Finished,
        Answer::Over => Answer::Over,
        Answer::Next(_) => Answer::Next(()),
    }
}

/// A generated program that is nested at most 32 deep, with a store and rooms for the old stepper and
/// the reducer.
fn generated(random: &mut Random) -> World {
    loop {
        let most = *random.pick(&[300, 300, 300, 2_000]);
        let limit = SHORTEST + random.below(most);
        let (program, _) = translation(random, limit);
        if depth(&program).is_err() {
            continue;
        }
        let store = store(random, program.header);
        let config = Config { program, store };
        let extra = *random.pick(&[1, 100, 400, 1_500]);
        let room = config.state_len() + random.below(extra);
        let term_room = config.term().state_len() + random.below(4 * extra);
        let rooms = match random.one_in(4) {
            true => [16_384; 2],
            false => [room, term_room],
        };
        return World::start(&config, rooms);
    }
}

#[test]
fn totals_that_agree_have_states_that_agree() {
    let seen = Seen::default();
    cases(8_000, |random| {
        let mut world = generated(random);
        world.compare(&seen);
        let mut back = false;
        for _ in 0..random.below(24) {
            if random.one_in(12) && world.go_back() {
                seen.one(WENT_BACK);
                back = true;
            } else {
                world.order(random, &seen);
            }
            let level = world.compare(&seen);
            seen.add(BACK_AND_MET, u32::from(back && level));
        }
    });
    seen.assert_at_least([
        30_000, 10_000, 5_000, 1_000, 5_000, 10_000, 1_000, 1_000, 500,
    ]);
}

/// 02, C-17, of either stepper: where neither it nor the reducer runs out of room or budget, one stops
/// for the ceiling exactly when the other does, and at the same total. The counting stepper never lacks
/// room.
#[test]
fn all_stop_for_the_ceiling_or_none_does() {
    // Of pairs that have stopped, of the old stepper and of the counting one: finished; over in edition
    // 2, with steps made.
    let seen = Counts::<4>::default();
    let orders = Seen::default();
    cases(8_000, |random| {
        let mut world = generated(random);
        for _ in 0..random.below(12) {
            world.order(random, &orders);
        }
        world.order_old(random, 2_000, false);
        world.order_counting(random, 2_000, false);
        world.order_reducer(random, 2_000, false);
        let second = world.header.edition != Edition::First;
        let [old, counting, reducer] = world.stands();
        for (stepper, (outcome, total)) in [old, counting].into_iter().enumerate() {
            if !stopped(outcome) || !stopped(reducer.0) {
                continue;
            }
            assert_eq!((outcome, total), reducer);
            let over = outcome == Outcome::Over.number();
            seen.add(2 * stepper, u32::from(!over));
            seen.add(2 * stepper + 1, u32::from(over && second && total > 0));
        }
    });
    seen.assert_at_least([2_000, 200, 2_000, 200]);
}

fn stopped(outcome: u32) -> bool {
    outcome == Outcome::Finished.number() || outcome == Outcome::Over.number()
}
