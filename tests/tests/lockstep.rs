//! Lock step by trial (01, "Run orders"): lists of runs in any mixture of the two engines, refused
//! ones among them, and the two states compared wherever the totals agree.

use other::both::{check_program, run_reducer, run_stepper, substitute, translate};
use other::calls::{Ran, Reduced};
use other::check::values as within;
use other::codec::{hex, Record};
use other::examples::all_examples;
use other::generate::lend;
use other::generate::programs::store;
use other::generate::runs::{ends_within, runs, Budget, Engine, Run};
use other::generate::terms::{translation, SHORTEST};
use other::random::{cases, Counts, Random};
use other::run::reducer::finished_values;
use other::run::stepper::Config;
use other::run::{next_state, Answer, Machine, Outcome};
use other::tree::{Edition, Header, Program, TermRecord};

/// What belongs to one engine: its buffer as its last run left it, the used length that its last
/// accepted run gave, and the steps that its runs returned.
struct Side {
    buffer: Vec<u8>,
    used: usize,
    total: u64,
}

struct World {
    header: Header,
    stepper: Side,
    store: Vec<u32>,
    reducer: Side,
    seen: Seen,
}

/// What the comparisons came upon, so that a trial that compares nothing is noticed.
#[derive(Default)]
struct Seen {
    met: u32,
    met_later: u32,
    finished: u32,
    over: u32,
    over_in_edition_2: u32,
    refused: u32,
}

impl Side {
    fn take(&mut self, ran: &Ran) {
        self.total += u64::from(ran.steps);
        if ran.number == 0 {
            self.used = ran.used as usize;
        }
    }
}

impl World {
    /// The start, by the calls themselves: the stepper has the program and the store, the reducer
    /// the program's translation with that store substituted. What stands behind the two records
    /// is not zero.
    fn start(config: &Config, room: usize, other_room: usize) -> World {
        let program = config.program.encode();
        let stepper = lend(&program, room);
        let (header, checked) = (
            config.program.header,
            check_program(&stepper, program.len()),
        );
        assert_eq!((checked.number, checked.k), (0, header.k));
        let mut out = vec![0; other_room];
        let term = translate(&stepper, program.len(), &mut out).used as usize;
        assert_eq!(substitute(&mut out, term, &config.store).number, 0);
        let side = |buffer, used| Side {
            buffer,
            used,
            total: 0,
        };
        World {
            header,
            stepper: side(stepper, program.len()),
            store: config.store.clone(),
            reducer: side(lend(&out[..term], other_room), term),
            seen: Seen::default(),
        }
    }

    fn play(&mut self, run: &Run) {
        match run.engine {
            Engine::Stepper => self.play_stepper(run),
            Engine::Reducer => self.play_reducer(run),
        }
    }

    fn play_stepper(&mut self, run: &Run) {
        let budget = budget(run, &self.stepper, &self.reducer);
        let used = run.used.unwrap_or(self.stepper.used);
        let mut store = run.store.clone().unwrap_or(self.store.clone());
        let before = (self.stepper.buffer.clone(), store.clone());
        let ran = run_stepper(&mut self.stepper.buffer, used, &mut store, budget);
        let taken = store.len() == self.header.k as usize && within(self.header, &store).is_ok();
        let wrong = used != self.stepper.used || !taken;
        if wrong {
            let after = (self.stepper.buffer.clone(), store.clone());
            self.refused(&ran, before == after);
        }
        assert_eq!(ran.number != 0, wrong);
        if run.store.is_none() {
            self.store = store;
        }
        self.stepper.take(&ran);
    }

    fn play_reducer(&mut self, run: &Run) {
        let budget = budget(run, &self.reducer, &self.stepper);
        let used = run.used.unwrap_or(self.reducer.used);
        let before = self.reducer.buffer.clone();
        let reduced = run_reducer(&mut self.reducer.buffer, used, budget);
        let ran = reduced.ran;
        let wrong = used != self.reducer.used;
        if wrong {
            let unchanged = before == self.reducer.buffer;
            assert_eq!(reduced, Reduced::refused(ran.number));
            self.refused(&ran, unchanged);
        }
        assert_eq!(ran.number != 0, wrong);
        self.reducer.take(&ran);
    }

    /// A refused run returns its number and zeros, and changes nothing.
    fn refused(&mut self, ran: &Ran, unchanged: bool) {
        assert_eq!(*ran, Ran::refused(ran.number));
        assert!(unchanged);
        self.seen.refused += 1;
    }

    /// Where the totals agree: the term is byte for byte the translation of the configuration with
    /// its store; both are finished or neither, and then show the same values; both stand before
    /// too large a value or neither.
    fn compare(&mut self) {
        if self.stepper.total != self.reducer.total {
            return;
        }
        let program = Program::decode(&self.stepper.buffer[..self.stepper.used]);
        let config = Config {
            program: program.expect("the configuration is a program"),
            store: self.store.clone(),
        };
        let bytes = &self.reducer.buffer[..self.reducer.used];
        let term = TermRecord::decode(bytes).expect("the reducer's state is a term");
        let wanted = config.term();
        assert_eq!(wanted.encoded_len(), bytes.len());
        assert_eq!(hex(&wanted.encode()), hex(bytes));
        let (stands, other_stands) = (standing(&config), standing(&term));
        assert_eq!(stands, other_stands);
        if stands == Answer::Finished {
            assert_eq!(finished_values(&term.term), Some(self.store.clone()));
            self.seen.finished += 1;
        }
        self.seen.met += 1;
        self.seen.met_later += u32::from(self.stepper.total > 0);
        let (over, second) = (
            stands == Answer::Over,
            self.header.edition != Edition::First,
        );
        self.seen.over += u32::from(over);
        self.seen.over_in_edition_2 += u32::from(over && second);
    }

    /// What each engine's state says, without a step.
    fn outcomes(&mut self) -> [u32; 2] {
        let World {
            stepper,
            store,
            reducer,
            ..
        } = self;
        [
            run_stepper(&mut stepper.buffer, stepper.used, store, 0).outcome,
            run_reducer(&mut reducer.buffer, reducer.used, 0)
                .ran
                .outcome,
        ]
    }
}

fn budget(run: &Run, own: &Side, other: &Side) -> u32 {
    match run.budget {
        Budget::Exactly(budget) => budget,
        Budget::CatchUp => other.total.saturating_sub(own.total) as u32,
    }
}

fn standing<M: Machine>(machine: &M) -> Answer<()> {
    match next_state(machine) {
        Answer::Finished => Answer::Finished,
        Answer::Over => Answer::Over,
        Answer::Next(_) => Answer::Next(()),
    }
}

/// A generated program with a store, and a world with generated room for each engine.
fn generated(random: &mut Random) -> (World, Vec<Run>) {
    let most = *random.pick(&[300, 300, 300, 300, 4_000]);
    let limit = SHORTEST + random.below(most);
    let (program, _) = translation(random, limit);
    let store = store(random, program.header);
    let config = Config { program, store };
    let extra = *random.pick(&[1, 100, 400, 1_500]);
    let room = some_room(random, config.state_len(), extra);
    let term = config.term();
    let other_room = some_room(random, term.state_len(), 4 * extra);
    let ends = ends_within(&config, room, 3_000) && ends_within(&term, other_room, 3_000);
    let list = runs(random, config.program.header, ends);
    (World::start(&config, room, other_room), list)
}

/// So many bytes more, or now and then all that may be lent.
fn some_room(random: &mut Random, least: usize, extra: usize) -> usize {
    if random.one_in(10) {
        return 16_384;
    }
    least + random.below(extra)
}

#[test]
fn totals_that_agree_have_states_that_agree() {
    let seen = Counts::default();
    cases(12_000, |random| {
        let (mut world, list) = generated(random);
        // The empty list is a list as well: both totals are 0.
        world.compare();
        for run in &list {
            world.play(run);
            world.compare();
        }
        let Seen {
            met,
            met_later,
            finished,
            over,
            over_in_edition_2,
            refused,
        } = world.seen;
        let counts = [met, met_later, finished, over, over_in_edition_2, refused];
        for (sort, count) in counts.iter().enumerate() {
            seen.add(sort, *count);
        }
    });
    seen.assert_at_least([12_000, 4_500, 3_000, 500, 400, 3_000]);
}

/// 02, C-17: where neither runs out of room or budget, one stops for the ceiling exactly when the other
/// does, and at the same total. After a list of runs, and again when each has had as many steps as it
/// may make.
#[test]
fn both_stop_for_the_ceiling_or_neither_does() {
    // Stopped both: finished; over in edition 1; over in edition 2, with steps made. Not so: one of
    // them or both have no room, or have a further step to make.
    let seen = Counts::<4>::default();
    cases(12_000, |random| {
        let (mut world, list) = generated(random);
        for run in &list {
            world.play(run);
        }
        stop_together(&mut world, &seen);
        for engine in [Engine::Stepper, Engine::Reducer] {
            let budget = Budget::Exactly(3_000);
            world.play(&Run {
                budget,
                ..single(engine)
            });
        }
        stop_together(&mut world, &seen);
    });
    seen.assert_at_least([4_000, 100, 500, 4_000]);
}

fn stop_together(world: &mut World, seen: &Counts<4>) {
    let outcomes = world.outcomes();
    let stopped = |outcome: &u32| {
        [Outcome::Finished, Outcome::Over]
            .map(Outcome::number)
            .contains(outcome)
    };
    if !outcomes.iter().all(stopped) {
        return seen.one(3);
    }
    assert_eq!(outcomes[0], outcomes[1]);
    assert_eq!(world.stepper.total, world.reducer.total);
    let over = outcomes[0] == Outcome::Over.number();
    match (over, world.header.edition) {
        (false, _) => seen.one(0),
        (true, Edition::First) => seen.one(1),
        (true, Edition::Second(_)) => seen.add(2, u32::from(world.stepper.total > 0)),
    }
}

/// Step by step through the examples: one step of each engine at a time, compared at every total.
#[test]
fn the_examples_in_single_steps() {
    for example in all_examples() {
        let (program, store) = (example.program, example.store);
        let mut world = World::start(&Config { program, store }, 1_000, 1_000);
        for _ in 0..=example.steps {
            world.compare();
            world.play(&single(Engine::Stepper));
            world.play(&single(Engine::Reducer));
        }
        let name = example.name;
        assert_eq!(world.seen.met, example.steps + 1, "{name}");
        assert_eq!(world.stepper.total, u64::from(example.steps), "{name}");
        assert_eq!(world.store, example.end, "{name}");
    }
}

fn single(engine: Engine) -> Run {
    Run {
        engine,
        used: None,
        store: None,
        budget: Budget::Exactly(1),
    }
}

/// A run of m and then of n is a run of m + n, however the steps are spread.
#[test]
fn runs_add_up() {
    cases(1_000, |random| {
        let (mut world, _) = generated(random);
        let (mut whole, whole_used) = (world.reducer.buffer.clone(), world.reducer.used);
        let mut budget = 0;
        for _ in 0..random.below(6) {
            let steps = random.below(12) as u32;
            budget += steps;
            let run = Run {
                budget: Budget::Exactly(steps),
                ..single(Engine::Reducer)
            };
            world.play(&run);
        }
        let ran = run_reducer(&mut whole, whole_used, budget).ran;
        assert_eq!(u64::from(ran.steps), world.reducer.total);
        let used = world.reducer.used;
        assert_eq!(whole[..ran.used as usize], world.reducer.buffer[..used]);
    });
}
