//! Lists of runs in any mixture of the two engines, refused ones among them (01, "Run orders").

use crate::generate::programs::refused_store;
use crate::random::Random;
use crate::run::{run, Machine, Outcome};
use crate::tree::Header;

#[derive(Clone, Copy, Debug, PartialEq, Eq)]
pub enum Engine {
    Stepper,
    Reducer,
}

/// A run's budget: a number, or as many steps as the other engine is ahead by (0 if it is not),
/// so that the two totals meet often.
#[derive(Clone, Copy, Debug)]
pub enum Budget {
    Exactly(u32),
    CatchUp,
}

/// One run of a list.
#[derive(Clone, Debug)]
pub struct Run {
    pub engine: Engine,
    /// The used length handed over; `None` is the one that the engine's last accepted run gave.
    pub used: Option<usize>,
    /// The store handed to the stepper; `None` is its own, anything else is not k values or has one above
    /// the ceiling.
    pub store: Option<Vec<u32>>,
    pub budget: Budget,
}

/// A list of runs. The largest budgets only come where `ends` says that the run then ends.
pub fn runs(random: &mut Random, header: Header, ends: bool) -> Vec<Run> {
    (0..random.below(14))
        .map(|_| one_run(random, header, ends))
        .collect()
}

fn one_run(random: &mut Random, header: Header, ends: bool) -> Run {
    let engine = *random.pick(&[Engine::Stepper, Engine::Reducer]);
    let wrong_used = random.one_in(8);
    let wrong_values = engine == Engine::Stepper && random.one_in(8);
    Run {
        engine,
        used: wrong_used.then(|| any_used(random)),
        store: wrong_values.then(|| refused_store(random, header)),
        budget: budget(random, ends),
    }
}

pub fn any_used(random: &mut Random) -> usize {
    match random.below(4) {
        0 => random.below(13),
        1 => random.below(600),
        2 => 16_384 + random.below(2),
        _ => usize::MAX,
    }
}

fn budget(random: &mut Random, ends: bool) -> Budget {
    match random.below(8) {
        0 => Budget::Exactly(0),
        1 => Budget::Exactly(1),
        2 if ends => Budget::Exactly(u32::MAX),
        2 | 3 => Budget::Exactly(random.below(60) as u32),
        4 => Budget::Exactly(random.below(8) as u32),
        _ => Budget::CatchUp,
    }
}

/// Whether a run in this room comes to its end, of whatever kind, in at most `limit` steps.
pub fn ends_within<M: Machine>(machine: &M, room: usize, limit: u32) -> bool {
    run(&mut machine.clone(), room, limit).0 != Outcome::Spent
}
