//! The run that both engines share (01, "Run orders").

pub mod counting;
pub mod reducer;
pub mod stepper;

use crate::tree::Value;

/// How a run ends; the discriminant is the number that is handed over.
#[derive(Clone, Copy, Debug, PartialEq, Eq)]
pub enum Outcome {
    Refused = 0,
    Finished = 1,
    Over = 2,
    NoRoom = 3,
    Spent = 4,
}

impl Outcome {
    pub fn number(self) -> u32 {
        self as u32
    }
}

/// What stands before a machine in its present state.
#[derive(Clone, Debug, PartialEq, Eq)]
pub enum Answer<T> {
    Finished,
    /// The next step would give a value above the ceiling.
    Over,
    Next(T),
}

/// Plus one, unless that is above the ceiling (02, C-17). Above the largest value it always is.
pub fn plus_one(value: Value, ceiling: Value) -> Option<Value> {
    value.checked_add(1).filter(|next| *next <= ceiling)
}

/// An engine's state, as the run sees it.
///
/// A step changes one place of the tree. It is told apart from the state, as what is put at that
/// place, so that a step that does not fit leaves the state as it was.
pub trait Machine: Clone {
    type Change;

    /// The length of the state's record.
    fn state_len(&self) -> usize;
    /// The change of the next step.
    fn next(&self) -> Answer<Self::Change>;
    /// How many bytes of the record the change takes away, and how many it puts there.
    fn lengths(&self, change: &Self::Change) -> (usize, usize);
    fn apply(&mut self, change: Self::Change);
}

/// The state one step on.
pub fn next_state<M: Machine>(machine: &M) -> Answer<M> {
    match machine.next() {
        Answer::Finished => Answer::Finished,
        Answer::Over => Answer::Over,
        Answer::Next(change) => {
            let mut next = machine.clone();
            next.apply(change);
            Answer::Next(next)
        }
    }
}

/// Runs for at most `budget` steps in a buffer of `room` bytes; gives the outcome and the steps.
///
/// The outcome is read from the state left, first match: finished; over; no room, where the next
/// state is longer than the buffer; spent, where a further step is possible.
pub fn run<M: Machine>(machine: &mut M, room: usize, budget: u32) -> (Outcome, u32) {
    run_noting(machine, room, budget, |_| ())
}

/// The same run. `note` is shown the change of each step that is made, and of no other.
pub fn run_noting<M: Machine>(
    machine: &mut M,
    room: usize,
    budget: u32,
    mut note: impl FnMut(&M::Change),
) -> (Outcome, u32) {
    let mut len = machine.state_len();
    let mut steps = 0;
    loop {
        let change = match machine.next() {
            Answer::Finished => return (Outcome::Finished, steps),
            Answer::Over => return (Outcome::Over, steps),
            Answer::Next(change) => change,
        };
        let (removed, added) = machine.lengths(&change);
        let next_len = len - removed + added;
        if next_len > room {
            return (Outcome::NoRoom, steps);
        }
        if steps == budget {
            return (Outcome::Spent, steps);
        }
        note(&change);
        machine.apply(change);
        len = next_len;
        steps += 1;
    }
}
