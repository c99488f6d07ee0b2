//! The stepper with counts, on the program's bytes and the 189 words. The innermost block's place and
//! end are kept at hand, and a step touches the innermost entry alone.

use super::check::{sound_program, Sound};
use super::{half, word, Header};
use other::calls::Counted;
use other::check::Refusal;
use other::run::counting::words::Words;
use other::run::Outcome;

/// The entries: how many fit, and what each of its words is.
const ENTRIES: usize = 31;
pub const WHAT: usize = 0;
const AT: usize = 1;
pub const TOP: usize = 2;
pub const REACHED: usize = 3;
pub const RUNNING: usize = 4;
pub const PROGRESS: usize = 5;

pub const BLOCK: u32 = 1;
const LOOP: u32 = 2;

/// Where an entry's words begin.
pub fn entry(number: usize) -> usize {
    3 + 6 * number
}

pub fn run_counting(
    program: &[u8],
    used: usize,
    state: &mut Words,
    store: &mut [u32],
    budget: u32,
) -> Counted {
    let (header, open) = match entries(program, used, state, store) {
        Ok(entries) => entries,
        Err(refusal) => return Counted::refused(refusal),
    };
    tidy(state, open);
    let code = &program[header.contents + 4..used];
    Counting::at(code, state, store, open, header.ceiling).run(budget)
}

/// Rows 1–5, 12, 15, 6, 13, 16: the header and how many entries the state has, or the refusal.
pub fn entries(
    program: &[u8],
    used: usize,
    state: &Words,
    store: &[u32],
) -> Result<(Header, usize), Refusal> {
    let Sound { header, above } = sound_program(program, used)?;
    let code = &program[header.contents + 4..used];
    if depth(code) > 32 {
        return Err(Refusal::TooDeep);
    }
    if above {
        return Err(Refusal::LiteralAboveCeiling);
    }
    if store.len() != header.k as usize {
        return Err(Refusal::BadStore);
    }
    let open = held(code, state).ok_or(Refusal::BadState)?;
    header.takes_values(store)?;
    if state[1] != 0 {
        header.takes_values(&state[2..3])?;
    }
    for words in (0..open).map(entry) {
        if state[words + WHAT] == LOOP {
            header.takes_values(&state[words + TOP..words + TOP + 1])?;
        }
    }
    Ok((header, open))
}

/// How deep commands are nested; the block around them counts.
fn depth(commands: &[u8]) -> usize {
    let (mut at, mut most) = (0, 0);
    while at < commands.len() {
        let end = at + half(commands, at);
        let inside = match half(commands, at + 2) {
            1 => depth(&commands[at + 4..end]),
            3 => depth(&commands[at + 20..end]),
            _ => 0,
        };
        most = most.max(inside);
        at = end;
    }
    1 + most
}

/// How many entries the words hold, if they hold a state.
fn held(code: &[u8], state: &Words) -> Option<usize> {
    let (mut open, mut place, mut inside) = (0, state[0], (0, code.len()));
    loop {
        if !starts(code, inside, place as usize) {
            return None;
        }
        if open == ENTRIES || state[entry(open) + WHAT] == 0 {
            let sound = state[1] == 0 || is_sum(code, inside.1, place as usize);
            return sound.then_some(open);
        }
        let words = &state[entry(open)..entry(open) + 6];
        let at = place as usize;
        if words[AT] != place || at == inside.1 {
            return None;
        }
        let end = at + half(code, at);
        match (words[WHAT], half(code, at + 2)) {
            (BLOCK, 1) => (place, inside) = (words[PROGRESS], (at + 4, end)),
            (LOOP, 3) if words[REACHED] <= words[TOP] => {
                let turn = words[RUNNING] != 0 && words[REACHED] != 0;
                match words[PROGRESS] {
                    progress if turn && progress >= 2 => {
                        (place, inside) = (progress - 2, (at + 20, end))
                    }
                    progress => {
                        let last = open + 1 == ENTRIES || state[entry(open + 1)] == 0;
                        let sound = progress == u32::from(turn) && last && state[1] == 0;
                        return sound.then_some(open + 1);
                    }
                }
            }
            _ => return None,
        }
        open += 1;
    }
}

/// Is the place a command's start or the end of this block?
fn starts(code: &[u8], (first, end): (usize, usize), place: usize) -> bool {
    let mut at = first;
    while at < place && at < end {
        at += half(code, at);
    }
    at == place
}

fn is_sum(code: &[u8], end: usize, at: usize) -> bool {
    at < end && half(code, at + 2) == 2 && half(code, at + 10) >= 18
}

/// 0 for what the state does not hold, and 1 for what is only not 0.
fn tidy(state: &mut Words, open: usize) {
    state[1] = state[1].min(1);
    state[2] *= state[1];
    for number in 0..open {
        let words = &mut state[entry(number)..entry(number) + 6];
        if words[WHAT] == BLOCK {
            words[TOP..=RUNNING].fill(0);
        }
        words[RUNNING] = words[RUNNING].min(1);
    }
    state[entry(open)..].fill(0);
}

struct Counting<'a> {
    code: &'a [u8],
    state: &'a mut Words,
    store: &'a mut [u32],
    ceiling: u32,
    open: usize,
    /// The innermost entry is a loop that is at no place in its body; else the innermost block is at
    /// this place, and ends there.
    shut: bool,
    place: usize,
    end: usize,
}

enum Ahead {
    Finished,
    Over,
    Step,
}

impl<'a> Counting<'a> {
    fn at(
        code: &'a [u8],
        state: &'a mut Words,
        store: &'a mut [u32],
        open: usize,
        ceiling: u32,
    ) -> Counting<'a> {
        let mut counting = Counting {
            code,
            state,
            store,
            ceiling,
            open,
            shut: false,
            place: 0,
            end: code.len(),
        };
        counting.place = counting.state[0] as usize;
        if open > 0 {
            let words = entry(open - 1);
            let at = counting.state[words + AT] as usize;
            let progress = counting.state[words + PROGRESS] as usize;
            counting.end = at + half(code, at);
            counting.shut = counting.state[words + WHAT] == LOOP && progress < 2;
            counting.place = match counting.state[words + WHAT] {
                BLOCK => progress,
                _ => progress.saturating_sub(2),
            };
        }
        counting
    }

    fn run(mut self, budget: u32) -> Counted {
        let mut steps = 0;
        let outcome = loop {
            if steps == budget {
                break match self.ahead() {
                    Ahead::Finished => Outcome::Finished,
                    Ahead::Over => Outcome::Over,
                    Ahead::Step => Outcome::Spent,
                };
            }
            match self.step() {
                Ahead::Finished => break Outcome::Finished,
                Ahead::Over => break Outcome::Over,
                Ahead::Step => steps += 1,
            }
        };
        if !self.shut {
            self.keep_place();
        }
        Counted {
            number: 0,
            outcome: outcome.number(),
            steps,
            left: budget - steps,
        }
    }

    /// Writes the innermost block's place where it is kept.
    fn keep_place(&mut self) {
        let place = self.place as u32;
        match self.open.checked_sub(1).map(entry) {
            None => self.state[0] = place,
            Some(words) if self.state[words + WHAT] == BLOCK => {
                self.state[words + PROGRESS] = place
            }
            Some(words) => self.state[words + PROGRESS] = place + 2,
        }
    }

    fn value(&self, at: usize) -> u32 {
        self.store[word(self.code, at) as usize - 1]
    }

    fn put(&mut self, at: usize, value: u32) {
        self.store[word(self.code, at) as usize - 1] = value;
    }

    /// The first command that is no nonempty block, from the innermost place on.
    fn active(&self) -> usize {
        let mut at = self.place;
        while half(self.code, at + 2) == 1 && half(self.code, at) > 4 {
            at += 4;
        }
        at
    }

    fn is_over(&self, at: usize) -> bool {
        half(self.code, at + 2) == 2
            && half(self.code, at + 10) == 18
            && self.value(at + 12) >= self.ceiling
    }

    fn ahead(&self) -> Ahead {
        if self.shut || self.state[1] != 0 {
            return Ahead::Step;
        }
        if self.place == self.end {
            return if self.open == 0 {
                Ahead::Finished
            } else {
                Ahead::Step
            };
        }
        if self.is_over(self.active()) {
            return Ahead::Over;
        }
        Ahead::Step
    }

    fn step(&mut self) -> Ahead {
        if self.shut {
            self.turn();
        } else if self.state[1] != 0 {
            self.put(self.place + 4, self.state[2]);
            (self.state[1], self.state[2]) = (0, 0);
            self.place += 16;
        } else if self.place == self.end {
            return self.close();
        } else {
            return self.command();
        }
        Ahead::Step
    }

    /// A step of a loop that is at no place in its body.
    fn turn(&mut self) {
        let words = entry(self.open - 1);
        if self.state[words + RUNNING] == 0 {
            match self.state[words + REACHED] {
                0 => self.state[words + RUNNING] = 1,
                left => self.state[words + REACHED] = left - 1,
            }
        } else if self.state[words + REACHED] == 0 {
            self.turned();
        } else {
            let at = self.state[words + AT] as usize;
            self.put(at + 4, self.state[words + REACHED]);
            self.state[words + PROGRESS] = at as u32 + 22;
            (self.shut, self.place, self.end) = (false, at + 20, at + half(self.code, at));
        }
    }

    /// The innermost turn is through.
    fn turned(&mut self) {
        let words = entry(self.open - 1);
        let reached = self.state[words + REACHED];
        if reached == self.state[words + TOP] {
            return self.leave();
        }
        self.state[words + REACHED] = reached + 1;
        self.state[words + PROGRESS] = 1;
        self.shut = true;
    }

    /// The innermost entry goes; its holder is behind it.
    fn leave(&mut self) {
        let words = entry(self.open - 1);
        let at = self.state[words + AT] as usize;
        self.state[words..words + 6].fill(0);
        self.open -= 1;
        (self.shut, self.place) = (false, at + half(self.code, at));
        self.end = match self.open.checked_sub(1).map(entry) {
            None => self.code.len(),
            Some(words) => {
                let at = self.state[words + AT] as usize;
                at + half(self.code, at)
            }
        };
    }

    /// A step where nothing is left of the innermost block.
    fn close(&mut self) -> Ahead {
        match self.open.checked_sub(1).map(entry) {
            None => return Ahead::Finished,
            Some(words) if self.state[words + WHAT] == BLOCK => self.leave(),
            Some(_) => self.turned(),
        }
        Ahead::Step
    }

    fn command(&mut self) -> Ahead {
        if half(self.code, self.place + 2) == 1 {
            let at = self.active();
            if self.is_over(at) {
                return Ahead::Over;
            }
            while self.place < at {
                self.enter_block();
            }
        }
        let at = self.place;
        match half(self.code, at + 2) {
            1 => self.place += 4,
            2 => return self.assign(at),
            _ => self.enter_loop(at),
        }
        Ahead::Step
    }

    fn assign(&mut self, at: usize) -> Ahead {
        let sum = match half(self.code, at + 10) {
            16 => return self.assigned(at, word(self.code, at + 12)),
            17 => return self.assigned(at, self.value(at + 12)),
            18 => {
                let value = self.value(at + 12);
                if value >= self.ceiling {
                    return Ahead::Over;
                }
                value + 1
            }
            _ => self.value(at + 12).saturating_sub(1),
        };
        (self.state[1], self.state[2]) = (1, sum);
        Ahead::Step
    }

    fn assigned(&mut self, at: usize, value: u32) -> Ahead {
        self.put(at + 4, value);
        self.place += 16;
        Ahead::Step
    }

    fn enter_block(&mut self) {
        let at = self.place;
        self.push([BLOCK, at as u32, 0, 0, 0, at as u32 + 4]);
        (self.place, self.end) = (at + 4, at + half(self.code, at));
    }

    fn enter_loop(&mut self, at: usize) {
        let top = match half(self.code, at + 10) {
            16 => word(self.code, at + 12),
            _ => self.value(at + 12),
        };
        let running = u32::from(top == 0);
        self.push([LOOP, at as u32, top, top.saturating_sub(1), running, 0]);
        self.shut = true;
    }

    fn push(&mut self, words: [u32; 6]) {
        self.keep_place();
        let start = entry(self.open);
        self.state[start..start + 6].copy_from_slice(&words);
        self.open += 1;
    }
}
