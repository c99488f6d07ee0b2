//! The expansion of a counting state, front to back: the heads of the turns that are to come, what they
//! stand around, then the index and the body of each.

use super::counting::{entries, entry, BLOCK, PROGRESS, REACHED, RUNNING, TOP, WHAT};
use super::{half, put_half, put_head, put_leaf, put_word};
use other::calls::Written;
use other::check::Refusal;
use other::run::counting::words::Words;

pub fn expand(
    program: &[u8],
    used: usize,
    state: &Words,
    store: &[u32],
    out: &mut [u8],
) -> Written {
    if out.len() > 16_384 {
        return Written::refused(Refusal::BadBuffer);
    }
    let (header, open) = match entries(program, used, state, store) {
        Ok(entries) => entries,
        Err(refusal) => return Written::refused(refusal),
    };
    let (contents, commands) = (header.contents, header.contents + 4);
    let code = &program[commands..used];
    let from = Expanding { code, state, open };
    let length = commands as u64 + from.length(0, state[0] as usize, code.len());
    if length > out.len() as u64 {
        return Written::refused(Refusal::OutputTooShort);
    }
    let length = length as usize;
    out[..contents].copy_from_slice(&program[..contents]);
    put_half(out, 0, length);
    put_head(out, contents, length - contents, 1);
    from.write(0, state[0] as usize, code.len(), &mut out[commands..length]);
    out[length..].fill(0);
    Written {
        number: 0,
        used: length as u32,
    }
}

struct Expanding<'a> {
    code: &'a [u8],
    state: &'a Words,
    open: usize,
}

impl Expanding<'_> {
    /// The length of what is left of a block from a place to its end, with these entries within it.
    fn length(&self, number: usize, place: usize, end: usize) -> u64 {
        if number == self.open {
            return (end - place) as u64;
        }
        let (words, record) = (entry(number), half(self.code, place));
        let behind = (end - place - record) as u64;
        if self.state[words + WHAT] == BLOCK {
            return 4 + self.length(number + 1, self.progress(number), place + record) + behind;
        }
        let turns = u64::from(self.state[words + TOP] - self.state[words + REACHED]);
        self.innermost(number, place, record) + turns * record as u64 + behind
    }

    /// The length of what the later turns of a loop stand around.
    fn innermost(&self, number: usize, place: usize, record: usize) -> u64 {
        let words = entry(number);
        if self.state[words + RUNNING] == 0 || self.state[words + PROGRESS] == 1 {
            return record as u64;
        }
        if self.state[words + REACHED] == 0 {
            return 4;
        }
        4 + self.length(number + 1, self.progress(number) - 2, place + record)
    }

    fn progress(&self, number: usize) -> usize {
        self.state[entry(number) + PROGRESS] as usize
    }

    /// Writes so much, which is as long as `out`.
    fn write(&self, number: usize, place: usize, end: usize, out: &mut [u8]) {
        if number == self.open {
            out.copy_from_slice(&self.code[place..end]);
            if self.state[1] != 0 {
                put_leaf(out, 8, 16, self.state[2]);
            }
            return;
        }
        let record = half(self.code, place);
        let behind = end - place - record;
        let (front, rest) = out.split_at_mut(out.len() - behind);
        rest.copy_from_slice(&self.code[place + record..end]);
        if self.state[entry(number) + WHAT] == BLOCK {
            put_head(front, 0, front.len(), 1);
            self.write(
                number + 1,
                self.progress(number),
                place + record,
                &mut front[4..],
            );
        } else {
            self.write_loop(number, place, record, front);
        }
    }

    fn write_loop(&self, number: usize, place: usize, record: usize, out: &mut [u8]) {
        let words = entry(number);
        let (top, reached) = (self.state[words + TOP], self.state[words + REACHED]);
        let turns = (top - reached) as usize;
        for head in 0..turns {
            // All but the turns that stand behind this one.
            put_head(out, 4 * head, out.len() - head * record, 1);
        }
        let inner = out.len() - turns * record;
        let (heads, rest) = out.split_at_mut(4 * turns);
        debug_assert_eq!(heads.len(), 4 * turns);
        let (first, later) = rest.split_at_mut(inner);
        self.write_innermost(number, place, record, first);
        for (turn, out) in later.chunks_exact_mut(record - 4).enumerate() {
            self.write_turn(place, record, reached + 1 + turn as u32, out);
        }
    }

    fn write_innermost(&self, number: usize, place: usize, record: usize, out: &mut [u8]) {
        let words = entry(number);
        let reached = self.state[words + REACHED];
        if self.state[words + RUNNING] == 0 {
            out.copy_from_slice(&self.code[place..place + record]);
            return put_leaf(out, 8, 16, reached);
        }
        put_head(out, 0, out.len(), 1);
        match self.progress(number) {
            0 => (),
            1 => self.write_turn(place, record, reached, &mut out[4..]),
            progress => self.write(number + 1, progress - 2, place + record, &mut out[4..]),
        }
    }

    /// The index's assignment and the body's commands.
    fn write_turn(&self, place: usize, record: usize, count: u32, out: &mut [u8]) {
        put_head(out, 0, 16, 2);
        put_word(out, 4, super::word(self.code, place + 4));
        put_leaf(out, 8, 16, count);
        out[16..].copy_from_slice(&self.code[place + 20..place + record]);
    }
}
