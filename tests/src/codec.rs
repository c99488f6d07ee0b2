//! Trees to bytes and back, exact to 01, "Records".
//!
//! Every record is its whole length (2 bytes), its kind (2 bytes) and its contents; all numbers
//! are little-endian, and a value, a variable number and k take 4 bytes each.

use crate::tree::{
    program_literals, program_variables, term_numerals, term_variables, Atom, Block, Bound,
    Command, Edition, Expr, Header, Program, Simple, Term, TermRecord, Value, Variable,
};

/// The kind numbers of 01's table, and those of edition 2's headers (02, C-17).
pub mod kind {
    pub const BLOCK: u16 = 1;
    pub const ASSIGNMENT: u16 = 2;
    pub const LOOP: u16 = 3;
    pub const PROGRAM: u16 = 7;
    pub const PROGRAM_2: u16 = 9;
    pub const LITERAL: u16 = 16;
    pub const VARIABLE: u16 = 17;
    pub const PLUS_ONE: u16 = 18;
    pub const MINUS_ONE: u16 = 19;
    pub const NUMERAL: u16 = 32;
    pub const TERM_VARIABLE: u16 = 33;
    pub const SUCC: u16 = 34;
    pub const PRED: u16 = 35;
    pub const TUPLE: u16 = 36;
    pub const LET_ONE: u16 = 37;
    pub const LET_ALL: u16 = 38;
    pub const REC: u16 = 39;
    pub const TERM: u16 = 40;
    pub const TERM_2: u16 = 41;
}

/// Length and kind, before the contents of any record.
const HEAD: usize = 4;
/// A value, a variable number, k or a ceiling.
const WORD: usize = 4;
/// An expression, a bound or an atom: its head and one word.
const LEAF: usize = HEAD + WORD;

/// The two records that a caller can lend: a program and a term.
pub trait Record: Sized {
    /// The header's kind in edition 1 and in edition 2.
    const KINDS: [u16; 2];

    fn header(&self) -> Header;
    /// The same record with a header of this edition.
    fn in_edition(self, edition: Edition) -> Self;
    /// Every variable number in the record.
    fn variables(&self) -> Vec<Variable>;
    /// Every literal of a program, every numeral of a term.
    fn literals(&self) -> Vec<Value>;
    /// The record's length. Never cut to 16 bits: a translation can be 556,788 bytes long.
    fn encoded_len(&self) -> usize;
    /// The record's bytes. Only for records of at most 65,535 bytes: no other has a length field.
    fn encode(&self) -> Vec<u8>;
    /// The tree whose encoding the bytes are, if there is one, for any k and variable numbers.
    fn decode(bytes: &[u8]) -> Option<Self>;
}

impl Record for Program {
    const KINDS: [u16; 2] = [kind::PROGRAM, kind::PROGRAM_2];

    fn header(&self) -> Header {
        self.header
    }

    fn in_edition(mut self, edition: Edition) -> Program {
        self.header.edition = edition;
        self
    }

    fn variables(&self) -> Vec<Variable> {
        program_variables(self)
    }

    fn literals(&self) -> Vec<Value> {
        program_literals(self)
    }

    fn encoded_len(&self) -> usize {
        header_len(self.header) + block_len(&self.block)
    }

    fn encode(&self) -> Vec<u8> {
        let put = |out: &mut Vec<u8>| put_block(out, &self.block);
        with_header(self.header, Program::KINDS, put)
    }

    fn decode(bytes: &[u8]) -> Option<Program> {
        let (header, mut contents) = read_header(bytes, Program::KINDS)?;
        let block = read_block(&mut contents)?;
        contents.end(Program { header, block })
    }
}

impl Record for TermRecord {
    const KINDS: [u16; 2] = [kind::TERM, kind::TERM_2];

    fn header(&self) -> Header {
        self.header
    }

    fn in_edition(mut self, edition: Edition) -> TermRecord {
        self.header.edition = edition;
        self
    }

    fn variables(&self) -> Vec<Variable> {
        term_variables(&self.term)
    }

    fn literals(&self) -> Vec<Value> {
        term_numerals(&self.term)
    }

    fn encoded_len(&self) -> usize {
        header_len(self.header) + term_len(&self.term)
    }

    fn encode(&self) -> Vec<u8> {
        let put = |out: &mut Vec<u8>| put_term(out, &self.term);
        with_header(self.header, TermRecord::KINDS, put)
    }

    fn decode(bytes: &[u8]) -> Option<TermRecord> {
        let (header, mut contents) = read_header(bytes, TermRecord::KINDS)?;
        let term = read_term(&mut contents, header.k)?;
        contents.end(TermRecord { header, term })
    }
}

// Lengths.

/// Length, kind and k; in edition 2 the ceiling behind them.
pub fn header_len(header: Header) -> usize {
    match header.edition {
        Edition::First => HEAD + WORD,
        Edition::Second(_) => HEAD + WORD + WORD,
    }
}

fn block_len(block: &Block) -> usize {
    HEAD + block.iter().map(command_len).sum::<usize>()
}

pub fn command_len(command: &Command) -> usize {
    match command {
        Command::Assign(..) => HEAD + WORD + LEAF,
        Command::Loop(_, _, body) => HEAD + WORD + LEAF + block_len(body),
        Command::Block(block) => block_len(block),
    }
}

fn tuple_len(atoms: &[Atom]) -> usize {
    HEAD + LEAF * atoms.len()
}

fn simple_len(simple: &Simple) -> usize {
    match simple {
        Simple::Atom(_) => LEAF,
        Simple::Succ(_) | Simple::Pred(_) => HEAD + LEAF,
    }
}

pub fn term_len(term: &Term) -> usize {
    match term {
        Term::Tuple(atoms) => tuple_len(atoms),
        Term::LetOne(_, simple, last) => HEAD + WORD + simple_len(simple) + term_len(last),
        Term::LetAll(first, last) => HEAD + term_len(first) + term_len(last),
        Term::Rec(_, _, start, body) => HEAD + WORD + LEAF + tuple_len(start) + term_len(body),
    }
}

// Encoding.

fn put_word(out: &mut Vec<u8>, word: u32) {
    out.extend(word.to_le_bytes());
}

/// Writes the contents first and the length, then known, into the two bytes kept free for it.
fn put_record(out: &mut Vec<u8>, kind: u16, contents: impl FnOnce(&mut Vec<u8>)) {
    let start = out.len();
    out.extend([0, 0]);
    out.extend(kind.to_le_bytes());
    contents(out);
    let len = u16::try_from(out.len() - start).expect("a record of at most 65,535 bytes");
    out[start..start + 2].copy_from_slice(&len.to_le_bytes());
}

/// A whole record: the header, of the kind that its edition has, and what `put` writes behind it.
fn with_header(
    header: Header,
    [first, second]: [u16; 2],
    put: impl FnOnce(&mut Vec<u8>),
) -> Vec<u8> {
    let mut out = Vec::new();
    match header.edition {
        Edition::First => put_record(&mut out, first, |out| {
            put_word(out, header.k);
            put(out);
        }),
        Edition::Second(ceiling) => put_record(&mut out, second, |out| {
            put_word(out, header.k);
            put_word(out, ceiling);
            put(out);
        }),
    }
    out
}

fn put_leaf(out: &mut Vec<u8>, kind: u16, word: u32) {
    put_record(out, kind, |out| put_word(out, word));
}

fn put_block(out: &mut Vec<u8>, block: &Block) {
    put_record(out, kind::BLOCK, |out| {
        for command in block {
            put_command(out, command);
        }
    });
}

fn put_command(out: &mut Vec<u8>, command: &Command) {
    match command {
        Command::Assign(variable, expr) => put_record(out, kind::ASSIGNMENT, |out| {
            put_word(out, *variable);
            put_expr(out, expr);
        }),
        Command::Loop(index, bound, body) => put_record(out, kind::LOOP, |out| {
            put_word(out, *index);
            put_bound(out, bound);
            put_block(out, body);
        }),
        Command::Block(block) => put_block(out, block),
    }
}

fn put_expr(out: &mut Vec<u8>, expr: &Expr) {
    match *expr {
        Expr::Literal(value) => put_leaf(out, kind::LITERAL, value),
        Expr::Variable(variable) => put_leaf(out, kind::VARIABLE, variable),
        Expr::PlusOne(variable) => put_leaf(out, kind::PLUS_ONE, variable),
        Expr::MinusOne(variable) => put_leaf(out, kind::MINUS_ONE, variable),
    }
}

fn put_bound(out: &mut Vec<u8>, bound: &Bound) {
    match *bound {
        Bound::Literal(value) => put_leaf(out, kind::LITERAL, value),
        Bound::Variable(variable) => put_leaf(out, kind::VARIABLE, variable),
    }
}

fn put_atom(out: &mut Vec<u8>, atom: &Atom) {
    match *atom {
        Atom::Numeral(value) => put_leaf(out, kind::NUMERAL, value),
        Atom::Variable(variable) => put_leaf(out, kind::TERM_VARIABLE, variable),
    }
}

fn put_simple(out: &mut Vec<u8>, simple: &Simple) {
    match simple {
        Simple::Atom(atom) => put_atom(out, atom),
        Simple::Succ(atom) => put_record(out, kind::SUCC, |out| put_atom(out, atom)),
        Simple::Pred(atom) => put_record(out, kind::PRED, |out| put_atom(out, atom)),
    }
}

fn put_tuple(out: &mut Vec<u8>, atoms: &[Atom]) {
    put_record(out, kind::TUPLE, |out| {
        for atom in atoms {
            put_atom(out, atom);
        }
    });
}

fn put_term(out: &mut Vec<u8>, term: &Term) {
    match term {
        Term::Tuple(atoms) => put_tuple(out, atoms),
        Term::LetOne(variable, simple, last) => put_record(out, kind::LET_ONE, |out| {
            put_word(out, *variable);
            put_simple(out, simple);
            put_term(out, last);
        }),
        Term::LetAll(first, last) => put_record(out, kind::LET_ALL, |out| {
            put_term(out, first);
            put_term(out, last);
        }),
        Term::Rec(index, count, start, body) => put_record(out, kind::REC, |out| {
            put_word(out, *index);
            put_atom(out, count);
            put_tuple(out, start);
            put_term(out, body);
        }),
    }
}

// Decoding. `None` is "bytes outside the grammar" (01, row 4) all through.

/// What is left of a record's contents.
struct Contents<'a>(&'a [u8]);

impl<'a> Contents<'a> {
    fn take(&mut self, len: usize) -> Option<&'a [u8]> {
        let (taken, rest) = self.0.split_at_checked(len)?;
        self.0 = rest;
        Some(taken)
    }

    fn word(&mut self) -> Option<u32> {
        let bytes = self.take(WORD)?;
        Some(u32::from_le_bytes(bytes.try_into().ok()?))
    }

    /// The next record: its kind and its contents. Its length must lie within what is left.
    fn record(&mut self) -> Option<(u16, Contents<'a>)> {
        let head = self.0.get(..HEAD)?;
        let len = usize::from(u16::from_le_bytes([head[0], head[1]]));
        let kind = u16::from_le_bytes([head[2], head[3]]);
        let contents = self.take(len)?.get(HEAD..)?;
        Some((kind, Contents(contents)))
    }

    /// The value, provided that no bytes are left over.
    fn end<T>(&self, value: T) -> Option<T> {
        self.0.is_empty().then_some(value)
    }
}

/// A header of one of these kinds, which says the length of the bytes, and the contents after it.
fn read_header(bytes: &[u8], [first, second]: [u16; 2]) -> Option<(Header, Contents<'_>)> {
    let mut all = Contents(bytes);
    let (kind, mut contents) = all.record()?;
    all.end(())?;
    let k = contents.word()?;
    if kind == first {
        return Some((Header::first(k), contents));
    }
    let ceiling = contents.word()?;
    (kind == second).then_some((Header::second(k, ceiling), contents))
}

fn read_block(from: &mut Contents) -> Option<Block> {
    let (kind, contents) = from.record()?;
    (kind == kind::BLOCK).then(|| read_commands(contents))?
}

fn read_commands(mut contents: Contents) -> Option<Block> {
    let mut block = Vec::new();
    while contents.end(()).is_none() {
        block.push(read_command(&mut contents)?);
    }
    Some(block)
}

fn read_command(from: &mut Contents) -> Option<Command> {
    let (kind, mut contents) = from.record()?;
    match kind {
        kind::BLOCK => read_commands(contents).map(Command::Block),
        kind::ASSIGNMENT => {
            let variable = contents.word()?;
            let expr = read_expr(&mut contents)?;
            contents.end(Command::Assign(variable, expr))
        }
        kind::LOOP => {
            let index = contents.word()?;
            let bound = read_bound(&mut contents)?;
            let body = read_block(&mut contents)?;
            contents.end(Command::Loop(index, bound, body))
        }
        _ => None,
    }
}

/// A record that is one word: its kind and the word.
fn read_leaf(from: &mut Contents) -> Option<(u16, u32)> {
    let (kind, mut contents) = from.record()?;
    let word = contents.word()?;
    contents.end((kind, word))
}

fn read_expr(from: &mut Contents) -> Option<Expr> {
    match read_leaf(from)? {
        (kind::LITERAL, value) => Some(Expr::Literal(value)),
        (kind::VARIABLE, variable) => Some(Expr::Variable(variable)),
        (kind::PLUS_ONE, variable) => Some(Expr::PlusOne(variable)),
        (kind::MINUS_ONE, variable) => Some(Expr::MinusOne(variable)),
        _ => None,
    }
}

fn read_bound(from: &mut Contents) -> Option<Bound> {
    match read_leaf(from)? {
        (kind::LITERAL, value) => Some(Bound::Literal(value)),
        (kind::VARIABLE, variable) => Some(Bound::Variable(variable)),
        _ => None,
    }
}

fn read_atom(from: &mut Contents) -> Option<Atom> {
    match read_leaf(from)? {
        (kind::NUMERAL, value) => Some(Atom::Numeral(value)),
        (kind::TERM_VARIABLE, variable) => Some(Atom::Variable(variable)),
        _ => None,
    }
}

fn read_simple(from: &mut Contents) -> Option<Simple> {
    // Looks at the kind in a copy, because an atom is read with its head.
    let (kind, mut contents) = Contents(from.0).record()?;
    let wrap = match kind {
        kind::SUCC => Simple::Succ,
        kind::PRED => Simple::Pred,
        _ => return read_atom(from).map(Simple::Atom),
    };
    from.record()?;
    let atom = read_atom(&mut contents)?;
    contents.end(wrap(atom))
}

fn read_tuple(from: &mut Contents, k: u32) -> Option<Vec<Atom>> {
    let (kind, contents) = from.record()?;
    (kind == kind::TUPLE).then(|| read_atoms(contents, k))?
}

/// Exactly k atoms (01, "Records", kind 36).
fn read_atoms(mut contents: Contents, k: u32) -> Option<Vec<Atom>> {
    let mut atoms = Vec::new();
    while contents.end(()).is_none() {
        atoms.push(read_atom(&mut contents)?);
    }
    (atoms.len() == k as usize).then_some(atoms)
}

fn read_term(from: &mut Contents, k: u32) -> Option<Term> {
    let (kind, mut contents) = from.record()?;
    match kind {
        kind::TUPLE => read_atoms(contents, k).map(Term::Tuple),
        kind::LET_ONE => {
            let variable = contents.word()?;
            let simple = read_simple(&mut contents)?;
            let last = Box::new(read_term(&mut contents, k)?);
            contents.end(Term::LetOne(variable, simple, last))
        }
        kind::LET_ALL => {
            let first = Box::new(read_term(&mut contents, k)?);
            let last = Box::new(read_term(&mut contents, k)?);
            contents.end(Term::LetAll(first, last))
        }
        kind::REC => {
            let index = contents.word()?;
            let count = read_atom(&mut contents)?;
            let start = read_tuple(&mut contents, k)?;
            let body = Box::new(read_term(&mut contents, k)?);
            contents.end(Term::Rec(index, count, start, body))
        }
        _ => None,
    }
}

/// The bytes as a line of hexadecimal, for the message of a failing case.
pub fn hex(bytes: &[u8]) -> String {
    let digits: Vec<String> = bytes.iter().map(|byte| format!("{byte:02X}")).collect();
    digits.join(" ")
}
