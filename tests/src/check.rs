//! Rows 1 to 5 of 01, "Where an order stops", rows 12 and 14 to 18 of 02, and the numbers of all: 01's ten
//! and 02's.

use crate::codec::Record;
use crate::tree::{assigned_variables, bound_variables, Block, Command, Header, Program, Value};

/// Why a call is refused, by the names of `include/vistrokk.h` and in the order of the table, 01's with
/// 02's rows at their places; the discriminant is the number.
#[derive(Clone, Copy, Debug, PartialEq, Eq)]
pub enum Refusal {
    /// A buffer above 16,384 bytes, or a used length above its buffer.
    BadBuffer = 1,
    /// A batch of no store, or of more than 64 (02, C-16: after refusal 1).
    BadBatch = 14,
    /// Under 8 bytes used, or under 12 in edition 2 (02, C-17), or the wrong kind, or a length that is not
    /// the used length.
    BadHeader = 2,
    /// k is not 1 to 16.
    BadK = 3,
    /// Bytes outside the grammar, variable numbers disregarded.
    Malformed = 4,
    /// A variable number that is not 1 to k.
    BadVariable = 5,
    /// Blocks and loops nested over 32 deep (02, C-14: after refusal 5).
    TooDeep = 12,
    /// A literal or numeral above the header's ceiling (02, C-17: after refusals 5 and 12).
    LiteralAboveCeiling = 15,
    /// Moving to edition 1: a ceiling smaller than the largest value (02, C-18: after refusal 15).
    SmallCeiling = 17,
    /// A store of other than k values (weighing: of other than 1 to 16).
    BadStore = 6,
    /// Weighing: a rule number other than 1 or 2 (02, C-11: after refusal 6).
    BadRule = 11,
    /// Words that hold no state of the program (02, C-14: after refusal 6).
    BadState = 13,
    /// A value above the header's ceiling in a store that is read, or in a counting state (02, C-17: after
    /// refusals 6 and 13).
    ValueAboveCeiling = 16,
    /// A forecast of a program that assigns a variable used as a loop bound (02, C-19: after the store is
    /// checked).
    BoundAssigned = 18,
    /// A free variable.
    FreeVariable = 7,
    /// Not finished.
    Unfinished = 8,
    /// No program translates to it.
    NoProgram = 9,
    /// The answer is longer than the output buffer.
    OutputTooShort = 10,
    /// A figure of a forecast above 18,446,744,073,709,551,615 (02, C-19: last).
    FigureTooLarge = 19,
}

impl Refusal {
    pub fn number(self) -> u32 {
        self as u32
    }
}

impl From<Refusal> for u32 {
    fn from(refusal: Refusal) -> u32 {
        refusal.number()
    }
}

/// The largest buffer that may be lent (01, "Records").
pub const BUFFER_LIMIT: usize = 16_384;

/// Row 1 for one lent buffer. A buffer that only takes output counts as used to 0 bytes.
pub fn buffer(len: usize, used: usize) -> Result<(), Refusal> {
    if len > BUFFER_LIMIT || used > len {
        return Err(Refusal::BadBuffer);
    }
    Ok(())
}

/// The most stores of a batch (02, C-16).
pub const BATCH_LIMIT: usize = 64;

/// Row 14, for so many stores.
pub fn batch(stores: usize) -> Result<(), Refusal> {
    if !(1..=BATCH_LIMIT).contains(&stores) {
        return Err(Refusal::BadBatch);
    }
    Ok(())
}

/// Rows 2 to 5, in order, for the used bytes of a buffer. Which of the two records is asked for,
/// a program or a term, is the caller's choice of `R`.
///
/// Row 4 is asked of the whole record before row 5 is asked of any part, because decoding takes
/// every variable number and the numbers are looked at in the finished tree.
pub fn record<R: Record>(used: &[u8]) -> Result<R, Refusal> {
    let Header { k, .. } = header(used, R::KINDS)?;
    if !(1..=16).contains(&k) {
        return Err(Refusal::BadK);
    }
    let tree = R::decode(used).ok_or(Refusal::Malformed)?;
    let sound = |variable: &u32| (1..=k).contains(variable);
    if !tree.variables().iter().all(sound) {
        return Err(Refusal::BadVariable);
    }
    Ok(tree)
}

/// Row 2; gives the header. One of edition 2 needs 12 bytes, whatever they are.
fn header(used: &[u8], [first, second]: [u16; 2]) -> Result<Header, Refusal> {
    let [l0, l1, k0, k1, k @ ..]: [u8; 8] = *used.first_chunk().ok_or(Refusal::BadHeader)?;
    let kind = u16::from_le_bytes([k0, k1]);
    let k = u32::from_le_bytes(k);
    if usize::from(u16::from_le_bytes([l0, l1])) != used.len() {
        return Err(Refusal::BadHeader);
    }
    if kind == first {
        return Ok(Header::first(k));
    }
    let ceiling: [u8; 4] = *used[8..].first_chunk().ok_or(Refusal::BadHeader)?;
    if kind != second {
        return Err(Refusal::BadHeader);
    }
    Ok(Header::second(k, u32::from_le_bytes(ceiling)))
}

/// Row 15: no literal of a program, in an expression or a bound, and no numeral of a term is above the
/// ceiling of its header.
pub fn literals<R: Record>(record: &R) -> Result<(), Refusal> {
    if above(record.header(), &record.literals()) {
        return Err(Refusal::LiteralAboveCeiling);
    }
    Ok(())
}

/// Row 16, for the values of a store that is read, or of a counting state.
pub fn values(header: Header, values: &[Value]) -> Result<(), Refusal> {
    if above(header, values) {
        return Err(Refusal::ValueAboveCeiling);
    }
    Ok(())
}

fn above(header: Header, values: &[Value]) -> bool {
    values.iter().any(|value| *value > header.ceiling())
}

/// The deepest nesting that the counting stepper takes (02, C-14).
const DEPTH_LIMIT: usize = 32;

/// Row 12: the outermost block is 1, each loop or block command within adds 1.
pub fn depth(program: &Program) -> Result<(), Refusal> {
    if block_depth(&program.block) > DEPTH_LIMIT {
        return Err(Refusal::TooDeep);
    }
    Ok(())
}

fn block_depth(block: &Block) -> usize {
    let within = |command: &Command| match command {
        Command::Assign(..) => 0,
        Command::Loop(_, _, inner) | Command::Block(inner) => block_depth(inner),
    };
    1 + block.iter().map(within).max().unwrap_or(0)
}

/// Rows 1 to 5 for a lent buffer: the tree in it, or the first row that applies.
pub fn lent<R: Record>(lent: &[u8], used: usize) -> Result<R, Refusal> {
    buffer(lent.len(), used)?;
    record(&lent[..used])
}

/// The same, and row 15 behind them.
pub fn lent_within<R: Record>(buffer: &[u8], used: usize) -> Result<R, Refusal> {
    let tree = lent(buffer, used)?;
    literals(&tree)?;
    Ok(tree)
}

/// The same for a record that is to be moved away from this edition (02, C-18): one of the other edition
/// has the wrong kind, which is row 2.
pub fn lent_to_move<R: Record>(buffer: &[u8], used: usize, from: u32) -> Result<R, Refusal> {
    self::buffer(buffer.len(), used)?;
    if header(&buffer[..used], R::KINDS)?.edition.number() != from {
        return Err(Refusal::BadHeader);
    }
    lent_within(buffer, used)
}

/// Row 17: edition 1 has no field for a ceiling, and counts as the largest value.
pub fn largest_ceiling(header: Header) -> Result<(), Refusal> {
    if header.ceiling() < Value::MAX {
        return Err(Refusal::SmallCeiling);
    }
    Ok(())
}

/// Row 18: no command assigns a variable that is the bound of some loop. A loop assigns its index; where a
/// command stands, and whether it is ever come to, does not matter (02, C-19).
pub fn bounds(program: &Program) -> Result<(), Refusal> {
    let assigned = assigned_variables(program);
    let is_assigned = |bound: &u32| assigned.contains(bound);
    if bound_variables(program).iter().any(is_assigned) {
        return Err(Refusal::BoundAssigned);
    }
    Ok(())
}
