//! Records that are moved to the other edition (02, C-18).

use crate::check::BUFFER_LIMIT;
use crate::codec::Record;
use crate::random::Random;
use crate::tree::{Edition, Value};

/// The largest ceiling, which is edition 1's.
pub const LARGEST: Edition = Edition::Second(Value::MAX);

/// A sound record in an edition that it can be moved from, or nearly: often edition 1, or edition 2 with the
/// largest ceiling; now and then with one less, which a literal may be above, or as it was. One that would be
/// too long to be lent is of edition 1.
pub fn to_move<R: Record>(random: &mut Random, record: R) -> R {
    let edition = match random.below(10) {
        0..=3 => Edition::First,
        4..=7 => LARGEST,
        8 => Edition::Second(Value::MAX - 1),
        _ => record.header().edition,
    };
    let record = record.in_edition(edition);
    if record.encoded_len() > BUFFER_LIMIT {
        return record.in_edition(Edition::First);
    }
    record
}

/// The same record in edition 1, as short as that it can be moved.
pub fn first_edition<R: Record>(record: R) -> Option<R> {
    let record = record.in_edition(Edition::First);
    (record.encoded_len() + 4 <= BUFFER_LIMIT).then_some(record)
}
