use std::hint::black_box;

use super::{row, CEILING};
use crate::plain;
use other::calls;
use other::codec::Record;
use other::examples::add;
use other::extremes::{programs, terms, Records, EDITIONS};
use other::generate::lend;
use other::library;
use other::translate::translate;

/// In edition 2 as in edition 1: the deepest, and those with the most literals and numerals, each of
/// which is held to the ceiling.
const ALSO_IN_EDITION_2: [&str; 4] = ["nested blocks", "literals", "let-alls nested", "let-ones"];

fn in_both_editions<R: Record>(records: fn(other::tree::Edition) -> Vec<(String, R)>) -> Records {
    let [first, second] = EDITIONS.map(records);
    let also = |(name, _): &(String, R)| ALSO_IN_EDITION_2.iter().any(|on| name.contains(on));
    let all = first.into_iter().chain(second.into_iter().filter(also));
    all.map(|(name, record)| (name, record.encode())).collect()
}

pub fn print() {
    let mut all: Records = vec![
        ("ADD, 64 bytes".into(), add().encode()),
        ("ADD, edition 2".into(), add().under(CEILING).encode()),
    ];
    all.extend(in_both_editions(programs));
    for (on, record) in all {
        let (buf, used) = (lend(&record, 16_384), record.len());
        let buf = || black_box(&buf[..]);
        row(
            "check_program",
            &on,
            &mut [
                &mut || _ = black_box(library::check_program(buf(), used)),
                &mut || _ = black_box(calls::check_program(buf(), used)),
                &mut || _ = black_box(plain::check::check_program(buf(), used)),
            ],
        );
    }
    let mut all: Records = vec![
        ("ADD's term, 172 bytes".into(), translate(&add()).encode()),
        (
            "ADD's term, edition 2".into(),
            translate(&add().under(CEILING)).encode(),
        ),
    ];
    all.extend(in_both_editions(terms));
    for (on, record) in all {
        let (buf, used) = (lend(&record, 16_384), record.len());
        let buf = || black_box(&buf[..]);
        row(
            "check_term",
            &on,
            &mut [
                &mut || _ = black_box(library::check_term(buf(), used)),
                &mut || _ = black_box(calls::check_term(buf(), used)),
                &mut || _ = black_box(plain::check::check_term(buf(), used)),
            ],
        );
    }
}
