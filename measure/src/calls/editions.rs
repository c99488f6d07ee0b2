use std::hint::black_box;

use super::row;
use crate::plain::editions as plain;
use other::calls::{self, Written};
use other::codec::Record;
use other::examples::add;
use other::extremes::{programs_to_move_from, terms_to_move_from, Records};
use other::generate::editions::LARGEST;
use other::generate::lend;
use other::library;
use other::translate::translate;
use other::tree::Edition;

type Move = fn(&[u8], usize, &mut [u8]) -> Written;

/// The same records to edition 2 and back: ADD, and the longest whose move can be lent. Beside the check it is
/// one copy.
pub fn print() {
    let programs = |edition| {
        let add = ("ADD".into(), add().in_edition(edition).encode());
        with_add(add, programs_to_move_from(edition))
    };
    let terms = |edition| {
        let term = translate(&add()).in_edition(edition).encode();
        with_add(("ADD's term".into(), term), terms_to_move_from(edition))
    };
    moves(
        "program_to_edition_2",
        programs(Edition::First),
        [
            library::program_to_edition_2,
            calls::program_to_edition_2,
            plain::program_to_edition_2,
        ],
    );
    moves(
        "program_to_edition_1",
        programs(LARGEST),
        [
            library::program_to_edition_1,
            calls::program_to_edition_1,
            plain::program_to_edition_1,
        ],
    );
    moves(
        "term_to_edition_2",
        terms(Edition::First),
        [
            library::term_to_edition_2,
            calls::term_to_edition_2,
            plain::term_to_edition_2,
        ],
    );
    moves(
        "term_to_edition_1",
        terms(LARGEST),
        [
            library::term_to_edition_1,
            calls::term_to_edition_1,
            plain::term_to_edition_1,
        ],
    );
}

fn with_add(add: (String, Vec<u8>), mut records: Records) -> Records {
    records.insert(0, add);
    records
}

/// The call's name says which edition the record is of.
fn moves(call: &str, records: Records, [library, other, plain]: [Move; 3]) {
    for (on, record) in records {
        let (buf, used) = (lend(&record, 16_384), record.len());
        let [mut out, mut other_out, mut plain_out] = [(); 3].map(|()| vec![0; 16_384]);
        let buf = || black_box(&buf[..]);
        row(
            call,
            on.trim_end_matches(", edition 2"),
            &mut [
                &mut || _ = black_box(library(buf(), used, &mut out)),
                &mut || _ = black_box(other(buf(), used, &mut other_out)),
                &mut || _ = black_box(plain(buf(), used, &mut plain_out)),
            ],
        );
    }
}
