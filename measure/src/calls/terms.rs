use std::hint::black_box;

use super::{lent_with_copies, row, CEILING};
use crate::plain;
use other::calls;
use other::codec::Record;
use other::examples::add;
use other::extremes::{self, Records};
use other::generate::lend;
use other::library;
use other::translate::translate as translation;
use other::tree::Edition;

pub fn print() {
    let second = add().under(CEILING);
    let mut programs: Records = vec![
        ("ADD, 64 bytes".into(), add().encode()),
        ("ADD, edition 2".into(), second.encode()),
    ];
    programs.extend(encoded(extremes::translatable(Edition::First)));
    for (on, record) in programs {
        translate(&on, &record);
    }
    let mut terms: Records = vec![
        ("ADD's term, 172 bytes".into(), translation(&add()).encode()),
        (
            "ADD's term, edition 2".into(),
            translation(&second).encode(),
        ),
    ];
    terms.extend(encoded(extremes::terms(Edition::First)));
    for (on, record) in &terms {
        read_back(on, record);
    }
    for (on, record) in &terms {
        substitute(on, record);
    }
    for (on, record) in extremes::finished_record() {
        result(&on, &record);
    }
}

fn encoded<R: Record>(records: Vec<(String, R)>) -> Records {
    let one = |(on, record): (String, R)| (on, record.encode());
    records.into_iter().map(one).collect()
}

fn translate(on: &str, record: &[u8]) {
    let (buf, used) = (lend(record, 16_384), record.len());
    let [mut out, mut other_out, mut plain_out] = [(); 3].map(|()| vec![0; 16_384]);
    row(
        "translate",
        on,
        &mut [
            &mut || _ = black_box(library::translate(black_box(&buf), used, &mut out)),
            &mut || _ = black_box(calls::translate(black_box(&buf), used, &mut other_out)),
            &mut || {
                _ = black_box(plain::translate::translate(
                    black_box(&buf),
                    used,
                    &mut plain_out,
                ))
            },
        ],
    );
}

fn read_back(on: &str, record: &[u8]) {
    let (buf, used) = (lend(record, 16_384), record.len());
    let [mut out, mut other_out, mut plain_out] = [(); 3].map(|()| vec![0; 16_384]);
    row(
        "read_back",
        on,
        &mut [
            &mut || _ = black_box(library::read_back(black_box(&buf), used, &mut out)),
            &mut || _ = black_box(calls::read_back(black_box(&buf), used, &mut other_out)),
            &mut || {
                _ = black_box(plain::read_back::read_back(
                    black_box(&buf),
                    used,
                    &mut plain_out,
                ))
            },
        ],
    );
}

fn substitute(on: &str, record: &[u8]) {
    let used = record.len();
    let (fresh, mut copies) = lent_with_copies(record);
    let store = vec![3; usize::from(record[4])];
    let [one, two, three] = &mut copies;
    row(
        "substitute",
        on,
        &mut [
            &mut || {
                one.copy_from_slice(&fresh);
                black_box(library::substitute(one, used, &store));
            },
            &mut || {
                two.copy_from_slice(&fresh);
                black_box(calls::substitute(two, used, &store));
            },
            &mut || {
                three.copy_from_slice(&fresh);
                black_box(plain::substitute::substitute(three, used, &store));
            },
        ],
    );
}

fn result(on: &str, record: &[u8]) {
    let (buf, used) = (lend(record, 16_384), record.len());
    let [mut store, mut other_store, mut plain_store] = [[0; 16]; 3];
    row(
        "result",
        on,
        &mut [
            &mut || _ = black_box(library::result(black_box(&buf), used, &mut store)),
            &mut || _ = black_box(calls::result(black_box(&buf), used, &mut other_store)),
            &mut || {
                _ = black_box(plain::store::result(
                    black_box(&buf),
                    used,
                    &mut plain_store,
                ))
            },
        ],
    );
}
