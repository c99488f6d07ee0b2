//! Translate, read back, substitute, result.

use super::same;
use crate::calls::{self, Substituted, Written};
use crate::codec::hex;
use crate::lent::Lent;
use crate::library;

pub fn translate(src: &[u8], used: usize, out: &mut [u8]) -> Written {
    let room = out.len();
    let case = || format!("translate, used {used} of {}, room {room}", hex(src));
    let (from, mut to) = (Lent::bytes(src), Lent::bytes(out));
    let answer = calls::translate(src, used, out);
    let got = library::translate(from.slice(), used, to.slice_mut());
    same(got, answer, case);
    from.assert_holds(src, case);
    to.assert_holds(out, case);
    answer
}

pub fn read_back(src: &[u8], used: usize, out: &mut [u8]) -> Written {
    let room = out.len();
    let case = || format!("read_back, used {used} of {}, room {room}", hex(src));
    let (from, mut to) = (Lent::bytes(src), Lent::bytes(out));
    let answer = calls::read_back(src, used, out);
    let got = library::read_back(from.slice(), used, to.slice_mut());
    same(got, answer, case);
    from.assert_holds(src, case);
    to.assert_holds(out, case);
    answer
}

pub fn substitute(buf: &mut [u8], used: usize, store: &[u32]) -> Substituted {
    let before = buf.to_vec();
    let case = || {
        let buf = hex(&before);
        format!("substitute, used {used} of {buf}, store {store:?}")
    };
    let (mut at, values) = (Lent::bytes(buf), Lent::values(store));
    let answer = calls::substitute(buf, used, store);
    let got = library::substitute(at.slice_mut(), used, values.slice());
    same(got, answer, case);
    at.assert_holds(buf, case);
    values.assert_holds(store, case);
    answer
}

pub fn result(buf: &[u8], used: usize, store: &mut [u32]) -> u32 {
    let places = store.len();
    let case = || format!("result, used {used} of {}, {places} values", hex(buf));
    let (at, mut values) = (Lent::bytes(buf), Lent::values(store));
    let answer = calls::result(buf, used, store);
    let got = library::result(at.slice(), used, values.slice_mut());
    same(got, answer, case);
    at.assert_holds(buf, case);
    values.assert_holds(store, case);
    answer
}
