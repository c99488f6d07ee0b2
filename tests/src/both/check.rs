//! Check program, check term.

use super::same;
use crate::calls::{self, Checked};
use crate::codec::hex;
use crate::lent::Lent;
use crate::library;

pub fn check_program(buf: &[u8], used: usize) -> Checked {
    let case = || format!("check_program, used {used} of {}", hex(buf));
    let lent = Lent::bytes(buf);
    let answer = calls::check_program(buf, used);
    same(library::check_program(lent.slice(), used), answer, case);
    lent.assert_holds(buf, case);
    answer
}

pub fn check_term(buf: &[u8], used: usize) -> Checked {
    let case = || format!("check_term, used {used} of {}", hex(buf));
    let lent = Lent::bytes(buf);
    let answer = calls::check_term(buf, used);
    same(library::check_term(lent.slice(), used), answer, case);
    lent.assert_holds(buf, case);
    answer
}
