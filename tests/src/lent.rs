//! A slice lent to the library with guards on both sides of it.

use std::fmt::Debug;

/// An odd number, so that a lent buffer starts at an odd address: the header asks for no alignment
/// of bytes. Values stay aligned, because they are counted in fours of bytes.
const GUARD: usize = 33;

/// A copy of a slice, with guards before and behind it that no call may touch.
pub struct Lent<T> {
    all: Vec<T>,
    guard: T,
}

impl Lent<u8> {
    pub fn bytes(slice: &[u8]) -> Lent<u8> {
        Lent::guarded(slice, 0xC3)
    }
}

impl Lent<u32> {
    pub fn values(slice: &[u32]) -> Lent<u32> {
        Lent::guarded(slice, 0xC3C3_C3C3)
    }
}

impl<T: Copy + PartialEq + Debug> Lent<T> {
    fn guarded(slice: &[T], guard: T) -> Lent<T> {
        let mut all = vec![guard; slice.len() + 2 * GUARD];
        all[GUARD..GUARD + slice.len()].copy_from_slice(slice);
        Lent { all, guard }
    }

    fn end(&self) -> usize {
        self.all.len() - GUARD
    }

    pub fn slice(&self) -> &[T] {
        &self.all[GUARD..self.end()]
    }

    pub fn slice_mut(&mut self) -> &mut [T] {
        let end = self.end();
        &mut self.all[GUARD..end]
    }

    /// Fails unless the slice holds just this and the guards are whole. `case` tells what was lent;
    /// it is only asked for when there is something to tell.
    pub fn assert_holds(&self, wanted: &[T], case: impl Fn() -> String) {
        if self.slice() != wanted {
            let place = differ(self.slice(), wanted);
            let (got, wanted) = (self.slice().get(place), wanted.get(place));
            panic!("at {place} stands {got:?}, not {wanted:?}: {}", case());
        }
        let whole = |guard: &[T]| guard.iter().all(|entry| *entry == self.guard);
        assert!(whole(&self.all[..GUARD]), "written before: {}", case());
        assert!(whole(&self.all[self.end()..]), "written behind: {}", case());
    }
}

/// The first place where the two differ.
fn differ<T: PartialEq>(one: &[T], other: &[T]) -> usize {
    let same = one.iter().zip(other).take_while(|(a, b)| a == b);
    same.count()
}
