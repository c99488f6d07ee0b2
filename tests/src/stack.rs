//! How much stack a call of the library takes, by painting.
//!
//! The call runs on a stack of its own, a piece of memory that is filled with a pattern first, and
//! what is not the pattern any more was written. So the number is the distance from the start of
//! that stack to the deepest byte written. It includes the return address into this module and the
//! frames of `enter`, of a closure and of the wrapper of `library`, together under 150 bytes, and
//! every frame of the library below them. A part of the deepest frame that is reserved and never
//! written is not seen.

mod every_call;

use std::arch::asm;

use crate::calls;
use crate::extremes::Records;
use crate::generate::batches::{job, Batch};
use crate::generate::lend;
use crate::generate::states::held;
use crate::run::counting::words::{Words, STATE_WORDS};
use crate::tree::with_big_stack;
use every_call::every_call;

/// Enough for a plain recursion over the deepest records as well: it is to be told, not to crash.
const SIZE: usize = 8 << 20;
const PATTERN: u8 = 0xA5;

/// The deepest byte of stack that the closure writes. It must not panic: nothing unwinds from here.
pub fn used_by(call: &mut dyn FnMut()) -> usize {
    let mut stack = vec![PATTERN; SIZE];
    on_stack(&mut stack, call);
    let untouched = stack.iter().take_while(|byte| **byte == PATTERN).count();
    SIZE - untouched
}

extern "C" fn enter(call: *mut &mut dyn FnMut()) {
    // Safety: `on_stack` hands over the address of a local that lives until the call returns.
    unsafe { (*call)() }
}

fn on_stack(stack: &mut [u8], mut call: &mut dyn FnMut()) {
    let end = stack.as_mut_ptr_range().end as usize;
    // The stack pointer is a multiple of 16 where a function is called (System V ABI).
    let start = end / 16 * 16;
    // Safety: r12 keeps the stack pointer, as a callee must; everything else that a function may
    // change is named by clobber_abi.
    unsafe {
        asm!(
            "xchg rsp, r12",
            "call {enter}",
            "mov rsp, r12",
            enter = sym enter,
            inout("r12") start => _,
            in("rdi") &raw mut call,
            clobber_abi("C"),
        );
    }
}

/// What a call is lent: made before, so that nothing of it lies on the painted stack.
pub struct Slices {
    pub buffer: Vec<u8>,
    pub used: usize,
    pub out: Vec<u8>,
    pub store: Vec<u32>,
    pub state: Box<Words>,
    pub batch: Batch,
}

impl Slices {
    /// Buffers of 16,384 bytes, and a store of k values; two of them for a batch.
    fn holding(record: &[u8]) -> Slices {
        let store = vec![3; usize::from(record[4])];
        Slices {
            buffer: lend(record, 16_384),
            used: record.len(),
            out: vec![0; 16_384],
            state: fullest_state(record),
            batch: Batch::of(record, &[job(&store, 10_000), job(&store, 3)]),
            store,
        }
    }
}

/// Of the counting states that the record's first steps lead to, the one that holds most open; all
/// zeros where the record is none of a program that the counting stepper takes.
fn fullest_state(record: &[u8]) -> Box<Words> {
    let (mut state, mut fullest) = ([0; STATE_WORDS], [0; STATE_WORDS]);
    let mut store = vec![3; usize::from(record[4])];
    for _ in 0..200 {
        let counted = calls::run_counting(record, record.len(), &mut state, &mut store, 1);
        if held(&state) > held(&fullest) {
            fullest = state;
        }
        if counted.steps == 0 {
            break;
        }
    }
    Box::new(fullest)
}

/// A call of the library, and the same call of the other program; both give the number.
pub struct Call {
    pub name: &'static str,
    /// How many bytes it may take, as the header promises.
    pub limit: usize,
    pub records: fn() -> Records,
    pub library: fn(&mut Slices) -> u32,
    pub other: fn(&mut Slices) -> u32,
}

/// The stack that a call took on a record.
pub struct Measured {
    pub call: &'static str,
    pub limit: usize,
    pub on: String,
    pub bytes: usize,
}

/// Every call, on every extreme record of its sort.
pub fn measure() -> Vec<Measured> {
    with_big_stack(|| every_call().iter().flat_map(measure_call).collect())
}

fn measure_call(call: &Call) -> Vec<Measured> {
    let one = |(on, record): (String, Vec<u8>)| {
        let (mut slices, mut number) = (Slices::holding(&record), 0);
        let bytes = used_by(&mut || number = (call.library)(&mut slices));
        // A call that stops too early takes little stack and shows nothing.
        let wanted = (call.other)(&mut Slices::holding(&record));
        assert_eq!(number, wanted, "{} on {on}", call.name);
        Measured {
            call: call.name,
            limit: call.limit,
            on,
            bytes,
        }
    };
    (call.records)().into_iter().map(one).collect()
}
