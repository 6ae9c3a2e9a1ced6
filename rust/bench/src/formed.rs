//! The well-formedness test, against one scan of the same bytes.

use std::hint::black_box;

use crate::{
    both::{write, Both},
    places::heap,
    times::{timed, Times},
};

/// Whether all bytes are zero: one pass over them all.
fn scan(bytes: &[u8]) -> bool {
    bytes.iter().fold(0, |all, byte| all | byte) == 0
}

pub fn tests(chunks: u32, held: u32) -> Times {
    let mut memory = Both::empty(chunks, 100).ours;
    (0..held).for_each(|chunk| write(&mut memory, heap(0), chunk * 256, [0; 4]));
    assert!(scan(memory.buffers().bytes), "nothing but zeros was written");
    let calls = (8_000_000 / (256 * chunks as usize)).max(3);
    Times::of(
        calls,
        || {
            timed(|| {
                (0..calls).for_each(|_| _ = black_box(scan(black_box(memory.buffers().bytes))))
            })
        },
        || {
            timed(|| {
                (0..calls).for_each(|_| black_box(&memory).check().expect("it is well formed"))
            })
        },
    )
}
