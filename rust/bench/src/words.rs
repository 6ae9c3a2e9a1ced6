//! Words in held chunks, one by one.

use std::hint::black_box;

use crate::{
    both::{read, used, write, Both, WORD},
    places::{heap, walk, Held, Walk},
    times::{each, Times},
};

pub fn reads(held: Held, order: Walk) -> Times {
    reads_at(held, walk(held, order))
}

/// Reads at these places.
pub fn reads_at(held: Held, at: Vec<(u32, u32)>) -> Times {
    let both = Both::holding(held);
    let times = Times::of(
        at.len(),
        || each(&at, |(page, a)| used(&both.vm2.read_u256(page, a))),
        || each(&at, |(page, a)| used(&read(&both.ours, page, a))),
    );
    both.compare(at);
    times
}

pub fn writes(held: Held, order: Walk) -> Times {
    let mut both = Both::holding(held);
    let at = walk(held, order);
    let times = Times::of(
        at.len(),
        || each(&at, |(page, a)| both.vm2.write_u256(page, a, black_box(WORD))),
        || each(&at, |(page, a)| write(&mut both.ours, page, a, black_box(WORD))),
    );
    (0..held.pages).for_each(|group| both.compare_page(heap(group), held.chunks));
    times
}
