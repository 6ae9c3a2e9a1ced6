//! Calls on a memory that is lent, which test it first. Half of its chunks are held: by one page, but for four of the bootloader heap.

use std::hint::black_box;

use vm2_example::testonly::speed::Plain;
use zincpapaya::{Lent, PageId, Snapshot, Word};

use crate::{
    both::{used, Both, LAYOUT, WORD},
    places::{heap, random, Held, Walk},
    times::{each, timed, Times},
};

const BOOTLOADER: PageId = LAYOUT.bootloader_heap;

/// Four buffers with a memory.
struct Buffers {
    bytes: Vec<u8>,
    keys: Vec<u64>,
    order: Vec<u32>,
    words: Vec<u64>,
}

impl Buffers {
    fn lend(&mut self) -> Lent<'_> {
        Lent::of(&mut self.bytes, &mut self.keys, &mut self.order, &mut self.words)
    }
}

/// Chunks that the page of group 0 holds.
const fn held(chunks: u32) -> u32 {
    chunks / 2 - 4
}

/// A memory of vm2, and buffers with room for this many chunks and the same bytes.
fn half_full(chunks: u32) -> (Plain, Buffers) {
    let mut both = Both::empty(chunks, 100);
    both.hold(heap(0), 0..held(chunks));
    both.hold(BOOTLOADER.0, 0..4);
    both.roll_back();
    let full = both.ours.buffers();
    let buffers = Buffers {
        bytes: full.bytes.to_vec(),
        keys: full.keys.to_vec(),
        order: full.order.to_vec(),
        words: full.words.to_vec(),
    };
    (both.vm2, buffers)
}

/// Places in the first chunks of the page of group 0; fewer where the test takes longer.
fn places(chunks: u32, first: u32) -> Vec<(u32, u32)> {
    random((2_000_000 / chunks).clamp(10, 2000), Held::by_one_page(first), Walk::Random)
}

fn compare(vm2: &Plain, lent: &Lent<'_>, page: u32, chunks: u32) {
    let range = 0..256 * chunks;
    let ours = lent.read_range_big_endian(PageId(page), range.clone());
    assert!(Ok(vm2.read_range(page, range)) == ours, "page {page} differs");
}

pub fn reads(chunks: u32) -> Times {
    let (vm2, mut buffers) = half_full(chunks);
    let lent = buffers.lend();
    let at = places(chunks, held(chunks));
    let ours = |page, a| lent.read_u256(PageId(page), a).expect("a word is there").0;
    let times = Times::of(
        at.len(),
        || each(&at, |(page, a)| used(&vm2.read_u256(page, a))),
        || each(&at, |(page, a)| used(&ours(page, a))),
    );
    assert!(at.iter().all(|&(page, a)| vm2.read_u256(page, a) == ours(page, a)), "answers differ");
    times
}

pub fn writes(chunks: u32) -> Times {
    let (mut vm2, mut buffers) = half_full(chunks);
    let mut lent = buffers.lend();
    let at = places(chunks, held(chunks));
    let times = Times::of(
        at.len(),
        || each(&at, |(page, a)| vm2.write_u256(page, a, black_box(WORD))),
        || each(&at, |(page, a)| write(&mut lent, PageId(page), a)),
    );
    compare(&vm2, &lent, heap(0), held(chunks));
    times
}

#[inline]
fn write(lent: &mut Lent<'_>, page: PageId, address: u32) {
    lent.write_u256(page, address, Word(black_box(WORD))).expect("there is room");
}

pub fn byte_writes(chunks: u32) -> Times {
    let (mut vm2, mut buffers) = half_full(chunks);
    let mut lent = buffers.lend();
    let at = places(chunks, held(chunks) - 17);
    let src = [7; 4096];
    let mut ours =
        |page, a| lent.write_bytes(PageId(page), a, black_box(&src)).expect("there is room");
    let times = Times::of(
        at.len(),
        || each(&at, |(page, a)| vm2.write_bytes(page, a, black_box(&src))),
        || each(&at, |(page, a)| ours(page, a)),
    );
    compare(&vm2, &lent, heap(0), held(chunks));
    times
}

pub fn rollbacks(chunks: u32) -> Times {
    let (mut vm2, mut buffers) = half_full(chunks);
    let mut lent = buffers.lend();
    let start = Snapshot { heap: 0, aux: 0 };
    let times = Times::of(
        1,
        || {
            (0..100).for_each(|word| vm2.write_u256(BOOTLOADER.0, word * 8, WORD));
            timed(|| vm2.rollback_to_start())
        },
        || {
            (0..100).for_each(|word| write(&mut lent, BOOTLOADER, word * 8));
            timed(|| lent.rollback(start).expect("each journal has a start"))
        },
    );
    compare(&vm2, &lent, BOOTLOADER.0, 4);
    times
}
