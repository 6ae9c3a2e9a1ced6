//! What takes, frees or goes through many chunks, and what is journalled.

use std::hint::black_box;

use vm2_example::testonly::speed::Plain;
use zincpapaya::{Heaps, PageId};

use crate::{
    both::{free, roll_back, write, Both, LAYOUT, WORD},
    places::{heap, random, Held, Walk},
    times::{each, timed, Times},
};

/// Bytes of a byte write and of a range read.
const BLOCK: u32 = 4096;

/// Starts of 1,000 blocks at random in the first chunks of a page.
fn blocks(chunks: u32) -> Vec<(u32, u32)> {
    random(1000, Held::by_one_page(chunks - 17), Walk::Random)
}

pub fn byte_writes(chunks: u32) -> Times {
    let mut both = Both::holding(Held::by_one_page(chunks));
    let src: Vec<u8> = (0..BLOCK).map(|i| (i % 251) as u8).collect();
    let at = blocks(chunks);
    let times = Times::of(
        at.len(),
        || each(&at, |(page, a)| both.vm2.write_bytes(page, a + 5, black_box(&src))),
        || {
            each(&at, |(page, a)| {
                let written = both.ours.write_bytes(PageId(page), a + 5, black_box(&src));
                written.expect("there is room");
            })
        },
    );
    both.compare_page(heap(0), chunks);
    times
}

/// Both sides allocate what they put out.
pub fn range_reads(chunks: u32) -> Times {
    let both = Both::holding(Held::by_one_page(chunks));
    let at = blocks(chunks);
    let vm2 = |page, a| both.vm2.read_range(page, a..a + BLOCK);
    let ours = |page, a| {
        both.ours.read_range_big_endian(PageId(page), a..a + BLOCK).expect("the bytes are there")
    };
    let times = Times::of(
        at.len(),
        || each(&at, |(page, a)| _ = black_box(vm2(page, a))),
        || each(&at, |(page, a)| _ = black_box(ours(page, a))),
    );
    assert!(at.iter().all(|&(page, a)| vm2(page, a) == ours(page, a)), "answers differ");
    times
}

const BOOTLOADER: u32 = LAYOUT.bootloader_heap.0;

/// Addresses of 1,000 words of the bootloader heap, in its first 150 chunks.
fn journalled() -> Vec<u32> {
    let places = random(1000, Held::by_one_page(150), Walk::Random);
    places.into_iter().map(|(_, address)| address).collect()
}

/// Full memories with empty journals, where the bootloader heap holds 150 chunks: a rollback frees none.
fn with_journal(chunks: u32) -> Both {
    let mut both = Both::empty(chunks, 1000);
    both.hold(heap(0), 0..chunks - 150);
    both.hold(BOOTLOADER, 0..150);
    both.roll_back();
    both
}

/// Writes at all these addresses of the bootloader heap, compares, rolls back and compares again.
fn compare_history(both: &mut Both, at: &[u32]) {
    for &a in at {
        both.vm2.write_u256(BOOTLOADER, a, WORD);
        write(&mut both.ours, BOOTLOADER, a, WORD);
    }
    both.compare_page(BOOTLOADER, 150);
    both.roll_back();
    both.compare_page(BOOTLOADER, 150);
}

pub fn journalled_writes(chunks: u32) -> Times {
    let mut both = with_journal(chunks);
    let at = journalled();
    let times = Times::of(
        at.len(),
        || {
            let ns = each(&at, |a| both.vm2.write_u256(BOOTLOADER, a, black_box(WORD)));
            both.vm2.rollback_to_start();
            ns
        },
        || {
            let ns = each(&at, |a| write(&mut both.ours, BOOTLOADER, a, black_box(WORD)));
            roll_back(&mut both.ours);
            ns
        },
    );
    compare_history(&mut both, &at);
    times
}

pub fn rollbacks(chunks: u32) -> Times {
    let mut both = with_journal(chunks);
    let at = journalled();
    let times = Times::of(
        1,
        || {
            at.iter().for_each(|&a| both.vm2.write_u256(BOOTLOADER, a, WORD));
            timed(|| both.vm2.rollback_to_start())
        },
        || {
            at.iter().for_each(|&a| write(&mut both.ours, BOOTLOADER, a, WORD));
            timed(|| roll_back(&mut both.ours))
        },
    );
    compare_history(&mut both, &at);
    times
}

/// Frees a page of 256 chunks beside a page with others; `low`: the freed page comes first in the order.
pub fn frees(others: u32, low: bool) -> Times {
    let mut both = Both::empty(others + 256, 0);
    let counts = if low { [256, others] } else { [others, 256] };
    (0..).zip(counts).for_each(|(group, count)| both.hold(heap(group), 0..count));
    let page = heap(u32::from(!low));
    let times = Times::of(
        1,
        || {
            let ns = timed(|| both.vm2.deallocate(page));
            (0..256).for_each(|chunk| both.vm2.write_u256(page, chunk * 256, WORD));
            ns
        },
        || {
            let ns = timed(|| free(&mut both.ours, page));
            (0..256).for_each(|chunk| write(&mut both.ours, page, chunk * 256, WORD));
            ns
        },
    );
    (0..).zip(counts).for_each(|(group, count)| both.compare_page(heap(group), count));
    times
}

/// A page takes two chunks and is freed, in turns, beside a page that holds nearly all others: the freed page comes last in the
/// order. Our pool has every other one of the last 16 slots. `first`: it has the first slot, too, so that the search for the second
/// chunk goes through the whole pool.
pub fn turns(chunks: u32, first: bool) -> Times {
    const TURNS: usize = 1000;
    const LAST: u32 = 16;
    let mut both = Both::empty(chunks, 0);
    // The page of the others is allocated first.
    both.vm2.write_bytes(heap(0), 0, &[]);
    both.ours.allocate_at(PageId(heap(0))).expect("it is not allocated");
    let (page, mut freed) = (heap(1), u32::from(first));
    both.hold(page, 0..freed);
    let mut others = chunks - LAST - freed;
    both.hold(heap(0), 0..others);
    for _ in 0..LAST / 2 {
        both.hold(heap(0), others..others + 1);
        both.hold(page, freed..freed + 1);
        (others, freed) = (others + 1, freed + 1);
    }
    both.vm2.deallocate(page);
    free(&mut both.ours, page);
    let times = Times::of(
        TURNS,
        || {
            timed(|| {
                for _ in 0..TURNS {
                    both.vm2.write_u256(page, 0, black_box(WORD));
                    both.vm2.write_u256(page, 256, black_box(WORD));
                    both.vm2.deallocate(page);
                }
            })
        },
        || {
            timed(|| {
                for _ in 0..TURNS {
                    write(&mut both.ours, page, 0, black_box(WORD));
                    write(&mut both.ours, page, 256, black_box(WORD));
                    free(&mut both.ours, page);
                }
            })
        },
    );
    assert_eq!(both.ours.usage().chunks, others);
    both.compare_page(heap(0), others);
    times
}

/// Writes at all these addresses of one page, upwards, to chunks that are not held yet. vm2 has them in its pool: both
/// sides freed the page before.
fn taking(
    chunks: u32,
    starts: &[u32],
    vm2: impl Fn(&mut Plain, u32),
    ours: impl Fn(&mut Heaps, u32),
) -> Times {
    let mut both = Both::holding(Held::by_one_page(chunks));
    let times = Times::of(
        starts.len(),
        || {
            both.vm2.deallocate(heap(0));
            each(starts, |a| vm2(&mut both.vm2, a))
        },
        || {
            free(&mut both.ours, heap(0));
            each(starts, |a| ours(&mut both.ours, a))
        },
    );
    both.compare_page(heap(0), chunks);
    times
}

/// Words, each of which takes `taken` chunks: its only one, or both of those that it lies over.
pub fn pooled(chunks: u32, taken: u32) -> Times {
    let offset = if taken == 2 { 240 } else { 0 };
    let starts: Vec<u32> = (0..chunks / taken).map(|i| i * taken * 256 + offset).collect();
    taking(
        chunks,
        &starts,
        |vm2, a| vm2.write_u256(heap(0), a, black_box(WORD)),
        |ours, a| write(ours, heap(0), a, black_box(WORD)),
    )
}

/// Blocks of bytes, each of which takes all its chunks.
pub fn pooled_blocks(chunks: u32) -> Times {
    let src: Vec<u8> = (0..BLOCK).map(|i| (i % 251) as u8).collect();
    let starts: Vec<u32> = (0..chunks * 256 / BLOCK).map(|i| i * BLOCK).collect();
    taking(
        chunks,
        &starts,
        |vm2, a| vm2.write_bytes(heap(0), a, black_box(&src)),
        |ours, a| ours.write_bytes(PageId(heap(0)), a, black_box(&src)).expect("there is room"),
    )
}

/// Words in one chunk, in a new memory: vm2 allocates each chunk, ours has been opened afresh.
pub fn allocated(chunks: u32) -> Times {
    let mut both = Both::empty(chunks, 0);
    let starts: Vec<u32> = (0..chunks).map(|chunk| chunk * 256).collect();
    let times = Times::of(
        starts.len(),
        || {
            both.vm2 = Plain::new();
            each(&starts, |a| both.vm2.write_u256(heap(0), a, black_box(WORD)))
        },
        || {
            both.ours.reopen(LAYOUT, &[]).expect("the layout fits");
            each(&starts, |a| write(&mut both.ours, heap(0), a, black_box(WORD)))
        },
    );
    both.compare_page(heap(0), chunks);
    times
}
