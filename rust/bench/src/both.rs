//! A memory of vm2 and one of the library, with the same bytes.

use std::{hint::black_box, ops::Range};

use vm2_example::testonly::speed::Plain;
use zincpapaya::{Capacity, Heaps, Layout, PageId, Snapshot, Word};

use crate::places::{heap, Held};

/// What is written.
pub const WORD: [u64; 4] = [1, 2, 3, 4];

/// Document 01's example layout.
pub const LAYOUT: Layout = Layout {
    static_memory: PageId(1),
    calldata: PageId(4),
    bootloader_heap: PageId(5),
    bootloader_aux: PageId(6),
    base: 64,
    stride: 8,
};

pub struct Both {
    pub vm2: Plain,
    pub ours: Heaps,
}

impl Both {
    /// Empty memories. Ours has room for this many chunks and words of each journal.
    pub fn empty(chunks: u32, journal_words: u32) -> Self {
        let capacity = Capacity { chunks, pages: 100, journal_words };
        let ours = Heaps::open(LAYOUT, capacity, &[]).expect("the counts are within bounds");
        Self { vm2: Plain::new(), ours }
    }

    pub fn holding(held: Held) -> Self {
        let mut both = Self::empty(held.room, 0);
        if held.in_turns {
            for chunk in 0..held.chunks {
                (0..held.pages).for_each(|group| both.hold(heap(group), chunk..chunk + 1));
            }
        } else {
            (0..held.pages).for_each(|group| both.hold(heap(group), 0..held.chunks));
        }
        both
    }

    /// Writes a word to each of these chunks of a page.
    pub fn hold(&mut self, page: u32, chunks: Range<u32>) {
        for chunk in chunks {
            let word = [chunk.into(), page.into(), 3, 4];
            self.vm2.write_u256(page, chunk * 256, word);
            write(&mut self.ours, page, chunk * 256, word);
        }
    }

    /// Stops where the word at one of these places differs.
    pub fn compare(&self, places: impl IntoIterator<Item = (u32, u32)>) {
        for (page, a) in places {
            let (theirs, ours) = (self.vm2.read_u256(page, a), read(&self.ours, page, a));
            assert_eq!(theirs, ours, "page {page}, address {a}");
        }
    }

    /// Stops where the first chunks of a page differ, or our memory is not well formed.
    pub fn compare_page(&self, page: u32, chunks: u32) {
        let range = 0..256 * chunks;
        let ours = self.ours.read_range_big_endian(PageId(page), range.clone());
        assert!(Ok(self.vm2.read_range(page, range)) == ours, "page {page} differs");
        assert_eq!(self.ours.check(), Ok(()));
    }

    /// Rolls both back to the start of their journals.
    pub fn roll_back(&mut self) {
        self.vm2.rollback_to_start();
        roll_back(&mut self.ours);
    }
}

/// Takes each limb of a word, as a host does. `black_box` of a whole word would have one side copy it and the other not, and a copy
/// by wide loads has to wait for the stores of single limbs.
#[inline]
pub fn used(word: &[u64; 4]) {
    word.iter().for_each(|&limb| _ = black_box(limb));
}

#[inline]
pub fn read(memory: &Heaps, page: u32, address: u32) -> [u64; 4] {
    memory.read_u256(PageId(page), address).expect("a word is there").0
}

#[inline]
pub fn write(memory: &mut Heaps, page: u32, address: u32, word: [u64; 4]) {
    memory.write_u256(PageId(page), address, Word(word)).expect("there is room");
}

#[inline]
pub fn free(memory: &mut Heaps, page: u32) {
    memory.deallocate(PageId(page)).expect("the page is allocated");
}

#[inline]
pub fn roll_back(memory: &mut Heaps) {
    memory.rollback(Snapshot { heap: 0, aux: 0 }).expect("each journal has a start");
}
