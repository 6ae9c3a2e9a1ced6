//! The four buffers of a memory: how long they are, and what stands in their head.

use crate::{error::carried_out, ffi, Error, Layout, PageId};

/// How much a memory can hold. The counts are set when it is opened and never change.
///
/// A word that crosses a chunk's edge takes two chunks, and every page its own ones.
#[derive(Debug, Clone, Copy, PartialEq, Eq, Hash)]
pub struct Capacity {
    /// Chunks of 256 bytes, over all pages: 1 to 65,536.
    pub chunks: u32,
    /// Dynamic pages that can be allocated at once: 1 to 4,096.
    pub pages: u32,
    /// Words that each of the two journals can hold: 0 to 65,536.
    pub journal_words: u32,
}

impl Capacity {
    /// The lengths of the four buffers that have this capacity, for a host that lends them. Refused
    /// with [`Error::Sizes`] where a count is out of its bounds.
    pub fn lengths(self) -> Result<Lengths, Error> {
        let Self { chunks, pages, journal_words } = self;
        let within_bounds = (1..=65_536).contains(&chunks)
            && (1..=4_096).contains(&pages)
            && journal_words <= 65_536;
        if !within_bounds {
            return Err(Error::Sizes);
        }
        let [chunks, pages, journal] = [chunks, pages, journal_words].map(|count| count as usize);
        Ok(Lengths {
            bytes: 256 * chunks + 64 * journal,
            keys: chunks + pages + 4,
            order: 3 * chunks + pages + 4,
            words: HEAD + 6 * journal + chunks.div_ceil(POOL_BITS),
        })
    }
}

/// The numbers of elements of a memory's four buffers: [`Capacity::lengths`].
#[derive(Debug, Clone, Copy, PartialEq, Eq, Hash, Default)]
pub struct Lengths {
    /// Of [`Buffers::bytes`].
    pub bytes: usize,
    /// Of [`Buffers::keys`].
    pub keys: usize,
    /// Of [`Buffers::order`].
    pub order: usize,
    /// Of [`Buffers::words`].
    pub words: usize,
}

/// How much of a memory's capacity is in use.
#[derive(Debug, Clone, Copy, PartialEq, Eq, Hash)]
pub struct Usage {
    /// Chunks held, over all pages.
    pub chunks: u32,
    /// Dynamic pages that are allocated.
    pub pages: u32,
    /// Words in the journal of the bootloader heap.
    pub heap_journal: u32,
    /// Words in the journal of the bootloader aux heap.
    pub aux_journal: u32,
}

/// A memory's four buffers, to look at. `docs/BUFFERS.md` tells what stands where.
#[derive(Debug, Clone, Copy, PartialEq, Eq)]
pub struct Buffers<'a> {
    /// The chunks, then the old words of both journals.
    pub bytes: &'a [u8],
    /// Where each chunk is held, then the page of each entry.
    pub keys: &'a [u64],
    /// The two indexes, then the hints of the lookup.
    pub order: &'a [u32],
    /// The head of 16 numbers, then the notes of both journals, then the pool: a bit for each chunk, the
    /// lowest bit of a number first, set where the chunk is not held.
    pub words: &'a [u64],
}

/// A memory's four buffers, to change.
#[derive(Debug)]
pub(crate) struct BuffersMut<'a> {
    pub(crate) bytes: &'a mut [u8],
    pub(crate) keys: &'a mut [u64],
    pub(crate) order: &'a mut [u32],
    pub(crate) words: &'a mut [u64],
}

/// How many numbers the head has.
const HEAD: usize = 16;
/// Chunks whose bits one number of the pool has.
const POOL_BITS: usize = 64;

// Numbers of the head.
const STATIC_MEMORY: usize = 0;
const CALLDATA: usize = 1;
const BOOTLOADER_HEAP: usize = 2;
const BOOTLOADER_AUX: usize = 3;
const BASE: usize = 4;
const STRIDE: usize = 5;
const CHUNKS: usize = 6;
const PAGES: usize = 7;
const JOURNAL_WORDS: usize = 8;
const HELD: usize = 9;
const ENTRIES: usize = 10;
const HEAP_JOURNAL: usize = 12;
const AUX_JOURNAL: usize = 13;

/// Entries of the fixed pages, which are always in use.
const FIXED_ENTRIES: u32 = 4;

impl Buffers<'_> {
    /// Whether the two memories look alike, as [`Heaps::equal`](crate::Heaps::equal) tells it. One
    /// may be owned and the other lent. Both are tested, and then refused with
    /// [`Error::NotFormed`], or [`Layout`](Error::Layout) where the layouts differ.
    pub fn equal(self, other: Buffers<'_>) -> Result<bool, Error> {
        let mut out = [0];
        carried_out(ffi::compare(self, other, &mut out))?;
        Ok(out[0] != 0)
    }

    /// A number of the head, of a memory that is well formed. Those that are asked for here have 32
    /// bits.
    fn head(self, at: usize) -> u32 {
        self.words[at] as u32
    }

    /// The layout of a memory that is well formed.
    pub(crate) fn layout(self) -> Layout {
        Layout {
            static_memory: PageId(self.head(STATIC_MEMORY)),
            calldata: PageId(self.head(CALLDATA)),
            bootloader_heap: PageId(self.head(BOOTLOADER_HEAP)),
            bootloader_aux: PageId(self.head(BOOTLOADER_AUX)),
            base: self.head(BASE),
            stride: self.head(STRIDE),
        }
    }

    /// The capacity of a memory that is well formed.
    pub(crate) fn capacity(self) -> Capacity {
        Capacity {
            chunks: self.head(CHUNKS),
            pages: self.head(PAGES),
            journal_words: self.head(JOURNAL_WORDS),
        }
    }

    /// What a memory that is well formed has in use.
    pub(crate) fn usage(self) -> Usage {
        Usage {
            chunks: self.head(HELD),
            pages: self.head(ENTRIES) - FIXED_ENTRIES,
            heap_journal: self.head(HEAP_JOURNAL),
            aux_journal: self.head(AUX_JOURNAL),
        }
    }
}
