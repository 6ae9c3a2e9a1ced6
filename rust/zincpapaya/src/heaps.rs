//! A memory that is owned.

use crate::{
    buffers::{Buffers, Capacity, Usage},
    memory::Memory,
    Error, Layout,
};

/// A mark in the bootloader's history, to which a memory can be rolled back.
#[derive(Debug, Clone, Copy, PartialEq, Eq, Hash)]
pub struct Snapshot {
    /// Words in the journal of the bootloader heap.
    pub heap: u64,
    /// Words in the journal of the bootloader aux heap.
    pub aux: u64,
}

/// A memory: its pages, its pool of chunks and its two journals.
///
/// It owns the four buffers that the library works on, and its space is taken once, when it is
/// opened. Every call is [refused](Error) or carried out whole.
///
/// Nobody else can write to the buffers, and the library proves that every call leaves them well
/// formed. So no call tests them, and none is refused with [`Error::NotFormed`]. Debug builds make
/// the test all the same, and so does the feature `tested` in all builds: at every call but
/// [`reopen`](Self::reopen), [`layout`](Self::layout), [`capacity`](Self::capacity),
/// [`usage`](Self::usage) and [`buffers`](Self::buffers). [`check`](Self::check) makes it whenever it
/// is called. For buffers that others can write to there is [`Lent`](crate::Lent).
///
/// ```
/// use zincpapaya::{Capacity, Error, Heaps, Layout, PageId, Word};
///
/// # fn main() -> Result<(), Error> {
/// let layout = Layout {
///     static_memory: PageId(1),
///     calldata: PageId(4),
///     bootloader_heap: PageId(5),
///     bootloader_aux: PageId(6),
///     base: 64,
///     stride: 8,
/// };
/// let capacity = Capacity { chunks: 3, pages: 2, journal_words: 4 };
/// let mut heaps = Heaps::open(layout, capacity, &[])?;
///
/// // The bootloader's pages keep a history.
/// let heap = layout.bootloader_heap;
/// heaps.write_u256(heap, 0, Word::from(7))?;
/// let before = heaps.snapshot()?;
/// heaps.write_u256(heap, 1, Word::from(1))?;
/// assert_eq!(heaps.read_u256(heap, 0)?, Word::ZERO);
/// heaps.rollback(before)?;
/// assert_eq!(heaps.read_u256(heap, 0)?, Word::from(7));
///
/// // Page 3 is none of the layout's: a refusal, and nothing has changed.
/// assert_eq!(heaps.write_u256(PageId(3), 0, Word::from(1)), Err(Error::Undecodable));
/// assert_eq!(heaps.usage().chunks, 1);
/// # Ok(())
/// # }
/// ```
#[derive(Debug)]
pub struct Heaps {
    pub(crate) memory: Memory,
}

/// A copy of the whole memory. `clone_from` takes no new space where the capacities are equal.
impl Clone for Heaps {
    fn clone(&self) -> Self {
        Self { memory: self.memory.clone() }
    }

    fn clone_from(&mut self, source: &Self) {
        self.memory.clone_from(&source.memory);
    }
}

/// Opening, and what was opened.
impl Heaps {
    /// Opens a memory that is empty but for the calldata on its page: vm2's `Heaps::new`. Refused
    /// with [`Error::Layout`], [`Sizes`](Error::Sizes) or, where the calldata does not fit,
    /// [`NoChunk`](Error::NoChunk).
    pub fn open(layout: Layout, capacity: Capacity, calldata: &[u8]) -> Result<Self, Error> {
        Ok(Self { memory: Memory::open(layout, capacity, calldata)? })
    }

    /// Opens the memory afresh, in place and with the capacity that it has. Where that is refused,
    /// the memory is kept as it was.
    pub fn reopen(&mut self, layout: Layout, calldata: &[u8]) -> Result<(), Error> {
        self.memory.reopen(layout, calldata)
    }

    /// The layout that the memory was opened with.
    pub fn layout(&self) -> Layout {
        self.buffers().layout()
    }

    /// The capacity that the memory was opened with.
    pub fn capacity(&self) -> Capacity {
        self.buffers().capacity()
    }

    /// How much of the capacity is in use.
    pub fn usage(&self) -> Usage {
        self.buffers().usage()
    }

    /// The four buffers, to look at.
    pub fn buffers(&self) -> Buffers<'_> {
        self.memory.buffers()
    }
}
