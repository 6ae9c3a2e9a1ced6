//! What a register holds, and how the five heap instructions end.

use crate::{FatPointer, Word};

/// What a register holds: a word, and its tag.
#[derive(Debug, Clone, Copy, PartialEq, Eq, Hash)]
pub struct Operand {
    /// The whole word.
    pub word: Word,
    /// Whether the register is marked as holding a pointer.
    pub tagged: bool,
}

/// A word without a tag.
impl From<Word> for Operand {
    fn from(word: Word) -> Self {
        Self { word, tagged: false }
    }
}

/// An address, without a tag.
impl From<u32> for Operand {
    fn from(address: u32) -> Self {
        Word::from(u64::from(address)).into()
    }
}

/// A pointer, with its tag.
impl From<FatPointer> for Operand {
    fn from(pointer: FatPointer) -> Self {
        Self { word: pointer.into_u256(), tagged: true }
    }
}

/// How an instruction ended that was not refused. A pointer load has a [`PointerOutcome`].
#[derive(Debug, Clone, Copy, PartialEq, Eq, Hash)]
#[must_use = "an instruction may have panicked, or its hook stops the run"]
pub enum Outcome {
    /// It was carried out, and the run goes on.
    Running,
    /// The store was carried out, and its hook stops the run with the value that was stored.
    SuspendedOnHook(u32),
    /// It panicked as the EraVM does. Gas may be gone, the frame's mark is set, and the second output is
    /// cleared; the memory and all other registers are as they were.
    Panicked,
}

/// How a load through a fat pointer ended that was not refused.
///
/// The host splits the word's bytes at `bytes_read` to tell data from padding. Zeros do not tell: real bytes may
/// be 0.
///
/// ```
/// # use zincpapaya::{
/// #     Capacity, FatPointer, Frame, Heaps, Layout, LoadPlaces, PageId, PointerOutcome, Registers, Source,
/// # };
/// # fn main() -> Result<(), zincpapaya::Error> {
/// # let layout = Layout { static_memory: PageId(1), calldata: PageId(4),
/// #     bootloader_heap: PageId(5), bootloader_aux: PageId(6), base: 64, stride: 8 };
/// # let capacity = Capacity { chunks: 16, pages: 4, journal_words: 8 };
/// # let mut frame = Frame { gas: 0, heap: PageId(66), aux: PageId(67), heap_bound: 0,
/// #     aux_bound: 0, panicked: false };
/// # let mut heaps = Heaps::open(layout, capacity, &[])?;
/// # let mut registers = Registers::default();
/// heaps.write_bytes(PageId(66), 10, &[1, 2, 0])?;
/// registers.set(1, FatPointer { offset: 0, memory_page: PageId(66), start: 10, length: 3 });
/// let source = Source::Register(1);
/// let places = LoadPlaces { source, dst0: 2, dst1: 0, increment: false };
/// match heaps.load_pointer(&mut frame, &mut registers, places)? {
///     PointerOutcome::Running { bytes_read } => {
///         let bytes = registers.get(2).word.to_big_endian();
///         let (real, padding) = bytes.split_at(bytes_read);
///         assert_eq!((real, padding.len()), (&[1, 2, 0][..], 29));
///     }
///     PointerOutcome::Panicked => unreachable!("the register is tagged"),
/// }
/// # Ok(())
/// # }
/// ```
#[derive(Debug, Clone, Copy, PartialEq, Eq, Hash)]
#[must_use = "the load may have panicked, and its word may have padding"]
pub enum PointerOutcome {
    /// It was carried out, and the run goes on.
    Running {
        /// How many bytes of the pointer's range lead the word in `dst0`, 0 to 32; the rest is padding of zeros.
        /// The number is the range's: bytes that nobody wrote count, and so do those of a page that is not
        /// allocated, or whose id decodes to no page. They read as zeros. It is 0 where the offset is not below
        /// the length.
        bytes_read: usize,
    },
    /// It panicked as the EraVM does, and read no bytes. The frame's mark is set, and the second output is cleared;
    /// all else is as it was.
    Panicked,
}

impl PointerOutcome {
    /// How a pointer load ended, of which the library tells this. A load has no hook, so none suspends it.
    pub(crate) fn of(outcome: Outcome, bytes_read: usize) -> Self {
        match outcome {
            Outcome::Running | Outcome::SuspendedOnHook(_) => Self::Running { bytes_read },
            Outcome::Panicked => Self::Panicked,
        }
    }
}
