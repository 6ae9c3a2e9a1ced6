//! A memory that is lent.

use crate::{
    buffers::{Buffers, BuffersMut, Capacity, Usage},
    checked::Checked,
    error::carried_out,
    ffi, Error, Layout,
};

/// A memory in four buffers that its host lends: it may have them in shared memory, in a file that is
/// mapped, or in space that it allocates itself.
///
/// **While a `Lent` exists, nobody else may write to its buffers**: no other thread, and no other
/// process that shares or maps them. Rust requires this of every `&mut`. And a call tests the memory
/// once, before its work: it does not see what is written after the test. A reader may meet half of a
/// change. So a host with shared or mapped buffers has one lock for all who use them. It takes the
/// lock before it makes the `Lent`, and releases it after the last call.
///
/// Others can write to such buffers while they are not lent. So every call tests the whole memory
/// first, and is refused with [`Error::NotFormed`] where it is not well formed: then nothing has
/// changed. Only [`open`](Self::open), [`of`](Self::of), [`reopen`](Self::reopen) and
/// [`buffers`](Self::buffers) make no test. It takes time in the memory's size, and less where more
/// chunks are held: 0.25 to 0.45 microseconds at 128 chunks, 0.1 to 0.75 milliseconds at 65,536,
/// measured with archives of an older Rattle.
/// [`Heaps`](crate::Heaps) owns its buffers and needs no test.
///
/// The calls are those of [`Heaps`](crate::Heaps), and so are their examples. On a memory that is well
/// formed the answers are the same. These differ:
///
/// - [`open`](Self::open) takes the buffers too, and [`of`](Self::of) takes buffers that have a memory
///   already. [`Heaps`](crate::Heaps) has no `of`.
/// - [`reopen`](Self::reopen) takes a capacity, which must fit the lengths of the buffers.
/// - [`layout`](Self::layout), [`capacity`](Self::capacity) and [`usage`](Self::usage) make the test,
///   so they return a `Result`.
/// - A `Lent` cannot be cloned.
///
/// ```
/// use zincpapaya::{Capacity, Error, Layout, Lent, PageId, Word};
///
/// # fn main() -> Result<(), Error> {
/// # let layout = Layout { static_memory: PageId(1), calldata: PageId(4),
/// #     bootloader_heap: PageId(5), bootloader_aux: PageId(6), base: 64, stride: 8 };
/// let capacity = Capacity { chunks: 3, pages: 2, journal_words: 4 };
/// let lengths = capacity.lengths()?;
/// let (mut bytes, mut keys) = (vec![0; lengths.bytes], vec![0; lengths.keys]);
/// let (mut order, mut words) = (vec![0; lengths.order], vec![0; lengths.words]);
///
/// let mut lent =
///     Lent::open(&mut bytes, &mut keys, &mut order, &mut words, layout, capacity, &[])?;
/// lent.write_u256(PageId(66), 0, Word::from(7))?;
///
/// // The same buffers, lent again.
/// let lent = Lent::of(&mut bytes, &mut keys, &mut order, &mut words);
/// assert_eq!(lent.read_u256(PageId(66), 0)?, Word::from(7));
/// assert_eq!(lent.usage()?.chunks, 1);
///
/// // Somebody writes to them.
/// words[9] = 2;
/// let lent = Lent::of(&mut bytes, &mut keys, &mut order, &mut words);
/// assert_eq!(lent.read_u256(PageId(66), 0), Err(Error::NotFormed));
/// # Ok(())
/// # }
/// ```
#[derive(Debug)]
pub struct Lent<'a> {
    pub(crate) memory: BuffersMut<'a>,
}

/// Opening, and what was opened.
impl<'a> Lent<'a> {
    /// Opens a memory in four buffers, whatever is in them: it is empty but for the calldata on its
    /// page. The lengths must be [those of the capacity](Capacity::lengths). Refused with
    /// [`Error::Layout`], [`Sizes`](Error::Sizes) or, where the calldata does not fit,
    /// [`NoChunk`](Error::NoChunk); then no buffer has changed.
    pub fn open(
        bytes: &'a mut [u8],
        keys: &'a mut [u64],
        order: &'a mut [u32],
        words: &'a mut [u64],
        layout: Layout,
        capacity: Capacity,
        calldata: &[u8],
    ) -> Result<Self, Error> {
        let mut lent = Self::of(bytes, keys, order, words);
        lent.reopen(layout, capacity, calldata)?;
        Ok(lent)
    }

    /// Takes four buffers that have a memory already. Nothing is tested here: the first call does.
    pub fn of(
        bytes: &'a mut [u8],
        keys: &'a mut [u64],
        order: &'a mut [u32],
        words: &'a mut [u64],
    ) -> Self {
        Self { memory: BuffersMut { bytes, keys, order, words } }
    }

    /// Opens a memory in these buffers afresh, as [`open`](Self::open) does.
    pub fn reopen(
        &mut self,
        layout: Layout,
        capacity: Capacity,
        calldata: &[u8],
    ) -> Result<(), Error> {
        carried_out(ffi::open(self.memory.lent(), layout.numbers(), capacity, calldata))
    }

    /// The layout that the memory was opened with.
    pub fn layout(&self) -> Result<Layout, Error> {
        self.check()?;
        Ok(self.buffers().layout())
    }

    /// The capacity that the memory was opened with.
    pub fn capacity(&self) -> Result<Capacity, Error> {
        self.check()?;
        Ok(self.buffers().capacity())
    }

    /// How much of the capacity is in use.
    pub fn usage(&self) -> Result<Usage, Error> {
        self.check()?;
        Ok(self.buffers().usage())
    }

    /// The four buffers, to look at.
    pub fn buffers(&self) -> Buffers<'_> {
        self.memory.shown()
    }
}
