//! The memory that [`Heaps`](crate::Heaps) owns. Its four buffers are private to this module and to
//! its child `calls`, which has the functions that do not test them. A second child, `tests`, damages
//! memories; only test builds have it.
//!
//! The functions of `calls`, all but the opening and the test, demand a memory that is well formed.
//! Every [`Memory`] is:
//!
//! - It comes from an opening that was accepted, or is a clone of one that does. Where the opening
//!   is refused, no value leaves this module.
//! - Its buffers are written by whole copies of another [`Memory`] and by the library's own
//!   functions, in `calls`: the opening, which is carried out whole or changes nothing, and the
//!   calls. The library proves that all of them leave a memory that is well formed
//!   (`docs/PROOF.md`), and keeps no pointer.
//! - No other module is lent a buffer by `&mut`. What [`Memory::buffers`] gives is shared, and can be
//!   used no more when the next change begins.
//! - A clone has all four, and `clone_from` puts all four in place or none: nothing can fail between
//!   the first and the last.
//!
//! With the feature `tested` there is no `calls`, and nothing rests on this list: `ffi` and `checked`
//! are lent the buffers by `&mut`, and the functions that they call demand nothing of a memory.

#[cfg(not(feature = "tested"))]
#[allow(unsafe_code)]
mod calls;
#[cfg(test)]
mod tests;

#[cfg(any(test, feature = "tested"))]
use crate::buffers::BuffersMut;
use crate::{
    buffers::{Buffers, Capacity, Lengths},
    Error, Layout,
};
#[cfg(feature = "tested")]
use crate::{checked::Checked, error::carried_out, ffi};

/// The four buffers, owned.
#[derive(Debug)]
pub(crate) struct Memory {
    bytes: Box<[u8]>,
    keys: Box<[u64]>,
    order: Box<[u32]>,
    words: Box<[u64]>,
}

impl Memory {
    pub(crate) fn open(layout: Layout, capacity: Capacity, calldata: &[u8]) -> Result<Self, Error> {
        // With counts out of bounds the buffers are empty, whatever the counts are: the library
        // tests the counts and refuses the opening.
        let Lengths { bytes, keys, order, words } = capacity.lengths().unwrap_or_default();
        let mut memory = Self {
            bytes: vec![0; bytes].into(),
            keys: vec![0; keys].into(),
            order: vec![0; order].into(),
            words: vec![0; words].into(),
        };
        memory.start(layout, capacity, calldata)?;
        Ok(memory)
    }

    /// Opens the memory afresh, with the capacity that it has. A refusal leaves it as it was.
    pub(crate) fn reopen(&mut self, layout: Layout, calldata: &[u8]) -> Result<(), Error> {
        let capacity = self.buffers().capacity();
        self.start(layout, capacity, calldata)
    }

    pub(crate) fn buffers(&self) -> Buffers<'_> {
        let Self { bytes, keys, order, words } = self;
        Buffers { bytes, keys, order, words }
    }

    /// For the functions that test a memory first, and for tests that damage one.
    #[cfg(any(test, feature = "tested"))]
    fn buffers_mut(&mut self) -> BuffersMut<'_> {
        let Self { bytes, keys, order, words } = self;
        BuffersMut { bytes, keys, order, words }
    }

    fn lengths(&self) -> Lengths {
        let Self { bytes, keys, order, words } = self;
        let [bytes, keys, order, words] = [bytes.len(), keys.len(), order.len(), words.len()];
        Lengths { bytes, keys, order, words }
    }
}

/// A copy into a memory of the same capacity takes no new space.
impl Clone for Memory {
    fn clone(&self) -> Self {
        Self {
            bytes: self.bytes.clone(),
            keys: self.keys.clone(),
            order: self.order.clone(),
            words: self.words.clone(),
        }
    }

    fn clone_from(&mut self, source: &Self) {
        if self.lengths() != source.lengths() {
            *self = source.clone();
            return;
        }
        // These cannot fail: the lengths are equal.
        self.bytes.copy_from_slice(&source.bytes);
        self.keys.copy_from_slice(&source.keys);
        self.order.copy_from_slice(&source.order);
        self.words.copy_from_slice(&source.words);
    }
}

/// With the feature `tested` the memory is opened as if it were lent.
#[cfg(feature = "tested")]
impl Memory {
    fn start(&mut self, layout: Layout, capacity: Capacity, calldata: &[u8]) -> Result<(), Error> {
        carried_out(ffi::open(self.buffers_mut(), layout.numbers(), capacity, calldata))
    }
}

/// With the feature `tested` every call tests the memory first, as if it were lent.
#[cfg(feature = "tested")]
impl Checked for Memory {
    fn shown(&self) -> Buffers<'_> {
        self.buffers()
    }

    fn lent(&mut self) -> BuffersMut<'_> {
        self.buffers_mut()
    }
}
