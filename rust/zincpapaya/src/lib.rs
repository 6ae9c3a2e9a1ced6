//! The EraVM's memory: heap pages, bootloader rollback and the five heap instructions.
//!
//! This is a safe interface to a library written in Rattle, `libzincpapaya.a` and `libowned.a`: each
//! of its functions has a contract, and a proof that it keeps it. Calls have the names that they have
//! in vm2. Where vm2 panics, a call here gives an [`Error`] and has changed nothing; and since the
//! memory has a fixed capacity, a call may also be refused for want of room.
//!
//! ```
//! use zincpapaya::{Capacity, Heaps, Layout, PageId, Word};
//!
//! # fn main() -> Result<(), zincpapaya::Error> {
//! let layout = Layout {
//!     static_memory: PageId(1),
//!     calldata: PageId(4),
//!     bootloader_heap: PageId(5),
//!     bootloader_aux: PageId(6),
//!     base: 64,
//!     stride: 8,
//! };
//! let capacity = Capacity { chunks: 16, pages: 4, journal_words: 8 };
//! let mut heaps = Heaps::open(layout, capacity, b"calldata")?;
//!
//! let page = PageId(66); // the heap of group 0
//! heaps.write_u256(page, 225, Word::from(7))?;
//! assert_eq!(heaps.read_u256(page, 225)?, Word::from(7));
//! assert_eq!(heaps.read_byte(layout.calldata, 0)?, b'c');
//! # Ok(())
//! # }
//! ```
//!
//! # Owned or lent
//!
//! Take [`Heaps`], unless the buffers of the memory must be the host's own: then take [`Lent`]. Both
//! have the same calls with the same answers, except those that open a memory or tell what was opened;
//! [`Lent`] lists these.
//!
//! | | [`Heaps`] | [`Lent`] |
//! |---|---|---|
//! | the four buffers | are its own: nobody else can write to them | are lent by the host, and others may write to them only while they are not lent |
//! | a call | makes no test, since the library proves that every call leaves the memory well formed | tests the whole memory first, and may be refused with [`Error::NotFormed`] |
//! | a word read or write takes | some nanoseconds | 0.25 to 0.45 microseconds in a memory of 128 chunks, 0.1 to 0.75 milliseconds in one of 65,536 |
//!
//! The times were measured with archives of an older Rattle.
//!
//! Code elsewhere in the process can damage even a memory that is owned, if it is `unsafe` and wrong.
//! So the test can be had for [`Heaps`] as well:
//!
//! - [`Heaps::check`] makes it, whenever it is called.
//! - In debug builds, where `debug_assertions` are on, every call makes it but [`Heaps::reopen`],
//!   [`layout`](Heaps::layout), [`capacity`](Heaps::capacity), [`usage`](Heaps::usage) and
//!   [`buffers`](Heaps::buffers).
//! - With the feature `tested` the same calls make it in all builds: they are then those of [`Lent`],
//!   and `libowned.a` is not linked.
//!
//! # Words
//!
//! A [`Word`] is four limbs of 64 bits, the lowest first, in a public field. That is how the
//! `U256` of `primitive-types` keeps a number too, so a host converts by `Word(number.0)` and
//! `U256(word.0)`, at no cost.
//!
//! # Instructions
//!
//! The five instructions, such as [`Heaps::load`], work on [`Registers`]: they read their operand from a
//! register or an immediate and write their results to registers, as vm2's handlers do. [`LoadPlaces`] and
//! [`StorePlaces`] say which. The host decodes the instruction, pays its fixed cost and keeps the program
//! counter; where an [`Outcome`] is [`Panicked`](Outcome::Panicked), or a pointer load's [`PointerOutcome`]
//! is, it runs its panic.
//!
//! A read through a pointer may have fewer than 32 bytes to read; zeros follow them in the word.
//! [`PointerOutcome`] tells how many bytes are the pointer's, and a [`PartialWord`] how many are its range's.
//!
//! # Pages
//!
//! A [`PageId`] is vm2's `HeapId`: `PageId(id.as_u32())`. A base page and a byte address are plain
//! `u32`, as they are in vm2.

#![deny(missing_docs)]
#![deny(unsafe_code)]

mod buffers;
mod checked;
mod error;
#[macro_use]
#[allow(unsafe_code)]
mod ffi;
mod frame;
mod heaps;
mod instructions;
mod lent;
mod memory;
mod methods;
mod pages;
mod pointer;
#[cfg(feature = "raw")]
pub mod raw;
mod registers;
#[cfg(test)]
mod tests;
mod word;

pub use buffers::{Buffers, Capacity, Lengths, Usage};
pub use error::Error;
pub use frame::{quote, use_gas, Area, Frame, Quote};
pub use heaps::{Heaps, Snapshot};
pub use instructions::{Operand, Outcome, PointerOutcome};
pub use lent::Lent;
pub use pages::{
    aux_heap_page_from_base, base_page_from_heap, code_page_from_base, heap_page_from_base,
    DecodedPage, Layout, PageId,
};
pub use pointer::FatPointer;
pub use registers::{LoadPlaces, Mode, Registers, Source, StorePlaces};
pub use word::{PartialWord, Word};
