//! Refusals.

use std::fmt;

/// Why a call was refused. A refused call has changed nothing: no byte, no journal, no frame, no register.
///
/// The variants stand in the order in which a call tests them, with two exceptions. A comparison tests the
/// two layouts after [`NotFormed`](Self::NotFormed), and an instruction tests its places
/// ([`Operand`](Self::Operand)) right after it. Each has its number in the project's scope
/// papers. The text begins with that number, and says what to do.
///
/// ```
/// use zincpapaya::{Capacity, Error, Heaps, Layout, PageId, Word};
///
/// # fn main() -> Result<(), Error> {
/// # let layout = Layout { static_memory: PageId(1), calldata: PageId(4),
/// #     bootloader_heap: PageId(5), bootloader_aux: PageId(6), base: 64, stride: 8 };
/// let capacity = Capacity { chunks: 1, pages: 1, journal_words: 0 };
/// let mut heaps = Heaps::open(layout, capacity, &[])?;
///
/// // A word at 225 lies in two chunks, and there is one.
/// let error = heaps.write_u256(PageId(66), 225, Word::from(7)).unwrap_err();
/// assert_eq!(error, Error::NoChunk);
/// assert_eq!(error.number(), 10);
/// assert!(error.to_string().starts_with("10: the pool has too few chunks; open the memory with"));
/// # Ok(())
/// # }
/// ```
#[derive(Debug, Clone, Copy, PartialEq, Eq, Hash)]
#[repr(u8)]
pub enum Error {
    /// Two fixed page ids are equal, the stride is below 4, or two memories that are to be
    /// compared have different layouts.
    Layout = 1,
    /// A count of the capacity is out of its bounds. Or, where a [`Lent`](crate::Lent) is opened, a
    /// buffer has another length than [`Capacity::lengths`](crate::Capacity::lengths) returns.
    Sizes = 2,
    /// The memory is not well formed. Of a memory that is [`Lent`](crate::Lent): somebody else has
    /// written to its buffers, or it was never opened. [`Heaps`](crate::Heaps) owns its buffers, so
    /// there this tells of a fault elsewhere in the process, wherever the test is made.
    NotFormed = 3,
    /// The page id decodes to no page, or page arithmetic leaves 32 bits.
    Undecodable = 4,
    /// The page is a fixed one.
    Fixed = 5,
    /// The page is allocated already.
    Allocated = 6,
    /// The page is not allocated.
    NotAllocated = 7,
    /// A byte write passes the highest address, a partial read has more than 32 bytes, an output
    /// has another length than its range, or a quote more than 4,096 addresses.
    Range = 8,
    /// No page entry is free.
    NoPage = 9,
    /// The pool has too few chunks.
    NoChunk = 10,
    /// The journal has too little room.
    NoJournal = 11,
    /// The snapshot of a rollback lies past a journal's end.
    BadMark = 12,
    /// A truncation to more than the dynamic length.
    BadLength = 13,
    /// Start plus length of a fat pointer is above 4,294,967,295.
    Pointer = 14,
    /// A hook cannot stop with a value of more than 32 bits.
    HookValue = 15,
    /// An instruction names a register above 15, or a place of a form that it does not take there.
    Operand = 16,
}

impl Error {
    /// Each refusal, by rising number.
    pub const ALL: [Self; 16] = [
        Self::Layout,
        Self::Sizes,
        Self::NotFormed,
        Self::Undecodable,
        Self::Fixed,
        Self::Allocated,
        Self::NotAllocated,
        Self::Range,
        Self::NoPage,
        Self::NoChunk,
        Self::NoJournal,
        Self::BadMark,
        Self::BadLength,
        Self::Pointer,
        Self::HookValue,
        Self::Operand,
    ];

    /// The refusal's number, 1 to 16.
    pub const fn number(self) -> u8 {
        self as u8
    }
}

/// What happened; and what to do about it. By rising number.
const TEXTS: [&str; 16] = [
    "the layout does not fit; make the four fixed page ids distinct and the stride at least 4, and \
     compare only memories of one layout",
    "the capacity is out of bounds, or a lent buffer has another length than the capacity needs; \
     open the memory with `chunks` from 1 to 65536, `pages` from 1 to 4096 and `journal_words` from \
     0 to 65536, and lend buffers of the lengths that `Capacity::lengths` returns",
    "the memory is not well formed, so something else has written to its buffers, or it was never \
     opened; trust none of its answers, open it again and run from the start",
    "the page id is none of the layout's pages, or lies past 32 bits; check the page id and the \
     layout's base and stride",
    "the page is a fixed one, which is always there and can be neither allocated nor freed; write \
     to it as it is",
    "the page is allocated already; free it before it is allocated again, or write to it as it is",
    "the page is not allocated; free only pages that were allocated or written, and each once",
    "a length does not fit; a byte write must not pass address 4294967295, a partial read has at \
     most 32 bytes, an output as many bytes as its range, and a quote at most 4096 addresses",
    "no page entry is free; open the memory with a larger `pages`, or free pages that are no \
     longer needed",
    "the pool has too few chunks; open the memory with a larger `chunks`, or free pages that are \
     no longer needed",
    "the journal has too little room; open the memory with a larger `journal_words`, or call \
     `delete_history` once nothing is to be rolled back any more",
    "the snapshot lies past a journal's end: a rollback or `delete_history` has cut the journal \
     since, or it is of another memory; roll back to an earlier one, or take a new one",
    "the length is above the dynamic length; truncate to what `dynamic_len` gave, or to less",
    "start plus length of the fat pointer is above 4294967295; a valid pointer has a smaller sum, \
     so check where this one was made",
    "the hook's value has more than 32 bits, and the store was not carried out; the bootloader \
     must store a smaller value at its hook address",
    "the instruction does not take one of its places; name registers by 0 to 15, give an immediate only \
     as the operand of a load or store, and the pointer of `load_pointer` in a register",
];

impl fmt::Display for Error {
    fn fmt(&self, out: &mut fmt::Formatter<'_>) -> fmt::Result {
        let number = self.number();
        write!(out, "{number}: {}", TEXTS[usize::from(number) - 1])
    }
}

impl std::error::Error for Error {}

/// The result that a call's status stands for.
///
/// Instructions take their two other outcomes away before they come here, and the last status,
/// which is for outputs, frames and registers of a wrong length, cannot come: all have fixed lengths here.
#[inline]
pub(crate) fn carried_out(status: u32) -> Result<(), Error> {
    match status {
        0 => Ok(()),
        number => Err(refusal(number)),
    }
}

/// The refusal with this number.
#[cold]
pub(crate) fn refusal(number: u32) -> Error {
    let refusal = Error::ALL.into_iter().find(|error| u32::from(error.number()) == number);
    refusal.unwrap_or_else(|| unreachable!("the library gave the status {number}"))
}

/// The status of a call that refuses nothing.
pub(crate) fn never_refused(status: u32) {
    carried_out(status).expect("this call refuses nothing");
}
