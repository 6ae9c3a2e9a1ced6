//! Fat pointers.

use crate::{error::never_refused, ffi, PageId, Word};

/// A fat pointer: `length` bytes from `start` on a page, and an offset into them.
///
/// ```
/// use zincpapaya::{FatPointer, PageId, Word};
///
/// let pointer = FatPointer { offset: 3, memory_page: PageId(66), start: 10, length: 5 };
/// assert_eq!(pointer.into_u256(), Word([66 << 32 | 3, 5 << 32 | 10, 0, 0]));
/// assert_eq!(FatPointer::from(pointer.into_u256()), pointer);
/// ```
#[derive(Debug, Clone, Copy, PartialEq, Eq, Hash)]
pub struct FatPointer {
    /// Offset from the start.
    pub offset: u32,
    /// The page that this points to.
    pub memory_page: PageId,
    /// Address of the first byte.
    pub start: u32,
    /// Number of bytes.
    pub length: u32,
}

impl FatPointer {
    /// The word that holds this pointer; its upper half is zero.
    pub fn into_u256(self) -> Word {
        let mut out = [0; 4];
        let Self { offset, memory_page, start, length } = self;
        let fields = [offset, memory_page.0, start, length];
        never_refused(ffi::fat_pointer_into_u256(fields, &mut out));
        Word(out)
    }
}

/// The pointer in the lower half of a word.
impl From<Word> for FatPointer {
    fn from(word: Word) -> Self {
        let mut out = [0; 4];
        never_refused(ffi::fat_pointer_from_u256(word.0, &mut out));
        let [offset, page, start, length] = out.map(|field| field as u32);
        Self { offset, memory_page: PageId(page), start, length }
    }
}

impl From<FatPointer> for Word {
    fn from(pointer: FatPointer) -> Self {
        pointer.into_u256()
    }
}
