//! Page ids, and the layout that says what they stand for.

use crate::{
    error::{carried_out, Error},
    ffi,
};

/// The id of a page: vm2's `HeapId`.
#[derive(Debug, Clone, Copy, PartialEq, Eq, Hash, PartialOrd, Ord)]
pub struct PageId(
    /// The id as a number.
    pub u32,
);

/// The six numbers that say what a page id stands for.
///
/// The four fixed page ids must be distinct and the stride at least 4; an opening tests it.
#[derive(Debug, Clone, Copy, PartialEq, Eq, Hash)]
pub struct Layout {
    /// The page of the static memory.
    pub static_memory: PageId,
    /// The page of the bootloader's calldata.
    pub calldata: PageId,
    /// The bootloader's heap: `HeapId::FIRST`.
    pub bootloader_heap: PageId,
    /// The bootloader's aux heap: `HeapId::FIRST_AUX`.
    pub bootloader_aux: PageId,
    /// The first dynamic base page.
    pub base: u32,
    /// Page ids from one base page to the next.
    pub stride: u32,
}

/// What a page id stands for.
#[derive(Debug, Clone, Copy, PartialEq, Eq, Hash)]
pub enum DecodedPage {
    /// A code page.
    Code {
        /// Its group of dynamic pages.
        group: u32,
    },
    /// A heap.
    Heap {
        /// Its group of dynamic pages.
        group: u32,
    },
    /// An aux heap.
    Aux {
        /// Its group of dynamic pages.
        group: u32,
    },
    /// The static memory.
    Static,
    /// The bootloader's calldata.
    Calldata,
    /// The bootloader's heap.
    BootloaderHeap,
    /// The bootloader's aux heap.
    BootloaderAux,
}

impl Layout {
    /// What a page id stands for; `None` for an id that stands for no page. Refused with
    /// [`Error::Layout`].
    ///
    /// ```
    /// use zincpapaya::{DecodedPage, Layout, PageId};
    ///
    /// # fn main() -> Result<(), zincpapaya::Error> {
    /// let layout = Layout {
    ///     static_memory: PageId(1),
    ///     calldata: PageId(4),
    ///     bootloader_heap: PageId(5),
    ///     bootloader_aux: PageId(6),
    ///     base: 64,
    ///     stride: 8,
    /// };
    /// assert_eq!(layout.decode(PageId(74))?, Some(DecodedPage::Heap { group: 1 }));
    /// assert_eq!(layout.decode(PageId(65))?, None);
    /// # Ok(())
    /// # }
    /// ```
    pub fn decode(&self, page: PageId) -> Result<Option<DecodedPage>, Error> {
        let mut out = [0; 2];
        carried_out(ffi::decode(self.numbers(), page.0, &mut out))?;
        let [kind, group] = out;
        let group = group as u32;
        Ok(Some(match kind {
            ffi::CODE => DecodedPage::Code { group },
            ffi::HEAP => DecodedPage::Heap { group },
            ffi::AUX => DecodedPage::Aux { group },
            ffi::STATIC => DecodedPage::Static,
            ffi::CALLDATA => DecodedPage::Calldata,
            ffi::BOOTLOADER_HEAP => DecodedPage::BootloaderHeap,
            ffi::BOOTLOADER_AUX => DecodedPage::BootloaderAux,
            _ => return Ok(None),
        }))
    }

    /// The base page that follows `base`. Refused with [`Error::Undecodable`] where it would leave
    /// 32 bits.
    pub fn next_page_group(&self, base: u32) -> Result<u32, Error> {
        one_page(|out| ffi::next_page_group(base, self.stride, out))
    }

    /// The numbers in the library's order.
    pub(crate) fn numbers(&self) -> [u32; 6] {
        let Self { static_memory, calldata, bootloader_heap, bootloader_aux, base, stride } = *self;
        [static_memory.0, calldata.0, bootloader_heap.0, bootloader_aux.0, base, stride]
    }
}

/// The heap of the group whose base page this is. Refused with [`Error::Undecodable`] where it
/// would leave 32 bits.
pub fn heap_page_from_base(base: u32) -> Result<PageId, Error> {
    one_page(|out| ffi::heap_page_from_base(base, out)).map(PageId)
}

/// The aux heap of the group whose base page this is. Refused with [`Error::Undecodable`] where it
/// would leave 32 bits.
pub fn aux_heap_page_from_base(base: u32) -> Result<PageId, Error> {
    one_page(|out| ffi::aux_heap_page_from_base(base, out)).map(PageId)
}

/// The code page of the group whose base page this is.
pub fn code_page_from_base(base: u32) -> Result<PageId, Error> {
    one_page(|out| ffi::code_page_from_base(base, out)).map(PageId)
}

/// The base page of the group whose heap this is: the id less 2, whatever page it is. Refused with
/// [`Error::Undecodable`] for the ids 0 and 1.
pub fn base_page_from_heap(heap: PageId) -> Result<u32, Error> {
    one_page(|out| ffi::base_page_from_heap(heap.0, out))
}

/// The answer of a call that gives one page id, which has 32 bits.
fn one_page(call: impl FnOnce(&mut [u64; 1]) -> u32) -> Result<u32, Error> {
    let mut out = [0];
    carried_out(call(&mut out))?;
    Ok(out[0] as u32)
}
