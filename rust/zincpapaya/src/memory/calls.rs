//! The functions of `libowned.a`, and the opening and the calls of a [`Memory`] over them. All
//! functions except the opening and the test require a memory that is well formed, and do not test it.
//!
//! Each call of them is safe, for two reasons:
//!
//! - The memory is well formed. Every [`Memory`] is; the head of the parent module says why.
//! - Pointers and lengths are what the head of `ffi` requires. A pointer and its length come from one
//!   slice, and what the library may write to is borrowed by `&mut`. Registers have no length here: the
//!   library takes a pointer to 65 numbers, which is what [`Registers`] are. `read_range` is the one
//!   exception; the head of `ffi` names it and says why it is safe.
//!
//! Below, 'the memory is owned' means both, for the buffers of a [`Memory`]: they are borrowed by
//! `&self` where the library only reads them, and by `&mut self` where it may change them. In debug
//! builds every call of [`Calls`] makes the test all the same.

use std::{ops::Range, ptr};

use super::Memory;
use crate::{
    buffers::Capacity,
    error::{carried_out, refusal},
    ffi::{numbers, ZEROS},
    methods::Calls,
    registers::{LoadCodes, StoreCodes},
    Area, Error, Frame, Layout, Outcome, PageId, PartialWord, PointerOutcome, Registers, Snapshot,
    Word,
};

/// The word of a partial read and how many of its bytes come from the range, or a refusal.
#[repr(C)]
struct PartialRead {
    refusal: u32,
    word: Word,
    bytes_read: u32,
}

/// The lengths of both journals. The refusal is 0.
#[repr(C)]
struct Marks {
    refusal: u32,
    heap: u32,
    aux: u32,
}

/// Whether two memories are equal, or a refusal.
#[repr(C)]
struct Compared {
    refusal: u32,
    equal: bool,
}

/// How an instruction ended, and the frame that it leaves.
#[repr(C)]
struct Ran {
    kind: u32,
    number: u32,
    gas: u32,
    heap: u32,
    aux: u32,
    heap_bound: u32,
    aux_bound: u32,
    panicked: bool,
}

/// How a pointer load ended, and how many bytes come from the pointer's range; 0 where it was not carried out.
#[repr(C)]
struct PointerRan {
    ran: Ran,
    bytes_read: u32,
}

// The values of `Ran::kind`: 2 is an EraVM panic, and all from 3 up mean that it was refused.
const RUNNING: u32 = 0;
const SUSPENDED: u32 = 1;
const REFUSED: u32 = 3;

declare! {
    reading fn own_well_formed() -> bool;
    writing fn own_open(
        static_memory: u32, calldata_page: u32, bootloader_heap: u32, bootloader_aux: u32,
        base: u32, stride: u32, chunks: u32, pages: u32, journal_words: u32,
        calldata: *const u8, calldata_len: usize,
    ) -> u32;
    reading fn own_read_u256(page: u32, address: u32) -> Word;
    reading fn own_read_u256_partially(page: u32, start: u32, end: u32) -> PartialRead;
    reading fn own_read_range_big_endian(
        page: u32, start: u32, end: u32, output: *mut u8, output_len: usize,
    ) -> u32;
    reading fn own_read_byte(page: u32, address: u32) -> u8;
    reading fn own_dynamic_len() -> u32;
    reading fn own_snapshot() -> Marks;
    reading fn own_chunk(
        page: u32, number: u32, block: *const u8, block_len: usize,
        output: *mut u8, output_len: usize,
    ) -> u32;
    reading fn own_compare(
        other_bytes: *const u8, other_bytes_len: usize, other_keys: *const u64,
        other_keys_len: usize, other_order: *const u32, other_order_len: usize,
        other_words: *const u64, other_words_len: usize,
    ) -> Compared;
    writing fn own_write_u256(
        page: u32, address: u32, limb0: u64, limb1: u64, limb2: u64, limb3: u64,
    ) -> u32;
    writing fn own_write_bytes(page: u32, start: u32, src: *const u8, src_len: usize) -> u32;
    writing fn own_allocate_at(page: u32) -> u32;
    writing fn own_allocate_with_content_at(
        page: u32, content: *const u8, content_len: usize,
    ) -> u32;
    writing fn own_deallocate(page: u32) -> u32;
    writing fn own_compact_to_window(page: u32, start: u32, length: u32) -> u32;
    writing fn own_truncate_dynamic_to(len: u64) -> u32;
    restoring fn own_rollback(heap: u64, aux: u64) -> u32;
    forgetting fn own_delete_history() -> u32;
    reading fn own_load(
        registers: *mut u64,
        gas: u32, heap: u32, aux: u32, heap_bound: u32, aux_bound: u32, panicked: bool,
        in_aux: bool, source: u32, dst0: u32, dst1: u32, increment: bool,
    ) -> Ran;
    writing fn own_store(
        registers: *mut u64,
        gas: u32, heap: u32, aux: u32, heap_bound: u32, aux_bound: u32, panicked: bool,
        in_aux: bool, source: u32, value: u32, dst0: u32, dst1: u32, increment: bool,
        kernel: bool, hook: bool, hook_address: u32,
    ) -> Ran;
    reading fn own_load_pointer(
        registers: *mut u64,
        gas: u32, heap: u32, aux: u32, heap_bound: u32, aux_bound: u32, panicked: bool,
        source: u32, dst0: u32, dst1: u32, increment: bool,
    ) -> PointerRan;
    reading fn own_load_static(
        registers: *mut u64,
        gas: u32, heap: u32, aux: u32, heap_bound: u32, aux_bound: u32, panicked: bool,
        source: u32, dst0: u32, dst1: u32, increment: bool,
    ) -> Ran;
    writing fn own_store_static(
        registers: *mut u64,
        gas: u32, heap: u32, aux: u32, heap_bound: u32, aux_bound: u32, panicked: bool,
        source: u32, value: u32, dst0: u32, dst1: u32, increment: bool, kernel: bool,
    ) -> Ran;
}

/// The test, in debug builds; nothing in others.
macro_rules! test {
    ($($memory:ident),*) => {
        $(#[cfg(debug_assertions)]
        $memory.check()?;)*
    };
}

/// The same word, limb by limb, so that the compiler keeps four numbers and copies no struct.
#[inline(always)]
fn limbs(Word([w0, w1, w2, w3]): Word) -> Word {
    Word([w0, w1, w2, w3])
}

impl Ran {
    /// The frame that the instruction leaves. The library has just written its numbers one by one, and the
    /// processor would wait for all of them before a wider load of several: so each is loaded on its own.
    #[inline(always)]
    fn frame(&self) -> Frame {
        // SAFETY: what is read is a field of `self`.
        let number = |field: &u32| unsafe { ptr::read_volatile(field) };
        Frame {
            gas: number(&self.gas),
            heap: PageId(number(&self.heap)),
            aux: PageId(number(&self.aux)),
            heap_bound: number(&self.heap_bound),
            aux_bound: number(&self.aux_bound),
            panicked: self.panicked,
        }
    }

    /// What the instruction leaves of its frame, and how it ended.
    #[inline(always)]
    fn told(&self, frame: &mut Frame) -> Result<Outcome, Error> {
        if self.kind >= REFUSED {
            return Err(refusal(self.number));
        }
        let after = self.frame();
        // Most instructions leave the frame as it was. Where it is not written, the next one need not
        // wait for what this one returned.
        if *frame != after {
            *frame = after;
        }
        Ok(match self.kind {
            RUNNING => Outcome::Running,
            SUSPENDED => Outcome::SuspendedOnHook(self.number),
            _ => Outcome::Panicked,
        })
    }
}

impl Memory {
    /// Opens the memory, whatever its buffers hold. A refusal leaves them as they were.
    pub(super) fn start(
        &mut self,
        layout: Layout,
        Capacity { chunks, pages, journal_words }: Capacity,
        calldata: &[u8],
    ) -> Result<(), Error> {
        let [static_memory, calldata_page, bootloader_heap, bootloader_aux, base, stride] =
            layout.numbers();
        // SAFETY: an opening takes any buffers. They are borrowed by `&mut`, and `calldata` is another
        // slice.
        carried_out(unsafe {
            lend!(mut self => own_open(
                static_memory, calldata_page, bootloader_heap, bootloader_aux, base, stride,
                chunks, pages, journal_words, calldata.as_ptr(), calldata.len(),
            ))
        })
    }
}

impl Calls for Memory {
    fn check(&self) -> Result<(), Error> {
        // SAFETY: the test takes any buffers, and only reads them.
        match unsafe { lend!(& self => own_well_formed()) } {
            true => Ok(()),
            false => Err(Error::NotFormed),
        }
    }

    #[inline(always)]
    fn read_u256(&self, page: PageId, address: u32) -> Result<Word, Error> {
        test!(self);
        // SAFETY: the memory is owned.
        Ok(limbs(unsafe { lend!(& self => own_read_u256(page.0, address)) }))
    }

    fn read_u256_partially(
        &self,
        page: PageId,
        Range { start, end }: Range<u32>,
    ) -> Result<PartialWord, Error> {
        test!(self);
        // SAFETY: the memory is owned.
        let read = unsafe { lend!(& self => own_read_u256_partially(page.0, start, end)) };
        carried_out(read.refusal)?;
        Ok(PartialWord { word: read.word, bytes_read: read.bytes_read as usize })
    }

    /// No zeros are put into the output before the bytes are: that would cost a third of the read.
    fn read_range(
        &self,
        page: PageId,
        range @ Range { start, end }: Range<u32>,
    ) -> Result<Vec<u8>, Error> {
        test!(self);
        let length = range.len();
        let mut output = Vec::with_capacity(length);
        // SAFETY: the memory is owned. The vector has room for `length` bytes; the library writes to
        // them and reads none of them.
        carried_out(unsafe {
            lend!(& self => own_read_range_big_endian(
                page.0, start, end, output.as_mut_ptr(), length,
            ))
        })?;
        // SAFETY: a read that is carried out has written each of the `length` bytes.
        unsafe { output.set_len(length) };
        Ok(output)
    }

    fn read_range_into(
        &self,
        page: PageId,
        Range { start, end }: Range<u32>,
        output: &mut [u8],
    ) -> Result<(), Error> {
        test!(self);
        // SAFETY: the memory is owned, and `output`, of any length, is borrowed by `&mut`.
        carried_out(unsafe {
            lend!(& self => own_read_range_big_endian(
                page.0, start, end, output.as_mut_ptr(), output.len(),
            ))
        })
    }

    fn read_byte(&self, page: PageId, address: u32) -> Result<u8, Error> {
        test!(self);
        // SAFETY: the memory is owned.
        Ok(unsafe { lend!(& self => own_read_byte(page.0, address)) })
    }

    fn chunk(&self, page: PageId, number: u32) -> Result<[u8; 256], Error> {
        test!(self);
        let mut output = [0; 256];
        // SAFETY: the memory is owned, the zeros are only read, and `output` is another array.
        carried_out(unsafe {
            lend!(& self => own_chunk(
                page.0, number, ZEROS.as_ptr(), ZEROS.len(), output.as_mut_ptr(), output.len(),
            ))
        })?;
        Ok(output)
    }

    fn dynamic_len(&self) -> Result<u64, Error> {
        test!(self);
        // SAFETY: the memory is owned.
        Ok(unsafe { lend!(& self => own_dynamic_len()) }.into())
    }

    fn snapshot(&self) -> Result<Snapshot, Error> {
        test!(self);
        // SAFETY: the memory is owned.
        let marks = unsafe { lend!(& self => own_snapshot()) };
        carried_out(marks.refusal)?;
        Ok(Snapshot { heap: marks.heap.into(), aux: marks.aux.into() })
    }

    fn equal(&self, other: &Self) -> Result<bool, Error> {
        test!(self, other);
        // SAFETY: both memories, which may be one, are owned.
        let compared = unsafe {
            lend!(& self => own_compare(
                other.bytes.as_ptr(), other.bytes.len(), other.keys.as_ptr(), other.keys.len(),
                other.order.as_ptr(), other.order.len(), other.words.as_ptr(), other.words.len(),
            ))
        };
        carried_out(compared.refusal)?;
        Ok(compared.equal)
    }

    #[inline(always)]
    fn write_u256(&mut self, page: PageId, address: u32, value: Word) -> Result<(), Error> {
        test!(self);
        let [v0, v1, v2, v3] = value.0;
        // SAFETY: the memory is owned.
        carried_out(unsafe { lend!(mut self => own_write_u256(page.0, address, v0, v1, v2, v3)) })
    }

    fn write_bytes(&mut self, page: PageId, start: u32, bytes: &[u8]) -> Result<(), Error> {
        test!(self);
        // SAFETY: the memory is owned, and `bytes` is another slice.
        carried_out(unsafe {
            lend!(mut self => own_write_bytes(page.0, start, bytes.as_ptr(), bytes.len()))
        })
    }

    fn allocate_at(&mut self, page: PageId) -> Result<(), Error> {
        test!(self);
        // SAFETY: the memory is owned.
        carried_out(unsafe { lend!(mut self => own_allocate_at(page.0)) })
    }

    fn allocate_with_content_at(&mut self, page: PageId, content: &[u8]) -> Result<(), Error> {
        test!(self);
        // SAFETY: the memory is owned, and `content` is another slice.
        carried_out(unsafe {
            lend!(mut self => own_allocate_with_content_at(
                page.0, content.as_ptr(), content.len(),
            ))
        })
    }

    fn deallocate(&mut self, page: PageId) -> Result<(), Error> {
        test!(self);
        // SAFETY: the memory is owned.
        carried_out(unsafe { lend!(mut self => own_deallocate(page.0)) })
    }

    fn compact_to_window(&mut self, page: PageId, start: u32, length: u32) -> Result<(), Error> {
        test!(self);
        // SAFETY: the memory is owned.
        carried_out(unsafe { lend!(mut self => own_compact_to_window(page.0, start, length)) })
    }

    fn truncate_dynamic_to(&mut self, len: u64) -> Result<(), Error> {
        test!(self);
        // SAFETY: the memory is owned.
        carried_out(unsafe { lend!(mut self => own_truncate_dynamic_to(len)) })
    }

    fn rollback(&mut self, to: Snapshot) -> Result<(), Error> {
        test!(self);
        // SAFETY: the memory is owned.
        carried_out(unsafe { lend!(mut self => own_rollback(to.heap, to.aux)) })
    }

    fn delete_history(&mut self) -> Result<(), Error> {
        test!(self);
        // SAFETY: the memory is owned.
        carried_out(unsafe { lend!(mut self => own_delete_history()) })
    }

    #[inline(always)]
    fn load(
        &self,
        frame: &mut Frame,
        registers: &mut Registers,
        area: Area,
        LoadCodes { source, dst0, dst1, increment }: LoadCodes,
    ) -> Result<Outcome, Error> {
        test!(self);
        let Frame { gas, heap, aux, heap_bound, aux_bound, panicked } = *frame;
        // SAFETY: the memory is owned, and `registers` are borrowed by `&mut`.
        let ran = unsafe {
            lend!(& self => own_load(
                numbers(registers), gas, heap.0, aux.0, heap_bound, aux_bound, panicked,
                area.is_aux(), source, dst0, dst1, increment,
            ))
        };
        ran.told(frame)
    }

    #[inline(always)]
    fn store(
        &mut self,
        frame: &mut Frame,
        registers: &mut Registers,
        area: Area,
        StoreCodes { source, value, dst0, dst1, increment }: StoreCodes,
        kernel: bool,
        hook: Option<u32>,
    ) -> Result<Outcome, Error> {
        test!(self);
        let Frame { gas, heap, aux, heap_bound, aux_bound, panicked } = *frame;
        // SAFETY: the memory is owned, and `registers` are borrowed by `&mut`.
        let ran = unsafe {
            lend!(mut self => own_store(
                numbers(registers), gas, heap.0, aux.0, heap_bound, aux_bound, panicked,
                area.is_aux(), source, value, dst0, dst1, increment, kernel,
                hook.is_some(), hook.unwrap_or(0),
            ))
        };
        ran.told(frame)
    }

    fn load_pointer(
        &self,
        frame: &mut Frame,
        registers: &mut Registers,
        LoadCodes { source, dst0, dst1, increment }: LoadCodes,
    ) -> Result<PointerOutcome, Error> {
        test!(self);
        let Frame { gas, heap, aux, heap_bound, aux_bound, panicked } = *frame;
        // SAFETY: the memory is owned, and `registers` are borrowed by `&mut`.
        let read = unsafe {
            lend!(& self => own_load_pointer(
                numbers(registers), gas, heap.0, aux.0, heap_bound, aux_bound, panicked,
                source, dst0, dst1, increment,
            ))
        };
        let outcome = read.ran.told(frame)?;
        Ok(PointerOutcome::of(outcome, read.bytes_read as usize))
    }

    fn load_static(
        &self,
        frame: &mut Frame,
        registers: &mut Registers,
        LoadCodes { source, dst0, dst1, increment }: LoadCodes,
    ) -> Result<Outcome, Error> {
        test!(self);
        let Frame { gas, heap, aux, heap_bound, aux_bound, panicked } = *frame;
        // SAFETY: the memory is owned, and `registers` are borrowed by `&mut`.
        let ran = unsafe {
            lend!(& self => own_load_static(
                numbers(registers), gas, heap.0, aux.0, heap_bound, aux_bound, panicked,
                source, dst0, dst1, increment,
            ))
        };
        ran.told(frame)
    }

    fn store_static(
        &mut self,
        frame: &mut Frame,
        registers: &mut Registers,
        StoreCodes { source, value, dst0, dst1, increment }: StoreCodes,
        kernel: bool,
    ) -> Result<Outcome, Error> {
        test!(self);
        let Frame { gas, heap, aux, heap_bound, aux_bound, panicked } = *frame;
        // SAFETY: the memory is owned, and `registers` are borrowed by `&mut`.
        let ran = unsafe {
            lend!(mut self => own_store_static(
                numbers(registers), gas, heap.0, aux.0, heap_bound, aux_bound, panicked,
                source, value, dst0, dst1, increment, kernel,
            ))
        };
        ran.told(frame)
    }
}
