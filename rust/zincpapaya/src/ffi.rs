//! The checked functions of the library as `include/zincpapaya.h` declares them, each behind a thin
//! safe wrapper that gives its status. They test a memory that they are lent, and so take any
//! buffers. All other `unsafe` of this crate stands in `memory/calls.rs`.
//!
//! What the library asks of its caller, and why it is met by every wrapper, here and there:
//!
//! - A slice is a pointer and a number of elements. Both are always taken from one Rust slice, so
//!   that the elements are there, aligned and initialised, and the pointer of an empty slice is
//!   not null. There is one exception: `read_range` of `memory/calls.rs` lends the room of a new
//!   vector, whose bytes are there and not initialised. The library writes them and reads none.
//! - Slices of one call do not overlap, unless the call only reads both. Whatever the library may
//!   write to is borrowed by `&mut`, so nothing else overlaps it.
//! - The library keeps no pointer after a call, and has no state of its own.
//! - Outputs and frames are arrays, so they have the lengths that the header asks for, and no call
//!   can tell of one that does not fit. [`Registers`] are laid out as the 65 numbers that the header asks
//!   for: `registers.rs` asserts it.

use std::{ops::Range, ptr};

use crate::{
    buffers::{Buffers, BuffersMut, Capacity},
    registers::{LoadCodes, StoreCodes},
    Registers,
};

/// The instruction panicked as the EraVM does.
pub(crate) const PANICKED: u32 = 100;
/// The store was carried out, and its hook stops the run.
pub(crate) const SUSPENDED: u32 = 101;

pub(crate) const CODE: u64 = 0;
pub(crate) const HEAP: u64 = 1;
pub(crate) const AUX: u64 = 2;
pub(crate) const STATIC: u64 = 3;
pub(crate) const CALLDATA: u64 = 4;
pub(crate) const BOOTLOADER_HEAP: u64 = 5;
pub(crate) const BOOTLOADER_AUX: u64 = 6;

/// What a chunk lookup shows of a chunk that is not held.
pub(crate) static ZEROS: [u8; 256] = [0; 256];

/// Declares functions of the library: `plain` ones; and ones that begin with a memory, which they
/// only read (`reading`) or may change (`writing`). A `restoring` one changes its `bytes` and
/// `words`, a `forgetting` one its `words` alone.
macro_rules! declare {
    ($($sort:ident fn $name:ident($($arg:ident: $kind:ty),* $(,)?) -> $result:ty;)*) => {
        $(declare! { @$sort $name($($arg: $kind),*) -> $result })*
    };
    (@plain $name:ident($($arg:ident: $kind:ty),*) -> $result:ty) => {
        extern "C" { fn $name($($arg: $kind),*) -> $result; }
    };
    (@reading $($rest:tt)*) => { declare! { @[const const const const] $($rest)* } };
    (@writing $($rest:tt)*) => { declare! { @[mut mut mut mut] $($rest)* } };
    (@restoring $($rest:tt)*) => { declare! { @[mut const const mut] $($rest)* } };
    (@forgetting $($rest:tt)*) => { declare! { @[const const const mut] $($rest)* } };
    (@[$bytes:tt $keys:tt $order:tt $words:tt]
        $name:ident($($arg:ident: $kind:ty),*) -> $result:ty) => {
        extern "C" {
            fn $name(
                bytes: *$bytes u8, bytes_len: usize, keys: *$keys u64, keys_len: usize,
                order: *$order u32, order_len: usize, words: *$words u64, words_len: usize,
                $($arg: $kind),*
            ) -> $result;
        }
    };
}

declare! {
    writing fn zp_open(
        static_memory: u32, calldata_page: u32, bootloader_heap: u32, bootloader_aux: u32,
        base: u32, stride: u32, chunks: u32, pages: u32, journal_words: u32,
        calldata: *const u8, calldata_len: usize,
    ) -> u32;
    reading fn zp_read_u256(page: u32, address: u32, out: *mut u64, out_len: usize) -> u32;
    reading fn zp_read_u256_partially(
        page: u32, start: u32, end: u32, out: *mut u64, out_len: usize,
    ) -> u32;
    reading fn zp_read_range_big_endian(
        page: u32, start: u32, end: u32, output: *mut u8, output_len: usize,
    ) -> u32;
    reading fn zp_read_byte(page: u32, address: u32, out: *mut u64, out_len: usize) -> u32;
    reading fn zp_dynamic_len(out: *mut u64, out_len: usize) -> u32;
    reading fn zp_snapshot(out: *mut u64, out_len: usize) -> u32;
    reading fn zp_chunk(
        page: u32, number: u32, block: *const u8, block_len: usize,
        output: *mut u8, output_len: usize,
    ) -> u32;
    writing fn zp_write_u256(
        page: u32, address: u32, limb0: u64, limb1: u64, limb2: u64, limb3: u64,
    ) -> u32;
    writing fn zp_write_bytes(page: u32, start: u32, src: *const u8, src_len: usize) -> u32;
    writing fn zp_allocate_at(page: u32) -> u32;
    writing fn zp_allocate_with_content_at(page: u32, content: *const u8, content_len: usize) -> u32;
    writing fn zp_deallocate(page: u32) -> u32;
    writing fn zp_compact_to_window(page: u32, start: u32, length: u32) -> u32;
    writing fn zp_truncate_dynamic_to(len: u64) -> u32;
    reading fn zp_compare(
        other_bytes: *const u8, other_bytes_len: usize, other_keys: *const u64,
        other_keys_len: usize, other_order: *const u32, other_order_len: usize,
        other_words: *const u64, other_words_len: usize, out: *mut u64, out_len: usize,
    ) -> u32;
    restoring fn zp_rollback(heap: u64, aux: u64) -> u32;
    forgetting fn zp_delete_history() -> u32;
    reading fn zp_load(
        frame: *mut u32, frame_len: usize, registers: *mut u64, registers_len: usize, aux: bool,
        source: u32, dst0: u32, dst1: u32, increment: bool,
    ) -> u32;
    writing fn zp_store(
        frame: *mut u32, frame_len: usize, registers: *mut u64, registers_len: usize, aux: bool,
        source: u32, value: u32, dst0: u32, dst1: u32, increment: bool, kernel: bool,
        hook: bool, hook_address: u32, out: *mut u64, out_len: usize,
    ) -> u32;
    reading fn zp_load_pointer(
        frame: *mut u32, frame_len: usize, registers: *mut u64, registers_len: usize,
        source: u32, dst0: u32, dst1: u32, increment: bool, out: *mut u64, out_len: usize,
    ) -> u32;
    reading fn zp_load_static(
        frame: *mut u32, frame_len: usize, registers: *mut u64, registers_len: usize,
        source: u32, dst0: u32, dst1: u32, increment: bool,
    ) -> u32;
    writing fn zp_store_static(
        frame: *mut u32, frame_len: usize, registers: *mut u64, registers_len: usize,
        source: u32, value: u32, dst0: u32, dst1: u32, increment: bool, kernel: bool,
    ) -> u32;
    plain fn zp_decode(
        static_memory: u32, calldata_page: u32, bootloader_heap: u32, bootloader_aux: u32,
        base: u32, stride: u32, page: u32, out: *mut u64, out_len: usize,
    ) -> u32;
    plain fn zp_heap_page_from_base(base: u32, out: *mut u64, out_len: usize) -> u32;
    plain fn zp_aux_heap_page_from_base(base: u32, out: *mut u64, out_len: usize) -> u32;
    plain fn zp_code_page_from_base(base: u32, out: *mut u64, out_len: usize) -> u32;
    plain fn zp_base_page_from_heap(heap: u32, out: *mut u64, out_len: usize) -> u32;
    plain fn zp_next_page_group(base: u32, stride: u32, out: *mut u64, out_len: usize) -> u32;
    plain fn zp_fat_pointer_from_u256(
        limb0: u64, limb1: u64, limb2: u64, limb3: u64, out: *mut u64, out_len: usize,
    ) -> u32;
    plain fn zp_fat_pointer_into_u256(
        offset: u32, page: u32, start: u32, length: u32, out: *mut u64, out_len: usize,
    ) -> u32;
    plain fn zp_use_gas(gas: u32, amount: u32, out: *mut u64, out_len: usize) -> u32;
    plain fn zp_grow_heap(
        frame: *mut u32, frame_len: usize, aux: bool, new_bound: u32,
        out: *mut u64, out_len: usize,
    ) -> u32;
    plain fn zp_quote(
        list: *const u32, list_len: usize, gas: u32, bound: u32, out: *mut u64, out_len: usize,
    ) -> u32;
}

/// Calls a function that begins with a memory, which it only reads (`&`) or may change (`mut`):
/// hands over the four buffers and then the other arguments.
macro_rules! lend {
    (& $memory:ident => $name:ident($($arg:expr),* $(,)?)) => {
        $name(
            $memory.bytes.as_ptr(), $memory.bytes.len(), $memory.keys.as_ptr(), $memory.keys.len(),
            $memory.order.as_ptr(), $memory.order.len(), $memory.words.as_ptr(),
            $memory.words.len(), $($arg),*
        )
    };
    (mut $memory:ident => $name:ident($($arg:expr),* $(,)?)) => {
        $name(
            $memory.bytes.as_mut_ptr(), $memory.bytes.len(), $memory.keys.as_mut_ptr(),
            $memory.keys.len(), $memory.order.as_mut_ptr(), $memory.order.len(),
            $memory.words.as_mut_ptr(), $memory.words.len(), $($arg),*
        )
    };
}

/// The first of the 65 numbers of registers.
#[inline(always)]
pub(crate) fn numbers(registers: &mut Registers) -> *mut u64 {
    ptr::from_mut(registers).cast()
}

pub(crate) fn open(
    memory: BuffersMut<'_>,
    [static_memory, calldata_page, bootloader_heap, bootloader_aux, base, stride]: [u32; 6],
    Capacity { chunks, pages, journal_words }: Capacity,
    calldata: &[u8],
) -> u32 {
    // SAFETY: the memory is borrowed by `&mut`, and `calldata` is another slice.
    unsafe {
        lend!(mut memory => zp_open(
            static_memory, calldata_page, bootloader_heap, bootloader_aux, base, stride,
            chunks, pages, journal_words, calldata.as_ptr(), calldata.len(),
        ))
    }
}

pub(crate) fn read_u256(memory: Buffers<'_>, page: u32, address: u32, out: &mut [u64; 4]) -> u32 {
    // SAFETY: the memory is only read, and `out` is borrowed by `&mut`.
    unsafe { lend!(& memory => zp_read_u256(page, address, out.as_mut_ptr(), out.len())) }
}

pub(crate) fn read_u256_partially(
    memory: Buffers<'_>,
    page: u32,
    Range { start, end }: Range<u32>,
    out: &mut [u64; 5],
) -> u32 {
    // SAFETY: the memory is only read, and `out` is borrowed by `&mut`.
    unsafe {
        lend!(& memory => zp_read_u256_partially(page, start, end, out.as_mut_ptr(), out.len()))
    }
}

pub(crate) fn read_range_big_endian(
    memory: Buffers<'_>,
    page: u32,
    Range { start, end }: Range<u32>,
    output: &mut [u8],
) -> u32 {
    // SAFETY: the memory is only read, and `output`, of any length, is borrowed by `&mut`.
    unsafe {
        lend!(& memory => zp_read_range_big_endian(
            page, start, end, output.as_mut_ptr(), output.len(),
        ))
    }
}

pub(crate) fn read_byte(memory: Buffers<'_>, page: u32, address: u32, out: &mut [u64; 1]) -> u32 {
    // SAFETY: the memory is only read, and `out` is borrowed by `&mut`.
    unsafe { lend!(& memory => zp_read_byte(page, address, out.as_mut_ptr(), out.len())) }
}

pub(crate) fn dynamic_len(memory: Buffers<'_>, out: &mut [u64; 1]) -> u32 {
    // SAFETY: the memory is only read, and `out` is borrowed by `&mut`.
    unsafe { lend!(& memory => zp_dynamic_len(out.as_mut_ptr(), out.len())) }
}

pub(crate) fn snapshot(memory: Buffers<'_>, out: &mut [u64; 2]) -> u32 {
    // SAFETY: the memory is only read, and `out` is borrowed by `&mut`.
    unsafe { lend!(& memory => zp_snapshot(out.as_mut_ptr(), out.len())) }
}

pub(crate) fn chunk(memory: Buffers<'_>, page: u32, number: u32, output: &mut [u8; 256]) -> u32 {
    // SAFETY: memory and zeros are only read, and `output` is borrowed by `&mut`.
    unsafe {
        lend!(& memory => zp_chunk(
            page, number, ZEROS.as_ptr(), ZEROS.len(), output.as_mut_ptr(), output.len(),
        ))
    }
}

pub(crate) fn compare(memory: Buffers<'_>, other: Buffers<'_>, out: &mut [u64; 1]) -> u32 {
    // SAFETY: both memories, which may be one, are only read, and `out` is borrowed by `&mut`.
    unsafe {
        lend!(& memory => zp_compare(
            other.bytes.as_ptr(), other.bytes.len(), other.keys.as_ptr(), other.keys.len(),
            other.order.as_ptr(), other.order.len(), other.words.as_ptr(), other.words.len(),
            out.as_mut_ptr(), out.len(),
        ))
    }
}

pub(crate) fn write_u256(
    memory: BuffersMut<'_>,
    page: u32,
    address: u32,
    [v0, v1, v2, v3]: [u64; 4],
) -> u32 {
    // SAFETY: the memory is borrowed by `&mut`.
    unsafe { lend!(mut memory => zp_write_u256(page, address, v0, v1, v2, v3)) }
}

pub(crate) fn write_bytes(memory: BuffersMut<'_>, page: u32, start: u32, src: &[u8]) -> u32 {
    // SAFETY: the memory is borrowed by `&mut`, and `src` is another slice.
    unsafe { lend!(mut memory => zp_write_bytes(page, start, src.as_ptr(), src.len())) }
}

pub(crate) fn allocate_at(memory: BuffersMut<'_>, page: u32) -> u32 {
    // SAFETY: the memory is borrowed by `&mut`.
    unsafe { lend!(mut memory => zp_allocate_at(page)) }
}

pub(crate) fn allocate_with_content_at(memory: BuffersMut<'_>, page: u32, content: &[u8]) -> u32 {
    // SAFETY: the memory is borrowed by `&mut`, and `content` is another slice.
    unsafe {
        lend!(mut memory => zp_allocate_with_content_at(page, content.as_ptr(), content.len()))
    }
}

pub(crate) fn deallocate(memory: BuffersMut<'_>, page: u32) -> u32 {
    // SAFETY: the memory is borrowed by `&mut`.
    unsafe { lend!(mut memory => zp_deallocate(page)) }
}

pub(crate) fn compact_to_window(memory: BuffersMut<'_>, page: u32, start: u32, length: u32) -> u32 {
    // SAFETY: the memory is borrowed by `&mut`.
    unsafe { lend!(mut memory => zp_compact_to_window(page, start, length)) }
}

pub(crate) fn truncate_dynamic_to(memory: BuffersMut<'_>, len: u64) -> u32 {
    // SAFETY: the memory is borrowed by `&mut`.
    unsafe { lend!(mut memory => zp_truncate_dynamic_to(len)) }
}

pub(crate) fn rollback(memory: BuffersMut<'_>, heap: u64, aux: u64) -> u32 {
    // SAFETY: the memory is borrowed by `&mut`.
    unsafe { lend!(mut memory => zp_rollback(heap, aux)) }
}

pub(crate) fn delete_history(memory: BuffersMut<'_>) -> u32 {
    // SAFETY: the memory is borrowed by `&mut`.
    unsafe { lend!(mut memory => zp_delete_history()) }
}

pub(crate) fn load(
    memory: Buffers<'_>,
    frame: &mut [u32; 6],
    registers: &mut Registers,
    aux: bool,
    LoadCodes { source, dst0, dst1, increment }: LoadCodes,
) -> u32 {
    // SAFETY: the memory is only read; `frame` and `registers` are borrowed by `&mut`.
    unsafe {
        lend!(& memory => zp_load(
            frame.as_mut_ptr(), frame.len(), numbers(registers), Registers::NUMBERS, aux,
            source, dst0, dst1, increment,
        ))
    }
}

#[allow(clippy::too_many_arguments)] // the library asks for these
pub(crate) fn store(
    memory: BuffersMut<'_>,
    frame: &mut [u32; 6],
    registers: &mut Registers,
    aux: bool,
    StoreCodes { source, value, dst0, dst1, increment }: StoreCodes,
    kernel: bool,
    hook: Option<u32>,
    out: &mut [u64; 1],
) -> u32 {
    // SAFETY: memory, `frame`, `registers` and `out` are borrowed by `&mut`.
    unsafe {
        lend!(mut memory => zp_store(
            frame.as_mut_ptr(), frame.len(), numbers(registers), Registers::NUMBERS, aux,
            source, value, dst0, dst1, increment, kernel, hook.is_some(), hook.unwrap_or(0),
            out.as_mut_ptr(), out.len(),
        ))
    }
}

pub(crate) fn load_pointer(
    memory: Buffers<'_>,
    frame: &mut [u32; 6],
    registers: &mut Registers,
    LoadCodes { source, dst0, dst1, increment }: LoadCodes,
    out: &mut [u64; 1],
) -> u32 {
    // SAFETY: the memory is only read; `frame`, `registers` and `out` are borrowed by `&mut`.
    unsafe {
        lend!(& memory => zp_load_pointer(
            frame.as_mut_ptr(), frame.len(), numbers(registers), Registers::NUMBERS,
            source, dst0, dst1, increment, out.as_mut_ptr(), out.len(),
        ))
    }
}

pub(crate) fn load_static(
    memory: Buffers<'_>,
    frame: &mut [u32; 6],
    registers: &mut Registers,
    LoadCodes { source, dst0, dst1, increment }: LoadCodes,
) -> u32 {
    // SAFETY: the memory is only read; `frame` and `registers` are borrowed by `&mut`.
    unsafe {
        lend!(& memory => zp_load_static(
            frame.as_mut_ptr(), frame.len(), numbers(registers), Registers::NUMBERS,
            source, dst0, dst1, increment,
        ))
    }
}

pub(crate) fn store_static(
    memory: BuffersMut<'_>,
    frame: &mut [u32; 6],
    registers: &mut Registers,
    StoreCodes { source, value, dst0, dst1, increment }: StoreCodes,
    kernel: bool,
) -> u32 {
    // SAFETY: memory, `frame` and `registers` are borrowed by `&mut`.
    unsafe {
        lend!(mut memory => zp_store_static(
            frame.as_mut_ptr(), frame.len(), numbers(registers), Registers::NUMBERS,
            source, value, dst0, dst1, increment, kernel,
        ))
    }
}

pub(crate) fn decode(
    [static_memory, calldata_page, bootloader_heap, bootloader_aux, base, stride]: [u32; 6],
    page: u32,
    out: &mut [u64; 2],
) -> u32 {
    // SAFETY: `out` is borrowed by `&mut`.
    unsafe {
        zp_decode(
            static_memory,
            calldata_page,
            bootloader_heap,
            bootloader_aux,
            base,
            stride,
            page,
            out.as_mut_ptr(),
            out.len(),
        )
    }
}

pub(crate) fn heap_page_from_base(base: u32, out: &mut [u64; 1]) -> u32 {
    // SAFETY: `out` is borrowed by `&mut`.
    unsafe { zp_heap_page_from_base(base, out.as_mut_ptr(), out.len()) }
}

pub(crate) fn aux_heap_page_from_base(base: u32, out: &mut [u64; 1]) -> u32 {
    // SAFETY: `out` is borrowed by `&mut`.
    unsafe { zp_aux_heap_page_from_base(base, out.as_mut_ptr(), out.len()) }
}

pub(crate) fn code_page_from_base(base: u32, out: &mut [u64; 1]) -> u32 {
    // SAFETY: `out` is borrowed by `&mut`.
    unsafe { zp_code_page_from_base(base, out.as_mut_ptr(), out.len()) }
}

pub(crate) fn base_page_from_heap(heap: u32, out: &mut [u64; 1]) -> u32 {
    // SAFETY: `out` is borrowed by `&mut`.
    unsafe { zp_base_page_from_heap(heap, out.as_mut_ptr(), out.len()) }
}

pub(crate) fn next_page_group(base: u32, stride: u32, out: &mut [u64; 1]) -> u32 {
    // SAFETY: `out` is borrowed by `&mut`.
    unsafe { zp_next_page_group(base, stride, out.as_mut_ptr(), out.len()) }
}

pub(crate) fn fat_pointer_from_u256([x0, x1, x2, x3]: [u64; 4], out: &mut [u64; 4]) -> u32 {
    // SAFETY: `out` is borrowed by `&mut`.
    unsafe { zp_fat_pointer_from_u256(x0, x1, x2, x3, out.as_mut_ptr(), out.len()) }
}

pub(crate) fn fat_pointer_into_u256(
    [offset, page, start, length]: [u32; 4],
    out: &mut [u64; 4],
) -> u32 {
    // SAFETY: `out` is borrowed by `&mut`.
    unsafe { zp_fat_pointer_into_u256(offset, page, start, length, out.as_mut_ptr(), out.len()) }
}

pub(crate) fn use_gas(gas: u32, amount: u32, out: &mut [u64; 2]) -> u32 {
    // SAFETY: `out` is borrowed by `&mut`.
    unsafe { zp_use_gas(gas, amount, out.as_mut_ptr(), out.len()) }
}

pub(crate) fn grow_heap(
    frame: &mut [u32; 6],
    aux: bool,
    new_bound: u32,
    out: &mut [u64; 1],
) -> u32 {
    // SAFETY: `frame` and `out` are borrowed by `&mut`.
    unsafe {
        zp_grow_heap(frame.as_mut_ptr(), frame.len(), aux, new_bound, out.as_mut_ptr(), out.len())
    }
}

pub(crate) fn quote(list: &[u32], gas: u32, bound: u32, out: &mut [u64; 3]) -> u32 {
    // SAFETY: `list` is only read, and `out` is borrowed by `&mut`.
    unsafe { zp_quote(list.as_ptr(), list.len(), gas, bound, out.as_mut_ptr(), out.len()) }
}

/// Calls with outputs of any length, for tests alone: in this crate all others are arrays that fit.
#[cfg(test)]
pub(crate) mod of_any_length {
    use super::*;

    pub(crate) fn read_u256_partially(
        memory: Buffers<'_>,
        page: u32,
        Range { start, end }: Range<u32>,
        out: &mut [u64],
    ) -> u32 {
        // SAFETY: the memory is only read, and `out`, of any length, is borrowed by `&mut`.
        unsafe {
            lend!(& memory => zp_read_u256_partially(page, start, end, out.as_mut_ptr(), out.len()))
        }
    }

    pub(crate) fn load_pointer(
        memory: Buffers<'_>,
        frame: &mut [u32; 6],
        registers: &mut Registers,
        LoadCodes { source, dst0, dst1, increment }: LoadCodes,
        out: &mut [u64],
    ) -> u32 {
        // SAFETY: the memory is only read; `frame`, `registers` and `out`, of any length, are borrowed by `&mut`.
        unsafe {
            lend!(& memory => zp_load_pointer(
                frame.as_mut_ptr(), frame.len(), numbers(registers), Registers::NUMBERS,
                source, dst0, dst1, increment, out.as_mut_ptr(), out.len(),
            ))
        }
    }
}
