//! Calls on the memory alone, and calls on no memory.

use calls::{catch, view_of, Answer, Call, PageIds, Pointer, Word};
use primitive_types::U256;

use super::id;
use crate::{fat_pointer::FatPointer, heap::Heaps, page_ids};

fn size(number: u64) -> usize {
    usize::try_from(number).expect("built for 64 bits")
}

/// Calls that only look at a memory.
pub(super) fn read(heaps: &Heaps, call: &Call) -> Option<Answer> {
    Some(match *call {
        Call::ReadU256 { page, address } => {
            Answer::Word(Word(heaps[id(page)].read_u256(address).0))
        }
        Call::ReadU256Partially { page, start, end } => {
            Answer::Word(Word(heaps[id(page)].read_u256_partially(start..end).0))
        }
        Call::ReadRangeBigEndian { page, start, end } => {
            Answer::Bytes(heaps[id(page)].read_range_big_endian(start..end))
        }
        Call::ReadByte { page, address } => Answer::Byte(heaps[id(page)].read_byte(address)),
        Call::Chunk { page, number } => Answer::Bytes(chunk(heaps, page, number)),
        Call::DynamicLen => Answer::Number(heaps.dynamic_len() as u64),
        Call::Snapshot => {
            let (heap, aux) = heaps.snapshot();
            Answer::Snapshot { heap: heap as u64, aux: aux as u64 }
        }
        _ => return None,
    })
}

/// A chunk's 256 bytes. Of the last chunk only the 31 bytes that a word can reach.
fn chunk(heaps: &Heaps, page: u32, number: u32) -> Vec<u8> {
    let heap = &heaps[id(page)];
    let Some(start) = number.checked_mul(256) else {
        let mut bytes = [0u8; 32];
        heap.read_u256(u32::MAX).to_big_endian(&mut bytes);
        return bytes[1..].to_vec();
    };
    // A range ends before a 32-bit number, so the highest byte is read by itself.
    let mut bytes = heap.read_range_big_endian(start..start + 255);
    bytes.push(heap.read_byte(start + 255));
    bytes
}

/// Calls that may change a memory.
pub(super) fn change(heaps: &mut Heaps, call: &Call) -> Option<Answer> {
    match call {
        Call::AllocateAt { page } => {
            let given = heaps.allocate_at(id(*page));
            return Some(Answer::Number(given.as_u32().into()));
        }
        Call::AllocateWithContentAt { page, content } => {
            let given = heaps.allocate_with_content_at(id(*page), content);
            return Some(Answer::Number(given.as_u32().into()));
        }
        Call::Deallocate { page } => heaps.deallocate(id(*page)),
        Call::WriteU256 { page, address, value } => {
            heaps.write_u256(id(*page), *address, U256(value.0));
        }
        Call::WriteBytes { page, start, bytes } => heaps.write_bytes(id(*page), *start, bytes),
        Call::CompactToWindow { page, start, length } => {
            heaps.compact_to_window(id(*page), *start, *length);
        }
        Call::TruncateDynamicTo { len } => heaps.truncate_dynamic_to(size(*len)),
        Call::Rollback { heap, aux } => heaps.rollback((size(*heap), size(*aux))),
        Call::DeleteHistory => heaps.delete_history(),
        _ => return None,
    }
    Some(Answer::Done)
}

/// Calls that take no memory.
pub(super) fn apart(call: &Call) -> Option<Answer> {
    Some(match *call {
        Call::Decode { page } => decode(page),
        Call::PageIds(of) => Answer::Number(page_number(of).into()),
        Call::FatPointerFrom { word } => {
            let pointer = FatPointer::from(U256(word.0));
            Answer::Pointer(Pointer {
                offset: pointer.offset,
                page: pointer.memory_page.as_u32(),
                start: pointer.start,
                length: pointer.length,
            })
        }
        Call::FatPointerInto { pointer } => {
            let pointer = FatPointer {
                offset: pointer.offset,
                memory_page: id(pointer.page),
                start: pointer.start,
                length: pointer.length,
            };
            Answer::Word(Word(pointer.into_u256().0))
        }
        _ => return None,
    })
}

/// `DecodedPage` is private to vm2's `heap.rs`: a byte written to a fresh memory shows it.
fn decode(page: u32) -> Answer {
    let mut heaps = Heaps::new(&[]);
    match catch(|| heaps.write_bytes(id(page), 0, &[1])) {
        Ok(()) => {
            let pages = view_of(&heaps).pages;
            let held = pages.into_iter().find(|page| !page.chunks.is_empty());
            Answer::Decoded(Some(held.expect("the byte lies somewhere").place))
        }
        Err(panic) if panic.message.contains("is not decodable") => Answer::Decoded(None),
        Err(panic) => Answer::RustPanic(panic),
    }
}

fn page_number(of: PageIds) -> u32 {
    match of {
        PageIds::StaticMemoryPage => page_ids::static_memory_page().as_u32(),
        PageIds::BootloaderCalldataPage => page_ids::bootloader_calldata_page().as_u32(),
        PageIds::BootloaderHeapPage => page_ids::bootloader_heap_page().as_u32(),
        PageIds::BootloaderAuxHeapPage => page_ids::bootloader_aux_heap_page().as_u32(),
        PageIds::HeapPageFromBase(base) => page_ids::heap_page_from_base(base).as_u32(),
        PageIds::AuxHeapPageFromBase(base) => page_ids::aux_heap_page_from_base(base).as_u32(),
        PageIds::CodePageFromBase(base) => page_ids::code_page_from_base(base).as_u32(),
        PageIds::BasePageFromHeap(page) => page_ids::base_page_from_heap(id(page)),
        PageIds::FirstDynamicBasePage => page_ids::first_dynamic_base_page(),
        PageIds::NextPageGroup(base) => page_ids::next_page_group(base),
    }
}
