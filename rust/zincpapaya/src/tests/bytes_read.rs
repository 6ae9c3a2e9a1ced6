//! How many bytes of a word come from the range that was read. Every read is made on a memory that is owned and on
//! one that is lent.

use std::ops::Range;

use super::{on_both, put, registers, Host, CAPACITY, FRAME, HEAP, LAYOUT, LOAD_POINTER, OLD};
use crate::{
    ffi::{self, of_any_length},
    registers::{LoadCodes, FIRST_IMMEDIATE},
    Capacity, Error, FatPointer, Heaps, LoadPlaces, Operand, PageId, PartialWord, PointerOutcome,
    Word,
};

/// A page that no call has allocated, and an id that decodes to no page.
const UNALLOCATED: PageId = PageId(74);
const UNDECODABLE: PageId = PageId(65);
/// The highest offset that a pointer load takes.
const LAST_OFFSET: u32 = 4_294_967_263;
/// Statuses of the header.
const UNFIT: u32 = 102;
const PANICKED: u32 = 100;

/// Start, length and offset of a pointer.
type Shown = (u32, u32, u32);

fn pointer(memory_page: PageId, (start, length, offset): Shown) -> FatPointer {
    FatPointer { offset, memory_page, start, length }
}

/// A memory whose page `HEAP` holds chunks 0 and 1 and the last one. The first 64 bytes and those from 250 to 260 are
/// not 0, nor are the last 32.
fn written() -> Heaps {
    let mut heaps = Heaps::open(LAYOUT, CAPACITY, &[]).unwrap();
    heaps.write_bytes(HEAP, 0, &std::array::from_fn::<u8, 64, _>(|at| at as u8 + 1)).unwrap();
    heaps.write_bytes(HEAP, 250, &[9; 10]).unwrap();
    heaps.write_bytes(HEAP, u32::MAX - 31, &[8; 32]).unwrap();
    heaps
}

/// A partial read on both memories.
fn partially(heaps: &Heaps, page: PageId, range: Range<u32>) -> Result<PartialWord, Error> {
    let mut host = Host::of(heaps.buffers());
    let owned = heaps.read_u256_partially(page, range.clone());
    assert_eq!(host.lend().read_u256_partially(page, range), owned);
    owned
}

/// A load through a pointer on both memories: how it ended, and the word that it put into its first output.
fn through(heaps: &Heaps, pointer: FatPointer) -> (Result<PointerOutcome, Error>, Word) {
    let (mut frame, mut given) = (FRAME, registers());
    given.set(1, pointer);
    let ended = on_both!(heaps, frame, given, load_pointer(LOAD_POINTER));
    (ended, given.get(3).word)
}

/// The word of these bytes of a page, byte by byte, with zeros after them.
fn gathered(heaps: &Heaps, page: PageId, start: u32, many: usize) -> Word {
    let mut bytes = [0; 32];
    for (at, byte) in (0..).zip(&mut bytes[..many]) {
        *byte = heaps.read_byte(page, start + at).unwrap();
    }
    Word::from_big_endian(&bytes)
}

const LOADED: [(Shown, usize); 13] = [
    ((10, 5, 0), 5),
    ((10, 5, 3), 2),
    ((10, 5, 5), 0),
    // The offset lies past the end.
    ((10, 5, 6), 0),
    ((10, 5, LAST_OFFSET), 0),
    ((0, 64, 0), 32),
    ((0, 64, 32), 32),
    ((0, 64, 33), 31),
    ((0, 64, 63), 1),
    ((0, 64, 64), 0),
    ((0, 0, 0), 0),
    // Over the edge of a chunk, and up to the top.
    ((250, 10, 0), 10),
    ((4_294_967_290, 5, 0), 5),
];

#[test]
fn a_pointer_load_tells_how_many_bytes_are_the_pointers() {
    let heaps = written();
    for (shown @ (start, length, offset), bytes_read) in LOADED {
        let (ended, word) = through(&heaps, pointer(HEAP, shown));
        assert_eq!(ended, Ok(PointerOutcome::Running { bytes_read }), "{shown:?}");
        let first = start + offset.min(length);
        assert_eq!(word, gathered(&heaps, HEAP, first, bytes_read), "{shown:?}");
        // What came from the range is not 0 here.
        let bytes = word.to_big_endian();
        let (real, padding) = bytes.split_at(bytes_read);
        assert!(real.iter().all(|byte| *byte != 0), "{shown:?}");
        assert!(padding.iter().all(|byte| *byte == 0), "{shown:?}");
    }
}

#[test]
fn a_pointer_load_that_panics_or_is_refused_has_no_number() {
    let heaps = written();
    let before = registers().get(3).word;
    let past = pointer(HEAP, (10, 5, LAST_OFFSET + 1));
    assert_eq!(through(&heaps, past), (Ok(PointerOutcome::Panicked), before));
    let beyond = pointer(HEAP, (4_294_967_290, 6, 0));
    assert_eq!(through(&heaps, beyond), (Err(Error::Pointer), before));
    assert_eq!(Error::Pointer.number(), 14);
}

const READ: [(Range<u32>, usize); 9] = [
    (0..32, 32),
    (0..31, 31),
    (63..64, 1),
    (5..5, 0),
    (Range { start: 5, end: 3 }, 0),
    (Range { start: u32::MAX, end: 0 }, 0),
    (250..260, 10),
    (4_294_967_264..4_294_967_295, 31),
    // Not held at all.
    (600..620, 20),
];

#[test]
fn a_partial_read_tells_how_many_bytes_are_the_ranges() {
    let heaps = written();
    for (range, bytes_read) in READ {
        let word = gathered(&heaps, HEAP, range.start, bytes_read);
        let due = PartialWord { word, bytes_read };
        assert_eq!(partially(&heaps, HEAP, range.clone()), Ok(due), "{range:?}");
    }
    assert_eq!(partially(&heaps, HEAP, 0..33), Err(Error::Range));
    assert_eq!(Error::Range.number(), 8);
}

/// Both reads of bytes 10 to 14 of a page give 0, and count 5 bytes.
fn reads_five_zeros(heaps: &Heaps, page: PageId) {
    let (ended, word) = through(heaps, pointer(page, (10, 5, 0)));
    assert_eq!((ended, word), (Ok(PointerOutcome::Running { bytes_read: 5 }), Word::ZERO));
    let due = PartialWord { word: Word::ZERO, bytes_read: 5 };
    assert_eq!(partially(heaps, page, 10..15), Ok(due));
}

#[test]
fn zeros_of_what_is_not_held_count() {
    let mut heaps = written();
    for page in [UNALLOCATED, UNDECODABLE, LAYOUT.static_memory, LAYOUT.bootloader_heap] {
        reads_five_zeros(&heaps, page);
    }
    let due = PartialWord { word: Word::ZERO, bytes_read: 7 };
    assert_eq!(partially(&heaps, UNDECODABLE, 0..7), Ok(due));
    // The window drops the first chunk, and then the page is freed.
    heaps.compact_to_window(HEAP, 256, 1).unwrap();
    reads_five_zeros(&heaps, HEAP);
    heaps.deallocate(HEAP).unwrap();
    reads_five_zeros(&heaps, HEAP);
    heaps.allocate_at(HEAP).unwrap();
    reads_five_zeros(&heaps, HEAP);
}

#[test]
fn zeros_that_are_held_count() {
    let mut heaps = Heaps::open(LAYOUT, CAPACITY, &[]).unwrap();
    heaps.write_bytes(HEAP, 0, &[0; 64]).unwrap();
    assert_eq!(heaps.usage().chunks, 1);
    reads_five_zeros(&heaps, HEAP);
    // The last real byte is 0.
    heaps.write_bytes(HEAP, 10, &[7, 0, 6, 5, 0]).unwrap();
    let (ended, word) = through(&heaps, pointer(HEAP, (10, 5, 0)));
    assert_eq!(ended, Ok(PointerOutcome::Running { bytes_read: 5 }));
    assert_eq!(word.to_big_endian()[..5], [7, 0, 6, 5, 0]);
}

#[test]
fn a_range_with_a_chunk_that_is_not_held_counts_whole() {
    let mut heaps = Heaps::open(LAYOUT, CAPACITY, &[]).unwrap();
    heaps.write_bytes(HEAP, 250, &[9; 4]).unwrap();
    assert_eq!(heaps.usage().chunks, 1);
    let word = gathered(&heaps, HEAP, 250, 4);
    let due = PartialWord { word, bytes_read: 10 };
    assert_eq!(partially(&heaps, HEAP, 250..260), Ok(due));
    let (ended, given) = through(&heaps, pointer(HEAP, (250, 10, 0)));
    assert_eq!((ended, given), (Ok(PointerOutcome::Running { bytes_read: 10 }), word));
    // The first chunk is not held, and the second one is.
    heaps.compact_to_window(HEAP, 0, 0).unwrap();
    heaps.write_bytes(HEAP, 256, &[9; 4]).unwrap();
    let word = gathered(&heaps, HEAP, 250, 10);
    let due = PartialWord { word, bytes_read: 10 };
    assert_eq!(partially(&heaps, HEAP, 250..260), Ok(due));
}

/// Word by word, each load through the pointer that the last one left, all bytes are counted once.
#[test]
fn the_numbers_of_a_walk_sum_to_the_length() {
    let capacity = Capacity { chunks: 4, ..CAPACITY };
    let mut heaps = Heaps::open(LAYOUT, capacity, &[]).unwrap();
    heaps.write_bytes(HEAP, 200, &[1; 300]).unwrap();
    for length in [0, 1, 31, 32, 33, 64, 100, 300] {
        let (mut frame, mut given) = (FRAME, registers());
        given.set(1, pointer(HEAP, (200, length, 0)));
        let places = LoadPlaces { dst1: 1, ..LOAD_POINTER };
        let mut numbers = Vec::new();
        while numbers.last().is_none_or(|number| *number == 32) {
            match on_both!(heaps, frame, given, load_pointer(places)) {
                Ok(PointerOutcome::Running { bytes_read }) => numbers.push(bytes_read),
                ended => panic!("{ended:?}"),
            }
        }
        assert_eq!(numbers.iter().sum::<usize>(), length as usize);
        assert_eq!(numbers.len(), length as usize / 32 + 1);
    }
}

#[test]
fn outputs_of_another_length_do_not_fit() {
    let heaps = written();
    for length in [0, 1, 4, 6] {
        let mut out = vec![OLD; length];
        let status = of_any_length::read_u256_partially(heaps.buffers(), 66, 0..32, &mut out);
        assert_eq!((status, out), (UNFIT, vec![OLD; length]));
    }
    for length in [0, 2, 5] {
        let (mut out, mut frame, mut given) = (vec![OLD; length], FRAME.numbers(), registers());
        let status = of_any_length::load_pointer(
            heaps.buffers(),
            &mut frame,
            &mut given,
            LOAD_POINTER.into(),
            &mut out,
        );
        assert_eq!((status, out), (UNFIT, vec![OLD; length]));
        assert_eq!((frame, given), (FRAME.numbers(), registers()));
    }
}

/// The status of a checked pointer load whose register 1 holds this. Its output is as it was.
fn leaves_output(heaps: &Heaps, operand: impl Into<Operand>) -> u32 {
    let (mut frame, mut given) = (FRAME.numbers(), registers());
    given.set(1, operand);
    put(|out| ffi::load_pointer(heaps.buffers(), &mut frame, &mut given, LOAD_POINTER.into(), out))
}

#[test]
fn only_a_read_that_is_carried_out_writes_its_output() {
    let heaps = written();
    assert_eq!(put(|out| ffi::read_u256_partially(heaps.buffers(), 66, 0..33, out)), 8);
    assert_eq!(leaves_output(&heaps, pointer(HEAP, (4_294_967_290, 6, 0))), 14);
    assert_eq!(leaves_output(&heaps, pointer(HEAP, (10, 5, LAST_OFFSET + 1))), PANICKED);
    assert_eq!(leaves_output(&heaps, Word::ZERO), PANICKED);
    let immediate = LoadCodes { source: FIRST_IMMEDIATE, ..LOAD_POINTER.into() };
    let (mut frame, mut given) = (FRAME.numbers(), registers());
    let refused =
        put(|out| ffi::load_pointer(heaps.buffers(), &mut frame, &mut given, immediate, out));
    assert_eq!(refused, 16);

    let mut out = [OLD; 5];
    assert_eq!(ffi::read_u256_partially(heaps.buffers(), 66, 10..15, &mut out), 0);
    assert_eq!(out, [0, 0, 0, 0x0b_0c0d_0e0f << 24, 5]);
    let (mut frame, mut given, mut out) = (FRAME.numbers(), registers(), [OLD]);
    given.set(1, pointer(HEAP, (10, 5, 3)));
    let places = LOAD_POINTER.into();
    let status = ffi::load_pointer(heaps.buffers(), &mut frame, &mut given, places, &mut out);
    assert_eq!((status, out), (0, [2]));
}
