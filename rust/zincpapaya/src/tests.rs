//! What the public interface does not show: outputs, frames and registers of refused calls as the library
//! leaves them. And memories that are not well formed, edges of openings and quotes, and the registers that
//! instructions write. The child `pool` has what is about the pool's bits, and `bytes_read` what tells how many
//! bytes of a word come from the range that was read.

mod bytes_read;
mod pool;

use std::ops::Range;

use crate::{
    buffers::BuffersMut,
    checked::Checked,
    ffi,
    methods::Calls,
    quote,
    registers::{LoadCodes, StoreCodes},
    Area, Buffers, Capacity, Error, FatPointer, Frame, Heaps, Layout, Lengths, Lent, LoadPlaces,
    Mode, Operand, Outcome, PageId, PointerOutcome, Quote, Registers, Snapshot, Source,
    StorePlaces, Word,
};

pub(crate) const LAYOUT: Layout = Layout {
    static_memory: PageId(1),
    calldata: PageId(4),
    bootloader_heap: PageId(5),
    bootloader_aux: PageId(6),
    base: 64,
    stride: 8,
};
pub(crate) const CAPACITY: Capacity = Capacity { chunks: 4, pages: 2, journal_words: 3 };
pub(crate) const HEAP: PageId = PageId(66);
pub(crate) const FRAME: Frame =
    Frame { gas: 100, heap: HEAP, aux: PageId(67), heap_bound: 0, aux_bound: 0, panicked: false };
/// A load at address 0, and a store there of the word of register 2. Both write registers 3 and 4.
pub(crate) const LOAD: LoadPlaces =
    LoadPlaces { source: Source::Immediate(0), dst0: 3, dst1: 4, increment: true };
pub(crate) const STORE: StorePlaces =
    StorePlaces { source: Source::Immediate(0), value: 2, dst0: 3, dst1: 4, increment: true };
/// A load through the pointer in register 1.
pub(crate) const LOAD_POINTER: LoadPlaces = LoadPlaces { source: Source::Register(1), ..LOAD };

/// Registers with a word each, where register 1 has a pointer and those that are written are tagged.
pub(crate) fn registers() -> Registers {
    let mut words = std::array::from_fn(|n| Word([n as u64, 1, 2, 3]));
    words[1] = Word::ZERO;
    Registers::new(words, 0b1_1010)
}

/// What stands in an output before a call.
const OLD: u64 = 0x0123_4567_89ab_cdef;

/// A memory with bytes on three pages, a dynamic page and journalled words.
pub(crate) fn opened() -> Heaps {
    let mut heaps = Heaps::open(LAYOUT, CAPACITY, &[1, 2, 3]).unwrap();
    heaps.write_u256(LAYOUT.bootloader_heap, 0, Word::from(7)).unwrap();
    heaps.write_u256(LAYOUT.bootloader_heap, 16, Word::from(8)).unwrap();
    heaps.write_bytes(HEAP, 250, &[9; 4]).unwrap();
    heaps
}

/// Four buffers, to lend.
#[derive(Debug, Clone, PartialEq)]
struct Host {
    bytes: Vec<u8>,
    keys: Vec<u64>,
    order: Vec<u32>,
    words: Vec<u64>,
}

impl Host {
    fn of(Buffers { bytes, keys, order, words }: Buffers<'_>) -> Self {
        Self { bytes: bytes.into(), keys: keys.into(), order: order.into(), words: words.into() }
    }

    fn lend(&mut self) -> Lent<'_> {
        Lent::of(&mut self.bytes, &mut self.keys, &mut self.order, &mut self.words)
    }

    fn buffers_mut(&mut self) -> BuffersMut<'_> {
        self.lend().memory
    }
}

/// The ways to call the library that are lent a memory.
type Call = fn(BuffersMut<'_>) -> u32;

/// Runs an instruction and checks that a refusal leaves frame and registers as they were.
fn framed(instruction: impl FnOnce(&mut [u32; 6], &mut Registers) -> u32) -> u32 {
    let (mut frame, mut given) = ([100, 66, 67, 0, 0, 1], registers());
    let status = instruction(&mut frame, &mut given);
    assert_eq!((frame, given), ([100, 66, 67, 0, 0, 1], registers()));
    status
}

/// Calls a function with an output and checks that a refusal leaves it as it was.
fn put<const N: usize>(call: impl FnOnce(&mut [u64; N]) -> u32) -> u32 {
    let mut out = [OLD; N];
    let status = call(&mut out);
    assert_eq!(out, [OLD; N]);
    status
}

/// Calls a function with an output of bytes and checks that a refusal leaves it as it was.
fn put_bytes(call: impl FnOnce(&mut [u8; 256]) -> u32) -> u32 {
    let mut output = [0xa5; 256];
    let status = call(&mut output);
    assert_eq!(output, [0xa5; 256]);
    status
}

const READS: [Call; 7] = [
    |memory| put(|out| ffi::read_u256(memory.shown(), 66, 0, out)),
    |memory| put(|out| ffi::read_u256_partially(memory.shown(), 66, 0..32, out)),
    |memory| put_bytes(|output| ffi::read_range_big_endian(memory.shown(), 66, 0..256, output)),
    |memory| put(|out| ffi::read_byte(memory.shown(), 66, 0, out)),
    |memory| put(|out| ffi::dynamic_len(memory.shown(), out)),
    |memory| put(|out| ffi::snapshot(memory.shown(), out)),
    |memory| put_bytes(|output| ffi::chunk(memory.shown(), 66, 0, output)),
];

const CHANGES: [Call; 9] = [
    |memory| ffi::write_u256(memory, 66, 0, [1; 4]),
    |memory| ffi::write_bytes(memory, 66, 0, &[]),
    |memory| ffi::allocate_at(memory, 74),
    |memory| ffi::allocate_with_content_at(memory, 74, &[1]),
    |memory| ffi::deallocate(memory, 66),
    |memory| ffi::compact_to_window(memory, 66, 0, 0),
    |memory| ffi::truncate_dynamic_to(memory, 0),
    |memory| ffi::rollback(memory, 0, 0),
    |memory| ffi::delete_history(memory),
];

const INSTRUCTIONS: [Call; 5] = [
    |memory| framed(|frame, given| ffi::load(memory.shown(), frame, given, false, LOAD.into())),
    |memory| {
        put(|out| {
            framed(|frame, given| {
                ffi::store(memory, frame, given, true, STORE.into(), true, None, out)
            })
        })
    },
    |memory| {
        let places = LOAD_POINTER.into();
        put(|out| {
            framed(|frame, given| ffi::load_pointer(memory.shown(), frame, given, places, out))
        })
    },
    |memory| framed(|frame, given| ffi::load_static(memory.shown(), frame, given, LOAD.into())),
    |memory| framed(|frame, given| ffi::store_static(memory, frame, given, STORE.into(), true)),
];

/// The refusals of every public call on a memory, one after another.
macro_rules! refusals {
    ($memory:ident) => {{
        let (mut frame, mut given) = (FRAME, registers());
        let refusals = [
            $memory.check().err(),
            $memory.read_u256(HEAP, 0).err(),
            $memory.read_u256_partially(HEAP, 0..32).err(),
            $memory.read_range_big_endian(HEAP, 0..32).err(),
            $memory.read_range_into(HEAP, 0..3, &mut [0; 3]).err(),
            $memory.read_byte(HEAP, 0).err(),
            $memory.chunk(HEAP, 0).err(),
            $memory.dynamic_len().err(),
            $memory.equal(&$memory).err(),
            $memory.write_u256(HEAP, 0, Word::ZERO).err(),
            $memory.write_bytes(HEAP, 0, &[]).err(),
            $memory.allocate_at(PageId(74)).err(),
            $memory.allocate_with_content_at(PageId(74), &[1]).err(),
            $memory.deallocate(HEAP).err(),
            $memory.compact_to_window(HEAP, 0, 0).err(),
            $memory.truncate_dynamic_to(0).err(),
            $memory.snapshot().err(),
            $memory.rollback(Snapshot { heap: 0, aux: 0 }).err(),
            $memory.delete_history().err(),
            $memory.load(&mut frame, &mut given, Area::Heap, LOAD).err(),
            $memory
                .store(&mut frame, &mut given, Area::Heap, STORE, $crate::Mode::Kernel, None)
                .err(),
            $memory.load_pointer(&mut frame, &mut given, LOAD_POINTER).err(),
            $memory.load_static(&mut frame, &mut given, LOAD).err(),
            $memory.store_static(&mut frame, &mut given, STORE, $crate::Mode::Kernel).err(),
        ];
        assert_eq!((frame, given), (FRAME, registers()));
        refusals
    }};
}
pub(crate) use refusals;

/// Ways to break a memory.
pub(crate) const BREAKS: [fn(BuffersMut<'_>); 8] = [
    |memory| memory.words[9] += 1,
    // A pooled chunk that is not zero: three are held.
    |memory| {
        memory.bytes[..4 * 256].iter_mut().filter(|byte| **byte == 0).for_each(|byte| *byte = 1)
    },
    |memory| memory.keys[0] = memory.keys[1],
    |memory| memory.words[5] = 3,
    |memory| memory.order[0] = u32::MAX,
    // The pool has chunk 3 alone: a held one, one past the last, and none that could be found.
    |memory| *memory.words.last_mut().unwrap() |= 1,
    |memory| *memory.words.last_mut().unwrap() |= 1 << 4,
    |memory| memory.words[15] = 1,
];

#[test]
fn every_call_refuses_a_memory_that_is_not_well_formed() {
    let whole = opened();
    for (at, damage) in BREAKS.into_iter().enumerate() {
        let mut broken = Host::of(whole.buffers());
        damage(broken.buffers_mut());
        let before = broken.clone();
        for call in READS.into_iter().chain(CHANGES).chain(INSTRUCTIONS) {
            assert_eq!(call(broken.buffers_mut()), 3, "damage {at}");
            assert_eq!(before, broken);
        }
        let mut lent = broken.lend();
        assert_eq!(refusals!(lent), [Some(Error::NotFormed); 24], "damage {at}");
        assert_eq!(lent.layout(), Err(Error::NotFormed));
        assert_eq!(lent.capacity(), Err(Error::NotFormed));
        assert_eq!(lent.usage(), Err(Error::NotFormed));
        let (whole, damaged) = (whole.buffers(), lent.buffers());
        assert_eq!(put(|out| ffi::compare(whole, damaged, out)), 3);
        assert_eq!(put(|out| ffi::compare(damaged, whole, out)), 3);
        assert_eq!(whole.equal(damaged), Err(Error::NotFormed));
        assert_eq!(before, broken);
    }
}

#[test]
fn buffers_of_other_lengths_are_refused() {
    let changes: [fn(&mut Host); 8] = [
        |host| _ = host.bytes.pop(),
        |host| _ = host.keys.pop(),
        |host| _ = host.order.pop(),
        |host| host.words.truncate(15),
        |host| host.bytes.push(0),
        |host| host.keys.push(0),
        |host| host.order.push(0),
        |host| host.words.push(0),
    ];
    for change in changes {
        let mut host = Host::of(opened().buffers());
        change(&mut host);
        let before = host.clone();
        let mut lent = host.lend();
        assert_eq!(refusals!(lent), [Some(Error::NotFormed); 24]);
        assert_eq!(lent.layout(), Err(Error::NotFormed));
        assert_eq!(lent.reopen(LAYOUT, CAPACITY, &[]), Err(Error::Sizes));
        assert_eq!(host, before);
    }
    let (bytes, keys, order, words) = (&mut [], &mut [], &mut [], &mut []);
    let mut empty = Lent::of(bytes, keys, order, words);
    assert_eq!(refusals!(empty), [Some(Error::NotFormed); 24]);
    assert_eq!(empty.usage(), Err(Error::NotFormed));
    let text = Error::Sizes.to_string();
    assert!(text.contains("lent buffer") && text.contains("`Capacity::lengths`"), "{text}");
}

/// A read that makes its output gives what one into an output of the caller's gives: over held and
/// unheld chunks, of an unknown page, at the top, reversed and empty.
#[test]
fn a_range_read_makes_the_output_that_it_fills() {
    let mut memory = opened();
    memory.write_bytes(HEAP, 250, &[9; 20]).unwrap();
    let mut host = Host::of(memory.buffers());
    let top = u32::MAX - 3..u32::MAX;
    let reversed = Range { start: 9, end: 3 };
    for range in [0..1000, 255..257, 260..4000, 7..7, reversed, top] {
        for page in [HEAP, PageId(3)] {
            let mut output = vec![0xa5; range.len()];
            memory.read_range_into(page, range.clone(), &mut output).unwrap();
            assert_eq!(memory.read_range_big_endian(page, range.clone()).as_ref(), Ok(&output));
            assert_eq!(host.lend().read_range_big_endian(page, range.clone()), Ok(output));
        }
    }
}

#[test]
fn a_lent_memory_is_opened_in_buffers_with_any_contents() {
    let Lengths { bytes, keys, order, words } = CAPACITY.lengths().unwrap();
    let (mut bytes, mut keys) = (vec![7; bytes], vec![7; keys]);
    let (mut order, mut words) = (vec![7; order], vec![7; words]);
    let refused = Lent::open(
        &mut bytes,
        &mut keys,
        &mut order,
        &mut words,
        Layout { stride: 3, ..LAYOUT },
        CAPACITY,
        &[],
    );
    assert_eq!(refused.err(), Some(Error::Layout));
    assert!(words.iter().all(|word| *word == 7));
    let mut lent =
        Lent::open(&mut bytes, &mut keys, &mut order, &mut words, LAYOUT, CAPACITY, &[1, 2, 3])
            .unwrap();
    assert_eq!((lent.layout(), lent.capacity()), (Ok(LAYOUT), Ok(CAPACITY)));
    lent.write_u256(LAYOUT.bootloader_heap, 0, Word::from(7)).unwrap();
    lent.write_u256(LAYOUT.bootloader_heap, 16, Word::from(8)).unwrap();
    lent.write_bytes(HEAP, 250, &[9; 4]).unwrap();
    let owned = opened();
    assert_eq!(lent.usage(), Ok(owned.usage()));
    assert_eq!(lent.buffers().equal(owned.buffers()), Ok(true));
    let other = Heaps::open(Layout { base: 72, ..LAYOUT }, CAPACITY, &[]).unwrap();
    assert_eq!(lent.buffers().equal(other.buffers()), Err(Error::Layout));
}

#[test]
fn a_refused_instruction_leaves_frame_registers_and_output() {
    let heaps = opened();
    let pointer = Operand { word: Word([0, u64::MAX << 32 | 1, 0, 0]), tagged: true };
    let mut given = registers();
    given.set(1, pointer);
    let (before, mut frame, places) = (given, FRAME, LOAD_POINTER.into());
    let mut numbers = frame.numbers();
    let status =
        put(|out| ffi::load_pointer(heaps.buffers(), &mut numbers, &mut given, places, out));
    assert_eq!((status, numbers, given), (14, frame.numbers(), before));
    let loaded = heaps.load_pointer(&mut frame, &mut given, LOAD_POINTER);
    assert_eq!((loaded, frame, given), (Err(Error::Pointer), FRAME, before));

    for (value, page, error) in [(1 << 32, 66, Error::HookValue), (1, 65, Error::Undecodable)] {
        let given_frame = Frame { heap: PageId(page), ..FRAME };
        given.set(2, Word::from(value));
        let before = given;

        let mut host = Host::of(heaps.buffers());
        let (mut numbers, mut out) = (given_frame.numbers(), [OLD]);
        let (memory, places, hook) = (host.buffers_mut(), STORE.into(), Some(0));
        let status =
            ffi::store(memory, &mut numbers, &mut given, false, places, true, hook, &mut out);
        assert_eq!((status, out), (error.number().into(), [OLD]));
        assert_eq!((numbers, given), (given_frame.numbers(), before));
        assert_eq!(host, Host::of(heaps.buffers()));

        let (mut owned, mut frame) = (opened(), given_frame);
        let stored = owned.store(&mut frame, &mut given, Area::Heap, STORE, Mode::Kernel, hook);
        assert_eq!((stored, frame, given), (Err(error), given_frame, before));
        assert_eq!(owned.buffers(), heaps.buffers());
    }
}

/// Runs an instruction on a memory that is owned and on one that is lent, and checks that both answer alike. What is
/// left stays in `heaps`, the frame and the registers.
macro_rules! on_both {
    ($heaps:ident, $frame:ident, $registers:ident, $name:ident($($arg:expr),*)) => {{
        let (mut host, mut frame, mut given) = (Host::of($heaps.buffers()), $frame, $registers);
        let lent = host.lend().$name(&mut frame, &mut given, $($arg),*);
        let owned = $heaps.$name(&mut $frame, &mut $registers, $($arg),*);
        assert_eq!((owned, $frame, $registers), (lent, frame, given));
        assert_eq!(Host::of($heaps.buffers()), host);
        owned
    }};
}
pub(crate) use on_both;

/// The frame and the registers of the worked figures. Register 1 has an address, 2 a value, and 3 a tagged word.
fn worked() -> (Frame, Registers) {
    let (heap_bound, aux_bound) = (4096, 4096);
    let frame = Frame { gas: 10, heap_bound, aux_bound, ..FRAME };
    let mut given = Registers::default();
    given.set(1, 4064);
    given.set(2, 7);
    given.set(3, Operand { word: Word::from(5), tagged: true });
    given.set(4, 9);
    assert_eq!(given.pointer_flags(), 8);
    (frame, given)
}

const FROM_1: Source = Source::Register(1);

/// The words of these registers; each is below 2^64.
fn small(given: &Registers, registers: [u8; 2]) -> [u64; 2] {
    registers.map(|register| {
        let Word([low, high @ ..]) = given.get(register).word;
        assert_eq!(high, [0; 3]);
        low
    })
}

#[test]
fn a_store_writes_the_operand_and_clears_the_second_output() {
    // With an increment and without: registers 3 and 4, and the flags.
    for (increment, words, flags) in [(true, [4096, 0], 0), (false, [5, 0], 8)] {
        let ((mut frame, mut given), mut heaps) = (worked(), opened());
        let places = StorePlaces { source: FROM_1, increment, ..STORE };
        let stored = on_both!(heaps, frame, given, store(Area::Heap, places, Mode::User, None));
        assert_eq!((stored, frame), (Ok(Outcome::Running), worked().0));
        assert_eq!(heaps.read_u256(HEAP, 4064), Ok(Word::from(7)));
        assert_eq!((small(&given, [3, 4]), given.pointer_flags()), (words, flags));
        assert_eq!(small(&given, [1, 2]), [4064, 7]);

        let ((mut frame, mut given), mut heaps) = (worked(), opened());
        let stored = on_both!(heaps, frame, given, store_static(places, Mode::User));
        assert_eq!((stored, frame), (Ok(Outcome::Running), worked().0));
        assert_eq!(heaps.read_u256(LAYOUT.static_memory, 4064), Ok(Word::from(7)));
        assert_eq!((small(&given, [3, 4]), given.pointer_flags()), (words, flags));
    }
}

#[test]
fn a_load_writes_the_word_and_then_the_operand() {
    let mut heaps = Heaps::open(LAYOUT, CAPACITY, &[]).unwrap();
    heaps.write_u256(HEAP, 4064, Word::from(7)).unwrap();
    heaps.write_u256(LAYOUT.static_memory, 4064, Word::from(7)).unwrap();
    // The outputs and the increment; then registers 3 and 4, and the flags.
    let cases = [
        (3, 4, true, [7, 4096], 0),
        (3, 4, false, [7, 0], 0),
        // The second output is written last.
        (3, 3, true, [4096, 9], 0),
        (3, 3, false, [0, 9], 0),
        // Register 0 is never written.
        (0, 0, true, [5, 9], 8),
        (0, 0, false, [5, 9], 8),
        (0, 4, true, [5, 4096], 8),
        (3, 0, true, [7, 9], 0),
    ];
    for (dst0, dst1, increment, words, flags) in cases {
        let places = LoadPlaces { source: FROM_1, dst0, dst1, increment };
        for is_static in [false, true] {
            let (mut frame, mut given) = worked();
            let loaded = match is_static {
                false => on_both!(heaps, frame, given, load(Area::Heap, places)),
                true => on_both!(heaps, frame, given, load_static(places)),
            };
            assert_eq!((loaded, frame), (Ok(Outcome::Running), worked().0), "{places:?}");
            assert_eq!(small(&given, [3, 4]), words, "{places:?}");
            assert_eq!((small(&given, [0, 1]), given.pointer_flags()), ([0, 4064], flags));
        }
    }
    // The operand's own register may be an output.
    let (mut frame, mut given) = worked();
    let places = LoadPlaces { source: FROM_1, dst0: 2, dst1: 1, increment: true };
    let loaded = on_both!(heaps, frame, given, load(Area::Heap, places));
    assert_eq!((loaded, small(&given, [1, 2])), (Ok(Outcome::Running), [4096, 7]));
}

#[test]
fn the_second_output_of_a_load_takes_the_tag_of_its_operand() {
    let (heaps, (mut frame, mut given)) = (opened(), worked());
    let tagged = Operand { word: Word::from(4064), tagged: true };
    for (operand, source) in [(tagged, FROM_1), (4064.into(), Source::Immediate(4064))] {
        given.set(1, tagged);
        let places = LoadPlaces { source, ..LOAD };
        let next = Operand { word: Word::from(4096), tagged: operand.tagged };
        assert_eq!(on_both!(heaps, frame, given, load(Area::Heap, places)), Ok(Outcome::Running));
        assert_eq!((given.get(3), given.get(4)), (0.into(), next));
        given.set(4, 9);
        assert_eq!(on_both!(heaps, frame, given, load_static(places)), Ok(Outcome::Running));
        assert_eq!((given.get(3), given.get(4)), (0.into(), next));
    }
}

#[test]
fn a_pointer_load_sets_the_tag() {
    let mut heaps = opened();
    heaps.write_bytes(HEAP, 10, &[1, 2, 3, 4, 5]).unwrap();
    let pointer = FatPointer { offset: 3, memory_page: HEAP, start: 10, length: 5 };
    let (mut frame, mut given) = worked();
    given.set(1, pointer);
    let loaded = on_both!(heaps, frame, given, load_pointer(LOAD_POINTER));
    assert_eq!((loaded, frame), (Ok(PointerOutcome::Running { bytes_read: 2 }), worked().0));
    assert_eq!(given.get(3), Word([0, 0, 0, 0x0405 << 48]).into());
    assert_eq!(given.get(4), FatPointer { offset: 35, ..pointer }.into());
    assert_eq!(given.pointer_flags(), 0b1_0010);
}

#[test]
fn a_panic_clears_the_second_output_alone() {
    let heaps = opened();
    // Of the growth.
    let (worked_frame, before) = worked();
    let (mut frame, mut given) = (Frame { gas: 0, ..worked_frame }, before);
    let places = LoadPlaces { source: Source::Immediate(4065), dst1: 3, ..LOAD };
    let loaded = on_both!(heaps, frame, given, load(Area::Heap, places));
    assert_eq!(loaded, Ok(Outcome::Panicked));
    assert_eq!(frame, Frame { gas: 0, panicked: true, ..worked_frame });
    assert_eq!((small(&given, [3, 4]), given.pointer_flags()), ([0, 9], 0));
    // Of the operand limit, which takes the gas.
    for register in [1, 2] {
        let (mut frame, mut given) = worked();
        given.set(register, Word([0, 0, 0, 1]));
        let source = Source::Register(register);
        let (before, mut heaps) = (given, opened());
        let places = StorePlaces { source, value: 3, dst0: 3, dst1: 4, increment: true };
        let stored = on_both!(heaps, frame, given, store(Area::Aux, places, Mode::Kernel, None));
        assert_eq!((stored, frame.gas), (Ok(Outcome::Panicked), 0));
        assert_eq!(heaps.buffers(), opened().buffers());
        let mut due = before;
        due.set(4, 0);
        assert_eq!(given, due);
    }
    // Of a pointer load whose operand is not tagged: no charge.
    let (mut frame, mut given) = worked();
    let places = LoadPlaces { source: Source::Register(2), ..LOAD };
    let loaded = on_both!(heaps, frame, given, load_pointer(places));
    assert_eq!(loaded, Ok(PointerOutcome::Panicked));
    assert_eq!(frame, Frame { panicked: true, ..worked_frame });
    assert_eq!((small(&given, [3, 4]), given.pointer_flags()), ([5, 0], 8));
}

#[test]
fn a_stored_pointer_is_erased_outside_kernel_mode() {
    let whole = Word([66 << 32 | 1, 5 << 32 | 10, 0, 0]);
    let erased = Word([1, 5 << 32, 0, 0]);
    for (tagged, mode, due) in [
        (true, Mode::Kernel, whole),
        (true, Mode::User, erased),
        (false, Mode::Kernel, whole),
        (false, Mode::User, whole),
    ] {
        let ((mut frame, mut given), mut heaps) = (worked(), opened());
        given.set(5, Operand { word: whole, tagged });
        let places = StorePlaces { source: FROM_1, value: 5, ..STORE };
        let stored = on_both!(heaps, frame, given, store(Area::Heap, places, mode, None));
        assert_eq!(stored, Ok(Outcome::Running));
        assert_eq!(heaps.read_u256(HEAP, 4064), Ok(due));
        heaps.deallocate(HEAP).unwrap();
        assert_eq!(on_both!(heaps, frame, given, store_static(places, mode)), Ok(Outcome::Running));
        assert_eq!(heaps.read_u256(LAYOUT.static_memory, 4064), Ok(due));
        // The register that was read is as it was.
        assert_eq!(given.get(5), Operand { word: whole, tagged });
    }
}

#[test]
fn register_0_is_read_as_it_is() {
    let mut words = [Word::ZERO; 16];
    words[0] = Word::from(64);
    let mut given = Registers::new(words, 1);
    given.set(0, 9);
    let (before, mut frame, mut heaps) = (given, worked().0, opened());
    assert_eq!(before.get(0), Operand { word: Word::from(64), tagged: true });
    let source = Source::Register(0);
    let places = StorePlaces { source, value: 0, dst0: 0, dst1: 0, increment: true };
    let stored = on_both!(heaps, frame, given, store(Area::Heap, places, Mode::Kernel, None));
    assert_eq!((stored, given), (Ok(Outcome::Running), before));
    assert_eq!(heaps.read_u256(HEAP, 64), Ok(Word::from(64)));
}

/// Codes that are no register: the first above 15, the last of the form, immediates, and other forms.
const NO_REGISTER: [u32; 7] = [16, 65_535, 65_536, 65_551, 131_071, 131_072, u32::MAX];
/// Codes that are neither a register nor an immediate.
const NO_SOURCE: [u32; 4] = [16, 65_535, 131_072, u32::MAX];

/// Checks that a call with codes is refused with 16, and leaves frame and registers as they were. The codes are
/// given first, then the arguments before them and those after them.
macro_rules! takes_not {
    ($memory:expr, $frame:ident, $registers:ident,
        $name:ident($places:expr; $($before:expr),*; $($after:expr),*)) => {{
        let (mut frame, mut given) = ($frame, $registers);
        let ended = $memory.$name(&mut frame, &mut given, $($before,)* $places $(, $after)*);
        let due = (Err(Error::Operand), $frame, $registers);
        assert_eq!((ended, frame, given), due, "{:?}", $places);
    }};
}

#[test]
fn places_that_a_load_does_not_take_are_refused_before_a_panic() {
    let heaps = opened();
    let mut host = Host::of(heaps.buffers());
    let (owned, lent) = (&heaps.memory, host.buffers_mut());
    // Without gas, and with an operand above the limit and without a tag, each of them would panic.
    let mut given = registers();
    given.set(1, Word([0, 0, 0, 1]));
    let (given, frame) = (given, Frame { gas: 0, ..FRAME });

    let pointer = |places: LoadCodes| {
        takes_not!(owned, frame, given, load_pointer(places;;));
        takes_not!(lent, frame, given, load_pointer(places;;));
    };
    let all = |places: LoadCodes| {
        takes_not!(owned, frame, given, load(places; Area::Heap;));
        takes_not!(lent, frame, given, load(places; Area::Heap;));
        takes_not!(owned, frame, given, load_static(places;;));
        takes_not!(lent, frame, given, load_static(places;;));
        pointer(places);
    };
    let right = LoadCodes::from(LOAD_POINTER);
    NO_SOURCE.into_iter().for_each(|source| all(LoadCodes { source, ..right }));
    for code in NO_REGISTER {
        pointer(LoadCodes { source: code, ..right });
        all(LoadCodes { dst0: code, ..right });
        all(LoadCodes { dst1: code, increment: false, ..right });
    }
}

#[test]
fn places_that_a_store_does_not_take_are_refused_before_a_panic() {
    let mut heaps = opened();
    let mut host = Host::of(heaps.buffers());
    let before = host.clone();
    let mut given = registers();
    given.set(1, Word([0, 0, 0, 1]));
    let (given, frame) = (given, Frame { gas: 0, ..FRAME });

    let right = StoreCodes::from(StorePlaces { source: FROM_1, ..STORE });
    let mut wrong: Vec<_> =
        NO_SOURCE.into_iter().map(|source| StoreCodes { source, ..right }).collect();
    for code in NO_REGISTER {
        wrong.push(StoreCodes { value: code, ..right });
        // A place is looked at even where nothing would be written to it.
        wrong.push(StoreCodes { dst0: code, increment: false, ..right });
        wrong.push(StoreCodes { dst1: code, ..right });
    }
    for places in wrong {
        takes_not!(heaps.memory, frame, given, store(places; Area::Heap; true, Some(0)));
        takes_not!(host.buffers_mut(), frame, given, store(places; Area::Heap; true, Some(0)));
        takes_not!(heaps.memory, frame, given, store_static(places;; true));
        takes_not!(host.buffers_mut(), frame, given, store_static(places;; true));
    }
    assert_eq!((Host::of(heaps.buffers()), &host), (before.clone(), &before));
}

#[test]
fn typed_places_that_an_instruction_does_not_take_are_refused() {
    let (mut heaps, (mut frame, mut given)) = (opened(), worked());
    let source = Source::Immediate(0);
    for number in [16, 255] {
        for places in [
            LoadPlaces { source: Source::Register(number), ..LOAD },
            LoadPlaces { dst0: number, ..LOAD },
            LoadPlaces { dst1: number, ..LOAD },
        ] {
            let loaded = on_both!(heaps, frame, given, load(Area::Aux, places));
            assert_eq!(loaded, Err(Error::Operand));
        }
        for places in [
            StorePlaces { source: Source::Register(number), ..STORE },
            StorePlaces { value: number, ..STORE },
            StorePlaces { dst0: number, ..STORE },
            StorePlaces { dst1: number, ..STORE },
        ] {
            let stored = on_both!(heaps, frame, given, store_static(places, Mode::Kernel));
            assert_eq!(stored, Err(Error::Operand));
        }
    }
    let loaded = on_both!(heaps, frame, given, load_pointer(LoadPlaces { source, ..LOAD }));
    assert_eq!(loaded, Err(Error::Operand));
    assert_eq!((frame, given), worked());
    // The largest immediate.
    let places = LoadPlaces { source: Source::Immediate(u16::MAX), ..LOAD };
    assert_eq!(on_both!(heaps, frame, given, load_static(places)), Ok(Outcome::Running));
    assert_eq!(small(&given, [3, 4]), [0, 65_567]);
}

#[test]
fn a_hook_stops_a_store_that_was_carried_out() {
    let (mut heaps, mut frame, mut given) = (opened(), FRAME, registers());
    given.set(2, 5);
    let places = StorePlaces { source: Source::Immediate(64), ..STORE };
    let stored = on_both!(heaps, frame, given, store(Area::Heap, places, Mode::User, Some(64)));
    assert_eq!(stored, Ok(Outcome::SuspendedOnHook(5)));
    assert_eq!(frame, Frame { gas: 4, heap_bound: 96, ..FRAME });
    assert_eq!(heaps.read_u256(HEAP, 64), Ok(Word::from(5)));
    assert_eq!((given.get(3), given.get(4)), (96.into(), 0.into()));

    // The hook is given what was stored: of this pointer, outside kernel mode, the offset alone.
    let pointer = FatPointer { offset: 6, memory_page: HEAP, start: 10, length: 0 };
    given.set(2, pointer);
    let stored = on_both!(heaps, frame, given, store(Area::Heap, places, Mode::User, Some(64)));
    assert_eq!(stored, Ok(Outcome::SuspendedOnHook(6)));
    let before = (frame, given);
    let stored = on_both!(heaps, frame, given, store(Area::Heap, places, Mode::Kernel, Some(64)));
    assert_eq!((stored, (frame, given)), (Err(Error::HookValue), before));
    assert_eq!(heaps.read_u256(HEAP, 64), Ok(Word::from(6)));
}

#[test]
fn registers_are_what_they_were_given() {
    let given = registers();
    assert_eq!((given.words()[15], given.pointer_flags()), (Word([15, 1, 2, 3]), 0b1_1010));
    assert_eq!(given.get(15), Word([15, 1, 2, 3]).into());
    assert_eq!(given.get(3), Operand { word: Word([3, 1, 2, 3]), tagged: true });
    let mut all = Registers::new([Word::ZERO; 16], u16::MAX);
    for register in 1..16 {
        all.set(register, 7);
    }
    assert_eq!((all.pointer_flags(), all.get(15)), (1, 7.into()));
    assert_eq!(Registers::default(), Registers::new([Word::ZERO; 16], 0));
}

#[test]
#[should_panic = "EraVM has 16 registers"]
fn there_is_no_register_16_to_read() {
    Registers::default().get(16);
}

#[test]
#[should_panic = "EraVM has 16 registers"]
fn there_is_no_register_16_to_write() {
    Registers::default().set(16, 0);
}

#[test]
fn outputs_of_refused_calls_are_as_they_were() {
    let heaps = opened();
    assert_eq!(put(|out| ffi::read_u256_partially(heaps.buffers(), 66, 0..33, out)), 8);
    assert_eq!(heaps.read_u256_partially(HEAP, 0..33), Err(Error::Range));
    assert_eq!(put(|out| ffi::heap_page_from_base(u32::MAX, out)), 4);
    assert_eq!(put(|out| ffi::aux_heap_page_from_base(u32::MAX, out)), 4);
    assert_eq!(put(|out| ffi::base_page_from_heap(1, out)), 4);
    assert_eq!(put(|out| ffi::next_page_group(u32::MAX, 1, out)), 4);
    assert_eq!(put(|out| ffi::decode([1, 1, 5, 6, 64, 8], 66, out)), 1);
    assert_eq!(put(|out| ffi::quote(&[0; 4097], 0, 0, out)), 8);
}

/// Addresses, gas and bound; then the gas spent, the bound reached and the position.
type Quoted = (&'static [u32], u32, u32, (u32, u32, usize));

const LAST_ADDRESS: u32 = 4_294_967_263;
const FOUR: &[u32] = &[4064, 4065, 0, 4070];

const QUOTED: [Quoted; 16] = [
    // These pay 0, 1, 0 and 5.
    (FOUR, 10, 4096, (6, 4102, 4)),
    (FOUR, 6, 4096, (6, 4102, 4)),
    (FOUR, 5, 4096, (5, 4097, 3)),
    (&[4064], 0, 4096, (0, 4096, 1)),
    (&[4065], 0, 4096, (0, 4096, 0)),
    (&[], 7, 4096, (0, 4096, 0)),
    (&[0, 4065, 64], 9, 4096, (1, 4097, 3)),
    // The operand limit.
    (&[LAST_ADDRESS], u32::MAX, 0, (u32::MAX, u32::MAX, 1)),
    (&[LAST_ADDRESS + 1], 7, 0, (7, 0, 0)),
    (&[0, u32::MAX], 100, 0, (100, 32, 1)),
    // The bootloader has paid for all.
    (&[LAST_ADDRESS], 7, u32::MAX, (0, u32::MAX, 1)),
    (&[LAST_ADDRESS + 1], 7, u32::MAX, (7, u32::MAX, 0)),
    // The longest list.
    (&[0; 4096], 32, 0, (32, 32, 4096)),
    (&[0; 4096], 31, 0, (31, 0, 0)),
    // The order counts.
    (&[32, 0], 40, 0, (40, 0, 0)),
    (&[0, 32], 40, 0, (40, 32, 1)),
];

/// What loads of these addresses come to, one after another, up to the first that panics.
fn loaded(heaps: &Heaps, area: Area, addresses: &[u32], gas: u32, bound: u32) -> Quote {
    let (heap_bound, aux_bound) = if area.is_aux() { (5, bound) } else { (bound, 5) };
    let aux = PageId(67);
    let mut frame = Frame { gas, heap: HEAP, aux, heap_bound, aux_bound, panicked: false };
    let (mut given, places) = (Registers::default(), LoadPlaces { source: FROM_1, ..LOAD });
    let panic = addresses.iter().position(|address| {
        given.set(1, *address);
        heaps.load(&mut frame, &mut given, area, places).unwrap() == Outcome::Panicked
    });
    let (bound, other) = if area.is_aux() {
        (frame.aux_bound, frame.heap_bound)
    } else {
        (frame.heap_bound, frame.aux_bound)
    };
    assert_eq!((frame.heap, frame.aux, other), (HEAP, aux, 5));
    let position = panic.unwrap_or(addresses.len());
    Quote { spent: gas - frame.gas, bound, position, panics: frame.panicked }
}

#[test]
fn quotes_are_what_loads_come_to() {
    let heaps = opened();
    for (addresses, gas, bound, (spent, reached, position)) in QUOTED {
        let panics = position < addresses.len();
        let due = Quote { spent, bound: reached, position, panics };
        let shown = &addresses[..addresses.len().min(4)];
        let asked = format!("{shown:?} and so on, gas {gas}, bound {bound}");
        assert_eq!(quote(addresses, gas, bound), Ok(due), "{asked}");
        for area in [Area::Heap, Area::Aux] {
            assert_eq!(loaded(&heaps, area, addresses, gas, bound), due, "{asked}, {area:?}");
        }
    }
}

#[test]
fn quotes_of_more_than_4096_addresses_are_refused_before_any_is_looked_at() {
    for (address, gas, bound) in [(0, u32::MAX, 0), (0, 0, 0), (u32::MAX, 0, u32::MAX)] {
        assert!(quote(&[address; 4096], gas, bound).is_ok());
        for length in [4097, 4098, 65_536, 65_537] {
            assert_eq!(quote(&vec![address; length], gas, bound), Err(Error::Range));
        }
    }
}

#[test]
fn openings_are_refused_by_layout_then_counts_then_room() {
    let open = |layout, chunks, pages, journal_words, calldata: &[u8]| {
        Heaps::open(layout, Capacity { chunks, pages, journal_words }, calldata).err()
    };
    let equal = Layout { calldata: PageId(1), ..LAYOUT };
    let narrow = Layout { stride: 3, ..LAYOUT };
    for layout in [equal, narrow] {
        assert_eq!(open(layout, 0, 0, u32::MAX, &[]), Some(Error::Layout));
    }
    for (chunks, pages, words) in [(0, 1, 0), (65_537, 1, 0), (1, 0, 0), (1, 4_097, 0)] {
        assert_eq!(open(LAYOUT, chunks, pages, words, &[]), Some(Error::Sizes));
    }
    assert_eq!(open(LAYOUT, 1, 1, 65_537, &[]), Some(Error::Sizes));
    assert_eq!(open(LAYOUT, u32::MAX, u32::MAX, u32::MAX, &[]), Some(Error::Sizes));
    assert_eq!(open(LAYOUT, 1, 1, 0, &[1; 257]), Some(Error::NoChunk));
    assert_eq!(open(LAYOUT, 1, 1, 0, &[1; 256]), None);
    assert_eq!(open(LAYOUT, 65_536, 4_096, 65_536, &[]), None);
}

#[test]
fn a_refused_reopening_keeps_the_memory() {
    let mut heaps = opened();
    let before = heaps.clone();
    assert_eq!(heaps.reopen(Layout { stride: 0, ..LAYOUT }, &[]), Err(Error::Layout));
    assert_eq!(heaps.reopen(LAYOUT, &[1; 1025]), Err(Error::NoChunk));
    assert_eq!(heaps.buffers(), before.buffers());
    heaps.reopen(LAYOUT, &[5; 1024]).unwrap();
    assert_eq!((heaps.usage().chunks, heaps.dynamic_len()), (4, Ok(0)));
    assert_eq!((heaps.layout(), heaps.capacity()), (LAYOUT, CAPACITY));
}

#[test]
fn a_clone_is_a_memory_of_its_own() {
    let mut heaps = opened();
    let mut copy = heaps.clone();
    copy.write_u256(HEAP, 0, Word::from(1)).unwrap();
    assert_eq!(heaps.read_u256(HEAP, 0), Ok(Word::ZERO));
    assert_eq!(heaps.equal(&copy), Ok(false));
    heaps.clone_from(&copy);
    assert_eq!(heaps.equal(&copy), Ok(true));
    let mut larger = Heaps::open(LAYOUT, Capacity { chunks: 9, ..CAPACITY }, &[]).unwrap();
    larger.clone_from(&copy);
    assert_eq!((larger.capacity(), larger.check()), (CAPACITY, Ok(())));
    assert_eq!(larger.buffers(), copy.buffers());
}

#[test]
fn usage_is_what_is_in_use() {
    let mut heaps = opened();
    let usage = heaps.usage();
    assert_eq!((usage.chunks, usage.pages), (3, 1));
    assert_eq!((usage.heap_journal, usage.aux_journal), (2, 0));
    heaps.rollback(Snapshot { heap: 1, aux: 0 }).unwrap();
    assert_eq!(heaps.usage().heap_journal, 1);
    assert_eq!(heaps.rollback(Snapshot { heap: 2, aux: 0 }), Err(Error::BadMark));
}

#[test]
fn errors_have_their_numbers_and_words_their_bytes() {
    for (at, error) in Error::ALL.into_iter().enumerate() {
        assert_eq!(usize::from(error.number()), at + 1);
        assert!(error.to_string().starts_with(&format!("{}: ", at + 1)));
    }
    let word = Word([1, 2, 3, 0xff << 56]);
    assert_eq!(Word::from_big_endian(&word.to_big_endian()), word);
    assert_eq!(word.to_big_endian()[0], 0xff);
    assert_eq!(format!("{:?}", Word([0, 1, 0, 0])), "Word(0x10000000000000000)");
}

#[test]
fn a_frame_is_what_it_was_given() {
    let frame = Frame {
        gas: 1,
        heap: PageId(2),
        aux: PageId(3),
        heap_bound: 4,
        aux_bound: 5,
        panicked: true,
    };
    assert_eq!(frame.numbers(), [1, 2, 3, 4, 5, 1]);
    assert_eq!(Frame::of(frame.numbers()), frame);
}
