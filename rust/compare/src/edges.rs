//! Document 01's edges, as one list of calls for each layout: chunk edges, the top of a page, windows, pointers, bounds, the
//! hook, marks, and the refusals of pages. Random lists come near all of them, but need not meet each on every layout.
//! A second list for each layout has runs of loads and stores, each given the frame that the last one left.

use oracle::{Area, Call, Frame, HeapInstruction, Kind, Layout, Op, Operand, PageIds, Place, Word};

use crate::{
    generate::pattern,
    list::{Handed, Step},
    model::{place, Model},
    ours::LAST_CHUNK,
};

const LAST_BYTE: u32 = u32::MAX;
/// The highest operand that loads and stores take.
const LAST_OPERAND: u64 = 4_294_967_263;
const FREE: Frame = Frame { gas: u32::MAX, heap: 0, aux: 0, heap_bound: 0, aux_bound: 0 };

/// Heap and aux heap of the first group.
pub fn first_group(layout: &Layout) -> [u32; 2] {
    [Kind::Heap, Kind::Aux].map(|kind| {
        let place = Place::Dynamic { group: 0, kind };
        layout.id(place).expect("every layout has a group 0")
    })
}

/// An id that is no page.
pub fn no_page(layout: &Layout) -> u32 {
    let no_page = (0..).find(|page| place(layout, *page).is_none());
    no_page.expect("every layout has ids that are no pages")
}

/// The calls, all on the first memory.
pub fn edges(layout: &Layout) -> Vec<Step> {
    let [heap, aux] = first_group(layout);
    let mut calls = pages(layout, heap);
    for page in [layout.bootloader_heap, layout.static_memory, heap] {
        calls.extend(words(page));
    }
    calls.extend(ranges(heap));
    calls.extend(instructions(Frame { heap, aux, ..FREE }));
    calls.extend(pointers(Frame { heap, aux, ..FREE }, heap));
    calls.extend(windows(heap));
    calls.extend(history(layout));
    calls.extend(top(layout.bootloader_aux));
    calls.extend(top(heap));
    calls.into_iter().map(|call| Step { memory: 0, call, marked: false }).collect()
}

fn value(low: u64) -> Word {
    Word([low, 2, 3, 1 << 63])
}

/// Refusals 4 to 7 and 13, and the arithmetic of page ids at the ends of 32 bits.
fn pages(layout: &Layout, heap: u32) -> Vec<Call> {
    let none = layout.base.wrapping_add(1);
    let mut calls = vec![
        Call::AllocateAt { page: layout.calldata },
        Call::Deallocate { page: layout.static_memory },
        Call::AllocateAt { page: none },
        Call::Deallocate { page: none },
        Call::WriteBytes { page: none, start: 0, bytes: Vec::new() },
        Call::WriteU256 { page: none, address: 0, value: value(1) },
        Call::ReadU256 { page: none, address: 0 },
        Call::Deallocate { page: heap },
        Call::TruncateDynamicTo { len: 1 },
        Call::WriteBytes { page: heap, start: LAST_BYTE, bytes: Vec::new() },
        Call::AllocateAt { page: heap },
        Call::DynamicLen,
        Call::TruncateDynamicTo { len: 1 },
        Call::Deallocate { page: heap },
        Call::TruncateDynamicTo { len: 0 },
        Call::AllocateWithContentAt { page: heap, content: pattern(257, 1) },
        Call::Deallocate { page: heap },
    ];
    for base in [u32::MAX - 3, u32::MAX - 2, u32::MAX - 1, u32::MAX] {
        calls.push(Call::PageIds(PageIds::HeapPageFromBase(base)));
        calls.push(Call::PageIds(PageIds::AuxHeapPageFromBase(base)));
    }
    for page in [0, 1, 2] {
        calls.push(Call::PageIds(PageIds::BasePageFromHeap(page)));
    }
    let last = u32::MAX - layout.stride;
    for base in [last, last.wrapping_add(1)] {
        calls.push(Call::PageIds(PageIds::NextPageGroup(base)));
    }
    calls
}

/// Words at the edges of the first chunks, and what stands on both sides of an edge.
fn words(page: u32) -> Vec<Call> {
    let mut calls = Vec::new();
    for address in [0, 224, 225, 255, 256] {
        calls.push(Call::WriteU256 { page, address, value: value(u64::from(address) + 1) });
        calls.push(Call::ReadU256 { page, address });
    }
    for address in [224, 256] {
        calls.push(Call::ReadU256 { page, address });
    }
    calls.push(Call::ReadByte { page, address: 255 });
    calls
}

/// Reads of ranges: whole, too long, empty and reversed.
fn ranges(page: u32) -> Vec<Call> {
    let mut calls = vec![Call::WriteBytes { page, start: 250, bytes: pattern(100, 3) }];
    for (start, end) in [(250, 282), (250, 283), (300, 300), (301, 300), (240, 261)] {
        calls.push(Call::ReadU256Partially { page, start, end });
        calls.push(Call::ReadRangeBigEndian { page, start, end });
    }
    calls
}

fn run(frame: Frame, instruction: HeapInstruction) -> Call {
    instruction.on(frame)
}

/// An instruction whose operand is this number, without a tag.
fn on(op: Op, low: u64, value: Word) -> HeapInstruction {
    let operand = Operand::Register { word: Word([low, 0, 0, 0]), tagged: false };
    HeapInstruction::on_operands(op, operand, value)
}

pub fn store(area: Area, low: u64, value: Word, hook: Option<u32>) -> HeapInstruction {
    on(Op::Store { area, hook }, low, value)
}

fn load(area: Area, low: u64) -> HeapInstruction {
    on(Op::Load(area), low, Word::default())
}

fn load_static(low: u64) -> HeapInstruction {
    on(Op::LoadStatic, low, Word::default())
}

pub fn store_static(low: u64, value: Word) -> HeapInstruction {
    on(Op::StoreStatic, low, value)
}

fn load_pointer(word: Word, tagged: bool) -> HeapInstruction {
    let operand = Operand::Register { word, tagged };
    HeapInstruction::on_operands(Op::LoadPointer, operand, Word::default())
}

/// The operand limit, the bounds of document 01, and the hook.
fn instructions(frame: Frame) -> Vec<Call> {
    let mut calls = Vec::new();
    for low in [LAST_OPERAND, LAST_OPERAND + 1] {
        calls.push(run(frame, load(Area::Heap, low)));
        calls.push(run(frame, load(Area::Aux, low)));
        calls.push(run(frame, load_static(low)));
    }
    for low in [LAST_OPERAND, LAST_OPERAND + 1] {
        calls.push(run(frame, store(Area::Heap, low, value(5), None)));
        calls.push(run(frame, store(Area::Aux, low, value(5), None)));
        calls.push(run(frame, store_static(low, value(6))));
    }
    for gas in [1, 0] {
        let paid = Frame { gas, heap_bound: 4096, aux_bound: 4096, ..frame };
        for low in [4064, 4065] {
            calls.push(run(paid, store(Area::Heap, low, value(low), None)));
            calls.push(run(paid, load(Area::Aux, low)));
        }
    }
    let fits = Word([u64::from(u32::MAX), 0, 0, 0]);
    for (word, hook) in [(fits, 96), (fits, 97), (Word([1 << 32, 0, 0, 0]), 96), (value(0), 95)] {
        calls.push(run(frame, store(Area::Heap, 96, word, Some(hook))));
    }
    calls
}

/// Offsets at the end of a pointer and past the limit, its end at and past 32 bits, and no tag.
fn pointers(frame: Frame, page: u32) -> Vec<Call> {
    let pointer = |offset: u32, start: u32, length: u32, tagged| {
        let low = u64::from(page) << 32 | u64::from(offset);
        let word = Word([low, u64::from(length) << 32 | u64::from(start), 9, 9]);
        run(frame, load_pointer(word, tagged))
    };
    let limit = LAST_OPERAND as u32;
    vec![
        pointer(3, 10, 5, true),
        pointer(5, 10, 5, true),
        pointer(6, 10, 5, true),
        pointer(0, 240, 40, true),
        pointer(0, 10, 5, false),
        pointer(limit, 10, 5, true),
        pointer(limit + 1, 10, 5, true),
        pointer(0, 1, u32::MAX - 1, true),
        pointer(0, 1, u32::MAX, true),
        pointer(limit + 1, 1, u32::MAX, true),
        pointer(u32::MAX - 40, 40, u32::MAX - 40, true),
    ]
}

/// Document 01's windows, an empty one, and those that end at and past 32 bits.
fn windows(page: u32) -> Vec<Call> {
    let mut calls = Vec::new();
    for (start, length) in [(256, 256), (256, 257), (300, 300), (0, 1), (0, u32::MAX), (300, 0)] {
        calls.push(Call::WriteBytes { page, start: 0, bytes: pattern(1024, 7) });
        calls.push(Call::CompactToWindow { page, start, length });
        calls.extend((0..4).map(|number| Call::Chunk { page, number }));
    }
    calls
}

/// A snapshot, two writes that overlap, a byte write over three words, and rollbacks, one past each journal.
fn history(layout: &Layout) -> Vec<Call> {
    let [heap, aux] = [layout.bootloader_heap, layout.bootloader_aux];
    vec![
        Call::DeleteHistory,
        Call::WriteU256 { page: heap, address: 0, value: value(1) },
        Call::Snapshot,
        Call::WriteU256 { page: heap, address: 16, value: value(2) },
        Call::WriteU256 { page: heap, address: 0, value: value(3) },
        Call::WriteBytes { page: aux, start: 31, bytes: pattern(34, 9) },
        Call::Rollback { heap: 4, aux: 0 },
        Call::Rollback { heap: 1, aux: 4 },
        Call::Rollback { heap: 1, aux: 0 },
        Call::ReadU256 { page: heap, address: 0 },
        Call::ReadU256 { page: heap, address: 16 },
        Call::ReadU256 { page: aux, address: 31 },
        Call::Rollback { heap: 1, aux: 0 },
        Call::Snapshot,
    ]
}

/// The last words and bytes of a page.
fn top(page: u32) -> Vec<Call> {
    vec![
        Call::WriteBytes { page, start: LAST_BYTE, bytes: pattern(2, 1) },
        Call::WriteBytes { page, start: LAST_BYTE, bytes: pattern(1, 1) },
        Call::ReadByte { page, address: LAST_BYTE },
        Call::WriteU256 { page, address: LAST_BYTE - 31, value: value(8) },
        Call::WriteU256 { page, address: LAST_BYTE, value: value(9) },
        Call::ReadU256 { page, address: LAST_BYTE - 31 },
        Call::ReadU256 { page, address: LAST_BYTE },
        Call::ReadRangeBigEndian { page, start: LAST_BYTE - 9, end: LAST_BYTE },
        Call::ReadU256Partially { page, start: LAST_BYTE - 32, end: LAST_BYTE },
        Call::Chunk { page, number: LAST_CHUNK },
        Call::Chunk { page, number: LAST_CHUNK - 1 },
        Call::CompactToWindow { page, start: 2, length: u32::MAX },
        Call::Chunk { page, number: LAST_CHUNK },
        Call::CompactToWindow { page, start: 0, length: u32::MAX },
        Call::Chunk { page, number: LAST_CHUNK },
    ]
}

/// An instruction, and the frame that it is given; none where that is the frame that the instruction
/// before it left.
pub type Link = (Option<Frame>, HeapInstruction);

/// Runs of loads and stores, with what may come between them. They are no part of the stored answers.
pub fn runs(layout: &Layout) -> Vec<Link> {
    let [heap, aux] = first_group(layout);
    let frame = Frame { gas: 1000, heap, aux, ..FREE };
    let no_page = no_page(layout);
    let mut links = Vec::from(worked(heap, aux));
    for (area, other) in [(Area::Heap, Area::Aux), (Area::Aux, Area::Heap)] {
        let free = Frame { heap, aux, ..FREE };
        links.extend(linked(free, largest_at_once(area, other)));
        links.extend(linked(free, largest_by_steps(area)));
    }
    let met = Frame { gas: 7, heap_bound: u32::MAX, aux_bound: u32::MAX, ..frame };
    links.extend(linked(met, nothing_due()));
    links.extend(linked(Frame { aux: heap, ..frame }, both_areas()));
    links.extend(linked(Frame { heap: no_page, ..frame }, both_areas()));
    links.extend(linked(Frame { aux: no_page, ..frame }, both_areas()));
    links.extend(linked(frame, stops()));
    links.extend(linked(frame, between(heap)));
    for ending in endings() {
        links.extend(linked(Frame { gas: 40, ..frame }, ending));
    }
    links.extend(linked(frame, both_areas()));
    links
}

/// Puts the calls to the two memories in turn: a run may use several memories.
pub fn steps(links: Vec<Link>) -> impl FnMut(&[Model; 2], Option<Handed>) -> Option<Step> {
    let mut links = links.into_iter().zip([0, 1].into_iter().cycle());
    move |_, left| {
        let ((first, instruction), memory) = links.next()?;
        let first = first.map(|frame| Handed { frame, marked: false });
        let Handed { frame, marked } = first.or(left).expect("the instruction before left a frame");
        Some(Step { memory, call: run(frame, instruction), marked })
    }
}

/// Instructions of which each after the first is given the frame that the one before it left.
fn linked(
    first: Frame,
    instructions: impl IntoIterator<Item = HeapInstruction>,
) -> impl Iterator<Item = Link> {
    let mut first = Some(first);
    instructions.into_iter().map(move |instruction| (first.take(), instruction))
}

/// Charges of 0, 32, 1, 0, 100 and 0: the heap's bound ends at 4097, the aux heap's at 132, and 867
/// gas is left. The second store stops on the hook.
pub fn worked(heap: u32, aux: u32) -> [Link; 6] {
    let frame = Frame { gas: 1000, heap, aux, heap_bound: 4096, aux_bound: 0 };
    [
        (Some(frame), load(Area::Heap, 4064)),
        (None, store(Area::Aux, 0, 7.into(), None)),
        (None, load(Area::Heap, 4065)),
        (None, store(Area::Heap, 10, 7.into(), Some(10))),
        (None, load(Area::Aux, 100)),
        (None, load(Area::Aux, 50)),
    ]
}

/// The largest charge that there is. What follows costs nothing, up to a panic in the other area.
fn largest_at_once(area: Area, other: Area) -> [HeapInstruction; 4] {
    [
        load(area, LAST_OPERAND),
        store(area, 0, value(3), None),
        load(area, LAST_OPERAND),
        load(other, 0),
    ]
}

/// The largest sum, by charges that are small at both ends.
fn largest_by_steps(area: Area) -> [HeapInstruction; 5] {
    [
        load(area, 0),
        store(area, 1, value(4), None),
        load(area, LAST_OPERAND - 1),
        load(area, LAST_OPERAND),
        load(area, LAST_OPERAND),
    ]
}

fn nothing_due() -> [HeapInstruction; 4] {
    [
        load(Area::Heap, LAST_OPERAND),
        store(Area::Aux, 0, value(5), None),
        load(Area::Aux, LAST_OPERAND),
        store(Area::Heap, 64, value(6), None),
    ]
}

/// Charges in both areas. On an id that is no page the loads pay, and the stores are refused.
fn both_areas() -> [HeapInstruction; 6] {
    [
        load(Area::Heap, 0),
        store(Area::Aux, 33, value(7), None),
        store(Area::Heap, 64, value(8), None),
        load(Area::Aux, 34),
        load(Area::Heap, 65),
        load(Area::Aux, 2),
    ]
}

/// A stop on the hook, and a refused one.
fn stops() -> [HeapInstruction; 5] {
    let [fits, too_great] = [u64::from(u32::MAX), 1 << 32].map(|low| Word([low, 0, 0, 0]));
    [
        load(Area::Aux, 9),
        store(Area::Heap, 40, fits, Some(40)),
        store(Area::Heap, 80, too_great, Some(80)),
        load(Area::Heap, 41),
        store(Area::Aux, 10, value(9), None),
    ]
}

/// Static and pointer instructions, which leave the frame as it is.
fn between(page: u32) -> [HeapInstruction; 6] {
    let pointer = Word([u64::from(page) << 32 | 3, 40 << 32, 0, 0]);
    [
        load(Area::Heap, 0),
        load_static(5000),
        load(Area::Heap, 1),
        store_static(5000, value(10)),
        load_pointer(pointer, true),
        store(Area::Aux, 10, value(11), None),
    ]
}

/// Panics that end a run: by the gas, by the operand, and of a pointer without a tag.
fn endings() -> [[HeapInstruction; 3]; 3] {
    let untagged = load_pointer(value(0), false);
    let ends = [load(Area::Heap, 9), load(Area::Aux, LAST_OPERAND + 1), untagged];
    ends.map(|end| [load(Area::Heap, 0), store(Area::Heap, 8, value(12), None), end])
}
