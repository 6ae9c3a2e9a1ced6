//! The library's answers, in the terms in which vm2's are given.

use std::{collections::BTreeSet, ops::Range};

use oracle::{
    Answer, Area, Call, HeapInstruction, Kind, Left, Op, PageIds, Place, Places, Pointer,
};
use zincpapaya::{
    aux_heap_page_from_base, base_page_from_heap, code_page_from_base, heap_page_from_base,
    raw::{Instructions, LoadCodes, StoreCodes},
    Buffers, Capacity, DecodedPage, Error, FatPointer, Frame, Layout, Outcome, PageId, PartialWord,
    PointerOutcome, Registers, Snapshot, Word,
};

use crate::both::{on_both, same, Both};

/// An answer, and what vm2's does not have.
#[derive(Debug, PartialEq)]
pub struct Given {
    pub answer: Answer,
    /// How many bytes came from the range, of a partial read and of a pointer load that was carried out.
    pub bytes_read: Option<u64>,
}

/// An answer without such a number.
impl From<Answer> for Given {
    fn from(answer: Answer) -> Self {
        Self { answer, bytes_read: None }
    }
}

/// What the library answered.
#[derive(Debug, PartialEq)]
pub enum Reply {
    Answer(Given),
    /// A refusal, by its number.
    Refused(u8),
    /// Something that no answer of vm2's can be compared with, and that is wrong by itself.
    Wrong(String),
}

impl Reply {
    /// Whether this is vm2's answer. The number of bytes is compared elsewhere.
    pub fn agrees_with(&self, theirs: &Answer) -> bool {
        match (theirs, self) {
            (Answer::RustPanic(panic), Self::Refused(number)) => panic.refusal == Some(*number),
            (Answer::RustPanic(_) | Answer::NotRun(_), _) => false,
            (theirs, Self::Answer(ours)) => *theirs == ours.answer,
            _ => false,
        }
    }

    /// How many bytes came from the range, where the library tells it.
    pub fn bytes_read(&self) -> Option<u64> {
        match self {
            Self::Answer(given) => given.bytes_read,
            Self::Refused(_) | Self::Wrong(_) => None,
        }
    }
}

impl From<Error> for Reply {
    fn from(error: Error) -> Self {
        Self::Refused(error.number())
    }
}

type Replied = Result<Given, Reply>;
type Answered = Result<Answer, Reply>;

pub fn layout(layout: &oracle::Layout) -> Layout {
    Layout {
        static_memory: PageId(layout.static_memory),
        calldata: PageId(layout.calldata),
        bootloader_heap: PageId(layout.bootloader_heap),
        bootloader_aux: PageId(layout.bootloader_aux),
        base: layout.base,
        stride: layout.stride,
    }
}

fn theirs(word: Word) -> Answer {
    Answer::Word(oracle::Word(word.0))
}

/// Answers a call on memory `at`, where the owned one and the lent one answer the same. A frame enters
/// with its mark set where `marked` says so.
pub fn answer(memories: &mut [Both; 2], at: usize, call: &Call, marked: bool) -> Reply {
    let answered = match call {
        Call::Compare { other } => {
            memories[at].equal(&memories[*other]).map(|equal| Answer::Equal(equal).into())
        }
        Call::ReadU256Partially { page, start, end } => {
            partial(&mut memories[at], PageId(*page), *start..*end)
        }
        Call::UseGas { frame, .. }
        | Call::GrowHeap { frame, .. }
        | Call::Instruction { frame, .. } => {
            framed(&mut memories[at], &our_frame(frame, marked), call)
        }
        _ if call.changes() => change(&mut memories[at], call).map(Given::from),
        _ => {
            let layout = memories[at].owned.layout();
            let answered = read(&mut memories[at], call).or_else(|| apart(&layout, call));
            answered.expect("a call").map(Given::from)
        }
    };
    answered.map_or_else(|refused| refused, Reply::Answer)
}

/// What stands in an output before a call.
pub const UNWRITTEN: u8 = 0xa5;

/// The bytes of a range, put into outputs of ours and into outputs that the memories make.
fn range(both: &mut Both, page: PageId, range: Range<u32>) -> Result<Vec<u8>, Reply> {
    let [mut owned, mut lent] = [0, 1].map(|_| vec![UNWRITTEN; range.len()]);
    let read = both.owned.read_range_into(page, range.clone(), &mut owned);
    let on_lent = both.lend().read_range_into(page, range.clone(), &mut lent);
    let put = same(read.map(|()| owned), on_lent.map(|()| lent))?;
    let made = on_both!(both => read_range_big_endian(page, range.clone()))?;
    if put != made {
        return Err(Reply::Wrong(format!("a range read puts out {put:?}, and makes {made:?}")));
    }
    Ok(made)
}

fn partial(both: &mut Both, page: PageId, range: Range<u32>) -> Replied {
    let read = on_both!(both => read_u256_partially(page, range.clone()))?;
    let PartialWord { word, bytes_read } = read;
    Ok(Given { answer: theirs(word), bytes_read: Some(bytes_read as u64) })
}

/// Calls that only look at a memory, except partial reads.
fn read(both: &mut Both, call: &Call) -> Option<Answered> {
    Some(match *call {
        Call::ReadU256 { page, address } => {
            on_both!(both => read_u256(PageId(page), address)).map(theirs)
        }
        Call::ReadRangeBigEndian { page, start, end } => {
            range(both, PageId(page), start..end).map(Answer::Bytes)
        }
        Call::ReadByte { page, address } => {
            on_both!(both => read_byte(PageId(page), address)).map(Answer::Byte)
        }
        Call::Chunk { page, number } => chunk(both, page, number),
        Call::DynamicLen => on_both!(both => dynamic_len()).map(Answer::Number),
        Call::Snapshot => on_both!(both => snapshot())
            .map(|Snapshot { heap, aux }| Answer::Snapshot { heap, aux }),
        _ => return None,
    })
}

/// The chunk number of the last byte that a word can reach.
pub const LAST_CHUNK: u32 = 1 << 24;
/// Bytes of that chunk that a word can reach.
const REACHED: usize = 31;

/// A chunk; of the last one the bytes that vm2 can show, the others being zero.
fn chunk(both: &mut Both, page: u32, number: u32) -> Answered {
    let bytes = on_both!(both => chunk(PageId(page), number))?;
    if number != LAST_CHUNK {
        return Ok(Answer::Bytes(bytes.to_vec()));
    }
    let (reached, rest) = bytes.split_at(REACHED);
    if rest.iter().any(|byte| *byte != 0) {
        return Err(Reply::Wrong("the last chunk has a byte that no word reaches".into()));
    }
    Ok(Answer::Bytes(reached.to_vec()))
}

/// Calls that may change a memory, but for the instructions.
fn change(both: &mut Both, call: &Call) -> Answered {
    match call {
        Call::Open { calldata } => both.reopen(both.owned.layout(), calldata)?,
        Call::AllocateAt { page } => {
            on_both!(both => allocate_at(PageId(*page)))?;
            // vm2 gives the page back.
            return Ok(Answer::Number((*page).into()));
        }
        Call::AllocateWithContentAt { page, content } => {
            on_both!(both => allocate_with_content_at(PageId(*page), content))?;
            return Ok(Answer::Number((*page).into()));
        }
        Call::Deallocate { page } => on_both!(both => deallocate(PageId(*page)))?,
        Call::WriteU256 { page, address, value } => {
            on_both!(both => write_u256(PageId(*page), *address, Word(value.0)))?;
        }
        Call::WriteBytes { page, start, bytes } => {
            on_both!(both => write_bytes(PageId(*page), *start, bytes))?;
        }
        Call::CompactToWindow { page, start, length } => {
            on_both!(both => compact_to_window(PageId(*page), *start, *length))?;
        }
        Call::TruncateDynamicTo { len } => on_both!(both => truncate_dynamic_to(*len))?,
        Call::Rollback { heap, aux } => {
            on_both!(both => rollback(Snapshot { heap: *heap, aux: *aux }))?;
        }
        Call::DeleteHistory => on_both!(both => delete_history())?,
        _ => unreachable!("this call changes nothing"),
    }
    Ok(Answer::Done)
}

/// Calls that take no memory.
fn apart(layout: &Layout, call: &Call) -> Option<Answered> {
    Some(match *call {
        Call::Decode { page } => {
            let decoded = layout.decode(PageId(page));
            decoded.map(|page| Answer::Decoded(page.map(place))).map_err(Reply::from)
        }
        Call::PageIds(of) => {
            let page = page_number(layout, of).map_err(Reply::from);
            page.map(|page| Answer::Number(page.into()))
        }
        Call::FatPointerFrom { word } => {
            let FatPointer { offset, memory_page, start, length } = Word(word.0).into();
            Ok(Answer::Pointer(Pointer { offset, page: memory_page.0, start, length }))
        }
        Call::FatPointerInto { pointer: Pointer { offset, page, start, length } } => {
            let pointer = FatPointer { offset, memory_page: PageId(page), start, length };
            Ok(theirs(pointer.into_u256()))
        }
        _ => return None,
    })
}

fn place(page: DecodedPage) -> Place {
    let dynamic = |group, kind| Place::Dynamic { group, kind };
    match page {
        DecodedPage::Code { group } => dynamic(group, Kind::Code),
        DecodedPage::Heap { group } => dynamic(group, Kind::Heap),
        DecodedPage::Aux { group } => dynamic(group, Kind::Aux),
        DecodedPage::Static => Place::Static,
        DecodedPage::Calldata => Place::Calldata,
        DecodedPage::BootloaderHeap => Place::BootloaderHeap,
        DecodedPage::BootloaderAux => Place::BootloaderAux,
    }
}

fn page_number(layout: &Layout, of: PageIds) -> Result<u32, Error> {
    Ok(match of {
        PageIds::StaticMemoryPage => layout.static_memory.0,
        PageIds::BootloaderCalldataPage => layout.calldata.0,
        PageIds::BootloaderHeapPage => layout.bootloader_heap.0,
        PageIds::BootloaderAuxHeapPage => layout.bootloader_aux.0,
        PageIds::HeapPageFromBase(base) => heap_page_from_base(base)?.0,
        PageIds::AuxHeapPageFromBase(base) => aux_heap_page_from_base(base)?.0,
        PageIds::CodePageFromBase(base) => code_page_from_base(base)?.0,
        PageIds::BasePageFromHeap(page) => base_page_from_heap(PageId(page))?,
        PageIds::FirstDynamicBasePage => layout.base,
        PageIds::NextPageGroup(base) => layout.next_page_group(base)?,
    })
}

pub fn our_frame(frame: &oracle::Frame, panicked: bool) -> Frame {
    let oracle::Frame { gas, heap, aux, heap_bound, aux_bound } = *frame;
    Frame { gas, heap: PageId(heap), aux: PageId(aux), heap_bound, aux_bound, panicked }
}

fn their_frame(frame: &Frame) -> oracle::Frame {
    let Frame { gas, heap, aux, heap_bound, aux_bound, .. } = *frame;
    oracle::Frame { gas, heap: heap.0, aux: aux.0, heap_bound, aux_bound }
}

fn our_area(area: Area) -> zincpapaya::Area {
    match area {
        Area::Heap => zincpapaya::Area::Heap,
        Area::Aux => zincpapaya::Area::Aux,
    }
}

pub fn our_registers(registers: &oracle::Registers) -> Registers {
    Registers::new(registers.words.map(|word| Word(word.0)), registers.flags)
}

fn their_registers(registers: &Registers) -> oracle::Registers {
    // vm2 has 16 bits of flags. The library has 64, and no instruction may set one of the others.
    let narrow = Registers::new(*registers.words(), registers.pointer_flags());
    assert_eq!(*registers, narrow, "a flag above those of the sixteen registers is set");
    let words = registers.words().map(|word| oracle::Word(word.0));
    oracle::Registers { words, flags: registers.pointer_flags() }
}

/// Calls with a frame. What vm2's frame does not have is looked at here: the mark is set by a panic
/// and by nothing else, and a refusal changes no field and no register.
fn framed(both: &mut Both, entered: &Frame, call: &Call) -> Replied {
    let mut frame = *entered;
    let answer = match call {
        Call::UseGas { amount, .. } => {
            let paid = frame.use_gas(*amount);
            Ok(Answer::Paid(paid, their_frame(&frame)).into())
        }
        Call::GrowHeap { area, new_bound, .. } => {
            let paid = frame.grow_heap(our_area(*area), *new_bound);
            Ok(Answer::Paid(paid, their_frame(&frame)).into())
        }
        Call::Instruction { instruction, .. } => executed(both, &mut frame, instruction),
        _ => unreachable!("this call takes no frame"),
    };
    if matches!(answer, Err(Reply::Wrong(_))) {
        return answer;
    }
    let panicked = matches!(answer, Ok(Given { answer: Answer::EraPanic(_), .. }));
    if frame.panicked != (entered.panicked || panicked) {
        return Err(Reply::Wrong(format!("the frame's mark: {answer:?}")));
    }
    if matches!(answer, Err(Reply::Refused(_))) && frame != *entered {
        return Err(Reply::Wrong(format!("refused, and the frame is {frame:?}")));
    }
    answer
}

/// An instruction: how it ended, with the frame and all registers that it left.
fn executed(both: &mut Both, frame: &mut Frame, instruction: &HeapInstruction) -> Replied {
    let entered = our_registers(&instruction.registers);
    let mut registers = entered;
    let outcome = run(both, frame, &mut registers, instruction);
    if matches!(outcome, Err(Reply::Refused(_))) && registers != entered {
        return Err(Reply::Wrong(format!("refused, and the registers are {registers:?}")));
    }
    let left = Left { frame: their_frame(frame), registers: their_registers(&registers) };
    let left = Box::new(left);
    let (outcome, bytes_read) = outcome?;
    let answer = match outcome {
        Outcome::Running => Answer::Ran(left, None),
        Outcome::SuspendedOnHook(value) => Answer::Ran(left, Some(value)),
        Outcome::Panicked => Answer::EraPanic(left),
    };
    Ok(Given { answer, bytes_read })
}

/// How an instruction ended, and of a pointer load that was carried out how many bytes came from the range.
type Ended = (Outcome, Option<u64>);

/// Runs an instruction on both memories. The frames and the registers that it leaves must be the same,
/// too.
fn run(
    both: &mut Both,
    frame: &mut Frame,
    registers: &mut Registers,
    instruction: &HeapInstruction,
) -> Result<Ended, Reply> {
    let (mut lent, mut in_lent) = (*frame, *registers);
    let outcome = same(
        put(&mut both.owned, frame, registers, instruction),
        put(&mut both.lend(), &mut lent, &mut in_lent, instruction),
    );
    same(Ok((*frame, *registers)), Ok((lent, in_lent)))?;
    outcome
}

/// Puts an instruction to one memory.
pub fn put(
    memory: &mut impl Instructions,
    frame: &mut Frame,
    registers: &mut Registers,
    instruction: &HeapInstruction,
) -> Result<Ended, Error> {
    let HeapInstruction { increment, kernel, .. } = *instruction;
    let Places { source, value, dst0, dst1 } = instruction.places;
    let load = LoadCodes { source, dst0, dst1, increment };
    let store = StoreCodes { source, value, dst0, dst1, increment };
    let outcome = match instruction.op {
        Op::Load(area) => memory.raw_load(frame, registers, our_area(area), load),
        Op::Store { area, hook } => {
            memory.raw_store(frame, registers, our_area(area), store, kernel, hook)
        }
        Op::LoadPointer => {
            return memory.raw_load_pointer(frame, registers, load).map(|ended| match ended {
                PointerOutcome::Running { bytes_read } => {
                    (Outcome::Running, Some(bytes_read as u64))
                }
                PointerOutcome::Panicked => (Outcome::Panicked, None),
            });
        }
        Op::LoadStatic => memory.raw_load_static(frame, registers, load),
        Op::StoreStatic => memory.raw_store_static(frame, registers, store, kernel),
    };
    outcome.map(|outcome| (outcome, None))
}

/// A page of a memory's buffers and the number of a chunk that it holds.
pub type Held = BTreeSet<(u32, u32)>;

/// Reads the state of a memory from its buffers, as docs/BUFFERS.md describes them.
#[derive(Debug, PartialEq)]
pub struct State {
    /// The dynamic pages that are listed.
    pub pages: BTreeSet<u32>,
    pub held: Held,
    /// Address and old word, oldest first.
    pub journals: [Vec<(u32, oracle::Word)>; 2],
}

const FIXED_ENTRIES: usize = 4;
const ENTRY: u64 = 33_554_432;
const HEAD: usize = 16;
const HEAD_HELD: usize = 9;
const HEAD_JOURNALS: usize = 12;
const HEAD_SKIPPED: usize = 15;
/// Chunks whose bits one number of the pool has.
const POOL_BITS: usize = 64;

pub fn state(buffers: Buffers<'_>, capacity: Capacity) -> State {
    let (slots, entries) = buffers.keys.split_at(capacity.chunks as usize);
    let page = |entry: u64| (entries[entry as usize] - 1) as u32;
    let held = slots.iter().filter(|key| **key != 0).map(|key| {
        let place = key - 1;
        (page(place / ENTRY), (place % ENTRY) as u32)
    });
    let listed = entries[FIXED_ENTRIES..].iter().filter(|page| **page != 0);
    State {
        pages: listed.map(|page| (page - 1) as u32).collect(),
        held: held.collect(),
        journals: [0, 1].map(|journal| journal_words(buffers, capacity, journal)),
    }
}

/// The pool of a memory: the last numbers of `words`, with a bit for each chunk.
fn pool(words: &[u64], capacity: Capacity) -> &[u64] {
    &words[words.len() - (capacity.chunks as usize).div_ceil(POOL_BITS)..]
}

/// Whether the bit of a slot is set.
fn has(pool: &[u64], slot: usize) -> bool {
    pool[slot / POOL_BITS] >> (slot % POOL_BITS) & 1 == 1
}

/// What is wrong with a memory's pool, if anything. Its bits are counted afresh.
pub fn pool_fault(Buffers { keys, words, .. }: Buffers<'_>, capacity: Capacity) -> Option<String> {
    let (chunks, pool) = (capacity.chunks as usize, pool(words, capacity));
    let set: u64 = pool.iter().map(|number| u64::from(number.count_ones())).sum();
    let held = words[HEAD_HELD];
    if set + held != chunks as u64 {
        return Some(format!("{set} bits of the pool are set, and {held} of {chunks} are held"));
    }
    if let Some(slot) = (chunks..POOL_BITS * pool.len()).find(|slot| has(pool, *slot)) {
        return Some(format!("the pool has slot {slot}, and there are {chunks}"));
    }
    if let Some(slot) = (0..chunks).find(|slot| has(pool, *slot) != (keys[*slot] == 0)) {
        return Some(format!("slot {slot} is held and pooled, or neither"));
    }
    let skipped = words[HEAD_SKIPPED];
    match pool.get(..skipped as usize) {
        Some(numbers) if numbers.iter().all(|number| *number == 0) => None,
        _ => Some(format!("{skipped} numbers of the pool are skipped, and not all of them are 0")),
    }
}

/// Whether the slots that a call took were the lowest of the pool. The call may not be an opening.
pub fn took_the_lowest(before: Buffers<'_>, after: Buffers<'_>, capacity: Capacity) -> bool {
    let [before, after] = [before, after].map(|buffers| pool(buffers.words, capacity));
    let pooled = (0..capacity.chunks as usize).filter(|slot| has(before, *slot));
    // First those that were taken, and then those that stayed.
    pooled.map(|slot| has(after, slot)).is_sorted()
}

fn journal_words(
    Buffers { bytes, words, .. }: Buffers<'_>,
    capacity: Capacity,
    journal: usize,
) -> Vec<(u32, oracle::Word)> {
    let old_words = &bytes[256 * capacity.chunks as usize..];
    let first = journal * capacity.journal_words as usize;
    let length = words[HEAD_JOURNALS + journal] as usize;
    (first..first + length)
        .map(|at| {
            let old = old_words[32 * at..][..32].try_into().expect("32 bytes");
            (words[HEAD + 3 * at] as u32, oracle::Word(Word::from_big_endian(old).0))
        })
        .collect()
}
