//! Memories whose pools end beside an edge. A pool has a bit for each chunk, in numbers of 64 bits. With 64 or 128 chunks the
//! last number is full. With 63 or 127 it has room for one bit more. With 65 or 129 it has one bit alone. The lists empty the
//! pool, are refused then, free the chunks on both sides of an edge, and take them again.

use oracle::{Area, Call, Frame, Kind, Layout, Place, Word};
use zincpapaya::Capacity;

use crate::{
    edges::{store, store_static},
    generate::pattern,
    list::Step,
    model::{place, CHUNK},
};

/// Chunks of the memories: the fewest, and those beside the first two edges.
pub const SIZES: [u32; 7] = [1, 63, 64, 65, 127, 128, 129];
/// The most chunks that a memory can have: each of its pool's 1,024 numbers is full.
pub const LARGEST: u32 = 65_536;
/// The first slots of numbers: of the second and the third one, and of the largest pool's last one.
const EDGES: [u32; 3] = [64, 128, LARGEST - 64];

/// The counts of a memory that has room for the lists below.
pub fn capacity(chunks: u32) -> Capacity {
    Capacity { chunks, pages: 3, journal_words: 4 }
}

/// Whether the slot is the last one, or beside an edge.
fn is_beside(slot: u32, chunks: u32) -> bool {
    slot + 1 == chunks || EDGES.into_iter().any(|edge| [edge - 1, edge].contains(&slot))
}

/// The calls for a memory of so many chunks, all on the first memory.
pub fn steps(layout: &Layout, chunks: u32) -> Vec<Step> {
    let [most, beside, again] = pages(layout);
    let mut list = List { layout, chunks, most, beside, again, calls: Vec::new() };
    list.by_bytes();
    list.by_calldata();
    list.by_content();
    if chunks < LARGEST {
        list.by_words();
    }
    list.push(Call::Open { calldata: pattern(1, 1) });
    list.calls.into_iter().map(|call| Step { memory: 0, call, marked: false }).collect()
}

/// Three dynamic pages.
fn pages(layout: &Layout) -> [u32; 3] {
    let groups = (0..2).flat_map(|group| [(group, Kind::Heap), (group, Kind::Aux)]);
    let ids = groups.filter_map(|(group, kind)| {
        let dynamic = Place::Dynamic { group, kind };
        layout.id(dynamic).filter(|id| place(layout, *id) == Some(dynamic))
    });
    let ids: Vec<_> = ids.take(3).collect();
    ids.try_into().expect("every layout has three such pages")
}

struct List<'a> {
    layout: &'a Layout,
    chunks: u32,
    /// The page of most chunks.
    most: u32,
    /// The page of those beside an edge.
    beside: u32,
    /// The page that takes these when they are free again.
    again: u32,
    calls: Vec<Call>,
}

/// Bytes of so many chunks.
fn of_chunks(chunks: u32) -> Vec<u8> {
    pattern(u64::from(chunks) * CHUNK, chunks as u8)
}

/// Bytes of so many chunks, and one more.
fn beyond(chunks: u32) -> Vec<u8> {
    pattern(u64::from(chunks) * CHUNK + 1, 5)
}

/// The first address of a chunk.
const fn start(chunk: u32) -> u32 {
    chunk * CHUNK as u32
}

impl List<'_> {
    fn push(&mut self, call: Call) {
        self.calls.push(call);
    }

    fn write(&mut self, page: u32, address: u32) {
        let value = Word([self.calls.len() as u64, 2, 3, 1 << 63]);
        self.push(Call::WriteU256 { page, address, value });
    }

    fn write_bytes(&mut self, page: u32, start: u32, bytes: Vec<u8>) {
        self.push(Call::WriteBytes { page, start, bytes });
    }

    fn allocate(&mut self, page: u32, content: Vec<u8>) {
        self.push(Call::AllocateWithContentAt { page, content });
    }

    /// Slots are taken from the lowest on. Runs of those that lie beside an edge, and runs of others, are written by a call each.
    fn by_bytes(&mut self) {
        let (mut slot, mut held) = (0, [0; 2]);
        while slot < self.chunks {
            let is_beside = |slot: u32| is_beside(slot, self.chunks);
            let run = (slot..self.chunks).take_while(|next| is_beside(*next) == is_beside(slot));
            let (run, at) = (run.count() as u32, usize::from(is_beside(slot)));
            self.write_bytes([self.most, self.beside][at], start(held[at]), of_chunks(run));
            (slot, held[at]) = (slot + run, held[at] + run);
        }
        self.push(Call::ReadRangeBigEndian { page: self.most, start: 0, end: start(held[0]) });
        self.on_empty_pool();
        self.freed_and_taken_again();
    }

    /// The same word by word. The first two chunks are of fixed pages, which keep them.
    fn by_words(&mut self) {
        let frame = self.frame();
        self.write(self.layout.bootloader_heap, 0);
        self.push(store_static(0, Word([1, 2, 3, 4])).on(frame));
        let mut held = [0; 2];
        for slot in 2..self.chunks {
            let at = usize::from(is_beside(slot, self.chunks));
            self.write([self.most, self.beside][at], start(held[at]) + slot);
            held[at] += 1;
        }
        self.on_empty_pool();
        if self.chunks > 2 {
            self.freed_and_taken_again();
        }
        self.push(Call::Rollback { heap: 0, aux: 0 });
    }

    fn by_calldata(&mut self) {
        let all = self.chunks;
        self.push(Call::Open { calldata: of_chunks(all) });
        self.push(Call::Chunk { page: self.layout.calldata, number: all - 1 });
        self.on_empty_pool();
        self.push(Call::Open { calldata: beyond(all) });
        self.push(Call::Open { calldata: Vec::new() });
    }

    /// A page takes all chunks, and keeps those of slots 63 and 64 for a while.
    fn by_content(&mut self) {
        let Self { chunks: all, most, beside, again, .. } = *self;
        self.allocate(most, beyond(all));
        self.allocate(most, of_chunks(all));
        self.on_empty_pool();
        self.push(Call::CompactToWindow { page: most, start: start(63), length: start(2) });
        let kept = all.min(65).saturating_sub(63);
        self.write_bytes(beside, 0, beyond(all - kept));
        self.write_bytes(beside, 0, of_chunks(all - kept));
        self.on_empty_pool();
        self.push(Call::Deallocate { page: most });
        self.write(again, start(1) - 16);
        self.write(again, 0);
        self.on_empty_pool();
        self.push(Call::TruncateDynamicTo { len: 0 });
    }

    /// Frees the chunks beside edges, and takes them: a word over two of them, the others one by one, and then most of them at
    /// once.
    fn freed_and_taken_again(&mut self) {
        let Self { chunks, beside, again, .. } = *self;
        let many = (0..chunks).filter(|slot| is_beside(*slot, chunks)).count() as u32;
        self.push(Call::Deallocate { page: beside });
        self.write(again, start(1) - 16);
        // The last of these is one too many.
        (0..=many).for_each(|chunk| self.write_bytes(again, start(chunk) + 3, vec![9]));
        self.on_empty_pool();
        // Keeps chunk 1, if that is held.
        self.push(Call::CompactToWindow { page: again, start: start(1), length: 1 });
        let freed = (many - 1).max(1);
        self.allocate(beside, beyond(freed));
        self.allocate(beside, of_chunks(freed));
        self.on_empty_pool();
        self.push(Call::TruncateDynamicTo { len: 0 });
    }

    fn frame(&self) -> Frame {
        Frame { gas: u32::MAX, heap: self.most, aux: self.again, heap_bound: 0, aux_bound: 0 }
    }

    /// Whatever needs a chunk now is refused, and a call that needs none is carried out. No page holds a chunk past the last.
    fn on_empty_pool(&mut self) {
        let Self { most, beside, again, .. } = *self;
        let (past, frame, value) = (start(self.chunks), self.frame(), Word([7, 0, 0, 1]));
        self.write(most, past);
        self.write(most, past - 16);
        self.write(self.layout.bootloader_aux, past);
        self.write_bytes(beside, past, vec![1]);
        self.allocate(again, vec![1]);
        self.push(store(Area::Heap, past.into(), value, None).on(frame));
        self.push(store(Area::Aux, past.into(), value, None).on(frame));
        self.push(store_static(past.into(), value).on(frame));
        self.write_bytes(most, past, Vec::new());
        self.push(Call::ReadU256 { page: most, address: past - 16 });
    }
}

/// How full the pool of one memory was, call by call.
pub struct Fill {
    chunks: u32,
    pooled: u64,
    /// Whether it was empty since the memory was opened.
    was_empty: bool,
}

/// What pools of one size met.
#[derive(Debug, Clone, Copy, Default, PartialEq)]
pub struct Counts {
    /// Calls that took the last chunk.
    pub emptied: u64,
    /// Refusals 10 while there was none.
    pub refused: u64,
    /// Calls that took chunks which had been freed since then.
    pub taken_again: u64,
}

impl Fill {
    pub fn new(chunks: u32) -> Self {
        Self { chunks, pooled: chunks.into(), was_empty: false }
    }

    /// What is counted for a call after which so many chunks are held, if the memory's size is one of those above.
    pub fn after(&mut self, held: u64, opened: bool, refusal: Option<u8>) -> Option<(u32, Counts)> {
        let pooled = u64::from(self.chunks) - held;
        let before = if opened { self.chunks.into() } else { self.pooled };
        self.was_empty &= !opened;
        let counts = Counts {
            emptied: u64::from(pooled == 0 && before > 0),
            refused: u64::from(pooled == 0 && refusal == Some(10)),
            taken_again: u64::from(self.was_empty && pooled < before),
        };
        self.was_empty |= pooled == 0;
        self.pooled = pooled;
        let is_counted = SIZES.contains(&self.chunks) || self.chunks == LARGEST;
        is_counted.then_some((self.chunks, counts))
    }
}

impl Counts {
    pub fn add(&mut self, other: Self) {
        self.emptied += other.emptied;
        self.refused += other.refused;
        self.taken_again += other.taken_again;
    }
}
