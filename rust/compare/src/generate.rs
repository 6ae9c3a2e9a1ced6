//! Random calls, most of them near an edge: of a chunk, of a page, of the pool, of a journal, of a
//! bound, of the gas, of the layout.

use std::collections::BTreeSet;

use oracle::{Call, Frame, Kind, Layout, PageIds, Place, Pointer, Word};
use zincpapaya::Capacity;

use crate::{
    list::{Handed, Step},
    model::{self, Model, CHUNK, TOP},
    ours::LAST_CHUNK,
    rng::Rng,
};

/// What a list is made for.
#[derive(Clone, Copy, PartialEq)]
pub enum Sort {
    /// A few pages and addresses, so that calls meet.
    Light,
    /// Many pages and chunks.
    Large,
    /// Writes that empty the pool, and frees.
    Pool,
    /// Words at the top of pages, for which vm2 keeps a place for each chunk of a page.
    Top,
    /// Groups as far as vm2 is let allocate them; it keeps a place for each group.
    Far,
}

impl Sort {
    /// Whether vm2 takes much memory for such a list.
    pub fn is_dear(self) -> bool {
        matches!(self, Self::Top | Self::Far)
    }

    /// A list comes back to at least 2 pages and 3 addresses. How many more there are is drawn below
    /// these numbers, of pages and of addresses.
    fn variety(self) -> (u64, u64) {
        match self {
            Self::Light => (7, 8),
            Self::Large => (60, 60),
            Self::Pool => (5, 20),
            Self::Top | Self::Far => (3, 5),
        }
    }
}

pub struct Generator {
    pub(crate) rng: Rng,
    layout: Layout,
    sort: Sort,
    capacities: [Capacity; 2],
    /// Bytes of one write, at most.
    longest: u64,
    /// Whether most calls are put to both memories.
    twins: bool,
    /// Pages and addresses that the list comes back to.
    pages: Vec<u32>,
    addresses: Vec<u32>,
    /// Marks of snapshots that were taken, in either memory.
    marks: Vec<[u64; 2]>,
    /// Memories and places that were written far up.
    peaks: BTreeSet<(usize, Place)>,
    pending: Option<Step>,
    /// Draws the registers and the places of instructions; none where these are told by their operands
    /// alone.
    pub(crate) places: Option<Rng>,
    /// Whether most instructions are given the frame that the last one left.
    pub(crate) hands_on: bool,
    /// The frame that the next instruction is given; none where it has one of its own.
    pub(crate) handed: Option<Handed>,
    /// Calls to come, and rollbacks after them.
    calls: u64,
    rollbacks: u64,
}

/// The memory that a call is drawn for.
pub(crate) struct Seen<'a> {
    pub(crate) model: &'a Model,
    capacity: Capacity,
    memory: usize,
}

/// Groups from here on, and chunks from here on, are dear in vm2.
const FAR_GROUP: u32 = 2_000;
const FAR_CHUNK: u32 = 1 << 13;
/// The highest group that vm2 is let allocate.
const MAX_GROUP: u32 = 1 << 20;

/// In lists that hand frames on, one of so many instructions has a frame of its own.
const OWN_FRAME: u64 = 12;

const LENGTHS: [u64; 17] = [0, 0, 1, 2, 31, 32, 33, 63, 64, 65, 100, 255, 256, 257, 512, 600, 1024];

type Draw = fn(&mut Generator, &Seen) -> Call;

/// The calls, and how often each is drawn: in most lists, in those about the top of pages, and in those about the pool.
const DRAWS: [([u64; 3], Draw); 26] = [
    ([13, 40, 18], Generator::write_u256),
    ([13, 25, 18], Generator::write_bytes),
    ([6, 12, 3], Generator::read_u256),
    ([4, 4, 1], Generator::read_u256_partially),
    ([5, 8, 2], Generator::read_range),
    ([3, 3, 1], Generator::read_byte),
    ([2, 6, 2], Generator::chunk),
    ([1, 1, 1], |_, _| Call::DynamicLen),
    ([4, 4, 2], Generator::snapshot),
    ([4, 2, 3], Generator::allocate_at),
    ([5, 2, 10], Generator::allocate_with_content_at),
    ([5, 3, 12], Generator::deallocate),
    ([5, 10, 10], Generator::compact_to_window),
    ([3, 1, 4], Generator::truncate_dynamic_to),
    ([5, 10, 3], Generator::rollback),
    ([1, 1, 1], |_, _| Call::DeleteHistory),
    ([4, 4, 2], Generator::compare),
    ([1, 0, 2], Generator::open),
    ([4, 4, 1], Generator::apart),
    ([1, 1, 0], Generator::use_gas),
    ([2, 2, 0], Generator::grow_heap),
    ([6, 6, 2], Generator::load),
    ([8, 4, 6], Generator::store),
    ([5, 8, 1], Generator::load_pointer),
    ([2, 2, 1], Generator::load_static),
    ([3, 8, 4], Generator::store_static),
];

/// Bytes that follow from their number and a seed.
pub fn pattern(length: u64, seed: u8) -> Vec<u8> {
    (0..length).map(|at| seed.wrapping_add((at as u8).wrapping_mul(31))).collect()
}

impl Generator {
    /// `calls` is how long the list is, but for a few more.
    pub fn new(
        mut rng: Rng,
        layout: Layout,
        sort: Sort,
        capacities: [Capacity; 2],
        calls: u64,
    ) -> Self {
        let mut longest = rng.pick(&[256, 1024, 1024, 8192]);
        if sort == Sort::Pool {
            // All chunks at once, and one too many.
            let [first, second] = capacities.map(|capacity| u64::from(capacity.chunks));
            longest = (first.max(second) + 1) * CHUNK;
        }
        let twins = !sort.is_dear() && rng.one_in(3);
        let rollbacks = rng.below(20);
        let mut made = Self {
            rng,
            layout,
            sort,
            capacities,
            longest,
            twins,
            pages: Vec::new(),
            addresses: Vec::new(),
            marks: Vec::new(),
            peaks: BTreeSet::new(),
            pending: None,
            places: None,
            hands_on: false,
            handed: None,
            calls,
            rollbacks,
        };
        let (pages, addresses) = sort.variety();
        made.pages = (0..2 + made.rng.below(pages)).map(|_| made.any_page()).collect();
        if sort == Sort::Top {
            let other = made.rng.pick(&[layout.bootloader_heap, layout.bootloader_aux]);
            made.pages = vec![made.dynamic_page(), other, made.any_page()];
        }
        made.addresses = (0..3 + made.rng.below(addresses)).map(|_| made.any_address()).collect();
        made
    }

    /// Keeps every write to this many bytes.
    pub fn with_longest(self, longest: u64) -> Self {
        Self { longest, ..self }
    }

    /// Draws registers and places for the instructions.
    pub fn with_places(self, rng: Rng) -> Self {
        Self { places: Some(rng), ..self }
    }

    /// Makes lists in which most instructions are given the frame that the last one left.
    pub fn handing_on(self) -> Self {
        Self { hands_on: true, ..self }
    }

    /// The next call, for memories that hold what the models tell. `left` is the frame that the
    /// latest instruction left.
    pub fn next(&mut self, models: &[Model; 2], left: Option<Handed>) -> Option<Step> {
        let left = left.filter(|left| self.hands_on && self.may_go_on(&left.frame));
        if let Some(step) = self.pending.take() {
            return Some(self.given_what_is_left(step, left, models));
        }
        if self.calls == 0 {
            return self.closing(models);
        }
        self.calls -= 1;
        loop {
            self.handed = left.filter(|_| !self.rng.one_in(OWN_FRAME));
            let step = self.draw(models);
            if !self.allows(&step, models) {
                continue;
            }
            if self.twins && step.call.changes() && !self.rng.one_in(8) {
                let twin = Step { memory: 1 - step.memory, ..step.clone() };
                self.pending = Some(twin).filter(|twin| self.allows(twin, models));
            }
            if self.sort == Sort::Top {
                self.pending = self.window_after(&step, models);
            }
            return Some(step);
        }
    }

    /// Whether the next instruction may have this frame. A call that was refused for want of room may
    /// have left a far page, to which vm2 would be put now.
    fn may_go_on(&self, frame: &Frame) -> bool {
        self.sort == Sort::Far
            || ![frame.heap, frame.aux].into_iter().any(|at| self.is_far_page(at))
    }

    /// The pending call; an instruction is given the frame that the one before it left.
    fn given_what_is_left(
        &mut self,
        pending: Step,
        left: Option<Handed>,
        models: &[Model; 2],
    ) -> Step {
        let mut step = pending.clone();
        if let (Some(left), Call::Instruction { frame, .. }) = (left, &mut step.call) {
            (*frame, step.marked) = (left.frame, left.marked);
        }
        if self.allows(&step, models) {
            step
        } else {
            pending
        }
    }

    /// After every other write to the last chunk of a page, a window that reaches this chunk or just
    /// fails to.
    fn window_after(&mut self, step: &Step, models: &[Model; 2]) -> Option<Step> {
        let writes = models[step.memory].writes(&step.call)?;
        if writes.chunks().end <= LAST_CHUNK || self.rng.one_in(2) {
            return None;
        }
        let page = self.layout.id(writes.place)?;
        let (start, length) = (self.rng.below32(3), u32::MAX - self.rng.pick(&[0, 0, 0, 1]));
        Some(Step { call: Call::CompactToWindow { page, start, length }, ..step.clone() })
    }

    fn draw(&mut self, models: &[Model; 2]) -> Step {
        let memory = usize::from(self.rng.one_in(if self.sort.is_dear() { 8 } else { 3 }));
        let seen = Seen { model: &models[memory], capacity: self.capacities[memory], memory };
        let sort = match self.sort {
            Sort::Light | Sort::Large | Sort::Far => 0,
            Sort::Top => 1,
            Sort::Pool => 2,
        };
        let mut number = self.rng.below(DRAWS.iter().map(|(often, _)| often[sort]).sum());
        let drawn = DRAWS.iter().find(|(often, _)| {
            let here = number < often[sort];
            number = number.saturating_sub(often[sort]);
            here
        });
        let (_, draw) = drawn.expect("the number is below the sum");
        let call = draw(self, &seen);
        let marked = match (self.handed, &call) {
            (Some(handed), Call::Instruction { .. }) => handed.marked,
            _ => self.rng.one_in(4),
        };
        Step { memory, call, marked }
    }

    /// Rollbacks, newest first, until nothing is left to be undone.
    fn closing(&mut self, models: &[Model; 2]) -> Option<Step> {
        let memory = models.iter().position(|model| model.journals != [0; 2])?;
        let mut marks = models[memory].journals;
        if self.rollbacks == 0 {
            marks = [0; 2];
        } else {
            self.rollbacks -= 1;
            let journal = if marks[0] == 0 { 1 } else { usize::from(self.rng.one_in(2)) };
            marks[journal] = marks[journal].saturating_sub(1);
        }
        let [heap, aux] = marks;
        Some(Step { memory, call: Call::Rollback { heap, aux }, marked: false })
    }

    /// Whether vm2 is put to the call: for far groups and far chunks it takes much memory, so these
    /// have lists of their own, with two pages each that may be written far up.
    fn allows(&mut self, step: &Step, models: &[Model; 2]) -> bool {
        let (call, model) = (&step.call, &models[step.memory]);
        if model.no_room(call, self.capacities[step.memory]).is_some() {
            return true;
        }
        if self.is_far(call) && self.sort != Sort::Far {
            return false;
        }
        match model.writes(call) {
            Some(writes) if writes.chunks().end > FAR_CHUNK => {
                let peak = (step.memory, writes.place);
                if self.peaks.len() < 2 && self.sort == Sort::Top {
                    self.peaks.insert(peak);
                }
                self.peaks.contains(&peak)
            }
            _ => true,
        }
    }

    fn is_far_page(&self, page: u32) -> bool {
        match model::place(&self.layout, page) {
            Some(Place::Dynamic { group, .. }) => (FAR_GROUP..=MAX_GROUP).contains(&group),
            _ => false,
        }
    }

    /// Whether the call makes vm2 allocate groups up to a far one.
    fn is_far(&self, call: &Call) -> bool {
        match call {
            Call::AllocateAt { page }
            | Call::AllocateWithContentAt { page, .. }
            | Call::Deallocate { page }
            | Call::WriteU256 { page, .. }
            | Call::WriteBytes { page, .. }
            | Call::Decode { page } => self.is_far_page(*page),
            Call::Instruction { frame, .. } => {
                self.is_far_page(frame.heap) || self.is_far_page(frame.aux)
            }
            _ => false,
        }
    }
}

/// Pages, addresses and values.
impl Generator {
    fn any_page(&mut self) -> u32 {
        let layout = self.layout;
        let fixed =
            [layout.static_memory, layout.calldata, layout.bootloader_heap, layout.bootloader_aux];
        match self.rng.below(20) {
            draw if matches!(self.sort, Sort::Far | Sort::Pool) && draw < 12 => self.dynamic_page(),
            0..5 => layout.bootloader_heap,
            5..7 => layout.bootloader_aux,
            7..9 => self.rng.pick(&fixed),
            9..17 => self.dynamic_page(),
            _ => self.odd_page(),
        }
    }

    fn dynamic_page(&mut self) -> u32 {
        let group = match (self.sort, self.rng.below(16)) {
            (Sort::Far, 0..8) => MAX_GROUP - self.rng.below32(3),
            (Sort::Large, 0..12) => self.rng.below32(40),
            (_, 15) => self.rng.below32(300),
            (_, 12..15) => self.rng.below32(12),
            _ => self.rng.pick(&[0, 0, 1, 1, 2, 3]),
        };
        let kind = self.rng.pick(&[Kind::Code, Kind::Heap, Kind::Heap, Kind::Aux]);
        self.layout.id(Place::Dynamic { group, kind }).unwrap_or(self.layout.base)
    }

    /// An id that is most likely no page: beside a fixed one or a group's, or at an end.
    fn odd_page(&mut self) -> u32 {
        let Layout { static_memory, bootloader_heap, bootloader_aux, base, stride, .. } =
            self.layout;
        let near =
            [static_memory, bootloader_heap, bootloader_aux, base, base.wrapping_add(stride)];
        match self.rng.below(8) {
            0 => 0,
            1 => u32::MAX,
            2 => self.rng.next() as u32,
            3 => base.wrapping_sub(1),
            4 => base.wrapping_add(1),
            5 => base.wrapping_add(4 + self.rng.below32(2 * stride.min(1 << 20))),
            _ => self.rng.pick(&near).wrapping_add(self.rng.pick(&[1, u32::MAX])),
        }
    }

    pub(crate) fn page(&mut self) -> u32 {
        if self.rng.one_in(10) {
            return self.any_page();
        }
        self.rng.pick(&self.pages)
    }

    fn any_address(&mut self) -> u32 {
        let edges = [0, 1, 31, 32, 33, 192, 222, 223, 224, 225, 226, 254, 255, 256, 257, 288];
        let more =
            [480, 481, 511, 512, 513, 767, 768, 1023, 1024, 4064, 4065, 4096, 65_504, 65_535];
        let top = [0, 1, 16, 29, 30, 31, 32, 33, 63, 223, 224, 225, 254, 255, 256, 257, 511];
        match self.rng.below(20) {
            draw if self.sort == Sort::Top && draw < 16 => u32::MAX - self.rng.pick(&top),
            draw if self.sort == Sort::Large && draw < 16 => self.rng.below32(256 * 3_000),
            draw if self.sort == Sort::Pool && draw < 12 => {
                256 * self.rng.below32(130) + self.rng.pick(&[0, 0, 1, 224, 225, 255])
            }
            0..9 => self.rng.pick(&edges),
            9..12 => self.rng.pick(&more),
            12..15 => 256 * self.rng.below32(6) + self.rng.below32(256),
            15 => (1 << 20) - 40 + self.rng.below32(80),
            16 => self.rng.below32(4096),
            _ => u32::MAX - self.rng.pick(&top),
        }
    }

    pub(crate) fn address(&mut self) -> u32 {
        let address = match self.rng.below(12) {
            0 => return self.any_address(),
            _ => self.rng.pick(&self.addresses),
        };
        match self.rng.below(8) {
            0 => address.wrapping_add(self.rng.pick(&[1, 31, 32, 33, 256])),
            1 => address.wrapping_sub(self.rng.pick(&[1, 31, 32, 33, 256])),
            _ => address,
        }
    }

    pub(crate) fn word(&mut self) -> Word {
        let small = [0, 1, 255, u64::from(u32::MAX), 1 << 32, u64::MAX];
        match self.rng.below(8) {
            0 => Word([0; 4]),
            1 => Word([u64::MAX; 4]),
            2 | 3 => Word([self.rng.pick(&small), 0, 0, 0]),
            4 => {
                let mut limbs = [0; 4];
                limbs[self.rng.below(4) as usize] = self.rng.next();
                Word(limbs)
            }
            _ => Word([0; 4].map(|_| self.rng.next())),
        }
    }

    /// A number of bytes for a write at `start`: some lengths fill the pool, the journal or the page
    /// up to the last byte, or go one beyond.
    fn length(&mut self, seen: &Seen, start: u32) -> u64 {
        let start = u64::from(start);
        let chunks = u64::from(seen.capacity.chunks).saturating_sub(seen.model.held_chunks());
        let journal = self.rng.pick(&seen.model.journals);
        let words = u64::from(seen.capacity.journal_words).saturating_sub(journal);
        let often = if self.sort == Sort::Pool { 4 } else { 1 };
        let length = match self.rng.below(12) {
            draw if draw < often => {
                (chunks * CHUNK).saturating_sub(start % CHUNK) + self.rng.below(2)
            }
            1 => (words * 32).saturating_sub(start % 32) + self.rng.below(2),
            2 => self.rng.below(self.longest),
            3..7 if TOP - start < 2_000 => TOP - start + self.rng.below(2),
            _ => self.rng.pick(&LENGTHS),
        };
        length.min(self.longest)
    }

    fn bytes(&mut self, length: u64) -> Vec<u8> {
        pattern(length, self.rng.next() as u8)
    }
}

/// Calls without a frame.
impl Generator {
    fn write_u256(&mut self, _: &Seen) -> Call {
        Call::WriteU256 { page: self.page(), address: self.address(), value: self.word() }
    }

    fn write_bytes(&mut self, seen: &Seen) -> Call {
        let (page, start) = (self.page(), self.address());
        let length = self.length(seen, start);
        Call::WriteBytes { page, start, bytes: self.bytes(length) }
    }

    fn read_u256(&mut self, _: &Seen) -> Call {
        Call::ReadU256 { page: self.page(), address: self.address() }
    }

    /// The end of a range that begins at `start`; some are reversed, or end with the page.
    fn end(&mut self, start: u32, lengths: &[u64]) -> u32 {
        match self.rng.below(10) {
            0 => self.address(),
            1 => start.saturating_sub(self.rng.below32(300)),
            _ => start.saturating_add(self.rng.pick(lengths) as u32),
        }
    }

    fn read_u256_partially(&mut self, _: &Seen) -> Call {
        let (page, start) = (self.page(), self.address());
        let end = self.end(start, &[0, 1, 5, 31, 32, 32, 33, 34, 256]);
        Call::ReadU256Partially { page, start, end }
    }

    fn read_range(&mut self, _: &Seen) -> Call {
        let (page, start) = (self.page(), self.address());
        let end = self.end(start, &LENGTHS);
        let length = self.longest.min(4096) as u32;
        Call::ReadRangeBigEndian { page, start, end: end.min(start.saturating_add(length)) }
    }

    fn read_byte(&mut self, _: &Seen) -> Call {
        Call::ReadByte { page: self.page(), address: self.address() }
    }

    fn chunk(&mut self, _: &Seen) -> Call {
        let number = match self.rng.below(10) {
            0 => LAST_CHUNK,
            1 => LAST_CHUNK - 1,
            2 => self.rng.pick(&[LAST_CHUNK + 1, 1 << 25, u32::MAX]),
            _ => self.address() / 256,
        };
        Call::Chunk { page: self.page(), number }
    }

    fn snapshot(&mut self, seen: &Seen) -> Call {
        self.marks.push(seen.model.journals);
        Call::Snapshot
    }

    fn allocate_at(&mut self, _: &Seen) -> Call {
        Call::AllocateAt { page: self.page() }
    }

    fn allocate_with_content_at(&mut self, seen: &Seen) -> Call {
        let length = self.length(seen, 0);
        Call::AllocateWithContentAt { page: self.page(), content: self.bytes(length) }
    }

    fn deallocate(&mut self, _: &Seen) -> Call {
        Call::Deallocate { page: self.page() }
    }

    fn compact_to_window(&mut self, _: &Seen) -> Call {
        let (page, start) = (self.page(), self.address());
        let length = match self.rng.below(4) {
            0 => self.rng.pick(&[u32::MAX, u32::MAX - 1, u32::MAX - start]),
            _ => self.rng.pick(&LENGTHS) as u32,
        };
        Call::CompactToWindow { page, start, length }
    }

    /// A number at, beside or below `length`.
    fn near(&mut self, length: u64) -> u64 {
        match self.rng.below(8) {
            0 => length + 1,
            1 => self.rng.pick(&[u64::MAX, 1 << 32, length + 2]),
            2 => 0,
            3 => length,
            4 | 5 => length.saturating_sub(1),
            _ => self.rng.below(length + 1),
        }
    }

    fn truncate_dynamic_to(&mut self, seen: &Seen) -> Call {
        Call::TruncateDynamicTo { len: self.near(seen.model.dynamic_len) }
    }

    fn rollback(&mut self, seen: &Seen) -> Call {
        let [heap, aux] = seen.model.journals;
        let [heap, aux] = match self.rng.below(4) {
            0 if !self.marks.is_empty() => self.rng.pick(&self.marks),
            1 => [self.near(heap), self.near(aux)],
            2 => [self.near(heap), aux],
            _ => [heap, self.near(aux)],
        };
        Call::Rollback { heap, aux }
    }

    fn compare(&mut self, seen: &Seen) -> Call {
        let other = if self.rng.one_in(6) { seen.memory } else { 1 - seen.memory };
        Call::Compare { other }
    }

    fn open(&mut self, seen: &Seen) -> Call {
        let all = u64::from(seen.capacity.chunks) * CHUNK;
        let length = self.rng.pick(&[0, 1, 32, 256, 257, all, all + 1]).min(self.longest);
        Call::Open { calldata: self.bytes(length) }
    }

    /// Calls that take no memory.
    fn apart(&mut self, _: &Seen) -> Call {
        let base = match self.rng.below(3) {
            0 => u32::MAX - self.rng.below32(10),
            1 => self.rng.below32(5),
            _ => self.page(),
        };
        match self.rng.below(12) {
            0..4 => Call::Decode { page: self.any_page() },
            4 => Call::PageIds(PageIds::HeapPageFromBase(base)),
            5 => Call::PageIds(PageIds::AuxHeapPageFromBase(base)),
            6 => Call::PageIds(PageIds::CodePageFromBase(base)),
            7 => Call::PageIds(PageIds::BasePageFromHeap(base)),
            8 => {
                let last = u32::MAX - self.layout.stride;
                let base = self.rng.pick(&[base, last, last.wrapping_add(1), last - 1]);
                Call::PageIds(PageIds::NextPageGroup(base))
            }
            9 => Call::PageIds(self.rng.pick(&[
                PageIds::StaticMemoryPage,
                PageIds::BootloaderCalldataPage,
                PageIds::BootloaderHeapPage,
                PageIds::BootloaderAuxHeapPage,
                PageIds::FirstDynamicBasePage,
            ])),
            10 => Call::FatPointerFrom { word: self.word() },
            _ => {
                let (offset, page) = (self.address(), self.page());
                let (start, length) = (self.address(), self.address());
                Call::FatPointerInto { pointer: Pointer { offset, page, start, length } }
            }
        }
    }
}
