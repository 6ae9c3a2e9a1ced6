//! What a memory must hold after a list of calls, by document 01's rules: the allocated pages, the
//! held chunks, the dynamic length and the journals' lengths. No byte is kept here.
//!
//! It says which calls the library must refuse for want of room, which vm2 does not do, and is
//! itself compared with vm2's state wherever that is looked at.

use std::collections::{BTreeMap, BTreeSet};

use oracle::{Area, Call, Frame, Kind, Layout, Place, View};
use zincpapaya::Capacity;

use crate::rules;

pub const CHUNK: u64 = 256;
/// Addresses end here.
pub const TOP: u64 = 1 << 32;
/// The highest operand of a load or store.
pub const LAST_ADDRESS: u32 = u32::MAX - 32;

/// The place that a page id stands for, by document 01's section Pages.
pub fn place(layout: &Layout, page: u32) -> Option<Place> {
    let fixed = [
        (layout.static_memory, Place::Static),
        (layout.calldata, Place::Calldata),
        (layout.bootloader_heap, Place::BootloaderHeap),
        (layout.bootloader_aux, Place::BootloaderAux),
    ];
    if let Some((_, place)) = fixed.into_iter().find(|(id, _)| *id == page) {
        return Some(place);
    }
    let rel = page.checked_sub(layout.base)?;
    let kind = match rel % layout.stride {
        0 => Kind::Code,
        2 => Kind::Heap,
        3 => Kind::Aux,
        _ => return None,
    };
    Some(Place::Dynamic { group: rel / layout.stride, kind })
}

/// Page and bound of one of a frame's areas.
pub fn area_of(frame: &Frame, area: Area) -> (u32, u32) {
    match area {
        Area::Heap => (frame.heap, frame.heap_bound),
        Area::Aux => (frame.aux, frame.aux_bound),
    }
}

/// What a call would write, if nothing but want of room refuses it.
pub struct Writes {
    pub place: Place,
    pub start: u64,
    pub length: u64,
    /// Words that it journals, if its place has a journal.
    words: u64,
}

impl Writes {
    fn word(place: Place, address: u32) -> Self {
        Self { place, start: address.into(), length: 32, words: 1 }
    }

    fn bytes(place: Place, start: u32, length: usize) -> Option<Self> {
        let (start, length) = (u64::from(start), length as u64);
        let end = start + length;
        let words = if length == 0 { 0 } else { (end - 1) / 32 - start / 32 + 1 };
        (end <= TOP).then_some(Self { place, start, length, words })
    }

    fn contents(place: Place, length: usize) -> Self {
        Self { place, start: 0, length: length as u64, words: 0 }
    }

    /// The numbers of the chunks that it touches.
    pub fn chunks(&self) -> std::ops::Range<u32> {
        if self.length == 0 {
            return 0..0;
        }
        let last = (self.start + self.length - 1) / CHUNK;
        (self.start / CHUNK) as u32..last as u32 + 1
    }
}

fn journal_of(place: Place) -> Option<usize> {
    match place {
        Place::BootloaderHeap => Some(0),
        Place::BootloaderAux => Some(1),
        _ => None,
    }
}

const fn is_dynamic(place: Place) -> bool {
    matches!(place, Place::Dynamic { .. })
}

#[derive(Clone)]
pub struct Model {
    pub layout: Layout,
    /// The dynamic pages that are allocated.
    pub allocated: BTreeSet<Place>,
    pub held: BTreeMap<Place, BTreeSet<u32>>,
    pub dynamic_len: u64,
    pub journals: [u64; 2],
}

impl Model {
    pub fn new(layout: Layout) -> Self {
        let (allocated, held) = (BTreeSet::new(), BTreeMap::new());
        Self { layout, allocated, held, dynamic_len: 0, journals: [0; 2] }
    }

    pub fn held_chunks(&self) -> u64 {
        self.held.values().map(|chunks| chunks.len() as u64).sum()
    }

    /// What the call writes; none for a call that writes nothing, panics as the EraVM does, or is
    /// refused with one of 4 to 8, or with 16.
    pub fn writes(&self, call: &Call) -> Option<Writes> {
        let place = |page: u32| place(&self.layout, page);
        let unallocated =
            |page: u32| place(page).filter(|at| is_dynamic(*at) && !self.allocated.contains(at));
        match call {
            Call::Open { calldata } => Some(Writes::contents(Place::Calldata, calldata.len())),
            Call::AllocateAt { page } => Some(Writes::contents(unallocated(*page)?, 0)),
            Call::AllocateWithContentAt { page, content } => {
                Some(Writes::contents(unallocated(*page)?, content.len()))
            }
            Call::WriteU256 { page, address, .. } => Some(Writes::word(place(*page)?, *address)),
            Call::WriteBytes { page, start, bytes } => {
                Writes::bytes(place(*page)?, *start, bytes.len())
            }
            Call::Instruction { frame, instruction } if instruction.op.stores() => {
                let written = rules::due(&self.layout, frame, instruction).access?;
                Some(Writes::word(place(written.page)?, written.start))
            }
            _ => None,
        }
    }

    /// Chunks that the write touches and its place does not hold.
    pub fn missing(&self, writes: &Writes) -> u64 {
        let held = self.held.get(&writes.place);
        let is_held = |number: &u32| held.is_some_and(|held| held.contains(number));
        writes.chunks().filter(|number| !is_held(number)).count() as u64
    }

    /// The refusal for want of room (9, 10 or 11) that the call must get, if no other comes first.
    pub fn no_room(&self, call: &Call, capacity: Capacity) -> Option<u8> {
        if let Call::Open { .. } = call {
            let fresh = Self::new(self.layout);
            let missing = fresh.missing(&fresh.writes(call)?);
            return (missing > capacity.chunks.into()).then_some(10);
        }
        let writes = self.writes(call)?;
        let new_page = is_dynamic(writes.place) && !self.allocated.contains(&writes.place);
        if new_page && self.allocated.len() as u64 >= capacity.pages.into() {
            return Some(9);
        }
        if self.held_chunks() + self.missing(&writes) > capacity.chunks.into() {
            return Some(10);
        }
        let journal = self.journals[journal_of(writes.place)?];
        (journal + writes.words > capacity.journal_words.into()).then_some(11)
    }

    /// Takes a call that was carried out.
    pub fn carry_out(&mut self, call: &Call) {
        match call {
            Call::Open { .. } => *self = Self::new(self.layout),
            Call::Deallocate { page } => {
                let at = place(&self.layout, *page).expect("freed pages are known");
                self.allocated.remove(&at);
                self.held.remove(&at);
            }
            Call::CompactToWindow { page, start, length } => self.window(*page, *start, *length),
            Call::TruncateDynamicTo { len } => self.truncate(*len),
            Call::Rollback { heap, aux } => self.journals = [*heap, *aux],
            Call::DeleteHistory => self.journals = [0; 2],
            _ => {}
        }
        if let Some(writes) = self.writes(call) {
            self.write(&writes);
        }
    }

    fn write(&mut self, writes: &Writes) {
        if let Place::Dynamic { group, .. } = writes.place {
            self.allocated.insert(writes.place);
            self.dynamic_len = self.dynamic_len.max(u64::from(group) + 1);
        }
        if writes.length > 0 {
            self.held.entry(writes.place).or_default().extend(writes.chunks());
        }
        if let Some(journal) = journal_of(writes.place) {
            self.journals[journal] += writes.words;
        }
    }

    fn window(&mut self, page: u32, start: u32, length: u32) {
        let Some(at) = place(&self.layout, page).filter(|at| is_dynamic(*at)) else {
            return;
        };
        let (start, end) = (u64::from(start), u64::from(start) + u64::from(length));
        if let Some(chunks) = self.held.get_mut(&at) {
            chunks.retain(|number| {
                let first = u64::from(*number) * CHUNK;
                length > 0 && first < end && start < first + CHUNK
            });
        }
    }

    fn truncate(&mut self, len: u64) {
        let stays = |at: &Place| match at {
            Place::Dynamic { group, .. } => u64::from(*group) < len,
            _ => true,
        };
        self.allocated.retain(stays);
        self.held.retain(|at, _| stays(at));
        self.dynamic_len = len;
    }

    /// What vm2's state shows otherwise, if anything.
    pub fn differs_from(&self, view: &View) -> Option<String> {
        if view.dynamic_len != self.dynamic_len {
            return Some(format!("dynamic length {} in vm2", view.dynamic_len));
        }
        let lengths = [&view.journals[0], &view.journals[1]].map(|journal| journal.len() as u64);
        if lengths != self.journals {
            return Some(format!("journals of {lengths:?} words in vm2"));
        }
        let dynamic = view.pages.iter().map(|page| page.place).filter(|at| is_dynamic(*at));
        if !dynamic.eq(self.allocated.iter().copied()) {
            return Some("other pages are allocated in vm2".into());
        }
        for page in &view.pages {
            let none = BTreeSet::new();
            let held = self.held.get(&page.place).unwrap_or(&none);
            if !page.chunks.iter().map(|chunk| &chunk.number).eq(held) {
                return Some(format!("page {} holds other chunks in vm2", page.place));
            }
        }
        None
    }
}
