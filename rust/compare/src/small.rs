//! Every list of up to five calls over a few small alphabets, on memories so small that each list
//! soon meets their limits.

use oracle::{Area, Call, Frame, HeapInstruction, Op, Operand, Word};
use zincpapaya::Capacity;

use crate::{
    generate::pattern,
    list::{List, Step},
};

/// Calls of which lists are made; on document 01's example layout (fixed pages 1, 4, 5 and 6, the
/// heaps of groups 0, 1 and 2 at 66, 74 and 82).
pub struct Alphabet {
    pub capacities: [Capacity; 2],
    pub steps: Vec<Step>,
}

pub const LAYOUT: &str = "example";
pub const LONGEST: u32 = 5;

impl Alphabet {
    fn new(chunks: u32, pages: u32, journal_words: u32, calls: Vec<Call>) -> Self {
        let capacities = [Capacity { chunks, pages, journal_words }; 2];
        let step = |call| Step { memory: 0, call, marked: false };
        Self { capacities, steps: calls.into_iter().map(step).collect() }
    }

    /// Adds a call on the second memory.
    fn beside(mut self, call: Call) -> Self {
        self.steps.push(Step { memory: 1, call, marked: false });
        self
    }

    /// How many lists there are.
    pub fn lists(&self) -> u64 {
        (1..=LONGEST).map(|length| (self.steps.len() as u64).pow(length)).sum()
    }

    /// The list of this number; the shorter ones come first.
    pub fn list(&self, mut number: u64) -> List {
        let many = self.steps.len() as u64;
        let mut length = 1;
        while number >= many.pow(length) {
            number -= many.pow(length);
            length += 1;
        }
        let step = |at: u32| self.steps[(number / many.pow(at) % many) as usize].clone();
        let steps = (0..length).map(step).collect();
        List { layout: LAYOUT, capacities: self.capacities, steps }
    }
}

fn write(page: u32, address: u32, value: u64) -> Call {
    Call::WriteU256 { page, address, value: Word([value, 0, 0, 1 << 63]) }
}

fn write_bytes(page: u32, start: u32, length: u64) -> Call {
    Call::WriteBytes { page, start, bytes: pattern(length, 1) }
}

/// Words and bytes of the bootloader pages, and their history.
fn history() -> Alphabet {
    let calls = vec![
        write(5, 0, 1),
        write(5, 240, 2),
        write_bytes(5, 30, 3),
        write(6, 16, 3),
        write(66, 255, 4),
        Call::Rollback { heap: 0, aux: 0 },
        Call::Rollback { heap: 1, aux: 0 },
        Call::DeleteHistory,
        Call::ReadU256 { page: 5, address: 16 },
    ];
    Alphabet::new(3, 1, 2, calls)
}

/// Pages that are allocated, written, cut and freed.
fn pages() -> Alphabet {
    let calls = vec![
        Call::AllocateAt { page: 66 },
        Call::AllocateWithContentAt { page: 74, content: pattern(257, 2) },
        write_bytes(66, 255, 2),
        write_bytes(82, 300, 0),
        Call::Deallocate { page: 66 },
        Call::CompactToWindow { page: 74, start: 256, length: 1 },
        Call::TruncateDynamicTo { len: 1 },
        Call::TruncateDynamicTo { len: 2 },
        Call::ReadRangeBigEndian { page: 74, start: 250, end: 260 },
    ];
    Alphabet::new(3, 2, 0, calls)
}

/// Instructions, and the comparison of two memories.
fn instructions() -> Alphabet {
    let frame = Frame { gas: 1, heap: 66, aux: 5, heap_bound: 256, aux_bound: 31 };
    let run = |op, operand, value| HeapInstruction::on_operands(op, operand, value).on(frame);
    let store = |area, address, value, hook| {
        run(Op::Store { area, hook }, Operand::Immediate(address), value)
    };
    let word = Word([66 << 32 | 3, 40 << 32 | 220, 0, 0]);
    let pointer = Operand::Register { word, tagged: true };
    let calls = vec![
        store(Area::Heap, 224, 7.into(), Some(224)),
        store(Area::Heap, 225, Word([1 << 32, 0, 0, 0]), Some(225)),
        store(Area::Heap, 226, 7.into(), None),
        store(Area::Aux, 0, 9.into(), None),
        run(Op::Load(Area::Heap), Operand::Immediate(225), Word::default()),
        run(Op::LoadPointer, pointer, Word::default()),
        run(Op::StoreStatic, Operand::Immediate(225), 3.into()),
        Call::Compare { other: 1 },
    ];
    let same = Call::WriteU256 { page: 66, address: 224, value: 7.into() };
    Alphabet::new(3, 1, 1, calls).beside(same)
}

pub fn alphabets() -> [Alphabet; 3] {
    [history(), pages(), instructions()]
}
