//! Plain types for a call on vm2's memory and for its answer, the same for every layout.

mod instruction;
mod layout;
mod panics;
mod view;
mod word;

pub use instruction::{
    form, immediate, Form, HeapInstruction, Left, Op, Operand, Places, Registers, OTHER_FORM,
};
pub use layout::{Kind, Layout, Place};
pub use panics::{catch, refusal, RustPanic, TAKES_A_REGISTER};
pub use view::{differences, view_of, Chunk, Page, View};
pub use word::Word;

/// The two areas that a frame names.
#[derive(Debug, Clone, Copy, PartialEq, Eq)]
pub enum Area {
    Heap,
    Aux,
}

/// The fields of a frame that document 01 names; a panic is told by the answer.
#[derive(Debug, Clone, Copy, PartialEq, Eq)]
pub struct Frame {
    pub gas: u32,
    pub heap: u32,
    pub aux: u32,
    pub heap_bound: u32,
    pub aux_bound: u32,
}

/// The functions of `page_ids.rs`.
#[derive(Debug, Clone, Copy, PartialEq, Eq)]
pub enum PageIds {
    StaticMemoryPage,
    BootloaderCalldataPage,
    BootloaderHeapPage,
    BootloaderAuxHeapPage,
    HeapPageFromBase(u32),
    AuxHeapPageFromBase(u32),
    CodePageFromBase(u32),
    BasePageFromHeap(u32),
    FirstDynamicBasePage,
    NextPageGroup(u32),
}

/// Fields of a fat pointer, from the low end.
#[derive(Debug, Clone, Copy, PartialEq, Eq)]
pub struct Pointer {
    pub offset: u32,
    pub page: u32,
    pub start: u32,
    pub length: u32,
}

/// One call, named as in the Rust. Page ids, addresses and bounds are 32-bit numbers there too.
#[derive(Debug, Clone, PartialEq, Eq)]
pub enum Call {
    Open {
        calldata: Vec<u8>,
    },
    AllocateAt {
        page: u32,
    },
    AllocateWithContentAt {
        page: u32,
        content: Vec<u8>,
    },
    Deallocate {
        page: u32,
    },
    ReadU256 {
        page: u32,
        address: u32,
    },
    ReadU256Partially {
        page: u32,
        start: u32,
        end: u32,
    },
    ReadRangeBigEndian {
        page: u32,
        start: u32,
        end: u32,
    },
    ReadByte {
        page: u32,
        address: u32,
    },
    /// The chunk's bytes, gathered by reads: the Rust has no lookup of chunks.
    Chunk {
        page: u32,
        number: u32,
    },
    DynamicLen,
    WriteU256 {
        page: u32,
        address: u32,
        value: Word,
    },
    WriteBytes {
        page: u32,
        start: u32,
        bytes: Vec<u8>,
    },
    CompactToWindow {
        page: u32,
        start: u32,
        length: u32,
    },
    TruncateDynamicTo {
        len: u64,
    },
    Snapshot,
    Rollback {
        heap: u64,
        aux: u64,
    },
    DeleteHistory,
    /// Equality with another memory of the same bank.
    Compare {
        other: usize,
    },
    /// Where a byte written to this page of a fresh memory comes to lie.
    Decode {
        page: u32,
    },
    PageIds(PageIds),
    FatPointerFrom {
        word: Word,
    },
    FatPointerInto {
        pointer: Pointer,
    },
    UseGas {
        frame: Frame,
        amount: u32,
    },
    GrowHeap {
        frame: Frame,
        area: Area,
        new_bound: u32,
    },
    Instruction {
        frame: Frame,
        instruction: Box<HeapInstruction>,
    },
}

impl Call {
    /// Whether the call can change the memory that it is put to.
    pub fn changes(&self) -> bool {
        match self {
            Self::Instruction { instruction, .. } => instruction.op.stores(),
            _ => matches!(
                self,
                Self::Open { .. }
                    | Self::AllocateAt { .. }
                    | Self::AllocateWithContentAt { .. }
                    | Self::Deallocate { .. }
                    | Self::WriteU256 { .. }
                    | Self::WriteBytes { .. }
                    | Self::CompactToWindow { .. }
                    | Self::TruncateDynamicTo { .. }
                    | Self::Rollback { .. }
                    | Self::DeleteHistory
            ),
        }
    }
}

#[derive(Debug, Clone, PartialEq, Eq)]
pub enum Answer {
    Done,
    Word(Word),
    Byte(u8),
    Bytes(Vec<u8>),
    Number(u64),
    Snapshot {
        heap: u64,
        aux: u64,
    },
    Equal(bool),
    /// None for an undecodable page.
    Decoded(Option<Place>),
    Pointer(Pointer),
    /// Of `use_gas` and `grow_heap`: whether it was paid, and the frame afterwards.
    Paid(bool, Frame),
    /// The instruction was carried out; the value with which a hook stopped the run, if one did.
    Ran(Box<Left>, Option<u32>),
    /// The instruction panicked as EraVM does.
    EraPanic(Box<Left>),
    /// The Rust panicked; memory, frame and registers are as before the call.
    RustPanic(RustPanic),
    /// Not put to the Rust, and why. No comparison may count such a call.
    NotRun(&'static str),
}

/// The memories of one layout, numbered from 0, all answered by vm2's own files.
pub trait Bank {
    fn layout(&self) -> Layout;

    /// Answers a call on memory `at`; a memory that was not opened yet is opened without calldata.
    fn answer(&mut self, at: usize, call: &Call) -> Answer;

    /// The state of memory `at`, read from vm2's own fields.
    fn view(&mut self, at: usize) -> View;

    /// The memory and the frame that the latest Rust panic left, before both were put back.
    fn left_behind(&self) -> Option<(View, Frame)>;
}
