//! Not vm2's module of this name, which is not at hand: ours, through which calls reach vm2's
//! private items. It only hands arguments over and answers back.

use std::hint::black_box;

use calls::{catch, refusal, view_of, Answer, Bank, Call, Frame, Layout, RustPanic, View};
use primitive_types::{H160, U256};
use zkevm_opcode_defs::{
    BOOTLOADER_AUX_HEAP_PAGE, BOOTLOADER_CALLDATA_PAGE, BOOTLOADER_HEAP_PAGE,
    NEW_MEMORY_PAGES_PER_FAR_CALL, STARTING_BASE_PAGE, STATIC_MEMORY_PAGE,
};
use zksync_vm2_interface::{HeapId, Tracer};

use crate::{
    heap::Heaps, page_ids, Program, Settings, StorageInterface, StorageSlot, VirtualMachine, World,
};

mod framed;
mod limits;
mod plain;
pub mod speed;

const LAYOUT: Layout = Layout {
    static_memory: STATIC_MEMORY_PAGE,
    calldata: BOOTLOADER_CALLDATA_PAGE,
    bootloader_heap: BOOTLOADER_HEAP_PAGE,
    bootloader_aux: BOOTLOADER_AUX_HEAP_PAGE,
    base: STARTING_BASE_PAGE,
    stride: NEW_MEMORY_PAGES_PER_FAR_CALL,
};

/// The function that the shim does not have, by its name: it ends with that when it is reached.
const ERASES: &str = "erase_fat_pointer_metadata";

/// A tracer that sees nothing and stops nothing.
#[derive(Debug)]
struct Quiet;

impl Tracer for Quiet {}

/// A world without storage or code.
#[derive(Debug)]
struct NoWorld;

impl StorageInterface for NoWorld {
    fn read_storage(&mut self, _contract: H160, _key: U256) -> StorageSlot {
        unreachable!("no call here reads storage")
    }

    fn cost_of_writing_storage(&mut self, _slot: StorageSlot, _value: U256) -> u32 {
        unreachable!("no call here writes storage")
    }

    fn is_free_storage_slot(&self, _contract: &H160, _key: &U256) -> bool {
        unreachable!("no call here writes storage")
    }
}

impl<T: Tracer> World<T> for NoWorld {
    fn decommit(&mut self, _hash: U256) -> Program<T, Self> {
        unreachable!("no call here decommits code")
    }

    fn decommit_code(&mut self, _hash: U256) -> Vec<u8> {
        unreachable!("no call here decommits code")
    }
}

type Vm = VirtualMachine<Quiet, NoWorld>;

fn open(calldata: &[u8]) -> Vm {
    let settings = Settings {
        default_aa_code_hash: [0; 32],
        evm_interpreter_code_hash: [0; 32],
        hook_address: 0,
    };
    let nobody = H160::default();
    Vm::new(nobody, Program::none(), nobody, calldata, 0, settings)
}

const fn id(page: u32) -> HeapId {
    HeapId::from_u32_unchecked(page)
}

/// A memory, and a second one that went through the same calls but for those that panicked. A
/// panic may leave the first half changed: then a copy of the second takes its place. (To copy
/// before every call would be slower by far.)
struct Memory {
    first: Vm,
    second: Vm,
}

impl Memory {
    fn open(calldata: &[u8]) -> Self {
        Self { first: open(calldata), second: open(calldata) }
    }
}

/// The memories of this build's layout.
pub struct Memories {
    memories: Vec<Memory>,
    broken: Option<Vm>,
}

impl Memories {
    /// Panics when vm2 was built without overflow checks, on which refusals 4 and 14 rest.
    #[allow(clippy::new_without_default)] // it may panic
    pub fn new() -> Self {
        let overflow = catch(|| page_ids::heap_page_from_base(black_box(u32::MAX)));
        assert!(overflow.is_err(), "vm2 must be built with overflow checks");
        Self { memories: Vec::new(), broken: None }
    }

    fn memory(&mut self, at: usize) -> &mut Memory {
        while self.memories.len() <= at {
            self.memories.push(Memory::open(&[]));
        }
        &mut self.memories[at]
    }

    fn ask(&mut self, at: usize, call: &Call) -> Answer {
        let memory = self.memory(at);
        match catch(|| carry_out(&mut memory.first, call)) {
            Ok(answer) => {
                if call.changes() {
                    let again = carry_out(&mut memory.second, call);
                    assert_eq!(answer, again, "one call on equal memories has one answer");
                }
                answer
            }
            Err(panic) => {
                let mut restored = open(&[]);
                restored.state = memory.second.state.clone();
                let broken = std::mem::replace(&mut memory.first, restored);
                if panic.message.contains(ERASES) {
                    return Answer::NotRun("the function that erases a pointer is not at hand");
                }
                self.broken = Some(broken);
                Answer::RustPanic(RustPanic { refusal: number(call, &panic), ..panic })
            }
        }
    }
}

impl Bank for Memories {
    fn layout(&self) -> Layout {
        LAYOUT
    }

    fn answer(&mut self, at: usize, call: &Call) -> Answer {
        if let Some(reason) = limits::too_much(call) {
            return Answer::NotRun(reason);
        }
        match call {
            Call::Open { calldata } => {
                *self.memory(at) = Memory::open(calldata);
                Answer::Done
            }
            Call::Compare { other } => {
                self.memory(at.max(*other));
                let [one, two] = [at, *other].map(|at| &self.memories[at].first.state.heaps);
                Answer::Equal(one == two)
            }
            _ => self.ask(at, call),
        }
    }

    fn view(&mut self, at: usize) -> View {
        view_of(&self.memory(at).first.state.heaps)
    }

    fn left_behind(&self) -> Option<(View, Frame)> {
        let vm = self.broken.as_ref()?;
        Some((view_of(&vm.state.heaps), framed::frame_of(vm)))
    }
}

fn carry_out(vm: &mut Vm, call: &Call) -> Answer {
    plain::read(&vm.state.heaps, call)
        .or_else(|| plain::change(&mut vm.state.heaps, call))
        .or_else(|| plain::apart(call))
        .or_else(|| framed::framed(vm, call))
        .expect("each call is of one of these sorts")
}

/// Document 01's number of a panic; see `calls::refusal` for the byte write.
fn number(call: &Call, panic: &RustPanic) -> Option<u8> {
    if let Call::WriteBytes { page, .. } = call {
        if let Err(empty) = catch(|| Heaps::new(&[]).write_bytes(id(*page), 0, &[])) {
            return refusal(call, &empty, &LAYOUT);
        }
    }
    refusal(call, panic, &LAYOUT)
}
