//! Stub: a frame with plain fields. The calls set those that document 01 names and read them back.

use primitive_types::H160;
use zksync_vm2_interface::HeapId;

use crate::{program::Program, stack::Stack, world_diff::Snapshot, Instruction};

#[derive(Debug)]
pub(crate) struct Callframe<T, W> {
    pub(crate) address: H160,
    pub(crate) caller: H160,
    pub(crate) exception_handler: u16,
    pub(crate) context_u128: u128,
    pub(crate) is_static: bool,
    pub(crate) is_kernel: bool,
    pub(crate) stack: Box<Stack>,
    pub(crate) sp: u16,
    pub(crate) gas: u32,
    pub(crate) pc: *const Instruction<T, W>,
    pub(crate) program: Program<T, W>,
    pub(crate) heap: HeapId,
    pub(crate) aux_heap: HeapId,
    pub(crate) heap_size: u32,
    pub(crate) aux_heap_size: u32,
    pub(crate) calldata_heap: HeapId,
    pub(crate) heaps_i_am_keeping_alive: Vec<HeapId>,
    pub(crate) world_before_this_frame: Snapshot,
}

pub(crate) struct FrameRemnant {
    pub(crate) exception_handler: u16,
    pub(crate) snapshot: Snapshot,
}

#[derive(Debug)]
pub(crate) struct CallframeSnapshot;

impl<T, W> Callframe<T, W> {
    #[allow(clippy::too_many_arguments)] // vm2's callers give these
    pub(crate) fn new(
        address: H160,
        _code_address: H160,
        caller: H160,
        program: Program<T, W>,
        stack: Box<Stack>,
        heap: HeapId,
        aux_heap: HeapId,
        calldata_heap: HeapId,
        gas: u32,
        exception_handler: u16,
        context_u128: u128,
        is_static: bool,
        _is_evm_blob_format: bool,
        world_before_this_frame: Snapshot,
    ) -> Self {
        Self {
            address,
            caller,
            exception_handler,
            context_u128,
            is_static,
            // Each instruction sets it.
            is_kernel: true,
            stack,
            sp: 0,
            gas,
            pc: std::ptr::null(),
            program,
            heap,
            aux_heap,
            heap_size: 0,
            aux_heap_size: 0,
            calldata_heap,
            heaps_i_am_keeping_alive: Vec::new(),
            world_before_this_frame,
        }
    }

    pub(crate) fn contained_gas(&self) -> u32 {
        unreachable!("no call here has an outer frame")
    }

    pub(crate) fn snapshot(&self) -> CallframeSnapshot {
        CallframeSnapshot
    }

    pub(crate) fn rollback(&mut self, _snapshot: CallframeSnapshot) -> Vec<HeapId> {
        unreachable!("no call here rolls a frame back")
    }

    pub(crate) fn pop_near_call(&mut self) -> Option<FrameRemnant> {
        unreachable!("no call here returns from a frame")
    }

    pub(crate) fn set_pc_from_u16(&mut self, _index: u16) {
        unreachable!("no call here jumps")
    }
}

// By hand, since a derive would ask the same of `T` and `W`.
impl<T, W> Clone for Callframe<T, W> {
    fn clone(&self) -> Self {
        Self {
            program: self.program.clone(),
            stack: self.stack.clone(),
            heaps_i_am_keeping_alive: self.heaps_i_am_keeping_alive.clone(),
            world_before_this_frame: self.world_before_this_frame.clone(),
            ..*self
        }
    }
}

impl<T, W> PartialEq for Callframe<T, W> {
    fn eq(&self, _other: &Self) -> bool {
        unreachable!("no call here compares frames")
    }
}
