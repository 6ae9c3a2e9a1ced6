//! What vm2's files use of `zksync_vm2_interface`, written anew: the crate itself is not at hand.

use zkevm_opcode_defs::{BOOTLOADER_AUX_HEAP_PAGE, BOOTLOADER_CALLDATA_PAGE, BOOTLOADER_HEAP_PAGE};

/// Page id; `fat_pointer.rs` relies on its being laid out as a `u32`.
#[derive(Debug, Clone, Copy, PartialEq, Eq, Hash)]
#[repr(transparent)]
pub struct HeapId(u32);

/// Document 01 takes these as the layout's own ids.
impl HeapId {
    pub const FIRST_CALLDATA: Self = Self(BOOTLOADER_CALLDATA_PAGE);
    pub const FIRST: Self = Self(BOOTLOADER_HEAP_PAGE);
    pub const FIRST_AUX: Self = Self(BOOTLOADER_AUX_HEAP_PAGE);

    pub const fn from_u32_unchecked(id: u32) -> Self {
        Self(id)
    }

    pub const fn as_u32(self) -> u32 {
        self.0
    }
}

/// Observer of instructions. The one in use sees nothing and never stops a run.
pub trait Tracer {
    fn before_instruction<O: OpcodeType, S>(&mut self, _state: &mut S) {}

    fn after_instruction<O: OpcodeType, S>(&mut self, _state: &mut S) -> ShouldStop {
        ShouldStop::Continue
    }
}

#[derive(Debug, Clone, Copy, PartialEq, Eq)]
pub enum ShouldStop {
    Stop,
    Continue,
}

/// A type that names an opcode.
pub trait OpcodeType {}

#[derive(Debug, Clone, Copy, PartialEq, Eq)]
pub enum CallingMode {
    Normal,
    Delegate,
    Mimic,
}

#[derive(Debug, Clone, Copy, PartialEq, Eq)]
pub enum ReturnType {
    Normal,
    Revert,
    Panic,
}

impl ReturnType {
    pub fn is_failure(self) -> bool {
        self != Self::Normal
    }
}

/// The opcodes that the files name, as types for tracers.
pub mod opcodes {
    use std::marker::PhantomData;

    use super::{CallingMode, OpcodeType, ReturnType};

    macro_rules! opcodes {
        ($($name:ident)*) => {
            $(
                pub struct $name;
                impl OpcodeType for $name {}
            )*
        };
    }

    opcodes! {
        Nop HeapRead HeapWrite AuxHeapRead AuxHeapWrite PointerRead
        StaticMemoryRead StaticMemoryWrite
    }

    pub struct Ret<R>(PhantomData<R>);

    impl<R: TypeLevelReturnType> OpcodeType for Ret<R> {}

    pub trait TypeLevelReturnType {
        const VALUE: ReturnType;
    }

    macro_rules! return_types {
        ($($name:ident)*) => {
            $(
                pub struct $name;
                impl TypeLevelReturnType for $name {
                    const VALUE: ReturnType = ReturnType::$name;
                }
            )*
        };
    }

    return_types!(Normal Revert Panic);

    pub trait TypeLevelCallingMode {
        const VALUE: CallingMode;
    }
}
