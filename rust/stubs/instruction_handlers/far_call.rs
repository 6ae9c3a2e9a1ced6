//! Stub: far calls, which stay Rust and are no part of the compared calls.

use primitive_types::U256;

use crate::{fat_pointer::FatPointer, VirtualMachine};

pub(crate) fn get_calldata<T, W>(
    _raw_abi: U256,
    _is_pointer: bool,
    _vm: &mut VirtualMachine<T, W>,
    _already_failed: bool,
) -> Option<FatPointer> {
    unreachable!("no call here returns from a frame")
}
