//! Stub: loading of code, which is no part of the compared calls.

use primitive_types::{H160, U256};
use zksync_vm2_interface::HeapId;

use crate::VirtualMachine;

#[derive(Debug)]
pub enum DecommitOpcodeOutcome {
    Fresh(Vec<u8>),
    Cached(()),
}

pub(crate) fn materialize_decommit_page<T, W>(
    _vm: &mut VirtualMachine<T, W>,
    _code_hash: U256,
    _code: &[u8],
    _page: HeapId,
) {
    unreachable!("no call here decommits code")
}

pub(crate) fn u256_into_address(_word: U256) -> H160 {
    unreachable!("no call here is a far call")
}
