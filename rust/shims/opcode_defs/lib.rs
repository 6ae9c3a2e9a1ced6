//! What vm2's files use of `zkevm_opcode_defs`, written anew: the crate itself is not at hand.

use primitive_types::U256;

// The six constants of this build's layout, written by `rust/prepare` from `layouts.txt`.
include!(concat!(env!("CARGO_MANIFEST_DIR"), "/layout.rs"));

/// Read by one compile-time assertion of `common.rs` alone, which any large number meets.
pub const VM_MAX_STACK_DEPTH: u32 = u32::MAX;

/// Its text is not at hand. vm2 calls it outside kernel mode alone, for a tagged word that is
/// read as a plain one; a call that reaches it counts as not run.
pub fn erase_fat_pointer_metadata(_word: &mut U256) {
    panic!("erase_fat_pointer_metadata is not at hand");
}
