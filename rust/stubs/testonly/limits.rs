//! Calls that would take more memory than there is: the Rust would end the process, not panic.

use calls::{Area, Call, Op};

use super::LAYOUT;

/// Groups that the Rust is let allocate: it keeps 72 bytes for each one up to the highest.
const MAX_GROUP: u32 = 1 << 20;

/// Bytes of one read.
const MAX_READ: u32 = 1 << 26;

/// The chunk number of the last byte that a word can reach.
const LAST_CHUNK: u32 = 1 << 24;

/// Why a call is not put to the Rust, if it is not.
pub(super) fn too_much(call: &Call) -> Option<&'static str> {
    match call {
        Call::AllocateAt { page }
        | Call::AllocateWithContentAt { page, .. }
        | Call::Deallocate { page }
        | Call::WriteU256 { page, .. }
        | Call::WriteBytes { page, .. }
        | Call::Decode { page } => far_group(*page),
        Call::ReadRangeBigEndian { start, end, .. } if end.saturating_sub(*start) > MAX_READ => {
            Some("the read is longer than 64 MiB")
        }
        Call::Chunk { number, .. } if *number > LAST_CHUNK => {
            Some("no read of the Rust reaches this chunk")
        }
        Call::Instruction { frame, instruction } => match instruction.op {
            Op::Store { area: Area::Aux, hook: Some(_) } => {
                Some("the Rust has no aux store with a hook")
            }
            Op::Store { area: Area::Aux, .. } => far_group(frame.aux),
            Op::Store { area: Area::Heap, .. } => far_group(frame.heap),
            _ => None,
        },
        _ => None,
    }
}

fn far_group(page: u32) -> Option<&'static str> {
    if LAYOUT.is_fixed(page) {
        return None;
    }
    let rel = page.checked_sub(LAYOUT.base)?;
    let allocates = matches!(rel % LAYOUT.stride, 0 | 2 | 3);
    (allocates && rel / LAYOUT.stride > MAX_GROUP)
        .then_some("the Rust would allocate every group up to this one")
}
