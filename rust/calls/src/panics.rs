//! Catching the Rust's panics, and telling which of document 01's refusals one is.

use std::{
    cell::{Cell, RefCell},
    panic::{self, AssertUnwindSafe, PanicHookInfo},
    path::Path,
    sync::Once,
};

use crate::{Call, Layout, Op};

/// A panic of the Rust.
#[derive(Debug, Clone, PartialEq, Eq)]
pub struct RustPanic {
    pub message: String,
    /// The name of the source file that panicked.
    pub file: String,
    /// Document 01's number; none for a panic that it does not know, which is a finding.
    pub refusal: Option<u8>,
}

thread_local! {
    static CATCHING: Cell<bool> = const { Cell::new(false) };
    static CAUGHT: RefCell<Option<RustPanic>> = const { RefCell::new(None) };
}

/// Runs `act`; a panic in it is noted and not printed.
pub fn catch<R>(act: impl FnOnce() -> R) -> Result<R, RustPanic> {
    static HOOK: Once = Once::new();
    HOOK.call_once(|| {
        let before = panic::take_hook();
        panic::set_hook(Box::new(move |info| {
            if CATCHING.get() {
                CAUGHT.set(Some(noted(info)));
            } else {
                before(info);
            }
        }));
    });

    let outer = CATCHING.replace(true);
    let result = panic::catch_unwind(AssertUnwindSafe(act));
    CATCHING.set(outer);
    result.map_err(|_| CAUGHT.take().expect("the hook notes each panic"))
}

fn noted(info: &PanicHookInfo<'_>) -> RustPanic {
    let message = info.payload_as_str().unwrap_or("a panic without text");
    let path = info.location().map_or("", |location| location.file());
    let file = Path::new(path).file_name().unwrap_or_default();
    RustPanic {
        message: message.to_owned(),
        file: file.to_string_lossy().into_owned(),
        refusal: None,
    }
}

/// The refusal that a panic of this call is, by its text and, where two share one, by the call.
///
/// One case is not decided here: a byte write that is both too long (8) and to an undecodable
/// page (4). The Rust finds the length first, document 01 the page; the bank asks the Rust again
/// with no bytes and takes that answer.
pub fn refusal(call: &Call, panic: &RustPanic, layout: &Layout) -> Option<u8> {
    let says = |text: &str| panic.message.contains(text);
    let overflow = panic.message.starts_with("attempt to ") && says("with overflow");
    if says("is not decodable") {
        return Some(4);
    }
    match call {
        Call::AllocateAt { page } | Call::AllocateWithContentAt { page, .. }
            if says("is already allocated") =>
        {
            // One text for both: the page's id decides.
            Some(if layout.is_fixed(*page) { 5 } else { 6 })
        }
        Call::Deallocate { .. } if says("must remain allocated") => Some(5),
        Call::Deallocate { .. } if says("is not allocated") => Some(7),
        Call::WriteBytes { .. } if says("heap write address overflow") => Some(8),
        Call::ReadU256Partially { .. } if says("out of range for slice") => Some(8),
        Call::Rollback { .. } if says("out of range for slice") => Some(12),
        Call::TruncateDynamicTo { .. } if says("cannot restore dynamic heap length") => Some(13),
        Call::PageIds(_) if overflow && panic.file == "page_ids.rs" => Some(4),
        Call::Instruction { .. } if NOT_TAKEN.into_iter().any(says) => Some(16),
        Call::Instruction { instruction, .. } => match instruction.op {
            Op::LoadPointer if overflow => Some(14),
            Op::Store { .. } if says("casting to u32") => Some(15),
            _ => None,
        },
        _ => None,
    }
}

/// Said by a constructor whose type takes registers alone, where it is given another form.
pub const TAKES_A_REGISTER: &str = "the constructor takes nothing but a register here";

/// What is said of a place that an instruction does not take: by `Register::new`, by the conversion to
/// `RegisterOrImmediate`, and for the constructors.
const NOT_TAKEN: [&str; 3] = ["EraVM has 16 registers", "NotRegisterOrImmediate", TAKES_A_REGISTER];
