//! The six numbers of a layout, and the places that a memory has.

use std::fmt;

/// In document 01's order.
#[derive(Debug, Clone, Copy, PartialEq, Eq)]
pub struct Layout {
    pub static_memory: u32,
    pub calldata: u32,
    pub bootloader_heap: u32,
    pub bootloader_aux: u32,
    pub base: u32,
    pub stride: u32,
}

/// The pages of a group.
#[derive(Debug, Clone, Copy, PartialEq, Eq, PartialOrd, Ord)]
pub enum Kind {
    Code,
    Heap,
    Aux,
}

/// Where vm2 keeps a page.
#[derive(Debug, Clone, Copy, PartialEq, Eq, PartialOrd, Ord)]
pub enum Place {
    Static,
    Calldata,
    BootloaderHeap,
    BootloaderAux,
    Dynamic { group: u32, kind: Kind },
}

impl Layout {
    pub fn is_fixed(&self, page: u32) -> bool {
        let Self { static_memory, calldata, bootloader_heap, bootloader_aux, .. } = *self;
        [static_memory, calldata, bootloader_heap, bootloader_aux].contains(&page)
    }

    /// The id of a place, or none where it would leave 32 bits.
    pub fn id(&self, place: Place) -> Option<u32> {
        match place {
            Place::Static => Some(self.static_memory),
            Place::Calldata => Some(self.calldata),
            Place::BootloaderHeap => Some(self.bootloader_heap),
            Place::BootloaderAux => Some(self.bootloader_aux),
            Place::Dynamic { group, kind } => {
                let first = group.checked_mul(self.stride)?.checked_add(self.base)?;
                first.checked_add(match kind {
                    Kind::Code => 0,
                    Kind::Heap => 2,
                    Kind::Aux => 3,
                })
            }
        }
    }
}

impl fmt::Display for Kind {
    fn fmt(&self, out: &mut fmt::Formatter<'_>) -> fmt::Result {
        out.write_str(match self {
            Self::Code => "code",
            Self::Heap => "heap",
            Self::Aux => "aux",
        })
    }
}

impl fmt::Display for Place {
    fn fmt(&self, out: &mut fmt::Formatter<'_>) -> fmt::Result {
        match self {
            Self::Static => out.write_str("static"),
            Self::Calldata => out.write_str("calldata"),
            Self::BootloaderHeap => out.write_str("bootheap"),
            Self::BootloaderAux => out.write_str("bootaux"),
            Self::Dynamic { group, kind } => write!(out, "{kind}:{group}"),
        }
    }
}
