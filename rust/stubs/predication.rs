//! Stub: the one predicate in use, which is always met.

#[derive(Debug, Clone, PartialEq)]
pub(crate) struct Flags;

impl Flags {
    pub(crate) fn new(_lt_of: bool, _eq: bool, _gt: bool) -> Self {
        Self
    }
}

/// One byte wide: `addressing_modes.rs` packs it into its arguments and casts it back.
#[derive(Debug, Clone, Copy)]
#[repr(u8)]
pub enum Predicate {
    Always = 0,
}

impl Predicate {
    pub(crate) fn satisfied(self, _flags: &Flags) -> bool {
        true
    }
}
