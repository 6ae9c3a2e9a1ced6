//! Stub: no mode is required.

#[derive(Debug, Clone, Copy)]
pub struct ModeRequirements(pub(crate) u8);

impl ModeRequirements {
    pub const fn none() -> Self {
        Self(0)
    }

    pub(crate) fn met(self, _is_kernel: bool, _is_static: bool) -> bool {
        true
    }
}
