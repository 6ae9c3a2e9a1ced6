//! Stub: what tracers are shown. The one in use looks at nothing.

use crate::VirtualMachine;

pub(crate) struct VmAndWorld<'a, T, W> {
    pub(crate) vm: &'a mut VirtualMachine<T, W>,
    pub(crate) world: &'a mut W,
}
