//! Stub: the list of the handlers that are built here.

pub(crate) mod common;
pub(crate) mod far_call;
pub(crate) mod heap_access;
pub(crate) mod monomorphization;
pub(crate) mod ret;
