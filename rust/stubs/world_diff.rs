//! Stub: storage, which stays Rust and is no part of the compared calls. Nothing is pinned.

use primitive_types::U256;
use zksync_vm2_interface::HeapId;

use crate::decommit::DecommitOpcodeOutcome;

#[derive(Debug, Default)]
pub struct WorldDiff;

#[derive(Debug, Clone)]
pub struct Snapshot;

#[derive(Debug)]
pub(crate) struct ExternalSnapshot;

#[derive(Debug)]
pub struct StorageChange;

#[derive(Debug)]
pub struct StorageWriteEntry;

impl WorldDiff {
    pub(crate) fn snapshot(&self) -> Snapshot {
        Snapshot
    }

    pub(crate) fn external_snapshot(&self) -> ExternalSnapshot {
        ExternalSnapshot
    }

    pub(crate) fn is_decommit_page_pinned(&self, _page: HeapId) -> bool {
        false
    }

    pub(crate) fn decommit_opcode<W, T>(
        &mut self,
        _world: &mut W,
        _tracer: &mut T,
        _code_hash: U256,
    ) -> DecommitOpcodeOutcome {
        unreachable!("no call here decommits code")
    }

    pub(crate) fn external_rollback(&mut self, _snapshot: ExternalSnapshot) {}

    pub(crate) fn rollback(&mut self, _snapshot: Snapshot) {}

    pub(crate) fn append_rollback_logs(&mut self, _snapshot: &Snapshot) {}

    pub(crate) fn delete_history(&mut self) {}

    pub(crate) fn clear_transient_storage(&mut self) {}
}
