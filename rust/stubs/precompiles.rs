//! Stub: precompiles, which are no part of the compared calls.

pub trait Precompiles {}

pub struct LegacyPrecompiles;

impl Precompiles for LegacyPrecompiles {}
