//! Stub: `lib.rs` declares this module for vm2's tests, which are not at hand.
