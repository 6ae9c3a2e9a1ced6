//! Stub: `lib.rs` declares this module, and no file that is built here uses it.
