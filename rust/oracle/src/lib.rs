//! vm2's own files, unchanged, answering calls for each layout.
//!
//! ```
//! use oracle::{Answer, Call};
//!
//! let mut bank = oracle::bank("example").unwrap();
//! let write = Call::WriteBytes { page: 66, start: 255, bytes: vec![1, 2] };
//! assert_eq!(bank.answer(0, &write), Answer::Done);
//! assert_eq!(bank.answer(0, &Call::ReadByte { page: 66, address: 256 }), Answer::Byte(2));
//! ```

pub use calls::*;

/// The layouts' names, as in `layouts.txt`.
pub const LAYOUTS: [&str; 5] = ["example", "inside", "top", "packed", "wide"];

/// A bank of memories of the layout with this name, or none if there is no such layout.
pub fn bank(layout: &str) -> Option<Box<dyn Bank>> {
    Some(match layout {
        "example" => Box::new(vm2_example::testonly::Memories::new()),
        "inside" => Box::new(vm2_inside::testonly::Memories::new()),
        "top" => Box::new(vm2_top::testonly::Memories::new()),
        "packed" => Box::new(vm2_packed::testonly::Memories::new()),
        "wide" => Box::new(vm2_wide::testonly::Memories::new()),
        _ => return None,
    })
}
