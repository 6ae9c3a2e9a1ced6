//! Memories that are owned and that were damaged all the same. Only a child of `memory` can do it.

use crate::{
    tests::{opened, refusals, registers, BREAKS, FRAME, HEAP, LOAD, LOAD_POINTER, STORE},
    Area, Error, PageId, Snapshot, Word,
};

#[test]
fn damage_is_found_wherever_the_test_is_made() {
    for damage in BREAKS {
        let mut broken = opened();
        assert_eq!(broken.check(), Ok(()));
        damage(broken.memory.buffers_mut());
        assert_eq!(broken.check(), Err(Error::NotFormed));
        // In all other builds the calls demand what was damaged here.
        if cfg!(any(debug_assertions, feature = "tested")) {
            let before = broken.clone();
            assert_eq!(refusals!(broken), [Some(Error::NotFormed); 24]);
            assert_eq!(broken.buffers(), before.buffers());
            let whole = opened();
            assert_eq!(whole.equal(&broken), Err(Error::NotFormed));
            assert_eq!(broken.equal(&whole), Err(Error::NotFormed));
        }
    }
}
