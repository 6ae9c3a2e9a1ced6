//! Stub: a program without contents. Instructions are run one by one, from outside.

use std::marker::PhantomData;

use primitive_types::U256;

#[derive(Debug)]
pub struct Program<T, W>(PhantomData<fn() -> (T, W)>);

impl<T, W> Program<T, W> {
    pub(crate) fn none() -> Self {
        Self(PhantomData)
    }

    pub(crate) fn code_page(&self) -> &[U256] {
        unreachable!("no operand here is in a code page")
    }
}

// By hand, since a derive would ask the same of `T` and `W`.
impl<T, W> Clone for Program<T, W> {
    fn clone(&self) -> Self {
        Self::none()
    }
}
