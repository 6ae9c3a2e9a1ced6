//! Stub: a stack that holds nothing. Operands are registers and immediates.

use primitive_types::U256;

#[derive(Debug, Clone)]
pub(crate) struct Stack;

impl Stack {
    pub(crate) fn get(&self, _slot: u16) -> U256 {
        unreachable!("no operand here is on the stack")
    }

    pub(crate) fn set(&mut self, _slot: u16, _value: U256) {
        unreachable!("no operand here is on the stack")
    }

    pub(crate) fn get_pointer_flag(&self, _slot: u16) -> bool {
        unreachable!("no operand here is on the stack")
    }

    pub(crate) fn set_pointer_flag(&mut self, _slot: u16) {
        unreachable!("no operand here is on the stack")
    }

    pub(crate) fn clear_pointer_flag(&mut self, _slot: u16) {
        unreachable!("no operand here is on the stack")
    }
}

#[derive(Debug, Default)]
pub(crate) struct StackPool;

impl StackPool {
    pub(crate) fn get(&mut self) -> Box<Stack> {
        Box::new(Stack)
    }

    pub(crate) fn recycle(&mut self, _stack: Box<Stack>) {}
}
