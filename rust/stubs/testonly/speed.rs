//! vm2 for the benchmarks: its `Heaps`, where each function hands over to the original's of the same name, and its handlers of
//! two instructions.

use std::ops::Range;

use primitive_types::U256;
use zksync_vm2_interface::opcodes;

use super::{id, NoWorld, Quiet, Vm};
use crate::{
    addressing_modes::{Arguments, Register, Register1, Register2, RegisterOrImmediate},
    heap::Heaps,
    instruction::ExecutionStatus,
    instruction_handlers::common::boilerplate,
    Instruction, ModeRequirements, Predicate,
};

/// A memory of vm2.
#[derive(Debug, Clone)]
pub struct Plain(Heaps);

impl Plain {
    #[allow(clippy::new_without_default)] // as the original
    pub fn new() -> Self {
        Self(Heaps::new(&[]))
    }

    pub fn read_u256(&self, page: u32, address: u32) -> [u64; 4] {
        self.0[id(page)].read_u256(address).0
    }

    pub fn write_u256(&mut self, page: u32, address: u32, limbs: [u64; 4]) {
        self.0.write_u256(id(page), address, U256(limbs));
    }

    pub fn write_bytes(&mut self, page: u32, start: u32, bytes: &[u8]) {
        self.0.write_bytes(id(page), start, bytes);
    }

    pub fn read_range(&self, page: u32, range: Range<u32>) -> Vec<u8> {
        self.0[id(page)].read_range_big_endian(range)
    }

    pub fn deallocate(&mut self, page: u32) {
        self.0.deallocate(id(page));
    }

    /// Rolls back to the start of both journals.
    pub fn rollback_to_start(&mut self) {
        self.0.rollback((0, 0));
    }
}

// The registers in use.
const OPERAND: u8 = 1;
const VALUE: u8 = 2;
const OUT: u8 = 3;
const NEXT: u8 = 4;

/// An instruction, and one after it at which the program counter then stands.
type Code = Box<[Instruction<Quiet, NoWorld>; 2]>;

fn code(instruction: Instruction<Quiet, NoWorld>) -> Code {
    Box::new([instruction, Instruction::from_invalid()])
}

/// What every handler of vm2 does, around nothing. vm2's own handler of the no-op is not at hand.
fn no_op(vm: &mut Vm, world: &mut NoWorld, tracer: &mut Quiet) -> ExecutionStatus {
    boilerplate::<opcodes::Nop, _, _>(vm, world, tracer, |_, _| {})
}

/// A machine of vm2 that runs the heap load and the heap store, both with an increment, by vm2's own handlers. It also runs an
/// instruction that does nothing.
pub struct Machine {
    vm: Vm,
    load: Code,
    store: Code,
    no_op: Code,
}

impl Machine {
    /// Its heap is this page, whose bound no access passes, and it has 1,000 gas. The fixed costs are 0.
    pub fn new(page: u32) -> Self {
        let mut vm = super::open(&[]);
        let frame = &mut vm.state.current_frame;
        (frame.gas, frame.heap, frame.heap_size) = (1000, id(page), u32::MAX);

        let arguments = || Arguments::new(Predicate::Always, 0, ModeRequirements::none());
        let operand = || RegisterOrImmediate::Register1(Register1(Register::new(OPERAND)));
        let value = Register2(Register::new(VALUE));
        let out = || Register1(Register::new(OUT));
        let next = Register2(Register::new(NEXT));
        let load = Instruction::from_heap_read(operand(), out(), Some(next), arguments());
        let store = Instruction::from_heap_write(operand(), value, Some(out()), arguments(), false);
        let no_op = Instruction { handler: no_op, arguments: arguments() };
        Self { vm, load: code(load), store: code(store), no_op: code(no_op) }
    }

    pub fn gas(&self) -> u32 {
        self.vm.state.current_frame.gas
    }

    fn register(&self, number: u8) -> &[u64; 4] {
        &self.vm.state.registers[usize::from(number)].0
    }

    fn set(&mut self, number: u8, limbs: [u64; 4]) {
        self.vm.state.registers[usize::from(number)] = U256(limbs);
    }

    /// Loads the word at an address: that word, and the address plus 32, in their registers.
    pub fn load(&mut self, address: u32) -> [&[u64; 4]; 2] {
        self.set(OPERAND, [address.into(), 0, 0, 0]);
        self.vm.state.current_frame.pc = &self.load[0];
        _ = (self.load[0].handler)(&mut self.vm, &mut NoWorld, &mut Quiet);
        [self.register(OUT), self.register(NEXT)]
    }

    /// Stores a word at an address: the address plus 32, in its register.
    pub fn store(&mut self, address: u32, limbs: [u64; 4]) -> &[u64; 4] {
        self.set(OPERAND, [address.into(), 0, 0, 0]);
        self.set(VALUE, limbs);
        self.vm.state.current_frame.pc = &self.store[0];
        _ = (self.store[0].handler)(&mut self.vm, &mut NoWorld, &mut Quiet);
        self.register(OUT)
    }

    fn do_nothing(&mut self) {
        self.vm.state.current_frame.pc = &self.no_op[0];
        _ = (self.no_op[0].handler)(&mut self.vm, &mut NoWorld, &mut Quiet);
    }

    /// Sets and shows the registers as [`load`](Self::load) does, and does nothing between.
    pub fn no_load(&mut self, address: u32) -> [&[u64; 4]; 2] {
        self.set(OPERAND, [address.into(), 0, 0, 0]);
        self.do_nothing();
        [self.register(OUT), self.register(NEXT)]
    }

    /// Sets and shows the registers as [`store`](Self::store) does, and does nothing between.
    pub fn no_store(&mut self, address: u32, limbs: [u64; 4]) -> &[u64; 4] {
        self.set(OPERAND, [address.into(), 0, 0, 0]);
        self.set(VALUE, limbs);
        self.do_nothing();
        self.register(OUT)
    }
}
