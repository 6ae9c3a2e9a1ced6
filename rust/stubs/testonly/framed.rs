//! Calls with a frame: gas, growth, and the five instructions through vm2's own constructors.

use std::ptr;

use calls::{
    form, Answer, Area, Call, Form, Frame, HeapInstruction, Left, Op, Places, Registers, Word,
    TAKES_A_REGISTER,
};
use primitive_types::U256;

use super::{id, NoWorld, Quiet, Vm};
use crate::{
    addressing_modes::{
        AbsoluteStack, AdvanceStackPointer, AnySource, Arguments, CodePage, Immediate1, Register,
        Register1, Register2, RegisterAndImmediate, RegisterOrImmediate, RelativeStack,
    },
    instruction::ExecutionStatus,
    instruction_handlers::{
        heap_access::{grow_heap, AuxHeap, Heap},
        ret::spontaneous_panic,
    },
    ExecutionEnd, Instruction, ModeRequirements, Predicate,
};

pub(super) fn frame_of(vm: &Vm) -> Frame {
    let frame = &vm.state.current_frame;
    Frame {
        gas: frame.gas,
        heap: frame.heap.as_u32(),
        aux: frame.aux_heap.as_u32(),
        heap_bound: frame.heap_size,
        aux_bound: frame.aux_heap_size,
    }
}

fn set_frame(vm: &mut Vm, given: &Frame) {
    let frame = &mut vm.state.current_frame;
    frame.gas = given.gas;
    frame.heap = id(given.heap);
    frame.aux_heap = id(given.aux);
    frame.heap_size = given.heap_bound;
    frame.aux_heap_size = given.aux_bound;
}

pub(super) fn framed(vm: &mut Vm, call: &Call) -> Option<Answer> {
    match call {
        Call::UseGas { frame, amount } => {
            set_frame(vm, frame);
            let paid = vm.state.use_gas(*amount).is_ok();
            Some(Answer::Paid(paid, frame_of(vm)))
        }
        Call::GrowHeap { frame, area, new_bound } => {
            set_frame(vm, frame);
            let grown = match area {
                Area::Heap => grow_heap::<_, _, Heap>(&mut vm.state, *new_bound),
                Area::Aux => grow_heap::<_, _, AuxHeap>(&mut vm.state, *new_bound),
            };
            Some(Answer::Paid(grown.is_ok(), frame_of(vm)))
        }
        Call::Instruction { frame, instruction } => {
            set_frame(vm, frame);
            set_registers(vm, instruction);
            Some(run(vm, instruction))
        }
        _ => None,
    }
}

fn set_registers(vm: &mut Vm, instruction: &HeapInstruction) {
    let state = &mut vm.state;
    state.registers = instruction.registers.words.map(|word| U256(word.0));
    state.register_pointer_flags = instruction.registers.flags;
    state.current_frame.is_kernel = instruction.kernel;
    vm.settings.hook_address = match instruction.op {
        Op::Store { hook, .. } => hook.unwrap_or_default(),
        _ => 0,
    };
}

/// The register of a place where vm2's types take nothing else. Its own assertion refuses numbers from
/// 16 on; those of more than 8 bits cannot be given to it, and the greatest stands for them.
fn register(code: u32) -> Register {
    match form(code) {
        Form::Register(number) => Register::new(u8::try_from(number).unwrap_or(u8::MAX)),
        Form::Immediate(_) | Form::Other(_) => panic!("{TAKES_A_REGISTER}"),
    }
}

/// A source in any form that the EraVM has. The codes of other forms stand for its four in turn.
fn any_source(code: u32) -> AnySource {
    let at = RegisterAndImmediate { immediate: 0, register: Register::new(1) };
    match form(code) {
        Form::Register(_) => AnySource::Register1(Register1(register(code))),
        Form::Immediate(number) => AnySource::Immediate1(Immediate1(number)),
        Form::Other(code) => match code % 4 {
            0 => AnySource::AbsoluteStack(AbsoluteStack(at)),
            1 => AnySource::RelativeStack(RelativeStack(at)),
            2 => AnySource::AdvanceStackPointer(AdvanceStackPointer(at)),
            _ => AnySource::CodePage(CodePage(at)),
        },
    }
}

fn source(code: u32) -> RegisterOrImmediate {
    RegisterOrImmediate::try_from(any_source(code)).expect("a heap instruction's source")
}

/// Builds the instruction by vm2's constructors. Panics where they do not take a place.
fn build(instruction: &HeapInstruction) -> Instruction<Quiet, NoWorld> {
    let Places { source: from, value, dst0, dst1 } = instruction.places;
    let (out, next) = (Register1(register(dst0)), Register2(register(dst1)));
    // No static cost, so that the frame's gas tells the growth alone. vm2's decoder stores the second
    // output of every instruction; its constructors do so only where it is written.
    let arguments = Arguments::new(Predicate::Always, 0, ModeRequirements::none());
    let arguments = arguments.write_destination(&next);
    let next = instruction.increment.then_some(next);
    let stored = instruction.increment.then_some(out);
    let value = || Register2(register(value));
    match instruction.op {
        Op::Load(Area::Heap) => Instruction::from_heap_read(source(from), out, next, arguments),
        Op::Load(Area::Aux) => Instruction::from_aux_heap_read(source(from), out, next, arguments),
        Op::Store { area: Area::Heap, hook } => {
            let hooking = hook.is_some();
            Instruction::from_heap_write(source(from), value(), stored, arguments, hooking)
        }
        Op::Store { area: Area::Aux, .. } => {
            Instruction::from_aux_heap_store(source(from), value(), stored, arguments)
        }
        Op::LoadPointer => {
            Instruction::from_pointer_read(Register1(register(from)), out, next, arguments)
        }
        Op::LoadStatic => Instruction::from_static_memory_read(source(from), out, next, arguments),
        Op::StoreStatic => {
            Instruction::from_static_memory_write(source(from), value(), stored, arguments)
        }
    }
}

/// Runs one instruction. Where the program counter stands afterwards tells an EraVM panic: at
/// vm2's own panic instruction, which is not run, or else at the instruction that follows.
fn run(vm: &mut Vm, instruction: &HeapInstruction) -> Answer {
    let code = [build(instruction), Instruction::from_invalid()];
    vm.state.current_frame.pc = &code[0];
    let status = (code[0].handler)(vm, &mut NoWorld, &mut Quiet);
    let pc = std::mem::replace(&mut vm.state.current_frame.pc, ptr::null());

    let went_on = ptr::eq(pc, &code[1]);
    match status {
        ExecutionStatus::Running if went_on => Answer::Ran(left(vm), None),
        ExecutionStatus::Running if ptr::eq(pc, spontaneous_panic()) => Answer::EraPanic(left(vm)),
        ExecutionStatus::Stopped(ExecutionEnd::SuspendedOnHook(value)) if went_on => {
            Answer::Ran(left(vm), Some(value))
        }
        _ => panic!("an instruction ended in a way that is not known here: {status:?}"),
    }
}

fn left(vm: &Vm) -> Box<Left> {
    let words = vm.state.registers.map(|word| Word(word.0));
    let registers = Registers { words, flags: vm.state.register_pointer_flags };
    Left { frame: frame_of(vm), registers }.into()
}
