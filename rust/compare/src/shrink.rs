//! A list that the two sides answer differently, made as small as it will go: calls are dropped,
//! then arguments simplified, as long as something still differs.

use std::time::{Duration, Instant};

use oracle::{Bank, Call, Frame, HeapInstruction, Op, PageIds, Places, Pointer, Registers, Word};

use crate::{
    list::{Finding, List, Step},
    pair::{rerun, Looks},
};

/// A list is not made smaller for longer than this.
const LONGEST: Duration = Duration::from_secs(60);

struct Shrinker<'a> {
    bank: &'a mut dyn Bank,
    looks: Looks,
    best: Finding,
    until: Instant,
}

/// The smallest list found in which something still differs. `looks` is `Always`, unless vm2 holds
/// too much for it.
pub fn shrink(bank: &mut dyn Bank, looks: Looks, finding: Finding) -> Finding {
    let until = Instant::now() + LONGEST;
    let mut shrinker = Shrinker { bank, looks, best: finding, until };
    let whole = shrinker.best.list.clone();
    if !shrinker.keeps(whole) {
        return shrinker.best;
    }
    loop {
        let dropped = shrinker.drop_calls();
        let simplified = shrinker.simplify_calls();
        if !dropped && !simplified {
            return shrinker.best;
        }
    }
}

impl Shrinker<'_> {
    /// Takes the list, cut behind the call where something differs, if something does.
    fn keeps(&mut self, list: List) -> bool {
        if Instant::now() > self.until {
            return false;
        }
        match rerun(self.bank, &list, self.looks) {
            Some(finding) => {
                self.best = *finding;
                true
            }
            None => false,
        }
    }

    fn steps(&self) -> &[Step] {
        &self.best.list.steps
    }

    fn drop_calls(&mut self) -> bool {
        let mut dropped = false;
        let mut many = self.steps().len().div_ceil(2);
        while many > 0 {
            let mut at = 0;
            while at < self.steps().len() {
                let mut list = self.best.list.clone();
                list.steps.drain(at..(at + many).min(list.steps.len()));
                if self.keeps(list) {
                    dropped = true;
                } else {
                    at += many;
                }
            }
            many /= 2;
        }
        dropped
    }

    fn simplify_calls(&mut self) -> bool {
        let mut simplified = false;
        let mut at = 0;
        while at < self.steps().len() {
            let simpler = simpler(&self.steps()[at]);
            let kept = simpler.into_iter().any(|step| {
                let mut list = self.best.list.clone();
                list.steps[at] = step;
                self.keeps(list)
            });
            if kept {
                simplified = true;
            } else {
                at += 1;
            }
        }
        simplified
    }
}

/// The step with one argument simplified, in every way. Each way leads to something smaller, so that
/// there is an end to it.
fn simpler(step: &Step) -> Vec<Step> {
    let mut steps = Vec::new();
    if step.marked {
        steps.push(Step { marked: false, ..step.clone() });
    }
    if step.memory != 0 {
        steps.push(Step { memory: 0, ..step.clone() });
    }
    let mut put = |change: &dyn Fn(&mut Call) -> bool| {
        let mut call = step.call.clone();
        if change(&mut call) && call != step.call {
            steps.push(Step { call, ..step.clone() });
        }
    };
    for smaller in SMALLER {
        for at in 0..numbers(&mut step.call.clone()).len() {
            put(&|call| set(numbers(call).swap_remove(at), |number| smaller(number.into()) as u32));
        }
        for at in 0..long_numbers(&mut step.call.clone()).len() {
            put(&|call| set(long_numbers(call).swap_remove(at), smaller));
        }
    }
    for at in 0..words(&mut step.call.clone()).len() {
        for simpler in SIMPLER {
            put(&|call| set(words(call).swap_remove(at), simpler));
        }
    }
    for shorter in SHORTER {
        put(&|call| bytes(call).is_some_and(|bytes| set(bytes, shorter)));
    }
    for plainer in PLAINER {
        put(&|call| instruction(call).is_some_and(|run| set(run, plainer)));
    }
    for at in 0..16 {
        let unset = |flags| flags & !(1 << at);
        put(&|call| instruction(call).is_some_and(|run| set(&mut run.registers.flags, unset)));
    }
    steps
}

/// Ways to make a number smaller.
const SMALLER: [fn(u64) -> u64; 5] = [
    |_| 0,
    |number| number / 2,
    |number| number & !255,
    |number| number - number / 16,
    |number| number.clamp(1, 300) - 1,
];

/// Ways to make a word simpler, of which 0 is the simplest.
const SIMPLER: [fn(Word) -> Word; 3] =
    [|_| Word([0; 4]), |word| Word([word.0[0].min(1), 0, 0, 0]), |word| Word([word.0[0], 0, 0, 0])];

/// Ways to make bytes fewer or simpler.
const SHORTER: [fn(Vec<u8>) -> Vec<u8>; 3] = [
    |bytes| bytes[..bytes.len() / 2].into(),
    |bytes| bytes[..bytes.len().saturating_sub(1)].into(),
    |bytes| vec![1; bytes.len()],
];

/// Ways to make an instruction plainer: no hook, no increment, kernel mode, no flags.
const PLAINER: [fn(HeapInstruction) -> HeapInstruction; 4] = [
    |mut run| {
        if let Op::Store { hook, .. } = &mut run.op {
            *hook = None;
        }
        run
    },
    |run| HeapInstruction { increment: false, ..run },
    |run| HeapInstruction { kernel: true, ..run },
    |run| {
        let registers = Registers { flags: 0, ..run.registers };
        HeapInstruction { registers, ..run }
    },
];

fn set<T: Clone>(place: &mut T, change: impl Fn(T) -> T) -> bool {
    *place = change(place.clone());
    true
}

fn instruction(call: &mut Call) -> Option<&mut HeapInstruction> {
    match call {
        Call::Instruction { instruction, .. } => Some(instruction),
        _ => None,
    }
}

/// The 32-bit numbers of a call.
fn numbers(call: &mut Call) -> Vec<&mut u32> {
    match call {
        Call::AllocateAt { page }
        | Call::AllocateWithContentAt { page, .. }
        | Call::Deallocate { page }
        | Call::Decode { page } => vec![page],
        Call::ReadU256 { page, address }
        | Call::ReadByte { page, address }
        | Call::WriteU256 { page, address, .. }
        | Call::WriteBytes { page, start: address, .. }
        | Call::Chunk { page, number: address } => vec![address, page],
        Call::ReadU256Partially { page, start, end }
        | Call::ReadRangeBigEndian { page, start, end }
        | Call::CompactToWindow { page, start, length: end } => vec![end, start, page],
        Call::PageIds(
            PageIds::HeapPageFromBase(number)
            | PageIds::AuxHeapPageFromBase(number)
            | PageIds::CodePageFromBase(number)
            | PageIds::BasePageFromHeap(number)
            | PageIds::NextPageGroup(number),
        ) => vec![number],
        Call::FatPointerInto { pointer: Pointer { offset, page, start, length } } => {
            vec![offset, page, start, length]
        }
        Call::UseGas { frame, amount: number }
        | Call::GrowHeap { frame, new_bound: number, .. } => {
            let mut numbers = frame_numbers(frame);
            numbers.push(number);
            numbers
        }
        Call::Instruction { frame, instruction } => {
            let Places { source, value, dst0, dst1 } = &mut instruction.places;
            let mut numbers = frame_numbers(frame);
            numbers.extend([source, value, dst0, dst1]);
            numbers
        }
        _ => Vec::new(),
    }
}

/// The 64-bit numbers of a call.
fn long_numbers(call: &mut Call) -> Vec<&mut u64> {
    match call {
        Call::TruncateDynamicTo { len } => vec![len],
        Call::Rollback { heap, aux } => vec![heap, aux],
        _ => Vec::new(),
    }
}

fn frame_numbers(frame: &mut Frame) -> Vec<&mut u32> {
    let Frame { gas, heap, aux, heap_bound, aux_bound } = frame;
    vec![gas, heap, aux, heap_bound, aux_bound]
}

/// The words of a call.
fn words(call: &mut Call) -> Vec<&mut Word> {
    match call {
        Call::WriteU256 { value, .. } => vec![value],
        Call::FatPointerFrom { word } => vec![word],
        Call::Instruction { instruction, .. } => instruction.registers.words.iter_mut().collect(),
        _ => Vec::new(),
    }
}

fn bytes(call: &mut Call) -> Option<&mut Vec<u8>> {
    match call {
        Call::Open { calldata: bytes }
        | Call::AllocateWithContentAt { content: bytes, .. }
        | Call::WriteBytes { bytes, .. } => Some(bytes),
        _ => None,
    }
}
