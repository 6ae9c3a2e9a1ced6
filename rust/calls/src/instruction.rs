//! The five heap instructions: what they are given, and what they leave.

use crate::{Area, Call, Frame, Word};

/// The sixteen registers, and the set of their pointer flags: bit n is the flag of register n.
#[derive(Debug, Clone, Copy, Default, PartialEq, Eq)]
pub struct Registers {
    pub words: [Word; 16],
    pub flags: u16,
}

impl Registers {
    /// Word and flag of a register.
    pub fn get(&self, number: usize) -> (Word, bool) {
        (self.words[number], self.flags >> number & 1 == 1)
    }

    /// Gives a register a word and a flag before an instruction; register 0 too, which none writes.
    pub fn put(&mut self, number: usize, word: Word, tagged: bool) {
        self.words[number] = word;
        self.flags = self.flags & !(1 << number) | u16::from(tagged) << number;
    }
}

/// What the code of a place stands for. The codes are those of `include/zincpapaya.h`.
#[derive(Debug, Clone, Copy, PartialEq, Eq)]
pub enum Form {
    /// The number of a register, which may be above 15.
    Register(u16),
    Immediate(u16),
    /// Any other form. The EraVM has four of them, and the code tells which is meant.
    Other(u32),
}

/// The code of the immediate 0.
const FIRST_IMMEDIATE: u32 = 65_536;
/// The first code that is neither a register nor an immediate.
pub const OTHER_FORM: u32 = 131_072;

pub const fn form(code: u32) -> Form {
    match code {
        0..FIRST_IMMEDIATE => Form::Register(code as u16),
        FIRST_IMMEDIATE..OTHER_FORM => Form::Immediate((code - FIRST_IMMEDIATE) as u16),
        _ => Form::Other(code),
    }
}

/// The code of an immediate.
pub const fn immediate(number: u16) -> u32 {
    FIRST_IMMEDIATE + number as u32
}

/// The places of an instruction, as codes.
#[derive(Debug, Clone, Copy, Default, PartialEq, Eq)]
pub struct Places {
    pub source: u32,
    /// Of a store; 0 of a load, which has none.
    pub value: u32,
    pub dst0: u32,
    pub dst1: u32,
}

#[derive(Debug, Clone, Copy, PartialEq, Eq)]
pub enum Op {
    Load(Area),
    /// `hook` is the hook address when hooking is on.
    Store {
        area: Area,
        hook: Option<u32>,
    },
    LoadPointer,
    LoadStatic,
    StoreStatic,
}

impl Op {
    pub const fn stores(self) -> bool {
        matches!(self, Self::Store { .. } | Self::StoreStatic)
    }
}

/// One of the five heap instructions, with the registers that it is given.
#[derive(Debug, Clone, Copy, PartialEq, Eq)]
pub struct HeapInstruction {
    pub op: Op,
    pub registers: Registers,
    pub places: Places,
    /// Whether it gives the incremented operand.
    pub increment: bool,
    /// Whether its frame is in kernel mode.
    pub kernel: bool,
}

/// The first operand of an instruction that is told by its operands alone.
#[derive(Debug, Clone, Copy, PartialEq, Eq)]
pub enum Operand {
    Register { word: Word, tagged: bool },
    Immediate(u16),
}

// Where an instruction that is told by its operands alone has them, and puts what it gives.
const OPERAND: usize = 1;
const VALUE: usize = 2;
const OUT: usize = 3;
const NEXT: usize = 4;

impl HeapInstruction {
    /// An instruction told by its operands alone: the operand is in register 1 or an immediate, the
    /// value of a store in register 2, and registers 3 and 4 take what it gives. It increments, and its
    /// frame is in kernel mode.
    pub fn on_operands(op: Op, operand: Operand, value: Word) -> Self {
        let mut registers = Registers::default();
        let source = match operand {
            Operand::Register { word, tagged } => {
                registers.put(OPERAND, word, tagged);
                OPERAND as u32
            }
            Operand::Immediate(number) => immediate(number),
        };
        registers.put(VALUE, value, false);
        let value = if op.stores() { VALUE as u32 } else { 0 };
        let places = Places { source, value, dst0: OUT as u32, dst1: NEXT as u32 };
        Self { op, registers, places, increment: true, kernel: true }
    }

    pub fn incrementing(self, increment: bool) -> Self {
        Self { increment, ..self }
    }

    /// The call that runs it with this frame.
    pub fn on(self, frame: Frame) -> Call {
        Call::Instruction { frame, instruction: self.into() }
    }

    /// What it gave, if it was told by its operands alone and left these registers: the word of a load,
    /// and the incremented operand with its tag.
    pub fn given(&self, left: &Registers) -> (Option<Word>, Option<(Word, bool)>) {
        let loads = !self.op.stores();
        let next = left.get(if loads { NEXT } else { OUT });
        (loads.then(|| left.words[OUT]), self.increment.then_some(next))
    }
}

/// What an instruction left that was not refused: its frame, and all registers with their flags.
#[derive(Debug, Clone, Copy, PartialEq, Eq)]
pub struct Left {
    pub frame: Frame,
    pub registers: Registers,
}

#[cfg(test)]
mod tests {
    use super::*;

    #[test]
    fn codes_and_their_forms() {
        assert_eq!(form(0), Form::Register(0));
        assert_eq!(form(65_535), Form::Register(u16::MAX));
        assert_eq!(form(65_536), Form::Immediate(0));
        assert_eq!(form(131_071), Form::Immediate(u16::MAX));
        assert_eq!(form(131_072), Form::Other(131_072));
        assert_eq!(form(immediate(7)), Form::Immediate(7));
    }

    #[test]
    fn a_flag_is_put_and_taken_away() {
        let mut registers = Registers { flags: 0x8001, ..Registers::default() };
        registers.put(0, 7.into(), false);
        registers.put(4, 8.into(), true);
        assert_eq!(registers.flags, 0x8010);
        assert_eq!((registers.get(0), registers.get(4)), ((7.into(), false), (8.into(), true)));
    }
}
