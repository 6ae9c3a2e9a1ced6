//! The registers that the five heap instructions read and write, and the places that they name.

use std::mem::{align_of, offset_of, size_of};

use crate::{Operand, Word};

/// The sixteen registers of the EraVM, each with its pointer flag.
///
/// Register 0 holds 0 in the EraVM. No instruction writes it, and neither does [`set`](Self::set). But an
/// instruction reads it as it is, so leave it 0 where [`new`](Self::new) is given the words.
///
/// ```
/// use zincpapaya::{FatPointer, Operand, PageId, Registers, Word};
///
/// let mut registers = Registers::default();
/// registers.set(1, 4064);
/// registers.set(2, Word::from(7));
/// let pointer = FatPointer { offset: 0, memory_page: PageId(66), start: 10, length: 5 };
/// registers.set(3, pointer);
///
/// assert_eq!(registers.words()[1], Word::from(4064));
/// assert_eq!(registers.get(3), Operand { word: pointer.into_u256(), tagged: true });
/// assert_eq!(registers.pointer_flags(), 1 << 3);
/// ```
#[derive(Debug, Clone, Copy, Default, PartialEq, Eq, Hash)]
#[repr(C)]
pub struct Registers {
    words: [Word; 16],
    // The library takes a number of 64 bits, and neither reads nor changes those above 15. They are 0 here.
    pointer_flags: u64,
}

// The library takes registers as 65 numbers: the limbs of each word, the lowest first, and then the set of flags.
const _: () = {
    assert!(size_of::<Registers>() == Registers::NUMBERS * size_of::<u64>());
    assert!(align_of::<Registers>() == align_of::<u64>());
    assert!(offset_of!(Registers, words) == 0);
    assert!(offset_of!(Registers, pointer_flags) == 64 * size_of::<u64>());
    assert!(size_of::<Word>() == 4 * size_of::<u64>());
    assert!(align_of::<Word>() == align_of::<u64>());
    assert!(offset_of!(Word, 0) == 0);
};

impl Registers {
    /// How many numbers the library takes them as.
    pub(crate) const NUMBERS: usize = 65;

    /// Registers with these words. Bit n of `pointer_flags` is the flag of register n.
    pub const fn new(words: [Word; 16], pointer_flags: u16) -> Self {
        Self { words, pointer_flags: pointer_flags as u64 }
    }

    /// The words of all registers.
    pub const fn words(&self) -> &[Word; 16] {
        &self.words
    }

    /// The set of pointer flags: bit n is the flag of register n.
    pub const fn pointer_flags(&self) -> u16 {
        self.pointer_flags as u16
    }

    /// The word of a register, and its flag.
    ///
    /// # Panics
    ///
    /// Panics where the number is above 15: the EraVM has 16 registers.
    #[inline]
    pub fn get(&self, register: u8) -> Operand {
        let at = index(register);
        Operand { word: self.words[at], tagged: self.pointer_flags >> at & 1 == 1 }
    }

    /// Writes a register and its flag. Register 0 stays as it is: no instruction writes it either.
    ///
    /// # Panics
    ///
    /// Panics where the number is above 15: the EraVM has 16 registers.
    #[inline]
    pub fn set(&mut self, register: u8, operand: impl Into<Operand>) {
        let at = index(register);
        if at == 0 {
            return;
        }
        let Operand { word, tagged } = operand.into();
        self.words[at] = word;
        self.pointer_flags = self.pointer_flags & !(1 << at) | u64::from(tagged) << at;
    }
}

#[inline]
fn index(register: u8) -> usize {
    assert!(register < 16, "EraVM has 16 registers, and {register} is the number of none");
    register.into()
}

/// Where an instruction takes its operand from.
#[derive(Debug, Clone, Copy, PartialEq, Eq, Hash)]
pub enum Source {
    /// The register with this number, 0 to 15. It is read as it is, with its flag.
    Register(u8),
    /// This number, without a tag. A pointer read does not take it.
    Immediate(u16),
}

/// The places of a load. A register's number above 15 is refused with
/// [`Error::Operand`](crate::Error::Operand).
#[derive(Debug, Clone, Copy, PartialEq, Eq, Hash)]
pub struct LoadPlaces {
    /// The operand: an address, or the pointer of a pointer read.
    pub source: Source,
    /// The register that the word goes to.
    pub dst0: u8,
    /// The register that the operand plus 32 goes to. Where the load does not increment, or panics, it is
    /// cleared. It is written after `dst0`.
    pub dst1: u8,
    /// Whether the load increments.
    pub increment: bool,
}

/// The places of a store. A register's number above 15 is refused with
/// [`Error::Operand`](crate::Error::Operand).
#[derive(Debug, Clone, Copy, PartialEq, Eq, Hash)]
pub struct StorePlaces {
    /// The operand: an address.
    pub source: Source,
    /// The register whose word is stored.
    pub value: u8,
    /// The register that the operand plus 32 goes to. Where the store does not increment, it is left as it is.
    pub dst0: u8,
    /// A store has no second output, so this register is cleared, after `dst0` was written.
    pub dst1: u8,
    /// Whether the store increments.
    pub increment: bool,
}

/// [`LoadPlaces`] as the library takes them. A code below 65,536 is the number of a register, one below 131,072
/// is 65,536 plus an immediate, and any other is a form that no heap instruction takes.
#[derive(Debug, Clone, Copy, PartialEq, Eq, Hash)]
pub struct LoadCodes {
    /// The code of the operand.
    pub source: u32,
    /// The code of the first output.
    pub dst0: u32,
    /// The code of the second output.
    pub dst1: u32,
    /// Whether the load increments.
    pub increment: bool,
}

/// [`StorePlaces`] as the library takes them, with the codes of [`LoadCodes`].
#[derive(Debug, Clone, Copy, PartialEq, Eq, Hash)]
pub struct StoreCodes {
    /// The code of the operand.
    pub source: u32,
    /// The code of the stored value.
    pub value: u32,
    /// The code of the first output.
    pub dst0: u32,
    /// The code of the second output.
    pub dst1: u32,
    /// Whether the store increments.
    pub increment: bool,
}

/// The code of the immediate 0.
pub(crate) const FIRST_IMMEDIATE: u32 = 65_536;

impl Source {
    #[inline(always)]
    fn code(self) -> u32 {
        match self {
            Self::Register(number) => number.into(),
            Self::Immediate(number) => FIRST_IMMEDIATE + u32::from(number),
        }
    }
}

impl From<LoadPlaces> for LoadCodes {
    #[inline(always)]
    fn from(LoadPlaces { source, dst0, dst1, increment }: LoadPlaces) -> Self {
        Self { source: source.code(), dst0: dst0.into(), dst1: dst1.into(), increment }
    }
}

impl From<StorePlaces> for StoreCodes {
    #[inline(always)]
    fn from(StorePlaces { source, value, dst0, dst1, increment }: StorePlaces) -> Self {
        let [value, dst0, dst1] = [value, dst0, dst1].map(u32::from);
        Self { source: source.code(), value, dst0, dst1, increment }
    }
}

/// Whether a store runs in kernel mode. Outside it a pointer that is stored loses its page and its start.
#[derive(Debug, Clone, Copy, PartialEq, Eq, Hash)]
pub enum Mode {
    /// The mode of every contract that is not of the system.
    User,
    /// The mode of the system's own contracts.
    Kernel,
}

impl Mode {
    pub(crate) const fn is_kernel(self) -> bool {
        matches!(self, Self::Kernel)
    }
}
