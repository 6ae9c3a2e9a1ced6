//! For tests only: the five instructions with places as the library's own codes.
//!
//! [`LoadPlaces`](crate::LoadPlaces) and [`StorePlaces`](crate::StorePlaces) cannot name every place, so these calls
//! reach what they do not: an immediate as a destination, and forms that no heap instruction takes. All such places are
//! refused with [`Error::Operand`]. On all others a call does what the one of [`Heaps`] and [`Lent`] does.
//!
//! ```
//! use zincpapaya::raw::{Instructions, LoadCodes, OTHER_FORM};
//! # use zincpapaya::{Area, Capacity, Error, Frame, Heaps, Layout, PageId, Registers};
//! # fn main() -> Result<(), Error> {
//! # let layout = Layout { static_memory: PageId(1), calldata: PageId(4),
//! #     bootloader_heap: PageId(5), bootloader_aux: PageId(6), base: 64, stride: 8 };
//! # let capacity = Capacity { chunks: 16, pages: 4, journal_words: 8 };
//! # let mut frame = Frame { gas: 0, heap: PageId(66), aux: PageId(67), heap_bound: 32,
//! #     aux_bound: 0, panicked: false };
//! # let mut registers = Registers::default();
//! # let heaps = Heaps::open(layout, capacity, &[])?;
//! let places = LoadCodes { source: OTHER_FORM, dst0: 1, dst1: 2, increment: false };
//! let loaded = heaps.raw_load(&mut frame, &mut registers, Area::Heap, places);
//! assert_eq!(loaded, Err(Error::Operand));
//! # Ok(())
//! # }
//! ```

pub use crate::registers::{LoadCodes, StoreCodes};
use crate::{
    methods::Calls, registers::FIRST_IMMEDIATE, Area, Error, Frame, Heaps, Lent, Outcome,
    PointerOutcome, Registers,
};

/// The first code that is neither a register nor an immediate.
pub const OTHER_FORM: u32 = 2 * FIRST_IMMEDIATE;

/// The code of an immediate.
pub const fn immediate(number: u16) -> u32 {
    FIRST_IMMEDIATE + number as u32
}

/// The five instructions. Each is the one of the same name without `raw_`.
pub trait Instructions {
    /// [`Heaps::load`] with codes.
    fn raw_load(
        &self,
        frame: &mut Frame,
        registers: &mut Registers,
        area: Area,
        places: LoadCodes,
    ) -> Result<Outcome, Error>;

    /// [`Heaps::store`] with codes.
    fn raw_store(
        &mut self,
        frame: &mut Frame,
        registers: &mut Registers,
        area: Area,
        places: StoreCodes,
        kernel: bool,
        hook: Option<u32>,
    ) -> Result<Outcome, Error>;

    /// [`Heaps::load_pointer`] with codes.
    fn raw_load_pointer(
        &self,
        frame: &mut Frame,
        registers: &mut Registers,
        places: LoadCodes,
    ) -> Result<PointerOutcome, Error>;

    /// [`Heaps::load_static`] with codes.
    fn raw_load_static(
        &self,
        frame: &mut Frame,
        registers: &mut Registers,
        places: LoadCodes,
    ) -> Result<Outcome, Error>;

    /// [`Heaps::store_static`] with codes.
    fn raw_store_static(
        &mut self,
        frame: &mut Frame,
        registers: &mut Registers,
        places: StoreCodes,
        kernel: bool,
    ) -> Result<Outcome, Error>;
}

macro_rules! instructions {
    ($memory:ty) => {
        impl Instructions for $memory {
            fn raw_load(
                &self,
                frame: &mut Frame,
                registers: &mut Registers,
                area: Area,
                places: LoadCodes,
            ) -> Result<Outcome, Error> {
                self.memory.load(frame, registers, area, places)
            }

            fn raw_store(
                &mut self,
                frame: &mut Frame,
                registers: &mut Registers,
                area: Area,
                places: StoreCodes,
                kernel: bool,
                hook: Option<u32>,
            ) -> Result<Outcome, Error> {
                self.memory.store(frame, registers, area, places, kernel, hook)
            }

            fn raw_load_pointer(
                &self,
                frame: &mut Frame,
                registers: &mut Registers,
                places: LoadCodes,
            ) -> Result<PointerOutcome, Error> {
                self.memory.load_pointer(frame, registers, places)
            }

            fn raw_load_static(
                &self,
                frame: &mut Frame,
                registers: &mut Registers,
                places: LoadCodes,
            ) -> Result<Outcome, Error> {
                self.memory.load_static(frame, registers, places)
            }

            fn raw_store_static(
                &mut self,
                frame: &mut Frame,
                registers: &mut Registers,
                places: StoreCodes,
                kernel: bool,
            ) -> Result<Outcome, Error> {
                self.memory.store_static(frame, registers, places, kernel)
            }
        }
    };
}

instructions!(Heaps);
instructions!(Lent<'_>);
