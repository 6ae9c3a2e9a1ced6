//! The calls on a memory. They are written once, for [`Heaps`] and [`Lent`].

use std::ops::Range;

use crate::{
    registers::{LoadCodes, StoreCodes},
    Area, Error, Frame, Heaps, Lent, LoadPlaces, Mode, Outcome, PageId, PartialWord,
    PointerOutcome, Registers, Snapshot, StorePlaces, Word,
};

/// The calls as a memory answers them: one that is owned (`memory/calls.rs`), or one that is tested
/// first (`checked.rs`).
pub(crate) trait Calls {
    fn check(&self) -> Result<(), Error>;

    fn read_u256(&self, page: PageId, address: u32) -> Result<Word, Error>;
    fn read_u256_partially(&self, page: PageId, range: Range<u32>) -> Result<PartialWord, Error>;
    fn read_range(&self, page: PageId, range: Range<u32>) -> Result<Vec<u8>, Error> {
        let mut output = vec![0; range.len()];
        self.read_range_into(page, range, &mut output)?;
        Ok(output)
    }
    fn read_range_into(
        &self,
        page: PageId,
        range: Range<u32>,
        output: &mut [u8],
    ) -> Result<(), Error>;
    fn read_byte(&self, page: PageId, address: u32) -> Result<u8, Error>;
    fn chunk(&self, page: PageId, number: u32) -> Result<[u8; 256], Error>;
    fn dynamic_len(&self) -> Result<u64, Error>;
    fn snapshot(&self) -> Result<Snapshot, Error>;
    fn equal(&self, other: &Self) -> Result<bool, Error>;

    fn write_u256(&mut self, page: PageId, address: u32, value: Word) -> Result<(), Error>;
    fn write_bytes(&mut self, page: PageId, start: u32, bytes: &[u8]) -> Result<(), Error>;
    fn allocate_at(&mut self, page: PageId) -> Result<(), Error>;
    fn allocate_with_content_at(&mut self, page: PageId, content: &[u8]) -> Result<(), Error>;
    fn deallocate(&mut self, page: PageId) -> Result<(), Error>;
    fn compact_to_window(&mut self, page: PageId, start: u32, length: u32) -> Result<(), Error>;
    fn truncate_dynamic_to(&mut self, len: u64) -> Result<(), Error>;
    fn rollback(&mut self, to: Snapshot) -> Result<(), Error>;
    fn delete_history(&mut self) -> Result<(), Error>;

    fn load(
        &self,
        frame: &mut Frame,
        registers: &mut Registers,
        area: Area,
        places: LoadCodes,
    ) -> Result<Outcome, Error>;
    fn store(
        &mut self,
        frame: &mut Frame,
        registers: &mut Registers,
        area: Area,
        places: StoreCodes,
        kernel: bool,
        hook: Option<u32>,
    ) -> Result<Outcome, Error>;
    fn load_pointer(
        &self,
        frame: &mut Frame,
        registers: &mut Registers,
        places: LoadCodes,
    ) -> Result<PointerOutcome, Error>;
    fn load_static(
        &self,
        frame: &mut Frame,
        registers: &mut Registers,
        places: LoadCodes,
    ) -> Result<Outcome, Error>;
    fn store_static(
        &mut self,
        frame: &mut Frame,
        registers: &mut Registers,
        places: StoreCodes,
        kernel: bool,
    ) -> Result<Outcome, Error>;
}

/// The public methods of a type whose field `memory` has the calls.
macro_rules! methods {
    ($memory:ty) => {
        /// Reads. What was never written, and any page that is unknown or not allocated, reads as
        /// zeros; a reversed range is empty.
        impl $memory {
            /// The word at an address. Any address will do: a word may run past 32 bits.
            #[inline(always)]
            pub fn read_u256(&self, page: PageId, address: u32) -> Result<Word, Error> {
                self.memory.read_u256(page, address)
            }

            /// The bytes of a range, leading a word, and how many they are; zeros follow. All bytes of the
            /// range count, whatever the page holds of them. Refused with [`Error::Range`] where the range
            /// has more than 32 bytes.
            ///
            /// ```
            /// # use zincpapaya::{Capacity, Error, Heaps, Layout, PageId};
            /// # fn main() -> Result<(), Error> {
            /// # let layout = Layout { static_memory: PageId(1), calldata: PageId(4),
            /// #     bootloader_heap: PageId(5), bootloader_aux: PageId(6), base: 64, stride: 8 };
            /// # let capacity = Capacity { chunks: 16, pages: 4, journal_words: 8 };
            /// let heaps = Heaps::open(layout, capacity, &[1, 2])?;
            /// // The third byte was never written. It is 0, and one of the range.
            /// let read = heaps.read_u256_partially(layout.calldata, 0..3)?;
            /// assert_eq!(read.bytes_read, 3);
            /// assert_eq!(read.word.to_big_endian()[..3], [1, 2, 0]);
            /// # Ok(())
            /// # }
            /// ```
            pub fn read_u256_partially(
                &self,
                page: PageId,
                range: Range<u32>,
            ) -> Result<PartialWord, Error> {
                self.memory.read_u256_partially(page, range)
            }

            /// The bytes of a range.
            pub fn read_range_big_endian(
                &self,
                page: PageId,
                range: Range<u32>,
            ) -> Result<Vec<u8>, Error> {
                self.memory.read_range(page, range)
            }

            /// Like [`read_range_big_endian`](Self::read_range_big_endian), into an output of the
            /// caller's. Refused with [`Error::Range`], and nothing put out, where it has another
            /// length than the range.
            ///
            /// ```
            /// # use zincpapaya::{Capacity, Error, Heaps, Layout, PageId};
            /// # fn main() -> Result<(), Error> {
            /// # let layout = Layout { static_memory: PageId(1), calldata: PageId(4),
            /// #     bootloader_heap: PageId(5), bootloader_aux: PageId(6), base: 64, stride: 8 };
            /// # let capacity = Capacity { chunks: 16, pages: 4, journal_words: 8 };
            /// let heaps = Heaps::open(layout, capacity, &[1, 2, 3, 4])?;
            /// let mut output = [0xff; 3];
            /// let refused = heaps.read_range_into(layout.calldata, 0..4, &mut output);
            /// assert_eq!((refused, output), (Err(Error::Range), [0xff; 3]));
            /// heaps.read_range_into(layout.calldata, 1..4, &mut output)?;
            /// assert_eq!(output, [2, 3, 4]);
            /// # Ok(())
            /// # }
            /// ```
            pub fn read_range_into(
                &self,
                page: PageId,
                range: Range<u32>,
                output: &mut [u8],
            ) -> Result<(), Error> {
                self.memory.read_range_into(page, range, output)
            }

            /// The byte at an address.
            pub fn read_byte(&self, page: PageId, address: u32) -> Result<u8, Error> {
                self.memory.read_byte(page, address)
            }

            /// The 256 bytes of a chunk, which begins at address `256 * number`.
            pub fn chunk(&self, page: PageId, number: u32) -> Result<[u8; 256], Error> {
                self.memory.chunk(page, number)
            }

            /// The dynamic length, in groups of dynamic pages. It is 0 in a memory just opened; an
            /// allocation of a page of group `g`, or a write or store to one, makes it at least
            /// `g + 1`; [`truncate_dynamic_to`](Self::truncate_dynamic_to) sets it. Nothing else
            /// changes it: a free does not lower it.
            pub fn dynamic_len(&self) -> Result<u64, Error> {
                self.memory.dynamic_len()
            }

            /// Whether both memories look alike: equal bytes at each address of each page, and the
            /// same dynamic pages, empty ones too. How large they are, their journals and their
            /// dynamic lengths make no difference. Refused with [`Error::Layout`] where the layouts
            /// differ. [`Buffers::equal`](crate::Buffers::equal) compares any two memories.
            ///
            /// ```
            /// # use zincpapaya::{Capacity, Error, Heaps, Layout, PageId, Word};
            /// # fn main() -> Result<(), Error> {
            /// # let layout = Layout { static_memory: PageId(1), calldata: PageId(4),
            /// #     bootloader_heap: PageId(5), bootloader_aux: PageId(6), base: 64, stride: 8 };
            /// # let capacity = Capacity { chunks: 16, pages: 4, journal_words: 8 };
            /// # let mut heaps = Heaps::open(layout, capacity, &[])?;
            /// let before = heaps.clone();
            /// heaps.write_u256(PageId(1), 0, Word::from(7))?;
            /// assert!(!heaps.equal(&before)?);
            /// heaps.write_u256(PageId(1), 0, Word::ZERO)?;
            /// assert!(heaps.equal(&before)?);
            /// # Ok(())
            /// # }
            /// ```
            pub fn equal(&self, other: &Self) -> Result<bool, Error> {
                self.memory.equal(&other.memory)
            }
        }

        /// Writes and allocation. A write allocates its page if it must, even a write of no bytes.
        impl $memory {
            /// Writes a word; on a bootloader page the old one is journalled. Refused with
            /// [`Error::Undecodable`], [`NoPage`](Error::NoPage), [`NoChunk`](Error::NoChunk) or
            /// [`NoJournal`](Error::NoJournal).
            #[inline(always)]
            pub fn write_u256(
                &mut self,
                page: PageId,
                address: u32,
                value: Word,
            ) -> Result<(), Error> {
                self.memory.write_u256(page, address, value)
            }

            /// Writes bytes; on a bootloader page each aligned word that they touch is journalled.
            /// Refused as a word is, and with [`Error::Range`] where they pass the highest address.
            pub fn write_bytes(
                &mut self,
                page: PageId,
                start: u32,
                bytes: &[u8],
            ) -> Result<(), Error> {
                self.memory.write_bytes(page, start, bytes)
            }

            /// Allocates an empty page. Refused with [`Error::Undecodable`],
            /// [`Fixed`](Error::Fixed), [`Allocated`](Error::Allocated) or
            /// [`NoPage`](Error::NoPage).
            pub fn allocate_at(&mut self, page: PageId) -> Result<(), Error> {
                self.memory.allocate_at(page)
            }

            /// Allocates a page that begins with these bytes. Refused as an empty one is, and with
            /// [`Error::NoChunk`].
            pub fn allocate_with_content_at(
                &mut self,
                page: PageId,
                content: &[u8],
            ) -> Result<(), Error> {
                self.memory.allocate_with_content_at(page, content)
            }
        }

        /// Freeing. What is freed goes back to the pool as zeros, and can be held again.
        impl $memory {
            /// Frees a page and its chunks. Refused with [`Error::Undecodable`],
            /// [`Fixed`](Error::Fixed) or [`NotAllocated`](Error::NotAllocated).
            pub fn deallocate(&mut self, page: PageId) -> Result<(), Error> {
                self.memory.deallocate(page)
            }

            /// Frees every chunk of a dynamic page that does not overlap `length` bytes from
            /// `start`; the page stays allocated. Any other page is left alone.
            pub fn compact_to_window(
                &mut self,
                page: PageId,
                start: u32,
                length: u32,
            ) -> Result<(), Error> {
                self.memory.compact_to_window(page, start, length)
            }

            /// Frees all groups of dynamic pages from `len` on, and sets the dynamic length to
            /// `len`. Refused with [`Error::BadLength`] where `len` is above the dynamic length.
            pub fn truncate_dynamic_to(&mut self, len: u64) -> Result<(), Error> {
                self.memory.truncate_dynamic_to(len)
            }
        }

        /// The history of the two bootloader pages.
        impl $memory {
            /// A mark at the present end of both journals.
            pub fn snapshot(&self) -> Result<Snapshot, Error> {
                self.memory.snapshot()
            }

            /// Puts back every word that was written to the bootloader pages since the mark, newest
            /// first, and cuts the journals there. Refused with [`Error::BadMark`]; never for want
            /// of room.
            pub fn rollback(&mut self, to: Snapshot) -> Result<(), Error> {
                self.memory.rollback(to)
            }

            /// Empties both journals. What was written before cannot be rolled back any more.
            pub fn delete_history(&mut self) -> Result<(), Error> {
                self.memory.delete_history()
            }
        }

        /// The five instructions. Each reads its operands from the registers and writes its results to them.
        /// The caller has decoded it and paid its fixed cost; what is paid here is growth.
        ///
        /// | | `dst0` | `dst1` |
        /// |---|---|---|
        /// | a load | gets the word, without a tag | gets the operand plus 32 where the load increments, else is cleared |
        /// | a store, also one that its hook stops | gets the operand plus 32, without a tag, where the store increments, else stays | is cleared |
        /// | a panic as the EraVM has it | stays | is cleared |
        ///
        /// To clear a register means to write 0 to it and to clear its flag. `dst0` is written before `dst1`, so
        /// `dst1` decides where both are the same. Register 0 is never written.
        ///
        /// An instruction that is refused changes neither memory nor frame nor registers. Each is refused with
        /// [`Error::Operand`] where a register's number is above 15. This is decided before a panic, and all
        /// refusals below are decided after it.
        ///
        /// ```
        /// use zincpapaya::{
        ///     Area, Capacity, Frame, Heaps, Layout, LoadPlaces, Mode, Outcome, PageId, Registers,
        ///     Source, StorePlaces, Word,
        /// };
        ///
        /// # fn main() -> Result<(), zincpapaya::Error> {
        /// # let layout = Layout { static_memory: PageId(1), calldata: PageId(4),
        /// #     bootloader_heap: PageId(5), bootloader_aux: PageId(6), base: 64, stride: 8 };
        /// # let capacity = Capacity { chunks: 16, pages: 4, journal_words: 8 };
        /// let mut heaps = Heaps::open(layout, capacity, &[])?;
        /// let mut frame = Frame {
        ///     gas: 1,
        ///     heap: PageId(66),
        ///     aux: PageId(67),
        ///     heap_bound: 4096,
        ///     aux_bound: 4096,
        ///     panicked: false,
        /// };
        /// let mut registers = Registers::default();
        /// registers.set(1, 4064);
        /// registers.set(2, Word::from(7));
        ///
        /// // Up to 4096 nothing is due. Register 3 gets the operand plus 32.
        /// let source = Source::Register(1);
        /// let places = StorePlaces { source, value: 2, dst0: 3, dst1: 0, increment: true };
        /// let stored = heaps.store(&mut frame, &mut registers, Area::Heap, places, Mode::User, None)?;
        /// assert_eq!(stored, Outcome::Running);
        /// assert_eq!((frame.gas, registers.get(3)), (1, 4096.into()));
        ///
        /// // One byte more costs 1 gas.
        /// let source = Source::Immediate(4065);
        /// let places = LoadPlaces { source, dst0: 4, dst1: 5, increment: true };
        /// let loaded = heaps.load(&mut frame, &mut registers, Area::Heap, places)?;
        /// assert_eq!(loaded, Outcome::Running);
        /// assert_eq!(registers.get(4), Word::from(7 << 8).into());
        /// assert_eq!(registers.get(5), 4097.into());
        /// assert_eq!((frame.gas, frame.heap_bound), (0, 4097));
        ///
        /// // No gas is left for another byte: a panic. The bound and register 4 stay, and register 5 is cleared.
        /// let places = LoadPlaces { source: Source::Immediate(4066), ..places };
        /// let loaded = heaps.load(&mut frame, &mut registers, Area::Heap, places)?;
        /// assert_eq!(loaded, Outcome::Panicked);
        /// assert_eq!((frame.heap_bound, frame.panicked), (4097, true));
        /// assert_eq!(registers.get(4), Word::from(7 << 8).into());
        /// assert_eq!(registers.get(5), 0.into());
        /// # Ok(())
        /// # }
        /// ```
        impl $memory {
            /// Loads the word at an address of the frame's heap or aux heap, after paying for
            /// growth. With increment `dst1` takes the operand's tag.
            #[inline(always)]
            pub fn load(
                &self,
                frame: &mut Frame,
                registers: &mut Registers,
                area: Area,
                places: LoadPlaces,
            ) -> Result<Outcome, Error> {
                self.memory.load(frame, registers, area, places.into())
            }

            /// Stores a register's word at an address of the frame's heap or aux heap, after paying for
            /// growth. With a `hook`, a store at that address stops the run. In [`Mode::User`](crate::Mode::User) a
            /// word that is tagged is stored without the page and the start of its pointer: they become 0.
            /// Refused with
            /// [`Error::Undecodable`], [`NoPage`](Error::NoPage), [`NoChunk`](Error::NoChunk),
            /// [`NoJournal`](Error::NoJournal) or [`HookValue`](Error::HookValue).
            #[inline(always)]
            pub fn store(
                &mut self,
                frame: &mut Frame,
                registers: &mut Registers,
                area: Area,
                places: StorePlaces,
                mode: Mode,
                hook: Option<u32>,
            ) -> Result<Outcome, Error> {
                self.memory.store(frame, registers, area, places.into(), mode.is_kernel(), hook)
            }

            /// Loads up to 32 bytes through a fat pointer in a register, and returns how many they are: these
            /// lead the word, and zeros follow. All bytes of the pointer's range count, whatever its page holds
            /// of them. The instruction panics where the register is not tagged, and where the offset is above
            /// 4,294,967,263. Where it increments, `dst1` is tagged. Refused with [`Error::Operand`] where the
            /// source is an immediate, and with [`Error::Pointer`].
            ///
            /// ```
            /// use zincpapaya::{FatPointer, LoadPlaces, PageId, PointerOutcome, Registers, Source, Word};
            /// # use zincpapaya::{Capacity, Frame, Heaps, Layout};
            /// # fn main() -> Result<(), zincpapaya::Error> {
            /// # let layout = Layout { static_memory: PageId(1), calldata: PageId(4),
            /// #     bootloader_heap: PageId(5), bootloader_aux: PageId(6), base: 64, stride: 8 };
            /// # let capacity = Capacity { chunks: 16, pages: 4, journal_words: 8 };
            /// # let mut frame = Frame { gas: 0, heap: PageId(66), aux: PageId(67), heap_bound: 0,
            /// #     aux_bound: 0, panicked: false };
            /// # let mut heaps = Heaps::open(layout, capacity, &[])?;
            /// heaps.write_bytes(PageId(66), 10, &[1, 2, 3, 4, 5])?;
            /// let pointer = FatPointer { offset: 3, memory_page: PageId(66), start: 10, length: 5 };
            /// let mut registers = Registers::default();
            /// registers.set(1, pointer);
            ///
            /// let source = Source::Register(1);
            /// let places = LoadPlaces { source, dst0: 2, dst1: 1, increment: true };
            /// let outcome = heaps.load_pointer(&mut frame, &mut registers, places)?;
            /// assert_eq!(outcome, PointerOutcome::Running { bytes_read: 2 });
            /// let mut bytes = [0; 32];
            /// bytes[..2].copy_from_slice(&[4, 5]); // bytes 13 and 14
            /// assert_eq!(registers.get(2), Word::from_big_endian(&bytes).into());
            /// assert_eq!(registers.get(1), FatPointer { offset: 35, ..pointer }.into());
            /// # Ok(())
            /// # }
            /// ```
            pub fn load_pointer(
                &self,
                frame: &mut Frame,
                registers: &mut Registers,
                places: LoadPlaces,
            ) -> Result<PointerOutcome, Error> {
                self.memory.load_pointer(frame, registers, places.into())
            }

            /// Loads the word at an address of the static memory. With increment `dst1` takes the
            /// operand's tag.
            pub fn load_static(
                &self,
                frame: &mut Frame,
                registers: &mut Registers,
                places: LoadPlaces,
            ) -> Result<Outcome, Error> {
                self.memory.load_static(frame, registers, places.into())
            }

            /// Stores a register's word at an address of the static memory. `mode` is that of
            /// [`store`](Self::store). Refused with [`Error::NoChunk`].
            pub fn store_static(
                &mut self,
                frame: &mut Frame,
                registers: &mut Registers,
                places: StorePlaces,
                mode: Mode,
            ) -> Result<Outcome, Error> {
                self.memory.store_static(frame, registers, places.into(), mode.is_kernel())
            }
        }

        /// The test.
        impl $memory {
            /// Tests the whole memory, in time in its size: refused with [`Error::NotFormed`] where
            /// it is not well formed.
            pub fn check(&self) -> Result<(), Error> {
                self.memory.check()
            }
        }
    };
}

methods!(Heaps);
methods!(Lent<'_>);
