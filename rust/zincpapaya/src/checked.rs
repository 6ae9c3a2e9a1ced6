//! The calls of a memory that is tested first.

use std::ops::Range;

use crate::{
    buffers::{Buffers, BuffersMut},
    error::carried_out,
    ffi,
    methods::Calls,
    registers::{LoadCodes, StoreCodes},
    Area, Error, Frame, Outcome, PageId, PartialWord, PointerOutcome, Registers, Snapshot, Word,
};

/// Four buffers with whatever is in them: every call tests them first.
pub(crate) trait Checked {
    fn shown(&self) -> Buffers<'_>;
    fn lent(&mut self) -> BuffersMut<'_>;
}

impl Checked for BuffersMut<'_> {
    fn shown(&self) -> Buffers<'_> {
        let Self { bytes, keys, order, words } = self;
        Buffers { bytes, keys, order, words }
    }

    fn lent(&mut self) -> BuffersMut<'_> {
        let Self { bytes, keys, order, words } = self;
        BuffersMut { bytes, keys, order, words }
    }
}

impl<M: Checked> Calls for M {
    fn check(&self) -> Result<(), Error> {
        // Nothing but the test can refuse this call.
        self.dynamic_len().map(|_| ())
    }

    fn read_u256(&self, page: PageId, address: u32) -> Result<Word, Error> {
        let mut out = [0; 4];
        carried_out(ffi::read_u256(self.shown(), page.0, address, &mut out))?;
        Ok(Word(out))
    }

    fn read_u256_partially(&self, page: PageId, range: Range<u32>) -> Result<PartialWord, Error> {
        let mut out = [0; 5];
        carried_out(ffi::read_u256_partially(self.shown(), page.0, range, &mut out))?;
        let [limbs @ .., bytes_read] = out;
        Ok(PartialWord { word: Word(limbs), bytes_read: bytes_read as usize })
    }

    fn read_range_into(
        &self,
        page: PageId,
        range: Range<u32>,
        output: &mut [u8],
    ) -> Result<(), Error> {
        carried_out(ffi::read_range_big_endian(self.shown(), page.0, range, output))
    }

    fn read_byte(&self, page: PageId, address: u32) -> Result<u8, Error> {
        let mut out = [0];
        carried_out(ffi::read_byte(self.shown(), page.0, address, &mut out))?;
        Ok(out[0] as u8)
    }

    fn chunk(&self, page: PageId, number: u32) -> Result<[u8; 256], Error> {
        let mut output = [0; 256];
        carried_out(ffi::chunk(self.shown(), page.0, number, &mut output))?;
        Ok(output)
    }

    fn dynamic_len(&self) -> Result<u64, Error> {
        let mut out = [0];
        carried_out(ffi::dynamic_len(self.shown(), &mut out))?;
        Ok(out[0])
    }

    fn snapshot(&self) -> Result<Snapshot, Error> {
        let mut out = [0; 2];
        carried_out(ffi::snapshot(self.shown(), &mut out))?;
        Ok(Snapshot { heap: out[0], aux: out[1] })
    }

    fn equal(&self, other: &Self) -> Result<bool, Error> {
        self.shown().equal(other.shown())
    }

    fn write_u256(&mut self, page: PageId, address: u32, value: Word) -> Result<(), Error> {
        carried_out(ffi::write_u256(self.lent(), page.0, address, value.0))
    }

    fn write_bytes(&mut self, page: PageId, start: u32, bytes: &[u8]) -> Result<(), Error> {
        carried_out(ffi::write_bytes(self.lent(), page.0, start, bytes))
    }

    fn allocate_at(&mut self, page: PageId) -> Result<(), Error> {
        carried_out(ffi::allocate_at(self.lent(), page.0))
    }

    fn allocate_with_content_at(&mut self, page: PageId, content: &[u8]) -> Result<(), Error> {
        carried_out(ffi::allocate_with_content_at(self.lent(), page.0, content))
    }

    fn deallocate(&mut self, page: PageId) -> Result<(), Error> {
        carried_out(ffi::deallocate(self.lent(), page.0))
    }

    fn compact_to_window(&mut self, page: PageId, start: u32, length: u32) -> Result<(), Error> {
        carried_out(ffi::compact_to_window(self.lent(), page.0, start, length))
    }

    fn truncate_dynamic_to(&mut self, len: u64) -> Result<(), Error> {
        carried_out(ffi::truncate_dynamic_to(self.lent(), len))
    }

    fn rollback(&mut self, to: Snapshot) -> Result<(), Error> {
        carried_out(ffi::rollback(self.lent(), to.heap, to.aux))
    }

    fn delete_history(&mut self) -> Result<(), Error> {
        carried_out(ffi::delete_history(self.lent()))
    }

    fn load(
        &self,
        frame: &mut Frame,
        registers: &mut Registers,
        area: Area,
        places: LoadCodes,
    ) -> Result<Outcome, Error> {
        run(frame, |frame, _| ffi::load(self.shown(), frame, registers, area.is_aux(), places))
    }

    fn store(
        &mut self,
        frame: &mut Frame,
        registers: &mut Registers,
        area: Area,
        places: StoreCodes,
        kernel: bool,
        hook: Option<u32>,
    ) -> Result<Outcome, Error> {
        run(frame, |frame, out| {
            ffi::store(self.lent(), frame, registers, area.is_aux(), places, kernel, hook, out)
        })
    }

    fn load_pointer(
        &self,
        frame: &mut Frame,
        registers: &mut Registers,
        places: LoadCodes,
    ) -> Result<PointerOutcome, Error> {
        let mut out = [0];
        let outcome = run(frame, |frame, _| {
            ffi::load_pointer(self.shown(), frame, registers, places, &mut out)
        })?;
        Ok(PointerOutcome::of(outcome, out[0] as usize))
    }

    fn load_static(
        &self,
        frame: &mut Frame,
        registers: &mut Registers,
        places: LoadCodes,
    ) -> Result<Outcome, Error> {
        run(frame, |frame, _| ffi::load_static(self.shown(), frame, registers, places))
    }

    fn store_static(
        &mut self,
        frame: &mut Frame,
        registers: &mut Registers,
        places: StoreCodes,
        kernel: bool,
    ) -> Result<Outcome, Error> {
        run(frame, |frame, _| ffi::store_static(self.lent(), frame, registers, places, kernel))
    }
}

/// Runs an instruction on the numbers of a frame, with an output that a hook's value goes to.
fn run(
    frame: &mut Frame,
    instruction: impl FnOnce(&mut [u32; 6], &mut [u64; 1]) -> u32,
) -> Result<Outcome, Error> {
    let (mut numbers, mut out) = (frame.numbers(), [0]);
    let status = instruction(&mut numbers, &mut out);
    // Where the instruction was refused, these are as they were.
    *frame = Frame::of(numbers);

    match status {
        ffi::PANICKED => Ok(Outcome::Panicked),
        ffi::SUSPENDED => Ok(Outcome::SuspendedOnHook(out[0] as u32)),
        _ => {
            carried_out(status)?;
            Ok(Outcome::Running)
        }
    }
}
