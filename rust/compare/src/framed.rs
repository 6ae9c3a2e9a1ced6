//! Random calls with a frame: gas that suffices or is short by one, bounds that are met or passed by
//! one, operands around their limit, with and without a tag. In lists that hand frames on, most
//! instructions are given the frame that the last one left.

use oracle::{Area, Call, Frame, HeapInstruction, Op, Operand, Word};

use crate::{
    generate::{Generator, Seen},
    model::{area_of, LAST_ADDRESS},
    scatter::scattered,
};

impl Generator {
    fn area(&mut self) -> Area {
        self.rng.pick(&[Area::Heap, Area::Heap, Area::Aux])
    }

    /// A bound for an access at this address: most are met or missed by little.
    fn bound(&mut self, address: u32) -> u32 {
        let met = address.saturating_add(32);
        match self.rng.below(10) {
            0 => 0,
            1 => u32::MAX,
            2 => 4096,
            3 => self.rng.next() as u32,
            4 => met.saturating_add(1),
            5 | 6 => met - 1,
            7 => met - self.rng.below32(met.min(300)),
            _ => met,
        }
    }

    /// A frame for an access at this address of an area: what is due, or about as much, is there.
    fn frame(&mut self, area: Area, address: u32) -> Frame {
        let (heap, aux) = (self.page(), self.page());
        let (heap_bound, aux_bound) = (self.bound(address), self.bound(address));
        let mut frame = Frame { gas: 0, heap, aux, heap_bound, aux_bound };
        let due = address.saturating_add(32).saturating_sub(area_of(&frame, area).1);
        frame.gas = match self.rng.below(10) {
            0 => 0,
            1 => due.saturating_sub(1),
            2 => due.saturating_add(1),
            3 => self.rng.next() as u32,
            4..7 => due,
            _ => u32::MAX,
        };
        frame
    }

    /// The address of a load or store of an area. Where a frame was handed on, most addresses are
    /// near its bound: some accesses pay, most of these little, so that many can.
    fn accessed(&mut self, area: Area) -> u32 {
        match self.handed {
            Some(handed) if !self.rng.one_in(4) => {
                let bound = area_of(&handed.frame, area).1;
                let more = self.rng.pick(&[0, 1, 2, 3, 32, 33, 34]);
                bound.saturating_sub(33).saturating_add(more)
            }
            _ => self.address(),
        }
    }

    /// The frame of an instruction for this address of an area.
    fn frame_of_instruction(&mut self, area: Area, address: u32) -> Frame {
        match self.handed {
            Some(handed) => handed.frame,
            None if self.hands_on && !self.rng.one_in(4) => self.frame_for_many(area, address),
            None => self.frame(area, address),
        }
    }

    /// A frame with low bounds and with gas for many accesses.
    fn frame_for_many(&mut self, area: Area, address: u32) -> Frame {
        let gas = self.rng.pick(&[u32::MAX, 1_000, 4_000, 10_000]);
        let mut bound = || match self.rng.below(6) {
            0 | 1 => 0,
            2 => 32,
            3 => 4096,
            _ => address.saturating_sub(self.rng.below32(300)),
        };
        let (heap_bound, aux_bound) = (bound(), bound());
        Frame { gas, heap_bound, aux_bound, ..self.frame(area, address) }
    }

    /// An operand for this address; now and then one that is above the limit.
    fn operand(&mut self, address: u32) -> Operand {
        let mut word = Word::from(address);
        match self.rng.below(24) {
            0 => word.0[0] |= 1 << (32 + self.rng.below(32)),
            1 => word.0[1 + self.rng.below(3) as usize] = 1 << self.rng.below(64),
            2 => word = (LAST_ADDRESS - 1 + self.rng.below32(4)).into(),
            3 => word = self.word(),
            _ => {}
        }
        match u16::try_from(address) {
            Ok(number) if self.rng.one_in(4) => Operand::Immediate(number),
            _ => Operand::Register { word, tagged: self.rng.one_in(4) },
        }
    }

    fn increment(&mut self) -> bool {
        !self.rng.one_in(4)
    }

    /// An instruction with its operands in registers, and with outputs. These are drawn apart, so that
    /// a list is otherwise the same without them.
    fn run(
        &mut self,
        frame: Frame,
        op: Op,
        operand: Operand,
        value: Word,
        increment: bool,
    ) -> Call {
        let run = HeapInstruction::on_operands(op, operand, value).incrementing(increment);
        match &mut self.places {
            Some(rng) => scattered(rng, run).on(frame),
            None => run.on(frame),
        }
    }

    pub(crate) fn use_gas(&mut self, _: &Seen) -> Call {
        let address = self.address();
        let frame = self.frame(Area::Heap, address);
        let beside = [frame.gas, frame.gas.wrapping_add(1), frame.gas.wrapping_sub(1)];
        let amount = match self.rng.below(4) {
            0 => self.rng.pick(&[0, u32::MAX]),
            _ => self.rng.pick(&beside),
        };
        Call::UseGas { frame, amount }
    }

    pub(crate) fn grow_heap(&mut self, _: &Seen) -> Call {
        let (area, address) = (self.area(), self.address());
        let frame = self.frame(area, address);
        let bound = area_of(&frame, area).1;
        let new_bound = match self.rng.below(4) {
            0 => self.rng.pick(&[0, u32::MAX, bound]),
            1 => bound.saturating_add(frame.gas).saturating_add(self.rng.below32(2)),
            _ => address.saturating_add(32),
        };
        Call::GrowHeap { frame, area, new_bound }
    }

    pub(crate) fn load(&mut self, _: &Seen) -> Call {
        let area = self.area();
        let address = self.accessed(area);
        let frame = self.frame_of_instruction(area, address);
        let (operand, increment) = (self.operand(address), self.increment());
        self.run(frame, Op::Load(area), operand, Word::default(), increment)
    }

    pub(crate) fn store(&mut self, _: &Seen) -> Call {
        let area = self.area();
        let address = self.accessed(area);
        let frame = self.frame_of_instruction(area, address);
        let (operand, increment) = (self.operand(address), self.increment());
        let hook = match self.rng.below(12) {
            0 => Some(self.address()),
            1..5 => Some(address),
            _ => None,
        };
        // vm2 has no hook on the aux heap: few of these, which are put to the library alone.
        let hook = hook.filter(|_| area == Area::Heap || self.rng.one_in(8));
        let value = match self.rng.below(3) {
            0 => self.word(),
            1 => self.rng.pick(&[7, u32::MAX - 1, u32::MAX]).into(),
            _ => Word([self.rng.pick(&[u64::from(u32::MAX), 1 << 32, 9]), 0, 0, 0]),
        };
        self.run(frame, Op::Store { area, hook }, operand, value, increment)
    }

    pub(crate) fn load_pointer(&mut self, _: &Seen) -> Call {
        let start = self.address();
        let left = u32::MAX - start;
        let length = match self.rng.below(8) {
            0 => left,
            1 => left.saturating_add(1),
            2 => self.rng.pick(&[left.saturating_sub(1), u32::MAX]),
            _ => self.rng.pick(&[0, 1, 5, 31, 32, 33, 64, 100, 300]),
        };
        let offset = match self.rng.below(10) {
            0 => self.rng.pick(&[LAST_ADDRESS - 1, LAST_ADDRESS, LAST_ADDRESS + 1, u32::MAX]),
            1 => length,
            2 => length.saturating_sub(self.rng.below32(34)),
            3 => length.saturating_add(1),
            _ => self.rng.pick(&[0, 1, 3, 5, 31, 32]),
        };
        let join = |low: u32, high: u32| u64::from(high) << 32 | u64::from(low);
        let mut word = Word([join(offset, self.page()), join(start, length), 0, 0]);
        if self.rng.one_in(4) {
            (word.0[2], word.0[3]) = (self.rng.next(), self.rng.pick(&[0, u64::MAX]));
        }
        let (tagged, increment) = (!self.rng.one_in(8), self.increment());
        let frame = self.frame_of_instruction(Area::Heap, start);
        let operand = Operand::Register { word, tagged };
        self.run(frame, Op::LoadPointer, operand, Word::default(), increment)
    }

    pub(crate) fn load_static(&mut self, _: &Seen) -> Call {
        let address = self.address();
        let frame = self.frame_of_instruction(Area::Heap, address);
        let (operand, increment) = (self.operand(address), self.increment());
        self.run(frame, Op::LoadStatic, operand, Word::default(), increment)
    }

    pub(crate) fn store_static(&mut self, _: &Seen) -> Call {
        let address = self.address();
        let frame = self.frame_of_instruction(Area::Heap, address);
        let operand = self.operand(address);
        let (value, increment) = (self.word(), self.increment());
        self.run(frame, Op::StoreStatic, operand, value, increment)
    }
}
