//! Heap loads and stores, each with an increment and without growth, against vm2's own handlers.
//!
//! Both sides do the same work: the address is put to a register, and so is the word of a store; the instruction reads them there
//! and writes its results to registers; then each limb of these is taken. The registers have the same numbers on both sides. vm2's
//! handler also looks at predicate and mode, pays the fixed cost and moves the program counter: that is part of what is timed. The
//! rows of the harness time how much that is, by a no-op with the same registers.

use std::hint::black_box;

use vm2_example::testonly::speed::Machine;
use zincpapaya::{
    Area, Frame, Heaps, LoadPlaces, Mode, Outcome, PageId, Registers, Source, StorePlaces, Word,
};

use crate::{
    both::{used, Both, WORD},
    places::{heap, walk, Held, Walk},
    times::{each, Times},
};

const PAGE: u32 = heap(0);

const FRAME: Frame = Frame {
    gas: 1000,
    heap: PageId(PAGE),
    aux: PageId(PAGE + 1),
    heap_bound: u32::MAX,
    aux_bound: u32::MAX,
    panicked: false,
};

// The registers in use, which are those of vm2's machine.
const OPERAND: u8 = 1;
const VALUE: u8 = 2;
const OUT: u8 = 3;
const NEXT: u8 = 4;

const LOAD: LoadPlaces =
    LoadPlaces { source: Source::Register(OPERAND), dst0: OUT, dst1: NEXT, increment: true };
/// vm2's machine names no second output of a store, so it is register 0.
const STORE: StorePlaces = StorePlaces {
    source: Source::Register(OPERAND),
    value: VALUE,
    dst0: OUT,
    dst1: 0,
    increment: true,
};
/// vm2's machine is in kernel mode.
const MODE: Mode = Mode::Kernel;

/// A memory of the library with a frame and registers, beside vm2's machine.
struct Ours {
    memory: Heaps,
    frame: Frame,
    registers: Registers,
}

impl Ours {
    fn of(memory: Heaps) -> Self {
        Self { memory, frame: FRAME, registers: Registers::default() }
    }

    #[inline]
    fn register(&self, number: u8) -> &[u64; 4] {
        &self.registers.words()[usize::from(number)].0
    }

    /// Loads the word at an address: that word, and the address plus 32, in their registers.
    #[inline]
    fn load(&mut self, address: u32) -> [&[u64; 4]; 2] {
        let Self { memory, frame, registers } = self;
        registers.set(OPERAND, address);
        match memory.load(frame, registers, Area::Heap, LOAD) {
            Ok(Outcome::Running) => [self.register(OUT), self.register(NEXT)],
            other => panic!("a load was not carried out: {other:?}"),
        }
    }

    /// Stores a word at an address: the address plus 32, in its register.
    #[inline]
    fn store(&mut self, address: u32, limbs: [u64; 4]) -> &[u64; 4] {
        let Self { memory, frame, registers } = self;
        registers.set(OPERAND, address);
        registers.set(VALUE, Word(limbs));
        match memory.store(frame, registers, Area::Heap, STORE, MODE, None) {
            Ok(Outcome::Running) => self.register(OUT),
            other => panic!("a store was not carried out: {other:?}"),
        }
    }
}

/// A page of both sides that holds as many chunks.
fn sides(held: Held) -> (Machine, Ours) {
    let mut machine = Machine::new(PAGE);
    let ours = Ours::of(Both::holding(held).ours);
    (0..held.chunks)
        .for_each(|chunk| _ = machine.store(chunk * 256, [chunk.into(), PAGE.into(), 3, 4]));
    (machine, ours)
}

fn addresses(at: Vec<(u32, u32)>) -> Vec<u32> {
    at.into_iter().map(|(_, address)| address).collect()
}

fn compare(machine: &mut Machine, ours: &mut Ours, at: &[u32]) {
    for &a in at {
        assert_eq!(machine.load(a), ours.load(a), "address {a}");
    }
    assert_eq!((machine.gas(), FRAME), (ours.frame.gas, ours.frame));
}

pub fn loads(chunks: u32, order: Walk) -> Times {
    let held = Held::by_one_page(chunks);
    let ((mut machine, mut ours), at) = (sides(held), addresses(walk(held, order)));
    let times = Times::of(
        at.len(),
        || each(&at, |a| _ = machine.load(a).map(used)),
        || each(&at, |a| _ = ours.load(a).map(used)),
    );
    compare(&mut machine, &mut ours, &at);
    times
}

pub fn stores(chunks: u32, order: Walk) -> Times {
    let held = Held::by_one_page(chunks);
    stores_at(held, walk(held, order))
}

/// Stores at these places of one page.
pub fn stores_at(held: Held, at: Vec<(u32, u32)>) -> Times {
    let ((mut machine, mut ours), at) = (sides(held), addresses(at));
    let times = Times::of(
        at.len(),
        || each(&at, |a| used(machine.store(a, black_box(WORD)))),
        || each(&at, |a| used(ours.store(a, black_box(WORD)))),
    );
    for &a in &at {
        assert_eq!(machine.store(a, WORD), ours.store(a, WORD), "address {a}");
    }
    compare(&mut machine, &mut ours, &at);
    times
}

/// A no-op with the registers of a load, and a load. The caches have its chunks.
pub fn harness_of_loads() -> Times {
    let held = Held::by_one_page(1000);
    let ((mut machine, _), at) = (sides(held), addresses(walk(held, Walk::Sequential)));
    let mut idle = Machine::new(PAGE);
    let times = Times::of(
        at.len(),
        || each(&at, |a| _ = idle.no_load(a).map(used)),
        || each(&at, |a| _ = machine.load(a).map(used)),
    );
    assert_eq!((idle.gas(), machine.gas()), (FRAME.gas, FRAME.gas));
    times
}

/// A no-op with the registers of a store, and a store.
pub fn harness_of_stores() -> Times {
    let held = Held::by_one_page(1000);
    let ((mut machine, _), at) = (sides(held), addresses(walk(held, Walk::Sequential)));
    let mut idle = Machine::new(PAGE);
    let times = Times::of(
        at.len(),
        || each(&at, |a| used(idle.no_store(a, black_box(WORD)))),
        || each(&at, |a| used(machine.store(a, black_box(WORD)))),
    );
    assert_eq!((idle.gas(), machine.gas()), (FRAME.gas, FRAME.gas));
    times
}
