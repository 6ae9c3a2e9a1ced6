//! The frame of an instruction, its gas and its bounds.

use crate::{
    error::{carried_out, never_refused, Error},
    ffi, PageId,
};

/// Which of a frame's two heaps is meant.
#[derive(Debug, Clone, Copy, PartialEq, Eq, Hash)]
pub enum Area {
    /// The heap.
    Heap,
    /// The aux heap.
    Aux,
}

impl Area {
    pub(crate) const fn is_aux(self) -> bool {
        matches!(self, Self::Aux)
    }
}

/// What an instruction takes from the frame that it runs in, and changes of it.
///
/// ```
/// use zincpapaya::{Area, Frame, PageId};
///
/// let mut frame = Frame {
///     gas: 10,
///     heap: PageId(66),
///     aux: PageId(67),
///     heap_bound: 4096,
///     aux_bound: 4096,
///     panicked: false,
/// };
/// assert!(frame.grow_heap(Area::Heap, 4097));
/// assert_eq!((frame.gas, frame.heap_bound), (9, 4097));
///
/// // Too little gas empties it and keeps the bound.
/// assert!(!frame.grow_heap(Area::Aux, 5000));
/// assert_eq!((frame.gas, frame.aux_bound), (0, 4096));
/// ```
///
/// Growth adds up. Take loads and stores, each given the frame that the last one left, none of
/// which panics. What they pay for the heap is what the heap's bound rose by, and the same holds
/// for the aux heap. So a running total ends at the final charge. A refused call changes nothing.
///
/// ```
/// # use zincpapaya::{Area, Capacity, Error, Frame, Heaps, Layout, LoadPlaces, Outcome, PageId};
/// # use zincpapaya::{Registers, Source};
/// # fn main() -> Result<(), Error> {
/// # let layout = Layout {
/// #     static_memory: PageId(1),
/// #     calldata: PageId(4),
/// #     bootloader_heap: PageId(5),
/// #     bootloader_aux: PageId(6),
/// #     base: 64,
/// #     stride: 8,
/// # };
/// let heaps = Heaps::open(layout, Capacity { chunks: 4, pages: 2, journal_words: 0 }, &[])?;
/// let first = Frame {
///     gas: 1000,
///     heap: PageId(66),
///     aux: PageId(67),
///     heap_bound: 4096,
///     aux_bound: 0,
///     panicked: false,
/// };
/// let (mut frame, mut registers) = (first, Registers::default());
/// let (mut heap_total, mut aux_total) = (0, 0);
/// for (area, address) in [(Area::Heap, 4065), (Area::Aux, 100), (Area::Aux, 50)] {
///     let gas = frame.gas;
///     let source = Source::Immediate(address);
///     let places = LoadPlaces { source, dst0: 1, dst1: 2, increment: false };
///     assert_eq!(heaps.load(&mut frame, &mut registers, area, places)?, Outcome::Running);
///     match area {
///         Area::Heap => heap_total += gas - frame.gas,
///         Area::Aux => aux_total += gas - frame.gas,
///     }
/// }
/// assert!(!frame.panicked);
/// assert_eq!((heap_total, aux_total), (1, 132));
/// assert_eq!(heap_total, frame.heap_bound - first.heap_bound);
/// assert_eq!(aux_total, frame.aux_bound - first.aux_bound);
/// # Ok(())
/// # }
/// ```
#[derive(Debug, Clone, Copy, PartialEq, Eq, Hash)]
pub struct Frame {
    /// The gas that is left.
    pub gas: u32,
    /// The page of the heap.
    pub heap: PageId,
    /// The page of the aux heap.
    pub aux: PageId,
    /// Bytes of the heap that are paid for.
    pub heap_bound: u32,
    /// Bytes of the aux heap that are paid for.
    pub aux_bound: u32,
    /// Set by an instruction that panics. No call reads it, and none clears it.
    pub panicked: bool,
}

impl Frame {
    /// Pays for an area's growth to a new bound, if it is above the old one, and sets the bound;
    /// tells whether it was paid. Too little gas empties the gas and keeps the bound. The mark
    /// [`panicked`](Self::panicked) stays as it is.
    pub fn grow_heap(&mut self, area: Area, new_bound: u32) -> bool {
        let (mut frame, mut out) = (self.numbers(), [0]);
        never_refused(ffi::grow_heap(&mut frame, area.is_aux(), new_bound, &mut out));
        *self = Self::of(frame);
        out[0] != 0
    }

    /// Pays an amount of gas; tells whether it was paid. Too little gas is emptied.
    pub fn use_gas(&mut self, amount: u32) -> bool {
        let (left, paid) = use_gas(self.gas, amount);
        self.gas = left;
        paid
    }

    /// The fields in the library's order.
    pub(crate) fn numbers(&self) -> [u32; 6] {
        let Self { gas, heap, aux, heap_bound, aux_bound, panicked } = *self;
        [gas, heap.0, aux.0, heap_bound, aux_bound, panicked.into()]
    }

    pub(crate) fn of([gas, heap, aux, heap_bound, aux_bound, panicked]: [u32; 6]) -> Self {
        let (heap, aux) = (PageId(heap), PageId(aux));
        Self { gas, heap, aux, heap_bound, aux_bound, panicked: panicked != 0 }
    }
}

/// Pays an amount from `gas`: gives what is left, and whether it was paid. Too little gas is
/// emptied.
///
/// ```
/// assert_eq!(zincpapaya::use_gas(10, 4), (6, true));
/// assert_eq!(zincpapaya::use_gas(3, 4), (0, false));
/// ```
pub fn use_gas(gas: u32, amount: u32) -> (u32, bool) {
    let mut out = [0; 2];
    never_refused(ffi::use_gas(gas, amount, &mut out));
    (out[0] as u32, out[1] != 0)
}

/// What loads at a list of addresses cost, and where they end; see [`quote`].
#[derive(Debug, Clone, Copy, PartialEq, Eq, Hash)]
pub struct Quote {
    /// The gas that is spent: where a load panics, all that was given.
    pub spent: u32,
    /// The bound that is reached: the last one that was paid for.
    pub bound: u32,
    /// The position, counted from 0, of the load that panics; where none does, the number of
    /// addresses.
    pub position: usize,
    /// Whether the load at [`position`](Self::position) panics; else all loads go through. The gas
    /// does not tell: loads that go through may spend all of it; and with gas 0, a load that panics
    /// spends 0 and keeps the bound.
    pub panics: bool,
}

/// What loads at these addresses of one area cost if they run in this order. The first load is
/// given `gas` and `bound`, each later one the gas and the bound that the one before it left; each
/// pays for its growth. The quote ends at the first load that panics: its address is above
/// 4,294,967,263, or its growth costs more than the gas that is left. That load takes all the gas
/// and keeps the bound, and the addresses after it are not looked at.
///
/// A quote that ends at a panic is `Ok` too, and [`Quote::panics`] tells it. Refused with
/// [`Error::Range`] where there are more than 4,096 addresses, before any of them is looked at.
///
/// A store pays what a load pays, unless it is refused. A quote knows no memory, and so no refusals.
///
/// ```
/// use zincpapaya::{quote, Quote};
///
/// # fn main() -> Result<(), zincpapaya::Error> {
/// // From the bound 4096 on, these pay 0, 1, 0 and 5 gas.
/// let addresses = [4064, 4065, 0, 4070];
/// let quoted = quote(&addresses, 10, 4096)?;
/// assert_eq!(quoted, Quote { spent: 6, bound: 4102, position: 4, panics: false });
///
/// // Of 5 gas, 4 are left for the last load: it panics and takes them.
/// let quoted = quote(&addresses, 5, 4096)?;
/// assert_eq!(quoted, Quote { spent: 5, bound: 4097, position: 3, panics: true });
/// assert_eq!(addresses[quoted.position], 4070);
///
/// // An address above the limit takes all the gas.
/// let quoted = quote(&[0, u32::MAX, 32], 100, 0)?;
/// assert_eq!(quoted, Quote { spent: 100, bound: 32, position: 1, panics: true });
///
/// // With gas 0 a panic spends nothing, and is a panic all the same.
/// let quoted = quote(&[4065], 0, 4096)?;
/// assert_eq!(quoted, Quote { spent: 0, bound: 4096, position: 0, panics: true });
/// # Ok(())
/// # }
/// ```
pub fn quote(addresses: &[u32], gas: u32, bound: u32) -> Result<Quote, Error> {
    let mut out = [0; 3];
    carried_out(ffi::quote(addresses, gas, bound, &mut out))?;
    let [spent, bound, position] = out;
    let position = position as usize;
    let panics = position < addresses.len();
    Ok(Quote { spent: spent as u32, bound: bound as u32, position, panics })
}
