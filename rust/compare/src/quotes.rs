//! Quotes, beside the loads that they tell of. vm2 has no quote, but it has the loads: they are run
//! one after another, each with the frame that the one before it left, up to the first that panics.
//! The library's own loads are run beside them.

use std::fmt::Debug;

use oracle::{Answer, Area, Bank, Frame, HeapInstruction, Layout, Op, Operand, Word};
use zincpapaya::{Error, Quote};

use crate::{
    both::Both,
    charges::Sides,
    list::{Mismatch, Step},
    model::{area_of, LAST_ADDRESS},
    ours,
    pair::held_alike,
    rng::Rng,
    tally::Tally,
};

/// What gives the quotes: the library, or in a test something wrong.
pub type Quoter = fn(&[u32], u32, u32) -> Result<Quote, Error>;

/// Addresses that a quote may have.
const LONGEST: usize = 4_096;

/// Quotes of one round.
const ROUND: usize = 8;

/// What a quote is given.
#[derive(Debug)]
pub struct Asked {
    pub list: Vec<u32>,
    pub gas: u32,
    pub bound: u32,
}

impl Asked {
    /// Mostly a short list; now and then one of the greatest length, or of one address more.
    fn draw(rng: &mut Rng) -> Self {
        let bound = any_bound(rng);
        let list = match rng.below(2_000) {
            0 => long_list(rng, LONGEST),
            1 => long_list(rng, LONGEST + 1),
            _ => short_list(rng, bound),
        };
        let gas = any_gas(rng, &list, bound);
        Self { list, gas, bound }
    }

    /// Addresses around the bound, the gas, the operand limit and the greatest length.
    fn edges() -> Vec<Self> {
        let four = vec![4064, 4065, 0, 4070];
        let zeros = |length| vec![0; length];
        let asked = [
            (four.clone(), 10, 4096),
            (four.clone(), 6, 4096),
            (four, 5, 4096),
            (vec![4064], 0, 4096),
            (vec![4065], 0, 4096),
            (vec![], 7, 4096),
            (vec![LAST_ADDRESS], u32::MAX, 0),
            (vec![LAST_ADDRESS], u32::MAX - 1, 0),
            (vec![LAST_ADDRESS + 1], 7, 0),
            (vec![0, u32::MAX, 64], 100, 0),
            (vec![LAST_ADDRESS], 7, u32::MAX),
            (vec![LAST_ADDRESS + 1], 7, u32::MAX),
            (vec![LAST_ADDRESS + 1], 0, u32::MAX),
            (vec![32, 0], 40, 0),
            (vec![0, 32], 40, 0),
            (zeros(LONGEST), 32, 0),
            (zeros(LONGEST), 31, 0),
            (zeros(LONGEST + 1), 32, 0),
        ];
        asked.map(|(list, gas, bound)| Self { list, gas, bound }).into()
    }
}

/// The loads that a quote tells of.
#[derive(Debug)]
struct Loads<'a> {
    asked: &'a Asked,
    area: Area,
    /// The frame that the first of them is given.
    first: Frame,
}

/// Both sides, with memories that hold the same.
pub struct Quotes<'a> {
    pub bank: &'a mut dyn Bank,
    pub tally: &'a mut Tally,
    pub ours: [Both; 2],
    pub quote: Quoter,
}

impl<'a> Quotes<'a> {
    /// The library's quotes, on the memories that a list has left.
    pub fn new(bank: &'a mut dyn Bank, tally: &'a mut Tally, memories: &[Both]) -> Self {
        let ours = [memories[0].clone(), memories[1].clone()];
        Self { bank, tally, ours, quote: zincpapaya::quote }
    }

    /// Quotes that are drawn.
    pub fn round(&mut self, rng: &mut Rng) -> Result<(), Mismatch> {
        (0..ROUND).try_for_each(|_| {
            let asked = Asked::draw(rng);
            self.compare(rng, &asked)
        })
    }

    /// Quotes that every run has.
    pub fn edges(&mut self, rng: &mut Rng) -> Result<(), Mismatch> {
        Asked::edges().iter().try_for_each(|asked| self.compare(rng, asked))
    }

    /// A quote, beside loads of both areas.
    pub fn compare(&mut self, rng: &mut Rng, asked: &Asked) -> Result<(), Mismatch> {
        let Asked { list, gas, bound } = asked;
        let given = (self.quote)(list, *gas, *bound);
        if list.len() > LONGEST {
            self.tally.count_alone("quotes of more than 4096 addresses");
            return refused(asked, given);
        }
        let layout = self.bank.layout();
        for area in [Area::Heap, Area::Aux] {
            let first = with(any_frame(rng, &layout), area, *gas, *bound);
            let (loads, mut sides) = (Loads { asked, area, first }, Sides::default());
            let (last, position) = self.run(&loads, &mut sides)?;
            let run = sides.end().map_or(0, |run| run.accesses as usize);
            same("loads that were added up, and those before the panic", &loads, &run, &position)?;
            let reached = area_of(&last, area).1;
            let due = with(first, area, last.gas, reached);
            same("vm2's last frame, and what loads may make of it", &loads, &last, &due)?;
            let (spent, panics) = (gas.wrapping_sub(last.gas), position < list.len());
            let due = Quote { spent, bound: reached, position, panics };
            same("a quote beside its loads", &loads, &Ok(due), &given)?;
        }
        let panics = given.ok().and_then(|quote| list.get(quote.position));
        self.tally.quotes.count(panics);
        Ok(())
    }

    /// Runs loads on both sides, and checks on each that growth adds up. Returns the frame that they
    /// leave, and the position of the one that panics, or how many they are.
    fn run(&mut self, loads: &Loads, sides: &mut Sides) -> Result<(Frame, usize), Mismatch> {
        let mut frame = loads.first;
        for (position, address) in loads.asked.list.iter().enumerate() {
            let operand = Operand::Register { word: (*address).into(), tagged: false };
            let op = Op::Load(loads.area);
            let load = HeapInstruction::on_operands(op, operand, Word::default());
            let call = load.incrementing(false).on(frame);
            let step = Step { memory: 0, call, marked: false };
            let theirs = self.bank.answer(step.memory, &step.call);
            let ours = ours::answer(&mut self.ours, step.memory, &step.call, step.marked);
            self.tally.quotes.loads += 1;
            match &theirs {
                Answer::Ran(left, _) if ours.agrees_with(&theirs) => {
                    sides.answered(&step, &theirs, &ours).map_err(|found| found.within(loads))?;
                    frame = left.frame;
                }
                Answer::EraPanic(left) if ours.agrees_with(&theirs) => {
                    return Ok((left.frame, position))
                }
                _ => {
                    let what = format!("the load at position {position} of {loads:?}");
                    let (vm2, library) = (format!("{theirs:?}"), format!("{ours:?}"));
                    return Err(Mismatch { what, vm2, library });
                }
            }
        }
        Ok((frame, loads.asked.list.len()))
    }

    /// That the loads have changed neither side's memory: `left` is what the list has left.
    pub fn untouched(&mut self, left: &Both) -> Result<(), Mismatch> {
        let mismatch = |(vm2, library)| {
            let what = "what memory 0 holds after the loads of quotes".into();
            Mismatch { what, vm2, library }
        };
        if !self.ours[0].has_the_numbers_of(left) {
            return Err(mismatch(("nothing changes".into(), "another content".into())));
        }
        let view = self.bank.view(0);
        let layout = self.bank.layout();
        held_alike(&mut self.ours[0], &view, &layout).map(|_| ()).map_err(mismatch)
    }
}

/// A quote of too many addresses is refused, whatever they are; there is nothing to ask vm2.
fn refused(asked: &Asked, given: Result<Quote, Error>) -> Result<(), Mismatch> {
    if given == Err(Error::Range) {
        return Ok(());
    }
    let what = format!("a quote of too many addresses: {asked:?}");
    let vm2 = "not asked: refusal 8 is due".into();
    Err(Mismatch { what, vm2, library: format!("{given:?}") })
}

/// What vm2's loads come to must be what the library tells.
fn same<T: PartialEq + Debug>(
    what: &str,
    of: &impl Debug,
    vm2: &T,
    library: &T,
) -> Result<(), Mismatch> {
    if vm2 == library {
        return Ok(());
    }
    let (vm2, library) = (format!("{vm2:?}"), format!("{library:?}"));
    Err(Mismatch { what: what.into(), vm2, library }.within(of))
}

/// The frame with this gas, and with this bound of one area.
fn with(frame: Frame, area: Area, gas: u32, bound: u32) -> Frame {
    match area {
        Area::Heap => Frame { gas, heap_bound: bound, ..frame },
        Area::Aux => Frame { gas, aux_bound: bound, ..frame },
    }
}

/// A frame whose pages and bounds no quote knows.
fn any_frame(rng: &mut Rng, layout: &Layout) -> Frame {
    let Layout { static_memory, bootloader_heap, bootloader_aux, base, .. } = *layout;
    let near = [0, 1, 2, 3].map(|more| base.wrapping_add(more));
    let mut page = || match rng.below(8) {
        0 => bootloader_heap,
        1 => bootloader_aux,
        2 => static_memory,
        3 => rng.next() as u32,
        _ => rng.pick(&near),
    };
    let (heap, aux) = (page(), page());
    Frame { gas: 0, heap, aux, heap_bound: any_bound(rng), aux_bound: any_bound(rng) }
}

fn any_bound(rng: &mut Rng) -> u32 {
    match rng.below(8) {
        0 => rng.next() as u32,
        1 => rng.below32(10_000),
        _ => rng.pick(&[0, 32, 4096, 4097, u32::MAX - 1, u32::MAX]),
    }
}

/// Up to eight addresses, some of them near the bound that those before them reach.
fn short_list(rng: &mut Rng, bound: u32) -> Vec<u32> {
    let (length, mut reached) = (rng.below(9), bound);
    let mut address = || {
        let drawn = match rng.below(12) {
            0 => rng.next() as u32,
            1 => rng.pick(&[LAST_ADDRESS - 1, LAST_ADDRESS, LAST_ADDRESS + 1, u32::MAX]),
            2 | 3 => rng.below32(10_000),
            4..7 => rng.pick(&[0, 1, 31, 32, 4064, 4065, 4096]),
            7 => reached.saturating_sub(33 + rng.below32(2)),
            _ => reached.saturating_sub(32).saturating_add(rng.pick(&[0, 1, 2, 31, 32, 33])),
        };
        reached = reached.max(drawn.min(LAST_ADDRESS) + 32);
        drawn
    };
    (0..length).map(|_| address()).collect()
}

/// Addresses that rise, with some steps back; in every other list one of them is above the limit.
fn long_list(rng: &mut Rng, length: usize) -> Vec<u32> {
    let mut list: Vec<u32> = (0..length as u32).map(|at| 8 * at + rng.below32(64)).collect();
    if rng.one_in(2) {
        list[rng.below(length as u64) as usize] = LAST_ADDRESS + 1 + rng.below32(32);
    }
    list
}

/// Gas about as much as the list needs, or its first part. What is due is decided by vm2 alone.
fn any_gas(rng: &mut Rng, list: &[u32], bound: u32) -> u32 {
    let all = list.len();
    let part = if rng.one_in(3) { rng.below(all as u64 + 1) as usize } else { all };
    let paid = list[..part].iter().take_while(|address| **address <= LAST_ADDRESS);
    let need = paid.map(|address| address + 32).max().unwrap_or(0).saturating_sub(bound);
    match rng.below(8) {
        0 => 0,
        1 | 2 => need,
        3 => need.saturating_sub(1),
        4 => need.saturating_add(1),
        5 => rng.below32(need.max(1)),
        6 => rng.next() as u32,
        _ => u32::MAX,
    }
}
