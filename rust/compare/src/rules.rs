//! What an instruction must come to: how it ends, its frame and its registers. Written from the rules
//! alone, those of document 01 and those of registers and places, so that neither vm2's files nor the
//! library decide anything here.

use oracle::{Area, Frame, HeapInstruction, Layout, Op, Places, Registers, Word};

use crate::model::{area_of, place, LAST_ADDRESS};

/// How an instruction ends, where there is room for what it writes.
#[derive(Debug, Clone, Copy, PartialEq, Eq, PartialOrd, Ord)]
pub enum Ending {
    Running,
    /// On the hook.
    Stopped,
    Panicked(Panic),
    Refused(u8),
}

/// Why an instruction panics as the EraVM does.
#[derive(Debug, Clone, Copy, PartialEq, Eq, PartialOrd, Ord)]
pub enum Panic {
    /// The operand is above the limit.
    Operand,
    /// The gas does not pay for the growth.
    Growth,
    /// The operand of a pointer read has no tag.
    Untagged,
    /// The offset of a pointer is above the limit.
    Offset,
}

/// The bytes that a load reads or a store writes.
#[derive(Debug, Clone, Copy, PartialEq)]
pub struct Access {
    pub page: u32,
    pub start: u32,
    pub end: u32,
}

#[derive(Debug, Clone, Copy, PartialEq)]
pub struct Due {
    pub ending: Ending,
    /// The value of a stop on the hook.
    pub stop: Option<u32>,
    pub frame: Frame,
    /// None of an instruction that does not come to it. A store that its hook refuses does: want of
    /// room is looked at before.
    pub access: Option<Access>,
}

/// Registers have these codes, and immediates those.
const REGISTERS: std::ops::Range<u32> = 0..16;
const IMMEDIATES: std::ops::Range<u32> = 65_536..131_072;

/// Whether the instruction takes all of its places.
pub fn takes(run: &HeapInstruction) -> bool {
    let Places { source, value, dst0, dst1 } = run.places;
    let is_register = |code| REGISTERS.contains(&code);
    let immediate = run.op != Op::LoadPointer && IMMEDIATES.contains(&source);
    (is_register(source) || immediate)
        && (is_register(value) || !run.op.stores())
        && is_register(dst0)
        && is_register(dst1)
}

/// The operand and its tag, of an instruction that takes its places.
pub fn operand(run: &HeapInstruction) -> (Word, bool) {
    match run.places.source {
        number if REGISTERS.contains(&number) => run.registers.get(number as usize),
        code => ((code - IMMEDIATES.start).into(), false),
    }
}

/// The word that a store writes: outside kernel mode a pointer loses its page and its start.
pub fn value(run: &HeapInstruction) -> Word {
    let (word, tagged) = run.registers.get(run.places.value as usize);
    if tagged && !run.kernel {
        erased(word)
    } else {
        word
    }
}

/// A pointer's page is in bits 32 to 63, its start in bits 64 to 95.
pub fn erased(Word([low, high, third, fourth]): Word) -> Word {
    Word([low & 0xffff_ffff, high >> 32 << 32, third, fourth])
}

/// A number of 32 bits; none of a word that has more.
fn number(Word([low, rest @ ..]): Word) -> Option<u32> {
    u32::try_from(low).ok().filter(|_| rest == [0; 3])
}

/// What the instruction must come to, but for want of room. The word of a load is read elsewhere.
pub fn due(layout: &Layout, frame: &Frame, run: &HeapInstruction) -> Due {
    let start = Due { ending: Ending::Running, stop: None, frame: *frame, access: None };
    if !takes(run) {
        return Due { ending: Ending::Refused(16), ..start };
    }
    match run.op {
        Op::LoadPointer => through_a_pointer(start, run),
        Op::LoadStatic | Op::StoreStatic => match address(run) {
            None => Due { ending: Ending::Panicked(Panic::Operand), ..start },
            Some(address) => Due { access: Some(word_at(layout.static_memory, address)), ..start },
        },
        Op::Load(area) => in_an_area(start, area, run),
        Op::Store { area, hook } => {
            let accessed = in_an_area(start, area, run);
            match accessed.access {
                None => accessed,
                Some(access) if place(layout, access.page).is_none() => {
                    Due { ending: Ending::Refused(4), ..start }
                }
                Some(access) if hook == Some(access.start) => match number(value(run)) {
                    None => Due { ending: Ending::Refused(15), access: Some(access), ..start },
                    stop => Due { ending: Ending::Stopped, stop, ..accessed },
                },
                Some(_) => accessed,
            }
        }
    }
}

fn word_at(page: u32, start: u32) -> Access {
    Access { page, start, end: start + 32 }
}

/// The operand of a load or store, if it is not above the limit.
fn address(run: &HeapInstruction) -> Option<u32> {
    number(operand(run).0).filter(|address| *address <= LAST_ADDRESS)
}

/// The growth of an area is paid first.
fn in_an_area(start: Due, area: Area, run: &HeapInstruction) -> Due {
    let panicked = |panic| {
        let frame = Frame { gas: 0, ..start.frame };
        Due { ending: Ending::Panicked(panic), frame, ..start }
    };
    let Some(address) = address(run) else { return panicked(Panic::Operand) };
    let (page, bound) = area_of(&start.frame, area);
    let needed = bound.max(address + 32);
    let Some(gas) = start.frame.gas.checked_sub(needed - bound) else {
        return panicked(Panic::Growth);
    };
    let mut frame = Frame { gas, ..start.frame };
    match area {
        Area::Heap => frame.heap_bound = needed,
        Area::Aux => frame.aux_bound = needed,
    }
    Due { frame, access: Some(word_at(page, address)), ..start }
}

/// From the offset on, at most 32 bytes, and none past the pointer's end.
fn through_a_pointer(before: Due, run: &HeapInstruction) -> Due {
    let (Word([low, high, ..]), tagged) = operand(run);
    let halves = |limb: u64| [limb as u32, (limb >> 32) as u32];
    let ([offset, page], [start, length]) = (halves(low), halves(high));
    let ended = |ending| Due { ending, ..before };
    if !tagged {
        return ended(Ending::Panicked(Panic::Untagged));
    }
    if offset > LAST_ADDRESS {
        return ended(Ending::Panicked(Panic::Offset));
    }
    let Some(end) = start.checked_add(length) else { return ended(Ending::Refused(14)) };
    let first = start + offset.min(length);
    let end = end.min(first.saturating_add(32));
    Due { access: Some(Access { page, start: first, end }), ..before }
}

/// The registers that an instruction leaves which ended so. `word` is what a load has read.
pub fn registers_after(run: &HeapInstruction, ending: Ending, word: Word) -> Registers {
    let Places { dst0, dst1, .. } = run.places;
    let mut after = run.registers;
    match ending {
        Ending::Refused(_) => return after,
        Ending::Panicked(_) => clear(&mut after, dst1),
        Ending::Running | Ending::Stopped => {
            let (mut next, tagged) = operand(run);
            // Within the limits this carries nothing.
            next.0[0] += 32;
            match (run.op.stores(), run.increment) {
                (false, true) => {
                    write(&mut after, dst0, word, false);
                    write(&mut after, dst1, next, tagged);
                }
                (false, false) => {
                    write(&mut after, dst0, word, false);
                    clear(&mut after, dst1);
                }
                (true, true) => {
                    write(&mut after, dst0, next, false);
                    clear(&mut after, dst1);
                }
                (true, false) => clear(&mut after, dst1),
            }
        }
    }
    after
}

fn write(registers: &mut Registers, number: u32, word: Word, tagged: bool) {
    if number > 0 {
        registers.put(number as usize, word, tagged);
    }
}

fn clear(registers: &mut Registers, number: u32) {
    write(registers, number, Word::default(), false);
}

#[cfg(test)]
mod tests {
    use super::*;

    const FRAME: Frame = Frame { gas: 10, heap: 66, aux: 67, heap_bound: 4096, aux_bound: 4096 };

    fn layout() -> Layout {
        oracle::bank("example").expect("a listed layout").layout()
    }

    /// r1 = 4064, r2 = 7, r3 = 5 with its flag, r4 = 9.
    fn run(op: Op, increment: bool) -> HeapInstruction {
        let mut registers = Registers::default();
        for (number, word) in [(1, 4064u32), (2, 7), (3, 5), (4, 9)] {
            registers.put(number, word.into(), number == 3);
        }
        let value = if op.stores() { 2 } else { 0 };
        let places = Places { source: 1, value, dst0: 3, dst1: 4 };
        HeapInstruction { op, registers, places, increment, kernel: true }
    }

    /// Words of r3 and r4, and the flags.
    fn left(run: &HeapInstruction, ending: Ending) -> (Word, Word, u16) {
        let after = registers_after(run, ending, 77.into());
        (after.words[3], after.words[4], after.flags)
    }

    const LOAD: Op = Op::Load(Area::Heap);
    const STORE: Op = Op::Store { area: Area::Heap, hook: None };

    #[test]
    fn the_worked_figures() {
        for (op, increment, r3, r4, flags) in [
            (LOAD, true, 77, 4096, 0),
            (LOAD, false, 77, 0, 0),
            (STORE, true, 4096, 0, 0),
            (STORE, false, 5, 0, 8),
        ] {
            let run = run(op, increment);
            assert_eq!(due(&layout(), &FRAME, &run).ending, Ending::Running);
            let due = (r3.into(), r4.into(), flags);
            assert_eq!(left(&run, Ending::Running), due, "{op:?} {increment}");
            let panicked = left(&run, Ending::Panicked(Panic::Growth));
            assert_eq!(panicked, (5.into(), 0.into(), 8), "{op:?} {increment}");
            assert_eq!(left(&run, Ending::Refused(4)), (5.into(), 9.into(), 8));
        }
    }

    #[test]
    fn one_register_for_both_outputs() {
        for (op, increment, r3) in
            [(LOAD, true, 4096), (LOAD, false, 0), (STORE, true, 0), (STORE, false, 0)]
        {
            let mut run = run(op, increment);
            run.places.dst1 = 3;
            assert_eq!(left(&run, Ending::Running), (r3.into(), 9.into(), 0), "{op:?} {increment}");
        }
    }

    #[test]
    fn a_pointer_is_erased_outside_kernel_mode() {
        let mut run = run(STORE, false);
        run.registers.put(2, Word([66 << 32 | 1, 5 << 32 | 10, 3, 4]), true);
        assert_eq!(value(&run), Word([66 << 32 | 1, 5 << 32 | 10, 3, 4]));
        run.kernel = false;
        assert_eq!(value(&run), Word([1, 5 << 32, 3, 4]));
    }

    #[test]
    fn a_place_that_is_not_taken_comes_first() {
        for op in [LOAD, STORE, Op::LoadPointer, Op::LoadStatic, Op::StoreStatic] {
            let mut run = run(op, false);
            run.registers.words[1] = Word([0, 0, 0, 1]);
            assert!(matches!(due(&layout(), &FRAME, &run).ending, Ending::Panicked(_)));
            for code in [16, 65_536, 131_071, 131_072] {
                run.places.dst1 = code;
                assert_eq!(due(&layout(), &FRAME, &run).ending, Ending::Refused(16));
            }
        }
    }
}
