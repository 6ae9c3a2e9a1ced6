//! How many bytes of a partial read and of a pointer read come from the range. vm2 does not tell, so the library's number is
//! held to a count that is made here, from the call's arguments alone: no code of vm2's or the library's takes part in it.
//! Whether there is a number is taken from vm2's answer.
//! And a list of such reads for each layout, on pages that hold all bytes, some of them or none.

use std::fmt;

use oracle::{Answer, Call, Frame, HeapInstruction, Layout, Op, Operand, Word};

use crate::{
    edges::{first_group, no_page},
    generate::pattern,
    list::Step,
    model::{place, Model, CHUNK, LAST_ADDRESS},
};

/// The most bytes that a word has.
const WORD: u64 = 32;

/// The bytes of a range that was read.
#[derive(Debug, Clone, Copy, PartialEq)]
struct Bytes {
    page: u32,
    start: u64,
    number: u64,
    /// Whether the range is reversed, or the pointer's offset lies past its end.
    past: bool,
}

impl Bytes {
    fn of_range(page: u32, start: u32, end: u32) -> Self {
        let [start, end] = [start, end].map(u64::from);
        Self { page, start, number: end.saturating_sub(start), past: start > end }
    }

    /// From the offset on, at most 32, and none past the pointer's end.
    fn of_pointer(word: Word) -> Self {
        let Word([low, high, ..]) = word;
        let [offset, start, length] = [low, high, high >> 32].map(|limb| u64::from(limb as u32));
        let first = start + offset.min(length);
        let number = (start + length - first).min(WORD);
        Self { page: (low >> 32) as u32, start: first, number, past: offset > length }
    }

    /// What a call has read that vm2 answered so. None of any other call, and of one that panicked or was refused.
    fn of(call: &Call, theirs: &Answer) -> Option<Self> {
        match (call, theirs) {
            (Call::ReadU256Partially { page, start, end }, Answer::Word(_)) => {
                Some(Self::of_range(*page, *start, *end))
            }
            (Call::Instruction { instruction, .. }, Answer::Ran(..)) => {
                let HeapInstruction { op, registers, places, .. } = &**instruction;
                let through_a_pointer = *op == Op::LoadPointer;
                through_a_pointer.then(|| Self::of_pointer(registers.get(places.source as usize).0))
            }
            _ => None,
        }
    }

    /// Whether the page has a byte of these in a chunk that it does not hold.
    fn not_held(&self, model: &Model) -> bool {
        if self.number == 0 {
            return false;
        }
        let held = place(&model.layout, self.page).and_then(|at| model.held.get(&at));
        let last = self.start + self.number - 1;
        (self.start / CHUNK..=last / CHUNK)
            .any(|chunk| !held.is_some_and(|held| held.contains(&(chunk as u32))))
    }
}

/// The number that the library must tell of a call which vm2 answered so; none where it has none.
pub fn due(call: &Call, theirs: &Answer) -> Option<u64> {
    Bytes::of(call, theirs).map(|bytes| bytes.number)
}

/// Reads of one kind whose number was compared.
#[derive(Debug, Clone, Copy, Default, PartialEq)]
pub struct Counts {
    /// By the number: 0, 1, 2 to 30, 31 and 32.
    pub numbers: [u64; 5],
    /// Of all these: reversed ranges, or offsets past the end.
    pub past: u64,
    /// Those with a byte of a chunk that is not held; and of them those whose id decodes to no page.
    pub not_held: u64,
    pub no_page: u64,
}

impl Counts {
    fn count(&mut self, model: &Model, bytes: &Bytes) {
        let class = match bytes.number {
            0 => 0,
            1 => 1,
            2..=30 => 2,
            31 => 3,
            _ => 4,
        };
        self.numbers[class] += 1;
        self.past += u64::from(bytes.past);
        let not_held = bytes.not_held(model);
        self.not_held += u64::from(not_held);
        self.no_page += u64::from(not_held && place(&model.layout, bytes.page).is_none());
    }

    fn add(&mut self, other: &Self) {
        self.numbers.iter_mut().zip(other.numbers).for_each(|(sum, more)| *sum += more);
        self.past += other.past;
        self.not_held += other.not_held;
        self.no_page += other.no_page;
    }

    /// How often the one of these was met that was met least.
    #[cfg(test)]
    pub fn least(&self) -> u64 {
        let Self { numbers, past, not_held, no_page } = *self;
        numbers.into_iter().chain([past, not_held, no_page]).min().expect("there are several")
    }
}

/// Partial reads and pointer reads whose number was compared.
#[derive(Debug, Default)]
pub struct ReadCounts {
    pub partial: Counts,
    pub pointer: Counts,
}

impl ReadCounts {
    /// Counts a call that was answered alike, if it has a number. `model` is what its memory holds.
    pub fn count(&mut self, model: &Model, call: &Call, theirs: &Answer) {
        let Some(bytes) = Bytes::of(call, theirs) else { return };
        let counts = match call {
            Call::Instruction { .. } => &mut self.pointer,
            _ => &mut self.partial,
        };
        counts.count(model, &bytes);
    }

    pub fn add(&mut self, other: &Self) {
        self.partial.add(&other.partial);
        self.pointer.add(&other.pointer);
    }
}

impl fmt::Display for ReadCounts {
    fn fmt(&self, out: &mut fmt::Formatter<'_>) -> fmt::Result {
        let kinds = [
            ("partial reads", "reversed", &self.partial),
            ("pointer reads", "past the pointer's end", &self.pointer),
        ];
        for (name, beyond, counts) in kinds {
            let Counts { numbers: [none, one, some, most, all], past, not_held, no_page } = counts;
            let sum = none + one + some + most + all;
            writeln!(
                out,
                "{sum} {name} whose number of bytes was compared: {none} of 0, {one} of 1, {some} of 2 to 30, {most} of \
                 31, {all} of 32; {past} {beyond}, {not_held} with a byte that is not held, {no_page} of no page"
            )?;
        }
        Ok(())
    }
}

/// Ranges: whole, short by one, of one byte, empty, reversed, over the edge of a chunk, at the top, and one that is refused.
const RANGES: [(u32, u32); 11] = [
    (0, 32),
    (0, 31),
    (63, 64),
    (0, 7),
    (5, 5),
    (5, 3),
    (u32::MAX, 0),
    (250, 260),
    (240, 272),
    (u32::MAX - 31, u32::MAX),
    (0, 33),
];

/// Start, length and offset of pointers: numbers 32, 31, 1 and 0, offsets at the end and past it, reads over the edge of a chunk,
/// at the top; and two that are not carried out.
const POINTERS: [(u32, u32, u32); 17] = [
    (10, 5, 0),
    (10, 5, 3),
    (10, 5, 5),
    (10, 5, 6),
    (10, 5, LAST_ADDRESS),
    (10, 5, LAST_ADDRESS + 1),
    (0, 64, 0),
    (0, 64, 32),
    (0, 64, 33),
    (0, 64, 63),
    (0, 64, 64),
    (0, 0, 0),
    (250, 10, 0),
    (240, u32::MAX - 240, 0),
    (0, u32::MAX, u32::MAX - 40),
    (u32::MAX - 5, 5, 0),
    (u32::MAX - 5, 6, 0),
];

/// All these reads of a page.
fn reads(page: u32) -> Vec<Call> {
    let frame = Frame { gas: 1, heap: page, aux: page, heap_bound: 0, aux_bound: 0 };
    let join = |low: u32, high: u32| u64::from(high) << 32 | u64::from(low);
    let ranges = RANGES.map(|(start, end)| Call::ReadU256Partially { page, start, end });
    let pointers = POINTERS.map(|(start, length, offset)| {
        let word = Word([join(offset, page), join(start, length), 9, 9]);
        let operand = Operand::Register { word, tagged: true };
        HeapInstruction::on_operands(Op::LoadPointer, operand, Word::default()).on(frame)
    });
    ranges.into_iter().chain(pointers).collect()
}

/// The reads, of pages that hold all bytes, zeros, a part, and none. They are no part of the stored answers.
pub fn steps(layout: &Layout) -> Vec<Step> {
    let [heap, aux] = first_group(layout);
    let mut calls = Vec::new();
    for page in [heap, no_page(layout), layout.static_memory, layout.bootloader_aux] {
        calls.extend(reads(page));
    }
    for (page, bytes) in [(heap, pattern(600, 3)), (aux, vec![0; 300])] {
        calls.push(Call::WriteBytes { page, start: 0, bytes });
        calls.extend(reads(page));
    }
    for (start, length) in [(0, 256), (256, 256)] {
        calls.push(Call::WriteBytes { page: heap, start: 0, bytes: pattern(600, 3) });
        calls.push(Call::CompactToWindow { page: heap, start, length });
        calls.extend(reads(heap));
    }
    calls.push(Call::Deallocate { page: heap });
    calls.extend(reads(heap));
    calls.into_iter().map(|call| Step { memory: 0, call, marked: false }).collect()
}

#[cfg(test)]
mod tests {
    use super::*;

    #[test]
    fn the_worked_numbers() {
        for ((start, end), number) in RANGES.into_iter().zip([32, 31, 1, 7, 0, 0, 0, 10, 32, 31]) {
            assert_eq!(Bytes::of_range(66, start, end).number, number, "{start} to {end}");
        }
        let due = [5, 2, 0, 0, 0, 0, 32, 32, 31, 1, 0, 0, 10, 32, 32, 5];
        for ((start, length, offset), number) in POINTERS.into_iter().zip(due) {
            let join = |low: u32, high: u32| u64::from(high) << 32 | u64::from(low);
            let given = Bytes::of_pointer(Word([join(offset, 66), join(start, length), 1, 2]));
            assert_eq!((given.page, given.number), (66, number), "{start}, {length}, {offset}");
        }
    }
}
