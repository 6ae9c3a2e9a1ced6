//! Every pair of outputs, of all five instructions and of each way in which they end, with an increment
//! and without. And in each place, beside each of these endings, codes that no instruction takes there.

use oracle::{
    immediate, Area, Call, Frame, HeapInstruction, Layout, Op, Places, Registers, Word, OTHER_FORM,
};
use zincpapaya::Capacity;

use crate::{
    edges::{first_group, no_page},
    generate::pattern,
    list::Step,
    model::LAST_ADDRESS,
    rules::{Ending, Panic},
};

/// An instruction that ends in one way, whatever its outputs are.
pub struct Case {
    pub ending: Ending,
    pub capacity: Capacity,
    /// What comes before it.
    before: Vec<Call>,
    pub frame: Frame,
    op: Op,
    operand: Word,
    /// The operand's tag, where it decides the ending.
    tag: Option<bool>,
    value: Word,
    /// Puts a code into its places that it does not take.
    odd: fn(&mut Places),
}

/// Codes that are no place of any instruction, or not one of every place.
const ODD_CODES: [u32; 11] = [
    16,
    17,
    255,
    256,
    65_535,
    65_536,
    131_071,
    OTHER_FORM,
    OTHER_FORM + 1,
    OTHER_FORM + 2,
    OTHER_FORM + 3,
];

impl Case {
    /// All calls of the case.
    pub fn steps(&self) -> Vec<Step> {
        let runs = self.forms().into_iter().flat_map(pairs).chain(self.odd_places());
        let runs = runs.map(|run| run.on(self.frame));
        let calls = self.before.iter().cloned().chain(runs);
        calls.map(|call| Step { memory: 0, call, marked: false }).collect()
    }

    /// The instruction, with each of its operands in several places: every register is an output too,
    /// and every flag is set in one of the forms and not in another.
    pub fn forms(&self) -> Vec<HeapInstruction> {
        let mut forms = vec![
            self.form(1, 2, u16::MAX, true),
            self.form(1, 2, 0, false),
            self.form(0, 14, 0x5555, true),
        ];
        if self.op.stores() {
            // The value is erased, and vm2 is not asked where that is reached.
            forms.push(self.form(1, 2, u16::MAX, false));
        }
        if self.op.stores() && self.ending != Ending::Refused(15) {
            // The operand is the value, too.
            forms.push(self.form(3, 3, 0, false));
            forms.push(self.form(3, 3, u16::MAX, true));
        }
        let [low, rest @ ..] = self.operand.0;
        if let (Ok(number), [0, 0, 0], true) = (u16::try_from(low), rest, self.tag.is_none()) {
            let mut form = self.form(1, 2, 0xaaaa, false);
            form.places.source = immediate(number);
            forms.push(form);
        }
        forms.iter_mut().for_each(|form| (self.odd)(&mut form.places));
        forms
    }

    /// All registers hold something, and have these flags.
    fn form(&self, source: usize, value: usize, flags: u16, kernel: bool) -> HeapInstruction {
        let words = std::array::from_fn(|at| Word([at as u64 + 100, 1, at as u64, 1 << 63]));
        let mut registers = Registers { words, flags };
        let tagged = |number: usize| flags >> number & 1 == 1;
        registers.put(value, self.value, tagged(value));
        registers.put(source, self.operand, self.tag.unwrap_or(tagged(source)));
        let value = if self.op.stores() { value as u32 } else { 0 };
        let places = Places { source: source as u32, value, dst0: 0, dst1: 0 };
        HeapInstruction { op: self.op, registers, places, increment: false, kernel }
    }

    /// Codes that are not taken, in each place in turn.
    fn odd_places(&self) -> Vec<HeapInstruction> {
        let form = self.form(1, 2, u16::MAX, true);
        let given = Places { dst0: 3, dst1: 4, ..form.places };
        let mut runs = Vec::new();
        for code in ODD_CODES.into_iter().chain([u32::MAX]) {
            for increment in [true, false] {
                let mut put = |places| runs.push(HeapInstruction { places, increment, ..form });
                put(Places { source: code, ..given });
                put(Places { dst0: code, ..given });
                put(Places { dst1: code, ..given });
                if self.op.stores() {
                    put(Places { value: code, ..given });
                }
            }
        }
        runs
    }
}

/// The instruction with every pair of outputs, with an increment and without.
pub fn pairs(run: HeapInstruction) -> impl Iterator<Item = HeapInstruction> {
    (0..512).map(move |number| {
        let places = Places { dst0: number / 16 % 16, dst1: number % 16, ..run.places };
        HeapInstruction { places, increment: number < 256, ..run }
    })
}

/// All endings of all instructions. 3 is looked at elsewhere: vm2 does not have it.
pub fn cases(layout: &Layout) -> Vec<Case> {
    let mut cases = Vec::new();
    for area in [Area::Heap, Area::Aux] {
        let store = Op::Store { area, hook: None };
        for op in [Op::Load(area), store] {
            cases.push(case(layout, Ending::Running, op));
            cases.extend(above_the_limit(layout, op));
            let unpaid = case(layout, Ending::Panicked(Panic::Growth), op);
            cases.push(Case { frame: Frame { gas: 39, ..unpaid.frame }, ..unpaid });
            cases.extend(odd_operands(layout, op));
        }
        cases.extend(refused_stores(layout, area));
    }
    // vm2 has no hook on the aux heap: the library is held to its own hook on the heap there.
    cases.extend([Area::Heap, Area::Aux].into_iter().flat_map(|area| hooked(layout, area)));
    for op in [Op::LoadStatic, Op::StoreStatic] {
        cases.push(case(layout, Ending::Running, op));
        cases.extend(above_the_limit(layout, op));
        cases.extend(odd_operands(layout, op));
    }
    cases.push(no_chunk(layout, Op::StoreStatic));
    cases.extend(pointers(layout));
    cases.extend(odd_operands(layout, Op::LoadPointer));
    cases
}

/// An instruction at address 8 that costs 40 gas at most, and has them. There are words to read.
fn case(layout: &Layout, ending: Ending, op: Op) -> Case {
    let [heap, aux] = first_group(layout);
    let write = |(seed, page)| Call::WriteBytes { page, start: 0, bytes: pattern(64, seed) };
    Case {
        ending,
        capacity: Capacity { chunks: 4, pages: 2, journal_words: 0 },
        before: [(1, heap), (2, aux), (3, layout.static_memory)].map(write).into(),
        frame: Frame { gas: 40, heap, aux, heap_bound: 0, aux_bound: 0 },
        op,
        operand: 8.into(),
        tag: None,
        value: Word([7, 8, 9, 10]),
        odd: |_| {},
    }
}

/// By one, and by the highest bit.
fn above_the_limit(layout: &Layout, op: Op) -> [Case; 2] {
    [(LAST_ADDRESS + 1).into(), Word([8, 0, 0, 1 << 63])].map(|operand| {
        let panics = case(layout, Ending::Panicked(Panic::Operand), op);
        Case { operand, ..panics }
    })
}

/// 16 by a place that is no output.
fn odd_operands(layout: &Layout, op: Op) -> Vec<Case> {
    let refused = |odd| Case { odd, ..case(layout, Ending::Refused(16), op) };
    let mut cases =
        vec![refused(|places| places.source = 16), refused(|places| places.source = OTHER_FORM)];
    if op == Op::LoadPointer {
        cases.push(refused(|places| places.source = immediate(8)));
    }
    if op.stores() {
        cases.push(refused(|places| places.value = 16));
        cases.push(refused(|places| places.value = immediate(8)));
    }
    cases
}

/// 4, 9, 10 and 11.
fn refused_stores(layout: &Layout, area: Area) -> [Case; 4] {
    let op = Op::Store { area, hook: None };
    let at = |page: u32, refused: Case| {
        let frame = Frame { heap: page, aux: page, ..refused.frame };
        Case { frame, ..refused }
    };
    let no_page = at(no_page(layout), case(layout, Ending::Refused(4), op));
    let [heap, aux] = first_group(layout);
    let page = if area == Area::Heap { aux } else { heap };
    let no_entry = case(layout, Ending::Refused(9), op);
    let no_entry = Case {
        capacity: Capacity { pages: 1, ..no_entry.capacity },
        before: vec![Call::AllocateAt { page }],
        ..no_entry
    };
    let no_journal = at(layout.bootloader_aux, case(layout, Ending::Refused(11), op));
    [no_page, no_entry, no_chunk(layout, op), no_journal]
}

/// 10: the one chunk is held by another page.
fn no_chunk(layout: &Layout, op: Op) -> Case {
    let refused = case(layout, Ending::Refused(10), op);
    let capacity = Capacity { chunks: 1, ..refused.capacity };
    let before = vec![Call::WriteBytes { page: layout.calldata, start: 0, bytes: vec![1] }];
    Case { capacity, before, ..refused }
}

/// A stop, and 15: by a value that has more than 32 bits without its page and its start, too.
fn hooked(layout: &Layout, area: Area) -> [Case; 2] {
    let op = Op::Store { area, hook: Some(8) };
    let [fits, too_great] = [0, 1].map(|third| Word([u32::MAX.into(), 0, third, 0]));
    let [stopped, refused] =
        [Ending::Stopped, Ending::Refused(15)].map(|ending| case(layout, ending, op));
    [Case { value: fits, ..stopped }, Case { value: too_great, ..refused }]
}

/// A pointer read, its panics, and 14.
fn pointers(layout: &Layout) -> Vec<Case> {
    let [heap, _] = first_group(layout);
    let pointer = |ending, tag, offset: u32, start: u32, length: u32| {
        let join = |low: u32, high: u32| u64::from(high) << 32 | u64::from(low);
        let operand = Word([join(offset, heap), join(start, length), 5, 6]);
        Case { operand, tag: Some(tag), ..case(layout, ending, Op::LoadPointer) }
    };
    vec![
        pointer(Ending::Running, true, 3, 10, 40),
        pointer(Ending::Panicked(Panic::Untagged), false, 3, 10, 40),
        pointer(Ending::Panicked(Panic::Offset), true, LAST_ADDRESS + 1, 10, 40),
        pointer(Ending::Refused(14), true, 3, 1, u32::MAX),
    ]
}

#[cfg(test)]
mod tests {
    use super::*;
    use crate::rules::due;

    #[test]
    fn every_case_ends_as_it_says_where_there_is_room() {
        for layout in oracle::LAYOUTS {
            let layout = oracle::bank(layout).expect("a listed layout").layout();
            for case in cases(&layout) {
                let no_room = matches!(case.ending, Ending::Refused(9..=11));
                let ending = if no_room { Ending::Running } else { case.ending };
                for run in case.forms().into_iter().flat_map(pairs) {
                    assert_eq!(due(&layout, &case.frame, &run).ending, ending, "{run:?}");
                }
            }
        }
    }
}
