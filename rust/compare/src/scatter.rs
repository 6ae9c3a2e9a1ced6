//! Registers and places, drawn for an instruction that is told by its operands: any register may hold
//! them, be an output or be both, and now and then a place is one that no instruction takes.

use oracle::{form, Form, HeapInstruction, Places, Registers, Word, OTHER_FORM};

use crate::rng::Rng;

/// One of so many instructions has a code of these, or any other one, in one of its places.
const ODD_PLACE: u64 = 20;
const ODD_CODES: [u32; 14] = [
    16,
    17,
    31,
    255,
    256,
    65_535,
    65_536,
    65_543,
    131_071,
    OTHER_FORM,
    OTHER_FORM + 1,
    OTHER_FORM + 2,
    OTHER_FORM + 3,
    u32::MAX,
];

/// Registers 1 and 2 have the operand and the value of the instruction that is given.
pub fn scattered(rng: &mut Rng, given: HeapInstruction) -> HeapInstruction {
    let mut registers = any_registers(rng);
    let mut places = Places { dst0: register(rng), dst1: register(rng), ..given.places };
    if given.op.stores() {
        places.value = register(rng);
        let tagged = rng.one_in(4);
        registers.put(places.value as usize, given.registers.words[2], tagged);
    }
    if matches!(form(places.source), Form::Register(_)) {
        // Where the value is there too, the operand is stored.
        places.source = register(rng);
        let (word, tagged) = given.registers.get(1);
        registers.put(places.source as usize, word, tagged);
    }
    alias(rng, &mut places);
    let erases = given.op.stores() && registers.get(places.value as usize).1;
    // Where a pointer is erased, vm2 cannot be asked: few of these.
    let kernel = if erases { !rng.one_in(16) } else { rng.one_in(2) };
    if rng.one_in(ODD_PLACE) {
        odd_place(rng, given.op.stores(), &mut places);
    }
    HeapInstruction { registers, places, kernel, ..given }
}

pub fn register(rng: &mut Rng) -> u32 {
    rng.below32(16)
}

/// Makes an output one of the other places, in every other instruction.
pub fn alias(rng: &mut Rng, places: &mut Places) {
    let source = match form(places.source) {
        Form::Register(number) => number.into(),
        _ => places.dst0,
    };
    match rng.below(12) {
        0 | 1 => places.dst1 = places.dst0,
        2 => places.dst0 = source,
        3 => places.dst1 = source,
        4 => (places.dst0, places.dst1) = (source, source),
        5 => places.dst0 = places.value,
        _ => {}
    }
}

pub fn odd_place(rng: &mut Rng, stores: bool, places: &mut Places) {
    let code = if rng.one_in(8) { rng.next() as u32 } else { rng.pick(&ODD_CODES) };
    match rng.below(4) {
        0 => places.source = code,
        1 if stores => places.value = code,
        1 | 2 => places.dst0 = code,
        _ => places.dst1 = code,
    }
}

pub fn any_registers(rng: &mut Rng) -> Registers {
    let words = [0; 16].map(|_| any_word(rng));
    let drawn = rng.next() as u16;
    Registers { words, flags: rng.pick(&[0, u16::MAX, drawn, drawn]) }
}

pub fn any_word(rng: &mut Rng) -> Word {
    match rng.below(4) {
        0 => Word::default(),
        1 => Word([rng.below(5_000), 0, 0, 0]),
        2 => Word([rng.next(), rng.next(), 0, 0]),
        _ => Word([0; 4].map(|_| rng.next())),
    }
}
