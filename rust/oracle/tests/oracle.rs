//! That the oracle shows vm2's state faithfully and puts it back after a panic.

use oracle::{
    immediate, Answer, Area, Bank, Call, Frame, HeapInstruction, Layout, Left, Op, Operand, Place,
    Places, Registers, Word, LAYOUTS, OTHER_FORM,
};

fn each_bank(test: impl Fn(&mut dyn Bank)) {
    for name in LAYOUTS {
        test(oracle::bank(name).expect("a listed layout").as_mut());
    }
}

#[test]
fn the_layouts_are_those_of_the_list() {
    let list = include_str!("../../layouts.txt");
    let rows = list.lines().filter(|line| !line.starts_with('#'));
    let names = rows.map(|row| {
        let (name, numbers) = row.split_once(' ').expect("a name and numbers");
        let numbers = numbers.split_whitespace().map(|field| field.parse().expect("a number"));
        let [static_memory, calldata, bootloader_heap, bootloader_aux, base, stride] =
            numbers.collect::<Vec<u32>>().try_into().expect("six numbers");
        let layout =
            Layout { static_memory, calldata, bootloader_heap, bootloader_aux, base, stride };
        assert_eq!(oracle::bank(name).expect(name).layout(), layout);
        name
    });
    assert!(names.eq(LAYOUTS));
}

/// Writes at addresses near chunk edges, on every kind of page, from a fixed sequence.
fn fill(bank: &mut dyn Bank) {
    let layout = bank.layout();
    let mut seed = 1u64;
    let mut next = |below: u64| {
        seed = seed.wrapping_mul(6_364_136_223_846_793_005).wrapping_add(1_442_695_040_888_963_407);
        (seed >> 33) % below
    };
    let fixed = [layout.static_memory, layout.bootloader_heap, layout.bootloader_aux];
    for _ in 0..200 {
        let page = match next(6) {
            at @ 0..3 => fixed[at as usize],
            3 => layout.base,
            4 => layout.base + 2,
            _ => layout.base + layout.stride + 3,
        };
        let address = (next(8) * 256 + 220 + next(40)) as u32;
        let value = Word([next(1 << 31), 0, next(1 << 31), next(1 << 31)]);
        assert_eq!(bank.answer(0, &Call::WriteU256 { page, address, value }), Answer::Done);
    }
}

#[test]
fn the_view_agrees_with_reads() {
    each_bank(|bank| {
        fill(bank);
        let layout = bank.layout();
        let view = bank.view(0);
        assert_eq!(bank.answer(0, &Call::DynamicLen), Answer::Number(view.dynamic_len));
        let [heap, aux] =
            [&view.journals[0], &view.journals[1]].map(|journal| journal.len() as u64);
        assert_eq!(bank.answer(0, &Call::Snapshot), Answer::Snapshot { heap, aux });
        assert!(view.pages.iter().map(|page| page.chunks.len()).sum::<usize>() > 20);
        for page in &view.pages {
            let id = layout.id(page.place).expect("allocated pages have an id");
            for chunk in &page.chunks {
                let call = Call::Chunk { page: id, number: chunk.number };
                assert_eq!(bank.answer(0, &call), Answer::Bytes(chunk.bytes.to_vec()));
            }
        }
    });
}

#[test]
fn a_rolled_back_journal_gives_the_old_words() {
    each_bank(|bank| {
        fill(bank);
        let journal = bank.view(0).journals[0].clone();
        let (address, old) = *journal.last().expect("the bootloader heap was written");
        let aux = bank.view(0).journals[1].len() as u64;
        let heap = journal.len() as u64 - 1;
        assert_eq!(bank.answer(0, &Call::Rollback { heap, aux }), Answer::Done);
        let page = bank.layout().bootloader_heap;
        assert_eq!(bank.answer(0, &Call::ReadU256 { page, address }), Answer::Word(old));
        assert_eq!(bank.view(0).journals[0][..], journal[..journal.len() - 1]);
    });
}

#[test]
fn a_panic_is_put_back_whole() {
    each_bank(|bank| {
        fill(bank);
        let layout = bank.layout();
        let before = bank.view(0);
        let heap = layout.bootloader_heap;
        let frame = Frame { gas: 9000, heap, aux: heap, heap_bound: 0, aux_bound: 0 };
        let store = Op::Store { area: Area::Heap, hook: Some(8) };
        let value = Word([1 << 32, 0, 0, 0]);
        let hooked = HeapInstruction::on_operands(store, Operand::Immediate(8), value);
        let calls = [
            (15, hooked.on(frame)),
            (12, Call::Rollback { heap: 0, aux: u64::MAX }),
            (8, Call::WriteBytes { page: heap, start: u32::MAX, bytes: vec![0; 2] }),
        ];
        for (number, call) in calls {
            let Answer::RustPanic(panic) = bank.answer(0, &call) else {
                panic!("{call:?} does not panic");
            };
            assert_eq!(panic.refusal, Some(number));
            assert!(bank.view(0) == before);
            assert!(bank.left_behind().expect("it panicked").0 != before);
        }
    });
}

#[test]
fn decoding_tells_the_places() {
    let mut bank = oracle::bank("example").expect("a listed layout");
    let mut decode = |page| bank.answer(0, &Call::Decode { page });
    assert_eq!(decode(5), Answer::Decoded(Some(Place::BootloaderHeap)));
    assert_eq!(decode(65), Answer::Decoded(None));
}

/// r1 = 4064, r2 = 7, r3 = 5 with its flag, r4 = 9; an instruction on r1 and r2 with its outputs r3 and r4.
fn worked(op: Op, increment: bool) -> HeapInstruction {
    let mut registers = Registers::default();
    for (number, word) in [(1, 4064u32), (2, 7), (3, 5), (4, 9)] {
        registers.put(number, word.into(), number == 3);
    }
    let value = if op.stores() { 2 } else { 0 };
    let places = Places { source: 1, value, dst0: 3, dst1: 4 };
    HeapInstruction { op, registers, places, increment, kernel: true }
}

const GIVEN: Frame = Frame { gas: 10, heap: 66, aux: 67, heap_bound: 4096, aux_bound: 4096 };
const LOAD: Op = Op::Load(Area::Heap);
const STORE: Op = Op::Store { area: Area::Heap, hook: None };

#[test]
fn every_outcome_tells_all_registers() {
    let mut bank = oracle::bank("example").expect("a listed layout");
    // Registers 3 and 4 and the flags afterwards; the others stay.
    let due = |instruction: &HeapInstruction, r3: u32, r4: u32, flags| {
        let mut registers = Registers { flags, ..instruction.registers };
        (registers.words[3], registers.words[4]) = (r3.into(), r4.into());
        registers
    };
    for (op, increment, r3, r4, flags) in [
        (STORE, true, 4096, 0, 0),
        (STORE, false, 5, 0, 8),
        (LOAD, true, 7, 4096, 0),
        (LOAD, false, 7, 0, 0),
    ] {
        let run = worked(op, increment);
        let left = Left { frame: GIVEN, registers: due(&run, r3, r4, flags) };
        assert_eq!(
            bank.answer(0, &run.on(GIVEN)),
            Answer::Ran(left.into(), None),
            "{op:?} {increment}"
        );
    }
    // A panic leaves the first output and clears the second, whether or not it would be written.
    for op in [LOAD, STORE] {
        for increment in [true, false] {
            let mut run = worked(op, increment);
            run.registers.words[1] = 4065u32.into();
            let frame = Frame { gas: 0, ..GIVEN };
            let left = Left { frame, registers: due(&run, 5, 0, 8) };
            assert_eq!(bank.answer(0, &run.on(frame)), Answer::EraPanic(left.into()), "{op:?}");
        }
    }
}

#[test]
fn places_that_are_not_taken_are_refused_before_a_panic() {
    let mut bank = oracle::bank("example").expect("a listed layout");
    let mut refusal = |run: HeapInstruction| match bank.answer(0, &run.on(GIVEN)) {
        Answer::RustPanic(panic) => panic.refusal,
        answer => panic!("{run:?}: {answer:?}"),
    };
    let bad = [16, 17, 255, 256, 272, 65_535, OTHER_FORM, OTHER_FORM + 3, u32::MAX];
    for op in [LOAD, STORE, Op::LoadPointer, Op::LoadStatic, Op::StoreStatic] {
        for increment in [true, false] {
            let mut run = worked(op, increment);
            run.registers.words[1] = Word([0, 1, 0, 0]);
            let places = run.places;
            let with = |places| HeapInstruction { places, ..run };
            for bad in bad {
                assert_eq!(refusal(with(Places { source: bad, ..places })), Some(16));
            }
            for bad in bad.into_iter().chain([immediate(0), immediate(u16::MAX)]) {
                assert_eq!(refusal(with(Places { dst0: bad, ..places })), Some(16));
                assert_eq!(refusal(with(Places { dst1: bad, ..places })), Some(16));
                if op.stores() {
                    assert_eq!(refusal(with(Places { value: bad, ..places })), Some(16));
                }
                if op == Op::LoadPointer {
                    assert_eq!(refusal(with(Places { source: bad, ..places })), Some(16));
                }
            }
        }
    }
}

#[test]
fn what_would_erase_a_pointer_is_not_run() {
    let mut bank = oracle::bank("example").expect("a listed layout");
    for op in [STORE, Op::Store { area: Area::Aux, hook: None }, Op::StoreStatic] {
        let before = bank.view(0);
        let mut run = worked(op, true);
        run.registers.flags = 1 << 2;
        let user = HeapInstruction { kernel: false, ..run };
        assert!(matches!(bank.answer(0, &user.on(GIVEN)), Answer::NotRun(_)));
        assert!(bank.view(0) == before);
        assert!(matches!(bank.answer(0, &run.on(GIVEN)), Answer::Ran(..)));
        // A panic comes before the value is read.
        let mut panics = user;
        panics.registers.words[1] = Word([0, 1, 0, 0]);
        assert!(matches!(bank.answer(0, &panics.on(GIVEN)), Answer::EraPanic(_)));
    }
}
