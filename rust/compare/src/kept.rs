//! Instructions with registers that are kept from one to the next, for the stored sample. How each is
//! to end is chosen first; then it is drawn until the rules say that it ends so.

use oracle::{
    immediate, Answer, Area, Bank, Call, Frame, HeapInstruction, Layout, Op, Places, Registers,
    Word,
};

use crate::{
    edges::{first_group, no_page},
    generate::pattern,
    list::Step,
    model::LAST_ADDRESS,
    rng::Rng,
    rules::{self, Ending, Panic},
    scatter::{alias, any_registers, any_word, odd_place, register},
    store::Sample,
    written,
};

/// The layout of the group, and what stands above it.
pub const LAYOUT: &str = "example";
pub const HEAD: &str = "\
# Registers that are kept from line to line: R sets one, X runs an instruction with them. vm2 cannot be asked about stores of
# a tagged value outside kernel mode, nor about hooks on the aux heap: there are none of these.
t registers";

/// So many instructions are carried out, of each kind; and so many end in each other way. Every other
/// one of each increments.
const CARRIED_OUT: usize = 8;
const OTHERS: usize = 4;

const OPS: [Op; 7] = [
    Op::Load(Area::Heap),
    Op::Store { area: Area::Heap, hook: None },
    Op::LoadPointer,
    Op::LoadStatic,
    Op::StoreStatic,
    Op::Load(Area::Aux),
    Op::Store { area: Area::Aux, hook: None },
];

/// At the edges of words and chunks.
const ADDRESSES: [u32; 7] = [0, 8, 31, 32, 224, 225, 250];
/// Bytes of each page that are written before all else.
const WRITTEN: u64 = 300;

/// The operand is above the limit.
const LIMIT: Ending = Ending::Panicked(Panic::Operand);

/// The ways in which an instruction ends and vm2 can be asked.
fn endings(op: Op) -> Vec<Ending> {
    let growth = Ending::Panicked(Panic::Growth);
    let others = match op {
        Op::Load(_) => vec![LIMIT, growth],
        Op::Store { area: Area::Heap, .. } => {
            vec![LIMIT, growth, Ending::Refused(4), Ending::Stopped, Ending::Refused(15)]
        }
        Op::Store { area: Area::Aux, .. } => vec![LIMIT, growth, Ending::Refused(4)],
        Op::LoadPointer => vec![
            Ending::Panicked(Panic::Untagged),
            Ending::Panicked(Panic::Offset),
            Ending::Refused(14),
        ],
        Op::LoadStatic | Op::StoreStatic => vec![LIMIT],
    };
    [vec![Ending::Running, Ending::Refused(16)], others].concat()
}

/// The lines of the group, and the number of its calls.
pub fn sample(bank: &mut dyn Bank, seed: u64) -> (Vec<String>, usize) {
    let kept = group(bank, seed);
    (kept.sample.lines, kept.sample.calls)
}

fn group(bank: &mut dyn Bank, seed: u64) -> Kept<'_> {
    let layout = bank.layout();
    let mut kept = Kept {
        layout,
        sample: Sample::start(bank),
        rng: Rng::new(!seed, u64::MAX),
        registers: Registers::default(),
        runs: Vec::new(),
    };
    let pages = kept.pages();
    kept.on_pages(&pages, |page, at| {
        let bytes = pattern(WRITTEN, page as u8 + 100 * at as u8);
        Call::WriteBytes { page, start: 0, bytes }
    });
    let mut first = any_registers(&mut kept.rng);
    first.put(0, Word::default(), false);
    kept.set(&first);
    for round in 0..CARRIED_OUT {
        for op in OPS {
            for ending in endings(op) {
                if ending == Ending::Running || round < OTHERS {
                    kept.run(op, ending, round % 2 == 0);
                }
            }
        }
    }
    kept.on_pages(&pages, |page, _| Call::Chunk { page, number: 0 });
    kept.sample.held();
    kept
}

struct Kept<'a> {
    layout: Layout,
    sample: Sample<'a>,
    rng: Rng,
    /// What the last instruction left.
    registers: Registers,
    /// The instructions, and how each ended.
    runs: Vec<(HeapInstruction, Ending)>,
}

impl Kept<'_> {
    fn pages(&self) -> [u32; 5] {
        let [heap, aux] = first_group(&self.layout);
        let Layout { static_memory, bootloader_heap, bootloader_aux, .. } = self.layout;
        [heap, aux, static_memory, bootloader_heap, bootloader_aux]
    }

    /// A call on each of these pages of both memories.
    fn on_pages(&mut self, pages: &[u32], call: impl Fn(u32, usize) -> Call) {
        for memory in 0..2 {
            for page in pages {
                self.sample.step(Step { memory, call: call(*page, memory), marked: false });
            }
        }
    }

    /// Writes a line for each register that does not hold what it is to hold.
    fn set(&mut self, wanted: &Registers) {
        for number in 0..16 {
            let (word, tagged) = wanted.get(number);
            if self.registers.get(number) != (word, tagged) {
                assert_ne!(number, 0, "register 0 is never written");
                self.sample.push(written::register(number, word, tagged));
            }
        }
        self.registers = *wanted;
    }

    /// Puts an instruction that ends so to vm2, and keeps what it leaves.
    fn run(&mut self, op: Op, ending: Ending, increment: bool) {
        let (frame, run) = loop {
            let (frame, run) = self.draw(op, ending);
            let run = run.incrementing(increment);
            if rules::due(&self.layout, &frame, &run).ending == ending {
                break (frame, run);
            }
        };
        self.set(&run.registers);
        let at = self.rng.below(2) as usize;
        let answer = self.sample.ask(at, &run.on(frame)).expect("there is room");
        assert!(ends_so(&answer, ending), "{run:?}: {answer:?}");
        let line = written::kept(at, &frame, &run, &answer).expect("vm2 has an answer");
        self.sample.push(line);
        if let Answer::Ran(left, _) | Answer::EraPanic(left) = answer {
            self.registers = left.registers;
        }
        self.runs.push((run, ending));
    }

    /// An instruction that most often ends so, with its frame.
    fn draw(&mut self, op: Op, ending: Ending) -> (Frame, HeapInstruction) {
        let rng = &mut self.rng;
        let address = rng.pick(&ADDRESSES);
        let [source, dst0, dst1] = [(); 3].map(|()| often_zero(rng));
        let value = if op.stores() { often_zero(rng) } else { 0 };
        let mut places = Places { source, value, dst0, dst1 };
        if op != Op::LoadPointer && ending != LIMIT && rng.one_in(4) {
            places.source = immediate(address as u16);
        }
        alias(rng, &mut places);
        // What the outputs hold beforehand.
        let mut registers = self.registers;
        for output in [places.dst0, places.dst1] {
            if rng.one_in(6) {
                put(&mut registers, output, any_word(rng), true);
            }
        }
        if op.stores() {
            put(&mut registers, places.value, stored(rng, ending), rng.one_in(3));
        }
        let (operand, tagged) = match op {
            Op::LoadPointer => (self.pointer(ending), ending != Ending::Panicked(Panic::Untagged)),
            _ => (operand(rng, ending, address), rng.one_in(2)),
        };
        put(&mut registers, places.source, operand, tagged);
        let erases = op.stores() && registers.get(places.value as usize).1;
        let kernel = erases || self.rng.one_in(2);
        if ending == Ending::Refused(16) {
            odd_place(&mut self.rng, op.stores(), &mut places);
        }
        let op = self.with_hook(op, ending, address);
        let run = HeapInstruction { op, registers, places, increment: false, kernel };
        (self.frame(op, ending, address), run)
    }

    /// A hook that stops the store, or one that does not; none on the aux heap.
    fn with_hook(&mut self, op: Op, ending: Ending, address: u32) -> Op {
        let Op::Store { area: Area::Heap, .. } = op else { return op };
        let hook = match ending {
            Ending::Stopped | Ending::Refused(15) => Some(address),
            _ if self.rng.one_in(3) => Some(address + 1),
            _ => None,
        };
        Op::Store { area: Area::Heap, hook }
    }

    /// A frame whose gas pays for an access at this address, or misses that by one.
    fn frame(&mut self, op: Op, ending: Ending, address: u32) -> Frame {
        let Layout { bootloader_heap, bootloader_aux, .. } = self.layout;
        let [heap, aux] = match ending {
            Ending::Refused(4) => [no_page(&self.layout); 2],
            _ if self.rng.one_in(3) => [bootloader_heap, bootloader_aux],
            _ => first_group(&self.layout),
        };
        let charge = self.rng.pick(&[0, 1, 32]);
        let (bound, other) = (address + 32 - charge, self.rng.pick(&[0, 7, 5_000]));
        let gas = match ending {
            Ending::Panicked(Panic::Growth) => charge.saturating_sub(1),
            _ => charge + self.rng.pick(&[0, 9]),
        };
        let [heap_bound, aux_bound] = match op {
            Op::Load(Area::Aux) | Op::Store { area: Area::Aux, .. } => [other, bound],
            _ => [bound, other],
        };
        Frame { gas, heap, aux, heap_bound, aux_bound }
    }

    fn pointer(&mut self, ending: Ending) -> Word {
        let pages = self.pages();
        let rng = &mut self.rng;
        let page = rng.pick(&pages);
        let (start, length) = match ending {
            Ending::Refused(14) => (rng.pick(&[1, u32::MAX]), u32::MAX),
            _ => (rng.pick(&[0, 10, 240]), rng.pick(&[0, 5, 40, 64])),
        };
        let offset = match ending {
            Ending::Panicked(Panic::Offset) => rng.pick(&[LAST_ADDRESS + 1, u32::MAX]),
            _ => rng.pick(&[0, 3, 5, 32]),
        };
        let join = |low: u32, high: u32| u64::from(high) << 32 | u64::from(low);
        Word([join(offset, page), join(start, length), rng.pick(&[0, 5]), rng.pick(&[0, 6])])
    }
}

/// Any register; register 0 more often than the others.
fn often_zero(rng: &mut Rng) -> u32 {
    if rng.one_in(8) {
        0
    } else {
        register(rng)
    }
}

fn operand(rng: &mut Rng, ending: Ending, address: u32) -> Word {
    match ending {
        LIMIT => rng.pick(&[
            (LAST_ADDRESS + 1).into(),
            Word([1 << 32, 0, 0, 0]),
            Word([address.into(), 0, 0, 1 << 63]),
        ]),
        _ => address.into(),
    }
}

fn stored(rng: &mut Rng, ending: Ending) -> Word {
    match ending {
        Ending::Stopped => rng.pick(&[7, u32::MAX]).into(),
        Ending::Refused(15) => rng.pick(&[Word([1 << 32, 0, 0, 0]), Word([7, 0, 1, 0])]),
        _ => any_word(rng),
    }
}

/// Gives a register a word and a tag, if the code is that of a register that can be written.
fn put(registers: &mut Registers, code: u32, word: Word, tagged: bool) {
    if (1..16).contains(&code) {
        registers.put(code as usize, word, tagged);
    }
}

/// Whether this answer of vm2's is such an ending.
fn ends_so(answer: &Answer, ending: Ending) -> bool {
    match answer {
        Answer::Ran(_, None) => ending == Ending::Running,
        Answer::Ran(_, Some(_)) => ending == Ending::Stopped,
        Answer::EraPanic(_) => matches!(ending, Ending::Panicked(_)),
        Answer::RustPanic(panic) => panic.refusal.map(Ending::Refused) == Some(ending),
        _ => false,
    }
}

#[cfg(test)]
mod tests {
    use std::collections::BTreeSet;

    use oracle::OTHER_FORM;

    use super::*;

    #[test]
    fn the_group_has_every_ending_and_many_places() {
        let mut bank = oracle::bank(LAYOUT).expect("a listed layout");
        let kept = group(bank.as_mut(), 1);
        let lines = kept.sample.lines.len();
        assert_eq!(lines, kept.sample.calls);
        assert!((150..=400).contains(&lines), "{lines} lines");

        let without_hook = |op| match op {
            Op::Store { area, .. } => Op::Store { area, hook: None },
            op => op,
        };
        for op in OPS {
            for ending in endings(op) {
                for increment in [true, false] {
                    let met = kept.runs.iter().filter(|(run, ended)| {
                        (without_hook(run.op), *ended, run.increment) == (op, ending, increment)
                    });
                    assert!(met.count() >= OTHERS / 2, "{op:?} {ending:?} {increment}");
                }
            }
        }

        let pairs: BTreeSet<_> =
            kept.runs.iter().map(|(run, _)| (run.places.dst0, run.places.dst1)).collect();
        assert!(pairs.len() >= 80, "{} pairs of outputs", pairs.len());

        let done: Vec<_> =
            kept.runs.iter().filter(|(_, ending)| *ending == Ending::Running).collect();
        let met: [(&str, fn(&HeapInstruction) -> bool); 12] = [
            ("an immediate", |run| run.places.source > 15),
            ("register 0 as the source", |run| run.places.source == 0),
            ("register 0 as the value", |run| run.op.stores() && run.places.value == 0),
            ("register 0 as the first output", |run| run.places.dst0 == 0),
            ("register 0 as the second output", |run| run.places.dst1 == 0),
            ("one output", |run| run.places.dst0 == run.places.dst1),
            ("the source as the first output", |run| run.places.dst0 == run.places.source),
            ("the source as the second output", |run| run.places.dst1 == run.places.source),
            ("the value as the first output", |run| {
                run.op.stores() && run.places.dst0 == run.places.value && run.places.value > 0
            }),
            ("a tag handed on", |run| {
                run.increment && !run.op.stores() && rules::operand(run).1 && run.places.dst1 > 0
            }),
            ("a tagged value in kernel mode", |run| {
                run.op.stores() && run.registers.get(run.places.value as usize).1 && run.kernel
            }),
            ("a store outside kernel mode", |run| run.op.stores() && !run.kernel),
        ];
        for (what, is_so) in met {
            assert!(done.iter().any(|(run, _)| is_so(run)), "{what}");
        }
        for output in [|places: Places| places.dst0, |places: Places| places.dst1] {
            let tagged = |run: &HeapInstruction| run.registers.get(output(run.places) as usize).1;
            assert!(done.iter().any(|(run, _)| tagged(run)), "an output that had a tag");
        }

        let refused = kept.runs.iter().filter(|(_, ending)| *ending == Ending::Refused(16));
        let codes: Vec<_> = refused
            .map(|(HeapInstruction { places, .. }, _)| {
                [places.source, places.value, places.dst0, places.dst1]
            })
            .collect();
        for at in 0..4 {
            assert!(codes.iter().any(|codes| codes[at] > 15), "no code in place {at}");
        }
        assert!(codes.iter().any(|[source, ..]| *source >= OTHER_FORM), "no other form");
    }

    #[test]
    fn no_tagged_value_outside_kernel_mode() {
        let mut bank = oracle::bank(LAYOUT).expect("a listed layout");
        for (run, _) in group(bank.as_mut(), 1).runs {
            let value = run.places.value as usize;
            let erases = run.op.stores() && !run.kernel && value < 16 && run.registers.get(value).1;
            assert!(!erases, "{run:?}");
        }
    }
}
