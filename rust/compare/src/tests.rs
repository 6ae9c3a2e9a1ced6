//! That the comparison finds what is wrong: vm2's answers are tampered with on their way, or the
//! library's quotes are, or one of its two memories, or its pool. And that its lists have runs of several
//! loads and stores, and every pair of outputs, and empty the pools of memories. The child `bytes_read` has what is about the
//! number of bytes from a range.

mod bytes_read;

use oracle::{
    Answer, Area, Bank, Call, Frame, HeapInstruction, Layout, Left, Op, Operand, Registers,
    RustPanic, View, LAYOUTS,
};
use zincpapaya::{quote, Buffers, Capacity, Error, PageId, Quote, Word};

use crate::{
    all_outputs,
    both::Both,
    edge_runs, edges,
    generate::{Generator, Sort},
    list::{Finding, Handed, List, Mismatch, Step},
    model::{Model, LAST_ADDRESS},
    options::Options,
    ours::{self, Reply},
    pair::{self, Looks},
    pool, pool_list,
    quotes::{Asked, Quoter, Quotes},
    rng::Rng,
    rules::{Ending, Panic},
    store,
    tally::{RunCounts, Tally, PAIRS},
    Shard,
};

/// vm2's memories, with answers, views or calls changed on the way.
struct Tampered {
    bank: Box<dyn Bank>,
    answer: fn(&Call, Answer) -> Answer,
    view: fn(&mut View),
    /// Calls that are answered but not carried out.
    swallows: fn(&Call) -> bool,
}

impl Tampered {
    fn new() -> Self {
        let bank = oracle::bank("example").expect("a listed layout");
        Self { bank, answer: |_, answer| answer, view: |_| {}, swallows: |_| false }
    }
}

impl Bank for Tampered {
    fn layout(&self) -> Layout {
        self.bank.layout()
    }

    fn answer(&mut self, at: usize, call: &Call) -> Answer {
        if (self.swallows)(call) {
            return Answer::Done;
        }
        (self.answer)(call, self.bank.answer(at, call))
    }

    fn view(&mut self, at: usize) -> View {
        let mut view = self.bank.view(at);
        (self.view)(&mut view);
        view
    }

    fn left_behind(&self) -> Option<(View, Frame)> {
        self.bank.left_behind()
    }
}

fn shard(bank: Tampered) -> Shard {
    let options = Options { seed: 7, calls: 20_000, layout: Some("example"), store: None };
    let banks: Vec<(&'static str, Box<dyn Bank>)> = vec![("example", Box::new(bank))];
    Shard { number: 0, options, banks, tally: Tally::default() }
}

/// What a run over these memories finds.
fn find(bank: Tampered) -> Option<Box<Finding>> {
    shard(bank).run().err()
}

fn steps(finding: &Finding) -> Vec<&Call> {
    finding.list.steps.iter().map(|Step { call, .. }| call).collect()
}

#[test]
fn vm2_itself_agrees() {
    assert!(find(Tampered::new()).is_none());
}

#[test]
fn a_flipped_byte_is_found_and_its_list_shrunk() {
    let flip = |call: &Call, answer| match (call, answer) {
        (Call::ReadU256 { address: 225, .. }, Answer::Word(mut word)) if word.0[3] != 0 => {
            word.0[0] ^= 1 << 8;
            Answer::Word(word)
        }
        (_, answer) => answer,
    };
    let finding = find(Tampered { answer: flip, ..Tampered::new() }).expect("a byte is flipped");
    assert_eq!(steps(&finding).len(), 2, "{:?}", finding.lines());
    assert!(matches!(steps(&finding)[1], Call::ReadU256 { address: 225, .. }));
    assert!(finding.lines().iter().any(|line| line.starts_with("read_u256 ")));
}

#[test]
fn a_wrong_refusal_is_found() {
    let shift = |_: &Call, answer| match answer {
        Answer::RustPanic(panic) if panic.refusal == Some(13) => {
            Answer::RustPanic(RustPanic { refusal: Some(12), ..panic })
        }
        answer => answer,
    };
    let finding = find(Tampered { answer: shift, ..Tampered::new() }).expect("13 is told as 12");
    assert!(matches!(steps(&finding)[..], [Call::TruncateDynamicTo { .. }]));
}

#[test]
fn wrong_gas_is_found() {
    let cheaper = |call: &Call, answer| match answer {
        Answer::Ran(left, stop) if left.frame.gas == 1 && !call.changes() => {
            Answer::Ran(Left { frame: Frame { gas: 2, ..left.frame }, ..*left }.into(), stop)
        }
        answer => answer,
    };
    let finding = find(Tampered { answer: cheaper, ..Tampered::new() }).expect("gas is too high");
    assert!(matches!(steps(&finding)[..], [Call::Instruction { .. }]));
}

#[test]
fn a_rollback_that_undoes_too_little_is_found() {
    let swallows = |call: &Call| matches!(call, Call::Rollback { heap: 1, .. });
    let finding = find(Tampered { swallows, ..Tampered::new() }).expect("rollbacks are lost");
    assert!(steps(&finding).len() <= 4, "{:?}", finding.lines());
}

#[test]
fn a_wrong_byte_that_no_call_reads_is_found() {
    fn dirty(view: &mut View) {
        let chunks = view.pages.iter_mut().flat_map(|page| &mut page.chunks);
        chunks.filter(|chunk| chunk.number == 2).for_each(|chunk| chunk.bytes[255] ^= 1);
    }
    let finding = find(Tampered { view: dirty, ..Tampered::new() }).expect("a byte is dirty");
    assert_eq!(steps(&finding).len(), 1, "{:?}", finding.lines());
}

#[test]
fn a_wrong_word_of_a_journal_is_found() {
    fn forget(view: &mut View) {
        view.journals[1].iter_mut().for_each(|(_, old)| old.0[2] = 0);
    }
    let finding = find(Tampered { view: forget, ..Tampered::new() }).expect("old words are lost");
    assert!(steps(&finding).len() <= 2, "{:?}", finding.lines());
}

/// Changes the registers that vm2 leaves after an instruction. `change` is told whether it was carried out.
fn registers_changed(
    call: &Call,
    mut answer: Answer,
    change: fn(&HeapInstruction, bool, &mut Registers),
) -> Answer {
    let ran = matches!(answer, Answer::Ran(..));
    if let (Answer::Ran(left, _) | Answer::EraPanic(left), Call::Instruction { instruction, .. }) =
        (&mut answer, call)
    {
        change(instruction, ran, &mut left.registers);
    }
    answer
}

/// Puts back what a register held before the instruction.
fn put_back(run: &HeapInstruction, left: &mut Registers, number: u32) {
    let (word, tagged) = run.registers.get(number as usize);
    left.put(number as usize, word, tagged);
}

type Tampering = fn(&Call, Answer) -> Answer;

const WRONG_REGISTERS: [(&str, Tampering); 10] = [
    ("a panic leaves the second output", |call, answer| {
        registers_changed(call, answer, |run, ran, left| {
            if !ran {
                put_back(run, left, run.places.dst1);
            }
        })
    }),
    ("a panic clears the first output", |call, answer| {
        registers_changed(call, answer, |run, ran, left| {
            if !ran {
                left.put(run.places.dst0 as usize, 0.into(), false);
            }
        })
    }),
    ("a load that does not increment leaves the second output", |call, answer| {
        registers_changed(call, answer, |run, ran, left| {
            if ran && !run.op.stores() && !run.increment && run.places.dst0 != run.places.dst1 {
                put_back(run, left, run.places.dst1);
            }
        })
    }),
    ("a store that increments leaves the second output", |call, answer| {
        registers_changed(call, answer, |run, ran, left| {
            if ran && run.op.stores() && run.increment && run.places.dst0 != run.places.dst1 {
                put_back(run, left, run.places.dst1);
            }
        })
    }),
    ("a store that does not increment clears the first output", |call, answer| {
        registers_changed(call, answer, |run, ran, left| {
            if ran && run.op.stores() && !run.increment {
                left.put(run.places.dst0 as usize, 0.into(), false);
            }
        })
    }),
    ("a load loses its operand's tag", |call, answer| {
        registers_changed(call, answer, |run, ran, left| {
            if ran && matches!(run.op, Op::Load(_)) {
                left.flags &= !(1 << run.places.dst1);
            }
        })
    }),
    ("a static store keeps its operand's tag", |call, answer| {
        registers_changed(call, answer, |run, ran, left| {
            if ran && run.op == Op::StoreStatic && run.increment {
                let tagged = run.registers.get(run.places.source as usize % 16).1;
                left.flags |= u16::from(tagged) << run.places.dst0;
            }
        })
    }),
    ("register 0 is written", |call, answer| {
        registers_changed(call, answer, |run, ran, left| {
            if ran && run.places.dst0 == 0 {
                left.put(0, 0.into(), false);
            }
        })
    }),
    ("the first output is written last", |call, answer| {
        registers_changed(call, answer, |run, ran, left| {
            let both = run.places.dst0 == run.places.dst1;
            if ran && both && run.op == Op::LoadStatic && run.increment {
                left.put(run.places.dst0 as usize, 1.into(), false);
            }
        })
    }),
    ("a flag of another register changes", |call, answer| {
        registers_changed(call, answer, |run, ran, left| {
            if ran && run.op == Op::LoadPointer && ![run.places.dst0, run.places.dst1].contains(&9)
            {
                left.flags ^= 1 << 9;
            }
        })
    }),
];

#[test]
fn wrong_registers_are_found_among_all_outputs() {
    for (what, answer) in WRONG_REGISTERS {
        let mut bank = Tampered { answer, ..Tampered::new() };
        let found = all_outputs(&mut bank, &mut Tally::default(), "example").expect_err(what);
        let one = matches!(steps(&found)[..], [Call::Instruction { .. }]);
        assert!(one || steps(&found).len() == 2, "{what}: {:?}", found.lines());
    }
}

#[test]
fn wrong_registers_are_found_in_random_lists_and_shrunk() {
    for (what, answer) in WRONG_REGISTERS {
        let mut shard = shard(Tampered { answer, ..Tampered::new() });
        let found = (0..2_000).try_for_each(|number| shard.random_list(number)).expect_err(what);
        assert!(steps(&found).len() <= 2, "{what}: {:?}", found.lines());
        let lines = found.lines();
        assert!(lines.iter().any(|line| line.starts_with("run ")), "{what}: {lines:?}");
    }
}

#[test]
fn a_place_that_vm2_takes_and_the_library_does_not_is_found() {
    let answer = |call: &Call, answer| match (call, answer) {
        (Call::Instruction { frame, instruction }, Answer::RustPanic(panic))
            if panic.refusal == Some(16) && instruction.places.dst1 == 16 =>
        {
            Answer::Ran(Left { frame: *frame, registers: instruction.registers }.into(), None)
        }
        (_, answer) => answer,
    };
    let found = find(Tampered { answer, ..Tampered::new() }).expect("16 is no refusal");
    let lines = found.lines();
    assert!(lines.iter().any(|line| line.contains(" r16")), "{lines:?}");
}

#[test]
fn what_the_rules_say_is_compared() {
    let answer = |call: &Call, answer| match (call, answer) {
        (Call::ReadU256Partially { start: 8, end: 40, .. }, Answer::Word(mut word)) => {
            word.0[3] ^= 1;
            Answer::Word(word)
        }
        (_, answer) => answer,
    };
    let mut bank = Tampered { answer, ..Tampered::new() };
    let found = all_outputs(&mut bank, &mut Tally::default(), "example");
    let found = found.expect_err("loads read something else");
    assert!(found.mismatch.what.contains("what the rules say"), "{:?}", found.lines());
}

#[test]
fn every_layout_has_all_pairs_of_outputs_for_every_ending() {
    let [ran, operand, growth] =
        [Ending::Running, Ending::Panicked(Panic::Operand), Ending::Panicked(Panic::Growth)];
    let [no_tag, offset] = [Panic::Untagged, Panic::Offset].map(Ending::Panicked);
    let refused = Ending::Refused;
    let due = [
        ("load", vec![ran, operand, growth, refused(16)]),
        (
            "store",
            [4, 9, 10, 11, 15, 16]
                .map(refused)
                .into_iter()
                .chain([ran, Ending::Stopped, operand, growth])
                .collect(),
        ),
        ("load_pointer", vec![ran, no_tag, offset, refused(14), refused(16)]),
        ("load_static", vec![ran, operand, refused(16)]),
        ("store_static", vec![ran, operand, refused(10), refused(16)]),
    ];
    let due = due
        .into_iter()
        .flat_map(|(name, endings)| endings.into_iter().map(move |ending| ((name, ending), PAIRS)));
    let due: std::collections::BTreeMap<_, _> = due.collect();
    for layout in LAYOUTS {
        let mut bank = oracle::bank(layout).expect("a listed layout");
        let mut tally = Tally::default();
        let done = all_outputs(bank.as_mut(), &mut tally, layout);
        assert!(done.is_ok(), "{:?}", done.map_err(|finding| finding.lines()));
        assert_eq!(tally.registers.met(), due, "{layout}");
    }
}

/// An empty memory, owned and lent.
fn opened() -> Both {
    let layout = ours::layout(&Tampered::new().layout());
    Both::open(layout, store::CAPACITY, &[]).expect("a layout and its counts")
}

fn is_wrong<T>(given: &Result<T, Reply>) -> bool {
    matches!(given, Err(Reply::Wrong(_)))
}

#[test]
fn an_answer_of_the_lent_memory_alone_is_found() {
    let mut memories = [opened(), opened()];
    memories[0].lend().write_u256(PageId(66), 0, Word::from(7)).expect("there is room");
    let operand = Operand::Register { word: 1u32.into(), tagged: false };
    let load = HeapInstruction::on_operands(Op::Load(Area::Heap), operand, 0.into());
    let frame = Frame { gas: 100, heap: 66, aux: 67, heap_bound: 0, aux_bound: 0 };
    let calls = [
        Call::ReadU256 { page: 66, address: 1 },
        Call::ReadRangeBigEndian { page: 66, start: 0, end: 40 },
        Call::Chunk { page: 66, number: 0 },
        Call::DynamicLen,
        Call::Compare { other: 1 },
        Call::AllocateAt { page: 66 },
        load.on(frame),
    ];
    for call in calls {
        let mut memories = memories.clone();
        let reply = ours::answer(&mut memories, 0, &call, false);
        assert!(matches!(reply, Reply::Wrong(_)), "{call:?}: {reply:?}");
    }
}

#[test]
fn what_one_memory_holds_alone_is_found() {
    let mut both = opened();
    both.hold_the_same().expect("both are empty");
    let mut one = both.clone();
    one.lend().write_u256(PageId(66), 0, Word::from(7)).expect("there is room");
    assert!(is_wrong(&one.hold_the_same()) && is_wrong(&one.counts()));
    // Zeros look alike, but a chunk is held, and a word journalled.
    for page in [PageId(1), PageId(5)] {
        let mut one = both.clone();
        one.owned.write_u256(page, 0, Word::ZERO).expect("there is room");
        assert!(is_wrong(&one.hold_the_same()), "{page:?}");
    }
    both.damage();
    assert!(is_wrong(&both.hold_the_same()));
    assert_eq!(both.lend().check(), Err(Error::NotFormed));
}

/// Ways to make the pool wrong of a memory that holds the first 64 of its 96 chunks.
const WRONG_POOLS: [fn(&mut [u64]); 9] = [
    |words| words[9] += 1,
    // Slot 0 is held, and slot 95 the last one: pooled or not, and then one for the other.
    |words| words[pool_of_96(words)] |= 1,
    |words| words[pool_of_96(words) + 1] ^= 1 << 31,
    |words| words[pool_of_96(words) + 1] ^= 1 << 31 | 1 << 32,
    |words| {
        words[pool_of_96(words)] |= 1;
        words[pool_of_96(words) + 1] ^= 1 << 31;
    },
    // A bit past the last slot, and the count of one more.
    |words| {
        words[pool_of_96(words) + 1] |= 1 << 63;
        words[9] -= 1;
    },
    // The second number is not 0, and there is no third.
    |words| words[15] = 2,
    |words| words[15] = 3,
    |words| words[15] = u64::MAX,
];

/// Where the two numbers of the pool begin.
fn pool_of_96(words: &[u64]) -> usize {
    words.len() - 2
}

#[test]
fn a_wrong_pool_is_found() {
    let mut both = opened();
    let bytes = [1; 256 * 64];
    both.owned.write_bytes(PageId(66), 0, &bytes).expect("there is room");
    both.lend().write_bytes(PageId(66), 0, &bytes).expect("there is room");
    both.counts().expect("both pools are right");
    let buffers = both.owned.buffers();
    for skipped in [0, 1] {
        let mut words = buffers.words.to_vec();
        words[15] = skipped;
        let fault = ours::pool_fault(Buffers { words: &words, ..buffers }, store::CAPACITY);
        assert_eq!(fault, None);
    }
    for (at, damage) in WRONG_POOLS.into_iter().enumerate() {
        let mut words = buffers.words.to_vec();
        damage(&mut words);
        let fault = ours::pool_fault(Buffers { words: &words, ..buffers }, store::CAPACITY);
        assert!(fault.is_some(), "damage {at}");
    }
}

#[test]
fn a_chunk_that_is_not_the_lowest_is_found() {
    let mut both = opened();
    let before = both.clone();
    for chunks in [1, 63, 64, 65, 95] {
        let mut both = both.clone();
        both.owned.write_bytes(PageId(66), 0, &vec![1; 256 * chunks]).expect("there is room");
        let [empty, full] = [&before, &both].map(|both| both.owned.buffers());
        assert!(ours::took_the_lowest(empty, full, store::CAPACITY));
        // The last one was not taken, but the next one was.
        let mut words = full.words.to_vec();
        let pool = pool_of_96(&words);
        let flip = |words: &mut [u64], slot: usize| words[pool + slot / 64] ^= 1 << (slot % 64);
        flip(&mut words, chunks - 1);
        flip(&mut words, chunks);
        let other = Buffers { words: &words, ..full };
        assert!(!ours::took_the_lowest(empty, other, store::CAPACITY), "{chunks} chunks");
    }
    both.owned.write_u256(PageId(66), 0, Word::from(7)).expect("there is room");
    assert!(both.took_the_lowest(&before) && before.took_the_lowest(&both));
}

#[test]
fn every_layout_has_lists_that_empty_pools_and_take_from_them_again() {
    for layout in LAYOUTS {
        let mut bank = oracle::bank(layout).expect("a listed layout");
        let mut tally = Tally::default();
        let sizes = pool::SIZES.into_iter().chain([pool::LARGEST]);
        for chunks in sizes.clone() {
            let done = pool_list(bank.as_mut(), &mut tally, layout, chunks);
            assert!(done.is_ok(), "{:?}", done.map_err(|finding| finding.lines()));
        }
        for chunks in sizes {
            let counts = tally.pools[&chunks];
            let pool::Counts { emptied, refused, taken_again } = counts;
            let many = emptied >= 7 && refused >= 50 && taken_again >= 4;
            assert!(many, "{layout}, {chunks} chunks: {counts:?}");
        }
    }
}

/// How often each of these slots was freed and taken again while the memory was not opened afresh.
fn taken_again(chunks: u32, slots: [usize; 2]) -> [u32; 2] {
    let layout = Tampered::new().layout();
    let open = |chunks| Both::open(ours::layout(&layout), pool::capacity(chunks), &[]);
    let mut memories = [chunks, 1].map(|chunks| open(chunks).expect("a layout and its counts"));
    let (mut freed, mut again) = ([false; 2], [0; 2]);
    let mut held = [false; 2];
    for Step { call, .. } in pool::steps(&layout, chunks) {
        let reply = ours::answer(&mut memories, 0, &call, false);
        if matches!((call, reply), (Call::Open { .. }, Reply::Answer(_))) {
            (held, freed) = ([false; 2], [false; 2]);
        }
        let now = slots.map(|slot| memories[0].owned.buffers().keys[slot] != 0);
        for at in 0..2 {
            freed[at] |= held[at] && !now[at];
            again[at] += u32::from(freed[at] && !held[at] && now[at]);
        }
        held = now;
    }
    again
}

#[test]
fn slots_on_both_sides_of_an_edge_are_freed_and_taken_again() {
    for chunks in [65, 127, 128, 129, pool::LARGEST] {
        let again = taken_again(chunks, [63, 64]);
        assert!(again.into_iter().all(|times| times >= 2), "{chunks}: {again:?}");
    }
    for (chunks, edge) in [(129, 128), (pool::LARGEST, pool::LARGEST as usize - 64)] {
        let again = taken_again(chunks, [edge - 1, edge]);
        assert!(again.into_iter().all(|times| times >= 2), "{chunks}: {again:?}");
    }
}

#[test]
fn random_lists_empty_pools_and_take_from_them_again() {
    let mut shard = shard(Tampered::new());
    for number in 0..120 {
        let done = shard.list_of(Sort::Pool, number, Rng::new(7, number));
        assert!(done.is_ok(), "{:?}", done.map_err(|finding| finding.lines()));
    }
    for chunks in pool::SIZES {
        let counts = shard.tally.pools[&chunks];
        let pool::Counts { emptied, refused, taken_again } = counts;
        assert!(emptied > 5 && refused > 20 && taken_again > 20, "{chunks}: {counts:?}");
    }
}

#[test]
fn a_long_list_leaves_memories_that_are_well_formed() {
    for (number, layout) in (0..).zip(LAYOUTS) {
        let mut bank = oracle::bank(layout).expect("a listed layout");
        let capacities = [store::CAPACITY; 2];
        let rng = Rng::new(7, number);
        let mut generator = Generator::new(rng, bank.layout(), Sort::Light, capacities, 10_000);
        let (list, mut tally) = (no_calls(layout, store::CAPACITY), Tally::default());
        let next = |models: &_, left| generator.next(models, left);
        let done = pair::run(bank.as_mut(), &mut tally, list, Looks::AtTheEnd, next);
        let memories = done.unwrap_or_else(|finding| panic!("{:?}", finding.lines()));
        assert!(tally.calls > 5_000, "{layout}: {}", tally.calls);
        assert!(memories.iter().all(|both| both.owned.check() == Ok(())), "{layout}");
    }
}

/// What `look` finds where these quotes stand in for the library's.
fn find_quote(
    mut bank: Tampered,
    quote: Quoter,
    look: impl FnOnce(&mut Quotes, &mut Rng) -> Result<(), Mismatch>,
) -> Option<Mismatch> {
    let (memories, mut tally) = ([opened(), opened()], Tally::default());
    let quotes = Quotes::new(&mut bank, &mut tally, &memories);
    look(&mut Quotes { quote, ..quotes }, &mut Rng::new(7, 0)).err()
}

/// Passes over addresses above the limit.
const SKIPS: Quoter = |list, gas, bound| {
    let low = list.iter().copied().filter(|address| *address <= LAST_ADDRESS);
    quote(&low.collect::<Vec<_>>(), gas, bound)
};

const WRONG: [Quoter; 6] = [
    SKIPS,
    // What was paid before the panic, and not all the gas.
    |list, gas, bound| {
        let given = quote(list, gas, bound)?;
        Ok(Quote { spent: quote(&list[..given.position], gas, bound)?.spent, ..given })
    },
    // The bound that the panicking access asks for.
    |list, gas, bound| {
        let given = quote(list, gas, bound)?;
        let asked = list.get(given.position).map_or(0, |address| address.saturating_add(32));
        Ok(Quote { bound: given.bound.max(asked), ..given })
    },
    // Positions from 1.
    |list, gas, bound| {
        let given = quote(list, gas, bound)?;
        Ok(Quote { position: given.position + usize::from(given.panics), ..given })
    },
    // The order of the list is lost.
    |list, gas, bound| {
        let mut list = list.to_vec();
        list.sort_unstable();
        quote(&list, gas, bound)
    },
    // A panic wherever all the gas is spent.
    |list, gas, bound| {
        let given = quote(list, gas, bound)?;
        Ok(Quote { panics: given.spent == gas, ..given })
    },
];

#[test]
fn a_wrong_quote_is_told_with_all_that_repeats_it() {
    let asked = Asked { list: vec![0, u32::MAX], gas: 100, bound: 0 };
    let found = find_quote(Tampered::new(), SKIPS, |quotes, rng| quotes.compare(rng, &asked));
    let Mismatch { what, vm2, library } = found.expect("a high address is skipped");
    let due = Quote { spent: 100, bound: 32, position: 1, panics: true };
    assert_eq!(vm2, format!("Ok({due:?})"));
    assert_eq!(library, format!("{:?}", quote(&[0], 100, 0)));
    for part in ["list: [0, 4294967295], gas: 100, bound: 0", "area: Heap", "heap_bound: 0"] {
        assert!(what.contains(part), "{part} is not in {what}");
    }
}

#[test]
fn every_wrong_quote_is_found_among_those_that_are_drawn() {
    let drawn = |quotes: &mut Quotes, rng: &mut Rng| (0..20).try_for_each(|_| quotes.round(rng));
    let found = find_quote(Tampered::new(), quote, drawn);
    assert!(found.is_none(), "{found:?}");
    for (at, wrong) in WRONG.into_iter().enumerate() {
        let found = find_quote(Tampered::new(), wrong, drawn);
        assert!(found.is_some(), "the wrong quote {at} is not found");
    }
}

#[test]
fn a_wrong_load_of_a_quote_is_found() {
    let answer = |_: &Call, answer| match answer {
        Answer::EraPanic(mut left) => {
            left.frame.aux_bound = 77;
            Answer::EraPanic(left)
        }
        answer => answer,
    };
    let bank = Tampered { answer, ..Tampered::new() };
    let asked = Asked { list: vec![0, 32], gas: 32, bound: 0 };
    let found = find_quote(bank, quote, |quotes, rng| quotes.compare(rng, &asked));
    let what = found.expect("a panic sets a bound").what;
    assert!(what.starts_with("the load at position 1 of Loads"), "{what}");
}

/// A list on this layout that has no calls yet.
fn no_calls(layout: &'static str, capacity: Capacity) -> List {
    List { layout, capacities: [capacity; 2], steps: Vec::new() }
}

/// The frames that `next` is shown while its calls are put to both sides, the last one after them.
/// The memories have no journals.
fn frames_left(mut next: impl FnMut(Option<Handed>) -> Option<Step>) -> Vec<Option<Handed>> {
    let (mut bank, mut tally, mut lefts) = (Tampered::new(), Tally::default(), Vec::new());
    let shown = |_: &[Model; 2], left| {
        lefts.push(left);
        next(left)
    };
    let list = no_calls("example", Capacity { chunks: 2, pages: 2, journal_words: 0 });
    let done = pair::run(&mut bank, &mut tally, list, Looks::Always, shown);
    assert!(done.is_ok(), "{:?}", done.map_err(|finding| finding.lines()).err());
    lefts
}

#[test]
fn the_worked_run_pays_what_it_must() {
    let worked = edges::worked(66, 67);
    let first = worked[0].0.expect("a run begins with a frame");
    let models = [0, 1].map(|_| Model::new(Tampered::new().layout()));
    let mut steps = edges::steps(worked.into());
    let lefts = frames_left(|left| steps(&models, left));
    let mut frames: Vec<_> = lefts.iter().flatten().map(|left| left.frame).collect();
    frames.insert(0, first);
    let charges: Vec<_> = frames.windows(2).map(|pair| pair[0].gas - pair[1].gas).collect();
    assert_eq!(charges, [0, 32, 1, 0, 100, 0]);
    let last = Frame { gas: 867, heap_bound: 4097, aux_bound: 132, ..first };
    assert_eq!(frames.last(), Some(&last));
}

#[test]
fn only_a_panic_leaves_no_frame() {
    let operand = |address: u32| Operand::Register { word: address.into(), tagged: false };
    let load =
        |address| HeapInstruction::on_operands(Op::Load(Area::Heap), operand(address), 0.into());
    let store = |hook| {
        HeapInstruction::on_operands(Op::Store { area: Area::Aux, hook }, operand(0), 1.into())
    };
    // Page 65 is none, and page 5 has a journal.
    let frame = Frame { gas: 100, heap: 66, aux: 65, heap_bound: 0, aux_bound: 0 };
    let [to_none, to_journal] = [65, 5].map(|aux| Frame { gas: 200, aux, ..frame });
    let instruction = |frame, instruction: HeapInstruction| instruction.on(frame);
    let marked = |frame| Some(Handed { frame, marked: true });
    let loaded = marked(Frame { gas: 68, heap_bound: 32, ..frame });
    let calls = [
        (Call::DynamicLen, None),
        (instruction(frame, load(0)), loaded),
        (Call::DynamicLen, loaded),
        (Call::UseGas { frame, amount: 1 }, loaded),
        // vm2 is not put to it.
        (instruction(frame, store(Some(0))), loaded),
        // Refusals 4 and 11.
        (instruction(to_none, store(None)), marked(to_none)),
        (instruction(to_journal, store(None)), marked(to_journal)),
        (instruction(frame, load(100)), None),
    ];
    let step = |(call, _): &(Call, _)| Step { memory: 0, call: call.clone(), marked: true };
    let mut steps = calls.iter().map(step);
    let lefts = frames_left(|_| steps.next());
    assert_eq!(lefts[0], None);
    assert_eq!(lefts[1..], calls.map(|(_, left)| left));
}

#[test]
fn every_layout_has_all_runs_of_the_edges() {
    let due = RunCounts {
        accesses: 61,
        handed_on: 46,
        long: 15,
        longest: 6,
        both_areas: 8,
        paid: 44,
        stops: 2,
    };
    for layout in LAYOUTS {
        let mut bank = oracle::bank(layout).expect("a listed layout");
        let mut tally = Tally::default();
        let done = edge_runs(bank.as_mut(), &mut tally, no_calls(layout, store::CAPACITY));
        assert!(done.is_ok(), "{:?}", done.map_err(|finding| finding.lines()));
        assert_eq!(tally.runs, due, "{layout}");
    }
}

#[test]
fn every_comparison_has_the_runs_of_the_edges() {
    let mut shard = shard(Tampered::new());
    assert!(shard.edge_lists().is_ok());
    assert!(shard.tally.runs.both_areas >= 8, "{:?}", shard.tally.runs);
}

#[test]
fn random_lists_have_runs_of_several_accesses_in_both_areas() {
    let mut shard = shard(Tampered::new());
    let done = (0..200).try_for_each(|number| shard.random_list(number));
    assert!(done.is_ok(), "{:?}", done.map_err(|finding| finding.lines()));
    let counts = &shard.tally.runs;
    let RunCounts { long, longest, both_areas, paid, stops, .. } = *counts;
    let many = long > 100 && both_areas > 50 && paid > 200 && stops > 15;
    assert!(many && longest > 5, "{counts:?}");
}

/// How many instructions of some lists are given the frame that is shown, which is another for each
/// call, and how many are not.
fn given(shown: Frame, hands_on: bool) -> [usize; 2] {
    let layout = Tampered::new().layout();
    let models = [0, 1].map(|_| Model::new(layout));
    let mut counts = [0, 0];
    for number in 0..6 {
        let rng = Rng::new(7, number);
        let generator = Generator::new(rng, layout, Sort::Light, [store::CAPACITY; 2], 1_000);
        let mut generator = if hands_on { generator.handing_on() } else { generator };
        for gas in (0..).map(|less| shown.gas - less) {
            let left = Handed { frame: Frame { gas, ..shown }, marked: gas % 2 == 0 };
            let Some(step) = generator.next(&models, Some(left)) else { break };
            if let Some(given) = step.given() {
                counts[usize::from(given != left)] += 1;
            }
        }
    }
    counts
}

#[test]
fn instructions_are_given_the_frame_that_is_left_where_lists_hand_it_on() {
    let near = Frame { gas: 100_000, heap: 66, aux: 67, heap_bound: 4096, aux_bound: 96 };
    let [handed, own] = given(near, true);
    assert!(handed > 9 * own && own > 20, "{handed} and {own}");
    let [handed, own] = given(near, false);
    assert!(handed == 0 && own > 500, "{handed} and {own}");
    // The aux page of group 5,000, which is dear in vm2.
    let far = Frame { aux: 67 + 8 * 5_000, ..near };
    let [handed, own] = given(far, true);
    assert!(handed == 0 && own > 500, "{handed} and {own}");
}
