//! That a wrong number of bytes from the range is found, and that lists have reads of every number.

use oracle::{Answer, Bank, Call, Frame, HeapInstruction, Op, Operand, Word, LAYOUTS};
use zincpapaya::{PageId, PartialWord};

use super::{no_calls, opened, shard, steps, Tampered};
use crate::{
    both::same,
    bytes_read::{self, Counts},
    counted_reads,
    generate::{Generator, Sort},
    list::{Finding, Step},
    ours::{self, Given, Reply},
    pair::{self, Library, Looks},
    rng::Rng,
    store,
    tally::Tally,
};

/// The reply with another number.
fn retold(reply: Reply, number: impl FnOnce(&Answer, Option<u64>) -> Option<u64>) -> Reply {
    match reply {
        Reply::Answer(Given { answer, bytes_read }) => {
            let bytes_read = number(&answer, bytes_read);
            Reply::Answer(Given { answer, bytes_read })
        }
        refused => refused,
    }
}

/// Bytes of a word up to the last that is not 0.
fn up_to_zeros(Word(limbs): Word) -> u64 {
    let bytes = limbs.into_iter().flat_map(u64::to_le_bytes);
    32 - bytes.take_while(|byte| *byte == 0).count() as u64
}

const WRONG_NUMBERS: [(&str, Library); 8] = [
    ("one byte too many", |memories, at, call, marked| {
        let reply = ours::answer(memories, at, call, marked);
        retold(reply, |_, number| number.map(|number| number + 1))
    }),
    ("32 bytes, whatever the range is", |memories, at, call, marked| {
        let reply = ours::answer(memories, at, call, marked);
        retold(reply, |_, number| number.and(Some(32)))
    }),
    ("one byte too few where there are 31", |memories, at, call, marked| {
        let reply = ours::answer(memories, at, call, marked);
        retold(reply, |_, number| number.map(|number| number - u64::from(number == 31)))
    }),
    ("zeros at the end of a partial read do not count", |memories, at, call, marked| {
        let reply = ours::answer(memories, at, call, marked);
        retold(reply, |answer, number| match answer {
            Answer::Word(word) => number.map(|_| up_to_zeros(*word)),
            _ => number,
        })
    }),
    ("a reversed range has bytes", |memories, at, call, marked| {
        let reply = ours::answer(memories, at, call, marked);
        retold(reply, |_, number| match *call {
            Call::ReadU256Partially { start, end, .. } if start > end => Some(1),
            _ => number,
        })
    }),
    ("a pointer load has no number", |memories, at, call, marked| {
        let reply = ours::answer(memories, at, call, marked);
        retold(reply, |answer, number| match answer {
            Answer::Ran(..) => None,
            _ => number,
        })
    }),
    ("a panic has a number", |memories, at, call, marked| {
        let reply = ours::answer(memories, at, call, marked);
        retold(reply, |answer, number| match answer {
            Answer::EraPanic(_) => Some(0),
            _ => number,
        })
    }),
    ("a word read has a number", |memories, at, call, marked| {
        let reply = ours::answer(memories, at, call, marked);
        retold(reply, |_, number| match call {
            Call::ReadU256 { .. } => Some(32),
            _ => number,
        })
    }),
];

/// What a long random list finds where this answers for the library.
fn find(library: Library) -> Option<Box<Finding>> {
    let (mut bank, mut tally) = (Tampered::new(), Tally::default());
    let capacities = [store::CAPACITY; 2];
    let rng = Rng::new(7, 0);
    let mut generator = Generator::new(rng, bank.layout(), Sort::Light, capacities, 3_000);
    let list = no_calls("example", store::CAPACITY);
    let next = |models: &_, left| generator.next(models, left);
    pair::run_by(library, &mut bank, &mut tally, list, Looks::AtTheEnd, next).err()
}

#[test]
fn a_wrong_number_is_found() {
    assert!(find(ours::answer).is_none());
    for (what, library) in WRONG_NUMBERS {
        let found = find(library).expect(what);
        let told = &found.mismatch;
        assert_eq!(told.what, "how many bytes of the word come from the range", "{what}");
        assert!(told.vm2.starts_with("tells none; by the call's arguments "), "{what}");
    }
}

#[test]
fn a_wrong_number_is_told_with_the_call() {
    let call = Call::ReadU256Partially { page: 66, start: 0, end: 7 };
    let mut once = Some(Step { memory: 0, call, marked: false });
    let (mut bank, mut tally) = (Tampered::new(), Tally::default());
    let list = no_calls("example", store::CAPACITY);
    let (_, one_more) = WRONG_NUMBERS[0];
    let next = |_: &_, _| once.take();
    let found = pair::run_by(one_more, &mut bank, &mut tally, list, Looks::Always, next);
    let Err(found) = found else { panic!("a byte too many is told") };
    assert_eq!(steps(&found).len(), 1);
    let lines = found.lines();
    let [.., call, _, vm2, library] = &lines[..] else { panic!("{lines:?}") };
    assert_eq!(call, "read_u256_partially 66 0 7");
    assert_eq!(vm2, "# vm2:     tells none; by the call's arguments 7 bytes");
    assert_eq!(library, "# library: 8 bytes");
}

#[test]
fn numbers_of_the_two_memories_are_compared() {
    let mut both = opened();
    let read = both.owned.read_u256_partially(PageId(66), 0..7).expect("7 bytes");
    assert_eq!((read.bytes_read, both.lend().read_u256_partially(PageId(66), 0..7)), (7, Ok(read)));
    let other = PartialWord { bytes_read: 6, ..read };
    assert!(matches!(same(Ok(read), Ok(other)), Err(Reply::Wrong(_))));
}

/// The number of what the library answers to a pointer load that panics, and to one that is refused, is none.
#[test]
fn a_pointer_load_that_is_not_carried_out_has_no_number() {
    let load = |word: Word, tagged| {
        let operand = Operand::Register { word, tagged };
        let run = HeapInstruction::on_operands(Op::LoadPointer, operand, Word::default());
        run.on(Frame { gas: 0, heap: 66, aux: 67, heap_bound: 0, aux_bound: 0 })
    };
    let mut memories = [opened(), opened()];
    let mut number = |call: &Call| ours::answer(&mut memories, 0, call, false).bytes_read();
    let (fits, beyond) = (Word([66 << 32, 5 << 32, 0, 0]), Word([0, 1 << 32 | 0xffff_ffff, 0, 0]));
    assert_eq!(number(&load(fits, true)), Some(5));
    assert_eq!(number(&load(fits, false)), None);
    assert_eq!(number(&load(Word([0xffff_ffff, 5 << 32, 0, 0]), true)), None);
    assert_eq!(number(&load(beyond, true)), None);
    assert_eq!(number(&Call::ReadU256Partially { page: 66, start: 0, end: 33 }), None);
}

#[test]
fn every_layout_has_reads_of_every_number() {
    for layout in LAYOUTS {
        let mut bank = oracle::bank(layout).expect("a listed layout");
        let mut tally = Tally::default();
        let list = no_calls(layout, store::CAPACITY);
        let done = counted_reads(bank.as_mut(), &mut tally, list);
        assert!(done.is_ok(), "{:?}", done.map_err(|finding| finding.lines()));
        let bytes_read::ReadCounts { partial, pointer } = tally.reads;
        assert!(partial.least() >= 4 && pointer.least() >= 8, "{layout}: {:?}", [partial, pointer]);
    }
}

#[test]
fn random_lists_have_reads_of_every_number() {
    let mut shard = shard(Tampered::new());
    let done = (0..300).try_for_each(|number| shard.random_list(number));
    assert!(done.is_ok(), "{:?}", done.map_err(|finding| finding.lines()));
    let counts: [Counts; 2] = [shard.tally.reads.partial, shard.tally.reads.pointer];
    assert!(counts.iter().all(|counts| counts.least() > 5), "{counts:?}");
}
