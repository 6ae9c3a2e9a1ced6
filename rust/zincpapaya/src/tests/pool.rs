//! The pool: the last numbers of `words`, with a bit for each chunk that is not held.

use super::{Host, CHANGES, HEAP, INSTRUCTIONS, LAYOUT, READS};
use crate::{Buffers, Capacity, Error, Heaps, Lengths, PageId, Word};

/// Chunks of memories around the edges of the pool's numbers, and how many numbers these have.
const POOLS: [(u32, usize); 6] = [(1, 1), (63, 1), (64, 1), (65, 2), (128, 2), (65_536, 1024)];

/// Numbers of the head, and of the notes for a word of each journal.
const HEAD: usize = 16;
const NOTES: usize = 6;
/// The number of the head that tells how many of the pool's numbers a search skips.
const SKIPPED: usize = 15;

const JOURNAL_WORDS: usize = 2;
const AUX: PageId = PageId(67);

const fn capacity(chunks: u32, journal_words: usize) -> Capacity {
    Capacity { chunks, pages: 3, journal_words: journal_words as u32 }
}

fn empty(chunks: u32) -> Heaps {
    Heaps::open(LAYOUT, capacity(chunks, JOURNAL_WORDS), &[]).unwrap()
}

/// Where the pool begins, in memories with this many journalled words.
const fn pool_at(journal_words: usize) -> usize {
    HEAD + NOTES * journal_words
}

fn pool(buffers: Buffers<'_>) -> Vec<u64> {
    buffers.words[pool_at(JOURNAL_WORDS)..].to_vec()
}

fn hold(heaps: &mut Heaps, page: PageId, chunk: u32) -> Result<(), Error> {
    heaps.write_u256(page, 256 * chunk, Word::from(1))
}

/// The slots of a page's chunks, in the order of these.
fn slots(heaps: &Heaps, page: PageId) -> Vec<usize> {
    let Buffers { keys, .. } = heaps.buffers();
    let (slots, entries) = keys.split_at(heaps.capacity().chunks as usize);
    let entry = entries.iter().position(|listed| *listed == u64::from(page.0) + 1).unwrap() as u64;
    let of_page = |key: u64| key != 0 && (key - 1) / (1 << 25) == entry;
    let mut slots: Vec<_> = slots.iter().zip(0..).filter(|(key, _)| of_page(**key)).collect();
    slots.sort_unstable();
    slots.into_iter().map(|(_, slot)| slot).collect()
}

/// The pool of a memory that was just opened.
fn all_pooled(chunks: u32) -> Vec<u64> {
    let firsts = (0..chunks).step_by(64);
    firsts.map(|first| u64::MAX >> 64_u32.saturating_sub(chunks - first)).collect()
}

#[test]
fn words_of_one_length_are_opened() {
    for (chunks, numbers) in POOLS {
        for journal_words in [0, JOURNAL_WORDS] {
            let capacity = capacity(chunks, journal_words);
            let Lengths { bytes, keys, order, words } = capacity.lengths().unwrap();
            assert_eq!(words, pool_at(journal_words) + numbers);
            let (bytes, keys, order) = (vec![7; bytes], vec![7; keys], vec![7; order]);
            let mut host = Host { bytes, keys, order, words: Vec::new() };
            // The first has no pool at all.
            for wrong in [pool_at(journal_words), words - 1, words + 1] {
                host.words = vec![7; wrong];
                let before = host.clone();
                let refused = host.lend().reopen(LAYOUT, capacity, &[]).unwrap_err();
                assert_eq!((refused, refused.number()), (Error::Sizes, 2));
                assert_eq!(host, before);
            }
            host.words = vec![7; words];
            let mut lent = host.lend();
            lent.reopen(LAYOUT, capacity, &[]).unwrap();
            assert_eq!((lent.check(), lent.capacity()), (Ok(()), Ok(capacity)));
            assert_eq!(host.words[pool_at(journal_words)..], all_pooled(chunks));
        }
    }
    let largest = Capacity { chunks: 65_536, pages: 4_096, journal_words: 65_536 };
    assert_eq!(largest.lengths().unwrap().words, 394_256);
}

/// Memories of so many chunks: with none held, with one, with all but one, with all, and with holes.
fn filled(chunks: u32) -> Vec<Heaps> {
    let holding = |held| {
        let mut heaps = empty(chunks);
        (0..held).for_each(|chunk| hold(&mut heaps, HEAP, chunk).unwrap());
        heaps
    };
    let mut with_holes = empty(chunks);
    for chunk in 0..chunks {
        let page = if chunk % 3 == 0 { AUX } else { HEAP };
        hold(&mut with_holes, page, chunk).unwrap();
    }
    with_holes.deallocate(AUX).unwrap();
    let mut all: Vec<_> = [0, 1, chunks - 1, chunks].map(holding).into();
    all.push(with_holes);
    all
}

/// Each bit, those past the last chunk among them.
#[test]
fn a_flipped_bit_of_the_pool_is_refused() {
    for chunks in [64, 65] {
        for whole in filled(chunks) {
            whole.check().unwrap();
            let bits = 64 * pool(whole.buffers()).len();
            assert_eq!(bits, if chunks == 64 { 64 } else { 128 });
            for bit in 0..bits {
                let mut broken = Host::of(whole.buffers());
                broken.words[pool_at(JOURNAL_WORDS) + bit / 64] ^= 1 << (bit % 64);
                let before = broken.clone();
                for call in READS.into_iter().chain(CHANGES).chain(INSTRUCTIONS) {
                    assert_eq!(call(broken.buffers_mut()), 3, "{chunks} chunks, bit {bit}");
                }
                assert_eq!(broken.lend().check(), Err(Error::NotFormed));
                assert_eq!(broken, before);
            }
        }
    }
}

/// Numbers of the pool that are skipped must be 0, and there cannot be more of them than it has.
#[test]
fn a_pool_may_skip_no_bit_that_is_set() {
    // How many chunks are held, and how many of the pool's two numbers are then 0 from the first on.
    for (held, zeros) in [(0, 0), (63, 0), (64, 1), (65, 2)] {
        let mut heaps = empty(65);
        (0..held).for_each(|chunk| hold(&mut heaps, HEAP, chunk).unwrap());
        let mut host = Host::of(heaps.buffers());
        for skipped in [0, 1, 2, 3, 1 << 32, u64::MAX] {
            host.words[SKIPPED] = skipped;
            let due = if skipped <= zeros { Ok(()) } else { Err(Error::NotFormed) };
            assert_eq!(host.lend().check(), due, "{held} held, {skipped} skipped");
        }
    }
}

#[test]
fn the_lowest_pooled_chunk_is_taken() {
    let mut heaps = empty(70);
    for chunk in 0..70 {
        let page = if [63, 64].contains(&chunk) { AUX } else { HEAP };
        hold(&mut heaps, page, chunk).unwrap();
    }
    assert_eq!((slots(&heaps, AUX), pool(heaps.buffers())), (vec![63, 64], vec![0, 0]));
    assert_eq!(hold(&mut heaps, AUX, 0), Err(Error::NoChunk));

    heaps.deallocate(AUX).unwrap();
    assert_eq!(pool(heaps.buffers()), [1 << 63, 1]);
    hold(&mut heaps, AUX, 9).unwrap();
    assert_eq!((slots(&heaps, AUX), pool(heaps.buffers())), (vec![63], vec![0, 1]));
    hold(&mut heaps, AUX, 8).unwrap();
    // By ascending chunk: 8 and 9.
    assert_eq!((slots(&heaps, AUX), pool(heaps.buffers())), (vec![64, 63], vec![0, 0]));
    assert_eq!(hold(&mut heaps, AUX, 7), Err(Error::NoChunk));

    // Chunks 60 to 66 of the page stay; 63 and 64 are none of its own.
    heaps.compact_to_window(HEAP, 256 * 60, 256 * 7).unwrap();
    assert_eq!(slots(&heaps, HEAP), [60, 61, 62, 65, 66]);
    assert_eq!(pool(heaps.buffers()), [(1 << 60) - 1, 0b11_1000]);
    let code = PageId(64);
    heaps.write_bytes(code, 0, &[1; 256 * 62]).unwrap();
    let due: Vec<_> = (0..60).chain([67, 68]).collect();
    assert_eq!((slots(&heaps, code), pool(heaps.buffers())), (due, vec![0, 0b10_0000]));
    heaps.truncate_dynamic_to(0).unwrap();
    assert_eq!(pool(heaps.buffers()), all_pooled(70));
    assert_eq!(heaps.check(), Ok(()));
}
