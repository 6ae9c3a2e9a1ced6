//! What limits the rows that are slow. A word read is timed beside the loads that every lookup has to make. Reads and writes of
//! chunks that have lost their hint are timed beside those of chunks that have it.

use std::{collections::BTreeMap, hint::black_box, slice::SliceIndex};

use zincpapaya::{Buffers, Heaps, Word};

use crate::{
    both::{read, used, write, Both, WORD},
    places::{draws, heap, walk, Held, Walk, WORDS},
    times::{each, Times},
};

/// Keeps the hints of different pages apart: docs/BUFFERS.md.
const HINT_FACTOR: u64 = 45_449;

/// Bits of a key below its entry.
const CHUNK_BITS: u32 = 25;

/// The buffers of a memory, followed by hand from the hint to the bytes, without a call and without a test. With `TESTED` the
/// indexes are tested.
struct Bare<'a, const TESTED: bool> {
    buffers: Buffers<'a>,
    /// How many chunks the memory has. In `keys` the pages of the entries come after as many keys.
    chunks: usize,
}

impl<'a, const TESTED: bool> Bare<'a, TESTED> {
    fn of(memory: &'a Heaps) -> Self {
        Self { buffers: memory.buffers(), chunks: memory.capacity().chunks as usize }
    }

    #[inline(always)]
    fn get<T, I: SliceIndex<[T]>>(of: &[T], at: I) -> &I::Output {
        if TESTED {
            return &of[at];
        }
        // SAFETY: `compare` has read the same places of the same memory, with tested indexes.
        unsafe { of.get_unchecked(at) }
    }

    /// Where the hint of a chunk is.
    #[inline(always)]
    fn place(&self, page: u32, chunk: u32) -> usize {
        let last = self.buffers.order.len() - 1;
        let mask = *Self::get(self.buffers.order, last);
        let x = (u64::from(page) * HINT_FACTOR + u64::from(chunk)) & u64::from(mask);
        last - 1 - x as usize
    }

    /// The slot that the hint of a chunk names.
    #[inline(always)]
    fn slot(&self, page: u32, chunk: u32) -> usize {
        *Self::get(self.buffers.order, self.place(page, chunk)) as usize
    }

    /// Loads what a lookup tests: the key of the slot, and the page of the key's entry.
    #[inline(always)]
    fn load_tested(&self, slot: usize, chunk: u32) {
        let key = *Self::get(self.buffers.keys, slot);
        let entry = (key - u64::from(chunk) - 1) >> CHUNK_BITS;
        let page = *Self::get(self.buffers.keys, self.chunks + entry as usize);
        black_box(key);
        black_box(page);
    }

    /// 32 bytes, as they are in the memory.
    #[inline(always)]
    fn limbs(&self, at: usize) -> [u64; 4] {
        [0, 8, 16, 24].map(|i| {
            let bytes = Self::get(self.buffers.bytes, at + i..at + i + 8);
            u64::from_le_bytes(bytes.try_into().expect("a limb has 8 bytes"))
        })
    }

    /// The bytes of a word in one chunk.
    #[inline(always)]
    fn word(&self, page: u32, address: u32) -> [u64; 4] {
        let chunk = address / 256;
        let slot = self.slot(page, chunk);
        self.load_tested(slot, chunk);
        self.limbs(256 * slot + address as usize % 256)
    }

    /// The bytes of a word over two chunks whose slots follow each other.
    #[inline(always)]
    fn word_over_two(&self, page: u32, address: u32) -> [u64; 4] {
        let chunk = address / 256;
        let slot = self.slot(page, chunk);
        self.load_tested(slot, chunk);
        black_box(*Self::get(self.buffers.keys, slot + 1));
        self.limbs(256 * slot + address as usize % 256)
    }
}

/// Whether the hint of a chunk names it. If not, a lookup has to search.
fn has_hint(memory: &Heaps, page: u32, chunk: u32) -> bool {
    let bare = Bare::<true>::of(memory);
    let (keys, slot) = (bare.buffers.keys, bare.slot(page, chunk));
    let above = keys[slot].wrapping_sub(u64::from(chunk) + 1);
    let entry = (above >> CHUNK_BITS) as usize;
    let is_key = slot < bare.chunks && above % (1 << CHUNK_BITS) == 0;
    is_key && keys.get(bare.chunks + entry) == Some(&(u64::from(page) + 1))
}

/// Stops where the bytes that are found by hand are not those of our read.
fn compare(memory: &Heaps, at: &[(u32, u32)]) {
    let bare = Bare::<true>::of(memory);
    for &(page, a) in at {
        let limbs = match a % 256 {
            ..=224 => bare.word(page, a),
            _ => bare.word_over_two(page, a),
        };
        let bytes: Vec<u8> = limbs.into_iter().flat_map(u64::to_le_bytes).collect();
        let word = bytes[..].try_into().expect("a word has 32 bytes");
        assert_eq!(Word::from_big_endian(word).0, read(memory, page, a), "address {a}");
    }
}

/// The loads of a lookup, and our word read, where all hints are there. On both sides no place depends on the one before, so the
/// processor may wait for several at once. It sees further ahead where there is no call.
pub fn bare_reads(chunks: u32, order: Walk) -> Times {
    let held = Held::by_one_page(chunks);
    let memory = Both::holding(held).ours;
    let mut at = walk(held, order);
    at.retain(|&(page, a)| [a, a + 31].iter().all(|end| has_hint(&memory, page, end / 256)));
    compare(&memory, &at);
    let bare = Bare::<false>::of(&memory);
    let ours = || each(&at, |(page, a)| used(&read(&memory, page, a)));
    match order {
        Walk::TwoChunks => {
            let bare = || each(&at, |(page, a)| used(&bare.word_over_two(page, a)));
            Times::of(at.len(), bare, ours)
        }
        _ => Times::of(at.len(), || each(&at, |(page, a)| used(&bare.word(page, a))), ours),
    }
}

/// A page and the number of a chunk.
type Chunk = (u32, u32);

/// The held chunks in three parts: those whose hint shares its place with no other; those whose hint shares it and has it; and
/// those that have lost their hint.
fn by_hint(memory: &Heaps, held: Held) -> [Vec<Chunk>; 3] {
    let bare = Bare::<true>::of(memory);
    let mut places = BTreeMap::<usize, Vec<Chunk>>::new();
    for page in (0..held.pages).map(heap) {
        (0..held.chunks).for_each(|chunk| {
            places.entry(bare.place(page, chunk)).or_default().push((page, chunk))
        });
    }
    let (alone, shared): (Vec<_>, Vec<_>) =
        places.into_values().partition(|chunks| chunks.len() == 1);
    let (kept, lost) =
        shared.concat().into_iter().partition(|&(page, chunk)| has_hint(memory, page, chunk));
    [alone.concat(), kept, lost]
}

/// `n` of the chunks, evenly spread. Both sides of a row touch equally many chunks, so that the caches serve both alike.
fn some(chunks: &[Chunk], n: usize) -> Vec<Chunk> {
    (0..n).map(|i| chunks[i * chunks.len() / n]).collect()
}

/// Places of words: sweeps over all chunks, part after part. In each sweep a part has a new random order.
fn swept(parts: &[Vec<Chunk>]) -> Vec<(u32, u32)> {
    let mut draw = draws();
    let mut places = Vec::new();
    while places.len() < WORDS as usize {
        for part in parts {
            let mut chunks = part.clone();
            chunks.sort_by_cached_key(|_| draw(u32::MAX));
            places.extend(chunks.iter().map(|(page, chunk)| (*page, 256 * chunk + 32 * draw(8))));
        }
    }
    places
}

pub fn reads_without_hint(held: Held) -> Times {
    let both = Both::holding(held);
    let [alone, _, lost] = by_hint(&both.ours, held);
    eprintln!("{held}: {} have lost their hint", lost.len());
    let at = [some(&alone, lost.len()), lost].map(|chunks| swept(&[chunks]));
    let reads = |at: &[_]| each(at, |(page, a)| used(&read(&both.ours, page, a)));
    let times = Times::of(at[0].len(), || reads(&at[0]), || reads(&at[1]));
    both.compare(at.concat());
    times
}

/// A write that has to search takes the place of the hint. So chunks that share a place are written in turns: each finds that
/// another one has taken the place.
pub fn writes_without_hint(held: Held) -> Times {
    let mut hinted = Both::holding(held).ours;
    let mut searched = hinted.clone();
    let [alone, kept, lost] = by_hint(&hinted, held);
    let with = swept(&[some(&alone, kept.len() + lost.len())]);
    let without = swept(&[lost, kept]);
    write_all(&mut hinted, &with, true);
    write_all(&mut searched, &without, false);
    let times = Times::of(
        with.len(),
        || each(&with, |(page, a)| write(&mut hinted, page, a, black_box(WORD))),
        || each(&without, |(page, a)| write(&mut searched, page, a, black_box(WORD))),
    );
    assert_eq!([hinted.check(), searched.check()], [Ok(()); 2]);
    times
}

/// Writes at these places, and stops unless each write finds a hint, or each finds none.
fn write_all(memory: &mut Heaps, at: &[(u32, u32)], hints: bool) {
    for &(page, a) in at {
        assert_eq!(has_hint(memory, page, a / 256), hints, "page {page}, address {a}");
        write(memory, page, a, WORD);
        assert_eq!(read(memory, page, a), WORD);
    }
}
