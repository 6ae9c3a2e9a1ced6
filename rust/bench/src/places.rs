//! Where the benchmarks read and write: the same places on both sides, the same in every run.

use std::fmt;

/// What pages hold: the heap pages of the first groups, each as many chunks from its start.
#[derive(Clone, Copy)]
pub struct Held {
    pub pages: u32,
    /// Of each page.
    pub chunks: u32,
    /// Chunks that our memory has room for.
    pub room: u32,
    /// The pages grow in turns, a chunk each: then no two chunks of a page have slots that follow each other.
    pub in_turns: bool,
}

impl Held {
    /// One page that takes all the room.
    pub const fn by_one_page(chunks: u32) -> Self {
        Self::by_pages(1, chunks, chunks)
    }

    /// Pages that grow one after another.
    pub const fn by_pages(pages: u32, chunks: u32, room: u32) -> Self {
        Self { pages, chunks, room, in_turns: false }
    }
}

impl fmt::Display for Held {
    fn fmt(&self, out: &mut fmt::Formatter<'_>) -> fmt::Result {
        let held = self.pages * self.chunks;
        if held < self.room {
            write!(out, "{} of ", thousands(held))?;
        }
        write!(out, "{} chunks", thousands(self.room))?;
        match self.pages {
            1 => Ok(()),
            pages if self.in_turns => write!(out, ", {pages} pages in turns"),
            pages => write!(out, ", {pages} pages"),
        }
    }
}

/// A number as it is written, with commas.
pub fn thousands(n: u32) -> String {
    match n {
        0..1000 => n.to_string(),
        _ => format!("{},{:03}", thousands(n / 1000), n % 1000),
    }
}

/// An order in which words are touched.
#[derive(Clone, Copy, PartialEq)]
pub enum Walk {
    /// All that is held, page after page.
    Sequential,
    Random,
    /// At random, each word over the edge of two chunks.
    TwoChunks,
}

impl fmt::Display for Walk {
    fn fmt(&self, out: &mut fmt::Formatter<'_>) -> fmt::Result {
        out.write_str(match self {
            Self::Sequential => "sequential",
            Self::Random => "random",
            Self::TwoChunks => "over two chunks",
        })
    }
}

/// The heap page of a group of document 01's example layout.
pub const fn heap(group: u32) -> u32 {
    66 + 8 * group
}

/// Words of a walk, at least.
pub const WORDS: u32 = 20_000;

/// Pages and addresses of the words of a walk.
pub fn walk(held: Held, walk: Walk) -> Vec<(u32, u32)> {
    match walk {
        Walk::Sequential => {
            let words = (0..held.pages)
                .flat_map(|group| (0..8 * held.chunks).map(move |word| (heap(group), 32 * word)));
            words.clone().cycle().take(words.count().max(WORDS as usize)).collect()
        }
        _ => random(WORDS, held, walk),
    }
}

/// A walk that comes back to the same few places.
pub fn again(places: u32, held: Held, walk: Walk) -> Vec<(u32, u32)> {
    random(places, held, walk).into_iter().cycle().take(WORDS as usize).collect()
}

/// Random numbers, each below the bound that is handed in: the same ones in every run.
pub fn draws() -> impl FnMut(u32) -> u32 {
    let mut state = 0x9e37_79b9_7f4a_7c15u64;
    move |below| {
        state ^= state << 13;
        state ^= state >> 7;
        state ^= state << 17;
        (state >> 32) as u32 % below
    }
}

/// Pages and addresses of `n` words, at random or over the edge of two chunks.
pub fn random(n: u32, held: Held, walk: Walk) -> Vec<(u32, u32)> {
    let mut next = draws();
    let mut place = |_| {
        let page = heap(next(held.pages));
        let address = match walk {
            Walk::TwoChunks => next(held.chunks - 1) * 256 + 225 + next(31),
            _ => next(8 * held.chunks) * 32,
        };
        (page, address)
    };
    (0..n).map(&mut place).collect()
}
