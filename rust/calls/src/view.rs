//! The state of a memory, read from the `Debug` text that vm2 derives for its private fields.
//!
//! The text is never held: a sink takes it piece by piece as it is written.

use std::fmt::{self, Write};

use crate::{Kind, Place, Word};

pub const CHUNK_BYTES: usize = 256;

#[derive(Clone, PartialEq, Eq)]
pub struct Chunk {
    pub number: u32,
    pub bytes: Box<[u8; CHUNK_BYTES]>,
}

/// An allocated page with the chunks that it holds, in rising order.
#[derive(Clone, PartialEq, Eq)]
pub struct Page {
    pub place: Place,
    pub chunks: Vec<Chunk>,
}

#[derive(Clone, Default, PartialEq, Eq)]
pub struct View {
    pub dynamic_len: u64,
    /// The fixed pages in the layout's order, then the dynamic ones by group and kind.
    pub pages: Vec<Page>,
    /// Address and old word, oldest first: the heap's journal and the aux heap's.
    pub journals: [Vec<(u32, Word)>; 2],
}

impl View {
    fn page(&self, place: Place) -> Option<&Page> {
        self.pages.iter().find(|page| page.place == place)
    }
}

/// The view of a memory whose derived `Debug` text this is.
pub fn view_of(heaps: &dyn fmt::Debug) -> View {
    let mut sink = Sink::default();
    write!(sink, "{heaps:?}").expect("the sink takes every word");
    sink.view
}

/// What the numbers and the words `Some` and `None` belong to.
#[derive(Default, Clone, Copy, PartialEq)]
enum Part {
    /// A field of vm2's whose contents come next, if there are any.
    #[default]
    Field,
    Chunks,
    Pool,
    Journal(usize),
}

#[derive(Default)]
struct Sink {
    view: View,
    /// The word or the number at hand, as far as it has come.
    word: String,
    number: Option<u64>,
    part: Part,
    place: Option<Place>,
    /// Number of the next chunk of the page at hand.
    chunk: u32,
    /// Bytes of a chunk, or address and limbs of a journal entry, as far as they have come.
    bytes: Vec<u8>,
    entry: Vec<u64>,
}

impl Write for Sink {
    fn write_str(&mut self, text: &str) -> fmt::Result {
        for letter in text.bytes() {
            match letter {
                // A number, unless it stands inside a name.
                b'0'..=b'9' if self.word.is_empty() => {
                    let digit = u64::from(letter - b'0');
                    self.number = Some(self.number.unwrap_or(0) * 10 + digit);
                }
                b'0'..=b'9' | b'A'..=b'Z' | b'a'..=b'z' | b'_' => self.word.push(letter.into()),
                _ => self.part_words(),
            }
        }
        Ok(())
    }
}

impl Sink {
    /// Takes the number or the word that a mark has ended, if one stood before it.
    fn part_words(&mut self) {
        if let Some(number) = self.number.take() {
            self.take_number(number);
        } else if !self.word.is_empty() {
            let mut word = std::mem::take(&mut self.word);
            self.take_word(&word);
            word.clear();
            self.word = word;
        }
    }

    fn take_word(&mut self, word: &str) {
        match word {
            "None" if self.part == Part::Chunks => self.chunk += 1,
            "None" | "Some" | "U256" | "Heaps" | "ChunkPool" | "len" => {}
            "static_memory" => self.field(Place::Static),
            "bootloader_calldata" => self.field(Place::Calldata),
            "bootloader_heap" => self.field(Place::BootloaderHeap),
            "bootloader_aux_heap" => self.field(Place::BootloaderAux),
            "dynamic" => self.part = Part::Field,
            "DynamicPageGroup" => self.view.dynamic_len += 1,
            "code" => self.slot(Kind::Code),
            "heap" => self.slot(Kind::Heap),
            "aux" => self.slot(Kind::Aux),
            "Heap" => self.begin_page(),
            "chunks" => self.part = Part::Chunks,
            "chunk_pool" => self.part = Part::Pool,
            "bootloader_heap_rollback_info" => self.part = Part::Journal(0),
            "bootloader_aux_rollback_info" => self.part = Part::Journal(1),
            _ => panic!("vm2's Debug text has a word that is not known here: {word}"),
        }
    }

    fn field(&mut self, place: Place) {
        self.part = Part::Field;
        self.place = Some(place);
    }

    fn slot(&mut self, kind: Kind) {
        let group = self.view.dynamic_len - 1;
        let group = u32::try_from(group).expect("groups are 32-bit numbers");
        self.field(Place::Dynamic { group, kind });
    }

    fn begin_page(&mut self) {
        let place = self.place.take().expect("a page follows its field's name");
        self.view.pages.push(Page { place, chunks: Vec::new() });
        self.chunk = 0;
    }

    fn take_number(&mut self, number: u64) {
        match self.part {
            Part::Chunks => self.take_byte(u8::try_from(number).expect("chunks hold bytes")),
            Part::Journal(at) => self.take_entry(at, number),
            Part::Pool => {}
            Part::Field => panic!("vm2's Debug text has a number outside a list"),
        }
    }

    fn take_byte(&mut self, byte: u8) {
        self.bytes.push(byte);
        if self.bytes.len() == CHUNK_BYTES {
            let bytes = std::mem::take(&mut self.bytes).into_boxed_slice();
            let bytes = bytes.try_into().expect("256 bytes were taken");
            let page = self.view.pages.last_mut().expect("chunks follow a page");
            page.chunks.push(Chunk { number: self.chunk, bytes });
            self.chunk += 1;
        }
    }

    fn take_entry(&mut self, at: usize, number: u64) {
        self.entry.push(number);
        if let [address, a, b, c, d] = self.entry[..] {
            let address = u32::try_from(address).expect("addresses are 32-bit numbers");
            self.view.journals[at].push((address, Word([a, b, c, d])));
            self.entry.clear();
        }
    }
}

/// What changed between two views, a line each; none if they are the same.
pub fn differences(before: &View, after: &View) -> Vec<String> {
    let mut lines = Vec::new();
    if before.dynamic_len != after.dynamic_len {
        lines.push(format!("dynamic {} -> {}", before.dynamic_len, after.dynamic_len));
    }
    for page in &after.pages {
        match before.page(page.place) {
            None => {
                lines.push(format!("page {} allocated", page.place));
                changed_chunks(&[], page, &mut lines);
            }
            Some(old) => changed_chunks(&old.chunks, page, &mut lines),
        }
    }
    for page in &before.pages {
        if after.page(page.place).is_none() {
            lines.push(format!("page {} freed", page.place));
        }
    }
    for (name, (old, new)) in
        ["heap", "aux"].iter().zip(before.journals.iter().zip(&after.journals))
    {
        if old != new {
            lines.push(format!("journal {name} {} -> {} words", old.len(), new.len()));
        }
    }
    lines
}

fn changed_chunks(before: &[Chunk], after: &Page, lines: &mut Vec<String>) {
    fn find(chunks: &[Chunk], number: u32) -> Option<&Chunk> {
        chunks.iter().find(|chunk| chunk.number == number)
    }
    let mut note = |chunk: &Chunk, what| {
        lines.push(format!("page {} chunk {} {what}", after.place, chunk.number));
    };
    for chunk in &after.chunks {
        match find(before, chunk.number) {
            None => note(chunk, "held"),
            Some(old) if old != chunk => note(chunk, "written"),
            Some(_) => {}
        }
    }
    for chunk in before {
        if find(&after.chunks, chunk.number).is_none() {
            note(chunk, "freed");
        }
    }
}
