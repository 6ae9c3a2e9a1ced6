//! A receipt screen. What a customer's call returned lies behind a fat pointer, and is shown word by word. A word has 32 bytes,
//! and the data need not fill the last one. `load_pointer` tells how many bytes of each word are real; the rest is padding.
//!
//! On a terminal padding is grey. Elsewhere, and where `NO_COLOR` is set, it is shown as dots. Zeros do not tell it: this
//! data has zeros within, and its last byte is a zero.

use std::{
    env,
    io::{self, IsTerminal},
    process::ExitCode,
};

use zincpapaya::{
    Capacity, Error, FatPointer, Frame, Heaps, Layout, LoadPlaces, PageId, PointerOutcome,
    Registers, Source, Word,
};

const LAYOUT: Layout = Layout {
    static_memory: PageId(1),
    calldata: PageId(4),
    bootloader_heap: PageId(5),
    bootloader_aux: PageId(6),
    base: 64,
    stride: 8,
};
/// The heap of the contract that was called, and that of the caller.
const CALLEE: PageId = PageId(74);
const CALLER: PageId = PageId(66);
/// Where the returned data begins. It goes over the edge of a chunk, at 1,024.
const START: u32 = 1000;

/// What was returned: an amount, a customer's number, and a text that ends in a zero.
fn returned() -> Vec<u8> {
    let mut data = Word::from(1250).to_big_endian().to_vec();
    data.extend(900_002_u64.to_be_bytes());
    data.extend(b"order 42: paid in full, thank you\0");
    data
}

/// A word that was loaded, and how many of its bytes are real.
struct Loaded {
    word: Word,
    bytes_read: usize,
}

/// Why the screen shows no data.
#[derive(Debug, PartialEq)]
enum Stop {
    Panicked,
    Refused(Error),
}

/// Loads all bytes that a pointer shows. The instruction reads the pointer from register 1 and puts it back there, moved on by a
/// word; register 2 gets the word.
fn load_all(heaps: &Heaps, pointer: FatPointer) -> Result<Vec<Loaded>, Stop> {
    let (heap, aux) = (CALLER, PageId(67));
    let mut frame =
        Frame { gas: 1000, heap, aux, heap_bound: 4096, aux_bound: 4096, panicked: false };
    let mut registers = Registers::default();
    registers.set(1, pointer);
    let source = Source::Register(1);
    let places = LoadPlaces { source, dst0: 2, dst1: 1, increment: true };

    let mut loaded = Vec::new();
    let mut left = pointer.length.saturating_sub(pointer.offset) as usize;
    while left > 0 {
        match heaps.load_pointer(&mut frame, &mut registers, places) {
            Ok(PointerOutcome::Running { bytes_read }) => {
                loaded.push(Loaded { word: registers.get(2).word, bytes_read });
                left -= bytes_read;
            }
            Ok(PointerOutcome::Panicked) => return Err(Stop::Panicked),
            Err(error) => return Err(Stop::Refused(error)),
        }
    }
    Ok(loaded)
}

/// How padding is told from data.
#[derive(Clone, Copy)]
enum Padding {
    Grey,
    Dots,
}

impl Padding {
    /// Colours are for terminals, and for users who want them.
    fn on_standard_output() -> Self {
        let unwanted = env::var_os("NO_COLOR").is_some_and(|set| !set.is_empty());
        if io::stdout().is_terminal() && !unwanted {
            Self::Grey
        } else {
            Self::Dots
        }
    }

    fn shown(self, bytes: &[u8]) -> String {
        match self {
            Self::Grey if bytes.is_empty() => String::new(),
            Self::Grey => format!("\x1b[90m{}\x1b[0m", hex(bytes)),
            Self::Dots => " ··".repeat(bytes.len()),
        }
    }
}

fn hex(bytes: &[u8]) -> String {
    bytes.iter().map(|byte| format!(" {byte:02x}")).collect()
}

/// Bytes of a row: half a word.
const ROW: usize = 16;

/// Two rows for each word, with the offset of the first byte in the data, and a line with the sums.
fn screen(loaded: &[Loaded], padding: Padding) -> String {
    let mut lines = Vec::new();
    for (number, Loaded { word, bytes_read }) in loaded.iter().enumerate() {
        for (half, bytes) in word.to_big_endian().chunks(ROW).enumerate() {
            let first = half * ROW;
            let (real, rest) = bytes.split_at(bytes_read.saturating_sub(first).min(ROW));
            let (real, rest) = (hex(real), padding.shown(rest));
            lines.push(format!("{:>6} {real}{rest}", 32 * number + first));
        }
    }
    let real: usize = loaded.iter().map(|word| word.bytes_read).sum();
    let padded = 32 * loaded.len() - real;
    lines.push(format!("{real} bytes are real, and {padded} are padding"));
    lines.join("\n") + "\n"
}

/// A memory in which the callee has left its data, and the pointer that it returned.
fn after_the_call() -> Result<(Heaps, FatPointer), Error> {
    let capacity = Capacity { chunks: 16, pages: 4, journal_words: 8 };
    let mut heaps = Heaps::open(LAYOUT, capacity, b"transaction")?;
    let data = returned();
    heaps.write_bytes(CALLEE, START, &data)?;
    let length = data.len() as u32;
    let pointer = FatPointer { offset: 0, memory_page: CALLEE, start: START, length };
    // The callee keeps what it returned, and nothing else.
    heaps.compact_to_window(CALLEE, START, length)?;
    Ok((heaps, pointer))
}

fn main() -> ExitCode {
    let loaded = after_the_call().map_err(Stop::Refused);
    match loaded.and_then(|(heaps, pointer)| load_all(&heaps, pointer)) {
        Ok(loaded) => {
            print!("{}", screen(&loaded, Padding::on_standard_output()));
            ExitCode::SUCCESS
        }
        Err(Stop::Panicked) => {
            eprintln!("receipt: the load panicked, and there is nothing to show");
            ExitCode::FAILURE
        }
        Err(Stop::Refused(error)) => {
            eprintln!("receipt: refused with {error}");
            ExitCode::FAILURE
        }
    }
}

#[cfg(test)]
mod tests {
    use super::*;

    fn shown(length: u32, padding: Padding) -> String {
        let (heaps, pointer) = after_the_call().expect("there is room");
        screen(&load_all(&heaps, FatPointer { length, ..pointer }).expect("all is there"), padding)
    }

    #[test]
    fn the_screen_is_the_file_beside_it() {
        let data = returned();
        assert!(!data.len().is_multiple_of(32) && data.last() == Some(&0));
        assert_eq!(shown(data.len() as u32, Padding::Dots), include_str!("receipt.out"));
    }

    #[test]
    fn every_real_byte_is_shown_and_no_other() {
        let data = returned();
        for length in 0..=data.len() {
            let screen = shown(length as u32, Padding::Dots);
            let rows = screen.lines().filter(|line| line.starts_with(' '));
            let bytes: Vec<&str> = rows.flat_map(|row| row.split_whitespace().skip(1)).collect();
            let (real, padding) = bytes.split_at(length);
            assert_eq!(real.concat(), hex(&data[..length]).replace(' ', ""));
            assert!(padding.len() < 32 && padding.iter().all(|byte| *byte == "··"));
        }
    }

    #[test]
    fn padding_is_grey_on_a_terminal() {
        let screen = shown(3, Padding::Grey);
        let rows: Vec<&str> = screen.lines().collect();
        assert_eq!(rows[0], format!("     0  00 00 00\x1b[90m{}\x1b[0m", " 00".repeat(13)));
        assert_eq!(rows[1], format!("    16 \x1b[90m{}\x1b[0m", " 00".repeat(16)));
        assert_eq!(rows[2], "3 bytes are real, and 29 are padding");
        // A word that is full has no grey.
        assert!(!shown(32, Padding::Grey).contains('\x1b'));
    }

    #[test]
    fn what_is_not_loaded_is_told() {
        let (heaps, pointer) = after_the_call().expect("there is room");
        let past = FatPointer { start: u32::MAX, ..pointer };
        assert_eq!(load_all(&heaps, past).err(), Some(Stop::Refused(Error::Pointer)));
        let far = FatPointer { start: 0, offset: u32::MAX - 31, length: u32::MAX, ..pointer };
        assert_eq!(load_all(&heaps, far).err(), Some(Stop::Panicked));
    }
}
