//! Answers and views as text.

use oracle::{Answer, Frame, HeapInstruction, Layout, Left, Page, Place, RustPanic, View};

use crate::spell;

/// Equal bytes from this number on are written as one byte and a count.
const LONG_RUN: usize = 8;

pub fn answer(answer: &Answer) -> String {
    match answer {
        Answer::Done => "ok".into(),
        Answer::Word(word) => format!("word {word}"),
        Answer::Byte(byte) => format!("byte {byte:02x}"),
        Answer::Bytes(bytes) => format!("bytes {}", runs(bytes)),
        Answer::Number(number) => format!("number {number}"),
        Answer::Snapshot { heap, aux } => format!("snap {heap} {aux}"),
        Answer::Equal(equal) => (if *equal { "equal" } else { "different" }).into(),
        Answer::Decoded(Some(place)) => format!("place {place}"),
        Answer::Decoded(None) => "place none".into(),
        Answer::Pointer(pointer) => format!(
            "pointer offset {} page {} start {} length {}",
            pointer.offset, pointer.page, pointer.start, pointer.length
        ),
        Answer::Paid(true, after) => format!("paid {}", frame(after)),
        Answer::Paid(false, after) => format!("unpaid {}", frame(after)),
        Answer::Ran(after, hook) => format!("ran {}{}", left(after), stop(*hook)),
        Answer::EraPanic(after) => format!("panic {}", left(after)),
        Answer::RustPanic(panic) => rust_panic(panic),
        Answer::NotRun(reason) => format!("not run: {reason}"),
    }
}

fn rust_panic(panic: &RustPanic) -> String {
    let number = panic.refusal.map_or("?".into(), |number| number.to_string());
    format!("rust panic {number} {}: {}", panic.file, panic.message)
}

fn frame(frame: &Frame) -> String {
    let Frame { gas, heap, aux, heap_bound, aux_bound } = frame;
    format!("gas {gas} pages {heap} {aux} bounds {heap_bound} {aux_bound}")
}

fn left(left: &Left) -> String {
    let registers = match spell::registers(&left.registers) {
        text if text.is_empty() => " -".into(),
        text => text,
    };
    format!("{} registers{registers}", frame(&left.frame))
}

fn stop(value: Option<u32>) -> String {
    value.map_or(String::new(), |value| format!(" stop {value}"))
}

/// The answer to an instruction that was told by its operands alone: what it gave, read off the
/// registers that it left.
pub fn on_operands(instruction: &HeapInstruction, given: &Answer) -> String {
    match given {
        Answer::Ran(left, hook) => {
            let (word, next) = instruction.given(&left.registers);
            let word = word.map_or(String::new(), |word| format!(" word {word}"));
            let next = next.map_or(String::new(), |(word, tagged)| {
                format!(" next {word} {}", if tagged { "tagged" } else { "plain" })
            });
            format!("ran {}{word}{next}{}", frame(&left.frame), stop(*hook))
        }
        Answer::EraPanic(left) => format!("panic {}", frame(&left.frame)),
        given => answer(given),
    }
}

/// Hexadecimal digits, long runs of one byte as `00*200`, parted by spaces.
fn runs(bytes: &[u8]) -> String {
    if bytes.is_empty() {
        return "-".into();
    }
    let mut text = String::new();
    for run in bytes.chunk_by(|one, next| one == next) {
        if run.len() < LONG_RUN {
            text += &run.iter().map(|byte| format!("{byte:02x}")).collect::<String>();
        } else {
            text += &format!(" {:02x}*{} ", run[0], run.len());
        }
    }
    text.split_whitespace().collect::<Vec<_>>().join(" ")
}

/// Dynamic length, allocated pages with held chunks (fixed pages only where they hold any), and
/// the journals.
pub fn view(view: &View, layout: &Layout) -> Vec<String> {
    let mut lines = vec![format!("view dynamic {}", view.dynamic_len)];
    let shown =
        |page: &&Page| matches!(page.place, Place::Dynamic { .. }) || !page.chunks.is_empty();
    for page in view.pages.iter().filter(shown) {
        let id = layout.id(page.place).map_or("?".into(), |id| id.to_string());
        let chunks = page.chunks.iter().map(|chunk| chunk.number.to_string());
        lines.push(format!("view page {id} {} chunks {}", page.place, list(chunks)));
    }
    for (name, journal) in ["heap", "aux"].iter().zip(&view.journals) {
        let entries = journal.iter().map(|(address, word)| format!("{address}={word}"));
        lines.push(format!("view journal {name} {}", list(entries)));
    }
    lines
}

fn list(items: impl Iterator<Item = String>) -> String {
    let text = items.collect::<Vec<_>>().join(" ");
    if text.is_empty() {
        "-".into()
    } else {
        text
    }
}

pub fn frame_changes(before: &Frame, after: &Frame) -> Vec<String> {
    let fields = [
        ("gas", before.gas, after.gas),
        ("heap page", before.heap, after.heap),
        ("aux page", before.aux, after.aux),
        ("heap bound", before.heap_bound, after.heap_bound),
        ("aux bound", before.aux_bound, after.aux_bound),
    ];
    let changed = fields.into_iter().filter(|(_, before, after)| before != after);
    changed.map(|(name, before, after)| format!("{name} {before} -> {after}")).collect()
}
