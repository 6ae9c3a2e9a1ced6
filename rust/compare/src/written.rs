//! Calls and vm2's answers as lines of numbers, for a program that replays them elsewhere.
//!
//! A line is a letter, the call's numbers, ` =`, and the numbers of the answer, of which the first is
//! 0, a refusal's number, 100 for a panic of the EraVM or 101 for a stop at a hook.

use oracle::{
    Answer, Area, Call, Frame, HeapInstruction, Kind, Layout, Left, Op, PageIds, Place, Places,
    Registers, Word,
};

use crate::{generate::pattern, rules};

/// Bytes of one call, at most.
pub const LONGEST: u64 = 1_024;

const PANICKED: u64 = 100;
const SUSPENDED: u64 = 101;

/// A number that stands for bytes.
fn digest(bytes: &[u8]) -> u64 {
    bytes.iter().fold(0, |sum, byte| (sum * 257 + u64::from(*byte) + 1) % 4_294_967_291)
}

/// A number that stands for all limbs of the registers.
fn digest_of_limbs(words: &[Word; 16]) -> u64 {
    let limbs = words.iter().flat_map(|word| word.0);
    limbs.fold(0, |sum: u64, limb| sum.wrapping_mul(31).wrapping_add(limb))
}

/// The number and the seed that stand for the bytes of a call.
fn spelled(bytes: &[u8]) -> Option<Vec<u64>> {
    let seed = bytes.first().copied().unwrap_or_default();
    let length = bytes.len() as u64;
    (length <= LONGEST && pattern(length, seed) == bytes).then(|| vec![length, seed.into()])
}

fn line(head: &str, numbers: &[u64], answer: &[u64]) -> String {
    let text =
        |numbers: &[u64]| numbers.iter().map(|number| format!(" {number}")).collect::<String>();
    format!("{head}{} ={}", text(numbers), text(answer))
}

/// The line of an opening of memory `at`.
pub fn opening(at: usize, layout: &Layout, calldata: &[u8]) -> Option<String> {
    let Layout { static_memory, calldata: page, bootloader_heap, bootloader_aux, base, stride } =
        *layout;
    let fixed = [static_memory, page, bootloader_heap, bootloader_aux, base, stride];
    let mut numbers = vec![at as u64];
    numbers.extend(fixed.map(u64::from));
    numbers.extend(spelled(calldata)?);
    Some(line("o", &numbers, &[0]))
}

/// The line of what memory `at` holds.
pub fn held(at: usize, numbers: [u64; 4]) -> String {
    line("v", &[at as u64], &numbers)
}

/// The line that gives a register a word and a tag.
pub fn register(number: usize, word: Word, tagged: bool) -> String {
    let mut numbers = vec![number as u64];
    numbers.extend(word.0);
    numbers.push(tagged.into());
    line("R", &numbers, &[0])
}

/// The line of an instruction with registers that are kept, with vm2's answer; none where vm2 has none.
/// A refusal leaves frame and registers as they were.
pub fn kept(at: usize, frame: &Frame, run: &HeapInstruction, answer: &Answer) -> Option<String> {
    let given = Left { frame: *frame, registers: run.registers };
    let (status, left, stop) = match answer {
        Answer::Ran(left, None) => (0, left.as_ref(), 0),
        Answer::Ran(left, Some(stop)) => (SUSPENDED, left.as_ref(), *stop),
        Answer::EraPanic(left) => (PANICKED, left.as_ref(), 0),
        Answer::RustPanic(panic) => (panic.refusal?.into(), &given, 0),
        _ => return None,
    };
    let (op, area, hook) = op_numbers(run.op);
    let Places { source, value, dst0, dst1 } = run.places;
    let mut numbers = vec![at as u64, op];
    numbers.extend(frame_numbers(frame));
    numbers.push(area);
    numbers.extend([source, value, dst0, dst1].map(u64::from));
    numbers.extend([run.increment, run.kernel].map(u64::from));
    numbers.extend(hook);
    let mut left_numbers = vec![status];
    left_numbers.extend(bounds(&left.frame));
    let Registers { words, flags } = &left.registers;
    left_numbers.extend([stop.into(), u64::from(*flags), digest_of_limbs(words)]);
    Some(line("X", &numbers, &left_numbers))
}

/// The line of a call on memory `at` with vm2's answer; none where the format has no line for it, or
/// vm2 no answer.
pub fn written(at: usize, layout: &Layout, call: &Call, answer: &Answer) -> Option<String> {
    if let Call::Open { calldata } = call {
        return opening(at, layout, calldata);
    }
    let (letter, numbers) = match apart(call) {
        Some(apart) => apart,
        None => {
            let (letter, numbers) = on_memory(call)?;
            (letter, [vec![at as u64], numbers].concat())
        }
    };
    let answer = match (call, answer) {
        (_, Answer::RustPanic(panic)) => vec![panic.refusal?.into()],
        (_, Answer::NotRun(_)) => return None,
        // The page that vm2 gives back is known.
        (Call::AllocateAt { .. } | Call::AllocateWithContentAt { .. }, _) => vec![0],
        (Call::UseGas { .. }, Answer::Paid(paid, frame)) => {
            vec![0, frame.gas.into(), (*paid).into()]
        }
        (Call::Instruction { instruction, .. }, Answer::Ran(left, stop)) => {
            ran_numbers(instruction, left, *stop)
        }
        (_, answer) => answered(answer),
    };
    Some(line(letter, &numbers, &answer))
}

/// Letter and numbers of a call that takes no memory.
fn apart(call: &Call) -> Option<(&'static str, Vec<u64>)> {
    Some(match *call {
        Call::Decode { page } => ("D", vec![page.into()]),
        Call::PageIds(of) => {
            let (which, base) = match of {
                PageIds::HeapPageFromBase(base) => (0, base),
                PageIds::AuxHeapPageFromBase(base) => (1, base),
                PageIds::CodePageFromBase(base) => (2, base),
                PageIds::BasePageFromHeap(page) => (3, page),
                PageIds::NextPageGroup(base) => (4, base),
                _ => return None,
            };
            ("h", vec![which, base.into()])
        }
        Call::FatPointerFrom { word } => ("P", word.0.into()),
        Call::FatPointerInto { pointer: at } => {
            ("Q", [at.offset, at.page, at.start, at.length].map(u64::from).into())
        }
        Call::UseGas { frame, amount } => ("U", vec![frame.gas.into(), amount.into()]),
        Call::GrowHeap { frame, area, new_bound } => {
            let mut numbers = frame_numbers(&frame);
            numbers.extend([area_number(area), new_bound.into()]);
            ("G", numbers)
        }
        _ => return None,
    })
}

/// Letter and numbers of a call on a memory.
fn on_memory(call: &Call) -> Option<(&'static str, Vec<u64>)> {
    let with = |numbers: &[u32], more: Vec<u64>| {
        numbers.iter().map(|number| u64::from(*number)).chain(more).collect::<Vec<_>>()
    };
    let none = Vec::new;
    Some(match call {
        Call::AllocateAt { page } => ("a", with(&[*page], none())),
        Call::AllocateWithContentAt { page, content } => ("A", with(&[*page], spelled(content)?)),
        Call::Deallocate { page } => ("f", with(&[*page], none())),
        Call::ReadU256 { page, address } => ("r", with(&[*page, *address], none())),
        Call::ReadU256Partially { page, start, end } => ("p", with(&[*page, *start, *end], none())),
        Call::ReadRangeBigEndian { page, start, end } => {
            ("g", with(&[*page, *start, *end], none()))
        }
        Call::ReadByte { page, address } => ("y", with(&[*page, *address], none())),
        Call::Chunk { page, number } => ("k", with(&[*page, *number], none())),
        Call::DynamicLen => ("l", none()),
        Call::WriteU256 { page, address, value } => ("w", with(&[*page, *address], value.0.into())),
        Call::WriteBytes { page, start, bytes } => ("b", with(&[*page, *start], spelled(bytes)?)),
        Call::CompactToWindow { page, start, length } => {
            ("c", with(&[*page, *start, *length], none()))
        }
        Call::TruncateDynamicTo { len } => ("T", vec![*len]),
        Call::Snapshot => ("s", none()),
        Call::Rollback { heap, aux } => ("u", vec![*heap, *aux]),
        Call::DeleteHistory => ("d", none()),
        Call::Compare { other } => ("e", vec![*other as u64]),
        Call::Instruction { frame, instruction } => ("x", instruction_numbers(frame, instruction)),
        _ => return None,
    })
}

fn frame_numbers(frame: &Frame) -> Vec<u64> {
    let Frame { gas, heap, aux, heap_bound, aux_bound } = *frame;
    [gas, heap, aux, heap_bound, aux_bound].map(u64::from).into()
}

fn area_number(area: Area) -> u64 {
    match area {
        Area::Heap => 0,
        Area::Aux => 1,
    }
}

/// The numbers of an instruction, of its area, and of hooking and its address.
fn op_numbers(op: Op) -> (u64, u64, [u64; 2]) {
    let none = [0, 0];
    match op {
        Op::Load(area) => (0, area_number(area), none),
        Op::Store { area, hook } => {
            let hook = hook.map_or(none, |address| [1, address.into()]);
            (1, area_number(area), hook)
        }
        Op::LoadPointer => (2, 0, none),
        Op::LoadStatic => (3, 0, none),
        Op::StoreStatic => (4, 0, none),
    }
}

/// Instructions are told by their operands alone here.
fn instruction_numbers(frame: &Frame, instruction: &HeapInstruction) -> Vec<u64> {
    let (op, area, hook) = op_numbers(instruction.op);
    let (word, tagged) = rules::operand(instruction);
    let value = if instruction.op.stores() { rules::value(instruction) } else { Word::default() };
    let mut numbers = vec![op];
    numbers.extend(frame_numbers(frame));
    numbers.push(area);
    numbers.extend(word.0);
    numbers.push(tagged.into());
    numbers.extend(value.0);
    numbers.extend(hook);
    numbers
}

/// The numbers of an answer that is no refusal.
fn answered(answer: &Answer) -> Vec<u64> {
    let ok = |numbers: &[u64]| [&[0], numbers].concat();
    match answer {
        Answer::Word(word) => ok(&word.0),
        Answer::Byte(byte) => ok(&[(*byte).into()]),
        Answer::Bytes(bytes) => ok(&[digest(bytes)]),
        Answer::Number(number) => ok(&[*number]),
        Answer::Snapshot { heap, aux } => ok(&[*heap, *aux]),
        Answer::Equal(equal) => ok(&[(*equal).into()]),
        Answer::Decoded(place) => ok(&kind_and_group(*place)),
        Answer::Pointer(at) => ok(&[at.offset, at.page, at.start, at.length].map(u64::from)),
        Answer::Paid(paid, frame) => {
            let Frame { gas, heap_bound, aux_bound, .. } = *frame;
            ok(&[(*paid).into(), gas.into(), heap_bound.into(), aux_bound.into()])
        }
        Answer::EraPanic(left) => [vec![PANICKED], bounds(&left.frame)].concat(),
        Answer::Ran(..) => unreachable!("an instruction tells what it gave"),
        Answer::Done | Answer::RustPanic(_) | Answer::NotRun(_) => ok(&[]),
    }
}

fn bounds(frame: &Frame) -> Vec<u64> {
    [frame.gas, frame.heap_bound, frame.aux_bound].map(u64::from).into()
}

fn ran_numbers(instruction: &HeapInstruction, left: &Left, stop: Option<u32>) -> Vec<u64> {
    let mut numbers = vec![if stop.is_some() { SUSPENDED } else { 0 }];
    numbers.extend(bounds(&left.frame));
    let (word, next) = instruction.given(&left.registers);
    numbers.extend(word.unwrap_or_default().0);
    let (next, tagged) = next.expect("stored instructions increment");
    numbers.extend(next.0);
    numbers.extend([u64::from(tagged), stop.unwrap_or_default().into()]);
    numbers
}

fn kind_and_group(place: Option<Place>) -> [u64; 2] {
    match place {
        Some(Place::Dynamic { group, kind }) => {
            let kind = match kind {
                Kind::Code => 0,
                Kind::Heap => 1,
                Kind::Aux => 2,
            };
            [kind, group.into()]
        }
        Some(Place::Static) => [3, 0],
        Some(Place::Calldata) => [4, 0],
        Some(Place::BootloaderHeap) => [5, 0],
        Some(Place::BootloaderAux) => [6, 0],
        None => [7, 0],
    }
}
