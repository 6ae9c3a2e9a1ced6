//! Calls as lines that the driver reads: what `parse` undoes.

use oracle::{form, Area, Call, Form, Frame, HeapInstruction, Op, PageIds, Places, Registers};

/// The lines of a call: its frame and its registers, if it takes them, and the call itself.
pub fn lines(call: &Call) -> Vec<String> {
    match call {
        Call::UseGas { frame, .. } | Call::GrowHeap { frame, .. } => {
            vec![frame_line(frame), line(call)]
        }
        Call::Instruction { frame, instruction } => {
            let registers = format!("registers{}", registers(&instruction.registers));
            vec![frame_line(frame), registers, format!("run {}", line(call))]
        }
        _ => vec![line(call)],
    }
}

/// Every register that is not 0 without a flag, each after a space.
pub fn registers(registers: &Registers) -> String {
    let shown = (0..16).filter_map(|number| {
        let (word, tagged) = registers.get(number);
        let form = if tagged { "tag" } else { "reg" };
        (tagged || word.0 != [0; 4]).then(|| format!(" r{number}={form}:{word}"))
    });
    shown.collect()
}

fn frame_line(frame: &Frame) -> String {
    let Frame { gas, heap, aux, heap_bound, aux_bound } = frame;
    format!("frame {gas} {heap} {aux} {heap_bound} {aux_bound}")
}

/// The call's name and its fields.
fn line(call: &Call) -> String {
    let name = name(call);
    match fields(call) {
        fields if fields.is_empty() => name.into(),
        fields => format!("{name} {fields}"),
    }
}

/// The call's name, with which its line begins.
pub fn name(call: &Call) -> &'static str {
    match call {
        Call::Open { .. } => "open",
        Call::AllocateAt { .. } => "allocate_at",
        Call::AllocateWithContentAt { .. } => "allocate_with_content_at",
        Call::Deallocate { .. } => "deallocate",
        Call::ReadU256 { .. } => "read_u256",
        Call::ReadU256Partially { .. } => "read_u256_partially",
        Call::ReadRangeBigEndian { .. } => "read_range_big_endian",
        Call::ReadByte { .. } => "read_byte",
        Call::Chunk { .. } => "chunk",
        Call::DynamicLen => "dynamic_len",
        Call::WriteU256 { .. } => "write_u256",
        Call::WriteBytes { .. } => "write_bytes",
        Call::CompactToWindow { .. } => "compact_to_window",
        Call::TruncateDynamicTo { .. } => "truncate_dynamic_to",
        Call::Snapshot => "snapshot",
        Call::Rollback { .. } => "rollback",
        Call::DeleteHistory => "delete_history",
        Call::Compare { .. } => "compare",
        Call::Decode { .. } => "decode",
        Call::PageIds(of) => page_name(of),
        Call::FatPointerFrom { .. } => "fat_pointer",
        Call::FatPointerInto { .. } => "into_u256",
        Call::UseGas { .. } => "use_gas",
        Call::GrowHeap { .. } => "grow_heap",
        Call::Instruction { instruction, .. } => instruction_name(instruction),
    }
}

fn page_name(of: &PageIds) -> &'static str {
    match of {
        PageIds::StaticMemoryPage => "static_memory_page",
        PageIds::BootloaderCalldataPage => "bootloader_calldata_page",
        PageIds::BootloaderHeapPage => "bootloader_heap_page",
        PageIds::BootloaderAuxHeapPage => "bootloader_aux_heap_page",
        PageIds::HeapPageFromBase(_) => "heap_page_from_base",
        PageIds::AuxHeapPageFromBase(_) => "aux_heap_page_from_base",
        PageIds::CodePageFromBase(_) => "code_page_from_base",
        PageIds::BasePageFromHeap(_) => "base_page_from_heap",
        PageIds::FirstDynamicBasePage => "first_dynamic_base_page",
        PageIds::NextPageGroup(_) => "next_page_group",
    }
}

fn instruction_name(instruction: &HeapInstruction) -> &'static str {
    match instruction.op {
        Op::Load(_) => "load",
        Op::Store { .. } => "store",
        Op::LoadPointer => "load_pointer",
        Op::LoadStatic => "load_static",
        Op::StoreStatic => "store_static",
    }
}

fn fields(call: &Call) -> String {
    match call {
        Call::Open { calldata } => bytes(calldata),
        Call::AllocateWithContentAt { page, content } => format!("{page} {}", bytes(content)),
        Call::AllocateAt { page } | Call::Deallocate { page } | Call::Decode { page } => {
            page.to_string()
        }
        Call::ReadU256 { page, address } | Call::ReadByte { page, address } => {
            format!("{page} {address}")
        }
        Call::ReadU256Partially { page, start, end }
        | Call::ReadRangeBigEndian { page, start, end } => format!("{page} {start} {end}"),
        Call::Chunk { page, number } => format!("{page} {number}"),
        Call::WriteU256 { page, address, value } => format!("{page} {address} {value}"),
        Call::WriteBytes { page, start, bytes: given } => {
            format!("{page} {start} {}", bytes(given))
        }
        Call::CompactToWindow { page, start, length } => format!("{page} {start} {length}"),
        Call::TruncateDynamicTo { len } => len.to_string(),
        Call::Rollback { heap, aux } => format!("{heap} {aux}"),
        Call::Compare { other } => other.to_string(),
        Call::PageIds(of) => page_field(of),
        Call::FatPointerFrom { word } => word.to_string(),
        Call::FatPointerInto { pointer: at } => {
            format!("{} {} {} {}", at.offset, at.page, at.start, at.length)
        }
        Call::UseGas { amount, .. } => amount.to_string(),
        Call::GrowHeap { area, new_bound, .. } => format!("{} {new_bound}", area_name(*area)),
        Call::Instruction { instruction, .. } => instruction_fields(instruction),
        Call::DynamicLen | Call::Snapshot | Call::DeleteHistory => String::new(),
    }
}

fn page_field(of: &PageIds) -> String {
    match of {
        PageIds::HeapPageFromBase(number)
        | PageIds::AuxHeapPageFromBase(number)
        | PageIds::CodePageFromBase(number)
        | PageIds::BasePageFromHeap(number)
        | PageIds::NextPageGroup(number) => number.to_string(),
        _ => String::new(),
    }
}

fn instruction_fields(instruction: &HeapInstruction) -> String {
    let HeapInstruction { op, places: Places { source, value, dst0, dst1 }, .. } = *instruction;
    let area = match op {
        Op::Load(area) | Op::Store { area, .. } => Some(area_name(area).into()),
        _ => None,
    };
    let value = op.stores().then(|| place(value));
    let user = (!instruction.kernel).then(|| "user".into());
    let increment = instruction.increment.then(|| "inc".into());
    let hook = match op {
        Op::Store { hook: Some(address), .. } => Some(format!("hook={address}")),
        _ => None,
    };
    let (source, dst0, dst1) = (place(source), place(dst0), place(dst1));
    let fields = [area, Some(source), value, Some(dst0), Some(dst1), user, increment, hook];
    fields.into_iter().flatten().collect::<Vec<_>>().join(" ")
}

fn place(code: u32) -> String {
    match form(code) {
        Form::Register(number) => format!("r{number}"),
        Form::Immediate(number) => format!("imm:{number}"),
        Form::Other(code) => format!("form:{code}"),
    }
}

fn area_name(area: Area) -> &'static str {
    match area {
        Area::Heap => "heap",
        Area::Aux => "aux",
    }
}

/// Hexadecimal digits; equal bytes as one of them and a count.
fn bytes(bytes: &[u8]) -> String {
    match bytes {
        [] => "-".into(),
        [first, second, ..] if bytes.iter().all(|byte| byte == second) => {
            format!("{first:02x}*{}", bytes.len())
        }
        _ => bytes.iter().map(|byte| format!("{byte:02x}")).collect(),
    }
}

#[cfg(test)]
mod tests {
    use oracle::{Call, Frame, Left, Registers};

    use super::lines;
    use crate::parse::{self, Line};

    /// The calls of a sample, as the driver reads them.
    fn calls_of(text: &str) -> Vec<Call> {
        let layout = oracle::bank("example").expect("a listed layout").layout();
        let frame = Frame { gas: 0, heap: 0, aux: 0, heap_bound: 0, aux_bound: 0 };
        let mut given = Left { frame, registers: Registers::default() };
        let mut calls = Vec::new();
        for line in text.lines().filter(|line| !line.is_empty() && !line.starts_with('#')) {
            match parse::line(line, Some(&layout), &given).expect("a sample's line") {
                Line::Frame(frame) => given.frame = frame,
                Line::Registers(registers) => given.registers = *registers,
                Line::Call(call) | Line::Run(call) => calls.push(call),
                _ => {}
            }
        }
        calls
    }

    #[test]
    fn a_spelled_call_reads_back() {
        let samples = [
            include_str!("../../samples/calls.txt"),
            include_str!("../../samples/examples.txt"),
            include_str!("../../samples/panics.txt"),
            include_str!("../../samples/registers.txt"),
        ];
        for call in samples.into_iter().flat_map(calls_of) {
            assert_eq!(calls_of(&lines(&call).join("\n")), [call]);
        }
    }
}
