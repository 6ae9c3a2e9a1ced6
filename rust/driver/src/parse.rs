//! An input line's meaning.

use oracle::{
    Call, Frame, HeapInstruction, Layout, Left, Op, Operand, PageIds, Places, Registers, Word,
};

use crate::fields::Fields;

/// Memories of one bank.
const MAX_MEMORIES: u32 = 8;

pub enum Line {
    Layout(String),
    Memory(usize),
    Frame(Frame),
    Registers(Box<Registers>),
    View,
    Left,
    Call(Call),
    /// A whole instruction. One that is told by its operands alone is a `Call`.
    Run(Call),
}

/// Reads a line; `given` are the frame and the registers of the instructions.
pub fn line(line: &str, layout: Option<&Layout>, given: &Left) -> Result<Line, String> {
    let mut fields = line.split_whitespace();
    let name = fields.next().unwrap_or_default();
    if name == "layout" {
        return match (fields.next(), fields.next()) {
            (Some(name), None) => Ok(Line::Layout(name.into())),
            _ => Err("a layout line has one name".into()),
        };
    }
    let layout = layout.ok_or("a layout line must come first")?;
    let mut fields = Fields::new(fields, layout);
    let line = match name {
        "memory" => Line::Memory(memory(&mut fields)?),
        "frame" => Line::Frame(Frame {
            gas: fields.number("the gas")?,
            heap: fields.page()?,
            aux: fields.page()?,
            heap_bound: fields.number("the heap bound")?,
            aux_bound: fields.number("the aux bound")?,
        }),
        "registers" => Line::Registers(fields.registers()?.into()),
        "view" => Line::View,
        "left" => Line::Left,
        "run" => Line::Run(whole(&mut fields, given)?),
        _ => Line::Call(call(name, &mut fields, &given.frame)?),
    };
    fields.end()?;
    Ok(line)
}

fn memory(fields: &mut Fields) -> Result<usize, String> {
    match fields.number("the memory")? {
        number if number < MAX_MEMORIES => Ok(number as usize),
        number => Err(format!("memories are 0 to {}, not {number}", MAX_MEMORIES - 1)),
    }
}

fn call(name: &str, fields: &mut Fields, frame: &Frame) -> Result<Call, String> {
    for family in [read_call, change_call, page_call] {
        if let Some(call) = family(name, fields)? {
            return Ok(call);
        }
    }
    let call = framed_call(name, fields, *frame)?;
    call.ok_or_else(|| format!("no call is named '{name}'"))
}

/// Calls that only look at a memory.
fn read_call(name: &str, fields: &mut Fields) -> Result<Option<Call>, String> {
    Ok(Some(match name {
        "read_u256" => {
            Call::ReadU256 { page: fields.page()?, address: fields.number("the address")? }
        }
        "read_u256_partially" => Call::ReadU256Partially {
            page: fields.page()?,
            start: fields.number("the start")?,
            end: fields.number("the end")?,
        },
        "read_range_big_endian" => Call::ReadRangeBigEndian {
            page: fields.page()?,
            start: fields.number("the start")?,
            end: fields.number("the end")?,
        },
        "read_byte" => {
            Call::ReadByte { page: fields.page()?, address: fields.number("the address")? }
        }
        "chunk" => Call::Chunk { page: fields.page()?, number: fields.number("the chunk number")? },
        "dynamic_len" => Call::DynamicLen,
        "snapshot" => Call::Snapshot,
        "compare" => Call::Compare { other: memory(fields)? },
        _ => return Ok(None),
    }))
}

/// Calls that may change a memory.
fn change_call(name: &str, fields: &mut Fields) -> Result<Option<Call>, String> {
    Ok(Some(match name {
        "open" => Call::Open { calldata: fields.bytes()? },
        "allocate_at" => Call::AllocateAt { page: fields.page()? },
        "allocate_with_content_at" => {
            Call::AllocateWithContentAt { page: fields.page()?, content: fields.bytes()? }
        }
        "deallocate" => Call::Deallocate { page: fields.page()? },
        "write_u256" => Call::WriteU256 {
            page: fields.page()?,
            address: fields.number("the address")?,
            value: fields.word("the value")?,
        },
        "write_bytes" => Call::WriteBytes {
            page: fields.page()?,
            start: fields.number("the start")?,
            bytes: fields.bytes()?,
        },
        "compact_to_window" => Call::CompactToWindow {
            page: fields.page()?,
            start: fields.number("the start")?,
            length: fields.number("the length")?,
        },
        "truncate_dynamic_to" => Call::TruncateDynamicTo { len: fields.long_number("the length")? },
        "rollback" => Call::Rollback {
            heap: fields.long_number("the heap number")?,
            aux: fields.long_number("the aux number")?,
        },
        "delete_history" => Call::DeleteHistory,
        _ => return Ok(None),
    }))
}

/// Calls that take no memory.
fn page_call(name: &str, fields: &mut Fields) -> Result<Option<Call>, String> {
    let mut base = || fields.number("the base page");
    Ok(Some(Call::PageIds(match name {
        "static_memory_page" => PageIds::StaticMemoryPage,
        "bootloader_calldata_page" => PageIds::BootloaderCalldataPage,
        "bootloader_heap_page" => PageIds::BootloaderHeapPage,
        "bootloader_aux_heap_page" => PageIds::BootloaderAuxHeapPage,
        "heap_page_from_base" => PageIds::HeapPageFromBase(base()?),
        "aux_heap_page_from_base" => PageIds::AuxHeapPageFromBase(base()?),
        "code_page_from_base" => PageIds::CodePageFromBase(base()?),
        "base_page_from_heap" => PageIds::BasePageFromHeap(fields.page()?),
        "first_dynamic_base_page" => PageIds::FirstDynamicBasePage,
        "next_page_group" => PageIds::NextPageGroup(base()?),
        "decode" => return Ok(Some(Call::Decode { page: fields.page()? })),
        "fat_pointer" => return Ok(Some(Call::FatPointerFrom { word: fields.word("the word")? })),
        "into_u256" => return Ok(Some(Call::FatPointerInto { pointer: fields.pointer()? })),
        _ => return Ok(None),
    })))
}

/// Calls that take a frame.
fn framed_call(name: &str, fields: &mut Fields, frame: Frame) -> Result<Option<Call>, String> {
    Ok(Some(match name {
        "use_gas" => Call::UseGas { frame, amount: fields.number("the amount")? },
        "grow_heap" => {
            let area = fields.area()?;
            let new_bound = fields.number("the new bound")?;
            Call::GrowHeap { frame, area, new_bound }
        }
        _ => match instruction(name, fields)? {
            Some(instruction) => instruction.on(frame),
            None => return Ok(None),
        },
    }))
}

/// An instruction that is told by its operands alone.
fn instruction(name: &str, fields: &mut Fields) -> Result<Option<HeapInstruction>, String> {
    let on_operands = HeapInstruction::on_operands;
    let (instruction, increment) = match name {
        "load" => {
            let (op, operand) = (Op::Load(fields.area()?), fields.operand()?);
            (on_operands(op, operand, Word::default()), fields.increment()?)
        }
        "store" => {
            let (area, operand) = (fields.area()?, fields.operand()?);
            let value = fields.word("the value")?;
            let (increment, hook) = fields.marks()?;
            (on_operands(Op::Store { area, hook }, operand, value), increment)
        }
        "load_pointer" => match fields.operand()? {
            Operand::Immediate(_) => return Err("load_pointer takes no immediate".into()),
            operand => {
                (on_operands(Op::LoadPointer, operand, Word::default()), fields.increment()?)
            }
        },
        "load_static" => {
            let operand = fields.operand()?;
            (on_operands(Op::LoadStatic, operand, Word::default()), fields.increment()?)
        }
        "store_static" => {
            let (operand, value) = (fields.operand()?, fields.word("the value")?);
            (on_operands(Op::StoreStatic, operand, value), fields.increment()?)
        }
        _ => return Ok(None),
    };
    Ok(Some(instruction.incrementing(increment)))
}

/// A whole instruction: it is given registers, and its places are named.
fn whole(fields: &mut Fields, given: &Left) -> Result<Call, String> {
    let mut op = op(fields)?;
    let source = fields.place("the source")?;
    let value = if op.stores() { fields.place("the value")? } else { 0 };
    let (dst0, dst1) = (fields.place("the first output")?, fields.place("the second output")?);
    let places = Places { source, value, dst0, dst1 };
    let kernel = !fields.mark("user");
    let increment = match &mut op {
        Op::Store { hook, .. } => {
            let (increment, address) = fields.marks()?;
            *hook = address;
            increment
        }
        _ => fields.increment()?,
    };
    let registers = given.registers;
    Ok(HeapInstruction { op, registers, places, increment, kernel }.on(given.frame))
}

fn op(fields: &mut Fields) -> Result<Op, String> {
    Ok(match fields.name("the instruction")? {
        "load" => Op::Load(fields.area()?),
        "store" => Op::Store { area: fields.area()?, hook: None },
        "load_pointer" => Op::LoadPointer,
        "load_static" => Op::LoadStatic,
        "store_static" => Op::StoreStatic,
        other => return Err(format!("no instruction is named '{other}'")),
    })
}

#[cfg(test)]
mod tests {
    use oracle::{immediate, OTHER_FORM};

    use super::*;

    fn read(text: &str) -> Result<Line, String> {
        let layout = oracle::bank("example").expect("a listed layout").layout();
        let frame = Frame { gas: 0, heap: 0, aux: 0, heap_bound: 0, aux_bound: 0 };
        line(text, Some(&layout), &Left { frame, registers: Registers::default() })
    }

    #[test]
    fn a_place_is_read_as_its_code() {
        let line = read("run store aux imm:65535 r2 r65535 form:131072 user inc hook=7");
        let Ok(Line::Run(Call::Instruction { instruction, .. })) = line else {
            panic!("an instruction");
        };
        let places = Places { source: immediate(65_535), value: 2, dst0: 65_535, dst1: OTHER_FORM };
        assert_eq!(instruction.places, places);
        assert!(instruction.increment && !instruction.kernel);
        assert!(matches!(instruction.op, Op::Store { hook: Some(7), .. }));
    }

    #[test]
    fn malformed_lines_are_told() {
        for (text, due) in [
            ("registers r16=reg:0", "a register is r0=OPERAND to r15=OPERAND, not 'r16=reg:0'"),
            ("registers 1=reg:0", "a register is r0=OPERAND to r15=OPERAND, not '1=reg:0'"),
            ("registers r1=imm:0", "no register holds 'imm:0'"),
            ("run", "the instruction is missing"),
            ("run jump r1", "no instruction is named 'jump'"),
            ("run load heap", "the source is missing"),
            ("run load heap r65536 r1 r2", "the source is rN, imm:N or form:CODE, not 'r65536'"),
            ("run load heap reg:1 r1 r2", "the source is rN, imm:N or form:CODE, not 'reg:1'"),
            ("run load heap imm:65536 r1 r2", "an immediate is 0 to 65535, not '65536'"),
            ("run load_static r1 form:1 r2", "other forms begin at 131072, and 'form:1' is none"),
            ("run store heap r1 r2 r3", "the second output is missing"),
            ("run load_static r1 r2 r3 hook=0", "only a store has a hook"),
            ("run store_static r1 r2 r3 r4 inc user", "'user' is neither inc nor hook=ADDRESS"),
        ] {
            assert_eq!(read(text).err().as_deref(), Some(due), "{text}");
        }
    }
}
