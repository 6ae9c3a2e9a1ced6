//! What the library does where vm2 cannot be asked: it is held to document 01's rules alone.

use std::ops::Range;

use oracle::{form, Answer, Area, Call, Form, Frame, HeapInstruction, Layout, Op};
use zincpapaya::{Capacity, Error, PageId, Usage, Word};

use crate::{
    both::{on_both, Both},
    list::Mismatch,
    model::{self, Model},
    ours::{self, Given, Reply, UNWRITTEN},
    rng::Rng,
    rules::{self, Ending},
};

fn expect<T: PartialEq + std::fmt::Debug>(what: &str, due: T, given: T) -> Result<(), Mismatch> {
    if due == given {
        return Ok(());
    }
    let vm2 = format!("cannot be asked; due is {due:?}");
    Err(Mismatch { what: what.into(), vm2, library: format!("{given:?}") })
}

/// The counts that a memory must report.
pub fn counts(model: &Model) -> Usage {
    let [heap, aux] = model.journals;
    let [chunks, pages, heap_journal, aux_journal] =
        [model.held_chunks(), model.allocated.len() as u64, heap, aux].map(|count| count as u32);
    Usage { chunks, pages, heap_journal, aux_journal }
}

/// A range read whose output has another length is refused with 8, and puts nothing out.
pub fn outputs_of_wrong_lengths(
    both: &mut Both,
    page: PageId,
    range: Range<u32>,
) -> Result<(), Mismatch> {
    let length = range.len();
    for wrong in [Some(length + 1), length.checked_sub(1)].into_iter().flatten() {
        let mut output = vec![UNWRITTEN; wrong];
        let refused = on_both!(both => read_range_into(page, range.clone(), &mut output));
        let untouched = output.iter().all(|byte| *byte == UNWRITTEN);
        let what = format!("a range read into {wrong} bytes");
        expect(&what, (Err(Error::Range.into()), true), (refused, untouched))?;
    }
    Ok(())
}

/// A call that would take vm2 more memory than there is, or that it has not. The library answers on
/// a copy, since vm2's memory stays behind. Tells what was looked at, if anything.
pub fn not_run(both: &Both, model: &Model, call: &Call) -> Result<Option<&'static str>, Mismatch> {
    match *call {
        Call::Chunk { .. } => {
            let due = Reply::Answer(Answer::Bytes(vec![0; 256]).into());
            expect("a chunk past the last", due, answer_on_copy(both, call).1)?;
            Ok(Some("chunks past the last"))
        }
        Call::Decode { page } => {
            let given = answer_on_copy(both, call).1;
            let due = Answer::Decoded(model::place(&model.layout, page));
            expect("a decode of a far page", Reply::Answer(due.into()), given)?;
            Ok(Some("far pages decoded"))
        }
        Call::Deallocate { .. } => {
            let (copy, given) = answer_on_copy(both, call);
            let unchanged = copy.has_the_numbers_of(both);
            expect("a free of a far page", (Reply::Refused(7), true), (given, unchanged))?;
            Ok(Some("far pages not freed"))
        }
        Call::Instruction { frame, ref instruction } => {
            instruction_not_run(both, model, call, &frame, instruction)
        }
        _ => far_write(both, model, call),
    }
}

fn instruction_not_run(
    both: &Both,
    model: &Model,
    call: &Call,
    frame: &Frame,
    run: &HeapInstruction,
) -> Result<Option<&'static str>, Mismatch> {
    if let Op::Store { area: Area::Aux, hook: Some(_) } = run.op {
        aux_hook(both, call, frame)?;
        return Ok(Some("aux stores with a hook"));
    }
    if let Some(twin) = without_erasure(run) {
        erased_value(both, call, *frame, &twin)?;
        return Ok(Some("stores of a pointer outside kernel mode"));
    }
    far_write(both, model, call)
}

fn answer_on_copy(both: &Both, call: &Call) -> (Both, Reply) {
    let mut copies = [both.clone(), both.clone()];
    let reply = ours::answer(&mut copies, 0, call, false);
    let [copy, _] = copies;
    (copy, reply)
}

/// A write to a group that vm2 is not let allocate.
fn far_write(both: &Both, model: &Model, call: &Call) -> Result<Option<&'static str>, Mismatch> {
    let Some(writes) = model.writes(call) else { return Ok(None) };
    let (mut copy, given) = answer_on_copy(both, call);
    if hook_value_too_great(model, call) {
        let unchanged = copy.has_the_numbers_of(both);
        expect("a hook on a far page", (Reply::Refused(15), true), (given, unchanged))?;
        return Ok(Some("far pages not written"));
    }
    expect("a write to a far page", true, matches!(given, Reply::Answer(_)))?;
    let mut after = model.clone();
    after.carry_out(call);
    let due = Ok((counts(&after), after.dynamic_len));
    expect("counts after a write to a far page", due, copy.counts())?;
    let page = model.layout.id(writes.place).expect("a page that was written has an id");
    if let [Ok(start), Ok(end)] = [writes.start, writes.start + writes.length].map(u32::try_from) {
        let given = on_both!(copy => read_range_big_endian(PageId(page), start..end));
        expect("the bytes of a far page", Ok(bytes_of(call)), given)?;
    }
    Ok(Some("far pages written"))
}

/// Whether the call is a store that its hook would stop with a value of more than 32 bits.
fn hook_value_too_great(model: &Model, call: &Call) -> bool {
    match call {
        Call::Instruction { frame, instruction } => {
            rules::due(&model.layout, frame, instruction).ending == Ending::Refused(15)
        }
        _ => false,
    }
}

/// The bytes that a call writes.
fn bytes_of(call: &Call) -> Vec<u8> {
    let word = |value: &oracle::Word| Word(value.0).to_big_endian().to_vec();
    match call {
        Call::WriteU256 { value, .. } => word(value),
        Call::Instruction { instruction, .. } => word(&rules::value(instruction)),
        Call::WriteBytes { bytes, .. } | Call::AllocateWithContentAt { content: bytes, .. } => {
            bytes.clone()
        }
        _ => Vec::new(),
    }
}

/// A hook on the aux heap does what it does on the heap, the two areas exchanged.
fn aux_hook(both: &Both, call: &Call, frame: &Frame) -> Result<(), Mismatch> {
    let exchanged = |frame: &Frame| Frame {
        gas: frame.gas,
        heap: frame.aux,
        aux: frame.heap,
        heap_bound: frame.aux_bound,
        aux_bound: frame.heap_bound,
    };
    let mut twin = call.clone();
    if let Call::Instruction { frame: other, instruction } = &mut twin {
        *other = exchanged(frame);
        if let Op::Store { area, .. } = &mut instruction.op {
            *area = Area::Heap;
        }
    }
    let (copy, mut given) = answer_on_copy(both, call);
    if let Reply::Answer(Given { answer: Answer::Ran(left, _) | Answer::EraPanic(left), .. }) =
        &mut given
    {
        left.frame = exchanged(&left.frame);
    }
    let (other, due) = answer_on_copy(both, &twin);
    expect("an aux store with a hook", due, given)?;
    expect("what it wrote", true, copy.has_the_numbers_of(&other))
}

/// The same store in kernel mode, whose value is the erased word, in a register that the store has no
/// other use for; and the number of that register. None where nothing is erased.
fn without_erasure(run: &HeapInstruction) -> Option<(HeapInstruction, usize)> {
    if !run.op.stores() || run.kernel || !rules::takes(run) {
        return None;
    }
    let (word, tagged) = run.registers.get(run.places.value as usize);
    let places = run.places;
    let used = [places.source, places.value, places.dst0, places.dst1].map(form);
    let spare = (1..16).find(|number| !used.contains(&Form::Register(*number)))?;
    let mut twin = HeapInstruction { kernel: true, ..*run };
    twin.registers.put(spare.into(), rules::erased(word), true);
    twin.places.value = spare.into();
    tagged.then_some((twin, spare.into()))
}

/// A store that erases its value does what the store of the erased word does. vm2's function that
/// erases is not at hand, so what it takes from a word is the rule's alone.
fn erased_value(
    both: &Both,
    call: &Call,
    frame: Frame,
    (twin, spare): &(HeapInstruction, usize),
) -> Result<(), Mismatch> {
    let (copy, given) = answer_on_copy(both, call);
    let (other, mut due) = answer_on_copy(both, &twin.on(frame));
    if let (
        Reply::Answer(Given { answer: Answer::Ran(left, _) | Answer::EraPanic(left), .. }),
        Call::Instruction { instruction, .. },
    ) = (&mut due, call)
    {
        let (word, tagged) = instruction.registers.get(*spare);
        left.registers.put(*spare, word, tagged);
    }
    expect("a store of a pointer outside kernel mode", due, given)?;
    expect("what it wrote", true, copy.has_the_numbers_of(&other))
}

/// Instructions on a memory that is not well formed: 3 comes before all else, and frame and registers
/// stay. Only a lent memory can be so.
pub fn on_damaged(both: &mut Both, frame: &Frame, run: &HeapInstruction) -> Result<(), Mismatch> {
    let entered = (ours::our_frame(frame, false), ours::our_registers(&run.registers));
    let (mut frame, mut registers) = entered;
    let refused = ours::put(&mut both.lend(), &mut frame, &mut registers, run);
    let given = (refused, (frame, registers));
    expect("an instruction on a damaged memory", (Err(Error::NotFormed), entered), given)
}

/// Refusals of openings and comparisons: vm2 has none of them.
pub fn extras(rng: &mut Rng, layout: &Layout, both: &Both) -> Result<(), Mismatch> {
    bad_openings(rng, layout)?;
    let mut copy = both.clone();
    let too_long = vec![1; 256 * both.owned.capacity().chunks as usize + 1];
    let refused = copy.reopen(both.owned.layout(), &too_long);
    let given = (refused, copy.has_the_numbers_of(both));
    expect("an opening with too much calldata", (Err(Error::NoChunk.into()), true), given)?;

    let mut other = ours::layout(layout);
    other.base ^= 1 + rng.below32(7);
    let refused = copy.reopen(other, &[]).and_then(|()| both.equal(&copy));
    expect("a comparison of two layouts", Err(Error::Layout.into()), refused)
}

/// Layouts and counts around their bounds.
fn bad_openings(rng: &mut Rng, layout: &Layout) -> Result<(), Mismatch> {
    let mut tried = ours::layout(layout);
    match rng.below(6) {
        0 => tried.static_memory = tried.bootloader_aux,
        1 => tried.calldata = tried.bootloader_heap,
        2 => tried.stride = rng.below32(6),
        _ => {}
    }
    let capacity = Capacity {
        chunks: rng.pick(&[0, 1, 2, 65_537, u32::MAX]),
        pages: rng.pick(&[0, 1, 2, 4_097, u32::MAX]),
        journal_words: rng.pick(&[0, 1, 2, 65_537, u32::MAX]),
    };
    let fixed = [tried.static_memory, tried.calldata, tried.bootloader_heap, tried.bootloader_aux];
    let twice = (1..4).any(|at| fixed[..at].contains(&fixed[at]));
    let due = if twice || tried.stride < 4 {
        Some(Error::Layout)
    } else if !(1..=65_536).contains(&capacity.chunks)
        || !(1..=4_096).contains(&capacity.pages)
        || capacity.journal_words > 65_536
    {
        Some(Error::Sizes)
    } else {
        None
    };
    expect("an opening", due.map(Reply::from), Both::open(tried, capacity, &[]).err())
}
