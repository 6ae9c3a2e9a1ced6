//! A dry run in small: writes, a load that pays for growth, a rollback. `Heaps` owns the memory, so no
//! call tests it; a host with buffers of its own takes `Lent`, whose calls do.

use zincpapaya::{
    Area, Capacity, Error, Frame, Heaps, Layout, LoadPlaces, Mode, Outcome, PageId, Registers,
    Source, StorePlaces, Word,
};

fn main() -> Result<(), Error> {
    let layout = Layout {
        static_memory: PageId(1),
        calldata: PageId(4),
        bootloader_heap: PageId(5),
        bootloader_aux: PageId(6),
        base: 64,
        stride: 8,
    };
    let capacity = Capacity { chunks: 16, pages: 4, journal_words: 8 };
    let mut heaps = Heaps::open(layout, capacity, b"transaction")?;

    let (heap, aux) = (layout.bootloader_heap, layout.bootloader_aux);
    heaps.write_u256(heap, 4065, Word::from(7))?;
    let (heap_bound, aux_bound) = (4096, 4096);
    let mut frame = Frame { gas: 10, heap, aux, heap_bound, aux_bound, panicked: false };
    // Register 1 has the address, and register 2 gets the word. The second output is not wanted.
    let mut registers = Registers::default();
    registers.set(1, 4065);
    let source = Source::Register(1);
    let places = LoadPlaces { source, dst0: 2, dst1: 0, increment: false };
    match heaps.load(&mut frame, &mut registers, Area::Heap, places)? {
        Outcome::Running => println!("loaded {:#x}, {} gas left", registers.words()[2], frame.gas),
        other => println!("not loaded: {other:?}"),
    }

    let before = heaps.snapshot()?;
    registers.set(2, Word::from(8));
    let places = StorePlaces { source, value: 2, dst0: 0, dst1: 0, increment: false };
    match heaps.store(&mut frame, &mut registers, Area::Heap, places, Mode::Kernel, None)? {
        Outcome::Running => println!("stored {:#x}", heaps.read_u256(heap, 4065)?),
        other => println!("not stored: {other:?}"),
    }
    heaps.rollback(before)?;
    println!("rolled back to {:#x}", heaps.read_u256(heap, 4065)?);

    if let Err(error) = heaps.write_u256(PageId(3), 0, Word::from(1)) {
        println!("refused with {error}");
    }
    println!("{} of {} chunks in use", heaps.usage().chunks, capacity.chunks);
    heaps.check()?;
    println!("tested once, at the end: the memory is well formed");
    Ok(())
}
