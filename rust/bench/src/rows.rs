//! Which rows there are, and the ratios that they are to keep to.

use crate::{
    chunks, formed, instructions, lent, limits,
    places::{again, thousands, Held, Walk, WORDS},
    table::Table,
    words,
};

const WALKS: [Walk; 3] = [Walk::Sequential, Walk::Random, Walk::TwoChunks];

const HELD: [Held; 6] = [
    Held::by_one_page(1000),
    Held::by_one_page(65_536),
    SMALL_PAGES,
    Held::by_pages(100, 10, 1024),
    Held::by_pages(100, 10, 2048),
    Held::by_pages(100, 655, 65_536),
];

/// Many small pages in a full memory: some of their chunks have lost their hint.
const SMALL_PAGES: Held = Held::by_pages(100, 10, 1000);

/// Pages whose chunks have slots that do not follow each other. No hint is lost.
const IN_TURNS: Held = Held { pages: 100, chunks: 10, room: 2048, in_turns: true };

/// Chunks of memories whose calls test them.
const TESTED: [u32; 4] = [128, 1024, 8192, 65_536];

/// The name of all tables that tell what limits slow rows.
const LIMITS: &str = "limits";

pub fn tables() -> Vec<Table> {
    vec![
        of_words(),
        of_instructions(),
        of_chunks(),
        of_the_test(),
        of_checked_calls(),
        of_bare_reads(),
        of_fewer_places(),
        of_lost_hints(),
        of_the_harness(),
    ]
}

fn of_words() -> Table {
    let mut table = Table::new("words", "word calls", ["vm2", "ours"]);
    for walk in WALKS {
        let two = walk == Walk::TwoChunks;
        for held in HELD {
            let aim = Some(if two { 1.1 } else { 0.8 });
            table.add(format!("word read, {walk}, {held}"), aim, move || words::reads(held, walk));
        }
        for held in HELD {
            let aim = Some(if two { 1.1 } else { 0.6 });
            table
                .add(format!("word write, {walk}, {held}"), aim, move || words::writes(held, walk));
        }
    }
    let (held, walk) = (IN_TURNS, Walk::TwoChunks);
    let name = format!("word read, {walk}, {held}");
    table.add(name, Some(1.1), move || words::reads(held, walk));
    let name = format!("word write, {walk}, {held}");
    table.add(name, Some(1.1), move || words::writes(held, walk));
    table
}

fn of_instructions() -> Table {
    let mut table = Table::new("instructions", "instructions", ["vm2's handler", "ours"]);
    for walk in WALKS {
        for chunks in [1000, 65_536] {
            let label = format!("{walk}, {} chunks", thousands(chunks));
            let name = format!("load, {label}");
            table.add(name, Some(1.0), move || instructions::loads(chunks, walk));
            let name = format!("store, {label}");
            table.add(name, Some(1.0), move || instructions::stores(chunks, walk));
        }
    }
    table
}

fn of_chunks() -> Table {
    let mut table = Table::new("chunks", "other calls", ["vm2", "ours"]);
    for chunks in [1000, 65_536] {
        let label = format!("{} chunks", thousands(chunks));
        let name = format!("journalled word write, {label}");
        table.add(name, Some(0.8), move || chunks::journalled_writes(chunks));
        let name = format!("byte write of 4 KiB, {label}");
        table.add(name, Some(0.5), move || chunks::byte_writes(chunks));
        let name = format!("range read of 4 KiB, {label}");
        table.add(name, Some(1.0), move || chunks::range_reads(chunks));
        let name = format!("rollback of 1,000 words, {label}");
        table.add(name, Some(0.5), move || chunks::rollbacks(chunks));
        let others = chunks - 256;
        let label = format!("beside {}", thousands(others));
        let name = format!("free of 256 chunks, highest page, {label}");
        table.add(name, Some(1.0), move || chunks::frees(others, false));
        let name = format!("free of 256 chunks, lowest page, {label}");
        table.add(name, None, move || chunks::frees(others, true));
        let label = format!("{} in all", thousands(chunks));
        let name = format!("fresh chunk, vm2 has one in its pool, {label}");
        table.add(name, Some(1.3), move || chunks::pooled(chunks, 1));
        let name = format!("word over two fresh chunks, vm2 has them in its pool, {label}");
        table.add(name, None, move || chunks::pooled(chunks, 2));
        let name =
            format!("byte write of 4 KiB to fresh chunks, vm2 has them in its pool, {label}");
        table.add(name, None, move || chunks::pooled_blocks(chunks));
        let name = format!("fresh chunk, vm2 allocates, {label}");
        table.add(name, None, move || chunks::allocated(chunks));
    }
    for (first, pooled) in [(false, "a few of the last"), (true, "these and the first")] {
        let name =
            format!("two chunks taken and freed in turns, 65,536 in all, {pooled} in our pool");
        table.add(name, None, move || chunks::turns(65_536, first));
    }
    table
}

fn of_the_test() -> Table {
    let mut table =
        Table::new("formed", "the test", ["one scan of the bytes", "well-formedness test"]);
    for chunks in TESTED {
        for held in [0, chunks / 2, chunks] {
            let name = format!("test, {} chunks, {} held", thousands(chunks), thousands(held));
            table.add(name, Some(1.25), move || formed::tests(chunks, held));
        }
    }
    table
}

fn of_checked_calls() -> Table {
    let mut table = Table::new("checked", "checked calls", ["vm2", "checked call"]);
    for chunks in TESTED {
        let label = format!("{} chunks", thousands(chunks));
        let name = format!("checked word read, {label}");
        table.add(name, None, move || lent::reads(chunks));
        let name = format!("checked word write, {label}");
        table.add(name, None, move || lent::writes(chunks));
        let name = format!("checked byte write of 4 KiB, {label}");
        table.add(name, None, move || lent::byte_writes(chunks));
        let name = format!("checked rollback of 100 words, {label}");
        table.add(name, None, move || lent::rollbacks(chunks));
    }
    table
}

/// How much of a word read is the wait for memory.
fn of_bare_reads() -> Table {
    let mut table = Table::new(LIMITS, "bare reads", ["bare reads of memory", "our word read"]);
    for walk in WALKS {
        for chunks in [1000, 65_536] {
            let name = format!("bare reads, {walk}, {} chunks", thousands(chunks));
            table.add(name, None, move || limits::bare_reads(chunks, walk));
        }
    }
    table
}

/// The same calls on the same memory, at more or fewer places.
fn of_fewer_places() -> Table {
    let mut table = Table::new(LIMITS, "fewer places", ["vm2", "ours"]);
    let held = Held::by_one_page(65_536);
    let all = [1000, 5000, WORDS];
    for places in all {
        let name = format!("word read, random, {held}, {} places", thousands(places));
        table.add(name, None, move || words::reads_at(held, again(places, held, Walk::Random)));
    }
    for places in all {
        let name = format!("store, over two chunks, {held}, {} places", thousands(places));
        table.add(name, None, move || {
            instructions::stores_at(held, again(places, held, Walk::TwoChunks))
        });
    }
    table
}

/// What a lost hint costs.
fn of_lost_hints() -> Table {
    let mut table = Table::new(LIMITS, "lost hints", ["with a hint", "without a hint"]);
    let name = format!("lost hints, word read, {SMALL_PAGES}");
    table.add(name, None, || limits::reads_without_hint(SMALL_PAGES));
    let name = format!("lost hints, word write, {SMALL_PAGES}");
    table.add(name, None, || limits::writes_without_hint(SMALL_PAGES));
    table
}

/// How much of vm2's side of the instructions is not the access. It is the same for all addresses.
fn of_the_harness() -> Table {
    let mut table = Table::new(LIMITS, "the harness", ["no-op handler", "vm2's handler"]);
    table.add("harness of a load".into(), None, instructions::harness_of_loads);
    table.add("harness of a store".into(), None, instructions::harness_of_stores);
    table
}
