//! Puts lists of calls to vm2's own files and to the linked library, to a memory that is owned and to
//! one that is lent, and compares all that they show. README.md tells how.

mod alone;
mod both;
mod bytes_read;
mod charges;
mod edges;
mod framed;
mod generate;
mod kept;
mod list;
mod model;
mod options;
mod ours;
mod outputs;
mod pair;
mod pool;
mod quotes;
mod rng;
mod rules;
mod scatter;
mod shrink;
mod small;
mod store;
mod tally;
#[cfg(test)]
mod tests;
mod written;

use std::{process::ExitCode, thread, time::Instant};

use oracle::{Bank, LAYOUTS};
use zincpapaya::Capacity;

use crate::{
    both::Both,
    generate::{Generator, Sort},
    list::{Finding, Handed, List, Mismatch, Step},
    model::Model,
    options::Options,
    pair::Looks,
    quotes::Quotes,
    rng::Rng,
    small::Alphabet,
    tally::Tally,
};

/// Lists are shared out to so many threads, by their numbers, so that a run with the same options
/// is the same run on any machine.
const SHARDS: u64 = 2;

/// The memories of one thread, and what it has counted.
struct Shard {
    number: u64,
    options: Options,
    banks: Vec<(&'static str, Box<dyn Bank>)>,
    tally: Tally,
}

impl Shard {
    fn new(number: u64, options: Options) -> Self {
        let banks = LAYOUTS.map(|name| (name, oracle::bank(name).expect("a listed layout")));
        Self { number, options, banks: banks.into(), tally: Tally::default() }
    }

    /// Compares until this shard's part of the calls is done, or something differs.
    fn run(&mut self) -> Result<(), Box<Finding>> {
        self.edge_lists()?;
        let mut number = self.number;
        let enough = self.tally.calls + self.options.calls.div_ceil(SHARDS);
        while self.tally.calls < enough {
            self.random_list(number)?;
            number += SHARDS;
        }
        if self.options.layout.is_none_or(|layout| layout == small::LAYOUT) {
            small::alphabets().iter().try_for_each(|alphabet| self.small_lists(alphabet))?;
        }
        Ok(())
    }

    /// Document 01's edges, on this shard's part of the layouts.
    fn edge_lists(&mut self) -> Result<(), Box<Finding>> {
        let mine = |at: usize| at as u64 % SHARDS == self.number;
        for (_, (name, bank)) in self.banks.iter_mut().enumerate().filter(|(at, _)| mine(*at)) {
            if self.options.layout.is_some_and(|layout| layout != *name) {
                continue;
            }
            let list = List { layout: name, capacities: [store::CAPACITY; 2], steps: Vec::new() };
            let mut steps = edges::edges(&bank.layout()).into_iter();
            let (looks, next) = (Looks::AtTheEnd, |_: &_, _| steps.next());
            let memories =
                compare_list(bank.as_mut(), &mut self.tally, list.clone(), [looks; 2], next)?;
            Quotes::new(bank.as_mut(), &mut self.tally, &memories)
                .edges(&mut Rng::new(self.options.seed, 0))
                .map_err(|mismatch| after_list(name, &memories, mismatch))?;
            edge_runs(bank.as_mut(), &mut self.tally, list.clone())?;
            counted_reads(bank.as_mut(), &mut self.tally, list)?;
            all_outputs(bank.as_mut(), &mut self.tally, name)?;
            for chunks in pool::SIZES.into_iter().chain([pool::LARGEST]) {
                pool_list(bank.as_mut(), &mut self.tally, name, chunks)?;
            }
        }
        Ok(())
    }

    fn random_list(&mut self, number: u64) -> Result<(), Box<Finding>> {
        let mut rng = Rng::new(self.options.seed, number);
        let sort = match rng.below(1_000) {
            0 | 1 => Sort::Top,
            2 => Sort::Far,
            3..13 => Sort::Large,
            13..43 => Sort::Pool,
            _ => Sort::Light,
        };
        self.list_of(sort, number, rng)
    }

    /// A list of this sort. Its number decides the layout.
    fn list_of(&mut self, sort: Sort, number: u64, mut rng: Rng) -> Result<(), Box<Finding>> {
        let turn = (number / SHARDS) as usize % LAYOUTS.len();
        let layout = self.options.layout.unwrap_or(LAYOUTS[turn]);
        let capacities = [0, 1].map(|_| capacity(&mut rng, sort));
        let (calls, looks) = match sort {
            Sort::Light => (10 + rng.below(90), Looks::Every(1 + rng.below(16) as usize)),
            Sort::Large => (300, Looks::Every(60)),
            Sort::Pool => (40 + rng.below(60), Looks::Every(1 + rng.below(16) as usize)),
            Sort::Top => (80, Looks::AtTheEnd),
            Sort::Far => (40, Looks::AtTheEnd),
        };
        let list = List { layout, capacities, steps: Vec::new() };
        let at = self.banks.iter().position(|(name, _)| *name == layout).expect("a listed layout");
        let bank = self.banks[at].1.as_mut();
        let extra_rng = &mut Rng::new(self.options.seed, !number);
        let hands_on = !rng.one_in(4);
        let generator = Generator::new(rng, bank.layout(), sort, capacities, calls);
        let generator = generator.with_places(Rng::new(!self.options.seed, number));
        let mut generator = if hands_on { generator.handing_on() } else { generator };
        let next = |models: &_, left| generator.next(models, left);
        let closer = if sort.is_dear() { looks } else { Looks::Always };
        let memories = compare_list(bank, &mut self.tally, list, [looks, closer], next)?;
        self.extras(layout, sort, extra_rng, &memories)
    }

    /// What is looked at on the memories that a list has left: quotes, and then the library alone.
    fn extras(
        &mut self,
        layout: &'static str,
        sort: Sort,
        rng: &mut Rng,
        memories: &[Both],
    ) -> Result<(), Box<Finding>> {
        let found = |mismatch| after_list(layout, memories, mismatch);
        let bank = self.banks.iter_mut().find(|(name, _)| *name == layout);
        let bank = bank.expect("a listed layout").1.as_mut();
        let numbers = bank.layout();
        let mut quotes = Quotes::new(bank, &mut self.tally, memories);
        quotes.round(rng).map_err(found)?;
        if !sort.is_dear() && rng.one_in(8) {
            quotes.untouched(&memories[0]).map_err(found)?;
        }
        self.tally.count_alone("rounds of openings and layouts");
        alone::extras(rng, &numbers, &memories[0]).map_err(found)
    }

    /// This shard's part of all short lists over an alphabet.
    fn small_lists(&mut self, alphabet: &Alphabet) -> Result<(), Box<Finding>> {
        let bank = self.banks.iter_mut().find(|(name, _)| *name == small::LAYOUT);
        let bank = bank.expect("a listed layout").1.as_mut();
        for number in (self.number..alphabet.lists()).step_by(SHARDS as usize) {
            let list = alphabet.list(number);
            let mut steps = list.steps.clone().into_iter();
            let looks = [Looks::Every(usize::MAX), Looks::Always];
            compare_list(bank, &mut self.tally, list, looks, |_, _| steps.next())?;
        }
        Ok(())
    }
}

/// Puts a list to both sides. If something differs, the list is made smaller, with the second of the
/// looks.
fn compare_list(
    bank: &mut dyn Bank,
    tally: &mut Tally,
    list: List,
    [looks, closer]: [Looks; 2],
    next: impl FnMut(&[Model; 2], Option<Handed>) -> Option<Step>,
) -> Result<Vec<Both>, Box<Finding>> {
    let compared = pair::run(bank, tally, list, looks, next);
    compared.map_err(|finding| Box::new(shrink::shrink(bank, closer, *finding)))
}

/// The runs that every comparison makes on each layout. No store of theirs is at the top of a page.
fn edge_runs(bank: &mut dyn Bank, tally: &mut Tally, list: List) -> Result<(), Box<Finding>> {
    let next = edges::steps(edges::runs(&bank.layout()));
    compare_list(bank, tally, list, [Looks::Always; 2], next).map(|_| ())
}

/// The partial and pointer reads that every comparison makes on each layout, for their numbers of bytes.
fn counted_reads(bank: &mut dyn Bank, tally: &mut Tally, list: List) -> Result<(), Box<Finding>> {
    let mut steps = bytes_read::steps(&bank.layout()).into_iter();
    compare_list(bank, tally, list, [Looks::Always; 2], |_, _| steps.next()).map(|_| ())
}

/// Every pair of outputs of every instruction, for each way in which it ends.
fn all_outputs(
    bank: &mut dyn Bank,
    tally: &mut Tally,
    layout: &'static str,
) -> Result<(), Box<Finding>> {
    let numbers = bank.layout();
    for case in outputs::cases(&numbers) {
        let list = List { layout, capacities: [case.capacity; 2], steps: Vec::new() };
        let mut steps = case.steps().into_iter();
        let looks = [Looks::Every(512), Looks::Always];
        let mut memories = compare_list(bank, tally, list, looks, |_, _| steps.next())?;
        memories[0].damage();
        for run in case.forms().into_iter().flat_map(outputs::pairs) {
            tally.count_alone("instructions on a damaged memory");
            alone::on_damaged(&mut memories[0], &case.frame, &run)
                .map_err(|mismatch| after_list(layout, &memories, mismatch))?;
        }
    }
    Ok(())
}

/// The list that empties the pool of a memory of so many chunks. vm2 is looked at only at the end where these are many.
fn pool_list(
    bank: &mut dyn Bank,
    tally: &mut Tally,
    layout: &'static str,
    chunks: u32,
) -> Result<(), Box<Finding>> {
    // The second memory is given no call.
    let capacities = [chunks, 1].map(pool::capacity);
    let list = List { layout, capacities, steps: Vec::new() };
    let mut steps = pool::steps(&bank.layout(), chunks).into_iter();
    let looks = if chunks < pool::LARGEST { Looks::Every(8) } else { Looks::AtTheEnd };
    compare_list(bank, tally, list, [looks; 2], |_, _| steps.next()).map(|_| ())
}

/// What differs on the memories that a list has left. The list's calls are not told: quotes and
/// openings do not depend on them. Where a load has changed a memory, the seed repeats it.
fn after_list(layout: &'static str, memories: &[Both], mismatch: Mismatch) -> Box<Finding> {
    let capacities = [memories[0].owned.capacity(), memories[1].owned.capacity()];
    let list = List { layout, capacities, steps: Vec::new() };
    Box::new(Finding { list, mismatch })
}

/// Counts for a memory of the library: so small that most lists meet them, or larger.
fn capacity(rng: &mut Rng, sort: Sort) -> Capacity {
    // The least of each count, and how many values it has.
    let counts = match (sort, rng.below(6)) {
        (Sort::Light, 0 | 1) => [(1, 6), (1, 3), (0, 5)],
        (Sort::Light, 2 | 3) => [(16, 33), (4, 9), (4, 29)],
        (Sort::Light, _) => [(64, 65), (8, 57), (16, 113)],
        (Sort::Large, _) => [(500, 1_500), (30, 200), (100, 900)],
        // A bootloader page can hold all chunks, so that its journal does not keep the pool from being emptied.
        (Sort::Pool, _) => [(rng.pick(&pool::SIZES), 1), (3, 6), (1_100, 1)],
        (Sort::Top | Sort::Far, _) => [(32, 1), (12, 1), (32, 1)],
    };
    let [chunks, pages, journal_words] = counts.map(|(least, many)| least + rng.below32(many));
    Capacity { chunks, pages, journal_words }
}

fn main() -> ExitCode {
    let options = match Options::read(std::env::args().skip(1)) {
        Ok(options) => options,
        Err(fault) => {
            eprintln!("compare: {fault}\n{}", options::USAGE);
            return ExitCode::from(2);
        }
    };
    match &options.store {
        None => compare(&options),
        Some(file) => match store::store(file, options.seed) {
            Ok(calls) => {
                println!("{calls} calls with vm2's answers stored");
                ExitCode::SUCCESS
            }
            Err(fault) => {
                eprintln!("compare: {file}: {fault}");
                ExitCode::from(2)
            }
        },
    }
}

fn compare(options: &Options) -> ExitCode {
    let began = Instant::now();
    let shards: Vec<_> = (0..SHARDS)
        .map(|number| {
            let options = options.clone();
            thread::spawn(move || {
                let mut shard = Shard::new(number, options);
                let finding = shard.run().err();
                (shard.tally, finding.map(|finding| finding.lines()))
            })
        })
        .collect();
    let (mut tally, mut differ) = (Tally::default(), 0);
    for shard in shards {
        let (part, finding) = shard.join().expect("a thread of the comparison ends");
        tally.add(&part);
        if let Some(lines) = finding {
            differ += 1;
            println!("{}\n", lines.join("\n"));
        }
    }
    println!("seed {}, {} seconds", options.seed, began.elapsed().as_secs());
    print!("{tally}");
    println!("each call was put to vm2, to a memory that is owned and to one that is lent");
    println!("{} calls, {differ} differ", tally.calls);
    ExitCode::from(u8::from(differ > 0))
}
