//! What was counted in a run.

use std::{collections::BTreeMap, fmt};

use lines::spell;
use oracle::{Answer, Call, HeapInstruction};

use crate::{
    bytes_read::ReadCounts,
    charges::Run,
    model::LAST_ADDRESS,
    pool,
    rules::{Ending, Panic},
};

#[derive(Default)]
pub struct Tally {
    /// Calls that vm2, the owned memory and the lent one answered.
    pub calls: u64,
    pub lists: u64,
    /// Of these calls, by name: how many, and how many of them were carried out.
    names: BTreeMap<&'static str, (u64, u64)>,
    carried_out: u64,
    panics: u64,
    /// Refusals, by number.
    refusals: BTreeMap<u8, u64>,
    /// Refusals for want of room, which are not put to vm2, by number.
    pub no_room: BTreeMap<u8, u64>,
    /// Checks of the library alone, by what they are about.
    pub alone: BTreeMap<&'static str, u64>,
    pub quotes: QuoteCounts,
    pub runs: RunCounts,
    pub registers: RegisterCounts,
    pub reads: ReadCounts,
    /// By the chunks of the memory.
    pub pools: BTreeMap<u32, pool::Counts>,
    /// Looks at all that a memory holds, on both sides.
    pub looks: u64,
    /// Chunks compared byte by byte, and journalled words.
    pub chunks: u64,
    pub words: u64,
}

/// Quotes that were compared with vm2's loads.
#[derive(Default)]
pub struct QuoteCounts {
    all: u64,
    /// Loads that both sides answered for them.
    pub loads: u64,
    /// Quotes that end at a panic, and those of them that end at an address above the operand limit.
    panics: u64,
    high: u64,
}

impl QuoteCounts {
    /// Counts a quote; `last` is the address whose access panics, if one does.
    pub fn count(&mut self, last: Option<&u32>) {
        self.all += 1;
        self.panics += u64::from(last.is_some());
        self.high += u64::from(last.is_some_and(|address| *address > LAST_ADDRESS));
    }
}

/// Runs of loads and stores whose charges were added up. Those of quotes are not counted.
#[derive(Debug, Default, PartialEq)]
pub struct RunCounts {
    pub accesses: u64,
    /// Accesses that were given the frame that the last one left.
    pub handed_on: u64,
    /// Runs of two accesses or more. What follows is counted in these.
    pub long: u64,
    pub longest: u64,
    /// Runs that accessed both areas.
    pub both_areas: u64,
    /// Accesses with a charge above 0, and stops on the hook.
    pub paid: u64,
    pub stops: u64,
}

impl RunCounts {
    /// Counts a run that has ended, if one has.
    pub fn count(&mut self, ended: Option<Run>) {
        let Some(run) = ended else { return };
        self.accesses += run.accesses;
        if run.accesses > 1 {
            self.handed_on += run.accesses - 1;
            self.long += 1;
            self.longest = self.longest.max(run.accesses);
            self.both_areas += u64::from(run.has_both_areas());
            self.paid += run.paid;
            self.stops += run.stops;
        }
    }

    fn add(&mut self, other: &Self) {
        self.accesses += other.accesses;
        self.handed_on += other.handed_on;
        self.long += other.long;
        self.longest = self.longest.max(other.longest);
        self.both_areas += other.both_areas;
        self.paid += other.paid;
        self.stops += other.stops;
    }
}

impl fmt::Display for RunCounts {
    fn fmt(&self, out: &mut fmt::Formatter<'_>) -> fmt::Result {
        let Self { accesses, handed_on, long, longest, both_areas, paid, stops } = self;
        writeln!(
            out,
            "{accesses} loads and stores whose charges were added up, on both sides: {handed_on} were \
             given the frame that the last one left"
        )?;
        writeln!(
            out,
            "{long} runs of two or more, the longest of {longest}, {both_areas} of them in both areas: \
             {paid} charges above 0, {stops} stops on the hook"
        )
    }
}

/// Instructions after which all registers were compared, by name and ending. Those that are refused for
/// want of room are not put to vm2.
#[derive(Default)]
pub struct RegisterCounts {
    classes: BTreeMap<(&'static str, Ending), Class>,
}

#[derive(Default)]
struct Class {
    calls: u64,
    /// The second outputs that were met beside each first one, as a set of bits: with an increment, and
    /// without.
    pairs: [[u16; 16]; 2],
}

/// Pairs of outputs, with an increment and without.
pub const PAIRS: u32 = 2 * 16 * 16;

impl Class {
    fn met(&self) -> u32 {
        self.pairs.as_flattened().iter().map(|set| set.count_ones()).sum()
    }

    fn add(&mut self, other: &Self) {
        self.calls += other.calls;
        let sets = self.pairs.as_flattened_mut().iter_mut();
        sets.zip(other.pairs.as_flattened()).for_each(|(set, more)| *set |= more);
    }
}

impl RegisterCounts {
    pub fn count(&mut self, call: &Call, run: &HeapInstruction, ending: Ending) {
        let class = self.classes.entry((spell::name(call), ending)).or_default();
        class.calls += 1;
        let [dst0, dst1] = [run.places.dst0, run.places.dst1].map(|code| code as usize);
        if dst0 < 16 && dst1 < 16 {
            class.pairs[usize::from(!run.increment)][dst0] |= 1 << dst1;
        }
    }

    /// How many pairs of outputs each class has met.
    #[cfg(test)]
    pub fn met(&self) -> BTreeMap<(&'static str, Ending), u32> {
        self.classes.iter().map(|(class, counts)| (*class, counts.met())).collect()
    }

    fn add(&mut self, other: &Self) {
        for (class, counts) in &other.classes {
            self.classes.entry(*class).or_default().add(counts);
        }
    }
}

impl fmt::Display for RegisterCounts {
    fn fmt(&self, out: &mut fmt::Formatter<'_>) -> fmt::Result {
        let all: u64 = self.classes.values().map(|class| class.calls).sum();
        writeln!(
            out,
            "{all} instructions, after each of which all 16 words and flags were compared:"
        )?;
        for ((name, ending), class) in &self.classes {
            let (calls, met) = (class.calls, class.met());
            writeln!(
                out,
                "  {name:<12} {:<26} {calls:>9} calls, {met} of {PAIRS} pairs of outputs",
                ending_name(*ending)
            )?;
        }
        Ok(())
    }
}

fn ending_name(ending: Ending) -> String {
    match ending {
        Ending::Running => "ran".into(),
        Ending::Stopped => "stopped on the hook".into(),
        Ending::Panicked(Panic::Operand) => "panic: operand".into(),
        Ending::Panicked(Panic::Growth) => "panic: growth".into(),
        Ending::Panicked(Panic::Untagged) => "panic: no tag".into(),
        Ending::Panicked(Panic::Offset) => "panic: offset".into(),
        Ending::Refused(number @ 9..=11) => format!("refused {number}, not by vm2"),
        Ending::Refused(number) => format!("refused {number}"),
    }
}

impl Tally {
    /// Counts a call that both sides answered alike.
    pub fn count(&mut self, call: &Call, answer: &Answer) {
        self.calls += 1;
        let (all, carried_out) = self.names.entry(spell::name(call)).or_default();
        *all += 1;
        match answer {
            Answer::RustPanic(panic) => {
                *self.refusals.entry(panic.refusal.unwrap_or_default()).or_default() += 1;
            }
            Answer::EraPanic(_) => self.panics += 1,
            _ => {
                *carried_out += 1;
                self.carried_out += 1;
            }
        }
    }

    pub fn count_alone(&mut self, what: &'static str) {
        *self.alone.entry(what).or_default() += 1;
    }

    pub fn add(&mut self, other: &Self) {
        self.calls += other.calls;
        self.lists += other.lists;
        self.carried_out += other.carried_out;
        self.panics += other.panics;
        self.looks += other.looks;
        self.chunks += other.chunks;
        self.words += other.words;
        self.quotes.all += other.quotes.all;
        self.quotes.loads += other.quotes.loads;
        self.quotes.panics += other.quotes.panics;
        self.quotes.high += other.quotes.high;
        self.runs.add(&other.runs);
        self.registers.add(&other.registers);
        self.reads.add(&other.reads);
        for (chunks, counts) in &other.pools {
            self.pools.entry(*chunks).or_default().add(*counts);
        }
        for (name, (all, carried_out)) in &other.names {
            let sum = self.names.entry(name).or_default();
            *sum = (sum.0 + all, sum.1 + carried_out);
        }
        add_to(&mut self.refusals, &other.refusals);
        add_to(&mut self.no_room, &other.no_room);
        add_to(&mut self.alone, &other.alone);
    }
}

fn add_to<K: Ord + Copy>(sums: &mut BTreeMap<K, u64>, others: &BTreeMap<K, u64>) {
    for (key, count) in others {
        *sums.entry(*key).or_default() += count;
    }
}

/// Keys and counts in one line.
fn counts<K: fmt::Display>(of: &BTreeMap<K, u64>) -> String {
    let items: Vec<_> = of.iter().map(|(key, count)| format!("{key}: {count}")).collect();
    if items.is_empty() {
        "none".into()
    } else {
        items.join(", ")
    }
}

impl fmt::Display for Tally {
    fn fmt(&self, out: &mut fmt::Formatter<'_>) -> fmt::Result {
        for (name, (all, carried_out)) in &self.names {
            writeln!(out, "  {name:<26} {all:>9} calls, {carried_out:>9} carried out")?;
        }
        let refused: u64 = self.refusals.values().sum();
        let Self { carried_out, panics, lists, .. } = self;
        writeln!(
            out,
            "{lists} lists: {carried_out} carried out, {panics} panics, {refused} refused"
        )?;
        writeln!(out, "refused by all: {}", counts(&self.refusals))?;
        writeln!(out, "refused for want of room, not put to vm2: {}", counts(&self.no_room))?;
        writeln!(out, "library alone: {}", counts(&self.alone))?;
        let QuoteCounts { all, loads, panics, high } = self.quotes;
        writeln!(
            out,
            "{all} quotes compared with {loads} loads: {panics} end at a panic, {high} of them at the \
             operand limit"
        )?;
        write!(out, "{}{}{}", self.reads, self.runs, self.registers)?;
        for (chunks, pool::Counts { emptied, refused, taken_again }) in &self.pools {
            writeln!(
                out,
                "  pools of {chunks:>5} chunks: emptied {emptied} times, {refused} refusals 10 then, freed chunks taken \
                 {taken_again} times"
            )?;
        }
        let Self { looks, chunks, words, .. } = self;
        writeln!(
            out,
            "{looks} looks at all that is held: {chunks} chunks, {words} journalled words"
        )
    }
}
