//! A sample of calls with vm2's answers, written to a file: every answer is vm2's own, and every call
//! fits into memories of a stated capacity.

use std::{fs, io};

use oracle::{Answer, Bank, Call, LAYOUTS};
use zincpapaya::Capacity;

use crate::{
    edges::edges,
    generate::{Generator, Sort},
    kept,
    list::Step,
    model::{place, Model},
    ours::LAST_CHUNK,
    rng::Rng,
    written::{held, opening, written, LONGEST},
};

/// The capacity that no list of the sample goes beyond.
pub const CAPACITY: Capacity = Capacity { chunks: 96, pages: 24, journal_words: 128 };

/// Calls of each layout, at least; and of a list.
const CALLS: usize = 1_300;
const LIST: u64 = 60;
/// After so many calls of a list, and at its end, a line tells what the memories hold; only at the
/// end where vm2 holds so much that a look takes long.
const HELD_EVERY: usize = 20;

const HEAD: &str = "\
# Calls with vm2's answers (commit 12acc209b1), written by `rust/compare-run --store`: every answer is vm2's own.
# Memories of 96 chunks, 24 pages and 128 words of each journal have room for all of them.
# rust/README.md describes the lines.";

pub struct Sample<'a> {
    bank: &'a mut dyn Bank,
    models: [Model; 2],
    pub lines: Vec<String>,
    pub calls: usize,
}

/// Writes the sample; gives the number of its calls.
pub fn store(file: &str, seed: u64) -> io::Result<usize> {
    let (mut lines, mut calls) = (vec![format!("{HEAD} Seed {seed}.")], 0);
    for (at, layout) in LAYOUTS.into_iter().enumerate() {
        let mut bank = oracle::bank(layout).expect("a listed layout");
        lines.push(format!("\nt {layout}"));
        let (of_layout, many) = sample(bank.as_mut(), seed.wrapping_add(at as u64));
        lines.extend(of_layout);
        calls += many;
    }
    let mut bank = oracle::bank(kept::LAYOUT).expect("a listed layout");
    lines.push(format!("\n{}", kept::HEAD));
    let (of_registers, many) = kept::sample(bank.as_mut(), seed);
    lines.extend(of_registers);
    calls += many;
    lines.push(String::new());
    fs::write(file, lines.join("\n"))?;
    Ok(calls)
}

/// Lists on one layout: document 01's edges, then random ones; the first two of these are about the top of pages and far groups.
fn sample(bank: &mut dyn Bank, seed: u64) -> (Vec<String>, usize) {
    let steps = edges(&bank.layout());
    let mut list = Sample::start(bank);
    steps.into_iter().for_each(|step| list.step(step));
    list.held();
    let (mut lines, mut calls) = (list.lines, list.calls);
    for number in 0.. {
        let sort = match number {
            0 => Sort::Top,
            1 => Sort::Far,
            _ if calls >= CALLS => break,
            _ => Sort::Light,
        };
        let rng = Rng::new(seed, number);
        let generator = Generator::new(rng, bank.layout(), sort, [CAPACITY; 2], LIST);
        let mut list = Sample::start(bank);
        let held_every = if sort == Sort::Light { HELD_EVERY } else { usize::MAX };
        list.run(generator.with_longest(LONGEST), held_every);
        lines.extend(list.lines);
        calls += list.calls;
    }
    (lines, calls)
}

impl<'a> Sample<'a> {
    pub fn start(bank: &'a mut dyn Bank) -> Self {
        let layout = bank.layout();
        let mut lines = Vec::new();
        for at in 0..2 {
            bank.answer(at, &Call::Open { calldata: Vec::new() });
            lines.extend(opening(at, &layout, &[]));
        }
        let calls = lines.len();
        Self { bank, models: [0, 1].map(|_| Model::new(layout)), lines, calls }
    }

    fn run(&mut self, mut generator: Generator, held_every: usize) {
        let mut many = 0;
        while let Some(step) = generator.next(&self.models, None) {
            self.step(step);
            many += 1;
            if many % held_every == 0 {
                self.held();
            }
        }
        self.held();
    }

    /// Puts a call to vm2 and writes it with its answer, if both have a place in the sample.
    pub fn step(&mut self, Step { memory: at, mut call, .. }: Step) {
        increment(&mut call);
        let Some(answer) = self.ask(at, &call) else { return };
        let not_run = matches!(answer, Answer::NotRun(_));
        let answer = self.whole_chunk(at, &call, answer);
        let line = written(at, &self.bank.layout(), &call, &answer);
        assert!(line.is_some() || !call.changes() || not_run, "a change that cannot be written");
        line.into_iter().for_each(|line| self.push(line));
    }

    /// vm2's answer to a call; none where there is no room for the call.
    pub fn ask(&mut self, at: usize, call: &Call) -> Option<Answer> {
        if self.models[at].no_room(call, CAPACITY).is_some() {
            return None;
        }
        let answer = self.bank.answer(at, call);
        let refused = matches!(answer, Answer::RustPanic(_) | Answer::EraPanic(_));
        let not_run = matches!(answer, Answer::NotRun(_));
        if !refused && !not_run && call.changes() {
            self.models[at].carry_out(call);
        }
        Some(answer)
    }

    /// Writes the line of a call.
    pub fn push(&mut self, line: String) {
        self.lines.push(line);
        self.calls += 1;
    }

    /// Of the last chunk vm2's reads show 31 bytes; the others stand in its state.
    fn whole_chunk(&mut self, at: usize, call: &Call, answer: Answer) -> Answer {
        let (Call::Chunk { page, number: LAST_CHUNK }, Answer::Bytes(bytes)) = (call, &answer)
        else {
            return answer;
        };
        let layout = self.bank.layout();
        let view = self.bank.view(at);
        let page = view.pages.iter().find(|held| Some(held.place) == place(&layout, *page));
        let chunk = page.and_then(|page| page.chunks.iter().find(|held| held.number == LAST_CHUNK));
        let whole = chunk.map_or(vec![0; 256], |chunk| chunk.bytes.to_vec());
        assert!(whole.starts_with(bytes), "vm2's state and its reads are one");
        Answer::Bytes(whole)
    }

    /// Writes what both memories hold in vm2, where that is what document 01 counts.
    pub fn held(&mut self) {
        for at in 0..2 {
            let view = self.bank.view(at);
            let chunks = view.pages.iter().map(|page| page.chunks.len() as u64).sum();
            let [heap, aux] =
                [&view.journals[0], &view.journals[1]].map(|journal| journal.len() as u64);
            if self.models[at].differs_from(&view).is_none() {
                self.push(held(at, [chunks, view.dynamic_len, heap, aux]));
            }
        }
    }
}

/// Every stored instruction tells its incremented operand.
fn increment(call: &mut Call) {
    if let Call::Instruction { instruction, .. } = call {
        instruction.increment = true;
    }
}
