//! One list of calls, put to vm2 and to the library side by side: to a memory that is owned, and to one
//! that is lent.

use lines::show;
use oracle::{catch, Answer, Bank, Call, Chunk, Frame, HeapInstruction, Left, View, Word};
use zincpapaya::{Capacity, PageId};

use crate::{
    alone,
    both::{on_both, Both},
    bytes_read,
    charges::Sides,
    list::{Finding, Handed, List, Mismatch, Step},
    model::{Model, CHUNK},
    ours::{self, Reply},
    pool::Fill,
    rules::{self, Access, Due, Ending},
    tally::Tally,
};

/// What answers a call for the library: the library, or in a test something wrong.
pub type Library = fn(&mut [Both; 2], usize, &Call, bool) -> Reply;

/// Two memories on each side, and what they must hold.
pub struct Pair<'a> {
    bank: &'a mut dyn Bank,
    library: Library,
    tally: &'a mut Tally,
    ours: [Both; 2],
    /// The library's memories before the latest call that may change one.
    before: [Both; 2],
    models: [Model; 2],
    /// Whether a memory may have changed since all that it holds was looked at.
    changed: [bool; 2],
    /// What loads and stores pay, on each side.
    sides: Sides,
    /// The frame that the latest instruction left; none before the first, and after a panic.
    left: Option<Handed>,
    /// How full the pools of the library's memories are.
    fills: [Fill; 2],
}

/// When all that both sides hold is looked at, besides the end of a list.
#[derive(Clone, Copy, PartialEq)]
pub enum Looks {
    /// After every call that may have changed something.
    Always,
    /// After so many calls, and whenever the library refuses for want of room.
    Every(usize),
    /// Only at the end: vm2 holds so much that a look takes seconds.
    AtTheEnd,
}

/// Puts calls to both sides until there are no more. `next` is shown what the memories must hold, and
/// the frame that the latest instruction left.
pub fn run(
    bank: &mut dyn Bank,
    tally: &mut Tally,
    list: List,
    looks: Looks,
    next: impl FnMut(&[Model; 2], Option<Handed>) -> Option<Step>,
) -> Result<Vec<Both>, Box<Finding>> {
    run_by(ours::answer, bank, tally, list, looks, next)
}

/// The same, where `library` answers for the library.
pub fn run_by(
    library: Library,
    bank: &mut dyn Bank,
    tally: &mut Tally,
    list: List,
    looks: Looks,
    mut next: impl FnMut(&[Model; 2], Option<Handed>) -> Option<Step>,
) -> Result<Vec<Both>, Box<Finding>> {
    let mut done = List { steps: Vec::new(), ..list };
    let mut pair = Pair { library, ..Pair::start(bank, tally, done.capacities) };
    let mut outcome = Ok(());
    while outcome.is_ok() {
        let Some(step) = next(&pair.models, pair.left) else { break };
        done.steps.push(step);
        let step = done.steps.last().expect("it was just put there");
        outcome = pair.step(step, looks != Looks::AtTheEnd);
        let due = match looks {
            Looks::Always => true,
            Looks::Every(many) => done.steps.len().is_multiple_of(many),
            Looks::AtTheEnd => false,
        };
        if due {
            outcome = outcome.and_then(|()| pair.look());
        }
    }
    outcome = outcome.and_then(|()| pair.look());
    pair.tally.runs.count(pair.sides.end());
    pair.tally.lists += 1;
    match outcome {
        Ok(()) => Ok(pair.ours.into()),
        Err(mismatch) => Err(Box::new(Finding { list: done, mismatch })),
    }
}

/// Puts the calls of a list to both sides.
pub fn rerun(bank: &mut dyn Bank, list: &List, looks: Looks) -> Option<Box<Finding>> {
    let mut steps = list.steps.iter().cloned();
    run(bank, &mut Tally::default(), list.clone(), looks, |_, _| steps.next()).err()
}

impl<'a> Pair<'a> {
    /// Opens two memories on each side.
    fn start(bank: &'a mut dyn Bank, tally: &'a mut Tally, capacities: [Capacity; 2]) -> Self {
        for at in 0..2 {
            bank.answer(at, &Call::Open { calldata: Vec::new() });
        }
        let layout = bank.layout();
        let open = |capacity| {
            Both::open(ours::layout(&layout), capacity, &[]).expect("a layout and its counts")
        };
        let ours = capacities.map(open);
        let models = [0, 1].map(|_| Model::new(layout));
        let (before, changed, sides) = (ours.clone(), [true; 2], Sides::default());
        let fills = capacities.map(|capacity| Fill::new(capacity.chunks));
        let library = ours::answer;
        Self { bank, library, tally, ours, before, models, changed, sides, left: None, fills }
    }

    fn step(&mut self, step: &Step, look_before_refusal: bool) -> Result<(), Mismatch> {
        let (at, call) = (step.memory, &step.call);
        if call.changes() {
            self.before[at].clone_from(&self.ours[at]);
        }
        if let Some(number) = self.models[at].no_room(call, self.ours[at].owned.capacity()) {
            if look_before_refusal {
                // What the refusal rests on is vm2's state.
                self.look_at(at)?;
            }
            return self.refused_for_want_of_room(step, number);
        }
        let theirs = self.bank.answer(at, call);
        if let Answer::NotRun(_) = theirs {
            let what = alone::not_run(&self.ours[at], &self.models[at], call)?;
            what.into_iter().for_each(|what| self.tally.count_alone(what));
            return Ok(());
        }
        let ours = self.answer(step);
        if !ours.agrees_with(&theirs) {
            let (vm2, library) = (show::answer(&theirs), shown(&ours));
            return Err(Mismatch { what: "the answers differ".into(), vm2, library });
        }
        self.bytes_counted(step, &theirs, &ours)?;
        self.tally.count(call, &theirs);
        if let Call::Instruction { frame, instruction } = call {
            let ending = self.by_the_rules(at, frame, instruction, &theirs)?;
            self.tally.registers.count(call, instruction, ending);
        }
        self.hand_on(step, &theirs, &ours)?;
        let carried_out = !matches!(theirs, Answer::RustPanic(_) | Answer::EraPanic(_));
        if call.changes() {
            if carried_out {
                self.models[at].carry_out(call);
            }
            self.changed[at] = true;
            self.counts_of_vm2(at)?;
        }
        self.after(step, carried_out, None)
    }

    /// The library's answer. A panic of its crate, which has none for any answer of the header's, is
    /// wrong by itself.
    fn answer(&mut self, step: &Step) -> Reply {
        let (memories, library) = (&mut self.ours, self.library);
        let answered = catch(|| library(memories, step.memory, &step.call, step.marked));
        answered.unwrap_or_else(|panic| Reply::Wrong(panic.message))
    }

    /// Compares the library's number of bytes from the range with the one that is due.
    fn bytes_counted(
        &mut self,
        step: &Step,
        theirs: &Answer,
        ours: &Reply,
    ) -> Result<(), Mismatch> {
        let (due, given) = (bytes_read::due(&step.call, theirs), ours.bytes_read());
        if due != given {
            let [due, library] = [due, given].map(number_of_bytes);
            let vm2 = format!("tells none; by the call's arguments {due}");
            let what = "how many bytes of the word come from the range".into();
            return Err(Mismatch { what, vm2, library });
        }
        self.tally.reads.count(&self.models[step.memory], &step.call, theirs);
        Ok(())
    }

    /// Holds vm2's answer to the rules: how the instruction ended, its frame, and every register with
    /// its flag. The word of a load is what vm2 reads there.
    fn by_the_rules(
        &mut self,
        at: usize,
        frame: &Frame,
        run: &HeapInstruction,
        theirs: &Answer,
    ) -> Result<Ending, Mismatch> {
        let due @ Due { ending, stop, .. } = rules::due(&self.bank.layout(), frame, run);
        let read = due.access.filter(|_| !run.op.stores());
        let word = read.map_or(Word::default(), |access| self.word_at(at, access));
        let registers = rules::registers_after(run, ending, word);
        let left = Left { frame: due.frame, registers };
        let agrees = match (ending, theirs) {
            (Ending::Running | Ending::Stopped, Answer::Ran(given, stopped)) => {
                (**given, *stopped) == (left, stop)
            }
            (Ending::Panicked(_), Answer::EraPanic(given)) => **given == left,
            (Ending::Refused(number), Answer::RustPanic(panic)) => panic.refusal == Some(number),
            _ => false,
        };
        if agrees {
            return Ok(ending);
        }
        let library = format!("not asked; by the rules {ending:?}, {stop:?}, {left:?}");
        let what = "an instruction, and what the rules say of it".into();
        Err(Mismatch { what, vm2: show::answer(theirs), library })
    }

    fn word_at(&mut self, at: usize, Access { page, start, end }: Access) -> Word {
        match self.bank.answer(at, &Call::ReadU256Partially { page, start, end }) {
            Answer::Word(word) => word,
            answer => unreachable!("a read of at most 32 bytes: {answer:?}"),
        }
    }

    fn refused_for_want_of_room(&mut self, step: &Step, number: u8) -> Result<(), Mismatch> {
        let ours = self.answer(step);
        if ours != Reply::Refused(number) {
            let vm2 = format!("not asked: by what it holds, refusal {number} is due");
            let what = "a refusal for want of room".into();
            return Err(Mismatch { what, vm2, library: shown(&ours) });
        }
        *self.tally.no_room.entry(number).or_default() += 1;
        if let Call::Instruction { instruction, .. } = &step.call {
            self.tally.registers.count(&step.call, instruction, Ending::Refused(number));
        }
        self.left = step.given().or(self.left);
        self.after(step, false, Some(number))
    }

    /// Keeps the frame that an instruction leaves, and checks on each side that growth adds up.
    fn hand_on(&mut self, step: &Step, theirs: &Answer, ours: &Reply) -> Result<(), Mismatch> {
        let Some(given) = step.given() else { return Ok(()) };
        self.left = match theirs {
            Answer::Ran(left, _) => Some(Handed { frame: left.frame, ..given }),
            Answer::EraPanic(_) => None,
            // It was refused.
            _ => Some(given),
        };
        let ended = self.sides.answered(step, theirs, ours)?;
        self.tally.runs.count(ended);
        Ok(())
    }

    /// What must hold after every call: the library's counts are right, the chunks that it took were the
    /// lowest of its pool, and a memory whose call was not carried out is as it was, to the last number of
    /// its buffers.
    fn after(
        &mut self,
        step: &Step,
        carried_out: bool,
        no_room: Option<u8>,
    ) -> Result<(), Mismatch> {
        let (at, call) = (step.memory, &step.call);
        let unchanged = || self.ours[at].has_the_numbers_of(&self.before[at]);
        if !carried_out && call.changes() && !unchanged() {
            return Err(Mismatch {
                what: "a call that was not carried out changed the library's buffers".into(),
                vm2: "nothing changes".into(),
                library: "another content".into(),
            });
        }
        if let Call::ReadRangeBigEndian { page, start, end } = *call {
            alone::outputs_of_wrong_lengths(&mut self.ours[at], PageId(page), start..end)?;
            self.tally.count_alone("range reads with an output of a wrong length");
        }
        let model = &self.models[at];
        let (due, given) = ((alone::counts(model), model.dynamic_len), self.ours[at].counts());
        if given.as_ref() != Ok(&due) {
            let (vm2, library) = (format!("{due:?}"), format!("{given:?}"));
            return Err(Mismatch { what: "the counts after the call".into(), vm2, library });
        }
        let opened = carried_out && matches!(call, Call::Open { .. });
        if call.changes() && !opened && !self.ours[at].took_the_lowest(&self.before[at]) {
            return Err(Mismatch {
                what: "the chunks that the call took".into(),
                vm2: "not asked: the library takes its lowest ones".into(),
                library: "lower ones are left".into(),
            });
        }
        if let Some((chunks, counts)) = self.fills[at].after(model.held_chunks(), opened, no_room) {
            self.tally.pools.entry(chunks).or_default().add(counts);
        }
        Ok(())
    }

    /// Compares vm2's own lengths with what the memory must hold.
    fn counts_of_vm2(&mut self, at: usize) -> Result<(), Mismatch> {
        let model = &self.models[at];
        let [heap, aux] = model.journals;
        let due = [Answer::Snapshot { heap, aux }, Answer::Number(model.dynamic_len)];
        let given = [Call::Snapshot, Call::DynamicLen].map(|call| self.bank.answer(at, &call));
        if given == due {
            return Ok(());
        }
        let [vm2, library] =
            [given, due].map(|pair| pair.map(|item| show::answer(&item)).join(", "));
        Err(Mismatch { what: "vm2's lengths (second: what is due)".into(), vm2, library })
    }

    /// Compares all that both sides hold, of both memories.
    fn look(&mut self) -> Result<(), Mismatch> {
        (0..2).try_for_each(|at| self.look_at(at))
    }

    fn look_at(&mut self, at: usize) -> Result<(), Mismatch> {
        if !std::mem::replace(&mut self.changed[at], false) {
            return Ok(());
        }
        let view = self.bank.view(at);
        self.tally.looks += 1;
        let place = format!("what memory {at} holds");
        if let Some(vm2) = self.models[at].differs_from(&view) {
            let library = "the count by document 01's rules says otherwise".into();
            return Err(Mismatch { what: place, vm2, library });
        }
        if let Err(reply) = self.ours[at].hold_the_same() {
            let vm2 = "not asked: the library has two memories".into();
            return Err(Mismatch { what: place, vm2, library: shown(&reply) });
        }
        let (chunks, words) = held_alike(&mut self.ours[at], &view, &self.bank.layout())
            .map_err(|(vm2, library)| Mismatch { what: place, vm2, library })?;
        self.tally.chunks += chunks;
        self.tally.words += words;
        Ok(())
    }
}

fn number_of_bytes(number: Option<u64>) -> String {
    number.map_or_else(|| "no number".into(), |number| format!("{number} bytes"))
}

fn shown(reply: &Reply) -> String {
    match reply {
        Reply::Answer(given) => show::answer(&given.answer),
        Reply::Refused(number) => format!("refused {number}"),
        Reply::Wrong(what) => format!("wrong by itself: {what}"),
    }
}

/// Compares every held chunk, every allocated page and both journals with vm2's state. Gives the
/// numbers of chunks and of journalled words, or what vm2 has and what the library has.
pub fn held_alike(
    both: &mut Both,
    view: &View,
    layout: &oracle::Layout,
) -> Result<(u64, u64), (String, String)> {
    let mut ours = ours::state(both.owned.buffers(), both.owned.capacity());
    let mut chunks = 0;
    for page in &view.pages {
        let id = layout.id(page.place).expect("an allocated page has an id");
        let dynamic = matches!(page.place, oracle::Place::Dynamic { .. });
        if dynamic && !ours.pages.remove(&id) {
            return Err((format!("page {id} is allocated"), "it is not".into()));
        }
        for chunk in &page.chunks {
            chunks += 1;
            if !ours.held.remove(&(id, chunk.number)) {
                return Err((format!("page {id} holds chunk {}", chunk.number), "not held".into()));
            }
            same_bytes(both, id, chunk)?;
        }
    }
    if !(ours.pages.is_empty() && ours.held.is_empty()) {
        let library = format!("pages {:?}, and chunks {:?}", ours.pages, ours.held);
        return Err(("none of these".into(), library));
    }
    if ours.journals != view.journals {
        let [vm2, library] = [&view.journals, &ours.journals].map(shown_words);
        return Err((vm2, library));
    }
    let words = view.journals.iter().map(|journal| journal.len() as u64).sum();
    Ok((chunks, words))
}

fn same_bytes(both: &mut Both, page: u32, chunk: &Chunk) -> Result<(), (String, String)> {
    let bytes = on_both!(both => chunk(PageId(page), chunk.number))
        .map_err(|reply| ("a chunk".into(), shown(&reply)))?;
    match (0..).zip(bytes.iter().zip(chunk.bytes.iter())).find(|(_, (ours, theirs))| ours != theirs)
    {
        None => Ok(()),
        Some((at, (ours, theirs))) => {
            let address = u64::from(chunk.number) * CHUNK + at;
            Err((format!("byte {address} of page {page} is {theirs:02x}"), format!("{ours:02x}")))
        }
    }
}

fn shown_words(journals: &[Vec<(u32, Word)>; 2]) -> String {
    let words = |journal: &Vec<(u32, Word)>| {
        let words = journal.iter().map(|(address, word)| format!("{address}={word}"));
        words.collect::<Vec<_>>().join(" ")
    };
    format!("journals [{}] and [{}]", words(&journals[0]), words(&journals[1]))
}
