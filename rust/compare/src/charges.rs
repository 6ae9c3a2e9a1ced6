//! What loads and stores pay. Over a run of them, each given the frame that the last one left, the
//! charges of each area sum to its last bound less its first. Each side is followed by its own
//! answers alone: a charge is the gas that was given less the gas that is left.

use oracle::{Answer, Area, Call, Left, Op, Word};

use crate::{
    list::{Handed, Mismatch, Step},
    model::area_of,
    ours::Reply,
    rules,
};

/// Bytes of a word: an access needs a bound of its address and these.
const WORD: u64 = 32;

/// A load or store of an area that was carried out.
#[derive(Debug, Clone, Copy)]
struct Access {
    area: Area,
    /// The operand's number, or `u64::MAX` where that has more than 64 bits: no bound reaches it.
    address: u64,
    given: Handed,
    left: Handed,
    /// Whether it stopped on the hook.
    stopped: bool,
}

impl Access {
    /// None where the call is not a load or store of an area.
    fn of(step: &Step, left: &Left, stop: Option<u32>) -> Option<Self> {
        let given = step.given()?;
        let Call::Instruction { instruction, .. } = &step.call else { return None };
        let (Op::Load(area) | Op::Store { area, .. }) = instruction.op else { return None };
        let address = number(rules::operand(instruction).0);
        // The mark stays: where the library's does not, its answer is wrong by itself.
        let left = Handed { frame: left.frame, ..given };
        Some(Self { area, address, given, left, stopped: stop.is_some() })
    }
}

fn number(Word([low, rest @ ..]): Word) -> u64 {
    if rest == [0; 3] {
        low
    } else {
        u64::MAX
    }
}

/// What the accesses of one area come to.
#[derive(Debug, Clone, Copy, Default)]
struct Charged {
    sum: u64,
    highest: Option<u64>,
}

/// One or more accesses, each given the frame that the last one left.
#[derive(Debug, Clone, Copy)]
pub struct Run {
    first: Handed,
    last: Handed,
    /// Of the heap and of the aux heap.
    areas: [Charged; 2],
    pub accesses: u64,
    /// Accesses with a charge above 0.
    pub paid: u64,
    /// Stops on the hook.
    pub stops: u64,
}

impl Run {
    /// A run that has no access yet.
    fn new(first: Handed) -> Self {
        let areas = [Charged::default(); 2];
        Self { first, last: first, areas, accesses: 0, paid: 0, stops: 0 }
    }

    pub fn has_both_areas(&self) -> bool {
        self.areas.iter().all(|area| area.highest.is_some())
    }

    /// Adds an access. Fails if it makes gas.
    fn add(&mut self, access: &Access) -> Result<(), String> {
        let [given, left] = [access.given, access.left].map(|at| at.frame.gas);
        let Some(charge) = given.checked_sub(left) else {
            return Err(format!("gas rises from {given} to {left}"));
        };
        let area = &mut self.areas[access.area as usize];
        area.sum += u64::from(charge);
        area.highest = area.highest.max(Some(access.address));
        self.last = access.left;
        self.accesses += 1;
        self.paid += u64::from(charge > 0);
        self.stops += u64::from(access.stopped);
        Ok(())
    }

    /// Fails with what does not add up. The rest of the theorem cannot fail here: the charges are
    /// differences of 32-bit numbers, each of which begins where the last one ended, so both sums and
    /// the gas left make the gas given, and no sum is above 4,294,967,295.
    fn adds_up(&self) -> Result<(), String> {
        self.area_adds_up(Area::Heap)?;
        self.area_adds_up(Area::Aux)
    }

    fn area_adds_up(&self, area: Area) -> Result<(), String> {
        let [first, last] = [self.first, self.last].map(|at| u64::from(area_of(&at.frame, area).1));
        let Charged { sum, highest } = self.areas[area as usize];
        if last.checked_sub(first) != Some(sum) {
            return Err(format!("{area:?}: charges of {sum}, and a bound from {first} to {last}"));
        }
        let reached = highest.map_or(first, |address| first.max(address.saturating_add(WORD)));
        if last != reached {
            return Err(format!("{area:?}: the last bound is {last}, not {reached}"));
        }
        Ok(())
    }
}

/// Follows the accesses of one side.
#[derive(Debug, Default)]
struct Charges {
    run: Option<Run>,
}

impl Charges {
    /// Takes an access. It goes on with the run if it was given what the last one left, and begins
    /// another if not. Returns the run that it has ended, or fails with what does not add up.
    fn take(&mut self, access: &Access) -> Result<Option<Run>, String> {
        let ended = self.run.take_if(|run| run.last != access.given);
        let run = self.run.get_or_insert_with(|| Run::new(access.given));
        run.add(access)?;
        run.adds_up()?;
        Ok(ended)
    }

    fn end(&mut self) -> Option<Run> {
        self.run.take()
    }

    /// Takes this side's answer to a call. A panic ends a run; a refusal and any other call leave it
    /// as it is.
    fn answered(&mut self, step: &Step, answer: &Answer) -> Result<Option<Run>, String> {
        match answer {
            Answer::Ran(left, stop) => {
                Access::of(step, left, *stop).map_or(Ok(None), |access| self.take(&access))
            }
            Answer::EraPanic(_) => Ok(self.end()),
            _ => Ok(None),
        }
    }

    fn shown(&self) -> String {
        self.run.map_or("no run".into(), |run| format!("{run:?}"))
    }
}

/// Follows both sides, each by its own answers.
#[derive(Debug, Default)]
pub struct Sides {
    vm2: Charges,
    library: Charges,
}

impl Sides {
    /// Takes both answers to a call. Returns vm2's run that it has ended, if any.
    pub fn answered(
        &mut self,
        step: &Step,
        theirs: &Answer,
        ours: &Reply,
    ) -> Result<Option<Run>, Mismatch> {
        let vm2 = self.vm2.answered(step, theirs);
        let library = match ours {
            Reply::Answer(ours) => self.library.answered(step, &ours.answer),
            Reply::Refused(_) | Reply::Wrong(_) => Ok(None),
        };
        let what = match (vm2, library) {
            (Ok(ended), Ok(_)) => return Ok(ended),
            (Err(what), Ok(_)) => format!("on vm2's side: {what}"),
            (Ok(_), Err(what)) => format!("on the library's side: {what}"),
            (Err(what), Err(also)) => format!("on vm2's side: {what}; on the library's: {also}"),
        };
        let what = format!("growth does not add up {what}");
        Err(Mismatch { what, vm2: self.vm2.shown(), library: self.library.shown() })
    }

    /// Ends the runs of both sides. Returns vm2's, if there is one.
    pub fn end(&mut self) -> Option<Run> {
        self.library.end();
        self.vm2.end()
    }
}

#[cfg(test)]
mod tests {
    use oracle::{Frame, HeapInstruction, Operand, Registers, RustPanic};

    use super::*;

    const FIRST: Frame = Frame { gas: 100, heap: 66, aux: 67, heap_bound: 64, aux_bound: 0 };
    /// What is left of it by an access of the heap at 40.
    const SECOND: Frame = Frame { gas: 92, heap_bound: 72, ..FIRST };
    /// And then by one of the aux heap at 0.
    const THIRD: Frame = Frame { gas: 60, aux_bound: 32, ..SECOND };

    fn access(area: Area, address: u64, given: Frame, left: Frame) -> Access {
        let [given, left] = [given, left].map(|frame| Handed { frame, marked: false });
        Access { area, address, given, left, stopped: false }
    }

    /// A run that has the first access.
    fn begun() -> Charges {
        let mut charges = Charges::default();
        let begun = charges.take(&access(Area::Heap, 40, FIRST, SECOND));
        assert!(begun.is_ok_and(|ended| ended.is_none()));
        charges
    }

    /// A load of the aux heap.
    fn load(frame: Frame, word: Word) -> Step {
        let operand = Operand::Register { word, tagged: false };
        let load = HeapInstruction::on_operands(Op::Load(Area::Aux), operand, Word::default());
        Step { memory: 0, call: load.on(frame), marked: false }
    }

    fn left(frame: Frame) -> Box<Left> {
        Left { frame, registers: Registers::default() }.into()
    }

    fn ran(frame: Frame) -> Answer {
        Answer::Ran(left(frame), None)
    }

    #[test]
    fn a_run_adds_up() {
        let mut charges = begun();
        for (area, address, given, left) in [
            (Area::Aux, 0, SECOND, THIRD),
            (Area::Heap, 10, THIRD, THIRD),
            (Area::Aux, 28, THIRD, Frame { gas: 32, aux_bound: 60, ..THIRD }),
        ] {
            let taken = charges.take(&access(area, address, given, left));
            assert!(taken.as_ref().is_ok_and(Option::is_none), "{taken:?}");
        }
        let run = charges.end().expect("a run");
        assert_eq!((run.accesses, run.paid, run.has_both_areas()), (4, 3, true));
        assert_eq!(run.areas.map(|area| (area.sum, area.highest)), [(8, Some(40)), (60, Some(28))]);
    }

    #[test]
    fn every_wrong_frame_is_found() {
        let wrong = [
            ("a charge one too many", Frame { gas: 59, ..THIRD }, "Aux: charges of 33"),
            ("a charge of 0", Frame { gas: 92, ..THIRD }, "Aux: charges of 0"),
            ("a bound that stays", SECOND, "Aux: the last bound is 0, not 32"),
            (
                "a bound above the access",
                Frame { gas: 59, aux_bound: 33, ..THIRD },
                "Aux: the last bound is 33, not 32",
            ),
            (
                "a bound below the access",
                Frame { gas: 61, aux_bound: 31, ..THIRD },
                "Aux: the last bound is 31, not 32",
            ),
            ("gas lost", Frame { gas: 91, ..SECOND }, "Aux: charges of 1, and a bound from 0 to 0"),
            ("gas that rises", Frame { gas: 93, ..SECOND }, "gas rises from 92 to 93"),
            ("the other bound raised too", Frame { heap_bound: 73, ..THIRD }, "Heap: charges of 8"),
            (
                "the other bound raised instead",
                Frame { heap_bound: 104, aux_bound: 0, ..THIRD },
                "Heap: charges of 8, and a bound from 64 to 104",
            ),
            ("the other bound lowered", Frame { heap_bound: 63, ..THIRD }, "from 64 to 63"),
        ];
        for (what, left, due) in wrong {
            let found = begun().take(&access(Area::Aux, 0, SECOND, left));
            let found = found.expect_err(what);
            assert!(found.contains(due), "{what}: {found}");
        }
    }

    #[test]
    fn an_operand_above_the_limit_that_is_carried_out_is_found() {
        let given = Frame { gas: u32::MAX, aux_bound: 0, ..FIRST };
        let left = Frame { gas: 0, aux_bound: u32::MAX, ..given };
        for (limbs, adds_up) in [
            ([4_294_967_263, 0, 0, 0], true),
            ([4_294_967_264, 0, 0, 0], false),
            ([u64::MAX, 0, 0, 0], false),
            ([4_294_967_263, 0, 1, 0], false),
        ] {
            let answered = Charges::default().answered(&load(given, Word(limbs)), &ran(left));
            assert_eq!(answered.is_ok(), adds_up, "{limbs:?}: {answered:?}");
        }
    }

    #[test]
    fn another_frame_or_mark_begins_another_run() {
        let richer = Frame { gas: 500, ..SECOND };
        let mut charges = begun();
        let ended = charges.take(&access(Area::Heap, 0, richer, richer)).expect("it adds up");
        assert_eq!(ended.map(|run| run.accesses), Some(1));

        let marked = |frame| Handed { frame, marked: true };
        let (given, left) = (marked(SECOND), marked(THIRD));
        let access = Access { given, left, ..access(Area::Aux, 0, SECOND, THIRD) };
        assert!(begun().take(&access).expect("it adds up").is_some());
    }

    #[test]
    fn panics_end_a_run_and_refusals_do_not() {
        let between = load(SECOND, 0.into());
        let mut sides = Sides { vm2: begun(), library: begun() };
        let panic = RustPanic { message: String::new(), file: String::new(), refusal: Some(4) };
        let refused = sides.answered(&between, &Answer::RustPanic(panic), &Reply::Refused(4));
        assert!(refused.is_ok_and(|ended| ended.is_none()));
        let goes_on = sides.answered(&between, &ran(THIRD), &Reply::Answer(ran(THIRD).into()));
        assert!(goes_on.is_ok_and(|ended| ended.is_none()));
        let panic = Answer::EraPanic(left(THIRD));
        let ended =
            sides.answered(&load(THIRD, 0.into()), &panic, &Reply::Answer(panic.clone().into()));
        assert_eq!(ended.expect("it adds up").map(|run| run.accesses), Some(2));
        assert!(sides.end().is_none() && sides.library.end().is_none());
    }

    #[test]
    fn a_mark_is_handed_on() {
        let mut charges = Charges::default();
        for (given, left) in [(SECOND, THIRD), (THIRD, THIRD)] {
            let step = Step { marked: true, ..load(given, 0.into()) };
            assert!(charges.answered(&step, &ran(left)).is_ok());
        }
        assert_eq!(charges.end().map(|run| run.accesses), Some(2));
    }

    #[test]
    fn each_side_is_held_to_its_own_answers() {
        let wrong = Frame { gas: 59, ..THIRD };
        for (vm2, library, due) in [
            (wrong, THIRD, "growth does not add up on vm2's side: Aux: charges of 33"),
            (THIRD, wrong, "growth does not add up on the library's side: Aux: charges of 33"),
            (wrong, wrong, "growth does not add up on vm2's side: Aux: charges of 33"),
        ] {
            let mut sides = Sides { vm2: begun(), library: begun() };
            let found = sides.answered(
                &load(SECOND, 0.into()),
                &ran(vm2),
                &Reply::Answer(ran(library).into()),
            );
            let found = found.expect_err(due);
            assert!(found.what.starts_with(due), "{found:?}");
            assert_eq!(found.vm2.contains("sum: 33"), vm2 == wrong, "{found:?}");
            assert_eq!(found.library.contains("sum: 33"), library == wrong, "{found:?}");
            assert_eq!(found.what.contains("library's"), library == wrong, "{found:?}");
        }
    }
}
