//! Lists of calls, and how one is printed that the two sides answer differently.

use std::fmt::Debug;

use lines::spell;
use oracle::{Call, Frame};
use zincpapaya::Capacity;

/// A call, put to one of the two memories of a list.
#[derive(Debug, Clone, PartialEq)]
pub struct Step {
    pub memory: usize,
    pub call: Call,
    /// Whether the library's frame enters with its mark set; vm2's has none.
    pub marked: bool,
}

/// A frame that one call hands on to the next.
#[derive(Debug, Clone, Copy, PartialEq)]
pub struct Handed {
    pub frame: Frame,
    /// The mark of the library's frame.
    pub marked: bool,
}

impl Step {
    /// The frame that an instruction is given.
    pub fn given(&self) -> Option<Handed> {
        match self.call {
            Call::Instruction { frame, .. } => Some(Handed { frame, marked: self.marked }),
            _ => None,
        }
    }
}

#[derive(Clone)]
pub struct List {
    pub layout: &'static str,
    /// Of the library's two memories; vm2's grow as they must.
    pub capacities: [Capacity; 2],
    pub steps: Vec<Step>,
}

/// What the two sides do not agree on.
#[derive(Debug)]
pub struct Mismatch {
    pub what: String,
    pub vm2: String,
    pub library: String,
}

impl Mismatch {
    /// The same, with the calls that it was met in.
    pub fn within(self, calls: &impl Debug) -> Self {
        Self { what: format!("{}: {calls:?}", self.what), ..self }
    }
}

/// A list that ends in a mismatch.
pub struct Finding {
    pub list: List,
    pub mismatch: Mismatch,
}

impl List {
    /// The list in the driver's language; what the driver has no words for stands in comments.
    pub fn lines(&self) -> Vec<String> {
        let mut lines = Vec::new();
        for (memory, capacity) in self.capacities.iter().enumerate() {
            let Capacity { chunks, pages, journal_words } = capacity;
            lines.push(format!(
                "# memory {memory} of the library: {chunks} chunks, {pages} pages, \
                 {journal_words} journal words"
            ));
        }
        lines.push(format!("layout {}", self.layout));
        let mut at = 0;
        for step in &self.steps {
            if step.memory != at {
                at = step.memory;
                lines.push(format!("memory {at}"));
            }
            if step.marked {
                lines.push("# the library's frame enters with its mark set".into());
            }
            lines.extend(spell::lines(&step.call));
        }
        lines
    }
}

impl Finding {
    pub fn lines(&self) -> Vec<String> {
        let mut lines = self.list.lines();
        let Mismatch { what, vm2, library } = &self.mismatch;
        lines.push(format!("# {what}"));
        lines.push(format!("# vm2:     {vm2}"));
        lines.push(format!("# library: {library}"));
        lines
    }
}
