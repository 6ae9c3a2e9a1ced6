//! The driver's language: calls, answers and views as lines of text. README.md describes it.

mod fields;
pub mod parse;
pub mod show;
pub mod spell;
