//! The command line.

use oracle::LAYOUTS;

pub const USAGE: &str = "\
usage: compare [--seed N] [--calls N] [--layout NAME]
       compare [--seed N] --store FILE";

#[derive(Clone)]
pub struct Options {
    pub seed: u64,
    /// Random calls that both sides are to answer.
    pub calls: u64,
    /// One layout, or all of them.
    pub layout: Option<&'static str>,
    /// The file that a sample of vm2's answers is to be written to; then nothing is compared.
    pub store: Option<String>,
}

impl Options {
    pub fn read(mut words: impl Iterator<Item = String>) -> Result<Self, String> {
        let mut options = Self { seed: 1, calls: 1_000_000, layout: None, store: None };
        while let Some(word) = words.next() {
            let mut value = || words.next().ok_or_else(|| format!("{word} needs a value"));
            match word.as_str() {
                "--seed" => options.seed = number(&value()?)?,
                "--calls" => options.calls = number(&value()?)?,
                "--layout" => options.layout = Some(layout(&value()?)?),
                "--store" => options.store = Some(value()?),
                _ => return Err(format!("'{word}' is no option")),
            }
        }
        Ok(options)
    }
}

fn number(text: &str) -> Result<u64, String> {
    text.parse().map_err(|_| format!("'{text}' is no decimal number"))
}

fn layout(text: &str) -> Result<&'static str, String> {
    let found = LAYOUTS.into_iter().find(|name| *name == text);
    found.ok_or_else(|| format!("no layout named '{text}'; there are {}", LAYOUTS.join(", ")))
}
