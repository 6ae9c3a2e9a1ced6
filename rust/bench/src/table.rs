//! Tables: which of their rows are chosen, what a run of each in a process of its own gave, and how that is printed.

use std::{
    env,
    process::{self, Command, Stdio},
};

use crate::times::Times;

/// A row: what it times, and the ratio that it is to keep to.
pub struct Row {
    pub name: String,
    pub aim: Option<f64>,
    pub time: Box<dyn Fn() -> Times>,
}

/// Rows with the same two sides.
pub struct Table {
    /// By this it is chosen. Several tables may have the same name.
    pub name: &'static str,
    /// As docs/PERFORMANCE.md has it.
    pub title: &'static str,
    pub sides: [&'static str; 2],
    pub rows: Vec<Row>,
}

impl Table {
    pub fn new(name: &'static str, title: &'static str, sides: [&'static str; 2]) -> Self {
        Self { name, title, sides, rows: Vec::new() }
    }

    pub fn add(&mut self, name: String, aim: Option<f64>, time: impl Fn() -> Times + 'static) {
        self.rows.push(Row { name, aim, time: Box::new(time) });
    }

    /// Whether a name means one of its rows: all do that have it in their names.
    pub fn has(&self, part: &str) -> bool {
        self.rows.iter().any(|row| row.name.contains(part))
    }

    /// Keeps the rows that have one of these names in theirs.
    pub fn keep(&mut self, parts: &[&String]) {
        self.rows.retain(|row| parts.iter().any(|part| row.name.contains(*part)));
    }

    /// Runs all rows as often as asked, one after another, so that the runs of a row lie apart. Prints the table, and gives
    /// the ratio of each row.
    pub fn run(&self, runs: usize) -> Vec<f64> {
        let mut all = vec![Vec::new(); self.rows.len()];
        for run in 1..=runs {
            eprintln!("{}: run {run} of {runs}", self.title);
            for (row, times) in self.rows.iter().zip(&mut all) {
                times.push(alone(&row.name));
            }
        }
        // Where no row has an aim, the two columns of aims are left out.
        let aims = self.rows.iter().any(|row| row.aim.is_some());
        let [first, second] = self.sides;
        let (head, line) = if aims { (" aim | |", "---|---|") } else { ("", "") };
        println!("\n| {} | {first} | {second} | ratio | range |{head}", self.title);
        println!("|---|---|---|---|---|{line}");
        self.rows.iter().zip(&all).map(|(row, times)| row.print(times, aims)).collect()
    }
}

impl Row {
    /// Prints what the runs measured, and returns the median of the ratios. `aims`: the table has columns for aims.
    fn print(&self, runs: &[Times], aims: bool) -> f64 {
        let Times { first, second, ratio } = Times::medians(runs);
        let ratios = runs.iter().map(|times| times.ratio);
        let (low, high) = (ratios.clone().fold(f64::MAX, f64::min), ratios.fold(0.0, f64::max));
        let aim = match self.aim {
            Some(aim) if ratio <= aim => format!(" {aim:.2} | met |"),
            Some(aim) => format!(" {aim:.2} | missed |"),
            None if aims => "  |  |".into(),
            None => String::new(),
        };
        let (name, first, second) = (&self.name, nanoseconds(first), nanoseconds(second));
        println!("| {name} | {first} | {second} | {ratio:.2} | {low:.2} to {high:.2} |{aim}");
        ratio
    }
}

/// What a process of its own measures for a row.
fn alone(name: &str) -> Times {
    let program = env::current_exe().expect("the program has a path");
    let output = Command::new(program)
        .args(["--row", name])
        .stderr(Stdio::inherit())
        .output()
        .expect("the program runs");
    if !output.status.success() {
        eprintln!("bench: the row '{name}' failed");
        process::exit(1);
    }
    let line = String::from_utf8(output.stdout).expect("a row prints text");
    line.parse().expect("a row prints three numbers")
}

fn nanoseconds(ns: f64) -> String {
    if ns < 1000.0 {
        format!("{ns:.1} ns")
    } else {
        format!("{:.1} us", ns / 1000.0)
    }
}
