//! Times the library beside vm2, on the same inputs.
//!
//! `bench [--runs N] [NAME ..]` runs rows N times and prints their tables. A NAME is one of words, instructions, chunks,
//! formed, checked, limits and trace, or a part of the names of rows; without any, all are run. `limits` has four tables, which
//! tell what limits slow rows. Each run of a row is a process of its own, `bench --row NAME`, which makes its memories afresh and
//! prints one line: so no row depends on those before it.

mod both;
mod chunks;
mod formed;
mod instructions;
mod lent;
mod limits;
mod places;
mod rows;
mod table;
mod times;
mod trace;
mod words;

use std::{env, process};

use table::Table;

const RUNS: usize = 5;

fn main() {
    let mut names: Vec<String> = env::args().skip(1).collect();
    if names.first().is_some_and(|name| name == "--row") {
        return child(names.get(1).unwrap_or_else(|| usage("--row has a name")));
    }
    let mut runs = RUNS;
    if names.first().is_some_and(|name| name == "--runs") {
        let count = names.get(1).and_then(|count| count.parse().ok());
        runs = count.filter(|&count| count > 0).unwrap_or_else(|| usage("--runs has a number"));
        names.drain(..2);
    }
    parent(runs, &names);
}

/// Times one row and prints what was measured.
fn child(name: &str) {
    let rows = rows::tables().into_iter().flat_map(|table| table.rows);
    let row = rows.into_iter().find(|row| row.name == name);
    let row = row.unwrap_or_else(|| usage(&format!("no row has the name '{name}'")));
    println!("{}", (row.time)());
}

/// The tables with the rows that are meant.
fn chosen(names: &[String]) -> Vec<Table> {
    let mut tables = rows::tables();
    let is_table =
        |name: &String| name == trace::NAME || tables.iter().any(|table| table.name == name);
    let (whole, parts): (Vec<_>, Vec<_>) = names.iter().partition(|name| is_table(name));
    if let Some(part) = parts.iter().find(|part| !tables.iter().any(|table| table.has(part))) {
        usage(&format!("no table and no row has the name '{part}'"));
    }
    let other = |table: &&mut Table| !names.is_empty() && !whole.iter().any(|n| *n == table.name);
    tables.iter_mut().filter(other).for_each(|table| table.keep(&parts));
    tables.retain(|table| !table.rows.is_empty());
    tables
}

/// Runs the rows that are meant, each in a process of its own, and prints their tables.
fn parent(runs: usize, names: &[String]) {
    let (mut met, mut aims) = (0, 0);
    let tables = chosen(names);
    println!("runs of each row: {runs}; medians, and the range of the ratios");
    for table in tables {
        let ratios = table.run(runs);
        let due = table.rows.iter().zip(ratios).filter_map(|(row, ratio)| Some(ratio <= row.aim?));
        due.for_each(|is_met| (met, aims) = (met + usize::from(is_met), aims + 1));
    }
    if names.is_empty() || names.iter().any(|name| name == trace::NAME) {
        trace::run(runs);
    }
    if aims > 0 {
        println!("\n{met} of {aims} aims are met");
    }
}

fn usage(wrong: &str) -> ! {
    eprintln!("bench: {wrong}");
    eprintln!(
        "bench: [--runs N] [NAME ..], where a NAME is a part of the names of rows, or a table:"
    );
    let tables = rows::tables();
    let mut names: Vec<&str> = tables.iter().map(|table| table.name).chain([trace::NAME]).collect();
    names.dedup();
    eprintln!("bench: {}", names.join(", "));
    process::exit(2)
}
