//! How many lines a second heaptrace goes through.

use std::{
    fmt::Write as _,
    io::Write as _,
    path::Path,
    process::{Command, Stdio},
    thread,
    time::Instant,
};

use crate::times::median;

pub const NAME: &str = "trace";

const PROGRAM: &str = concat!(env!("CARGO_MANIFEST_DIR"), "/../../target/bin/heaptrace");

pub fn run(runs: usize) {
    if !Path::new(PROGRAM).exists() {
        println!("\nheaptrace: not timed, since `tools/build heaptrace` has not built it");
        return;
    }
    let lines = lines();
    let rates: Vec<f64> = (0..runs).map(|_| rate(&lines)).collect();
    let (low, high) = rates.iter().fold((f64::MAX, 0.0f64), |(l, h), &r| (l.min(r), h.max(r)));
    println!(
        "\nheaptrace: {:.0} lines a second; {runs} runs: {low:.0} to {high:.0}",
        median(rates)
    );
}

/// Writes and reads by turns, on 128 chunks.
fn lines() -> String {
    let mut lines = String::from("open 1 4 5 6 64 8 128 64 256\n");
    for i in 0..500_000u32 {
        let address = i % 1000 * 32;
        match i % 2 {
            0 => writeln!(lines, "w 66 {address} {i:x}"),
            _ => writeln!(lines, "r 66 {address}"),
        }
        .expect("a string takes what is written");
    }
    lines
}

/// Lines a second, through pipes.
fn rate(lines: &str) -> f64 {
    let start = Instant::now();
    let mut child = Command::new(PROGRAM)
        .stdin(Stdio::piped())
        .stdout(Stdio::piped())
        .spawn()
        .expect("heaptrace runs");
    let mut input = child.stdin.take().expect("it is piped");
    let output = thread::scope(|scope| {
        scope.spawn(move || input.write_all(lines.as_bytes()).expect("heaptrace reads all"));
        child.wait_with_output().expect("heaptrace ends")
    });
    let seconds = start.elapsed().as_secs_f64();
    output.stdout.iter().filter(|&&byte| byte == b'\n').count() as f64 / seconds
}
