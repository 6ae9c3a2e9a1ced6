//! Reads calls line by line and answers each with vm2's own files. README.md has the language.

use std::{
    io::{self, BufRead, BufWriter, Write},
    process::ExitCode,
};

use lines::{
    parse::{self, Line},
    show,
};
use oracle::{differences, Answer, Bank, Call, Frame, Left, Registers};

const USAGE: &str = "usage: driver [LAYOUT] < CALLS, or: driver --layouts";

const EMPTY_FRAME: Frame = Frame { gas: 0, heap: 0, aux: 0, heap_bound: 0, aux_bound: 0 };

/// The memories of the layout at hand, and what later lines refer to.
struct Driver {
    bank: Option<Box<dyn Bank>>,
    memory: usize,
    /// Frame and registers of the next instruction.
    given: Left,
    /// Memory and frame of the latest call that panicked in the Rust.
    panicked: Option<(usize, Option<Frame>)>,
}

impl Driver {
    fn new() -> Self {
        let given = Left { frame: EMPTY_FRAME, registers: Registers::default() };
        Self { bank: None, memory: 0, given, panicked: None }
    }

    fn start(&mut self, layout: &str) -> Result<(), String> {
        let bank = oracle::bank(layout).ok_or_else(|| {
            format!("no layout named '{layout}'; there are {}", oracle::LAYOUTS.join(", "))
        })?;
        *self = Self { bank: Some(bank), ..Self::new() };
        Ok(())
    }

    /// The output lines of an input line, or what is wrong with it.
    fn take(&mut self, line: &str) -> Result<Vec<String>, String> {
        let layout = self.bank.as_ref().map(|bank| bank.layout());
        match parse::line(line, layout.as_ref(), &self.given)? {
            Line::Layout(name) => self.start(&name).map(|()| vec!["ok".into()]),
            Line::Memory(number) => {
                self.memory = number;
                Ok(vec!["ok".into()])
            }
            Line::Frame(frame) => {
                self.given.frame = frame;
                Ok(vec!["ok".into()])
            }
            Line::Registers(registers) => {
                self.given.registers = *registers;
                Ok(vec!["ok".into()])
            }
            Line::View => {
                let memory = self.memory;
                let bank = self.bank();
                Ok(show::view(&bank.view(memory), &bank.layout()))
            }
            Line::Left => Ok(self.left()),
            Line::Call(call) => {
                let answer = self.call(&call);
                Ok(vec![match &call {
                    Call::Instruction { instruction, .. } => {
                        show::on_operands(instruction, &answer)
                    }
                    _ => show::answer(&answer),
                }])
            }
            Line::Run(call) => {
                let answer = self.call(&call);
                if let Answer::Ran(left, _) | Answer::EraPanic(left) = &answer {
                    self.given = **left;
                }
                Ok(vec![show::answer(&answer)])
            }
        }
    }

    fn bank(&mut self) -> &mut dyn Bank {
        self.bank.as_deref_mut().expect("a line that needs a layout is not parsed without one")
    }

    /// Puts a call to the memory at hand, and keeps the frame that it leaves.
    fn call(&mut self, call: &Call) -> Answer {
        let memory = self.memory;
        let answer = self.bank().answer(memory, call);
        match &answer {
            Answer::Paid(_, frame) => self.given.frame = *frame,
            Answer::Ran(left, _) | Answer::EraPanic(left) => self.given.frame = left.frame,
            Answer::RustPanic(_) => {
                let framed = matches!(
                    call,
                    Call::Instruction { .. } | Call::UseGas { .. } | Call::GrowHeap { .. }
                );
                self.panicked = Some((memory, framed.then_some(self.given.frame)));
            }
            _ => {}
        }
        answer
    }

    fn left(&mut self) -> Vec<String> {
        let Some((memory, frame)) = self.panicked else {
            return vec!["left nothing: no call has panicked in the Rust".into()];
        };
        let before = self.bank().view(memory);
        let (after, frame_after) = self.bank().left_behind().expect("a call panicked");
        let mut changes = differences(&before, &after);
        if let Some(frame) = frame {
            changes.extend(show::frame_changes(&frame, &frame_after));
        }
        if changes.is_empty() {
            return vec!["left nothing".into()];
        }
        changes.iter().map(|change| format!("left {change}")).collect()
    }
}

/// Answers the lines of `input`; gives the number of lines that could not be read.
fn answer_all(driver: &mut Driver, input: impl BufRead, out: &mut impl Write) -> io::Result<u64> {
    let mut unread = 0;
    for (at, line) in input.split(b'\n').enumerate() {
        let line = line?;
        let line = String::from_utf8_lossy(&line);
        let line = line.trim();
        if line.is_empty() || line.starts_with('#') {
            // Comments are handed on, so that stored answers can be read beside their calls.
            writeln!(out, "{line}")?;
            continue;
        }
        match driver.take(line) {
            Ok(lines) => lines.iter().try_for_each(|line| writeln!(out, "{line}"))?,
            Err(fault) => {
                unread += 1;
                writeln!(out, "line {}: {fault}", at + 1)?;
            }
        }
    }
    out.flush()?;
    Ok(unread)
}

fn main() -> ExitCode {
    let mut driver = Driver::new();
    let arguments: Vec<String> = std::env::args().skip(1).collect();
    match arguments.as_slice() {
        [] => {}
        [only] if only == "--layouts" => {
            println!("{}", oracle::LAYOUTS.join("\n"));
            return ExitCode::SUCCESS;
        }
        [layout] => {
            if let Err(fault) = driver.start(layout) {
                eprintln!("driver: {fault}\n{USAGE}");
                return ExitCode::from(2);
            }
        }
        _ => {
            eprintln!("{USAGE}");
            return ExitCode::from(2);
        }
    }
    match answer_all(&mut driver, io::stdin().lock(), &mut BufWriter::new(io::stdout().lock())) {
        Ok(0) => ExitCode::SUCCESS,
        Ok(_) => ExitCode::FAILURE,
        Err(fault) => {
            eprintln!("driver: {fault}");
            ExitCode::from(2)
        }
    }
}
