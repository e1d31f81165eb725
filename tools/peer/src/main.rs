//! A plain interpreter beside which the product is timed. Nothing of it is proved: it stands for what such a program costs that trusts
//! its own tables and pointers.
//!
//!     peer PROGRAM [--harts N] [--seed S] [--quantum Q] [--budget B]
//!
//! PROGRAM is an ELF file that `paradyn run` takes. It prints the lines of that report from the first `hart` to the output.

mod arithmetic;
mod decoded;
mod elf;
mod machine;
mod memory;
mod slow;

use machine::{Hart, Machine, Order};
use memory::{Memory, Stop};
use std::io::Write;
use std::process::ExitCode;

struct Request {
    program: String,
    harts: u64,
    order: Order,
}

fn request(mut words: impl Iterator<Item = String>) -> Option<Request> {
    let mut program = None;
    let (mut harts, mut seed, mut quantum, mut budget) = (1, 0, 50, 1_000_000);
    while let Some(word) = words.next() {
        let number = match word.as_str() {
            "--harts" => &mut harts,
            "--seed" => &mut seed,
            "--quantum" => &mut quantum,
            "--budget" => &mut budget,
            _ => {
                program = Some(word);
                continue;
            }
        };
        *number = words.next()?.parse().ok()?;
    }
    let program = program.filter(|_| (1..=32).contains(&harts))?;
    Some(Request { program, harts, order: Order { seed, quantum, budget } })
}

fn stop_text(hart: &Hart, budget: u64) -> String {
    match hart.stop {
        None if hart.ticks < budget => "cut".into(),
        None => "budget".into(),
        Some(Stop::Exit(code)) => format!("exit {code}"),
        Some(Stop::Illegal) => "illegal".into(),
        Some(Stop::Break) => "break".into(),
        Some(Stop::Misaligned) => "misaligned".into(),
        Some(Stop::Access(at)) => format!("access 0x{at:x}"),
        Some(Stop::TextAccess(at)) => format!("text-access 0x{at:x}"),
        Some(Stop::FetchOutside) => "fetch-outside".into(),
    }
}

fn text_of(machine: &Machine, budget: u64) -> Vec<u8> {
    let mut text = String::new();
    for (number, hart) in machine.harts.iter().enumerate() {
        text += &format!("hart {number} ticks {} {} at 0x{:x}\n", hart.ticks, stop_text(hart, budget), hart.pc);
    }
    let output = &machine.shared.output;
    text += &format!("output {}\n", output.len());
    let mut text = text.into_bytes();
    text.extend_from_slice(output);
    text.push(b'\n');
    text
}

fn main() -> ExitCode {
    let Some(request) = request(std::env::args().skip(1)) else {
        eprintln!("usage: peer PROGRAM [--harts N] [--seed S] [--quantum Q] [--budget B]");
        return ExitCode::from(2);
    };
    let Some(image) = std::fs::read(&request.program).ok().and_then(|bytes| elf::load(&bytes)) else {
        eprintln!("peer: {} can't be read, or is no such ELF file", request.program);
        return ExitCode::from(3);
    };
    let memory = Memory::new(&image, request.harts);
    let mut machine = Machine::new(memory, image.entry, request.harts);
    machine.run(&request.order);
    match std::io::stdout().write_all(&text_of(&machine, request.order.budget)) {
        Ok(()) => ExitCode::SUCCESS,
        Err(_) => ExitCode::from(7),
    }
}
