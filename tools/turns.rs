//! A counting loop with a load and a store, for as many turns as the first argument says: a benchmark of the unpatched
//! machine. It prints the turns that were taken.
#![tactic(auto)]

ghost use Rattle.std.specs.Prelude.{IfOk};
ghost use Rattle.pn_types.specs.Images.{IsImage};

use plain_run::PlainMachine;
use pn_types::{HartNo, Image, NoMemory, Segment, Seq};
use std::alloc::Global;
use std::process::ExitCode;
use std::{env, io};

/// `ld a1, 0(a2)`, `addi a1, a1, 1`, `sd a1, 0(a2)`, `addi a0, a0, 1` and a jump back to the first.
const LOOP: &[u8; 20] = b"\x83\x35\x06\0\x93\x85\x15\0\x23\x30\xb6\0\x13\x05\x15\0\x6f\xf0\x1f\xff";

/// The loop at 0x10000.
fn image(alloc: Global) -> Result<Image, NoMemory>
    ensures { IfOk result IsImage }
{
    let mut segments = Vec::new(alloc);
    segments.push(Segment {
        at: 0x10000,
        bytes: Seq::from_vec(LOOP.to_vec(alloc)?),
        size: 20,
    })?;
    Ok(Image {
        segments: Seq::from_vec(segments),
        text_at: 0x10000,
        text_len: 20,
        entry: 0x10000,
        symbols: Seq::from_vec(Vec::new(alloc)),
    })
}

/// The ticks of one hart that runs the loop to the end of its budget, by a call for each turn.
fn run(alloc: Global, budget: u64) -> Result<u64, NoMemory> {
    let hart = HartNo::first();
    let mut machine = PlainMachine::new(alloc, &image(alloc)?, 1, budget)?;
    for _ in 0..budget {
        if !machine.runnable(hart) {
            break;
        }
        machine.step(hart);
    }
    Ok(machine.ticks(hart))
}

fn budget(rt: &HostRuntime) -> Result<Option<u64>, io::Error> {
    for word in env::args(rt)?.skip(1) {
        return Ok(word.parse().ok());
    }
    Ok(None)
}

fn main(rt: HostRuntime) -> Result<ExitCode, io::Error> {
    let Some(budget) = budget(&rt)? else {
        println!(rt; "usage: turns BUDGET")?;
        return Ok(ExitCode::from(2));
    };
    let ticks = run(rt.alloc(), budget)?;
    println!(rt; "turns {ticks}")?;
    Ok(ExitCode::SUCCESS)
}
