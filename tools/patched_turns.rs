//! Turns of the patched machine: a benchmark. `unpatched TURNS` takes as many turns of a counting loop of five words with a load
//! and a store, which is not patched; `TURNS` alone takes those of a loop of one word that an instrument counts, nine in ten of which
//! are the tool's. It prints the ticks.
#![tactic(auto)]

ghost use Rattle.std.specs.Prelude.{◌≡◌, ◌-◌, ◌<◌, ◌^◌, IfOk, IfSome, length};
ghost use Rattle.std.specs.List.{AllByRecursion};
ghost use Rattle.frame_walk.specs.Rooms.{IsSmall};
ghost use Rattle.machine.specs.Effects.{after_event};
ghost use Rattle.machine.specs.Events.{Arm, May};
ghost use Rattle.test_examples.specs.LoopCounted as example;
ghost use Rattle.test_examples.specs.LoopCounted.{counting, linking, loop_core};
ghost use Rattle.machine.specs.Replays.{Legal, replay};
ghost use Rattle.machine.specs.States.{with_core};
ghost use Rattle.test_examples.specs.ThreeCounters.{counter_on, mini_on};
ghost use Rattle.patched_turns.specs.Linkings.{linking_of};
ghost use Rattle.pn_types.specs.Images.{IsImage};

use machine::Machine;
use pn_types::{Act, HartNo, Image, NoMemory, Placed, PlacedSite, Segment, Seq, Stmt, Text, Var};
use prim_code::compile;
use rv_word::first_scratch;
use std::alloc::Global;
use std::process::ExitCode;
use std::{env, io};
use tramp_build::{base_block, mini_block};
use tramp_spec::{Block, MarkedWord, Moved};

/// More ticks than a run has.
const BUDGET: u64 = 100_000_000;

/// The turns of a quantum.
const QUANTUM: u32 = 50;

/// `ld a1, 0(a2)`, `addi a1, a1, 1`, `sd a1, 0(a2)`, `addi a0, a0, 1` and a jump back to the first.
const LOOP: &[u8; 20] = b"\x83\x35\x06\0\x93\x85\x15\0\x23\x30\xb6\0\x13\x05\x15\0\x6f\xf0\x1f\xff";

/// What is asked for.
#[derive(Clone, Copy, Drop)]
struct Request {
    unpatched: bool,
    turns: u64,
}

/// The loop at 0x10000.
fn image(alloc: Global) -> Result<Image, NoMemory>
    ensures { IfOk result IsImage }
{
    let mut segments = Vec::new(alloc);
    segments.push(Segment {
        at: 0x10000,
        bytes: Seq::from_vec(LOOP.to_vec(alloc)?),
        size: 20,
    })?;
    Ok(Image {
        segments: Seq::from_vec(segments),
        text_at: 0x10000,
        text_len: 20,
        entry: 0x10000,
        symbols: Seq::from_vec(Vec::new(alloc)),
    })
}

/// The machine of the loop, which names no x31.
fn unpatched_loop(alloc: Global) -> Result<Option<Machine>, NoMemory>
    ensures { IfOk result (λ machine. IfSome machine (λ m. length m.core.harts ≡ 1)) }
{
    let image = image(alloc)?;
    let text = image.text_bytes();
    if text.len() != 20 || image.text_at != 0x10000 {
        return Ok(None);
    }
    if first_scratch(text, image.text_at).is_some() {
        return Ok(None);
    }
    Ok(Some(Machine::new(alloc, &image, 1, BUDGET)?))
}

/// The word of the loop that is counted.
const POINT: u64 = 0x10000;

/// The base block of the loop's word, at 0x11000.
fn loop_base(alloc: Global) -> Result<Block, NoMemory>
    ensures { IfOk result (λ block. block ≡ example.loop_base) }
{
    let moved = Moved::new(&[MarkedWord::own(0xff5f_e06f)]);
    Ok(base_block(POINT, 0x11000, &moved, Vec::with_capacity(alloc, 7)?))
}

/// A mini block that counts on a slot, and leads to the next.
fn mini(alloc: Global, slot: u32, at: u64, next: u64) -> Result<Block, NoMemory>
    requires { at < 2 ^ 62 }
    ensures { IfOk result (λ block. block ≡ mini_on slot at next) }
{
    let mut stmts = Vec::new(alloc);
    stmts.push(Stmt {
        conds: Seq::from_vec(Vec::new(alloc)),
        act: Act::Up(0),
    })?;
    let mut words = Vec::with_capacity(alloc, 5)?;
    compile(stmts.as_slice(), &[slot], &mut words);
    Ok(mini_block(POINT, at, words, next))
}

/// A counter on a slot, with a mini block at an address.
fn counter(alloc: Global, slot: u32, mini: u64) -> Result<Placed, NoMemory>
    ensures { IfOk result (λ placed. placed ≡ counter_on slot mini) }
{
    let mut vars = Vec::new(alloc);
    vars.push(Var {
        name: Text::from_vec(b"rounds".to_vec(alloc)?),
        timer: false,
        initially: 0,
    })?;
    Ok(Placed {
        vars: Seq::from_vec(vars),
        slots: Seq::from_vec(vec![in alloc; slot]?),
        sites: Seq::from_vec(vec![in alloc; PlacedSite { at: POINT, mini }]?),
        opens: Seq::from_vec(Vec::new(alloc)),
    })
}

/// Writes a point's base block and its first mini block, and links both.
fn link_blocks(machine: &mut Machine, base: &Block, mini: &Block)
    requires may { Legal (linking_of base.now mini.now) machine.old.core }
    requires room { 1 < machine.old.room }
    ensures { machine.new ≡ record { core = replay (linking_of base.now mini.now) machine.old.core; room = machine.old.room - 2 } }
{
    machine.write(base);
    machine.write(mini);
    machine.link_mini(mini.point, mini.at);
    machine.link_point(base.point);
}

/// Arms a counter that may be armed.
fn arm(machine: &mut Machine, counter: &Placed)
    requires may { May machine.old.core (Arm counter.now) }
    requires small { AllByRecursion IsSmall counter.now.opens }
    ensures { machine.new ≡ with_core machine.old (after_event machine.old.core (Arm counter.now)) }
{
    let _armed = machine.arm(counter);
}

/// A loop of one word, a jump to itself.
fn loop_image(alloc: Global) -> Result<Image, NoMemory>
    ensures { IfOk result (λ image. image ≡ example.loop) }
{
    let mut segments = Vec::new(alloc);
    segments.push(Segment {
        at: 0x10000,
        bytes: Seq::from_vec(vec![in alloc; 0x6f, 0, 0, 0]?),
        size: 4,
    })?;
    Ok(Image {
        segments: Seq::from_vec(segments),
        text_at: 0x10000,
        text_len: 4,
        entry: 0x10000,
        symbols: Seq::from_vec(Vec::new(alloc)),
    })
}

/// The loop of one word on one hart under a budget, with room for five blocks.
fn loop_machine(alloc: Global, budget: u64) -> Result<Machine, NoMemory>
    ensures { IfOk result (λ machine. machine ≡ record { core = loop_core budget; room = 5 }) }
{
    let image = loop_image(alloc)?;
    let mut machine = Machine::new(alloc, &image, 1, budget)?;
    machine.reserve(5)?;
    Ok(machine)
}

/// The same with a mini block linked that counts on slot 2, and with room for three blocks more.
fn linked_loop(alloc: Global, budget: u64) -> Result<Machine, NoMemory>
    ensures { IfOk result (λ machine. machine ≡ record { core = replay linking (loop_core budget); room = 3 }) }
{
    let base = loop_base(alloc)?;
    let first = mini(alloc, 2, 0x11010, 0x11008)?;
    let mut machine = loop_machine(alloc, budget)?;
    link_blocks(&mut machine, &base, &first);
    Ok(machine)
}

/// The same with its counter armed.
fn counted_loop(alloc: Global, budget: u64) -> Result<Machine, NoMemory>
    ensures { IfOk result (λ machine. machine ≡ record { core = replay counting (loop_core budget); room = 3 }) }
{
    let first = counter(alloc, 2, 0x11010)?;
    let mut machine = linked_loop(alloc, budget)?;
    arm(&mut machine, &first);
    Ok(machine)
}

/// The machine that is asked for, of one hart.
fn machine(alloc: Global, unpatched: bool) -> Result<Option<Machine>, NoMemory>
    ensures { IfOk result (λ machine. IfSome machine (λ m. length m.core.harts ≡ 1)) }
{
    if unpatched {
        unpatched_loop(alloc)
    } else {
        Ok(Some(counted_loop(alloc, BUDGET)?))
    }
}

/// Turns of the only hart, in quanta. It answers its ticks.
fn run(machine: &mut Machine, turns: u64) -> u64
    requires { length machine.old.core.harts ≡ 1 }
{
    let hart = HartNo::first();
    for _ in 0..turns / QUANTUM as u64 {
        machine.take_turns(hart, QUANTUM);
    }
    machine.take_turns(hart, (turns % QUANTUM as u64) as u32);
    machine.ticks(hart)
}

/// The ticks behind the turns that are asked for.
fn ticks(alloc: Global, request: Request) -> Result<u64, NoMemory> {
    match machine(alloc, request.unpatched)? {
        Some(mut machine) => Ok(run(&mut machine, request.turns)),
        None => Ok(0),
    }
}

/// The request that the words are.
fn read_request(rt: &HostRuntime) -> Result<Option<Request>, io::Error> {
    let mut unpatched = false;
    for word in env::args(rt)?.skip(1) {
        if word.as_str() == "unpatched" {
            unpatched = true;
        } else if let Ok(turns) = word.parse() {
            return Ok(Some(Request { unpatched, turns }));
        }
    }
    Ok(None)
}

fn main(rt: HostRuntime) -> Result<ExitCode, io::Error> {
    let Some(request) = read_request(&rt)? else {
        println!(rt; "usage: patched_turns [unpatched] TURNS")?;
        return Ok(ExitCode::from(2));
    };
    let ticks = ticks(rt.alloc(), request)?;
    println!(rt; "ticks {ticks}")?;
    Ok(ExitCode::SUCCESS)
}
