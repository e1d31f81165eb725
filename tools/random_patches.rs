//! Runs programs on the unpatched and on the patched machine side by side, while blocks are written, linked, unlinked and
//! freed at random moments at random points, and compares ticks, stop and place of a hart behind each of its turns, and the
//! output at the end. `random_patches.sh` builds and runs it; nothing of it is proved.
#![tactic(auto)]

use elf_load::load;
use machine::Machine;
use plain_run::PlainMachine;
use pn_types::{Act, Cmp, Cond, HartNo, Image, Left, Seq, Stmt};
use prim_code::{compile, words_of};
use relocate::move_word;
use rv_word::{first_scratch, split_word};
use std::alloc::Global;
use std::{env, fs, io};
use tool_space::Space;
use tramp_build::{base_block, mini_block};

/// More ticks than a run has.
const BUDGET: u64 = 100_000_000;

/// The words of a base block at most.
const BASE_LEN: u32 = 7;

/// A generator of numbers.
#[derive(Drop)]
struct Random {
    state: u64,
}

impl Random {
    fn below(&mut self, n: u64) -> u64 {
        let mut x = self.state;
        x ^= x << 13;
        x ^= x >> 7;
        x ^= x << 17;
        self.state = x;
        (x >> 11) % n
    }
}

/// The room of a block that isn't freed.
#[derive(Clone, Copy, Drop)]
struct Room {
    at: u64,
    len: u32,
    mini: bool,
    retired: bool,
}

/// A point, with its word and its blocks.
#[derive(Drop)]
struct Point {
    at: u64,
    word: u32,
    has_base: bool,
    linked: bool,
    rooms: Vec<Room>,
}

/// How often each thing was done.
#[derive(Drop)]
struct Counts {
    ticks: u64,
    tool_turns: u64,
    bases: u64,
    minis: u64,
    links: u64,
    mini_unlinks: u64,
    point_unlinks: u64,
    frees: u64,
    refused_frees: u64,
}

/// The two machines, and what the tool knows.
#[derive(Drop)]
struct Rig {
    plain: PlainMachine,
    machine: Machine,
    harts: u32,
    space: Space,
    points: Vec<Point>,
    random: Random,
    counts: Counts,
}

fn condition(random: &mut Random) -> Cond {
    Cond {
        left: match random.below(2) {
            0 => Left::Counter(random.below(2) as u32),
            _ => Left::Argument(random.below(8) as u8),
        },
        cmp: match random.below(6) {
            0 => Cmp::Eq,
            1 => Cmp::Ne,
            2 => Cmp::Lt,
            3 => Cmp::Le,
            4 => Cmp::Gt,
            _ => Cmp::Ge,
        },
        right: random.below(5) as u32,
    }
}

/// One to three statements on two counters and a timer.
fn statements(alloc: Global, random: &mut Random) -> io::Result<Vec<Stmt>> {
    let mut stmts = Vec::new(alloc);
    for _ in 0..1 + random.below(3) {
        let mut conds = Vec::new(alloc);
        if random.below(2) == 0 {
            conds.push(condition(random))?;
        }
        stmts.push(Stmt {
            conds: Seq::from_vec(conds),
            act: match random.below(5) {
                0 => Act::Up(0),
                1 => Act::Down(1),
                2 => Act::Put(1, random.below(1000) as u32),
                3 => Act::Start(2),
                _ => Act::Stop(2),
            },
        })?;
    }
    Ok(stmts)
}

impl Rig {
    fn put_base(&mut self, alloc: Global, i: usize) -> io::Result<()> {
        let Some(unit) = self.space.take(BASE_LEN) else {
            return Ok(());
        };
        let at = unit * 4;
        let point = &mut self.points[i];
        let Ok(moved) = move_word(point.word, point.at, at + 12) else {
            self.space.give(unit, BASE_LEN);
            return Ok(());
        };
        let words = Vec::with_capacity(alloc, BASE_LEN as usize)?;
        self.machine
            .write(&base_block(point.at, at, &moved, words));
        point.has_base = true;
        point.linked = false;
        self.counts.bases += 1;
        point.rooms.push(Room {
            at,
            len: BASE_LEN,
            mini: false,
            retired: false,
        })?;
        Ok(())
    }

    fn put_mini(&mut self, alloc: Global, i: usize) -> io::Result<()> {
        let stmts = statements(alloc, &mut self.random)?;
        let len = words_of(&stmts) + 1;
        let Some(unit) = self.space.take(len) else {
            return Ok(());
        };
        let at = unit * 4;
        let slot = 2 + self.random.below(1000) as u32 * 4;
        let mut words = Vec::with_capacity(alloc, len as usize)?;
        compile(&stmts, &[slot, slot + 1, slot + 2], &mut words);
        let point = &mut self.points[i];
        let next = self.machine.head(point.at);
        self.machine
            .write(&mini_block(point.at, at, words, next));
        self.machine.link_mini(point.at, at);
        self.counts.minis += 1;
        point.rooms.push(Room {
            at,
            len,
            mini: true,
            retired: false,
        })?;
        Ok(())
    }

    fn link_point(&mut self, i: usize) {
        let point = &mut self.points[i];
        if point.linked {
            return;
        }
        self.machine.link_point(point.at);
        point.linked = true;
        self.counts.links += 1;
    }

    fn unlink_mini(&mut self, i: usize) {
        let point = &mut self.points[i];
        let count = point.rooms.len() as u64;
        if count == 0 {
            return;
        }
        let j = self.random.below(count) as usize;
        let room = point.rooms[j];
        if room.mini && !room.retired {
            self.machine.unlink_mini(point.at, room.at);
            point.rooms[j].retired = true;
            self.counts.mini_unlinks += 1;
        }
    }

    fn unlink_point(&mut self, i: usize) {
        let point = &mut self.points[i];
        if !point.linked {
            return;
        }
        self.machine.unlink_point(point.at);
        point.has_base = false;
        point.linked = false;
        for j in 0..point.rooms.len() {
            point.rooms[j].retired = true;
        }
        self.counts.point_unlinks += 1;
    }

    fn free(&mut self, alloc: Global, i: usize) -> io::Result<()> {
        let point = &mut self.points[i];
        if !self.machine.free(point.at) {
            self.counts.refused_frees += 1;
            return Ok(());
        }
        let mut kept = Vec::new(alloc);
        for room in point.rooms.as_slice() {
            if room.retired {
                self.space.give(room.at / 4, room.len);
            } else {
                kept.push(*room)?;
            }
        }
        point.rooms = kept;
        self.counts.frees += 1;
        Ok(())
    }

    /// One thing that the tool may do at a point.
    fn patch(&mut self, alloc: Global, i: usize) -> io::Result<()> {
        self.machine.reserve(8)?;
        self.space.reserve(8)?;
        match (self.points[i].has_base, self.random.below(8)) {
            (false, 0..=3) => self.put_base(alloc, i)?,
            (true, 0..=2) => self.put_mini(alloc, i)?,
            (true, 3) => self.link_point(i),
            (true, 4) => self.unlink_mini(i),
            (true, 5) => self.unlink_point(i),
            _ => self.free(alloc, i)?,
        }
        Ok(())
    }

    /// Whether the hart is the program's.
    fn agrees(&self, hart: HartNo) -> bool {
        self.plain.ticks(hart) == self.machine.ticks(hart)
            && self.plain.stop(hart) == self.machine.stop(hart)
            && self.plain.at(hart) == self.machine.at(hart)
    }

    /// Some turns of a hart, each tick of which the program's takes too.
    fn take_turns(&mut self, hart: HartNo) -> bool {
        for _ in 0..self.random.below(30) {
            if !self.machine.runnable(hart) {
                break;
            }
            if self.machine.turn(hart) {
                self.counts.ticks += 1;
                if !self.plain.runnable(hart) {
                    return false;
                }
                self.plain.step(hart);
            } else {
                self.counts.tool_turns += 1;
            }
            if !self.agrees(hart) {
                return false;
            }
        }
        true
    }

    /// Settles, after which each hart of the program catches up.
    fn settle(&mut self) -> bool {
        self.counts.tool_turns += self.machine.settle();
        for number in 0..self.harts {
            let hart = HartNo::numbered(number);
            for _ in 0..8 {
                if self.plain.ticks(hart) < self.machine.ticks(hart) {
                    self.counts.ticks += 1;
                    self.plain.step(hart);
                }
            }
            if !self.agrees(hart) {
                return false;
            }
        }
        self.machine.quiet()
    }

    fn run(&mut self, alloc: Global, rounds: u64) -> io::Result<bool> {
        let points = self.points.len() as u64;
        for _ in 0..rounds {
            let hart = HartNo::numbered(self.random.below(self.harts as u64) as u32);
            if !self.take_turns(hart) {
                return Ok(false);
            }
            if points > 0 {
                let i = self.random.below(points) as usize;
                self.patch(alloc, i)?;
            }
            if self.random.below(200) == 0 && !self.settle() {
                return Ok(false);
            }
        }
        Ok(self.plain.output() == self.machine.output())
    }
}

/// The word of the text at an address.
fn word_at(image: &Image, at: u64) -> u32 {
    let mut rest = image.text_bytes();
    for _ in 0..(at - image.text_at) / 4 {
        rest = split_word(rest).1;
    }
    split_word(rest).0
}

/// Up to twelve points among the addresses that the harts reach first.
fn points(alloc: Global, image: &Image, harts: u32, random: &mut Random) -> io::Result<Vec<Point>> {
    let mut points: Vec<Point> = Vec::new(alloc);
    let mut plain = PlainMachine::new(alloc, image, harts, BUDGET)?;
    for _ in 0..20_000 {
        let hart = HartNo::numbered(random.below(harts as u64) as u32);
        if !plain.runnable(hart) {
            continue;
        }
        let at = plain.at(hart);
        plain.step(hart);
        let is_known = points.as_slice().iter().any(|point| point.at == at);
        if points.len() < 12 && !is_known && random.below(40) == 0 {
            points.push(Point {
                at,
                word: word_at(image, at),
                has_base: false,
                linked: false,
                rooms: Vec::new(alloc),
            })?;
        }
    }
    Ok(points)
}

fn make_rig(alloc: Global, image: &Image, harts: u32, seed: u64) -> io::Result<Rig> {
    let mut random = Random { state: seed * 2 + 1 };
    let end = image.text_at + image.text_len;
    Ok(Rig {
        plain: PlainMachine::new(alloc, image, harts, BUDGET)?,
        machine: Machine::new(alloc, image, harts, BUDGET)?,
        harts,
        space: Space::new(alloc, end.next_multiple_of(4096) / 4, 98_304)?,
        points: points(alloc, image, harts, &mut random)?,
        random,
        counts: Counts {
            ticks: 0,
            tool_turns: 0,
            bases: 0,
            minis: 0,
            links: 0,
            mini_unlinks: 0,
            point_unlinks: 0,
            frees: 0,
            refused_frees: 0,
        },
    })
}

/// Runs a program once, and says how it went.
fn run_program(rt: &HostRuntime, name: &str, harts: u32, seed: u64, rounds: u64) -> io::Result<()> {
    let alloc = rt.alloc();
    let bytes = fs::read(rt, name)?;
    let Ok(image) = load(alloc, &bytes) else {
        return println!(rt; "{name}: no image");
    };
    if first_scratch(image.text_bytes(), image.text_at).is_some() {
        return println!(rt; "{name}: names x31");
    }
    let mut rig = make_rig(alloc, &image, harts, seed)?;
    let verdict = if rig.run(alloc, rounds)? {
        "agree"
    } else {
        "DIFFER"
    };
    let Counts {
        ticks,
        tool_turns,
        bases,
        minis,
        links,
        mini_unlinks,
        point_unlinks,
        frees,
        refused_frees,
    } = rig.counts;
    println!(rt; "{verdict}: {name} harts {harts} seed {seed} ticks {ticks} tool turns {tool_turns} bases {bases} minis {minis} links {links} unlinked {mini_unlinks} {point_unlinks} freed {frees} refused {refused_frees}")
}

fn main(rt: HostRuntime) -> io::Result<()> {
    let mut words: Vec<String> = Vec::new(rt.alloc());
    for word in env::args(&rt)?.skip(1) {
        words.push(word)?;
    }
    if words.len() < 3 {
        return println!(rt; "usage: random_patches ROUNDS SEEDS ELF..");
    }
    let rounds = words[0].parse().unwrap_or(0u64);
    let seeds = words[1].parse().unwrap_or(0u64);
    for name in words.as_slice().iter().skip(2) {
        for seed in 0..seeds {
            run_program(&rt, name.as_str(), 1 + (seed % 4) as u32, seed, rounds)?;
        }
    }
    Ok(())
}
