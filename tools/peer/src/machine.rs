//! The harts, and the quanta in which they take their turns.

use crate::decoded::{self, Operation};
use crate::memory::{Memory, Reservations, Stop, Windows, HEAP_AT, HEAP_LEN, STACK_AT, STACK_LEN, STACK_STEP};

const MOST_QUANTA: u64 = 16_777_216;
/// What stands in for x0 where a word writes it.
pub const NO_REGISTER: u8 = 32;

pub struct Hart {
    /// x0 to x31, and what is written in place of x0.
    pub x: [u64; 33],
    pub pc: u64,
    pub ticks: u64,
    pub stop: Option<Stop>,
}

impl Hart {
    fn new(pc: u64, number: u64, harts: u64) -> Hart {
        let mut x = [0; 33];
        x[2] = STACK_AT + number * STACK_STEP + STACK_LEN;
        x[10..14].copy_from_slice(&[number, harts, HEAP_AT, HEAP_LEN]);
        Hart { x, pc, ticks: 0, stop: None }
    }

    pub fn put(&mut self, register: usize, value: u64) {
        if register > 0 {
            self.x[register] = value;
        }
    }
}

/// What the harts share.
pub struct Shared {
    pub memory: Memory,
    pub windows: Windows,
    pub reservations: Reservations,
    pub output: Vec<u8>,
}

/// In which order harts take quanta, how long these are, and when a hart ends.
pub struct Order {
    pub seed: u64,
    pub quantum: u64,
    pub budget: u64,
}

pub struct Machine {
    pub shared: Shared,
    pub harts: Vec<Hart>,
    words: Vec<u32>,
    operations: Vec<Operation>,
}

impl Machine {
    pub fn new(mut memory: Memory, entry: u64, harts: u64) -> Machine {
        let windows = memory.windows();
        let words: Vec<u32> = memory.words().collect();
        let operations = decoded::operations(&words, &memory);
        let shared = Shared { memory, windows, reservations: Reservations::default(), output: Vec::new() };
        let harts = (0..harts).map(|number| Hart::new(entry, number, harts)).collect();
        Machine { shared, harts, words, operations }
    }

    /// Runs to the end.
    pub fn run(&mut self, order: &Order) {
        let mut ready: Vec<usize> = (0..self.harts.len()).collect();
        let (mut next, mut state, mut quanta) = (0, order.seed, 0);
        while !ready.is_empty() && quanta < MOST_QUANTA {
            let place = if order.seed == 0 {
                if next < ready.len() {
                    next
                } else {
                    0
                }
            } else {
                state = state.wrapping_mul(6_364_136_223_846_793_005).wrapping_add(1_442_695_040_888_963_407);
                (state >> 33) as usize % ready.len()
            };
            quanta += 1;
            if self.quantum(ready[place], order) {
                next = place + 1;
            } else {
                ready.remove(place);
                next = place;
            }
        }
    }

    /// Takes the turns of a quantum. Returns whether the hart can go on.
    fn quantum(&mut self, number: usize, order: &Order) -> bool {
        let hart = &mut self.harts[number];
        let most = order.quantum.min(order.budget - hart.ticks);
        hart.ticks += decoded::run(&mut self.shared, &self.words, &self.operations, hart, number, most);
        hart.stop.is_none() && hart.ticks < order.budget
    }
}
