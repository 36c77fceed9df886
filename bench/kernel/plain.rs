//! The kernel's cycle with plain collections: the waiters of an event in a `BTreeMap` by value and
//! then arrival, the ready slots and the free slots in a `VecDeque`.
use std::collections::{BTreeMap, VecDeque};
use std::time::Instant;

const EVENTS: usize = 64;
const SLOTS: usize = 256;
const ROUNDS: u32 = 20_000;
const ADVANCES: u32 = 20_000;

struct Kernel {
    counts: Vec<u128>,
    waiters: Vec<BTreeMap<(u128, u64), usize>>,
    arrivals: u64,
    ready: VecDeque<usize>,
    free: VecDeque<usize>,
}

impl Kernel {
    fn new(slots: usize, events: usize) -> Kernel {
        Kernel {
            counts: vec![0; events],
            waiters: vec![BTreeMap::new(); events],
            arrivals: 0,
            ready: VecDeque::with_capacity(slots),
            free: (0..slots).collect(),
        }
    }

    fn park(&mut self, event: usize, value: u128, slot: usize) {
        self.waiters[event].insert((value, self.arrivals), slot);
        self.arrivals += 1;
    }

    fn advance(&mut self, event: usize) -> usize {
        self.counts[event] += 1;
        let count = self.counts[event];
        let mut woken = 0;
        while let Some(first) = self.waiters[event].first_entry() {
            if first.key().0 > count {
                break;
            }
            self.ready.push_back(first.remove());
            woken += 1;
        }
        woken
    }

    fn read(&self, event: usize) -> u128 {
        self.counts[event]
    }

    fn next_ready(&mut self) -> Option<usize> {
        self.ready.pop_front()
    }

    fn take_slot(&mut self) -> Option<usize> {
        self.free.pop_front()
    }

    fn free_slot(&mut self, slot: usize) {
        self.free.push_back(slot);
    }
}

fn park_all(kernel: &mut Kernel, slots: usize) {
    for number in 0..slots {
        if let Some(slot) = kernel.take_slot() {
            let event = number % EVENTS;
            kernel.park(event, kernel.read(event) + 1, slot);
        }
    }
}

fn park_at_first(kernel: &mut Kernel, slots: usize) {
    for _ in 0..slots {
        if let Some(slot) = kernel.take_slot() {
            kernel.park(0, kernel.read(0) + 1, slot);
        }
    }
}

fn park_for_ever(kernel: &mut Kernel, slots: usize) {
    for _ in 0..slots {
        if let Some(slot) = kernel.take_slot() {
            kernel.park(0, u128::MAX, slot);
        }
    }
}

fn free_all(kernel: &mut Kernel, slots: usize) {
    for _ in 0..slots {
        if let Some(slot) = kernel.next_ready() {
            kernel.free_slot(slot);
        }
    }
}

fn main() {
    let mut kernel = Kernel::new(SLOTS, EVENTS);
    let mut woken = 0;
    let start = Instant::now();
    for _ in 0..ROUNDS {
        park_all(&mut kernel, SLOTS);
        for event in 0..EVENTS {
            woken += kernel.advance(event);
        }
        free_all(&mut kernel, SLOTS);
    }
    println!("cycle {} {}", start.elapsed().as_nanos(), woken);
    for wakes in [0, 1, 4, 16, 64, 255] {
        let mut kernel = Kernel::new(SLOTS, EVENTS);
        park_at_first(&mut kernel, wakes);
        park_for_ever(&mut kernel, SLOTS);
        let mut nanoseconds = 0;
        for _ in 0..ADVANCES {
            let start = Instant::now();
            kernel.advance(0);
            nanoseconds += start.elapsed().as_nanos();
            free_all(&mut kernel, wakes);
            park_at_first(&mut kernel, wakes);
        }
        println!("advance {wakes} {nanoseconds}");
    }
}
