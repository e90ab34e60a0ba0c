//! `bench-run SIDE PROGRAM WAY CALLS`: so many runs of 8,192 states, their checksum and their time.
//! `bench-run same PROGRAM WAY CALLS`: fails unless both sides leave the same after each run.
//! `bench-run wild CALLS`: the same for runs of random bytes under random events, each from a cold machine, on a stack of 64 KiB.
//!
//! SIDE is proved or plain, PROGRAM is mix, dcr or int. WAY is
//! - on: the machine goes on from run to run, and no event comes;
//! - cold: each run starts from a cold machine, over the memory that the last one left;
//! - events: as cold, with 1,000 events in each run; events100: with 100 of them.

mod arithmetic;
mod plain;
mod programs;
mod proved;
mod tables;

use std::hint::black_box;
use std::time::Instant;

const STATES: u32 = 8_192;

/// The stack that a run may use, in bytes.
const STACK: usize = 64 * 1024;

/// Runs in a row: how many, of how many states, over memory, inputs, outputs, schedule and trace; the states done in all.
type Rounds = fn(u32, u32, &mut [u8], &[u8], &mut [u8], &[u8], &mut [u8]) -> u64;

/// What is lent to a run.
#[derive(PartialEq)]
struct World {
    memory: Vec<u8>,
    inputs: Vec<u8>,
    outputs: Vec<u8>,
    schedule: Vec<u8>,
    trace: Vec<u8>,
    done: u64,
}

impl World {
    fn new(program: &str, way: &str) -> World {
        World {
            memory: programs::program(program),
            inputs: (0..=255).collect(),
            outputs: vec![0; 256],
            schedule: way.strip_prefix("events").map_or(vec![], events),
            trace: vec![0; 8 * STATES as usize],
            done: 0,
        }
    }

    /// So many runs from a cold machine on.
    fn go(&mut self, side: Rounds, calls: u32) {
        self.done += side(
            calls,
            STATES,
            &mut self.memory,
            &self.inputs,
            &mut self.outputs,
            &self.schedule,
            &mut self.trace,
        );
    }

    fn checksum(&self) -> u64 {
        let bytes = self.memory.iter().chain(&self.outputs).chain(&self.trace);
        bytes.fold(self.done, |sum, &b| {
            (sum ^ u64::from(b)).wrapping_mul(0x0000_0100_0000_01B3)
        })
    }
}

/// So many events, 1,000 where no number is given: READY goes down and two states later up again, evenly over 8,000 states.
fn events(number: &str) -> Vec<u8> {
    let events: u32 = number.parse().unwrap_or(1_000);
    let apart = 16_000 / events;
    let event = |number: u32, value: u8| {
        let [a, b, c, d] = number.to_le_bytes();
        [a, b, c, d, 0, value]
    };
    (0..events / 2)
        .flat_map(|k| [event(apart * k, 0), event(apart * k + 2, 1)])
        .flatten()
        .collect()
}

fn measure(side: Rounds, program: &str, way: &str, calls: u32) {
    let mut world = World::new(program, way);
    let start = Instant::now();
    if way == "on" {
        world.go(side, calls);
    } else {
        for _ in 0..calls {
            world.go(side, 1);
        }
    }
    let seconds = start.elapsed().as_secs_f64();
    assert!(world.done == u64::from(calls) * u64::from(STATES));
    println!("{:016x} {seconds:.3}", world.checksum());
}

/// After each number of runs both sides have done the same: states, memory, outputs and trace.
fn same(program: &str, way: &str, calls: u32) {
    let mut proved = World::new(program, way);
    let mut plain = World::new(program, way);
    for call in 1..=calls {
        if way == "on" {
            proved = World::new(program, way);
            plain = World::new(program, way);
        }
        let runs = if way == "on" { call } else { 1 };
        proved.go(proved::rounds, runs);
        plain.go(plain::rounds, runs);
        assert!(proved == plain, "{program}, {way}: run {call} differs");
    }
}

/// Both sides do the same with random memory, ports and events. It runs on a thread whose stack is as large as a run may use: one
/// that needs more ends the program.
fn wild(calls: u64) {
    let small = std::thread::Builder::new().stack_size(STACK);
    let thread = small.spawn(move || wild_runs(calls)).expect("a thread");
    let states = thread.join().expect("both sides the same");
    println!(
        "{calls} wild runs of {states} states: the same on both sides, on a stack of {STACK} bytes"
    );
}

/// The states of so many wild runs.
fn wild_runs(calls: u64) -> u64 {
    let mut states = 0;
    for seed in 1..=calls {
        let mut random = programs::Random(seed.wrapping_mul(0x9E37_79B9_7F4A_7C15));
        let memory = programs::wild(&mut random);
        let schedule = programs::wild_events(&mut random);
        let world = || World {
            memory: memory.clone(),
            inputs: (0..=255).map(|p: u8| p ^ seed as u8).collect(),
            outputs: vec![0; 256],
            schedule: schedule.clone(),
            trace: vec![0; 8 * STATES as usize],
            done: 0,
        };
        let (mut proved, mut plain) = (world(), world());
        proved.go(proved::rounds, 1);
        plain.go(plain::rounds, 1);
        assert!(proved == plain, "wild run {seed} differs");
        states += proved.done;
    }
    states
}

fn main() {
    let words: Vec<String> = std::env::args().collect();
    if words.len() == 3 && words[1] == "wild" {
        return wild(words[2].parse().expect("a number of runs"));
    }
    assert!(words.len() == 5, "bench-run SIDE PROGRAM WAY CALLS");
    let (program, way) = (words[2].as_str(), words[3].as_str());
    assert!(matches!(way, "on" | "cold") || way.starts_with("events"));
    let calls = words[4].parse().expect("a number of calls");
    match words[1].as_str() {
        "proved" => measure(black_box(proved::rounds as Rounds), program, way, calls),
        "plain" => measure(black_box(plain::rounds as Rounds), program, way, calls),
        "same" => same(program, way, calls),
        _ => panic!("a side is proved, plain or same"),
    }
}
