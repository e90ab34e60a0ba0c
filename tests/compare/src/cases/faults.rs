//! What a run is given, with none, one or two faults that it must refuse in the right order.

use super::random::Random;
use super::schedules::{break_length, break_line, break_order, break_value, make_long, schedule};
use super::world::World;
use super::{programs, records};
use crate::model::refusals::{MEMORY, MOST_STATES, PORTS};

/// The faults, in the order in which they are put in.
#[derive(Clone, Copy, Debug, PartialEq, Eq, PartialOrd, Ord)]
pub enum Fault {
    States,
    Long,
    Order,
    Line,
    Value,
    Length,
    Clock,
    Record,
    Trace,
    Memory,
    Inputs,
    Outputs,
}

/// All of them.
pub const FAULTS: [Fault; 12] = [
    Fault::States,
    Fault::Long,
    Fault::Order,
    Fault::Line,
    Fault::Value,
    Fault::Length,
    Fault::Clock,
    Fault::Record,
    Fault::Trace,
    Fault::Memory,
    Fault::Inputs,
    Fault::Outputs,
];

/// No fault mostly, or one, or two different ones.
pub fn choose(random: &mut Random) -> Vec<Fault> {
    let count = [0, 0, 0, 0, 1, 1, 2, 2][random.below(8)];
    let mut chosen: Vec<Fault> = (0..count).map(|_| random.pick(&FAULTS)).collect();
    chosen.sort();
    chosen.dedup();
    chosen
}

/// Fills a world for a run with these faults, and says how many states are asked.
pub fn build(random: &mut Random, world: &mut World, memory: &[u8], faults: &[Fault]) -> u32 {
    let record = records::well_formed(random);
    world.prepare(random, &record, memory);
    let pc = world.pc();
    programs::program(random, &mut world.memory, pc);
    world.schedule = schedule(random, world.clock());
    let mut states = asked(random);
    if faults.contains(&Fault::Clock) || faults.contains(&Fault::Trace) {
        states = states.max(1);
    }
    if faults.contains(&Fault::States) {
        states = too_many(random);
    } else if !faults.contains(&Fault::Clock) {
        leave_room(world, states);
    }
    make_trace(random, world, states);
    for &fault in faults {
        put(random, world, states, fault);
    }
    states
}

/// The states asked: few, none, or the most allowed.
fn asked(random: &mut Random) -> u32 {
    match random.below(512) {
        0 => MOST_STATES,
        1..=16 => 0,
        _ => random.below(48) as u32,
    }
}

/// More states than allowed.
fn too_many(random: &mut Random) -> u32 {
    match random.below(4) {
        0 | 1 => MOST_STATES + 1,
        2 => u32::MAX,
        _ => MOST_STATES + 1 + random.below(100_000) as u32,
    }
}

/// Sets the clock back where it would not hold so many states more; at times it just does.
fn leave_room(world: &mut World, states: u32) {
    let clock = world.clock().min(u32::MAX - states);
    world.record[14..18].copy_from_slice(&clock.to_le_bytes());
}

/// A trace that is long enough, at times longer, filled with one byte; a short one for very many states.
pub fn make_trace(random: &mut Random, world: &mut World, states: u32) {
    let rows = if states > MOST_STATES + 1 { 16 } else { states };
    let more = if random.once_in(4) {
        random.below(40)
    } else {
        0
    };
    world.trace.clear();
    world.trace.resize(8 * rows as usize + more, random.byte());
}

/// A length that is wrong, mostly by one.
pub fn wrong_length(random: &mut Random, right: usize) -> usize {
    match random.below(8) {
        0..=2 => right - 1,
        3..=5 => right + 1,
        6 => 0,
        _ => random.below(right),
    }
}

/// Puts one fault in.
fn put(random: &mut Random, world: &mut World, states: u32, fault: Fault) {
    match fault {
        Fault::States => {}
        Fault::Long => make_long(random, &mut world.schedule),
        Fault::Order => break_order(random, &mut world.schedule),
        Fault::Line => break_line(random, &mut world.schedule),
        Fault::Value => break_value(random, &mut world.schedule),
        Fault::Length => break_length(random, &mut world.schedule),
        Fault::Clock => {
            let clock = u32::MAX - random.below(states as usize) as u32;
            world.record[14..18].copy_from_slice(&clock.to_le_bytes());
        }
        Fault::Record => records::damage(random, &mut world.record),
        Fault::Trace => {
            let right = world.trace.len().min(8 * states as usize);
            let less = if random.once_in(2) {
                1
            } else {
                1 + random.below(right)
            };
            world.trace.truncate(right - less);
        }
        Fault::Memory => world.memory.resize(wrong_length(random, MEMORY), 0),
        Fault::Inputs => world.inputs.resize(wrong_length(random, PORTS), 0),
        Fault::Outputs => world.outputs.resize(wrong_length(random, PORTS), 0),
    }
}
