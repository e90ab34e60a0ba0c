//! Random schedules in order, and one event more or less in ways that are not.

use super::random::Random;
use crate::model::schedule::{Event, EVENT, MOST_EVENTS};

/// A schedule whose events lie around the clock, or no event.
pub fn schedule(random: &mut Random, clock: u32) -> Vec<u8> {
    let count = match random.below(64) {
        0..=15 => 0,
        16 => MOST_EVENTS,
        _ => 1 + random.below(24),
    };
    in_order(random, clock, count)
}

/// So many events in order, from a little before the clock on.
pub fn in_order(random: &mut Random, clock: u32, count: usize) -> Vec<u8> {
    let mut state = clock.saturating_sub(random.below(8) as u32);
    let mut line = 0;
    let mut bytes = vec![];
    let gap = 1 + random.below(8);
    while bytes.len() < EVENT * count {
        if line > 2 || random.once_in(2) {
            let Some(next) = state.checked_add(1 + random.below(gap) as u32) else {
                break;
            };
            (state, line) = (next, random.below(3) as u8);
        }
        let value = value(random, line);
        bytes.extend(Event { state, line, value }.bytes());
        line += 1;
    }
    bytes
}

/// A value that the line takes, more often the one at rest than not.
fn value(random: &mut Random, line: u8) -> u8 {
    match line {
        2 if random.once_in(4) => 8,
        2 => random.below(8) as u8,
        0 => u8::from(!random.once_in(3)),
        _ => u8::from(random.once_in(3)),
    }
}

/// The place of some event, after one was added to an empty schedule.
fn some_event(random: &mut Random, schedule: &mut Vec<u8>) -> usize {
    if schedule.is_empty() {
        schedule.extend([1, 0, 0, 0, 0, 0]);
    }
    EVENT * random.below(schedule.len() / EVENT)
}

/// Makes the length no multiple of 6.
pub fn break_length(random: &mut Random, schedule: &mut Vec<u8>) {
    let more = 1 + random.below(EVENT - 1);
    schedule.extend(std::iter::repeat_n(0, more));
}

/// Makes the schedule longer than 1,000 events, sometimes by one byte.
pub fn make_long(random: &mut Random, schedule: &mut Vec<u8>) {
    *schedule = in_order(random, 0, MOST_EVENTS + 1);
    if random.once_in(4) {
        schedule.truncate(EVENT * MOST_EVENTS + 1);
    }
}

/// Gives some event an unlisted line.
pub fn break_line(random: &mut Random, schedule: &mut Vec<u8>) {
    let at = some_event(random, schedule);
    schedule[at + 4] = match random.once_in(2) {
        true => 3,
        false => 3 + random.below(253) as u8,
    };
}

/// Gives some event an unlisted value.
pub fn break_value(random: &mut Random, schedule: &mut Vec<u8>) {
    let at = some_event(random, schedule);
    let least = if schedule[at + 4] == 2 { 9 } else { 2 };
    schedule[at + 5] = match random.once_in(2) {
        true => least,
        false => least + random.below(240) as u8,
    };
}

/// Breaks the order: an event comes twice, or two change places.
pub fn break_order(random: &mut Random, schedule: &mut Vec<u8>) {
    let at = some_event(random, schedule);
    let event: Vec<u8> = schedule[at..at + EVENT].to_vec();
    if random.once_in(2) || at == 0 {
        schedule.splice(at..at, event);
    } else {
        schedule.copy_within(at - EVENT..at, at);
        schedule[at - EVENT..at].copy_from_slice(&event);
    }
}
