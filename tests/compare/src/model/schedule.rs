//! Document 01, "Schedule": events of 6 bytes and the tests on them.

use super::record::Machine;

/// The bytes of an event and the most events of a schedule.
pub const EVENT: usize = 6;
pub const MOST_EVENTS: usize = 1000;

/// An event: when, which line, and to what value.
#[derive(Clone, Copy, Debug, PartialEq, Eq)]
pub struct Event {
    pub state: u32,
    pub line: u8,
    pub value: u8,
}

impl Event {
    /// The event in these six bytes.
    fn read(bytes: &[u8]) -> Event {
        Event {
            state: u32::from_le_bytes([bytes[0], bytes[1], bytes[2], bytes[3]]),
            line: bytes[4],
            value: bytes[5],
        }
    }

    /// The six bytes of an event.
    pub fn bytes(&self) -> [u8; EVENT] {
        let [a, b, c, d] = self.state.to_le_bytes();
        [a, b, c, d, self.line, self.value]
    }

    /// Whether line and value are among those listed.
    fn is_listed(&self) -> bool {
        match self.line {
            0 | 1 => self.value <= 1,
            2 => self.value <= 8,
            _ => false,
        }
    }

    /// Whether this event may stand right after the other.
    fn may_follow(&self, other: &Event) -> bool {
        (other.state, other.line) < (self.state, self.line)
    }
}

/// The events of a schedule in their order.
fn events(schedule: &[u8]) -> impl Iterator<Item = Event> + '_ {
    schedule.chunks_exact(EVENT).map(Event::read)
}

/// Test 3: the length is no multiple of 6, or there are too many events.
pub fn has_bad_length(schedule: &[u8]) -> bool {
    schedule.len() % EVENT != 0 || schedule.len() > EVENT * MOST_EVENTS
}

/// Test 4: some event has an unlisted line or value.
pub fn has_bad_event(schedule: &[u8]) -> bool {
    !events(schedule).all(|event| event.is_listed())
}

/// Test 5: state numbers fall somewhere, or line codes do not rise at equal ones.
pub fn has_bad_order(schedule: &[u8]) -> bool {
    let later = events(schedule).skip(1);
    !events(schedule)
        .zip(later)
        .all(|(first, second)| second.may_follow(&first))
}

/// A schedule and how many of its events are past.
pub struct Cursor<'a> {
    schedule: &'a [u8],
    past: usize,
}

impl<'a> Cursor<'a> {
    /// A schedule before its first event.
    pub fn new(schedule: &'a [u8]) -> Cursor<'a> {
        Cursor { schedule, past: 0 }
    }

    /// The events of the state that is about to begin set the machine's lines; older ones are passed over.
    pub fn meet(&mut self, m: &mut Machine) {
        while let Some(bytes) = self.schedule[EVENT * self.past..].get(..EVENT) {
            let event = Event::read(bytes);
            if event.state > m.clock {
                return;
            }
            self.past += 1;
            if event.state == m.clock {
                match event.line {
                    0 => m.ready = event.value,
                    1 => m.hold = event.value,
                    _ => m.int = event.value,
                }
            }
        }
    }
}
