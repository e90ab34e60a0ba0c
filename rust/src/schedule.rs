//! Events on the lines READY, HOLD and INT.

/// What happens on the lines, and at which states. A state's number is the clock before it.
///
/// A builder: `at` names a state, and what follows happens at the start of it. Nothing is judged
/// here; a run refuses what is not listed (4), out of order (5) or too much (3). State numbers
/// must not fall, and within one state READY comes before HOLD before INT.
///
/// ```
/// use fezgandom::Schedule;
///
/// let schedule = Schedule::new()
///     .at(12).ready(false)
///     .at(14).ready(true)
///     .at(38).hold(true).int(6);
/// assert_eq!(schedule.len(), 4);
/// assert_eq!(schedule.as_bytes()[..6], [12, 0, 0, 0, 0, 0]);
/// ```
#[derive(Clone, Debug, Default)]
pub struct Schedule {
    bytes: Vec<u8>,
    state: u32,
}

const READY: u8 = 0;
const HOLD: u8 = 1;
const INT: u8 = 2;
const INT_DOWN: u8 = 8;

impl Schedule {
    /// The bytes of an event.
    pub const EVENT: usize = 6;

    /// No events.
    pub const fn new() -> Schedule {
        Schedule {
            bytes: Vec::new(),
            state: 0,
        }
    }

    /// A schedule of bytes as they are: for each event the state number (4 bytes, low first), the
    /// line and the value.
    pub fn from_bytes(bytes: impl Into<Vec<u8>>) -> Schedule {
        Schedule {
            bytes: bytes.into(),
            state: 0,
        }
    }

    /// The state of the events that follow.
    pub fn at(mut self, state: u32) -> Schedule {
        self.state = state;
        self
    }

    /// READY goes up or down.
    pub fn ready(self, up: bool) -> Schedule {
        self.event(READY, u8::from(up))
    }

    /// HOLD goes up or down.
    pub fn hold(self, up: bool) -> Schedule {
        self.event(HOLD, u8::from(up))
    }

    /// INT goes up with a restart number, 0 to 7.
    pub fn int(self, restart: u8) -> Schedule {
        self.event(INT, restart)
    }

    /// INT goes down.
    pub fn int_down(self) -> Schedule {
        self.event(INT, INT_DOWN)
    }

    /// An event by its line's code and its value.
    pub fn event(mut self, line: u8, value: u8) -> Schedule {
        self.bytes.extend(self.state.to_le_bytes());
        self.bytes.extend([line, value]);
        self
    }

    /// The number of events.
    pub fn len(&self) -> usize {
        self.bytes.len() / Schedule::EVENT
    }

    /// Whether there are no bytes at all.
    pub fn is_empty(&self) -> bool {
        self.bytes.is_empty()
    }

    /// The bytes, six for each event.
    pub fn as_bytes(&self) -> &[u8] {
        &self.bytes
    }
}

#[cfg(test)]
mod tests {
    use super::Schedule;

    #[test]
    fn events_are_six_bytes_each() {
        let built = Schedule::new()
            .at(12)
            .ready(false)
            .at(0x0102_0304)
            .hold(true)
            .int(6)
            .at(u32::MAX)
            .int_down();
        let bytes = [
            [12, 0, 0, 0, 0, 0],
            [4, 3, 2, 1, 1, 1],
            [4, 3, 2, 1, 2, 6],
            [255, 255, 255, 255, 2, 8],
        ];
        assert_eq!(built.as_bytes(), bytes.concat());
        assert_eq!(built.len(), 4);
    }

    #[test]
    fn events_before_any_state_is_named_are_at_state_0() {
        assert_eq!(Schedule::new().ready(true).as_bytes(), [0, 0, 0, 0, 0, 1]);
    }

    #[test]
    fn bytes_are_kept_as_they_are() {
        assert_eq!(Schedule::from_bytes([1, 2, 3]).as_bytes(), [1, 2, 3]);
        assert!(Schedule::new().is_empty());
    }
}
