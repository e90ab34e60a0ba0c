//! The rows of runs.

use crate::row::{Row, ROW};
use crate::MOST_STATES;
use std::fmt;

/// The rows of one or more runs, each run's after those before it.
///
/// ```
/// use fezgandom::{Board, Kind, Machine, Schedule, State, Trace};
///
/// let mut board = Board::with_program(&[0xC5]); // PUSH B at SP 0
/// let mut trace = Trace::new();
/// Machine::cold().run(&mut board, &Schedule::new(), &mut trace, 11)?;
/// let writes = trace.rows().iter().filter(|r| r.kind == Kind::StackWrite && r.state == State::T3);
/// let addresses: Vec<u16> = writes.map(|r| r.address).collect();
/// assert_eq!(addresses, [0xFFFF, 0xFFFE]);
/// # Ok::<(), fezgandom::Refusal>(())
/// ```
#[derive(Clone, Debug, Default)]
pub struct Trace {
    rows: Vec<Row>,
    room: Vec<u8>,
}

impl Trace {
    /// A trace without rows.
    pub const fn new() -> Trace {
        Trace {
            rows: Vec::new(),
            room: Vec::new(),
        }
    }

    /// All rows so far.
    pub fn rows(&self) -> &[Row] {
        &self.rows
    }

    /// Drops all rows.
    pub fn clear(&mut self) {
        self.rows.clear();
    }

    /// Bytes for the rows of a run of so many states. More than a run may be asked for need none,
    /// since it is refused for that first.
    pub(crate) fn room(&mut self, states: u32) -> &mut [u8] {
        let needed = ROW * states.min(MOST_STATES) as usize;
        if self.room.len() < needed {
            self.room.resize(needed, 0);
        }
        &mut self.room
    }

    /// Adds the rows of a run that did so many states from a clock on.
    pub(crate) fn take(&mut self, clock: u32, states: u32) {
        let done = &self.room[..ROW * states as usize];
        for (bytes, number) in done.chunks_exact(ROW).zip(clock..) {
            let bytes = bytes.try_into().expect("a row is eight bytes");
            let row = Row::from_bytes(number, bytes).expect("a run writes listed codes only");
            self.rows.push(row);
        }
    }
}

/// A line for each row.
impl fmt::Display for Trace {
    fn fmt(&self, f: &mut fmt::Formatter<'_>) -> fmt::Result {
        self.rows.iter().try_for_each(|row| writeln!(f, "{row}"))
    }
}
