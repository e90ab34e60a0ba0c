//! Why a function does nothing.

use std::fmt;

/// Why a function refused what it was asked, with the paper's number. Nothing has changed then.
///
/// 0 is done and 10 is a stop, so neither is here.
///
/// ```
/// use fezgandom::{Board, Machine, Refusal, Schedule, Trace};
///
/// let backwards = Schedule::new().at(9).ready(false).at(5).ready(true);
/// let refused = Machine::cold().run(&mut Board::new(), &backwards, &mut Trace::new(), 10);
/// assert_eq!(refused, Err(Refusal::EventOrder));
/// assert_eq!(Refusal::EventOrder.number(), 5);
/// ```
#[derive(Clone, Copy, Debug, PartialEq, Eq, Hash)]
#[repr(u8)]
pub enum Refusal {
    /// Memory is not 65,536 bytes.
    MemorySize = 1,
    /// A port buffer is not 256 bytes.
    PortSize = 2,
    /// The schedule's length is no multiple of 6, or over 6,000.
    ScheduleLength = 3,
    /// An event's line or value is not listed.
    EventValue = 4,
    /// The events' order is broken.
    EventOrder = 5,
    /// More than 8,192 states are asked.
    TooManyStates = 6,
    /// The trace is shorter than 8 times the states asked.
    TraceShort = 7,
    /// The machine's record is ill formed.
    IllFormed = 8,
    /// The clock and the states asked exceed 4,294,967,295.
    ClockRange = 9,
    /// Saving: the machine is inside an instruction.
    InsideInstruction = 11,
    /// Loading: the saved form is not 65,816 bytes.
    SavedSize = 12,
    /// Loading: a field is outside its range.
    FieldRange = 13,
    /// Saving: the output is not 65,816 bytes.
    OutputSize = 14,
    /// Intel HEX: a line is malformed, an end record with data or a nonzero address too, or its
    /// checksum is wrong.
    HexMalformed = 15,
    /// Intel HEX: a record's type is neither 00 nor 01.
    HexOtherType = 16,
    /// Intel HEX: data, or a range to write, go past hex FFFF.
    HexPastEnd = 17,
    /// Intel HEX: there is no end record.
    HexNoEnd = 18,
    /// Intel HEX: the output is shorter than the text.
    HexOutputShort = 19,
}

impl Refusal {
    /// All refusals, by rising number.
    pub const ALL: [Refusal; 18] = [
        Refusal::MemorySize,
        Refusal::PortSize,
        Refusal::ScheduleLength,
        Refusal::EventValue,
        Refusal::EventOrder,
        Refusal::TooManyStates,
        Refusal::TraceShort,
        Refusal::IllFormed,
        Refusal::ClockRange,
        Refusal::InsideInstruction,
        Refusal::SavedSize,
        Refusal::FieldRange,
        Refusal::OutputSize,
        Refusal::HexMalformed,
        Refusal::HexOtherType,
        Refusal::HexPastEnd,
        Refusal::HexNoEnd,
        Refusal::HexOutputShort,
    ];

    /// The paper's number.
    pub const fn number(self) -> u8 {
        self as u8
    }

    /// The refusal of a number, none for 0, 10 and those past 19.
    pub fn from_number(number: u8) -> Option<Refusal> {
        Refusal::ALL.into_iter().find(|r| r.number() == number)
    }

    /// What is wrong, in words.
    pub const fn words(self) -> &'static str {
        match self {
            Refusal::MemorySize => "memory is not 65,536 bytes",
            Refusal::PortSize => "a port buffer is not 256 bytes",
            Refusal::ScheduleLength => "schedule length is no multiple of 6, or over 6,000",
            Refusal::EventValue => "an event's line or value is not listed",
            Refusal::EventOrder => "the events' order is broken",
            Refusal::TooManyStates => "more than 8,192 states asked",
            Refusal::TraceShort => "trace shorter than 8 times the states asked",
            Refusal::IllFormed => "the machine record is ill formed",
            Refusal::ClockRange => "clock plus states asked exceeds 4,294,967,295",
            Refusal::InsideInstruction => "the machine is inside an instruction",
            Refusal::SavedSize => "a saved machine is 65,816 bytes, this is not",
            Refusal::FieldRange => "a field of the saved machine is outside its range",
            Refusal::OutputSize => "the output for a saved machine is not 65,816 bytes",
            Refusal::HexMalformed => "malformed line or wrong checksum",
            Refusal::HexOtherType => "a record's type is neither 00 nor 01",
            Refusal::HexPastEnd => "data, or a range to write, past hex FFFF",
            Refusal::HexNoEnd => "no end record",
            Refusal::HexOutputShort => "output shorter than the text",
        }
    }

    /// What a number answered means, where it is not 10.
    pub(crate) fn judge(number: u8) -> Result<(), Refusal> {
        match Refusal::from_number(number) {
            Some(refusal) => Err(refusal),
            None => {
                assert_eq!(number, 0, "every number answered is listed");
                Ok(())
            }
        }
    }
}

/// The words, with the number before them.
impl fmt::Display for Refusal {
    fn fmt(&self, f: &mut fmt::Formatter<'_>) -> fmt::Result {
        write!(f, "{}: {}", self.number(), self.words())
    }
}

impl std::error::Error for Refusal {}
