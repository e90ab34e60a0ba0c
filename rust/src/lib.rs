//! An Intel 8080, stepped state by state, whose every function is proved.
//!
//! A [`Machine`] runs a number of states over a [`Board`], which holds its memory and its ports.
//! A [`Schedule`] moves the lines READY, HOLD and INT at given states, and a [`Trace`] keeps a
//! [`Row`] of every state. This crate is the safe side of the C functions in `libcapi.a`; it adds
//! names and types, and no rule of the processor.
//!
//! ```
//! use fezgandom::{Board, Machine, Ran, Schedule, Trace};
//!
//! let mut board = Board::with_program(&[0x3E, 0x05, 0x76]); // MVI A,05 and HLT
//! let mut machine = Machine::cold();
//! let mut trace = Trace::new();
//!
//! let ran = machine.run(&mut board, &Schedule::new(), &mut trace, 14)?;
//! assert_eq!(ran, Ran::Done { states: 14 });
//! assert_eq!(machine.a(), 5);
//! assert!(machine.is_halted());
//! assert_eq!(trace.rows()[6].to_string(), "6 T3 2 0001 05");
//! # Ok::<(), fezgandom::Refusal>(())
//! ```
//!
//! What a function refuses, it refuses by a [`Refusal`] with the customer paper's number, and then
//! nothing at all has changed. An undefined opcode is no refusal: the run has [`Ran::Stopped`].
//!
//! Rules worth knowing: a run does at most 8,192 states a call, and a longer one is several calls
//! with the same schedule, since a state's number is the clock before it. [`Machine::run_lent`]
//! takes buffers of your own, and [`ffi`] the bare functions. [`hex`] reads and writes Intel HEX.

mod board;
pub mod ffi;
mod flags;
pub mod hex;
mod machine;
mod refusal;
mod registers;
mod request;
mod row;
mod run;
mod schedule;
mod trace;

pub use board::Board;
pub use flags::Flags;
pub use machine::{Machine, Next};
pub use refusal::Refusal;
pub use request::Request;
pub use row::{Kind, Levels, Row, State};
pub use run::{Lent, Ran};
pub use schedule::Schedule;
pub use trace::Trace;

/// The bytes of memory.
pub const MEMORY: usize = 65_536;

/// The ports of each direction.
pub const PORTS: usize = 256;

/// The bytes of a machine's record.
pub const RECORD: usize = 64;

/// The bytes of a saved machine.
pub const SAVED: usize = 65_816;

/// The most states that one run may be asked for.
pub const MOST_STATES: u32 = 8_192;
