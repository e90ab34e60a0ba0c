//! Reads a text in Intel HEX and writes the memory that it gives, 65,536 bytes with zeros where no
//! record lands, or LENGTH bytes of it from START on.
//!
//!     hex2bin IN.hex OUT.bin [START LENGTH]
//!
//! Numbers are decimal, or hex after 0x. What is refused is told with the paper's number and the
//! line at fault, and OUT is not touched then.

mod shell;

use fezgandom::{hex, Refusal, MEMORY};
use shell::{number, read, refused, run, write, Failure};
use std::ffi::OsString;
use std::process::ExitCode;

fn work(words: &[OsString]) -> Result<(), Failure> {
    let (input, output, start, length) = match words {
        [input, output] => (input, output, 0, MEMORY),
        [input, output, start, length] => (input, output, number(start)?, number(length)?),
        _ => return Err(Failure::Usage),
    };
    let mut memory = vec![0; MEMORY];
    hex::read(&read(input)?, &mut memory).map_err(|fault| refused(input, fault))?;
    let range = start..start.saturating_add(length);
    match memory.get(range) {
        Some(bytes) => write(output, bytes),
        None => Err(refused(input, Refusal::HexPastEnd)),
    }
}

fn main() -> ExitCode {
    run("hex2bin", "IN.hex OUT.bin [START LENGTH]", work)
}
