//! Writes the bytes of a file as a text in Intel HEX, for the addresses from START on, or from 0.
//!
//!     bin2hex IN.bin OUT.hex [START]
//!
//! START is decimal, or hex after 0x. A file that goes past hex FFFF is refused with 17, and OUT is
//! not touched then.

mod shell;

use fezgandom::{hex, MEMORY};
use shell::{number, read, refused, run, write, Failure};
use std::ffi::OsString;
use std::process::ExitCode;

fn work(words: &[OsString]) -> Result<(), Failure> {
    let (input, output, start) = match words {
        [input, output] => (input, output, 0),
        [input, output, start] => (input, output, number(start)?),
        _ => return Err(Failure::Usage),
    };
    let bytes = read(input)?;
    let range = start..start.saturating_add(bytes.len());
    let mut memory = vec![0; MEMORY];
    // A range that is not in memory is refused below.
    if let Some(room) = memory.get_mut(range.clone()) {
        room.copy_from_slice(&bytes);
    }
    let text = hex::text(&memory, range).map_err(|refusal| refused(input, refusal))?;
    write(output, &text)
}

fn main() -> ExitCode {
    run("bin2hex", "IN.bin OUT.hex [START]", work)
}
