//! What `hex2bin` and `bin2hex` share: arguments, files, and how a failure is told.

use std::ffi::{OsStr, OsString};
use std::fmt::Display;
use std::path::Path;
use std::process::ExitCode;

/// Why a program failed.
pub enum Failure {
    /// The arguments are none that it takes.
    Usage,
    /// What it says of a file.
    Told(String),
}

/// Gives the arguments to a program's work. A failure is told on standard error, with exit status 1
/// for what is refused or cannot be read or written, and 2 for wrong arguments.
pub fn run(name: &str, usage: &str, work: fn(&[OsString]) -> Result<(), Failure>) -> ExitCode {
    let words: Vec<OsString> = std::env::args_os().skip(1).collect();
    match work(&words) {
        Ok(()) => ExitCode::SUCCESS,
        Err(Failure::Told(failure)) => {
            eprintln!("{name}: {failure}");
            ExitCode::from(1)
        }
        Err(Failure::Usage) => {
            eprintln!("usage: {name} {usage}");
            ExitCode::from(2)
        }
    }
}

/// The number in an argument: decimal, or hex after 0x.
pub fn number(word: &OsStr) -> Result<usize, Failure> {
    let word = word.to_str().ok_or(Failure::Usage)?;
    let (digits, base) = match word.strip_prefix("0x") {
        Some(digits) => (digits, 16),
        None => (word, 10),
    };
    if digits.starts_with('+') {
        return Err(Failure::Usage);
    }
    usize::from_str_radix(digits, base).map_err(|_| Failure::Usage)
}

/// The bytes of a file.
pub fn read(file: &OsStr) -> Result<Vec<u8>, Failure> {
    std::fs::read(file).map_err(|error| told(file, error))
}

/// Makes bytes the whole of a file.
pub fn write(file: &OsStr, bytes: &[u8]) -> Result<(), Failure> {
    std::fs::write(file, bytes).map_err(|error| told(file, error))
}

/// A refusal of what a file holds.
pub fn refused(file: &OsStr, refusal: impl Display) -> Failure {
    told(file, format_args!("refused {refusal}"))
}

/// What is said of a file.
fn told(file: &OsStr, what: impl Display) -> Failure {
    Failure::Told(format!("{}: {what}", Path::new(file).display()))
}
