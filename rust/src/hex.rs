//! Intel HEX, as EPROM programmers speak it: a text's records into memory, and a range of memory
//! as a text.
//!
//! Records are of type 00, data, and 01, the end; other types are refused. Lines end in LF or
//! CR LF, which the last may lack, and digits may be of either case. What follows the end record is
//! ignored. Written are data records of 16 bytes, the last shorter, in capitals with CR LF.
//!
//! ```
//! use fezgandom::{hex, Board};
//!
//! let mut board = Board::new();
//! hex::read(b":030000003e057644\n:00000001ff\n", &mut board.memory[..])?;
//! assert_eq!(board.memory[..4], [0x3E, 0x05, 0x76, 0x00]);
//!
//! let text = hex::text(&board.memory[..], 0x0000..0x0003)?;
//! assert_eq!(text, b":030000003E057644\r\n:00000001FF\r\n");
//! # Ok::<(), Box<dyn std::error::Error>>(())
//! ```

use crate::{ffi, Refusal};
use std::fmt;
use std::ops::Range;

/// The bytes of the longest text that is written: that of the whole memory.
pub const MOST_BYTES: usize = 184_333;

/// Why a text was not read. No byte of memory has changed then.
///
/// ```
/// use fezgandom::{hex, Refusal, MEMORY};
///
/// let wrong_sum = b":00000001FE";
/// let fault = hex::read(wrong_sum, &mut [0; MEMORY]).unwrap_err();
/// assert_eq!((fault.refusal, fault.line), (Refusal::HexMalformed, Some(1)));
/// assert_eq!(fault.to_string(), "15 in line 1: malformed line or wrong checksum");
///
/// let fault = hex::read(b"", &mut [0; MEMORY]).unwrap_err();
/// assert_eq!(fault.to_string(), "18: no end record");
/// ```
#[derive(Clone, Copy, Debug, PartialEq, Eq, Hash)]
pub struct Fault {
    /// What is wrong.
    pub refusal: Refusal,
    /// The line at fault, from 1 on. None for 1 and 18, which are no line's.
    pub line: Option<usize>,
}

/// Puts a text's records into memory, which must have 65,536 bytes. Later records overwrite earlier
/// ones, and bytes that no record names stay.
///
/// The first faulty line decides, and the lowest number in it: [`Refusal::HexMalformed`],
/// [`Refusal::HexOtherType`], [`Refusal::HexPastEnd`].
pub fn read(text: &[u8], memory: &mut [u8]) -> Result<(), Fault> {
    let (number, line) = parts(ffi::hex_read(text, memory));
    Refusal::judge(number).map_err(|refusal| Fault {
        refusal,
        line: (line > 0).then_some(line),
    })
}

/// Writes a range of memory, which must have 65,536 bytes, as a text into an output of your own,
/// and says how long the text is. Output past the text keeps its bytes.
///
/// A range that ends before it starts is empty; its text is the end record.
///
/// ```
/// use fezgandom::{hex, Refusal, MEMORY};
///
/// let mut out = [b'.'; 30];
/// assert_eq!(hex::write(&[0xAB; MEMORY], 0xFFFF..0x1_0000, &mut out), Ok(28));
/// assert_eq!(&out, b":01FFFF00AB56\r\n:00000001FF\r\n..");
/// let refused = hex::write(&[0xAB; MEMORY], 0xFFFF..0x1_0001, &mut out);
/// assert_eq!(refused, Err(Refusal::HexPastEnd));
/// ```
pub fn write(memory: &[u8], range: Range<usize>, out: &mut [u8]) -> Result<usize, Refusal> {
    let (number, length) = parts(ffi::hex_write(memory, range.start, range.len(), out));
    Refusal::judge(number).map(|()| length)
}

/// A range of memory, which must have 65,536 bytes, as a text.
pub fn text(memory: &[u8], range: Range<usize>) -> Result<Vec<u8>, Refusal> {
    let mut out = vec![0; MOST_BYTES];
    let length = write(memory, range, &mut out)?;
    out.truncate(length);
    Ok(out)
}

/// The number and the count in an answer.
fn parts(answer: u64) -> (u8, usize) {
    ((answer % 256) as u8, (answer / 256) as usize)
}

/// The refusal's number, the line at fault, and the words.
impl fmt::Display for Fault {
    fn fmt(&self, f: &mut fmt::Formatter<'_>) -> fmt::Result {
        match self.line {
            Some(line) => {
                let (number, words) = (self.refusal.number(), self.refusal.words());
                write!(f, "{number} in line {line}: {words}")
            }
            None => self.refusal.fmt(f),
        }
    }
}

impl std::error::Error for Fault {}
