//! Both sides over the same bytes.

use crate::plain::{self, Fault};
use crate::random::Random;
use fezgandom::{ffi, MEMORY};

/// A memory for each side, and how often each number was given.
pub struct Both {
    before: Vec<u8>,
    proved: Vec<u8>,
    plain: Vec<u8>,
    pub reads: [u64; 20],
    pub writes: [u64; 20],
}

impl Both {
    /// Random bytes in memory.
    pub fn new(random: &mut Random) -> Both {
        Both::over((0..MEMORY).map(|_| random.byte()).collect())
    }

    /// These bytes in memory; they may be too few or too many.
    pub fn over(memory: Vec<u8>) -> Both {
        Both {
            proved: memory.clone(),
            plain: memory.clone(),
            before: memory,
            reads: [0; 20],
            writes: [0; 20],
        }
    }

    /// The bytes in memory before each call.
    pub fn memory(&self) -> &[u8] {
        &self.before
    }

    /// Reads a text on both sides, which must give the same number, line and memory, and no other memory after a
    /// refusal. Gives number and line; memory is then as before.
    pub fn read(&mut self, text: &[u8]) -> (u8, usize) {
        self.read_and(text, |_| ())
    }

    /// The same, with a look at memory before it is put back.
    pub fn read_and(&mut self, text: &[u8], look: impl FnOnce(&[u8])) -> (u8, usize) {
        let answer = ffi::hex_read(text, &mut self.proved);
        let (number, line) = ((answer % 256) as u8, (answer / 256) as usize);
        let fault = plain::read(text, &mut self.plain).err();
        let expected = fault.map_or((0, 0), |Fault { number, line }| (number, line));
        assert_eq!((number, line), expected, "{}", text.escape_ascii());
        let kept = number == 0 || self.proved == self.before;
        assert!(kept && self.proved == self.plain, "{}", text.escape_ascii());
        look(&self.proved);
        if number == 0 {
            self.proved.copy_from_slice(&self.before);
            self.plain.copy_from_slice(&self.before);
        }
        self.reads[usize::from(number)] += 1;
        (number, line)
    }

    /// Writes a range on both sides into outputs of this size, which must give the same number, length and output, and
    /// an untouched one after a refusal and past the text. Gives the text, or the number of the refusal.
    pub fn write(&mut self, start: usize, length: usize, size: usize) -> Result<Vec<u8>, u8> {
        const FILL: u8 = 0xEE;
        let (mut out, mut other) = (vec![FILL; size], vec![FILL; size]);
        let answer = ffi::hex_write(&self.before, start, length, &mut out);
        let (number, written) = ((answer % 256) as u8, (answer / 256) as usize);
        let expected = plain::write(&self.before, start, length, &mut other);
        let given = if number == 0 {
            Ok(written)
        } else {
            Err(number)
        };
        assert_eq!(given, expected, "{start} {length} {size}");
        assert!(number == 0 || written == 0, "{start} {length} {size}");
        assert!(out == other, "{start} {length} {size}");
        assert!(out[written..].iter().all(|&byte| byte == FILL));
        self.writes[usize::from(number)] += 1;
        out.truncate(written);
        given.map(|_| out)
    }
}
