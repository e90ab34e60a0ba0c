//! Intel HEX in plain Rust, written from request W1 and Intel's format, and from nothing else.

/// The bytes of memory.
const MEMORY: usize = 65_536;

/// The data bytes of a record that is written, but for the last.
const DATA: usize = 16;

/// The characters of a record that are no data: colon, count, address, type, checksum, CR and LF.
const FRAME: usize = 13;

/// Why a text is not read: the paper's number and the line, 0 where no line is at fault.
#[derive(Clone, Copy, Debug, PartialEq, Eq)]
pub struct Fault {
    pub number: u8,
    pub line: usize,
}

/// Data for an address, as the digits in their line.
struct Data<'a> {
    address: usize,
    digits: &'a [u8],
}

/// What a line that is not faulty says.
enum Record<'a> {
    Data(Data<'a>),
    End,
}

/// Reads a text into memory: all of it is judged before a byte is written.
pub fn read(text: &[u8], memory: &mut [u8]) -> Result<(), Fault> {
    if memory.len() != MEMORY {
        return Err(Fault { number: 1, line: 0 });
    }
    for data in judge(text)? {
        let room = &mut memory[data.address..][..data.digits.len() / 2];
        for (cell, pair) in room.iter_mut().zip(data.digits.chunks_exact(2)) {
            *cell = value(pair[0]) << 4 | value(pair[1]);
        }
    }
    Ok(())
}

/// The data records up to the end record.
fn judge(text: &[u8]) -> Result<Vec<Data<'_>>, Fault> {
    let mut found = Vec::new();
    for (line, at) in text.split_inclusive(|&c| c == b'\n').zip(1..) {
        match record(without_ending(line)) {
            Ok(Record::Data(data)) => found.push(data),
            Ok(Record::End) => return Ok(found),
            Err(number) => return Err(Fault { number, line: at }),
        }
    }
    Err(Fault {
        number: 18,
        line: 0,
    })
}

/// A line without its LF or CR LF.
fn without_ending(line: &[u8]) -> &[u8] {
    match line {
        [bare @ .., b'\r', b'\n'] | [bare @ .., b'\n'] => bare,
        bare => bare,
    }
}

/// What a line says, or the number of its fault.
fn record(line: &[u8]) -> Result<Record<'_>, u8> {
    let [b':', digits @ ..] = line else {
        return Err(15);
    };
    if digits.len() < 10 || digits.len() % 2 != 0 {
        return Err(15);
    }
    let (mut sum, mut all) = (0u8, 0);
    for pair in digits.chunks_exact(2) {
        let (high, low) = (value(pair[0]), value(pair[1]));
        all |= high | low;
        sum = sum.wrapping_add(high << 4 | low & 0x0F);
    }
    let byte = |i: usize| usize::from(value(digits[2 * i]) << 4 | value(digits[2 * i + 1]));
    if all == NO_DIGIT || sum != 0 || digits.len() != 2 * byte(0) + 10 {
        return Err(15);
    }
    let (count, address) = (byte(0), 256 * byte(1) + byte(2));
    match byte(3) {
        0 if address + count > MEMORY => Err(17),
        0 => Ok(Record::Data(Data {
            address,
            digits: &digits[8..8 + 2 * count],
        })),
        1 if count > 0 || address > 0 => Err(15),
        1 => Ok(Record::End),
        _ => Err(16),
    }
}

/// The value of a character that is no hex digit.
const NO_DIGIT: u8 = 0xFF;

/// The value of each character.
static VALUES: [u8; 256] = {
    let mut values = [NO_DIGIT; 256];
    let mut digit = 0;
    while digit < 16 {
        values[DIGITS[digit] as usize] = digit as u8;
        values[DIGITS[digit].to_ascii_lowercase() as usize] = digit as u8;
        digit += 1;
    }
    values
};

const DIGITS: &[u8; 16] = b"0123456789ABCDEF";

fn value(c: u8) -> u8 {
    VALUES[usize::from(c)]
}

/// Writes so many bytes of memory from `start` on as a text: its length, or the number of the
/// refusal.
pub fn write(memory: &[u8], start: usize, length: usize, out: &mut [u8]) -> Result<usize, u8> {
    if memory.len() != MEMORY {
        return Err(1);
    }
    let end = start.checked_add(length).ok_or(17)?;
    let bytes = memory.get(start..end).ok_or(17)?;
    let size = 2 * length + FRAME * (length.div_ceil(DATA) + 1);
    let mut room = out.get_mut(..size).ok_or(19)?;
    for (data, address) in bytes.chunks(DATA).zip((start..).step_by(DATA)) {
        let (line, rest) = room.split_at_mut(2 * data.len() + FRAME);
        put(line, 0, address as u16, data);
        room = rest;
    }
    put(room, 1, 0, &[]);
    Ok(size)
}

/// Fills a line with a record.
fn put(line: &mut [u8], kind: u8, address: u16, data: &[u8]) {
    let [high, low] = address.to_be_bytes();
    let head = [data.len() as u8, high, low, kind];
    let (head_digits, rest) = line[1..].split_at_mut(8);
    let (data_digits, rest) = rest.split_at_mut(2 * data.len());
    let sum = digits(head_digits, &head).wrapping_add(digits(data_digits, data));
    digits(&mut rest[..2], &[sum.wrapping_neg()]);
    rest[2..].copy_from_slice(b"\r\n");
    line[0] = b':';
}

/// Fills a place with the digits of bytes, and gives their sum.
fn digits(place: &mut [u8], bytes: &[u8]) -> u8 {
    let mut sum = 0u8;
    for (pair, &byte) in place.chunks_exact_mut(2).zip(bytes) {
        pair[0] = DIGITS[usize::from(byte >> 4)];
        pair[1] = DIGITS[usize::from(byte & 0x0F)];
        sum = sum.wrapping_add(byte);
    }
    sum
}
