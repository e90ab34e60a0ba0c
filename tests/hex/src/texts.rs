//! Texts, good and faulty.

use crate::random::Random;

/// The end record.
pub const END: &[u8] = b":00000001FF";

/// The bytes of a record with a right checksum.
pub fn bytes(kind: u8, address: u16, data: &[u8]) -> Vec<u8> {
    let [high, low] = address.to_be_bytes();
    let mut bytes = vec![data.len() as u8, high, low, kind];
    bytes.extend(data);
    bytes.push(check(&bytes));
    bytes
}

/// The byte that makes a sum 0 modulo 256.
pub fn check(bytes: &[u8]) -> u8 {
    let sum = bytes.iter().fold(0u8, |sum, &byte| sum.wrapping_add(byte));
    sum.wrapping_neg()
}

/// Bytes as a line without an ending, in capitals.
pub fn line(bytes: &[u8]) -> Vec<u8> {
    let digits = bytes.iter().map(|byte| format!("{byte:02X}"));
    format!(":{}", digits.collect::<String>()).into_bytes()
}

/// A record as a line without an ending, in capitals.
pub fn record(kind: u8, address: u16, data: &[u8]) -> Vec<u8> {
    line(&bytes(kind, address, data))
}

/// Random bytes, so many.
pub fn data(random: &mut Random, length: usize) -> Vec<u8> {
    (0..length).map(|_| random.byte()).collect()
}

/// A text of up to eight lines, of which each may have several faults; mostly with an end record.
pub fn text(random: &mut Random) -> Vec<u8> {
    // Once in so many times a part is faulty, in this text.
    let rarely = random.pick(&[4, 30, 30, 1_000_000]);
    let mut text = Vec::new();
    for _ in 0..random.below(8) {
        text.extend(any_line(random, rarely));
        text.extend(ending(random, rarely));
    }
    if !random.once_in(8) {
        text.extend(cased(random, END));
        text.extend(ending(random, rarely));
    }
    if random.once_in(4) {
        text.extend(any_line(random, 2));
    }
    if random.once_in(16) {
        let length = random.below(text.len() + 1);
        text.truncate(length);
    }
    text
}

/// A line that once in so many times has a wrong type, end, count, checksum or character, each by itself.
fn any_line(random: &mut Random, rarely: usize) -> Vec<u8> {
    let length = match random.below(8) {
        0 => 0,
        1 => random.below(256),
        _ => random.below(20),
    };
    let kind = match random.once_in(rarely) {
        true => random.pick(&[1, 1, 1, 2, 3, 4, 5, 0x10, 0x80, 0xFF]),
        false => 0,
    };
    let past = random.once_in(rarely);
    let address = match random.below(4) {
        _ if past => random.word().max((65_536 - length) as u16),
        0 => (65_536 - length).min(65_535) as u16,
        _ => random.word().min((65_536 - length).min(65_535) as u16),
    };
    let mut bytes = bytes(kind, address, &data(random, length));
    if random.once_in(rarely) {
        bytes[0] = match random.below(3) {
            0 => random.byte(),
            1 => bytes[0].wrapping_add(1),
            _ => bytes[0].wrapping_sub(1),
        };
    }
    if random.once_in(rarely) && random.once_in(2) {
        let many = random.below(bytes.len());
        bytes.truncate(many);
        bytes.push(0);
    }
    let last = bytes.len() - 1;
    bytes[last] = check(&bytes[..last]);
    if random.once_in(rarely) {
        bytes[last] = bytes[last].wrapping_add(random.pick(&[1, 255, 128]));
    }
    let mut line = cased(random, &line(&bytes));
    if random.once_in(rarely) {
        damage(random, &mut line);
    }
    line
}

/// Digits of either case.
fn cased(random: &mut Random, line: &[u8]) -> Vec<u8> {
    match random.below(3) {
        0 => line.to_ascii_lowercase(),
        1 => line.to_vec(),
        _ => {
            let mut mixed = line.to_vec();
            for c in &mut mixed {
                if random.once_in(2) {
                    c.make_ascii_lowercase();
                }
            }
            mixed
        }
    }
}

/// Mostly LF or CR LF.
fn ending(random: &mut Random, rarely: usize) -> &'static [u8] {
    match random.once_in(rarely) {
        true => random.pick(&[
            &b""[..],
            b"\r",
            b"\n\n",
            b"\r\r\n",
            b"\n\r",
            b" \n",
            b"\t\r\n",
            b"\n\r\n",
        ]),
        false => random.pick(&[&b"\n"[..], b"\r\n"]),
    }
}

/// One character gone, doubled, put in or changed.
fn damage(random: &mut Random, line: &mut Vec<u8>) {
    let at = random.below(line.len());
    match random.below(4) {
        0 => drop(line.remove(at)),
        1 => line.insert(at, line[at]),
        2 => line.insert(at, character(random)),
        _ => line[at] = character(random),
    }
}

/// A character, mostly one that stands in such texts or next to one that does.
pub fn character(random: &mut Random) -> u8 {
    match random.below(4) {
        0 => random.byte(),
        _ => random.pick(b":0123456789ABCDEFabcdef\r\n/;@G`g \0"),
    }
}
