//! `bench-hex SIDE WORK CALLS`: so many times the whole memory's text in Intel HEX, read or written; a checksum and the time.
//! SIDE is proved or plain, WORK is read or write. The two sides give the same checksum.

use fezgandom::{ffi, hex, MEMORY};
use hex_compare::plain;
use std::hint::black_box;
use std::time::Instant;

/// What is written, its text, and what is read.
struct World {
    source: Vec<u8>,
    text: Vec<u8>,
    memory: Vec<u8>,
}

impl World {
    fn new() -> World {
        let mut world = World {
            source: (0..MEMORY).map(|a| (a * 7 + a / 256) as u8).collect(),
            text: vec![0; hex::MOST_BYTES],
            memory: vec![0; MEMORY],
        };
        assert!(world.write_plain());
        world
    }

    fn read_proved(&mut self) -> bool {
        ffi::hex_read(&self.text, &mut self.memory) == 0
    }

    fn read_plain(&mut self) -> bool {
        plain::read(&self.text, &mut self.memory).is_ok()
    }

    fn write_proved(&mut self) -> bool {
        ffi::hex_write(&self.source, 0, MEMORY, &mut self.text) % 256 == 0
    }

    fn write_plain(&mut self) -> bool {
        plain::write(&self.source, 0, MEMORY, &mut self.text).is_ok()
    }

    fn checksum(&self) -> u64 {
        let bytes = self.text.iter().chain(&self.memory);
        bytes.fold(0, |sum: u64, &byte| {
            (sum ^ u64::from(byte)).wrapping_mul(0x0000_0100_0000_01B3)
        })
    }
}

fn main() {
    let words: Vec<String> = std::env::args().collect();
    assert!(words.len() == 4, "bench-hex SIDE WORK CALLS");
    let work: fn(&mut World) -> bool = match (words[1].as_str(), words[2].as_str()) {
        ("proved", "read") => World::read_proved,
        ("proved", "write") => World::write_proved,
        ("plain", "read") => World::read_plain,
        ("plain", "write") => World::write_plain,
        _ => panic!("a side is proved or plain, a work is read or write"),
    };
    let calls: u32 = words[3].parse().expect("a number of calls");
    let mut world = World::new();
    let start = Instant::now();
    for _ in 0..calls {
        assert!(black_box(work)(black_box(&mut world)));
    }
    println!(
        "{:016x} {:.4}",
        world.checksum(),
        start.elapsed().as_secs_f64()
    );
}
