//! `bench-saved SIDE WORK CALLS`: so many times saving or loading a machine, their checksum and their time.
//! SIDE is proved or plain, WORK is save or load. The two sides give the same checksum.

use fezgandom::{ffi, MEMORY, PORTS, RECORD, SAVED};
use std::hint::black_box;
use std::time::Instant;

/// Bytes of the saved form before the ports.
const HEADER: usize = 24;

/// What is saved and loaded.
struct World {
    record: [u8; RECORD],
    memory: Vec<u8>,
    outputs: Vec<u8>,
    saved: Vec<u8>,
}

impl World {
    fn new() -> World {
        let mut record = [0; RECORD];
        assert_eq!(ffi::cold(&mut record), 0);
        let mut world = World {
            record,
            memory: (0..MEMORY).map(|a| (a * 7 + a / 256) as u8).collect(),
            outputs: (0..PORTS).map(|p| p as u8 ^ 0x5A).collect(),
            saved: vec![0; SAVED],
        };
        assert_eq!(world.save_proved(), 0);
        world
    }

    fn save_proved(&mut self) -> u8 {
        ffi::save(&self.record, &self.memory, &self.outputs, &mut self.saved)
    }

    fn load_proved(&mut self) -> u8 {
        ffi::load(
            &mut self.record,
            &self.saved,
            &mut self.memory,
            &mut self.outputs,
        )
    }

    /// Saving as plain Rust: a record between instructions begins with the 24 bytes of its saved form.
    fn save_plain(&mut self) -> u8 {
        if self.memory.len() != MEMORY || self.outputs.len() != PORTS || self.saved.len() != SAVED {
            return 1;
        }
        if self.record[13] > 2 || self.record[27] != 0 {
            return 11;
        }
        self.saved[..HEADER].copy_from_slice(&self.record[..HEADER]);
        self.saved[HEADER..HEADER + PORTS].copy_from_slice(&self.outputs);
        self.saved[HEADER + PORTS..].copy_from_slice(&self.memory);
        0
    }

    /// Loading as plain Rust.
    fn load_plain(&mut self) -> u8 {
        let s = &self.saved;
        if s.len() != SAVED || self.memory.len() != MEMORY || self.outputs.len() != PORTS {
            return 12;
        }
        let levels = s[18] > 1 || s[19] > 1 || s[20] > 8;
        if s[1] & 0x2A != 2 || s[12] > 1 || s[13] > 2 || levels || s[21..HEADER] != [0; 3] {
            return 13;
        }
        self.record = [0; RECORD];
        self.record[..HEADER].copy_from_slice(&s[..HEADER]);
        self.outputs.copy_from_slice(&s[HEADER..HEADER + PORTS]);
        self.memory.copy_from_slice(&s[HEADER + PORTS..]);
        0
    }

    fn checksum(&self) -> u64 {
        let bytes = self.record.iter().chain(&self.memory).chain(&self.outputs);
        bytes.chain(&self.saved).fold(0, |sum: u64, &b| {
            (sum ^ u64::from(b)).wrapping_mul(0x0000_0100_0000_01B3)
        })
    }
}

fn main() {
    let words: Vec<String> = std::env::args().collect();
    assert!(words.len() == 4, "bench-saved SIDE WORK CALLS");
    let work: fn(&mut World) -> u8 = match (words[1].as_str(), words[2].as_str()) {
        ("proved", "save") => World::save_proved,
        ("proved", "load") => World::load_proved,
        ("plain", "save") => World::save_plain,
        ("plain", "load") => World::load_plain,
        _ => panic!("a side is proved or plain, a work is save or load"),
    };
    let calls: u32 = words[3].parse().expect("a number of calls");
    let mut world = World::new();
    let start = Instant::now();
    for _ in 0..calls {
        assert_eq!(black_box(work)(black_box(&mut world)), 0);
    }
    println!(
        "{:016x} {:.4}",
        world.checksum(),
        start.elapsed().as_secs_f64()
    );
}
