//! The two sides on one bench: a case is done by both, and everything they leave must be the same.

use super::faults::{build, choose};
use super::random::Random;
use super::tally::Tally;
use super::world::{copy, same_bytes, World};
use super::{programs, records};
use crate::side::Side;

/// Two sides, the memory that cases begin with, and what the sides are given.
pub struct Bench<'a> {
    pub one: &'a dyn Side,
    pub other: &'a dyn Side,
    pub(super) memory: Vec<u8>,
    pub(super) left: World,
    pub(super) right: World,
    pub tally: Tally,
    seed: u64,
}

/// Fails with both where they differ.
pub(super) fn same<T: PartialEq + std::fmt::Debug>(
    what: &str,
    mine: T,
    theirs: T,
) -> Result<(), String> {
    match mine == theirs {
        true => Ok(()),
        false => Err(format!("{what}: {mine:?} and {theirs:?}")),
    }
}

impl<'a> Bench<'a> {
    /// A bench for the cases of a seed.
    pub fn new(one: &'a dyn Side, other: &'a dyn Side, seed: u64) -> Bench<'a> {
        Bench {
            one,
            other,
            memory: programs::memory(&mut Random::new(seed, u64::MAX)),
            left: World::default(),
            right: World::default(),
            tally: Tally::default(),
            seed,
        }
    }

    /// So many cases from the first on; where one fails, its number and what differs.
    pub fn cases(&mut self, first: u64, count: u64) -> Result<(), String> {
        for number in first..first + count {
            self.case(number)
                .map_err(|fault| format!("case {number} of seed {}: {fault}", self.seed))?;
        }
        Ok(())
    }

    /// One case, which depends on nothing but its number and the seed.
    fn case(&mut self, number: u64) -> Result<(), String> {
        let random = &mut Random::new(self.seed, number);
        match random.below(32) {
            0..=15 => self.run(random),
            16..=18 => self.split(random),
            19 => self.drive(random),
            20..=24 => self.step(random),
            25..=27 => self.save(random),
            28..=30 => self.load(random),
            _ => self.cold(random),
        }
    }

    /// Both sides judge the record alike; it is counted as met.
    pub(super) fn judge(&mut self) -> Result<(), String> {
        let record = &self.left.record;
        let well = self.one.well(record);
        self.tally.record(record, well);
        same("well formed", well, self.other.well(record))
    }

    /// Both sides must have left the same.
    pub(super) fn same_worlds(&self) -> Result<(), String> {
        self.left.same_as(&self.right)
    }

    /// Runs with and without faults, up to three in a row, compared after each.
    fn run(&mut self, random: &mut Random) -> Result<(), String> {
        let faults = choose(random);
        self.tally.faults(&faults);
        let mut states = build(random, &mut self.left, &self.memory, &faults);
        self.right.copy_from(&self.left);
        for _ in 0..=random.below(3) {
            self.judge()?;
            let mine = self.left.run(self.one, states, 0);
            same("run", mine, self.right.run(self.other, states, 0))?;
            self.same_worlds()?;
            self.tally.run(mine, &self.left.schedule, &self.left.trace);
            states = random.below(self.left.trace.len() / 8 + 1).min(64) as u32;
        }
        Ok(())
    }

    /// One side does in one call what the other does in several.
    fn split(&mut self, random: &mut Random) -> Result<(), String> {
        let states = build(random, &mut self.left, &self.memory, &[]).min(200);
        self.right.copy_from(&self.left);
        let (whole, parts) = match random.once_in(2) {
            true => (self.one, self.other),
            false => (self.other, self.one),
        };
        let mine = self.left.run(whole, states, 0);
        let theirs = calls(random, &mut self.right, parts, states);
        same("one call and several", mine, theirs)?;
        self.same_worlds()?;
        self.tally.run(mine, &self.left.schedule, &self.left.trace);
        self.tally.splits += 1;
        Ok(())
    }

    /// Some records, and from each of them states one by one, each with a byte on the bus.
    fn step(&mut self, random: &mut Random) -> Result<(), String> {
        for _ in 0..8 {
            copy(&mut self.left.record, &records::well_formed(random));
            if random.once_in(32) {
                self.left.record[14..18].fill(0xFF);
            }
            if random.once_in(8) {
                records::damage(random, &mut self.left.record);
            }
            copy(&mut self.right.record, &self.left.record);
            for _ in 0..=random.below(16) {
                self.judge()?;
                self.one_state(random)?;
            }
        }
        Ok(())
    }

    /// One state with a byte on the bus.
    fn one_state(&mut self, random: &mut Random) -> Result<(), String> {
        let byte = bus_byte(random, &self.left.record);
        if self.one.well(&self.left.record) {
            let asked = self.one.request(&self.left.record);
            same("request", asked, self.other.request(&self.right.record))?;
            self.tally.requests[(asked >> 24) as usize] += 1;
        }
        let mine = self.one.step(&mut self.left.record, byte);
        let theirs = self.other.step(&mut self.right.record, byte);
        self.tally.step[usize::from(mine)] += 1;
        same("step", mine, theirs)?;
        same_bytes("record", &self.left.record, &self.right.record)
    }

    /// One side runs; the other goes state by state, and the case is its bus.
    fn drive(&mut self, random: &mut Random) -> Result<(), String> {
        let states = build(random, &mut self.left, &self.memory, &[]).min(200);
        self.left.schedule.clear();
        self.right.copy_from(&self.left);
        let mine = self.left.run(self.one, states, 0);
        let done = self.right.drive(self.other, states);
        same("states of a run and by hand", mine >> 8, done)?;
        copy(&mut self.right.trace, &self.left.trace);
        self.same_worlds()
    }

    /// The cold machine, into records of some length.
    fn cold(&mut self, random: &mut Random) -> Result<(), String> {
        copy(&mut self.left.record, &records::well_formed(random));
        let length = [64, 64, 63, 65, 0, random.below(128)][random.below(6)];
        self.left.record.resize(length, random.byte());
        copy(&mut self.right.record, &self.left.record);
        let mine = self.one.cold(&mut self.left.record);
        same("cold", mine, self.other.cold(&mut self.right.record))?;
        self.tally.cold[usize::from(mine)] += 1;
        same_bytes("record", &self.left.record, &self.right.record)
    }
}

/// A run in several calls: the last number, and 256 times the states of all.
fn calls(random: &mut Random, world: &mut World, side: &dyn Side, states: u32) -> u64 {
    let mut done = 0;
    loop {
        let some = random.below((states - done) as usize + 1) as u32;
        let some = if random.once_in(8) {
            states - done
        } else {
            some
        };
        let answer = world.run(side, some, 8 * done as usize);
        done += (answer >> 8) as u32;
        if answer % 256 != 0 || done == states {
            return answer % 256 + 256 * u64::from(done);
        }
    }
}

/// Any byte; mostly one that does not stop the machine, and in T3 of an acknowledge the right RST.
fn bus_byte(random: &mut Random, record: &[u8]) -> u8 {
    let in_acknowledge =
        record.len() == 64 && (record[13], record[24], record[25]) == (3, 1, 3) && record[27] != 0;
    match in_acknowledge {
        _ if random.once_in(8) => random.byte(),
        true => 0xC7 | (record[28] << 3),
        false => records::defined(random),
    }
}
