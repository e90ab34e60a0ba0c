//! Saving and loading, with none, one or two faults.

use super::bench::{same, Bench};
use super::faults::wrong_length;
use super::random::Random;
use super::records;
use super::world::{copy, World};
use crate::model::refusals::{MEMORY, PORTS, SAVED};

/// Makes one of the buffers of a save or load wrong in length, and the record too where asked.
fn break_buffer(random: &mut Random, world: &mut World) {
    match random.below(4) {
        0 => world.memory.resize(wrong_length(random, MEMORY), 0),
        1 => world.outputs.resize(wrong_length(random, PORTS), 0),
        2 => world.saved.resize(wrong_length(random, SAVED), 0),
        _ => world.record.resize(wrong_length(random, 64), 0),
    }
}

/// How many faults a case has.
fn fault_count(random: &mut Random) -> usize {
    [0, 0, 0, 1, 1, 2][random.below(6)]
}

/// Damages one of the 24 bytes at the head of a saved form, mostly one with a range.
fn break_head(random: &mut Random, saved: &mut [u8]) {
    const RANGED: [usize; 9] = [1, 12, 13, 18, 19, 20, 21, 22, 23];
    let at = match random.once_in(4) {
        true => random.below(24),
        false => random.pick(&RANGED),
    };
    match random.below(3) {
        0 => saved[at] = random.byte(),
        1 => saved[at] = random.below(10) as u8,
        _ => saved[at] ^= 1 << random.below(8),
    }
}

impl Bench<'_> {
    /// Both sides save; what they saved is loaded again by the other side.
    pub(super) fn save(&mut self, random: &mut Random) -> Result<(), String> {
        let record = match random.once_in(4) {
            true => records::well_formed(random),
            false => records::between(random),
        };
        self.left.prepare(random, &record, &self.memory);
        self.left.saved.resize(SAVED, random.byte());
        for _ in 0..fault_count(random) {
            if random.once_in(3) && self.left.record.len() == 64 {
                records::damage(random, &mut self.left.record);
            } else {
                break_buffer(random, &mut self.left);
            }
        }
        self.right.copy_from(&self.left);
        self.judge()?;
        let (left, right) = (&mut self.left, &mut self.right);
        let mine = self
            .one
            .save(&left.record, &left.memory, &left.outputs, &mut left.saved);
        let theirs = self.other.save(
            &right.record,
            &right.memory,
            &right.outputs,
            &mut right.saved,
        );
        same("save", mine, theirs)?;
        self.same_worlds()?;
        self.tally.save[usize::from(mine)] += 1;
        match mine {
            0 => self.load_back(random),
            _ => Ok(()),
        }
    }

    /// Loading what was saved gives the same machine and buffers, on both sides.
    fn load_back(&mut self, random: &mut Random) -> Result<(), String> {
        let (left, right) = (&mut self.left, &mut self.right);
        right.record.fill(random.byte());
        right.memory[random.below(MEMORY)] ^= 1;
        right.outputs.fill(random.byte());
        let theirs = self.other.load(
            &mut right.record,
            &left.saved,
            &mut right.memory,
            &mut right.outputs,
        );
        same("load what was saved", 0, theirs)?;
        self.same_worlds()
    }

    /// Both sides load, into a record that holds anything.
    pub(super) fn load(&mut self, random: &mut Random) -> Result<(), String> {
        let record = records::between(random);
        self.left.prepare(random, &record, &self.memory);
        copy(&mut self.left.saved, &record[..24]);
        self.left.saved.extend((0..PORTS).map(|_| random.byte()));
        self.left.saved.extend_from_slice(&self.memory);
        self.left.memory.fill(random.byte());
        let any = records::well_formed(random);
        copy(&mut self.left.record, &any);
        records::damage(random, &mut self.left.record);
        self.left.record.resize(64, random.byte());
        for _ in 0..fault_count(random) {
            if random.once_in(2) && self.left.saved.len() >= 24 {
                break_head(random, &mut self.left.saved);
            } else {
                break_buffer(random, &mut self.left);
            }
        }
        self.right.copy_from(&self.left);
        let (left, right) = (&mut self.left, &mut self.right);
        let mine = self.one.load(
            &mut left.record,
            &left.saved,
            &mut left.memory,
            &mut left.outputs,
        );
        let theirs = self.other.load(
            &mut right.record,
            &right.saved,
            &mut right.memory,
            &mut right.outputs,
        );
        same("load", mine, theirs)?;
        self.tally.load[usize::from(mine)] += 1;
        self.same_worlds()
    }
}
