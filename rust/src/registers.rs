//! Names for a machine's registers, lines and clock.

use crate::machine::at;
use crate::{Flags, Machine};

/// The level of INT that is down.
const INT_DOWN: u8 = 8;

/// Registers.
impl Machine {
    /// Register A.
    pub fn a(&self) -> u8 {
        self.record[at::A]
    }

    /// Register B.
    pub fn b(&self) -> u8 {
        self.record[at::B]
    }

    /// Register C.
    pub fn c(&self) -> u8 {
        self.record[at::C]
    }

    /// Register D.
    pub fn d(&self) -> u8 {
        self.record[at::D]
    }

    /// Register E.
    pub fn e(&self) -> u8 {
        self.record[at::E]
    }

    /// Register H.
    pub fn h(&self) -> u8 {
        self.record[at::H]
    }

    /// Register L.
    pub fn l(&self) -> u8 {
        self.record[at::L]
    }

    /// B and C, B high.
    pub fn bc(&self) -> u16 {
        self.pair(at::B)
    }

    /// D and E, D high.
    pub fn de(&self) -> u16 {
        self.pair(at::D)
    }

    /// H and L, H high.
    pub fn hl(&self) -> u16 {
        self.pair(at::H)
    }

    /// The stack pointer.
    pub fn sp(&self) -> u16 {
        self.word(at::SP)
    }

    /// The program counter.
    pub fn pc(&self) -> u16 {
        self.word(at::PC)
    }

    /// The five flags.
    pub fn flags(&self) -> Flags {
        Flags::from_byte(self.flag_byte())
    }

    /// The flag byte as it stands, fixed bits included.
    pub fn flag_byte(&self) -> u8 {
        self.record[at::FLAGS]
    }

    /// Sets register A.
    pub fn set_a(&mut self, value: u8) {
        self.record[at::A] = value;
    }

    /// Sets register B.
    pub fn set_b(&mut self, value: u8) {
        self.record[at::B] = value;
    }

    /// Sets register C.
    pub fn set_c(&mut self, value: u8) {
        self.record[at::C] = value;
    }

    /// Sets register D.
    pub fn set_d(&mut self, value: u8) {
        self.record[at::D] = value;
    }

    /// Sets register E.
    pub fn set_e(&mut self, value: u8) {
        self.record[at::E] = value;
    }

    /// Sets register H.
    pub fn set_h(&mut self, value: u8) {
        self.record[at::H] = value;
    }

    /// Sets register L.
    pub fn set_l(&mut self, value: u8) {
        self.record[at::L] = value;
    }

    /// Sets B to the high byte and C to the low one.
    pub fn set_bc(&mut self, value: u16) {
        self.set_pair(at::B, value);
    }

    /// Sets D to the high byte and E to the low one.
    pub fn set_de(&mut self, value: u16) {
        self.set_pair(at::D, value);
    }

    /// Sets H to the high byte and L to the low one.
    pub fn set_hl(&mut self, value: u16) {
        self.set_pair(at::H, value);
    }

    /// Sets the stack pointer.
    pub fn set_sp(&mut self, value: u16) {
        self.set_word(at::SP, value);
    }

    /// Sets the program counter.
    pub fn set_pc(&mut self, value: u16) {
        self.set_word(at::PC, value);
    }

    /// Sets the five flags, with the fixed bits as they must be.
    pub fn set_flags(&mut self, flags: Flags) {
        self.set_flag_byte(flags.byte());
    }

    /// Sets the flag byte as it is given: with a wrong fixed bit the machine is ill formed.
    pub fn set_flag_byte(&mut self, byte: u8) {
        self.record[at::FLAGS] = byte;
    }
}

/// Lines, the interrupt enable and the clock.
impl Machine {
    /// Whether interrupts are enabled.
    pub fn inte(&self) -> bool {
        self.record[at::INTE] == 1
    }

    /// The number of states done: the number of the state that comes next.
    pub fn clock(&self) -> u32 {
        let [a, b, c, d] = [0, 1, 2, 3].map(|i| self.record[at::CLOCK + i]);
        u32::from_le_bytes([a, b, c, d])
    }

    /// Whether READY is up.
    pub fn ready(&self) -> bool {
        self.record[at::READY] != 0
    }

    /// Whether HOLD is up.
    pub fn hold(&self) -> bool {
        self.record[at::HOLD] == 1
    }

    /// The restart number with which INT is up, none where it is down.
    pub fn int(&self) -> Option<u8> {
        let level = self.record[at::INT];
        (level < INT_DOWN).then_some(level)
    }

    /// Enables interrupts, or disables them.
    pub fn set_inte(&mut self, on: bool) {
        self.record[at::INTE] = u8::from(on);
    }

    /// Sets the clock, from which the next state takes its number.
    pub fn set_clock(&mut self, states: u32) {
        self.record[at::CLOCK..at::CLOCK + 4].copy_from_slice(&states.to_le_bytes());
    }

    /// READY up or down.
    pub fn set_ready(&mut self, up: bool) {
        self.record[at::READY] = u8::from(up);
    }

    /// HOLD up or down.
    pub fn set_hold(&mut self, up: bool) {
        self.record[at::HOLD] = u8::from(up);
    }

    /// INT up with a restart number, 0 to 7, or down.
    pub fn set_int(&mut self, restart: Option<u8>) {
        self.record[at::INT] = restart.unwrap_or(INT_DOWN);
    }
}

/// Two bytes as a number.
impl Machine {
    /// The word at a place, low byte first.
    fn word(&self, at: usize) -> u16 {
        u16::from_le_bytes([self.record[at], self.record[at + 1]])
    }

    /// Sets the word at a place, low byte first.
    fn set_word(&mut self, at: usize, value: u16) {
        self.record[at..at + 2].copy_from_slice(&value.to_le_bytes());
    }

    /// The register pair at a place, high byte first.
    fn pair(&self, at: usize) -> u16 {
        u16::from_be_bytes([self.record[at], self.record[at + 1]])
    }

    /// Sets the register pair at a place, high byte first.
    fn set_pair(&mut self, at: usize, value: u16) {
        self.record[at..at + 2].copy_from_slice(&value.to_be_bytes());
    }
}
