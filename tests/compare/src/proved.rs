//! The proved functions of `crates/capi`, as the other side.

use crate::side::{Lent, Side};

/// The functions as they are exported. A slice is passed as two arguments, pointer and length: not as Rust
/// passes a slice, which goes to the stack as a whole where one register is left.
mod raw {
    extern "C" {
        pub fn fez_cold(record: *mut u8, record_len: usize) -> u8;
        pub fn fez_well(record: *const u8, record_len: usize) -> bool;
        pub fn fez_step(record: *mut u8, record_len: usize, byte: u8) -> u8;
        pub fn fez_request(record: *const u8, record_len: usize) -> u32;
        pub fn fez_run(
            record: *mut u8,
            record_len: usize,
            states: u32,
            memory: *mut u8,
            memory_len: usize,
            inputs: *const u8,
            inputs_len: usize,
            outputs: *mut u8,
            outputs_len: usize,
            schedule: *const u8,
            schedule_len: usize,
            trace: *mut u8,
            trace_len: usize,
        ) -> u64;
        pub fn fez_save(
            record: *const u8,
            record_len: usize,
            memory: *const u8,
            memory_len: usize,
            outputs: *const u8,
            outputs_len: usize,
            out: *mut u8,
            out_len: usize,
        ) -> u8;
        pub fn fez_load(
            record: *mut u8,
            record_len: usize,
            saved: *const u8,
            saved_len: usize,
            memory: *mut u8,
            memory_len: usize,
            outputs: *mut u8,
            outputs_len: usize,
        ) -> u8;
    }
}

/// The proved functions. They are proved for slices of every length that do not overlap, which Rust's
/// references guarantee, so each call below is safe.
pub struct Proved;

impl Side for Proved {
    fn cold(&self, record: &mut [u8]) -> u8 {
        unsafe { raw::fez_cold(record.as_mut_ptr(), record.len()) }
    }

    fn well(&self, record: &[u8]) -> bool {
        unsafe { raw::fez_well(record.as_ptr(), record.len()) }
    }

    fn step(&self, record: &mut [u8], byte: u8) -> u8 {
        unsafe { raw::fez_step(record.as_mut_ptr(), record.len(), byte) }
    }

    fn request(&self, record: &[u8]) -> u32 {
        unsafe { raw::fez_request(record.as_ptr(), record.len()) }
    }

    fn run(&self, record: &mut [u8], states: u32, lent: &mut Lent) -> u64 {
        unsafe {
            raw::fez_run(
                record.as_mut_ptr(),
                record.len(),
                states,
                lent.memory.as_mut_ptr(),
                lent.memory.len(),
                lent.inputs.as_ptr(),
                lent.inputs.len(),
                lent.outputs.as_mut_ptr(),
                lent.outputs.len(),
                lent.schedule.as_ptr(),
                lent.schedule.len(),
                lent.trace.as_mut_ptr(),
                lent.trace.len(),
            )
        }
    }

    fn save(&self, record: &[u8], memory: &[u8], outputs: &[u8], out: &mut [u8]) -> u8 {
        unsafe {
            raw::fez_save(
                record.as_ptr(),
                record.len(),
                memory.as_ptr(),
                memory.len(),
                outputs.as_ptr(),
                outputs.len(),
                out.as_mut_ptr(),
                out.len(),
            )
        }
    }

    fn load(&self, record: &mut [u8], saved: &[u8], memory: &mut [u8], outputs: &mut [u8]) -> u8 {
        unsafe {
            raw::fez_load(
                record.as_mut_ptr(),
                record.len(),
                saved.as_ptr(),
                saved.len(),
                memory.as_mut_ptr(),
                memory.len(),
                outputs.as_mut_ptr(),
                outputs.len(),
            )
        }
    }
}
