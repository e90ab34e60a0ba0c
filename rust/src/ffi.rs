//! The functions of `libcapi.a`, over slices of any length, with the numbers that they answer.
//!
//! Everything else in this crate stands on these. They are for those who keep a machine's record
//! in bytes of their own, or want to see every refusal.
//!
//! Each function is proved for all arguments: any bytes and any lengths, in slices that do not
//! overlap. Rust's borrow rules see to the last, so every call here is safe.
//!
//! ```
//! let mut record = [0; 64];
//! assert_eq!(fezgandom::ffi::cold(&mut record), 0);
//! assert!(fezgandom::ffi::well(&record));
//! assert_eq!(fezgandom::ffi::cold(&mut record[1..]), 8);
//! ```

/// The functions as C has them. A slice is two arguments, pointer and length. A Rust slice in such
/// a signature would be one, which goes another way where the registers run out between the two.
mod c {
    unsafe extern "C" {
        pub fn fez_cold(record: *mut u8, record_length: usize) -> u8;
        pub fn fez_well(record: *const u8, record_length: usize) -> bool;
        pub fn fez_request(record: *const u8, record_length: usize) -> u32;
        pub fn fez_step(record: *mut u8, record_length: usize, byte: u8) -> u8;
        pub fn fez_run(
            record: *mut u8,
            record_length: usize,
            states: u32,
            memory: *mut u8,
            memory_length: usize,
            inputs: *const u8,
            inputs_length: usize,
            outputs: *mut u8,
            outputs_length: usize,
            schedule: *const u8,
            schedule_length: usize,
            trace: *mut u8,
            trace_length: usize,
        ) -> u64;
        pub fn fez_save(
            record: *const u8,
            record_length: usize,
            memory: *const u8,
            memory_length: usize,
            outputs: *const u8,
            outputs_length: usize,
            out: *mut u8,
            out_length: usize,
        ) -> u8;
        pub fn fez_load(
            record: *mut u8,
            record_length: usize,
            saved: *const u8,
            saved_length: usize,
            memory: *mut u8,
            memory_length: usize,
            outputs: *mut u8,
            outputs_length: usize,
        ) -> u8;
        pub fn fez_hex_read(
            text: *const u8,
            text_length: usize,
            memory: *mut u8,
            memory_length: usize,
        ) -> u64;
        pub fn fez_hex_write(
            memory: *const u8,
            memory_length: usize,
            start: usize,
            length: usize,
            out: *mut u8,
            out_length: usize,
        ) -> u64;
    }
}

/// Puts the cold machine into the record: 0, or 8 where the record is not 64 bytes.
pub fn cold(record: &mut [u8]) -> u8 {
    // SAFETY: proved for every record; pointer and length are those of one slice.
    unsafe { c::fez_cold(record.as_mut_ptr(), record.len()) }
}

/// Whether the record is well formed.
pub fn well(record: &[u8]) -> bool {
    // SAFETY: proved for every record, which is only read; pointer and length are of one slice.
    unsafe { c::fez_well(record.as_ptr(), record.len()) }
}

/// What the state that comes next asks of the bus: which request (0 nothing, 1 read, 2 write,
/// 3 input, 4 output, 5 restart), times 2^24, its byte, times 2^16, and its address or port.
pub fn request(record: &[u8]) -> u32 {
    // SAFETY: proved for every record, which is only read; pointer and length are of one slice.
    unsafe { c::fez_request(record.as_ptr(), record.len()) }
}

/// One state with this byte on the bus: 0, 8, 9, or 10 where the machine was stopped before.
pub fn step(record: &mut [u8], byte: u8) -> u8 {
    // SAFETY: proved for every record and byte; pointer and length are those of one slice.
    unsafe { c::fez_step(record.as_mut_ptr(), record.len(), byte) }
}

/// A run of so many states: the number answered, and 256 times the states done.
pub fn run(
    record: &mut [u8],
    states: u32,
    memory: &mut [u8],
    inputs: &[u8],
    outputs: &mut [u8],
    schedule: &[u8],
    trace: &mut [u8],
) -> u64 {
    // SAFETY: proved for all bytes and lengths; each pointer and length are those of one slice,
    // and none that is written overlaps another, since it is borrowed alone.
    unsafe {
        c::fez_run(
            record.as_mut_ptr(),
            record.len(),
            states,
            memory.as_mut_ptr(),
            memory.len(),
            inputs.as_ptr(),
            inputs.len(),
            outputs.as_mut_ptr(),
            outputs.len(),
            schedule.as_ptr(),
            schedule.len(),
            trace.as_mut_ptr(),
            trace.len(),
        )
    }
}

/// Saves machine, output ports and memory into `out`: 0, 1, 2, 8, 11 or 14.
pub fn save(record: &[u8], memory: &[u8], outputs: &[u8], out: &mut [u8]) -> u8 {
    // SAFETY: proved for all bytes and lengths; each pointer and length are those of one slice,
    // and `out` is borrowed alone.
    unsafe {
        c::fez_save(
            record.as_ptr(),
            record.len(),
            memory.as_ptr(),
            memory.len(),
            outputs.as_ptr(),
            outputs.len(),
            out.as_mut_ptr(),
            out.len(),
        )
    }
}

/// Loads a saved machine, its output ports and its memory: 0, 8 where the record is not 64 bytes,
/// 12, 13, 1 or 2.
pub fn load(record: &mut [u8], saved: &[u8], memory: &mut [u8], outputs: &mut [u8]) -> u8 {
    // SAFETY: proved for all bytes and lengths; each pointer and length are those of one slice,
    // and those that are written are each borrowed alone.
    unsafe {
        c::fez_load(
            record.as_mut_ptr(),
            record.len(),
            saved.as_ptr(),
            saved.len(),
            memory.as_mut_ptr(),
            memory.len(),
            outputs.as_mut_ptr(),
            outputs.len(),
        )
    }
}

/// Reads a text in Intel HEX into memory: the number (0, 1, 15, 16, 17 or 18), and 256 times the
/// line at fault, which is 0 where no line is.
pub fn hex_read(text: &[u8], memory: &mut [u8]) -> u64 {
    // SAFETY: proved for all bytes and lengths; each pointer and length are those of one slice,
    // and `memory` is borrowed alone.
    unsafe { c::fez_hex_read(text.as_ptr(), text.len(), memory.as_mut_ptr(), memory.len()) }
}

/// Writes so many bytes of memory from `start` on as a text in Intel HEX: the number (0, 1, 17 or
/// 19), and 256 times the characters written.
pub fn hex_write(memory: &[u8], start: usize, length: usize, out: &mut [u8]) -> u64 {
    // SAFETY: proved for all bytes, lengths and ranges; each pointer and length are those of one
    // slice, and `out` is borrowed alone.
    unsafe {
        c::fez_hex_write(
            memory.as_ptr(),
            memory.len(),
            start,
            length,
            out.as_mut_ptr(),
            out.len(),
        )
    }
}
