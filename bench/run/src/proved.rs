//! The function of `crates/rounds`, from the archive that `rt lib` writes there.

/// As C has it: a slice is two arguments, pointer and length.
mod c {
    unsafe extern "C" {
        pub fn rounds(
            calls: u32,
            states: u32,
            memory: *mut u8,
            memory_length: usize,
            inputs: *const u8,
            inputs_length: usize,
            outputs: *mut u8,
            outputs_length: usize,
            schedule: *const u8,
            schedule_length: usize,
            trace: *mut u8,
            trace_length: usize,
        ) -> u64;
    }
}

/// So many runs of so many states from a cold machine: the states done in all.
pub fn rounds(
    calls: u32,
    states: u32,
    memory: &mut [u8],
    inputs: &[u8],
    outputs: &mut [u8],
    s: &[u8],
    trace: &mut [u8],
) -> u64 {
    // SAFETY: proved for all arguments; each pointer and length are those of one slice, and the
    // slices that it writes overlap with none.
    unsafe {
        c::rounds(
            calls,
            states,
            memory.as_mut_ptr(),
            memory.len(),
            inputs.as_ptr(),
            inputs.len(),
            outputs.as_mut_ptr(),
            outputs.len(),
            s.as_ptr(),
            s.len(),
            trace.as_mut_ptr(),
            trace.len(),
        )
    }
}
