//! The product's C entries. These three wrappers are the only unsafe code.

extern "C" {
    fn rack_settle(
        m: u32,
        numbers: *const u8,
        numbers_len: usize,
        stages: *mut u8,
        stages_len: usize,
        start: u32,
    ) -> u32;
    fn rack_check(file: *const u8, len: usize) -> u32;
    fn rack_table(file: *const u8, len: usize, out: *mut u8, out_len: usize) -> u32;
}

/// The stages t plus 256 times the copies, or 100 plus the refusal.
pub fn settle(m: u32, numbers: &[u8], stages: &mut [u8], start: u32) -> u32 {
    // SAFETY: each pointer comes from a slice that lives through the call, with its own length.
    unsafe {
        rack_settle(
            m,
            numbers.as_ptr(),
            numbers.len(),
            stages.as_mut_ptr(),
            stages.len(),
            start,
        )
    }
}

/// The refusal 1 to 7, or 0.
pub fn check(file: &[u8]) -> u32 {
    // SAFETY: as in `settle`.
    unsafe { rack_check(file.as_ptr(), file.len()) }
}

/// The refusal 1 to 8, or 0 with k, the rule and the 64 slots in `out`.
pub fn table(file: &[u8], out: &mut [u8]) -> u32 {
    // SAFETY: as in `settle`.
    unsafe { rack_table(file.as_ptr(), file.len(), out.as_mut_ptr(), out.len()) }
}
