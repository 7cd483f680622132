// The functions of the proved crate `facade`, behind safe ones.

/// What a call returns: all questions answered or all builds listed, what it was given refused, or no memory.
pub const ANSWERED: u32 = 0;
pub const REFUSED: u32 = 1;

// A slice crosses as a pointer and a length. An allocator takes no bytes, so it is left out. The functions require
// nothing of their caller.
unsafe extern "C" {
    fn answer_table(options: u32, body: *const u8, len: usize, masks: *mut u64, count: usize) -> u32;
    fn answer_clauses(options: u32, body: *const u8, len: usize, masks: *mut u64, count: usize) -> u32;
    fn answer_table_hiding(options: u32, body: *const u8, len: usize, hidden: u64, masks: *mut u64, count: usize) -> u32;
    fn answer_clauses_hiding(options: u32, body: *const u8, len: usize, hidden: u64, masks: *mut u64, count: usize) -> u32;
    fn list_builds(bytes: *const u8, len: usize, numbers: *mut u64, count: usize) -> u32;
}

pub fn table(options: u32, body: &[u8], masks: &mut [u64]) -> u32 {
    unsafe { answer_table(options, body.as_ptr(), body.len(), masks.as_mut_ptr(), masks.len()) }
}

pub fn clauses(options: u32, body: &[u8], masks: &mut [u64]) -> u32 {
    unsafe { answer_clauses(options, body.as_ptr(), body.len(), masks.as_mut_ptr(), masks.len()) }
}

pub fn table_hiding(options: u32, body: &[u8], hidden: u64, masks: &mut [u64]) -> u32 {
    unsafe { answer_table_hiding(options, body.as_ptr(), body.len(), hidden, masks.as_mut_ptr(), masks.len()) }
}

pub fn clauses_hiding(options: u32, body: &[u8], hidden: u64, masks: &mut [u64]) -> u32 {
    unsafe { answer_clauses_hiding(options, body.as_ptr(), body.len(), hidden, masks.as_mut_ptr(), masks.len()) }
}

pub fn list(bytes: &[u8], numbers: &mut [u64]) -> u32 {
    unsafe { list_builds(bytes.as_ptr(), bytes.len(), numbers.as_mut_ptr(), numbers.len()) }
}
