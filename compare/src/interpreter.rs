//! The plain interpreter in C (`c/interpreter.c`): its check of 21 to 23, and its tick.
use crate::rules::Refusal;

extern "C" {
    fn plain_check(
        listing: *const u32,
        len: usize,
        now: *const u8,
        now_len: usize,
        atoms: *const u8,
        atoms_len: usize,
        next_len: usize,
        stack_len: usize,
        place: *mut usize,
    ) -> u32;
    fn plain_tick(listing: *const u32, len: usize, now: *const u8, atoms: *const u8, next: *mut u8, stack: *mut u8) -> u8;
}

/// Refusals 21 to 23 for these buffers.
pub fn check(listing: &[u32], now: &[u8], atoms: &[u8], next: usize, stack: usize) -> Result<(), Refusal> {
    let mut place = 0;
    // Safety: each pointer and length is one slice; `next` and `stack` are lengths alone.
    let number = unsafe {
        plain_check(listing.as_ptr(), listing.len(), now.as_ptr(), now.len(), atoms.as_ptr(), atoms.len(), next, stack, &mut place)
    };
    if number == 0 {
        return Ok(());
    }
    Err(Refusal { number, place })
}

/// One tick, unchecked.
///
/// # Safety
/// `check` has to be `Ok` for these buffers.
pub unsafe fn tick(listing: &[u32], now: &[u8], atoms: &[u8], next: &mut [u8], stack: &mut [u8]) -> u8 {
    plain_tick(listing.as_ptr(), listing.len(), now.as_ptr(), atoms.as_ptr(), next.as_mut_ptr(), stack.as_mut_ptr())
}
