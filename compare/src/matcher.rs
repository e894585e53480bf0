//! The plain matcher in C (`c/matcher.c`).

extern "C" {
    fn plain_matches(tree: *const u32, nodes: usize, rows: *const u8, width: usize, ticks: usize, answers: *mut u8, work: *mut u8);
}

/// The answers of a tree over rows, unchecked.
///
/// # Safety
/// `sva_matches` has to answer these slices with ticks.
pub unsafe fn matches(tree: &[u32], rows: &[u8], width: usize, answers: &mut [u8], work: &mut [u8]) {
    plain_matches(tree.as_ptr(), tree.len() / 5, rows.as_ptr(), width, rows.len() / width, answers.as_mut_ptr(), work.as_mut_ptr());
}
