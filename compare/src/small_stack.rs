//! The archive's functions on a stack of just so many bytes (`c/small_stack.c`): what they answer, and how many of the bytes they write to.
//! Where the bytes are not enough the program ends, by a signal.
use crate::listing::Counts;
use std::ptr::{null, null_mut};

/// A call as C has it.
#[repr(C)]
struct Call {
    which: u32,
    number: u32,
    words: *const u32,
    words_len: usize,
    work: *mut u32,
    work_len: usize,
    out: *mut u32,
    out_len: usize,
    now: *const u8,
    now_len: usize,
    atoms: *const u8,
    atoms_len: usize,
    next: *mut u8,
    next_len: usize,
    stack: *mut u8,
    stack_len: usize,
    rows: *const u8,
    rows_len: usize,
    width: usize,
    answers: *mut u8,
    answers_len: usize,
    tables: *mut u8,
    tables_len: usize,
    registers: usize,
    counted: usize,
    deepest: usize,
    place: usize,
    matched: u8,
    floor: *mut u8,
    left: usize,
}

const LOWER: u32 = 0;
const TICK: u32 = 1;
const STRETCH: u32 = 2;
const MATCHES: u32 = 3;

extern "C" {
    fn promised_stack() -> usize;
    fn call_with_stack(call: *mut Call, bytes: usize) -> usize;
}

/// The bytes of stack that `include/sva.h` asks of a caller.
pub fn promised() -> usize {
    // Safety: it reads nothing.
    unsafe { promised_stack() }
}

/// Calls, and the most bytes of stack that one of them wrote to.
pub struct SmallStack {
    pub bytes: usize,
    pub most: usize,
}

impl SmallStack {
    fn call(&mut self, which: u32, words: &[u32], fill: impl FnOnce(&mut Call)) -> Call {
        let mut call = Call {
            which,
            number: 0,
            words: words.as_ptr(),
            words_len: words.len(),
            work: null_mut(),
            work_len: 0,
            out: null_mut(),
            out_len: 0,
            now: null(),
            now_len: 0,
            atoms: null(),
            atoms_len: 0,
            next: null_mut(),
            next_len: 0,
            stack: null_mut(),
            stack_len: 0,
            rows: null(),
            rows_len: 0,
            width: 0,
            answers: null_mut(),
            answers_len: 0,
            tables: null_mut(),
            tables_len: 0,
            registers: 0,
            counted: 0,
            deepest: 0,
            place: 0,
            matched: 0,
            floor: null_mut(),
            left: 0,
        };
        fill(&mut call);
        // Safety: each pointer and length that the function reads is one slice, which lives until the thread has ended.
        let used = unsafe { call_with_stack(&mut call, self.bytes) };
        assert!(used <= self.bytes, "a thread on memory of its own");
        self.most = self.most.max(used);
        call
    }

    /// `sva_lower`: the number, the counts, the place.
    pub fn lower(&mut self, tree: &[u32], work: &mut [u32], out: &mut [u32]) -> (u32, Counts, usize) {
        let call = self.call(LOWER, tree, |call| {
            (call.work, call.work_len) = (work.as_mut_ptr(), work.len());
            (call.out, call.out_len) = (out.as_mut_ptr(), out.len());
        });
        (call.number, Counts { registers: call.registers, words: call.counted, deepest: call.deepest }, call.place)
    }

    /// `sva_tick`: the number, the match, the place.
    pub fn tick(&mut self, listing: &[u32], now: &[u8], atoms: &[u8], next: &mut [u8], stack: &mut [u8]) -> (u32, u8, usize) {
        let call = self.call(TICK, listing, |call| {
            (call.now, call.now_len) = (now.as_ptr(), now.len());
            (call.atoms, call.atoms_len) = (atoms.as_ptr(), atoms.len());
            (call.next, call.next_len) = (next.as_mut_ptr(), next.len());
            (call.stack, call.stack_len) = (stack.as_mut_ptr(), stack.len());
        });
        (call.number, call.matched, call.place)
    }

    /// `sva_stretch`: where the register's words begin, and how many they are.
    pub fn stretch(&mut self, listing: &[u32], register: u32) -> (usize, usize) {
        let call = self.call(STRETCH, listing, |call| call.number = register);
        (call.place, call.counted)
    }
    /// `sva_matches`: the number, the ticks, the place.
    pub fn matches(&mut self, tree: &[u32], rows: &[u8], width: usize, answers: &mut [u8], work: &mut [u8]) -> (u32, usize, usize) {
        let call = self.call(MATCHES, tree, |call| {
            (call.rows, call.rows_len, call.width) = (rows.as_ptr(), rows.len(), width);
            (call.answers, call.answers_len) = (answers.as_mut_ptr(), answers.len());
            (call.tables, call.tables_len) = (work.as_mut_ptr(), work.len());
        });
        (call.number, call.counted, call.place)
    }
}
