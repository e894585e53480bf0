//! This project's archive through its C boundary. Every call is looked at from outside: what lies before and behind each lent buffer,
//! that a refusal changes nothing, that words past the written ones stay, that work and stack are all zero afterwards.
//!
//! An answer is `Ok`; a broken promise of the boundary is an `Err` that says which. Example: `a ##1 b` with 32 words of work and 8 of
//! output answers 1 register, 8 words, deepest 2.
use crate::listing::{stores, Counts};
use crate::rules::Refusal;

extern "C" {
    fn sva_lower(
        tree: *const u32,
        tree_len: usize,
        work: *mut u32,
        work_len: usize,
        out: *mut u32,
        out_len: usize,
        registers: *mut usize,
        words: *mut usize,
        deepest: *mut usize,
        place: *mut usize,
    ) -> u32;
    fn sva_tick(
        listing: *const u32,
        listing_len: usize,
        now: *const u8,
        now_len: usize,
        atoms: *const u8,
        atoms_len: usize,
        next: *mut u8,
        next_len: usize,
        stack: *mut u8,
        stack_len: usize,
        matched: *mut u8,
        place: *mut usize,
    ) -> u32;
    fn sva_stretch(listing: *const u32, listing_len: usize, register: u32, start: *mut usize) -> usize;
    fn sva_matches(
        tree: *const u32,
        tree_len: usize,
        rows: *const u8,
        rows_len: usize,
        width: usize,
        answers: *mut u8,
        answers_len: usize,
        work: *mut u8,
        work_len: usize,
        ticks: *mut usize,
        place: *mut usize,
    ) -> u32;
}

/// What stands in the places of `match`, counts and place before a call.
const UNTOUCHED: u8 = 0xee;
const NO_COUNT: usize = usize::MAX;

/// `sva_lower` on these slices: the number, the counts, the place.
pub fn lower(tree: &[u32], work: &mut [u32], out: &mut [u32]) -> (u32, Counts, usize) {
    let [mut registers, mut words, mut deepest, mut place] = [NO_COUNT; 4];
    // Safety: each pointer and length is one slice.
    let number = unsafe {
        sva_lower(
            tree.as_ptr(),
            tree.len(),
            work.as_mut_ptr(),
            work.len(),
            out.as_mut_ptr(),
            out.len(),
            &mut registers,
            &mut words,
            &mut deepest,
            &mut place,
        )
    };
    (number, Counts { registers, words, deepest }, place)
}

/// `sva_tick` on these slices: the number, the match, the place.
pub fn tick(listing: &[u32], now: &[u8], atoms: &[u8], next: &mut [u8], stack: &mut [u8]) -> (u32, u8, usize) {
    let (mut matched, mut place) = (UNTOUCHED, NO_COUNT);
    // Safety: each pointer and length is one slice.
    let number = unsafe {
        sva_tick(
            listing.as_ptr(),
            listing.len(),
            now.as_ptr(),
            now.len(),
            atoms.as_ptr(),
            atoms.len(),
            next.as_mut_ptr(),
            next.len(),
            stack.as_mut_ptr(),
            stack.len(),
            &mut matched,
            &mut place,
        )
    };
    (number, matched, place)
}

/// `sva_stretch` on a slice: where the register's words begin, and how many they are.
pub fn stretch(listing: &[u32], register: u32) -> (usize, usize) {
    let mut start = NO_COUNT;
    // Safety: pointer and length are one slice.
    let len = unsafe { sva_stretch(listing.as_ptr(), listing.len(), register, &mut start) };
    (start, len)
}

/// `sva_matches` on these slices: the number, the ticks, the place.
pub fn matches(tree: &[u32], rows: &[u8], width: usize, answers: &mut [u8], work: &mut [u8]) -> (u32, usize, usize) {
    let [mut ticks, mut place] = [NO_COUNT; 2];
    // Safety: each pointer and length is one slice.
    let number = unsafe {
        sva_matches(
            tree.as_ptr(),
            tree.len(),
            rows.as_ptr(),
            rows.len(),
            width,
            answers.as_mut_ptr(),
            answers.len(),
            work.as_mut_ptr(),
            work.len(),
            &mut ticks,
            &mut place,
        )
    };
    (number, ticks, place)
}

/// An answer, or a promise that was broken.
pub type Checked<T> = Result<Result<T, Refusal>, String>;

/// A buffer that is lent, with guard cells around it, and how it was before.
struct Lent<T> {
    cells: Vec<T>,
    before: Vec<T>,
    guards: usize,
}

impl<T: Copy + PartialEq> Lent<T> {
    /// A buffer of this content between guards; without guards it is an allocation of its exact size.
    fn new(content: &[T], guard: T, guards: usize) -> Self {
        let mut cells = Vec::with_capacity(content.len() + 2 * guards);
        cells.resize(guards, guard);
        cells.extend_from_slice(content);
        cells.resize(content.len() + 2 * guards, guard);
        Lent { before: cells.clone(), cells, guards }
    }

    fn content(&self) -> &[T] {
        &self.cells[self.guards..self.cells.len() - self.guards]
    }

    fn lend(&mut self) -> &mut [T] {
        let end = self.cells.len() - self.guards;
        &mut self.cells[self.guards..end]
    }

    /// An error unless all but the first `changed` cells of the content, and all guards, are as they were.
    fn same_past(&self, changed: usize, what: &str) -> Result<(), String> {
        let from = self.guards + changed;
        if self.cells[..self.guards] != self.before[..self.guards] || self.cells[from..] != self.before[from..] {
            return Err(format!("{what} was changed where it must not be"));
        }
        Ok(())
    }

    /// An error unless the content is all this cell, and the guards are as they were.
    fn all(&self, cell: T, what: &str) -> Result<(), String> {
        self.same_past(self.content().len(), what)?;
        match self.content().iter().any(|c| *c != cell) {
            true => Err(format!("{what} is not all zero")),
            false => Ok(()),
        }
    }
}

/// What a buffer holds before a call, where any words would do.
fn noise(len: usize, salt: u32) -> Vec<u32> {
    (0..len as u32).map(|i| i.wrapping_mul(2_654_435_761) ^ salt).collect()
}

/// The boundary, with this many guard cells before and behind each lent buffer.
pub struct Sva {
    pub guards: usize,
}

impl Sva {
    /// `sva_lower` with buffers of these lengths, filled with noise before: counts and words, or the refusal.
    pub fn lower(&self, tree: &[u32], work: usize, out: usize) -> Checked<(Counts, Vec<u32>)> {
        let tree = Lent::new(tree, 0xdead_beef, self.guards);
        let mut work = Lent::new(&noise(work, 0x5eed), 0xdead_beef, self.guards);
        let mut output = Lent::new(&noise(out, 0xfeed), 0xdead_beef, self.guards);
        let (number, counts, place) = lower(tree.content(), work.lend(), output.lend());
        tree.same_past(0, "the tree")?;
        work.all(0, "work")?;
        if number != 0 {
            output.same_past(0, "the output of a refusal")?;
            return match counts {
                Counts { registers: 0, words: 0, deepest: 0 } => Ok(Err(Refusal { number, place })),
                _ => Err(format!("a refusal with {counts:?}")),
            };
        }
        if counts.words > out || place != 0 {
            return Err(format!("{counts:?} and place {place} for an output of {out} words"));
        }
        output.same_past(counts.words, "the output past the listing")?;
        Ok(Ok((counts, output.content()[..counts.words].to_vec())))
    }

    /// `sva_tick` over these buffers, with a stack of that length: the match bit, and `next` afterwards.
    pub fn tick(&self, listing: &[u32], now: &[u8], atoms: &[u8], next: &mut [u8], stack: usize) -> Checked<u8> {
        let registers = listing.iter().filter(|word| stores(**word)).count();
        let listing = Lent::new(listing, 0xdead_beef, self.guards);
        let [now, atoms, mut written, mut stack] = [now, atoms, next, &vec![0x77; stack]].map(|bytes| Lent::new(bytes, 0xaa, self.guards));
        let (number, matched, place) = tick(listing.content(), now.content(), atoms.content(), written.lend(), stack.lend());
        listing.same_past(0, "the listing")?;
        now.same_past(0, "`now`")?;
        atoms.same_past(0, "the atoms")?;
        if number != 0 {
            written.same_past(0, "`next` of a refusal")?;
            stack.same_past(0, "the stack of a refusal")?;
            return match matched {
                UNTOUCHED => Ok(Err(Refusal { number, place })),
                _ => Err("match was changed on a refusal".to_string()),
            };
        }
        written.same_past(registers, "`next` past the registers")?;
        stack.all(0, "the stack")?;
        next.copy_from_slice(written.content());
        if place != 0 {
            return Err(format!("place {place} without a refusal"));
        }
        Ok(Ok(matched))
    }

    /// `sva_stretch`: where the register's words begin, and how many they are.
    pub fn stretch(&self, listing: &[u32], register: u32) -> Result<(usize, usize), String> {
        let listing = Lent::new(listing, 0xdead_beef, self.guards);
        let found = stretch(listing.content(), register);
        listing.same_past(0, "the listing")?;
        Ok(found)
    }
    /// `sva_matches` with buffers of these lengths, filled with noise before: a byte a tick, or the refusal.
    pub fn matches(&self, tree: &[u32], rows: &[u8], width: usize, answers: usize, work: usize) -> Checked<Vec<u8>> {
        let tree = Lent::new(tree, 0xdead_beef, self.guards);
        let rows = Lent::new(rows, 0xaa, self.guards);
        let [mut written, mut work] = [answers, work].map(|len| Lent::new(&vec![0x77; len], 0xaa, self.guards));
        let (number, ticks, place) = matches(tree.content(), rows.content(), width, written.lend(), work.lend());
        tree.same_past(0, "the tree")?;
        rows.same_past(0, "the rows")?;
        work.all(0, "work")?;
        if number != 0 {
            written.same_past(0, "the answers of a refusal")?;
            return if ticks == 0 { Ok(Err(Refusal { number, place })) } else { Err(format!("a refusal with {ticks} ticks")) };
        }
        if ticks > answers || place != 0 {
            return Err(format!("{ticks} ticks and place {place} for {answers} answers"));
        }
        written.same_past(ticks, "the answers past the ticks")?;
        Ok(Ok(written.content()[..ticks].to_vec()))
    }
}
