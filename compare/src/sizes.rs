//! Registers and words of a lowering, by arithmetic over the original's alternatives: what it would build, counted and not built.
//!
//! Example: `a ##65536 b` takes 65,536 registers; `a ##4294967294 b` is counted as fast.
use crate::elaborate::{SeqAlt, SeqHop, SeqTerm};
use crate::original::guard_atoms;

/// Registers and words of a whole listing, and whether a window's sum passes what the original's 32 bits hold.
#[derive(Clone, Copy, Default)]
pub struct Sizes {
    pub registers: u64,
    pub words: u64,
    pub wraps: bool,
}

/// A pipeline being counted: the words of its stores, and of the current expression.
#[derive(Default)]
struct Pipeline {
    registers: u64,
    stored: u64,
    current: u64,
    guard: u64,
}

impl Pipeline {
    /// The guard ANDed to the current expression.
    fn guard(&mut self) {
        if self.guard > 0 {
            self.current += self.guard + 1;
        }
    }

    /// Some delays, each guarded if that is asked for.
    fn delay(&mut self, count: u64, guarded: bool) {
        if count == 0 {
            return;
        }
        let later = 1 + if guarded && self.guard > 0 { self.guard + 1 } else { 0 };
        self.registers += count;
        self.stored += self.current + 1 + (count - 1) * (later + 1);
        self.current = later;
    }

    /// The latch of an "at least" hop.
    fn latch(&mut self, least: u64) {
        self.delay(least.saturating_sub(1), false);
        self.registers += 1;
        self.stored += self.current + 3;
        self.current = if least == 0 { self.current + 2 } else { 1 };
    }

    /// `[->n]`, activated by the current expression.
    fn goto(&mut self, n: u64) {
        let first = self.current + 2;
        self.registers += n;
        self.stored += first + 5;
        if n > 1 {
            self.stored += (first + 10) + (n - 2) * 11;
        }
        self.current = if n == 1 { first + 3 } else { 4 };
    }

    /// `[=n]`: a goto, and its extension.
    fn nonconsecutive(&mut self, n: u64) {
        self.goto(n);
        self.registers += 1;
        self.current += 6;
        self.stored += self.current + 1;
    }

    /// `[*m:$]`, m at least 1.
    fn run(&mut self, m: u64) {
        self.registers += m;
        if m == 1 {
            self.current += 5;
            self.stored += self.current + 1;
        } else {
            self.stored += (self.current + 4) + (m - 2) * 5 + 7;
            self.current = 6;
        }
    }

    /// A term: as the seed, or after its hop.
    fn term(&mut self, term: &SeqTerm, seed: bool) {
        match term {
            SeqTerm::Bool(_) => self.current += if seed { 2 } else { 3 },
            SeqTerm::Empty => {}
            machine => {
                self.current += u64::from(seed);
                match machine {
                    SeqTerm::Goto(_, n) => self.goto((*n).into()),
                    SeqTerm::Nonconsec(_, n) => self.nonconsecutive((*n).into()),
                    SeqTerm::ConsecAtLeast(_, m) => self.run((*m).into()),
                    _ => {}
                }
            }
        }
    }
}

/// One alternative's pipeline. Its Empties are where 12 allows them.
fn pipeline((terms, guard): &SeqAlt) -> Pipeline {
    let atoms = guard.as_ref().map_or(0, guard_atoms) as u64;
    let mut counted = Pipeline { guard: (3 * atoms).saturating_sub(1), ..Pipeline::default() };
    for (i, (term, hop)) in terms.iter().enumerate() {
        match hop {
            _ if i == 0 => {}
            SeqHop::Fixed(d) if matches!(term, SeqTerm::Empty) => counted.delay(u64::from(*d) - 1, true),
            SeqHop::Fixed(d) => counted.delay((*d).into(), true),
            SeqHop::AtLeast(m) => counted.latch((*m).into()),
            SeqHop::Range(..) => unreachable!("no window is collapsed"),
        }
        counted.term(term, i == 0);
        if i == 0 {
            counted.guard();
        }
    }
    counted
}

/// A root that is no within.
pub(crate) fn choice(alternatives: &[SeqAlt]) -> Sizes {
    let mut sizes = Sizes::default();
    for alternative in alternatives {
        let bare = alternative.1.is_none() && matches!(alternative.0[..], [(SeqTerm::Bool(_), _)]);
        let counted = pipeline(alternative);
        sizes.registers += counted.registers;
        sizes.words += counted.stored + if bare { 1 } else { counted.current };
    }
    let several = if alternatives.len() > 1 { 2 * alternatives.len() as u64 - 1 } else { 0 };
    Sizes { words: sizes.words + several + 1, ..sizes }
}

/// The ticks of a window, summed exactly.
fn window((terms, _): &SeqAlt) -> u64 {
    1 + terms.iter().skip(1).map(|(_, hop)| if let SeqHop::Fixed(d) = hop { u64::from(*d) } else { 0 }).sum::<u64>()
}

/// A root within: every pair that fits.
pub(crate) fn within(one: &[SeqAlt], two: &[SeqAlt]) -> Sizes {
    let wraps = one.iter().chain(two).any(|alternative| window(alternative) > u32::MAX.into());
    let mut sizes = Sizes { wraps, ..Sizes::default() };
    let mut pairs = 0;
    for outer in two {
        let around = pipeline(outer);
        sizes.registers += around.registers;
        sizes.words += around.stored;
        for inner in one.iter().filter(|inner| window(inner) <= window(outer)) {
            let mut counted = pipeline(inner);
            let places = window(outer) - window(inner);
            let matched = counted.current + 2 * places;
            counted.delay(places, false);
            sizes.registers += counted.registers;
            sizes.words += counted.stored + around.current + matched + 1;
            pairs += 1;
        }
    }
    let joined = if pairs == 0 { 1 } else { pairs - 1 };
    Sizes { words: sizes.words + joined + 1, ..sizes }
}
