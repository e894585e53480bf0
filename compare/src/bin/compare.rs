//! Lowers each tree here and with the original, and compares: which are accepted, every word, the counts, each refusal's number and
//! place; then ticks of some listings, bit for bit. Stops at the first difference, with the tree's words and exit status 1.
//!
//! `--few` takes some thousand trees and lends buffers of their exact size, for a run under valgrind.
use compare::listing::{self, Counts};
use compare::original::{self, Lowering, Outcome};
use compare::rules::{self, Refusal, ENTRIES, REGISTERS};
use compare::sizes::Sizes;
use compare::sva::Sva;
use compare::trees::Random;
use compare::{commands, interpreter, limits, trees};
use std::panic::{catch_unwind, AssertUnwindSafe};
use std::time::Instant;

/// The original is not asked where it would have more terms at a time than this; nothing is lowered that has more words.
const TERMS: u64 = 1 << 22;
const WORDS: u64 = 4_000_000;

/// How many listings are ticked, and how long they may be.
const TICKED: usize = 20_000;
const TICKED_WORDS: usize = 4000;

/// What was seen.
#[derive(Default)]
struct Tally {
    trees: usize,
    accepted: usize,
    words: usize,
    refused: [usize; 15],
    diagnosed: usize,
    panicked: usize,
    same_limit: usize,
    not_asked: usize,
    too_long: usize,
    wrapping: usize,
    short_work: usize,
    short_output: usize,
    listings: usize,
    ticks: usize,
    matches: usize,
    tick_refusals: [usize; 3],
    stretches: usize,
}

struct Comparison {
    sva: Sva,
    random: Random,
    tally: Tally,
}

/// An error that says what differs.
fn differ<T>(what: impl Into<String>) -> Result<T, String> {
    Err(what.into())
}

impl Comparison {
    /// One tree, whole.
    fn tree(&mut self, tree: &[u32]) -> Result<(), String> {
        self.tally.trees += 1;
        let room = 16 * ENTRIES as usize;
        let decided = rules::decided(tree, room, usize::MAX);
        let work = 16 * (decided.most_entries as usize).min(ENTRIES as usize);
        match decided.answer {
            Ok(sizes) if sizes.words > WORDS => self.too_long(tree, work),
            Ok(sizes) => self.accepted(tree, work, sizes),
            Err(refusal) => self.refused(tree, work, refusal),
        }
    }

    /// A tree whose listing is too long to be held in every form: its refusal with 14 alone.
    fn too_long(&mut self, tree: &[u32], work: usize) -> Result<(), String> {
        self.tally.too_long += 1;
        match self.sva.lower(tree, work, 1000)? {
            Err(Refusal { number: 14, place: 0 }) => Ok(()),
            answer => differ(format!("{answer:?} with a thousand words of output")),
        }
    }

    /// A tree that the specification accepts: with the exact work and output, with one word less of either, with more of both.
    fn accepted(&mut self, tree: &[u32], work: usize, sizes: Sizes) -> Result<(), String> {
        let (out, more) = (sizes.words as usize, self.random.below(40));
        let Ok((counts, words)) = self.sva.lower(tree, work, out)? else {
            return differ("refused here, accepted by the specification's rules");
        };
        self.tally.accepted += 1;
        self.tally.words += words.len();
        if counts != listing::counts(&words) || counts.registers as u64 != sizes.registers {
            return differ(format!("{counts:?} is not what the words count, or not {} registers", sizes.registers));
        }
        self.with_the_original(tree, &words, sizes)?;
        if self.sva.lower(tree, work + more, out + more)? != Ok((counts, words)) {
            return differ("another answer with more room");
        }
        let short = rules::decided(tree, work - 1, out).answer.err();
        if self.sva.lower(tree, work - 1, out)?.err() != short || short.map(|r| r.number) != Some(11) {
            return differ(format!("with a word less of work not {short:?}"));
        }
        self.tally.short_work += 1;
        if self.sva.lower(tree, work, out - 1)? != Err(Refusal { number: 14, place: 0 }) {
            return differ("with a word less of output not refused with 14");
        }
        self.tally.short_output += 1;
        Ok(())
    }

    /// The words of an accepted tree beside the original's.
    fn with_the_original(&mut self, tree: &[u32], words: &[u32], sizes: Sizes) -> Result<(), String> {
        if sizes.wraps {
            self.tally.wrapping += 1;
            return Ok(());
        }
        let Outcome::Lowered(lowering) = original::lower(&original::sequence(tree), REGISTERS as usize, false) else {
            return differ("accepted here, but the original diagnoses, panics or takes too many registers");
        };
        if lowering.words() != words {
            return differ(format!("here\n{}the original\n{}", listing::text(words), listing::text(&lowering.words())));
        }
        if self.tally.listings < TICKED && words.len() <= TICKED_WORDS && self.random.percent(20) {
            self.tally.listings += 1;
            self.ticks(words, &lowering)?;
            self.stretches(words)?;
            self.damaged_ticks(words)?;
        }
        Ok(())
    }

    /// A tree that the specification refuses: number and place, and whether the original diagnoses where it has to.
    fn refused(&mut self, tree: &[u32], work: usize, refusal: Refusal) -> Result<(), String> {
        self.tally.refused[refusal.number as usize] += 1;
        let answer = self.sva.lower(tree, work, 64)?;
        if answer.as_ref().err() != Some(&refusal) {
            return differ(format!("{answer:?} here, {refusal:?} by the specification's rules"));
        }
        let diagnosed_there = matches!(refusal.number, 4..=10 | 12);
        if !diagnosed_there && refusal.number != 13 {
            return Ok(());
        }
        let bound = rules::expansion_bound(tree);
        if bound > TERMS && refusal.number <= 10 {
            self.tally.not_asked += 1;
            return Ok(());
        }
        match original::lower(&original::sequence(tree), REGISTERS as usize, bound > 20_000) {
            Outcome::Diagnosed(_) if diagnosed_there => self.tally.diagnosed += 1,
            Outcome::Panicked(_) if diagnosed_there => self.tally.panicked += 1,
            Outcome::TooManyRegisters if refusal.number == 13 => self.tally.same_limit += 1,
            Outcome::TooManyRegisters if refusal.number == 12 => self.tally.not_asked += 1,
            Outcome::Lowered(_) => return differ(format!("{refusal:?} here, accepted by the original")),
            _ => return differ(format!("{refusal:?} here, and the original ends otherwise")),
        }
        Ok(())
    }

    /// Twelve ticks from registers of 0, then twelve from random ones, beside the original's expressions and the interpreter in C.
    fn ticks(&mut self, words: &[u32], lowering: &Lowering) -> Result<(), String> {
        let Counts { registers, deepest, .. } = listing::counts(words);
        let mut now = vec![0; registers];
        for tick in 0..24 {
            if tick == 12 {
                now.iter_mut().for_each(|bit| *bit = self.random.below(2) as u8);
            }
            let atoms: Vec<u8> = (0..atoms_of(words)).map(|_| u8::from(self.random.percent(60))).collect();
            let mut expected = vec![0; registers];
            let expected_match = lowering.tick(&now, &atoms, &mut expected);
            let mut next = vec![9; registers + 3];
            if self.sva.tick(words, &now, &atoms, &mut next, deepest)? != Ok(expected_match) || next[..registers] != expected {
                return differ(format!("tick {tick} of\n{}", listing::text(words)));
            }
            let mut stack = vec![0; deepest];
            let mut plain = vec![9; registers];
            interpreter::check(words, &now, &atoms, registers, deepest).map_err(|r| format!("{r:?} of the interpreter in C"))?;
            // Safety: the check is Ok.
            let plain_match = unsafe { interpreter::tick(words, &now, &atoms, &mut plain, &mut stack) };
            if plain_match != expected_match || plain != expected {
                return differ(format!("tick {tick} of the interpreter in C of\n{}", listing::text(words)));
            }
            self.tally.ticks += 1;
            self.tally.matches += usize::from(expected_match);
            now = expected;
        }
        Ok(())
    }

    /// Every register's words, and one register that is not there.
    fn stretches(&mut self, words: &[u32]) -> Result<(), String> {
        let registers = listing::counts(words).registers as u32;
        for register in (0..registers.min(20)).chain([registers, u32::MAX]) {
            let found = self.sva.stretch(words, register)?;
            if found != listing::stretch(words, register) {
                return differ(format!("register {register} found at {found:?} in\n{}", listing::text(words)));
            }
            self.tally.stretches += 1;
        }
        Ok(())
    }

    /// Ticks that are refused: a word, a byte or a length changed; number and place as the check in C has them.
    fn damaged_ticks(&mut self, words: &[u32]) -> Result<(), String> {
        let Counts { registers, deepest, .. } = listing::counts(words);
        for _ in 0..6 {
            let mut words = words.to_vec();
            let mut now = vec![1; registers];
            let mut atoms = vec![1; atoms_of(&words)];
            let mut lens = [registers, deepest];
            match self.random.below(8) {
                0 => words.truncate(self.random.below(words.len())),
                1 => words.push(listing::word(1 + self.random.below(15) as u32, 0)),
                2 => lens[self.random.below(2)] = self.random.below(deepest),
                3 => atoms.truncate(self.random.below(2)),
                4 if registers > 0 => now[self.random.below(registers)] = 2,
                5 => *atoms.last_mut().unwrap_or(&mut 0) = 255,
                _ => {
                    let at = self.random.below(words.len());
                    words[at] = listing::word(self.random.below(17) as u32, self.random.below(registers + 2) as u32);
                }
            }
            let expected = interpreter::check(&words, &now, &atoms, lens[0], lens[1]);
            let answer = self.sva.tick(&words, &now, &atoms, &mut vec![7; lens[0]], lens[1])?;
            if answer.err() != expected.err() {
                return differ(format!("a damaged tick: {answer:?} here, {expected:?} by the check in C, of the words {words:?}"));
            }
            if let Err(refusal) = expected {
                self.tally.tick_refusals[refusal.number as usize - 21] += 1;
            }
        }
        Ok(())
    }

    /// Compares one tree; a difference ends the program.
    fn look_at(&mut self, tree: &[u32]) {
        let seen = catch_unwind(AssertUnwindSafe(|| self.tree(tree))).unwrap_or_else(|_| differ("a panic, see above"));
        if let Err(what) = seen {
            println!("DIFFERENCE: {what}\ntree words: {tree:?}");
            std::process::exit(1);
        }
    }

    /// The limits, all small trees, random ones, damaged ones.
    fn run(&mut self, few: bool) {
        if !few {
            limits::limits().iter().for_each(|tree| self.look_at(tree));
            println!("limits from both sides: {}", self.tally.trees);
        }
        let before = (self.tally.trees, self.tally.accepted);
        for nodes in 1..=if few { 3 } else { 6 } {
            trees::each_small(nodes, &mut |tree| self.look_at(&tree));
        }
        let (small, accepted) = (self.tally.trees, self.tally.accepted);
        println!("all trees of up to {} nodes: {}, of them accepted {}", if few { 3 } else { 6 }, small - before.0, accepted - before.1);
        let mut random = Random(0x9e37_79b9_7f4a_7c15);
        for _ in 0..if few { 2000 } else { 150_000 } {
            let nodes = 1 + random.below(40);
            self.look_at(&random.tree(nodes));
        }
        println!("random trees of up to 40 nodes: {}, of them accepted {}", self.tally.trees - small, self.tally.accepted - accepted);
        for _ in 0..if few { 500 } else { 100_000 } {
            let nodes = 1 + random.below(12);
            self.look_at(&random.damaged(nodes));
        }
    }
}

/// How many atoms a listing needs.
fn atoms_of(words: &[u32]) -> usize {
    let atoms = words.iter().filter(|word| listing::operation(**word) == listing::ATOM);
    atoms.map(|word| listing::argument(*word) as usize + 1).max().unwrap_or(0)
}

impl Tally {
    fn print(&self) {
        println!("{} trees: {} accepted, {} words in all, every word as the original's", self.trees, self.accepted, self.words);
        for (number, count) in self.refused.iter().enumerate().skip(1) {
            println!("refused with {number:2}: {count}");
        }
        println!("of those refused with 4 to 10 or 12 the original diagnosed {}, panicked on {}", self.diagnosed, self.panicked);
        println!("13, and the original past its 65,536th register: {}", self.same_limit);
        println!(
            "too large for the original to be asked: {}; windows past 2^32, decided by the specification: {}",
            self.not_asked, self.wrapping
        );
        println!("listings of more than {WORDS} words, looked at for 14 alone: {}", self.too_long);
        println!("with a word less of work refused with 11: {}; of output, with 14: {}", self.short_work, self.short_output);
        println!("listings ticked: {}, ticks {}, of them matches {}", self.listings, self.ticks, self.matches);
        let [faulty, short, large] = self.tick_refusals;
        println!("ticks refused with 21: {faulty}, 22: {short}, 23: {large}; registers looked up: {}", self.stretches);
    }
}

/// The whole comparison, or the one of few trees.
fn compare_all(few: bool) {
    let start = Instant::now();
    let guards = if few { 0 } else { 8 };
    let mut comparison = Comparison { sva: Sva { guards }, random: Random(0x0123_4567_89ab_cdef), tally: Tally::default() };
    comparison.run(few);
    comparison.tally.print();
    println!("no difference; {:.1} s", start.elapsed().as_secs_f64());
}

fn main() {
    let few = !commands::words("usage: compare [--few | --help]", |words| words.is_empty() || words == ["--few"]).is_empty();
    std::env::remove_var("VITA_SVA_COLLAPSE");
    commands::run(move || compare_all(few));
}
