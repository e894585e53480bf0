//! Asks the matcher of this project for trees of all kinds over random rows, and compares: its answers with those of `runs`, which decides by
//! the specification's sentences, and of the plain matcher in C; with the match bits of the tree's listing, ticked from registers of 0, where
//! lowering accepts it and throughout stands on top; and its refusals. Stops at the first difference, with exit status 1.
//!
//! `--few` takes some thousand and lends buffers of their exact size, for a run under valgrind.
use compare::listing::Counts;
use compare::recordings::ATOMS;
use compare::rules::{Refusal, ENTRIES};
use compare::sva::Sva;
use compare::trees::Random;
use compare::{commands, matcher, rules, runs, trees};
use std::time::Instant;

/// The most ticks of a random recording, the most nodes of a random tree, and the longest listing that is ticked.
const TICKS: usize = 14;
const NODES: usize = 12;
const WORDS: usize = 20_000;

/// What was seen.
#[derive(Default)]
struct Tally {
    recordings: usize,
    ticks: usize,
    ends: usize,
    ticked: usize,
    refused: [usize; 19],
}

struct Comparison {
    sva: Sva,
    random: Random,
    tally: Tally,
}

/// A tree over rows of this width.
struct Asked {
    tree: Vec<u32>,
    rows: Vec<u8>,
    width: usize,
}

impl Asked {
    fn nodes(&self) -> usize {
        self.tree.len() / 5
    }

    fn ticks(&self) -> usize {
        self.rows.len().checked_div(self.width).unwrap_or(0)
    }

    /// The bytes of work that are enough.
    fn work(&self) -> usize {
        self.nodes() * (self.ticks() + 1) * (self.ticks() + 1)
    }

    /// Whether throughout stands only at the root or directly under another.
    fn on_top(&self) -> bool {
        let root = self.nodes() - 1;
        let guards = |n: usize| (0..self.nodes()).any(|m| self.tree[5 * m] == 6 && self.tree[5 * m + 2] as usize == n);
        (0..root).all(|n| self.tree[5 * n] != 6 || guards(n))
    }
}

impl Comparison {
    /// A good tree over good rows, with just enough room, with more, and with a byte less.
    fn good(&mut self, asked: &Asked) -> Result<(), String> {
        let (ticks, work) = (asked.ticks(), asked.work());
        let expected = runs::answers(&asked.tree, &asked.rows, asked.width);
        let more = self.random.below(20);
        for (answers, work) in [(ticks, work), (ticks + more, work + more)] {
            let given = self.sva.matches(&asked.tree, &asked.rows, asked.width, answers, work)?;
            if given.as_ref() != Ok(&expected) {
                return Err(format!("{given:?} here, {expected:?} by the sets of runs"));
            }
        }
        let (mut plain, mut tables) = (vec![9; ticks], vec![9; work]);
        // Safety: they were answered with ticks.
        unsafe { matcher::matches(&asked.tree, &asked.rows, asked.width, &mut plain, &mut tables) };
        if plain != expected {
            return Err(format!("{plain:?} by the matcher in C, {expected:?} by the sets of runs"));
        }
        let short = Refusal { number: 18, place: 0 };
        if self.sva.matches(&asked.tree, &asked.rows, asked.width, ticks, work - 1)? != Err(short) {
            return Err("with a byte less of work not refused with 18".to_string());
        }
        if ticks > 0 && self.sva.matches(&asked.tree, &asked.rows, asked.width, ticks - 1, work)? != Err(short) {
            return Err("with a byte less of answers not refused with 18".to_string());
        }
        self.tally.recordings += 1;
        self.tally.ticks += ticks;
        self.tally.ends += expected.iter().filter(|byte| **byte == 1).count();
        self.lowered(asked, &expected)
    }

    /// The same tree lowered and ticked over the same rows.
    fn lowered(&mut self, asked: &Asked, expected: &[u8]) -> Result<(), String> {
        let decided = rules::decided(&asked.tree, 16 * ENTRIES as usize, WORDS);
        let Ok(sizes) = decided.answer else { return Ok(()) };
        if !asked.on_top() {
            return Ok(());
        }
        let lowered = self.sva.lower(&asked.tree, 16 * decided.most_entries as usize, sizes.words as usize)?;
        let Ok((Counts { registers, deepest, .. }, words)) = lowered else {
            return Err("refused by lowering, accepted by the specification's rules".to_string());
        };
        let mut now = vec![0; registers];
        for (tick, atoms) in asked.rows.chunks_exact(asked.width).enumerate() {
            let mut next = vec![0; registers];
            let bit = self.sva.tick(&words, &now, atoms, &mut next, deepest)?;
            if bit != Ok(expected[tick]) {
                return Err(format!("{bit:?} ticked at tick {tick}, {expected:?} matched"));
            }
            now = next;
        }
        self.tally.ticked += 1;
        Ok(())
    }

    /// A tree, rows or lengths of which something was changed: the refusal, or the answer, as decided anew.
    fn changed(&mut self, mut asked: Asked) -> Result<(), String> {
        let (mut answers, mut work) = (asked.ticks(), asked.work());
        match self.random.below(10) {
            0 => asked.width = self.random.below(ATOMS + 3),
            1 => asked.rows.truncate(self.random.below(asked.rows.len() + 1)),
            2 if !asked.rows.is_empty() => {
                let at = self.random.below(asked.rows.len());
                asked.rows[at] = 2 + self.random.below(254) as u8;
            }
            3 => {
                let ticks = 254 + self.random.below(5);
                asked.rows = self.random.rows(ticks, asked.width, 50);
                (answers, work) = (asked.ticks(), asked.work());
            }
            4 => answers = answers.saturating_sub(1 + self.random.below(3)),
            5 => work = work.saturating_sub(1 + self.random.below(9)),
            6 => asked.tree = self.random.damaged(NODES),
            7 => {
                let operand = self.random.any_tree(3);
                asked.tree = trees::goto(&operand, 1);
                work = work.max(asked.work());
            }
            8 => {
                let floors = 50 + self.random.below(16);
                asked.tree = trees::tower(asked.tree, floors, |t| trees::consecutive(t, 1, 1));
                work = asked.work();
            }
            _ => {
                let at = self.random.below(asked.tree.len());
                asked.tree[at] = self.random.below(8) as u32;
            }
        }
        let judged = runs::judged(&asked.tree, &asked.rows, asked.width, answers, work);
        let given = self.sva.matches(&asked.tree, &asked.rows, asked.width, answers, work)?;
        match judged {
            Err(refusal) => self.tally.refused[refusal.number as usize] += 1,
            Ok(ticks) if ticks > TICKS => return if given.is_ok() { Ok(()) } else { Err(format!("{given:?} of {ticks} ticks")) },
            Ok(_) => self.tally.recordings += 1,
        }
        let expected = judged.map(|_| runs::answers(&asked.tree, &asked.rows, asked.width));
        if given != expected {
            return Err(format!(
                "{given:?} here, {expected:?} by the specification's rules with {answers} answers and {work} bytes of work"
            ));
        }
        Ok(())
    }

    /// One random question.
    fn asked(&mut self) -> Asked {
        let nodes = 1 + self.random.below(NODES);
        let (ticks, percent) = (self.random.below(TICKS + 1), 30 + self.random.below(65));
        let width = ATOMS + self.random.below(3);
        Asked { tree: self.random.any_tree(nodes), rows: self.random.rows(ticks, width, percent), width }
    }

    /// So many good questions, and a third as many changed ones.
    fn run(&mut self, count: usize) {
        for turn in 0..count {
            let asked = self.asked();
            let words = format!("{:?} over {:?} of width {}", asked.tree, asked.rows, asked.width);
            let seen = if turn % 4 == 3 { self.changed(asked) } else { self.good(&asked) };
            if let Err(what) = seen {
                println!("DIFFERENCE: {what}\ntree words: {words}");
                std::process::exit(1);
            }
        }
    }
}

impl Tally {
    fn print(&self) {
        println!("{} recordings answered, {} ticks, a match ends at {}", self.recordings, self.ticks, self.ends);
        println!("of them lowered and ticked, bit for bit: {}", self.ticked);
        for (number, count) in self.refused.iter().enumerate().filter(|(_, count)| **count > 0) {
            println!("refused with {number:2}: {count}");
        }
    }
}

/// The whole comparison, or the one of few.
fn compare_all(few: bool) {
    let start = Instant::now();
    let guards = if few { 0 } else { 8 };
    let mut comparison = Comparison { sva: Sva { guards }, random: Random(0x2026_1115_0000_0003), tally: Tally::default() };
    comparison.run(if few { 4000 } else { 400_000 });
    comparison.tally.print();
    println!("no difference; {:.1} s", start.elapsed().as_secs_f64());
}

fn main() {
    let few = !commands::words("usage: matched [--few | --help]", |words| words.is_empty() || words == ["--few"]).is_empty();
    commands::run(move || compare_all(few));
}
