//! The specification's refusals, decided anew: numbers and places, in the specification's order, with the sizes of what is accepted.
//!
//! Refusals 1 to 11 are counted over the table here. For 12 the original's own alternatives are looked at, and `sizes` counts
//! registers (13) and words (14) over them by arithmetic, so that nothing is built that could not be held.
//! Example: `a ##[0:256] b` is refused with 10 at node 2; `a ##1 b` takes 1 register, 8 words and room for 2 entries.
use crate::elaborate::{SeqAlt, SeqHop, SeqTerm, Sequence};
use crate::original::{self, guard_atoms, UNLIMITED};
use crate::sizes::{self, Sizes};

/// The specification's limits: alternatives, repetitions and depth; entries; registers; nodes.
pub const ALTERNATIVES: u64 = 256;
pub const ENTRIES: u64 = 65_536;
pub const REGISTERS: u64 = 65_536;
pub const NODES: usize = 4096;

/// A refusal: number and place.
#[derive(Clone, Copy, Debug, PartialEq)]
pub struct Refusal {
    pub number: u32,
    pub place: usize,
}

fn refused<T>(number: u32, place: usize) -> Result<T, Refusal> {
    Err(Refusal { number, place })
}

/// The five words of a node.
pub fn node(tree: &[u32], n: usize) -> [u32; 5] {
    tree[5 * n..5 * n + 5].try_into().expect("five words")
}

/// The operands of a node, as far as its kind has them.
fn operands([kind, p, q, ..]: [u32; 5]) -> Vec<u32> {
    match kind {
        2 | 7 => vec![p, q],
        3..=5 => vec![p],
        6 => vec![q],
        _ => vec![],
    }
}

/// 1, of one node: known kind, unused words 0, atoms and operands in their bounds, no `$` as min.
fn formed(n: usize, words: [u32; 5]) -> bool {
    let [kind, p, q, min, max] = words;
    let words_hold = match kind {
        1 => p < 65_536 && q == 0 && min == 0 && max == 0,
        2 => min != UNLIMITED,
        3..=5 => q == 0 && min != UNLIMITED,
        6 => p < 65_536 && min == 0 && max == 0,
        7 => min == 0 && max == 0,
        _ => false,
    };
    words_hold && operands(words).iter().all(|operand| (*operand as usize) < n)
}

/// 1, 2 and 3 over the whole table.
pub fn table(tree: &[u32]) -> Result<(), Refusal> {
    let nodes = tree.len() / 5;
    if !tree.len().is_multiple_of(5) || nodes == 0 || nodes > NODES {
        return refused(1, 0);
    }
    if let Some(n) = (0..nodes).find(|n| !formed(*n, node(tree, *n))) {
        return refused(1, n);
    }
    let mut uses = vec![0; nodes];
    for n in 0..nodes {
        for operand in operands(node(tree, n)) {
            uses[operand as usize] += 1;
        }
    }
    if let Some(n) = uses[..nodes - 1].iter().position(|count| *count != 1) {
        return refused(2, n);
    }
    let ranged = |[kind, _, _, min, max]: [u32; 5]| match kind {
        2 | 3 => min <= max,
        4 | 5 => min == max && min > 0,
        _ => true,
    };
    match (0..nodes).find(|n| !ranged(node(tree, *n))) {
        Some(n) => refused(3, n),
        None => Ok(()),
    }
}

/// What the walk knows of a node: its alternatives, its entries, whether all is Bool terms and fixed hops, whether there is a guard.
#[derive(Clone, Copy)]
struct Counts {
    alternatives: u128,
    entries: u128,
    plain: bool,
    guarded: bool,
}

const BOOL: Counts = Counts { alternatives: 1, entries: 1, plain: true, guarded: false };
const OTHER: Counts = Counts { alternatives: 1, entries: 1, plain: false, guarded: false };

/// One list of alternatives after another.
fn sum(a: Counts, b: Counts) -> Counts {
    Counts {
        alternatives: a.alternatives.saturating_add(b.alternatives),
        entries: a.entries.saturating_add(b.entries),
        plain: a.plain && b.plain,
        guarded: a.guarded || b.guarded,
    }
}

/// Every alternative of one with every one of the other.
fn product(a: Counts, b: Counts) -> Counts {
    let entries = a.entries.saturating_mul(b.alternatives).saturating_add(a.alternatives.saturating_mul(b.entries));
    Counts { alternatives: a.alternatives.saturating_mul(b.alternatives), entries, ..sum(a, b) }
}

/// From `lo` to `hi` copies.
fn copies(base: Counts, lo: u32, hi: u32) -> Counts {
    let mut total = Counts { alternatives: 0, entries: 0, ..base };
    let mut made = base;
    for k in 1..=hi {
        if k >= lo {
            total = sum(total, made);
        }
        made = product(made, base);
    }
    total
}

/// The walk from the root: its room, and the most entries that a visited node has had.
struct Walk<'a> {
    tree: &'a [u32],
    room: u128,
    most_entries: u128,
}

impl Walk<'_> {
    /// 10 and 11.
    fn limited(&mut self, n: usize, alternatives: u128, counts: Counts) -> Result<Counts, Refusal> {
        if alternatives > ALTERNATIVES.into() {
            return refused(10, n);
        }
        self.most_entries = self.most_entries.max(counts.entries);
        if counts.entries > self.room {
            return refused(11, n);
        }
        Ok(counts)
    }

    /// A node below the root, or a root that is no within.
    fn visit(&mut self, n: usize, depth: u32) -> Result<Counts, Refusal> {
        let words = node(self.tree, n);
        let [kind, p, _, min, max] = words;
        if depth > 256 {
            return refused(4, n);
        }
        if kind == 7 {
            return refused(8, n);
        }
        let unlimited = kind == 3 && max == UNLIMITED;
        if unlimited || kind == 4 || kind == 5 {
            if min > 256 {
                return refused(5, n);
            }
            if node(self.tree, p as usize)[0] != 1 {
                return refused(6, n);
            }
            let counts = if unlimited && min == 0 { sum(OTHER, OTHER) } else { OTHER };
            return self.limited(n, counts.alternatives, counts);
        }
        if kind == 3 && max == 0 {
            return self.limited(n, 1, OTHER);
        }
        let mut below = Vec::new();
        for operand in operands(words) {
            below.push(self.visit(operand as usize, depth + 1)?);
        }
        self.joined(n, words, &below)
    }

    /// A node whose operands have been counted: 5 and 7, then 10 and 11.
    fn joined(&mut self, n: usize, words: [u32; 5], below: &[Counts]) -> Result<Counts, Refusal> {
        let [kind, _, _, min, max] = words;
        let counts = match kind {
            1 => BOOL,
            2 if max == UNLIMITED => Counts { plain: false, ..product(below[0], below[1]) },
            2 => {
                let hops = u128::from(max - min) + 1;
                let one = product(below[0], below[1]);
                let (alternatives, entries) = (one.alternatives.saturating_mul(hops), one.entries.saturating_mul(hops));
                Counts { alternatives, entries, ..one }
            }
            3 if max > 256 => return refused(5, n),
            3 if min == 0 => sum(OTHER, copies(below[0], 1, max)),
            3 => copies(below[0], min, max),
            _ if !below[0].plain => return refused(7, n),
            _ => Counts { entries: below[0].entries + below[0].alternatives, guarded: true, ..below[0] },
        };
        self.limited(n, counts.alternatives, counts)
    }

    /// The root: its counts, or those of a root within's two operands, which have depth 1 as it has.
    fn root(&mut self) -> Result<[Counts; 2], Refusal> {
        let n = self.tree.len() / 5 - 1;
        let [kind, p, q, ..] = node(self.tree, n);
        if kind != 7 {
            return Ok([self.visit(n, 1)?; 2]);
        }
        let one = self.visit(p as usize, 1)?;
        let two = self.visit(q as usize, 1)?;
        if [one, two].iter().any(|c| c.guarded || !c.plain) {
            return refused(9, n);
        }
        self.limited(n, one.alternatives * two.alternatives, sum(one, two))?;
        Ok([one, two])
    }
}

/// 12: an Empty that leads, or next to a hop that is not fixed and at least 1.
fn misplaced(terms: &[(SeqTerm, SeqHop)]) -> bool {
    let joins = |(_, hop): &(SeqTerm, SeqHop)| matches!(hop, SeqHop::Fixed(d) if *d >= 1);
    terms
        .iter()
        .enumerate()
        .any(|(i, term)| matches!(term.0, SeqTerm::Empty) && (i == 0 || !joins(term) || terms.get(i + 1).is_some_and(|t| !joins(t))))
}

/// The original's alternatives of a sequence that the walk accepts; they have to be as many, with as many entries, as the walk counted.
fn expanded(sequence: &Sequence, counts: Counts) -> Vec<SeqAlt> {
    let alternatives = original::alternatives(sequence).expect("the original expands what the walk accepts");
    let guards = alternatives.iter().filter_map(|(_, guard)| guard.as_ref());
    let entries = alternatives.iter().map(|(terms, _)| terms.len()).sum::<usize>() + guards.map(guard_atoms).sum::<usize>();
    assert_eq!((alternatives.len() as u128, entries as u128), (counts.alternatives, counts.entries), "alternatives and entries");
    alternatives
}

/// 12, of a root that is no within; else the sizes, whichever root it is.
fn sized(sequence: &Sequence, counts: [Counts; 2]) -> Result<Sizes, Refusal> {
    if let Sequence::Within { seq1, seq2 } = sequence {
        return Ok(sizes::within(&expanded(seq1, counts[0]), &expanded(seq2, counts[1])));
    }
    let alternatives = expanded(sequence, counts[0]);
    match alternatives.iter().position(|(terms, _)| misplaced(terms)) {
        Some(i) => refused(12, i),
        None => Ok(sizes::choice(&alternatives)),
    }
}

/// What the specification answers of a tree: sizes, or the refusal; and the most entries of a node that the walk came to.
pub struct Decided {
    pub answer: Result<Sizes, Refusal>,
    pub most_entries: u128,
}

/// Past the table's checks: the walk, 12, 13, 14.
fn lowered(walk: &mut Walk, out: usize) -> Result<Sizes, Refusal> {
    let counts = walk.root()?;
    let sizes = sized(&original::sequence(walk.tree), counts)?;
    if sizes.registers > REGISTERS {
        return refused(13, 0);
    }
    if sizes.words > out as u64 {
        return refused(14, 0);
    }
    Ok(sizes)
}

/// The answer for a tree, given how many words of work and of output are lent.
pub fn decided(tree: &[u32], work: usize, out: usize) -> Decided {
    let room = (work as u64 / 16).min(ENTRIES);
    let mut walk = Walk { tree, room: room.into(), most_entries: 0 };
    let answer = table(tree).and_then(|()| lowered(&mut walk, out));
    Decided { answer, most_entries: walk.most_entries }
}

/// A bound on the terms that the original has at a time while it expands a formed table, refusals or not.
pub fn expansion_bound(tree: &[u32]) -> u64 {
    let mut bounds: Vec<(u64, u64)> = Vec::new();
    for n in 0..tree.len() / 5 {
        let [kind, p, q, min, max] = node(tree, n);
        let bound = match kind {
            2 => {
                let ((la, ll), (ra, rl)) = (bounds[p as usize], bounds[q as usize]);
                let hops = if max == UNLIMITED { 1 } else { u64::from(max.saturating_sub(min)) + 1 };
                (hops.saturating_mul(la.saturating_mul(ra)), ll.saturating_add(rl))
            }
            3 if max != UNLIMITED && max <= 256 => {
                let (base, longest) = bounds[p as usize];
                let all = (1..=max.max(min)).map(|k| base.saturating_pow(k)).fold(1, u64::saturating_add);
                (all.min(base.saturating_add(1).saturating_mul(256)), longest.saturating_mul(max.max(min).into()))
            }
            6 => bounds[q as usize],
            7 => {
                let ((la, ll), (ra, rl)) = (bounds[p as usize], bounds[q as usize]);
                (la.saturating_add(ra), ll.max(rl))
            }
            3 if max == UNLIMITED && min == 0 => (2, 1),
            _ => (1, 1),
        };
        bounds.push(bound);
    }
    bounds.iter().map(|(alternatives, longest)| alternatives.saturating_mul(*longest)).max().unwrap_or(0)
}
