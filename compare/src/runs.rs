//! What a match is, decided anew: the specification's sentences over sets of runs. A run is a pair of ticks, the first of it and the one after
//! its last; an empty run begins where it ends.
//!
//! Example: `a ##2 b` with a at tick 0 and b at tick 2 has the run (0, 3).
use crate::original::UNLIMITED;
use crate::rules::{self, Refusal};
use std::collections::BTreeSet;

/// The limits of the matcher: nodes and ticks.
pub const NODES: usize = 64;
pub const TICKS: usize = 256;

type Runs = BTreeSet<(usize, usize)>;

/// Rows of atom bytes.
struct Recording<'a> {
    rows: &'a [u8],
    width: usize,
}

impl Recording<'_> {
    fn ticks(&self) -> usize {
        self.rows.len() / self.width
    }

    fn holds(&self, tick: usize, atom: u32) -> bool {
        self.rows[tick * self.width + atom as usize] == 1
    }

    /// The runs of node n.
    fn runs(&self, tree: &[u32], n: u32) -> Runs {
        let [kind, p, q, min, max] = rules::node(tree, n as usize);
        match kind {
            1 => (0..self.ticks()).filter(|t| self.holds(*t, p)).map(|t| (t, t + 1)).collect(),
            2 => delayed(&self.runs(tree, p), &self.runs(tree, q), min, max),
            3 => self.repeated(&self.runs(tree, p), min, max),
            4 => self.counted(tree[5 * p as usize + 1], min, false),
            5 => self.counted(tree[5 * p as usize + 1], min, true),
            6 => self.runs(tree, q).into_iter().filter(|(i, j)| (*i..*j).all(|t| self.holds(t, p))).collect(),
            _ => inside(&self.runs(tree, p), &self.runs(tree, q)),
        }
    }

    /// "Repetition joins by ##1": no copy is an empty run, anywhere. Once a copy more gives the same runs, so does every later one.
    fn repeated(&self, operand: &Runs, min: u32, max: u32) -> Runs {
        let mut copies: Runs = (0..=self.ticks()).map(|t| (t, t)).collect();
        let mut all = Runs::new();
        for count in 0..=max {
            if count >= min {
                all.extend(&copies);
            }
            let more = delayed(&copies, operand, 1, 1);
            if more == copies {
                all.extend(&copies);
                break;
            }
            copies = more;
        }
        all
    }

    /// "b[->n] ends at the n-th b; b[=n] may go on while b is 0."
    fn counted(&self, atom: u32, n: u32, goes_on: bool) -> Runs {
        let mut runs = Runs::new();
        for i in 0..self.ticks() {
            let mut later = (i..self.ticks()).filter(|t| self.holds(*t, atom)).skip(n as usize - 1);
            let Some(nth) = later.next() else { continue };
            let last = if goes_on { later.next().unwrap_or(self.ticks()) } else { nth + 1 };
            runs.extend((nth + 1..=last).map(|j| (i, j)));
        }
        runs
    }
}

/// "##d with d >= 1 sets d - 1 free ticks between two runs; ##0 overlaps exactly one tick, both non-empty."
fn delayed(left: &Runs, right: &Runs, min: u32, max: u32) -> Runs {
    let allowed = |d: usize| min as usize <= d && (max == UNLIMITED || d <= max as usize);
    let mut runs = Runs::new();
    for &(i, k) in left {
        for &(s, j) in right {
            let free = s >= k && allowed(s - k + 1);
            let overlaps = allowed(0) && i < k && s < j && s + 1 == k;
            if free || overlaps {
                runs.insert((i, j));
            }
        }
    }
    runs
}

/// "Within: seq1's run lies inside seq2's, an empty one inside any."
fn inside(one: &Runs, two: &Runs) -> Runs {
    two.iter().copied().filter(|(i, j)| one.iter().any(|(k, l)| i <= k && l <= j)).collect()
}

/// At which ticks a match ends that has a tick: a byte each.
pub fn answers(tree: &[u32], rows: &[u8], width: usize) -> Vec<u8> {
    let recording = Recording { rows, width };
    let runs = recording.runs(tree, (tree.len() / 5 - 1) as u32);
    (0..recording.ticks()).map(|t| u8::from(runs.iter().any(|(i, j)| i < j && *j == t + 1))).collect()
}

/// What is refused, in the order of SPECIFICATION, "Refusals".
pub fn judged(tree: &[u32], rows: &[u8], width: usize, answers: usize, work: usize) -> Result<usize, Refusal> {
    let refused = |number, place| Err(Refusal { number, place });
    let nodes = tree.len() / 5;
    if nodes > NODES {
        return refused(1, 0);
    }
    rules::table(tree)?;
    let kind = |n: u32| tree[5 * n as usize];
    let over_another = |n: &usize| matches!(tree[5 * n], 4 | 5) && kind(tree[5 * n + 1]) != 1;
    if let Some(n) = (0..nodes).find(over_another) {
        return refused(6, n);
    }
    if width == 0 || !rows.len().is_multiple_of(width) || rows.len() / width > TICKS || rows.iter().any(|byte| *byte > 1) {
        return refused(17, 0);
    }
    if (0..nodes).any(|n| matches!(tree[5 * n], 1 | 6) && tree[5 * n + 1] as usize >= width) {
        return refused(17, 0);
    }
    let ticks = rows.len() / width;
    if answers < ticks || work < nodes * (ticks + 1) * (ticks + 1) {
        return refused(18, 0);
    }
    Ok(ticks)
}
