//! What the matcher is asked: trees of all seven kinds standing anywhere, and random rows.
use crate::original::UNLIMITED;
use crate::trees::{atom, consecutive, delay, goto, nonconsecutive, throughout, within, Random};

/// The atoms that trees and rows have.
pub const ATOMS: usize = 4;

/// Counts and delays that are far past any recording.
const LARGE: [u32; 4] = [300, 65_536, UNLIMITED - 2, UNLIMITED - 1];

impl Random {
    /// A random tree of at most so many nodes, each kind as likely as any other, with any range.
    pub fn any_tree(&mut self, nodes: usize) -> Vec<u32> {
        if nodes == 1 || self.percent(5) {
            return atom(self.below(ATOMS) as u32);
        }
        match self.below(if nodes < 3 { 6 } else { 10 }) {
            0..=2 => {
                let (min, max) = self.range();
                consecutive(&self.any_tree(nodes - 1), min, max)
            }
            3 => goto(&atom(self.below(ATOMS) as u32), self.count()),
            4 => nonconsecutive(&atom(self.below(ATOMS) as u32), self.count()),
            5 => throughout(self.below(ATOMS) as u32, &self.any_tree(nodes - 1)),
            6 => {
                let left = 1 + self.below(nodes - 2);
                within(&self.any_tree(left), &self.any_tree(nodes - 1 - left))
            }
            _ => {
                let left = 1 + self.below(nodes - 2);
                let (min, max) = self.range();
                delay(&self.any_tree(left), &self.any_tree(nodes - 1 - left), min, max)
            }
        }
    }

    /// A count of at least 1.
    fn count(&mut self) -> u32 {
        if self.percent(4) {
            return LARGE[self.below(LARGE.len())];
        }
        1 + self.below(3) as u32
    }

    /// A range, often with 0 in it, sometimes without an end or far past any recording.
    fn range(&mut self) -> (u32, u32) {
        let min = if self.percent(4) { self.count() } else { self.below(3) as u32 };
        let max = match self.below(10) {
            0..=3 => min,
            4..=6 => min.saturating_add(self.below(3) as u32).min(UNLIMITED - 1),
            7 => min.max(LARGE[self.below(LARGE.len())]),
            _ => UNLIMITED,
        };
        (min, max)
    }

    /// Rows of so many ticks and atoms, of bits that are 1 so many times in a hundred.
    pub fn rows(&mut self, ticks: usize, width: usize, percent: usize) -> Vec<u8> {
        (0..ticks * width).map(|_| u8::from(self.percent(percent))).collect()
    }
}
