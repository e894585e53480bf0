//! Trees to compare by: all small ones, random ones of up to forty nodes, and every limit of the specification from both sides.
//!
//! Operands stand before their node. Example: `delay(&atom(0), &atom(1), 1, 1)` has the fifteen words of `a ##1 b`.
use crate::original::UNLIMITED;

/// A small generator of random numbers, the same for the same seed.
pub struct Random(pub u64);

impl Random {
    /// A number below `end`.
    pub fn below(&mut self, end: usize) -> usize {
        self.0 ^= self.0 << 13;
        self.0 ^= self.0 >> 7;
        self.0 ^= self.0 << 17;
        ((self.0.wrapping_mul(0x2545_f491_4f6c_dd1d) >> 33) as usize) % end
    }

    /// Yes, so many times in a hundred.
    pub fn percent(&mut self, chance: usize) -> bool {
        self.below(100) < chance
    }
}

/// One atom.
pub fn atom(number: u32) -> Vec<u32> {
    vec![1, number, 0, 0, 0]
}

/// The number of a tree's root.
fn root(tree: &[u32]) -> u32 {
    (tree.len() / 5 - 1) as u32
}

/// A node over one operand.
fn over(operand: &[u32], node: [u32; 5]) -> Vec<u32> {
    [operand, &node].concat()
}

/// A node over two operands; the right one's numbers move up.
fn joined(kind: u32, left: &[u32], right: &[u32], min: u32, max: u32) -> Vec<u32> {
    let mut tree = left.to_vec();
    let shift = root(left) + 1;
    for node in right.chunks_exact(5) {
        let up = |word: u32, moves: bool| if moves { word + shift } else { word };
        tree.extend([node[0], up(node[1], !matches!(node[0], 1 | 6)), up(node[2], matches!(node[0], 2 | 6 | 7)), node[3], node[4]]);
    }
    let node = [kind, root(left), shift + root(right), min, max];
    tree.extend(node);
    tree
}

pub fn delay(left: &[u32], right: &[u32], min: u32, max: u32) -> Vec<u32> {
    joined(2, left, right, min, max)
}

pub fn consecutive(operand: &[u32], min: u32, max: u32) -> Vec<u32> {
    over(operand, [3, root(operand), 0, min, max])
}

pub fn goto(operand: &[u32], count: u32) -> Vec<u32> {
    over(operand, [4, root(operand), 0, count, count])
}

pub fn nonconsecutive(operand: &[u32], count: u32) -> Vec<u32> {
    over(operand, [5, root(operand), 0, count, count])
}

pub fn throughout(condition: u32, operand: &[u32]) -> Vec<u32> {
    over(operand, [6, condition, root(operand), 0, 0])
}

pub fn within(one: &[u32], two: &[u32]) -> Vec<u32> {
    joined(7, one, two, 0, 0)
}

/// The ranges of small trees' hops and repetitions.
const HOPS: [(u32, u32); 8] = [(0, 0), (1, 1), (2, 2), (0, 1), (1, 2), (0, UNLIMITED), (1, UNLIMITED), (2, UNLIMITED)];
const REPETITIONS: [(u32, u32); 9] = [(0, 0), (1, 1), (2, 2), (0, 1), (1, 2), (0, 2), (0, UNLIMITED), (1, UNLIMITED), (2, UNLIMITED)];

/// Every node over one tree: repetitions with small counts, throughouts by two atoms.
fn each_over(operand: &[u32], see: &mut dyn FnMut(Vec<u32>)) {
    for (min, max) in REPETITIONS {
        see(consecutive(operand, min, max));
    }
    for count in [1, 2] {
        see(goto(operand, count));
        see(nonconsecutive(operand, count));
        see(throughout(count, operand));
    }
}

/// Every tree of that many nodes over two atoms, with small hops and counts.
pub fn each_small(nodes: usize, see: &mut dyn FnMut(Vec<u32>)) {
    if nodes == 1 {
        see(atom(0));
        see(atom(1));
        return;
    }
    each_small(nodes - 1, &mut |operand| each_over(&operand, see));
    for left in 1..nodes - 1 {
        each_small(left, &mut |one| {
            each_small(nodes - 1 - left, &mut |two| {
                for (min, max) in HOPS {
                    see(delay(&one, &two, min, max));
                }
                see(within(&one, &two));
            });
        });
    }
}

/// What is wished of a random tree, so that it is most likely accepted: at most so many nodes and alternatives; `plain` for Bool terms and
/// fixed hops without a guard; `leads` where an Empty would have nothing before it.
#[derive(Clone, Copy)]
struct Wish {
    nodes: usize,
    alternatives: usize,
    plain: bool,
    leads: bool,
}

/// A random tree, and what its neighbours have to know.
struct Grown {
    tree: Vec<u32>,
    alternatives: usize,
    empty: bool,
}

impl Random {
    /// A random tree of at most so many nodes, most likely one that is accepted; half of them with their nodes renumbered.
    pub fn tree(&mut self, nodes: usize) -> Vec<u32> {
        let alternatives = if self.percent(12) { 1000 } else { 256 >> self.below(9) };
        let wish = Wish { nodes, alternatives, plain: false, leads: !self.percent(8) };
        let tree = if nodes >= 3 && self.percent(15) { self.grown_within(wish) } else { self.grown(wish).tree };
        if self.percent(50) {
            return self.renumbered(&tree);
        }
        tree
    }

    /// A root within.
    fn grown_within(&mut self, wish: Wish) -> Vec<u32> {
        let left = 1 + self.below(wish.nodes - 2);
        let plain = !self.percent(15);
        let one = self.grown(Wish { nodes: left, alternatives: wish.alternatives.isqrt(), plain, ..wish });
        let rest = wish.alternatives / one.alternatives;
        let two = self.grown(Wish { nodes: wish.nodes - 1 - left, alternatives: rest.max(1), plain, ..wish });
        within(&one.tree, &two.tree)
    }

    /// A tree below the root, or a root that is no within.
    fn grown(&mut self, wish: Wish) -> Grown {
        if wish.nodes == 1 || self.percent(4) {
            let number = if self.percent(2) { 65_535 } else { self.below(5) as u32 };
            return Grown { tree: atom(number), alternatives: 1, empty: false };
        }
        match self.below(100) {
            0..=59 if wish.nodes >= 3 => self.grown_delay(wish),
            60..=77 if !wish.plain => self.grown_machine(wish),
            78..=85 if !wish.plain => self.grown_throughout(wish),
            86 if !wish.plain && wish.nodes >= 3 && self.percent(20) => {
                Grown { tree: self.grown_within(wish), alternatives: 1, empty: false }
            }
            _ => self.grown_repetition(wish),
        }
    }

    fn grown_delay(&mut self, wish: Wish) -> Grown {
        let nodes = 1 + self.below(wish.nodes - 2);
        let left = self.grown(Wish { nodes, ..wish });
        let alternatives = (wish.alternatives / left.alternatives).max(1);
        let right = self.grown(Wish { nodes: wish.nodes - 1 - nodes, alternatives, leads: false, ..wish });
        let joins = left.alternatives * right.alternatives;
        let beside_empty = (left.empty || right.empty) && !self.percent(10);
        let min = u32::from(beside_empty) + if self.percent(2) { self.below(300) } else { self.below(4) } as u32;
        let at_least = !wish.plain && !beside_empty && self.percent(20);
        let most = (wish.alternatives / joins).clamp(1, 4);
        let hops = if at_least { 1 } else { 1 + self.below(most) };
        let max = if at_least { UNLIMITED } else { min + hops as u32 - 1 };
        Grown { tree: delay(&left.tree, &right.tree, min, max), alternatives: joins * hops, empty: left.empty || right.empty }
    }

    fn grown_repetition(&mut self, wish: Wish) -> Grown {
        let alternatives = if self.percent(50) { wish.alternatives } else { wish.alternatives.isqrt() };
        let operand = self.grown(Wish { nodes: wish.nodes - 1, alternatives, ..wish });
        let copies = |min: u32, max: u32| (min.max(1)..=max).map(|k| operand.alternatives.pow(k)).sum::<usize>();
        let few = (2..=4).rev().find(|most| copies(1, *most) < wish.alternatives).unwrap_or(1);
        let most = if operand.alternatives == 1 && self.percent(3) { 30 } else { few };
        let max = 1 + self.below(most as usize) as u32;
        let empty = !wish.plain && !wish.leads && copies(1, max) < wish.alternatives && self.percent(30);
        let min = if empty { 0 } else { 1 + self.below(max as usize) as u32 };
        let max = if empty && self.percent(20) { 0 } else { max };
        let alternatives = copies(min, max) + usize::from(empty);
        Grown { tree: consecutive(&operand.tree, min, max), alternatives, empty: empty || operand.empty }
    }

    fn grown_machine(&mut self, wish: Wish) -> Grown {
        let inner = Wish { nodes: wish.nodes - 1, ..wish };
        let operand = if self.percent(4) { self.grown(inner).tree } else { atom(self.below(5) as u32) };
        let count = if self.percent(3) { 1 + self.below(40) } else { 1 + self.below(4) } as u32;
        let empty = !wish.leads && wish.alternatives >= 2 && self.percent(30);
        let (tree, empty) = match self.below(3) {
            0 => (goto(&operand, count), false),
            1 => (nonconsecutive(&operand, count), false),
            _ => (consecutive(&operand, if empty { 0 } else { count }, UNLIMITED), empty),
        };
        Grown { tree, alternatives: 1 + usize::from(empty), empty }
    }

    /// A throughout, mostly over what it can be over: guards below it are its own kind.
    fn grown_throughout(&mut self, wish: Wish) -> Grown {
        let plain = !self.percent(15);
        let operand = self.grown(Wish { nodes: wish.nodes - 1, plain, ..wish });
        let inner = throughout(self.below(5) as u32, &operand.tree);
        if self.percent(20) {
            return Grown { tree: throughout(self.below(5) as u32, &inner), ..operand };
        }
        Grown { tree: inner, ..operand }
    }

    /// The same tree with its nodes in another order, operands still first.
    fn renumbered(&mut self, tree: &[u32]) -> Vec<u32> {
        let nodes = tree.len() / 5;
        let mut number = vec![None; nodes];
        let mut words = Vec::new();
        for next in 0..nodes as u32 {
            let from = self.below(nodes);
            let ready = |n: &usize| number[*n].is_none() && operand_words(tree, *n).all(|w| number[tree[w] as usize].is_some());
            let n = (from..nodes).chain(0..from).find(ready).expect("operands before their node");
            let mut node = tree[5 * n..5 * n + 5].to_vec();
            for word in operand_words(tree, n) {
                node[word - 5 * n] = number[tree[word] as usize].expect("a number");
            }
            words.extend(node);
            number[n] = Some(next);
        }
        words
    }

    /// A random tree with one or two of its words, or its length, changed: mostly no tree any more.
    pub fn damaged(&mut self, nodes: usize) -> Vec<u32> {
        const WORDS: [u32; 14] = [0, 1, 2, 3, 4, 5, 6, 7, 8, 256, 65_535, 65_536, UNLIMITED - 1, UNLIMITED];
        let mut tree = self.tree(nodes);
        for _ in 0..=self.below(2) {
            let at = self.below(tree.len());
            tree[at] = if self.percent(50) { WORDS[self.below(WORDS.len())] } else { self.below(nodes + 2) as u32 };
        }
        if self.percent(3) {
            tree.truncate(self.below(tree.len()));
        }
        tree
    }
}

/// The places of a node's operand words.
fn operand_words(tree: &[u32], n: usize) -> impl Iterator<Item = usize> {
    let words: &[usize] = match tree[5 * n] {
        2 | 7 => &[1, 2],
        3..=5 => &[1],
        6 => &[2],
        _ => &[],
    };
    words.iter().map(move |word| 5 * n + word)
}

/// The sequence that a tree is, as the standard writes it; atoms are a to e, and from a5 on as a listing names them.
/// Example: the fifteen words above are `a ##1 b`.
pub fn sequence(tree: &[u32]) -> String {
    node_text(tree, root(tree) as usize)
}

/// The sequence of a node.
fn node_text(tree: &[u32], n: usize) -> String {
    let [kind, p, q, min, max] = tree[5 * n..5 * n + 5] else { unreachable!("five words") };
    match kind {
        1 => atom_text(p),
        2 => format!("{} ##{} {}", operand_text(tree, p, false), range_text(min, max, true), operand_text(tree, q, false)),
        3 => format!("{}[*{}]", operand_text(tree, p, true), range_text(min, max, false)),
        4 => format!("{}[->{min}]", operand_text(tree, p, true)),
        5 => format!("{}[={min}]", operand_text(tree, p, true)),
        6 => format!("{} throughout {}", atom_text(p), operand_text(tree, q, false)),
        _ => format!("{} within {}", operand_text(tree, p, false), operand_text(tree, q, false)),
    }
}

/// The sequence of an operand, in brackets unless it is an atom or, where it is not `repeated` itself, a repetition.
fn operand_text(tree: &[u32], n: u32, repeated: bool) -> String {
    let text = node_text(tree, n as usize);
    match tree[5 * n as usize] {
        1 => text,
        3..=5 if !repeated => text,
        _ => format!("({text})"),
    }
}

fn atom_text(number: u32) -> String {
    match number {
        0..=4 => ["a", "b", "c", "d", "e"][number as usize].to_string(),
        _ => format!("a{number}"),
    }
}

/// One number or a range, which stands in brackets behind a `##`.
fn range_text(min: u32, max: u32, bracketed: bool) -> String {
    let most = if max == UNLIMITED { "$".to_string() } else { max.to_string() };
    match (min == max, bracketed) {
        (true, _) => most,
        (false, true) => format!("[{min}:{most}]"),
        (false, false) => format!("{min}:{most}"),
    }
}

/// Several trees joined by delays as evenly as can be, so that the whole is not deep.
pub fn balanced(trees: &[Vec<u32>], min: u32, max: u32) -> Vec<u32> {
    match trees {
        [tree] => tree.clone(),
        _ => {
            let (left, right) = trees.split_at(trees.len() / 2);
            delay(&balanced(left, min, max), &balanced(right, min, max), min, max)
        }
    }
}

/// A tree with so many nodes above it, each made from the one below.
pub fn tower(tree: Vec<u32>, floors: usize, floor: impl Fn(&[u32]) -> Vec<u32>) -> Vec<u32> {
    (0..floors).fold(tree, |tree, _| floor(&tree))
}
