//! Some three hundred trees for `crates/trees_replayed`, as the cases that it reads, each with what the original answered, as the text that it
//! prints.
//!
//! Where the original only diagnoses, number and place are the specification's (`rules`); so are refusals that the original does not know.
//! Example: `a ##1 b` is written as its name, `recorded 169: a ##1 b`, and `16384 16384  1 0 0 0 0  1 1 0 0 0  2 0 1 1 1` below it.
use crate::listing;
use crate::original::{self, Outcome, UNLIMITED};
use crate::rules::{self, REGISTERS};
use crate::trees::{self, atom, consecutive, delay, goto, nonconsecutive, throughout, tower, within, Random};

/// The words of work and of output of the listing program.
const ROOM: usize = 16_384;

/// What each recorded case's name begins with, and no other line of the two files.
pub const MARK: &str = "recorded ";

/// A tree, and the sequence that it is, or what is wrong with it.
pub struct Case {
    sequence: String,
    tree: Vec<u32>,
}

/// The name of the case of this number, on a line.
fn name(number: usize, case: &Case) -> String {
    format!("{MARK}{number}: {}\n", case.sequence)
}

/// The two lines of the case of this number: its name; then the words of work and of output, and the tree's words.
pub fn asked(number: usize, case: &Case) -> String {
    let nodes: String = case.tree.chunks(5).map(|node| format!("  {}", numbers(node))).collect();
    format!("{}{ROOM} {ROOM}{nodes}\n", name(number, case))
}

/// What is printed of the case of this number: its name, and the text of the original's answer.
pub fn answered(number: usize, case: &Case) -> String {
    name(number, case) + &answer(&case.tree)
}

/// Numbers with blanks between them.
fn numbers(words: &[u32]) -> String {
    words.iter().map(u32::to_string).collect::<Vec<_>>().join(" ")
}

/// The text of the original's answer.
fn answer(tree: &[u32]) -> String {
    let refusal = rules::decided(tree, ROOM, ROOM).answer.err();
    if refusal.is_some_and(|r| matches!(r.number, 1..=3 | 11)) {
        return refused(refusal);
    }
    match original::lower(&original::sequence(tree), REGISTERS as usize, true) {
        Outcome::Lowered(lowering) if refusal.is_none() => listing::text(&lowering.words()),
        Outcome::Lowered(_) => {
            assert_eq!(refusal.map(|r| r.number), Some(14), "a refusal of the specification alone");
            refused(refusal)
        }
        _ => refused(refusal),
    }
}

/// The text of a refusal.
fn refused(refusal: Option<rules::Refusal>) -> String {
    let refusal = refusal.expect("a refusal of what the original does not lower");
    format!("refused {} {}\n", refusal.number, refusal.place)
}

/// All cases of the record: small trees, random ones with short answers, then refusals at their limits.
pub fn cases() -> Vec<Case> {
    let mut trees = Vec::new();
    for nodes in 1..=3 {
        let mut number = 0;
        trees::each_small(nodes, &mut |tree| {
            number += 1;
            if answer(&tree).starts_with("ok") || number % 8 == 0 {
                trees.push(tree);
            }
        });
    }
    let mut random = Random(2026);
    while trees.len() < 280 {
        let nodes = 4 + random.below(10);
        let tree = random.tree(nodes);
        if answer(&tree).len() < 600 {
            trees.push(tree);
        }
    }
    let mut cases: Vec<Case> = trees.into_iter().map(of_tree).collect();
    cases.extend(no_trees());
    cases.extend(refusals());
    cases
}

/// A case that is named by its sequence.
fn of_tree(tree: Vec<u32>) -> Case {
    Case { sequence: trees::sequence(&tree), tree }
}

/// A case with a name of its own.
fn named(sequence: &str, tree: Vec<u32>) -> Case {
    Case { sequence: sequence.to_string(), tree }
}

/// Words that are no tree.
fn no_trees() -> Vec<Case> {
    vec![
        named("no word", vec![]),
        named("four words", vec![1, 0, 0, 0]),
        of_tree(atom(65_536)),
        named("b, a beside it", [atom(0), atom(1)].concat()),
    ]
}

/// Each later refusal, most of them from both sides of their limit.
fn refusals() -> Vec<Case> {
    let (a, b) = (atom(0), atom(1));
    let hops = |width: u32| delay(&a, &b, 0, width - 1);
    let guarded = |floors: usize| tower(a.clone(), floors, |tree| throughout(1, tree));
    let mut cases =
        vec![of_tree(delay(&a, &b, 3, 2)), named("255 throughouts over a", guarded(255)), named("256 throughouts over a", guarded(256))];
    let trees = [
        consecutive(&a, 12, 12),
        consecutive(&a, 257, 257),
        goto(&b, 257),
        nonconsecutive(&b, 7),
        consecutive(&a, 257, UNLIMITED),
        goto(&delay(&a, &b, 1, 1), 1),
        throughout(2, &delay(&a, &b, 1, UNLIMITED)),
        delay(&within(&a, &b), &a, 1, 1),
        within(&throughout(2, &a), &b),
        hops(4),
        hops(257),
        consecutive(&hops(17), 2, 2),
        within(&hops(17), &hops(16)),
        throughout(2, &consecutive(&consecutive(&a, 256, 256), 4, 4)),
        consecutive(&consecutive(&a, 256, 256), 5, 5),
        delay(&consecutive(&a, 0, 1), &b, 1, 1),
        delay(&a, &b, 65_536, 65_536),
        delay(&a, &b, 65_537, 65_537),
    ];
    cases.extend(trees.map(of_tree));
    cases
}
